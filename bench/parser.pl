# Reads an interchange with X12::Parser, every segment of every loop: parser.pl FILE TABLE
use strict;
use warnings;
use X12::Parser;

my ($file, $table) = @ARGV;
my $parser = X12::Parser->new;
$parser->parsefile(file => $file, conf => $table);
my ($loops, $segments) = (0, 0);
while (defined(my $loop = $parser->get_next_loop)) {
    $loops++;
    $segments += scalar($parser->get_loop_segments);
}
print "$loops loops, $segments segments\n";
