#!/bin/sh
# A day of the warehouse ZZ-HARBOR: each line of day.txt is a command of its own over the book in a file, which it opens
# and closes.
#
# Usage: examples/day/run.sh [BOOK]       (default: a new file in a new folder, whose name is told at the end)
#        examples/day/run.sh --crates     prints how many crates the program stands on, itself among them
#
# The program is proved and built first where it isn't there yet, which takes an hour or two, by the machine. Which crate
# is being proved, and how many are proved by then, is told on standard error.
set -eu
cd "$(dirname "$0")"
crates=../../crates
program=$crates/whx12/out/whx12

# The names of the crates that the program stands on, by crates.txt.
stood_on() {
    awk -F: '!/^#/ && NF > 1 { below[$1] = $2 }
        END {
            left = "whx12"
            while (split(left, names, " ") > 0) {
                left = ""
                for (at in names) if (names[at] in below && !(names[at] in seen)) {
                    seen[names[at]]; print names[at]; left = left " " below[names[at]]
                }
            }
        }' ../../crates.txt
}

# The crate that is being proved, and how many are. A library that is proved has a stamp, and one that is begun a folder
# for it.
progress() {
    proved=0
    now=whx12
    for crate in $names; do
        if [ -e "$crates/$crate/out/rlib/stamp" ]; then
            proved=$((proved + 1))
        elif [ -d "$crates/$crate/out/rlib" ]; then
            now=$crate
        fi
    done
    echo "proving $now; $proved of $all crates are proved"
}

build() {
    log=$(mktemp)
    (cd "$crates/whx12" && exec rt run -- script data/readme.script) >"$log" 2>&1 &
    run=$!
    trap 'kill "$run"; exit 1' INT TERM
    told=
    while kill -0 "$run" 2>/dev/null; do
        now=$(progress)
        [ "$now" = "$told" ] || echo "$now" >&2
        told=$now
        sleep 2
    done
    trap - INT TERM
    wait "$run" || { cat "$log" >&2; exit 1; }
    rm "$log"
}

names=$(stood_on)
all=$(echo "$names" | wc -l)
if [ "${1:-}" = --crates ]; then
    echo "$all"
    exit
fi
if [ ! -x "$program" ]; then
    ./kit.sh
    build
fi
book=${1:-$(mktemp -d)/harbor.book}
while read -r line; do
    # The words of a line are told apart by spaces, as in a script.
    [ -z "$line" ] || "$program" $line --book "$book"
done <day.txt
echo "the book: $book" >&2
