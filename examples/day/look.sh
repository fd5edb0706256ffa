#!/bin/sh
# A first look: compiles the program without proving it, in a copy of the sources, and plays the day over a book in a
# file, which is removed with the copy. Everything below `main` is the program that `rt ci` proves and `run.sh` builds.
#
# Usage: examples/day/look.sh [--memory]     (--memory: over a book in memory, without SQLite, in about half the time)
set -eu
day=$(cd "$(dirname "$0")" && pwd)
root=$(cd "$day/../.." && pwd)
command -v rt >/dev/null || { echo "look.sh: no command rt: CONTRIBUTING.md says which kit to install" >&2; exit 2; }
"$root/examples/day/kit.sh" || exit 2
look=$(mktemp -d)
trap 'rm -rf "$look"' EXIT
trap 'exit 1' INT TERM
main=$look/crates/whx12/src/main.rt

# The sources without what earlier runs made of them.
copy() {
    cp "$root/HANDLES" "$root/crates.txt" "$look"
    for crate in "$root"/crates/*; do
        to=$look/crates/$(basename "$crate")
        mkdir -p "$to"
        for part in src specs proofs; do
            [ ! -d "$crate/$part" ] || cp -R "$crate/$part" "$to"
        done
    done
}

# A program that runs each line of the day, as `whx12 LINE --book harbor.book` does.
over_a_file() {
    echo '//! The lines of the day, one after another, over a book in a file.'
    echo 'use app::command;'
    echo 'use std::process::ExitCode;'
    echo 'fn main(rt: HostRuntime) -> ExitCode {'
    echo '    let (mut out, mut err) = (rt.stdout(), rt.stderr());'
    while read -r line || [ -n "$line" ]; do
        [ -n "$line" ] || continue
        printf '    let status = command(&rt, &["%s", "--book", "harbor.book"], &mut out, &mut err);\n' \
            "$(echo "$line" | sed 's/  */", "/g')"
        echo '    if status != 0 { return ExitCode::from(status); }'
    done <"$day/day.txt"
    echo '    ExitCode::SUCCESS'
    echo '}'
}

# A program that plays the day as a script, over a book in memory: all that decides and writes, and not the database.
in_memory() {
    cat <<'MAIN'
//! The commands in `day.txt`, one after another, over a book in memory.
use commands::{Verbosity, run_script, tell_stop};
use std::process::ExitCode;

fn main(rt: HostRuntime) -> ExitCode {
    let quiet = Verbosity {
        explains: false,
        watches: false,
    };
    let (mut out, mut err) = (rt.stdout(), rt.stderr());
    let status = match run_script(&rt, "day.txt", quiet, &mut out, &mut err) {
        Ok(status) => status,
        Err(stop) => tell_stop(&mut err, &stop, false),
    };
    ExitCode::from(status.code())
}
MAIN
}

copy
if [ "${1:-}" = --memory ]; then
    sed 's/^whx12: .*/whx12: commands/' "$root/crates.txt" >"$look/crates.txt"
    in_memory >"$main"
else
    over_a_file >"$main"
fi
set --
for file in "$day"/*.txt "$day"/*.toml "$day"/*.x12 "$day"/*.csv; do
    set -- "$@" --data "$(basename "$file")=$file"
done
echo "compiling, unproved; nothing is printed for some minutes .." >&2
cd "$look/crates/whx12"
rt try --seconds 600 "$@"
