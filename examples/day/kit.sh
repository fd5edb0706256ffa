#!/bin/sh
# Whether the kit that is installed is the one that this repository was proved with (the file KIT at the top).
# Another one is told, with what to do; a kit that can't be found is an error.
set -eu
wanted=$(cat "$(dirname "$0")/../../KIT")
found=$(rt version 2>/dev/null | cut -d ' ' -f 1) || found=
[ -n "$found" ] || { echo "no Rattle kit: install $wanted, so that \`rt version\` prints it" >&2; exit 2; }
[ "$found" = "$wanted" ] || echo "the kit here is $found; this repository was proved with $wanted, and another may refuse a proof" >&2
