#!/bin/sh
# A nightly backup: stops the server, copies the book with its log, starts the server again, and then checks the copy whole.
#
# Usage: backup.sh BOOK FOLDER [SERVICE [KEEP]]     as: backup.sh /var/lib/whx12/harbor.book /var/backups/whx12 whx12 30
#
# The copy stands in FOLDER/DATE/, with its log, and keeps its name; DATE is as 2026-11-30T023000, in UTC. The exit status is 0 only where
# `verify` said ok of it: until then the folder is FOLDER/DATE.unverified. Without a SERVICE, or with '' for it, nothing is stopped: then no command
# may run and no server may have the book open. Where there is a SERVICE no command may run either: let `whx12 take` run at another time.
#
# After a copy was verified, the oldest folders are removed until KEEP (default 30) are left. It never removes or counts a folder whose name has
# another form, a DATE.unverified among them: look at why that isn't verified, and remove it yourself. (An older script named each copy DATE, verified
# or not.) It never removes the copy that it has just made, whatever the clock says, and writes over none.
#
# Beside the copy its seal is written, as the file `seal`, and printed. The first entries of a copy must be those of the last one that has such a
# file: where it lacks one, or has another, as where an older book was put in place, the exit status is 3, and the copy stays as DATE.unverified.
#
# Where it is stopped by a signal, or something fails, the server is started again, and what was copied stays as DATE.unverified. After a `kill -9`
# nothing starts it: see ExecStopPost in whx12-backup.service. It starts a server too that didn't run before: stop its timer while you restore a book.
set -eu
# Who may not read the book may not read its copies.
umask 077

book=$1 folder=$2 service=${3-} keep=${4-30} stopped=
date=$(date -u +%Y-%m-%dT%H%M%S)
copy=$folder/$date.unverified
form='[0-9][0-9][0-9][0-9]-[0-9][0-9]-[0-9][0-9]T[0-9][0-9][0-9][0-9][0-9][0-9]'

fail() {
    printf 'backup.sh: %s\n' "$1" >&2
    exit 3
}

case $keep in
'' | 0* | *[!0-9]* | ???????*) fail "KEEP is $keep, and not a number from 1 to 999999" ;;
esac

# Starts the server again where it was stopped here. No signal ends it.
restart() {
    trap '' HUP INT QUIT PIPE TERM
    if [ -n "$stopped" ]; then systemctl start "$service" 9<&-; fi
    stopped=
}

# Signals end it by way of `exit`, since the shell passes the trap of EXIT over where a signal ends it.
listen() {
    trap 'exit 129' HUP
    trap 'exit 130' INT
    trap 'exit 131' QUIT
    trap 'exit 141' PIPE
    trap 'exit 143' TERM
}

mkdir -p -- "$folder"
exec 9<"$folder"
flock -n 9 || fail "another run works in $folder, or it can't be locked"
mkdir -- "$copy"
trap restart EXIT
listen
if [ -n "$service" ]; then
    stopped=yes
    systemctl stop "$service"
fi
cp -p -- "$book" "$copy/"
if [ -e "$book-wal" ]; then cp -p -- "$book-wal" "$copy/"; fi
restart
listen

sync -f -- "$copy"
whx12 verify --book "$copy/${book##*/}"
last=
for it in "$folder"/$form; do
    if [ -f "$it/seal" ] && ! [ -L "$it" ]; then last=$it/seal; fi
done
if [ -n "$last" ]; then
    noted=$(cat -- "$last")
    now=$(whx12 seal --first "${noted%%:*}" --book "$copy/${book##*/}") || now=
    if [ "${now%% *}" != "${noted%% *}" ]; then fail "the book lacks an entry that was sealed in $last, or has another"; fi
fi
whx12 seal --book "$copy/${book##*/}" >"$copy/seal"
cat -- "$copy/seal"
# The check can write: it moves what is in the log into the book.
sync -f -- "$copy"
mv -nT -- "$copy" "$folder/$date"
if [ -e "$copy" ]; then fail "$folder/$date is there already"; fi
sync -- "$folder"

# A folder is renamed before it is removed, so that one with the name of a verified copy is always whole.
set --
for it in "$folder"/$form; do
    if [ -d "$it" ] && ! [ -L "$it" ] && [ "$it" != "$folder/$date" ]; then set -- "$@" "$it"; fi
done
while [ "$#" -ge "$keep" ]; do
    mv -nT -- "$1" "$1.removed"
    shift
done
for it in "$folder"/$form.removed; do
    if [ -d "$it" ] && ! [ -L "$it" ]; then rm -rf -- "$it"; fi
done
