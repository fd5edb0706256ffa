#!/bin/sh
# Makes a Debian package of the program: itself, the units of its server with their user and folders, a page for `man` and the completion for bash,
# both made of its help, and the documents. Installing it makes no book: /usr/share/doc/whx12/README.Debian says what to do then.
#
# Usage: build.sh PROGRAM FOLDER [VERSION]       (VERSION: default the program's own, and -1)
#
# PROGRAM is what CI proved and built, crates/whx12/out/whx12. Printed is the path of the package, FOLDER/whx12_VERSION_amd64.deb. Wants dpkg-deb.
# The same program and sources make the same bytes, where SOURCE_DATE_EPOCH is the same.
set -eu
umask 022
here=$(cd "$(dirname "$0")" && pwd)
root=$here/../..
[ "$#" -ge 2 ] || { echo "usage: build.sh PROGRAM FOLDER [VERSION]" >&2; exit 2; }
program=$(command -v "$1") || { echo "build.sh: no program $1" >&2; exit 2; }
folder=$2 own=$("$program" --version)
version=${3-${own#whx12 }-1}
case $version in
'' | *[!0-9A-Za-z.+~-]*) echo "build.sh: $version is no version of a package" >&2; exit 2 ;;
esac
made=$(mktemp -d)
trap 'rm -rf "$made"' EXIT
trap 'exit 1' HUP INT TERM
package=$made/package
doc=$package/usr/share/doc/whx12
units=$package/usr/lib/systemd/system

mkdir -p "$package/DEBIAN" "$package/usr/bin" "$package/usr/lib/whx12" "$units" "$package/etc/default" "$doc" \
    "$package/usr/share/man/man1" "$package/usr/share/bash-completion/completions"
cp "$program" "$package/usr/bin/whx12"
cp "$root/examples/service/backup.sh" "$package/usr/lib/whx12/backup.sh"
chmod 0755 "$package/usr/bin/whx12" "$package/usr/lib/whx12/backup.sh"
cp "$here/default" "$package/etc/default/whx12"
cp -R "$root/README.md" "$root/SECURITY.md" "$root/CONTRIBUTING.md" "$root/docs" "$root/examples" "$here/README.Debian" "$doc"
gzip -9n <"$root/CHANGELOG.md" >"$doc/changelog.gz"
{
    echo 'Format: https://www.debian.org/doc/packaging-manuals/copyright-format/1.0/'
    printf '\nFiles: *\nCopyright: 2026 the authors of Cillargoen\nLicense: Expat\n'
    sed 's/^$/./; s/^/ /' "$root/LICENSE"
} >"$doc/copyright"

# The units, with the paths of a package and without what their heads say of installing them by hand.
# shellcheck disable=SC2016
for unit in whx12.service whx12-backup.service whx12-backup.timer; do
    sed -e '/^#/d' -e 's|/usr/local/|/usr/|g' -e 's|harbor\.book|warehouse.book|g' -e 's| ZZ-HARBOR||' \
        -e 's|^Description=.* of the warehouse$|&\n@CONDITION@|' \
        -e 's|^\(ExecStart=/usr/bin/whx12 .*\)|EnvironmentFile=-/etc/default/whx12\n\1 $WHX12_OPTIONS|' \
        "$root/examples/service/$unit" | sed '/./,$!d' >"$units/$unit"
done
# Without a book there is nothing to serve or to copy.
sed -i 's|^@CONDITION@$|ConditionPathExists=/var/lib/whx12/warehouse.book|' "$units/whx12.service" "$units/whx12-backup.service"
sed -i '/^@CONDITION@$/d' "$units/whx12-backup.timer"

# What its help says, for man and for bash.
commands=$("$program" --help | sed -n 's/^  \([a-z][a-z]*\)  .*/\1/p' | grep -vx help | tr '\n' ' ' | sed 's/ $//')
as_roff() { sed -e 's/\\/\\e/g' -e "s/^[.']/\\\\\&&/" -e 's/-/\\-/g'; }
{
    printf '.TH WHX12 1 "" "%s" "User Commands"\n' "$own"
    printf '.SH NAME\nwhx12 \\- the book of a third\\-party warehouse\n.SH DESCRIPTION\n.nf\n'
    "$program" --help | as_roff
    printf '.fi\n.SH SUBCOMMANDS\n'
    for command in $commands; do
        printf '.SS %s\n.nf\n' "$command"
        "$program" help "$command" | as_roff
        printf '.fi\n'
    done
    cat "$here/page.roff"
} | gzip -9n >"$package/usr/share/man/man1/whx12.1.gz"
{
    sed '/^# OPTIONS$/,$d' "$here/completion.bash"
    for command in $commands; do
        printf '    %s) options="%s" ;;\n' "$command" \
            "$("$program" help "$command" | sed -n 's/^ *\(-h, \)\{0,1\}\(--[a-z][a-z]*\).*/\2/p' | tr '\n' ' ' | sed 's/ $//')"
    done
    sed '1,/^# OPTIONS$/d' "$here/completion.bash"
} | sed "s/@COMMANDS@/$commands/" >"$package/usr/share/bash-completion/completions/whx12"

# What dpkg reads and runs.
for script in postinst prerm postrm; do
    cp "$here/$script" "$package/DEBIAN/$script"
    chmod 0755 "$package/DEBIAN/$script"
done
echo /etc/default/whx12 >"$package/DEBIAN/conffiles"
sed -e "s/@VERSION@/$version/" -e "s/@SIZE@/$(du -sk --apparent-size "$package" | cut -f1)/" "$here/control" >"$package/DEBIAN/control"
if [ -n "${SOURCE_DATE_EPOCH-}" ]; then find "$package" -exec touch -h -d "@$SOURCE_DATE_EPOCH" {} +; fi
mkdir -p "$folder"
dpkg-deb --root-owner-group --build "$package" "$folder/whx12_${version}_amd64.deb" >/dev/null
echo "$folder/whx12_${version}_amd64.deb"
