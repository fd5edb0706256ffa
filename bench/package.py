#!/usr/bin/env python3
"""Makes the Debian package of examples/package, and installs, upgrades and removes it over a book.

Usage: bench/package.py [PROGRAM]       (default: crates/whx12/out/whx12)

Wants root on a machine of Debian with dpkg, man and systemd-analyze. Nothing of the machine is changed: dpkg
works in a root of its own, whose files are the machine's until they are written (overlayfs in a mount namespace).

Two calls make the same bytes. Installed: the program, its user and folders, units that systemd-analyze takes
without a warning, a page that man shows without one, completion of subcommands, options and files. A book is
made, its seal noted, and it has the same after an upgrade, which keeps the settings, after a removal and after a
purge, with the same owner and mode. The status is 1 where something differs.
"""
import os
import subprocess
import sys
import tempfile

from lib import TOP, program_in, same

RUN = {
    "tier": "night",
    "shows": "the Debian package installed, upgraded and removed over a book",
    "needs": ["program", "root", "dpkg", "man", "systemd-analyze"],
    "minutes": 0.5,
}
BUILD = os.path.join(TOP, "examples", "package", "build.sh")
BOOK = "/var/lib/whx12/warehouse.book"
# What runs in the root of its own: this script again, which mounts it first.
INSIDE = "--inside"


def run(*words, status=0, **how):
    """What a command printed; the script ends where its status is another."""
    ran = subprocess.run(words, capture_output=True, text=True, timeout=120, check=False, **how)
    if ran.returncode != status:
        raise SystemExit(f"{words}: status {ran.returncode}, not {status}\n{ran.stdout}{ran.stderr}")
    return ran.stdout


def build(program, folder, version):
    """The path of a package of this version."""
    return run(BUILD, program, folder, version, env=dict(os.environ, SOURCE_DATE_EPOCH="1700000000")).strip()


def whx12(*words, **how):
    """A command of the installed program, as its user."""
    return run("runuser", "-u", "whx12", "--", "whx12", *words, "--book", BOOK, **how)


def completed(*words):
    """What bash offers for the last of these words."""
    script = ". /usr/share/bash-completion/completions/whx12; COMP_WORDS=(\"$@\"); COMP_CWORD=$(($# - 1)); _whx12; printf '%s\\n' \"${COMPREPLY[@]}\""
    return run("bash", "-c", script, "bash", *words).split()


def installed():
    """What stands after an installation."""
    same("the program's version", run("whx12", "--version"), "whx12 2.0\n")
    same("the owner and the mode of the folder", run("stat", "-c", "%U %G %a", "/var/lib/whx12"), "whx12 whx12 750\n")
    page = subprocess.run(["man", "--warnings", "whx12"], capture_output=True, text=True, check=False, env=dict(os.environ, MANWIDTH="100", LC_ALL="C.UTF-8"))
    same("man: status and warnings", (page.returncode, page.stderr), (0, ""))
    for word in ("count WHO TICKET SHIPMENT SHEET", "EXIT STATUS", BOOK + "\n"):
        same(f"{word} in the page", word in page.stdout, True)
    units = [f"/usr/lib/systemd/system/{name}" for name in ("whx12.service", "whx12-backup.service", "whx12-backup.timer")]
    checked = subprocess.run(["systemd-analyze", "verify", *units], capture_output=True, text=True, check=False)
    same("systemd-analyze: status and warnings", (checked.returncode, [it for it in checked.stderr.splitlines() if "whx12" in it]), (0, []))
    same("subcommands", completed("whx12", "co"), ["count"])
    same("options", completed("whx12", "take", "--d"), ["--done"])
    same("help", (completed("whx12", "help", "sto"), completed("whx12", "help", "stock", "")), (["stock"], []))
    same("a command after an option", completed("whx12", "--explain", "dep"), ["depositors"])
    same("files", sorted(completed("whx12", "send", "/usr/share/doc/whx12/REA")), ["/usr/share/doc/whx12/README.Debian", "/usr/share/doc/whx12/README.md"])


def life(first, second):
    """An installation, a book, an upgrade, a removal, a purge, and the book again."""
    run("dpkg", "-i", first)
    installed()
    same("no book", os.path.exists(BOOK), False)
    whx12("init", "ZZ-HARBOR")
    whx12("enrol", "ZZ-HOLM")
    whx12("send", "/usr/share/doc/whx12/examples/day/holm-advice.x12")
    seal, stat = whx12("seal"), run("stat", "-c", "%U %G %a", BOOK)
    with open("/etc/default/whx12", "a", encoding="ascii") as file:
        file.write('WHX12_OPTIONS="--clerks"\n')

    run("dpkg", "-i", second)
    installed()
    same("the version", run("dpkg-query", "-W", "-f", "${Version}", "whx12"), second.split("_")[1])
    same("the settings", run("tail", "-1", "/etc/default/whx12"), 'WHX12_OPTIONS="--clerks"\n')
    same("the book after the upgrade", whx12("verify", "--seal", seal.split()[0]), "ok 2\n")

    run("dpkg", "-r", "whx12")
    same("no program", os.path.exists("/usr/bin/whx12"), False)
    same("settings after a removal", os.path.exists("/etc/default/whx12"), True)
    run("dpkg", "-P", "whx12")
    same("settings after a purge", os.path.exists("/etc/default/whx12"), False)
    same("the book's owner and mode", run("stat", "-c", "%U %G %a", BOOK), stat)

    run("dpkg", "-i", second)
    same("the book after all", whx12("verify", "--seal", seal.split()[0]), "ok 2\n")


def in_own_root(folder, words):
    """Gives this script a root of its own, and lives a package's life there."""
    upper, work, root = (os.path.join(folder, name) for name in ("upper", "work", "root"))
    run("mount", "-t", "tmpfs", "own", folder)
    for name in (upper, work, root):
        os.mkdir(name)
    run("mount", "-t", "overlay", "overlay", "-o", f"lowerdir=/,upperdir={upper},workdir={work}", root)
    for name in ("proc", "dev", "sys"):
        run("mount", "--bind", f"/{name}", os.path.join(root, name))
    run("mount", "--bind", os.path.dirname(words[0]), os.path.join(root, "mnt"))
    os.chroot(root)
    os.chdir("/")
    life(*(os.path.join("/mnt", os.path.basename(it)) for it in words))


def main():
    words = sys.argv[1:]
    if words[:1] == [INSIDE]:
        in_own_root(words[1], words[2:])
        return
    program = program_in(words)
    with tempfile.TemporaryDirectory(prefix="package") as made, tempfile.TemporaryDirectory(prefix="root") as root:
        packages = [build(program, os.path.join(made, "packages"), version) for version in ("2.0-1", "2.0-2")]
        again = build(program, os.path.join(made, "again"), "2.0-2")
        with open(packages[1], "rb") as one, open(again, "rb") as other:
            same("two calls make the same bytes", one.read() == other.read(), True)
        inside = subprocess.run(["unshare", "-m", sys.executable, os.path.abspath(__file__), INSIDE, root, *packages], check=False)
        if inside.returncode:
            raise SystemExit(1)
    print("installed, upgraded, removed and purged: the book is the same")


main()
