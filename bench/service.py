#!/usr/bin/env python3
"""Tries the files of examples/service: the scripts over a real book, the units by systemd-analyze, the site
by nginx.

Usage: bench/service.py [PROGRAM [PART ..]]
       (default: crates/whx12/out/whx12, which `rt run` in that folder leaves, and all parts)

Wants systemd-analyze, strace, nginx, openssl and curl. The scripts find PROGRAM as whx12, or in front of it
a wrapper that does something before or after, or stands still.

backups    a backup is made, checked and sealed, and a damaged one and one of an older book are told; the server is started again after
           each signal and failure; KEEP
units      no warning, an exposure of at most 2.5; the server makes no call that its unit refuses, at a socket of
           mode 0660, which is gone in the end, and tells its health
sites      nginx in front of a server: without a password it answers 401, with one the advice is answered,
           and a slow body holds up nobody; each login gets 403 for another depositor's stock, outbox, texts
           and interchanges, whatever fields it sends, and nothing is recorded

Status 1 where something differs; the folder is then kept.
"""
import contextlib
import os
import re
import shutil
import signal
import subprocess
import sys
import tempfile
import time

import lib
from lib import HERE, Wrong, free_port, knock, program_of, same

RUN = {
    "tier": "night",
    "shows": "the files of examples/service: scripts over a real book, also ended at any moment, the units, "
             "nginx in front of a server",
    "needs": ["program", "systemd-analyze", "strace", "nginx", "openssl", "curl"],
    "words": [""],
    "minutes": 2,
}
SERVICE = os.path.join(HERE, "..", "examples", "service")
AT = ["--at", "2025-03-04T09:15"]
MOST_EXPOSURE = 2.5
# Stands still for a while before or after the call of this number, and tells so by a file.
STILL = """#!/bin/sh
call=$(($(cat {count} 2>/dev/null || echo 0) + 1))
echo $call >{count}
if [ $call.{when} = {number}.before ]; then : >{here}; sleep 2; fi
{real} "$@"
status=$?
if [ $call.{when} = {number}.after ]; then : >{here}; sleep 2; fi
exit $status
"""


def text_of(number, item="BOLT"):
    """An advice under a control number, and a shipment of the same number."""
    return lib.interchange("AR", number, lib.advice(f"SHP{number}", [(100, item, "L1")]), wants=1)


class House:
    """A folder with a book, a command `whx12`, and the scripts."""

    def __init__(self, program):
        self.folder = tempfile.mkdtemp(prefix="service")
        os.mkdir(self.at("bin"))
        os.symlink(program, self.at("bin", "whx12"))
        self.environment = dict(os.environ, PATH=self.at("bin") + ":" + os.environ["PATH"])
        self.book = self.at("harbor.book")
        for words in (["init", "ZZ-WHSE1"], ["enrol", "ZZ-ACME"]):
            same(words, self.whx12(*words)[0], 0)

    def at(self, *names):
        return os.path.join(self.folder, *names)

    def put(self, content, *names):
        os.makedirs(os.path.dirname(self.at(*names)), exist_ok=True)
        with open(self.at(*names), "w", encoding="ascii") as file:
            file.write(content)

    def read(self, *names):
        with open(self.at(*names), encoding="ascii") as file:
            return file.read()

    def has(self, *names):
        """The names in a folder, or none."""
        return sorted(os.listdir(self.at(*names))) if os.path.isdir(self.at(*names)) else []

    def run(self, words):
        ran = subprocess.run(words, env=self.environment, cwd=self.folder, capture_output=True, text=True, timeout=60, check=False)
        return ran.returncode, ran.stdout, ran.stderr

    def whx12(self, *words):
        return self.run(["whx12", *words, "--book", self.book, *AT])

    def script(self, name, *words):
        return self.run([os.path.join(SERVICE, name), *words])

    def back_up(self, *words):
        """backup.sh to `backup`, in a second of its own, by which it is named."""
        time.sleep(1)
        return self.script("backup.sh", self.book, self.at("backup"), *words)

    @contextlib.contextmanager
    def wrapped(self, **scripts):
        """With these scripts in place of programs; in each {real} is the program."""
        old, folder = self.environment, tempfile.mkdtemp(prefix="wrapped", dir=self.folder)
        for name, script in scripts.items():
            self.put(script.replace("{real}", str(shutil.which(name, path=old["PATH"]))), folder, name)
            os.chmod(self.at(folder, name), 0o755)
        self.environment = dict(old, PATH=folder + ":" + old["PATH"])
        try:
            yield
        finally:
            self.environment = old
            shutil.rmtree(folder)

    @contextlib.contextmanager
    def standing(self, words, program, number, when):
        """A script that stands still before or after a call of a program."""
        still = STILL.format(count=self.at("count"), here=self.at("here"), when=when, number=number, real="{real}")
        with self.wrapped(**{program: still}):
            process = subprocess.Popen([os.path.join(SERVICE, words[0]), *words[1:]], env=self.environment, stdout=subprocess.DEVNULL,
                                       stderr=subprocess.DEVNULL, start_new_session=True)
            end = time.monotonic() + 30
            while not os.path.exists(self.at("here")):
                if process.poll() is not None or time.monotonic() > end:
                    raise Wrong(f"{words[0]} makes no call {number} of {program}")
                time.sleep(0.01)
            yield process
            process.wait(60)
            for name in ("here", "count"):
                os.remove(self.at(name))

    def counted(self):
        """With an advice that came, and was counted; the 944."""
        self.put(text_of(1), "first.x12")
        same("send", self.whx12("send", self.at("first.x12"))[0], 0)
        self.put("BOLT,L1,90\n", "count.csv")
        return self.whx12("count", "ZZ-ACME", "T1", "SHP1", self.at("count.csv"))[1]

def sealed(result):
    """A status with what was printed and told, SEAL in place of a seal's digits."""
    return result[0], re.sub(r":[0-9a-f]{64} [0-9]{12}\n", ":SEAL\n", result[1]), result[2]


def backups(house):
    """Backups that are checked, whatever ends them."""
    house.counted()
    same("backup.sh", sealed(house.back_up()), (0, "ok 3\n3:SEAL\n", ""))
    first, = house.has("backup")
    same("its seal", re.fullmatch(r"3:[0-9a-f]{64} [0-9]{12}\n", house.read("backup", first, "seal")) is not None, True)
    same("its copy", (re.fullmatch(r"\d{4}-\d\d-\d\dT\d{6}", first) is not None, "harbor.book" in house.has("backup", first)), (True, True))
    subprocess.run(["sqlite3", house.book, "UPDATE stock SET on_hand = 89"], check=True)
    status, _, told = house.back_up("", "1")
    same("a damaged book", (status, told), (3, "fault 43 NotThisBook\n"))
    same("its copy isn't counted", [name.partition(".")[2] for name in house.has("backup")], ["", "unverified"])
    subprocess.run(["sqlite3", house.book, "UPDATE stock SET on_hand = 90"], check=True)
    again = "stop whx12\nstart whx12\n"

    def asked():
        log = house.read("log")
        os.remove(house.at("log"))
        time.sleep(1)
        return log

    with house.wrapped(systemctl='#!/bin/sh\necho "$@" >>' + house.at("log") + "\n"):
        same("with a server", (sealed(house.back_up("whx12"))[:2], asked()), ((0, "ok 3\n3:SEAL\n"), again))
        for moment in (("systemctl", 1, "after"), ("cp", 1, "before"), ("systemctl", 2, "before"), ("systemctl", 2, "after")):
            for number in (signal.SIGTERM, signal.SIGINT, signal.SIGHUP, signal.SIGQUIT):
                before = house.has("backup")
                with house.standing(["backup.sh", house.book, house.at("backup"), "whx12"], *moment) as process:
                    os.kill(process.pid, number)
                same(f"{number.name} {moment}", asked(), again)
                same("its end", (process.returncode, len(house.has("backup"))), (128 + number, len(before) + 1) if moment[:2] != ("systemctl", 2) else
                     (process.returncode, len(before) + 1))
        same("no book", (house.script("backup.sh", house.at("no.book"), house.at("backup"), "whx12")[0], asked()), (1, again))
    with house.wrapped(systemctl=f'#!/bin/sh\necho "$@" >>{house.at("log")}\n[ $1 = start ]\n'):
        same("a server that can't be stopped", (house.back_up("whx12")[0], asked()), (1, again))
    older(house)
    keeps(house)


def older(house):
    """A book that was put in place of one with more entries, which is whole for itself."""
    os.rename(house.book, house.at("whole.book"))
    for words in (["init", "ZZ-WHSE1"], ["enrol", "ZZ-ACME"]):
        same(words, house.whx12(*words)[0], 0)
    status, out, told = house.back_up()
    same("an older book", (status, out, "lacks an entry that was sealed" in told), (3, "ok 1\n", True))
    os.replace(house.at("whole.book"), house.book)


def keeps(house):
    """Which backups are kept."""
    shutil.rmtree(house.at("backup"))
    old = [f"2020-01-0{day}T000000" for day in range(1, 7)]
    others = ["2019-01-01", "2019-01-01T000000.unverified", "2019-01-01T00000", "2019-01-01T0000000", "2019-01-01T000000 ", "harbor.book", "x2019-01-01T000000"]
    for name in [*old, *others, "2019-01-02T000000.removed"]:
        house.put("", "backup", name, "harbor.book")
    house.put("", "backup", "2019-01-03T000000")
    os.symlink("2019-01-01", house.at("backup", "2019-01-04T000000"))
    others += ["2019-01-03T000000", "2019-01-04T000000"]
    for keep in ("0", "", "-1", "x", "03", "1 "):
        same(f"KEEP {keep}", (house.back_up("", keep)[0], len(house.has("backup"))), (3, len(old + others) + 1))
    same("KEEP 3", sealed(house.back_up("", "3")), (0, "ok 3\n3:SEAL\n", ""))
    new = [name for name in house.has("backup") if name > "2021" and name not in others]
    same("what is kept", (len(new), house.has("backup")), (1, sorted([*old[-2:], *others, *new])))
    house.put("", "backup", "2999-01-01T000000", "harbor.book")
    same("KEEP 1", sealed(house.back_up("", "1")), (0, "ok 3\n3:SEAL\n", ""))
    newest = [name for name in house.has("backup") if "2021" < name < "2999"]
    same("the newest stays, whatever the clock says", (len(newest), newest > new, house.has("backup")), (1, True, sorted([*others, *newest])))


def allowed(house):
    """The calls that the unit of the server lets through."""
    sets, name = {}, ""
    for line in house.run(["systemd-analyze", "--no-pager", "syscall-filter"])[1].splitlines():
        if line.startswith("@"):
            name = line.strip()
        elif line.strip() and not line.strip().startswith("#"):
            sets.setdefault(name, set()).add(line.strip())

    def calls(name):
        return set().union(*(calls(it) for it in sets[name])) if name.startswith("@") else {name}

    with open(os.path.join(SERVICE, "whx12.service"), encoding="utf-8") as file:
        lines = re.findall(r"^SystemCallFilter=(~?)(.+)$", file.read(), re.M)
    found = calls("@default")
    for inverted, names in lines:
        for it in names.split():
            found = found - calls(it) if inverted else found | calls(it)
    return found


def wait_for(socket):
    """Until a server listens at a socket in the file system."""
    for _ in range(400):
        if os.path.exists(socket):
            return
        time.sleep(0.05)
    raise Wrong("no socket")


def units(house):
    """The units, with programs and a user that are here."""
    shutil.copy(os.path.join(SERVICE, "whx12-backup.timer"), house.at("whx12-backup.timer"))
    for name in ("whx12.service", "whx12-backup.service"):
        with open(os.path.join(SERVICE, name), encoding="utf-8") as file:
            text = file.read()
        for old, new in (("/usr/local/bin/whx12", house.at("bin", "whx12")), ("=whx12\nGroup=whx12", "=daemon\nGroup=daemon"),
                         ("/usr/local/lib/whx12/backup.sh", os.path.abspath(os.path.join(SERVICE, "backup.sh")))):
            text = text.replace(old, new)
        house.put(text, name)
    for name in ("whx12.service", "whx12-backup.service", "whx12-backup.timer"):
        status, out, told = house.run(["systemd-analyze", "verify", house.at(name)])
        told = "".join(line + "\n" for line in told.splitlines() if "whx12" in line)
        same(f"systemd-analyze verify {name}", (status, out, told), (0, "", ""))
    same("StartLimitIntervalSec", re.search(r"^\[Unit\]\n[^\[]*^StartLimitIntervalSec=0$", house.read("whx12.service"), re.M) is not None, True)
    told = house.run(["systemd-analyze", "--no-pager", "security", "--offline=yes", house.at("whx12.service")])[1]
    exposure = float(re.search(r"exposure level for whx12.service: ([\d.]+)", told)[1])
    print(f"exposure of whx12.service: {exposure}")
    if exposure > MOST_EXPOSURE:
        raise Wrong(f"an exposure over {MOST_EXPOSURE}")
    socket = house.at("sock")
    server = subprocess.Popen(["strace", "-f", "-o", house.at("calls"), "whx12", "serve", "--book", house.book, "--listen", f"unix:{socket}", "--count", "2",
                               "--patience", "30"], env=house.environment, stdout=subprocess.PIPE, text=True)
    wait_for(socket)
    same("the socket's mode", oct(os.stat(socket).st_mode & 0o777), "0o660")
    asking = ["curl", "-s", "--unix-socket", socket, "-w", "%{http_code}"]
    same("health", house.run([*asking, "http://localhost/health"])[1].splitlines()[:2], ["ok", "version 2.0"])
    # A second server at its socket ends, and the first one doesn't count it.
    other = ["--book", house.at("other.book")]
    same("another book", house.run(["whx12", "init", "ZZ-WHSE2", *other])[0], 0)
    same("a second server", house.run(["whx12", "serve", *other, "--listen", f"unix:{socket}"])[::2], (3, "fault 44 Device\n"))
    for path in ("x12", "outbox/ZZ-ACME"):
        house.put(text_of(7), "text.x12")
        words = ["--data-binary", "@" + house.at("text.x12")] if path == "x12" else []
        same(path, house.run([*asking, "-o", house.at("got"), *words, f"http://localhost/{path}"])[1], "200")
    same("the server's end", (server.communicate(timeout=30)[0], server.returncode, os.path.exists(socket)), ("200\n200\n", 0, False))
    calls = set(re.findall(r"^\d+ +(\w+)\(", house.read("calls"), re.M))
    print(f"calls of a server: {len(calls)}")
    same("calls that the unit refuses", sorted(calls - allowed(house)), [])
    opened = re.findall(r'open(?:at)?\((?:AT_FDCWD, )?"([^"]+)", ([A-Z_|]+)', house.read("calls"))
    same("what it writes", {path for path, how in opened if "O_RDONLY" not in how} - {house.book, house.book + "-wal"}, set())
    same("what the unit hides", [path for path, _ in opened if re.match(r"/(proc/(?!self/)|sys/|dev/|home/|root/|tmp/)", path) and not path.startswith(house.folder)], [])


def sites(house):
    """nginx in front of a server."""
    house.counted()
    front = free_port()
    subprocess.run(["openssl", "req", "-x509", "-newkey", "rsa:2048", "-nodes", "-days", "2", "-subj", "/CN=localhost", "-keyout", house.at("key.pem"), "-out",
                    house.at("cert.pem")], check=True, capture_output=True)
    hashed = subprocess.run(["openssl", "passwd", "-apr1", "secret"], check=True, capture_output=True, text=True).stdout
    house.put("".join(f"{login}:{hashed}" for login in ("holm", "tearoom", "nobody")), "users")
    with open(os.path.join(SERVICE, "whx12.nginx"), encoding="utf-8") as file:
        site = file.read()
    for old, new in (("listen 443 ssl", f"listen 127.0.0.1:{front} ssl"), ("/etc/ssl/certs/edi.example.com.pem", house.at("cert.pem")),
                     ("/etc/ssl/private/edi.example.com.key", house.at("key.pem")), ("/etc/nginx/whx12.htpasswd", house.at("users")),
                     ("ZZ-HOLM", "ZZ-ACME"), ("/run/whx12/whx12.sock", house.at("sock"))):
        assert old in site
        site = site.replace(old, new)
    house.put("user root;\npid " + house.at("pid") + ";\nerror_log " + house.at("error.log") + ";\nevents {}\nhttp {\naccess_log off;\n"
              + "".join(f"{kind}_temp_path {house.at(kind)};\n" for kind in ("client_body", "proxy", "fastcgi", "uwsgi", "scgi")) + site + "}\n", "nginx.conf")
    same("nginx -t", house.run(["nginx", "-t", "-q", "-c", house.at("nginx.conf"), "-e", house.at("error.log")])[0], 0)
    server = subprocess.Popen(["whx12", "serve", "--book", house.book, "--listen", f"unix:{house.at('sock')}", "--from", "X-Depositor",
                               "--clerks-at", f"unix:{house.at('clerks')}"], env=house.environment, stdout=subprocess.DEVNULL)
    nginx = subprocess.Popen(["nginx", "-c", house.at("nginx.conf"), "-e", house.at("error.log"), "-g", "daemon off;"])
    try:
        wait_for(house.at("sock"))
        knock(front)
        house.put(text_of(2), "second.x12")
        curl = ["curl", "-sk", "-o", house.at("got"), "-w", "%{http_code}", "--max-time", "20"]
        url = f"https://127.0.0.1:{front}"
        same("no password", house.run([*curl, f"{url}/stock/ZZ-ACME"])[1], "401")
        login = [*curl, "-u", "holm:secret"]
        with subprocess.Popen([*login, "--limit-rate", "40", "--data-binary", "@" + house.at("second.x12"), f"{url}/x12"], stdout=subprocess.PIPE, text=True) as slow:
            time.sleep(0.3)
            start = time.time()
            same("stock beside a slow post", house.run([*login, f"{url}/stock/ZZ-ACME"])[1], "200")
            if time.time() - start > 3:
                raise Wrong("a slow post holds up another")
            same("a slow post", slow.communicate(timeout=30)[0], "200")
        same("the same again", house.run([*login, "--data-binary", "@" + house.at("second.x12"), f"{url}/x12"])[1], "200")
        house.put(text_of(3), "third.x12")
        strangers(house, curl, url)
        for place, status in (("clerks", 0), ("sock", 3)):
            same(f"a clerk at {place}", house.run(["whx12", "open", "ZZ-ACME", "--server", f"unix:{house.at(place)}"])[0], status)
    finally:
        nginx.send_signal(signal.SIGQUIT)
        nginx.wait(10)
        server.terminate()
        server.wait(10)
    same("the book in the end", house.whx12("stock", "ZZ-ACME", "--csv")[1].splitlines()[1].split(",")[-4:], ["100", "90", "0", "0"])


def strangers(house, curl, url):
    """Logins of another depositor and of none, with fields of their own, at what the first depositor has."""
    for login in ("tearoom", "nobody"):
        for fields in ([], ["-H", "X-Depositor: ZZ-ACME"], ["-H", "x-depositor: ZZ-ACME", "-H", "X_Depositor: ZZ-ACME"]):
            asked = [*curl, "-u", f"{login}:secret", *fields]
            for path in ("stock/ZZ-ACME", "outbox/ZZ-ACME", "outbox/ZZ-ACME/1", "outbox/ZZ-ACME/3"):
                same(f"{login} at {path}", house.run([*asked, f"{url}/{path}"])[1], "403")
            for text in ("second.x12", "third.x12"):
                same(f"{login} posts {text}", house.run([*asked, "--data-binary", "@" + house.at(text), f"{url}/x12"])[1], "403")
    same("its own", house.run([*curl, "-u", "tearoom:secret", f"{url}/stock/ZZ-TEAROOM"])[1], "404")
    holm = [*curl, "-u", "holm:secret", "-H", "X-Depositor: ZZ-TEAROOM"]
    for path, status in (("stock/ZZ-ACME", "200"), ("outbox/ZZ-ACME/1", "200"), ("outbox/ZZ-ACME/4", "404"), ("stock/ZZ-TEAROOM", "403")):
        same(f"holm at {path}", house.run([*holm, f"{url}/{path}"])[1], status)


def main(words):
    program = program_of(words[0] if words else None)
    for part in (backups, units, sites):
        if words[1:] and part.__name__ not in words[1:]:
            continue
        house = House(program)
        try:
            part(house)
        except Wrong as wrong:
            print(f"{part.__name__}: {wrong}\nkept: {house.folder}")
            return 1
        print(f"{part.__name__}: as wanted", flush=True)
        shutil.rmtree(house.folder)
    return 0


if __name__ == "__main__":
    sys.exit(main(sys.argv[1:]))
