"""What the scripts of this folder share: the program, its arguments, a server to talk to, texts to send and
figures to report."""
import contextlib
import fnmatch
import os
import pty
import socket
import sqlite3
import subprocess
import tempfile
import time

HERE = os.path.dirname(os.path.abspath(__file__))
TOP = os.path.dirname(HERE)
# The program that `rt run` in crates/whx12 leaves, or the one that WHX12_PROGRAM names.
PROGRAM = os.environ.get("WHX12_PROGRAM") or os.path.join(TOP, "crates", "whx12", "out", "whx12")
LOOPBACK = "127.0.0.1"


class Wrong(SystemExit):
    """Something isn't what it must be. Where nobody catches it, the script ends with this text and status 1."""


def same(what, got, wanted):
    """Ends the script, or the case, where the two differ."""
    if got != wanted:
        raise Wrong(f"{what}:\nwanted {wanted!r:.2000}\ngot    {got!r:.2000}")


# --- arguments ---------------------------------------------------------------------------------


def program_of(word=None):
    """The program to try: the one that a word names, or the default, as an absolute path."""
    return os.path.abspath(word or PROGRAM)


def program_in(words):
    """The program that the last word names, where that is no option and no number; else the default."""
    last = words[-1] if words else "--"
    return program_of(None if last.startswith("--") or last.isdigit() else last)


def option(words, name, default):
    """The value after an option, which is taken out of the words; as a number where the default is one."""
    if name not in words:
        return default
    at = words.index(name)
    value = words[at + 1]
    del words[at:at + 2]
    return type(default)(value) if isinstance(default, (int, float)) else value


# --- servers -----------------------------------------------------------------------------------


def free_port():
    """A port of loopback that nobody listens on."""
    with socket.socket() as one:
        one.bind((LOOPBACK, 0))
        return one.getsockname()[1]


def wait_for_listener(port, process=None, seconds=20):
    """Returns once somebody listens on a port, without a connection that the server would count."""
    end = time.monotonic() + seconds
    while time.monotonic() < end:
        if process and process.poll() is not None:
            raise Wrong(f"the server ended with {process.returncode}")
        with socket.socket() as one:
            one.setsockopt(socket.SOL_SOCKET, socket.SO_REUSEADDR, 1)
            try:
                one.bind((LOOPBACK, port))
            except OSError:
                return
        time.sleep(0.02)
    raise Wrong(f"nobody listens on {port}")


def serve(program, book, *words, port=None, count=65535, **how):
    """A server of a book, once it listens, and its port. `how` goes to Popen."""
    port = port or free_port()
    line = [program, "serve", "--book", book, "--listen", f"{LOOPBACK}:{port}", "--count", str(count), *words]
    how.setdefault("stdout", subprocess.DEVNULL)
    process = subprocess.Popen(line, **how)
    wait_for_listener(port, process)
    return process, port


def once(host, port, request):
    """One request on a connection of its own: the seconds that it took, and the response."""
    start, pieces = time.perf_counter(), []
    with socket.create_connection((host, port), 20) as stream:
        stream.sendall(request)
        while piece := stream.recv(65536):
            pieces.append(piece)
    return time.perf_counter() - start, b"".join(pieces)


def knock(port, host=LOOPBACK):
    """Returns once somebody accepts a connection, which the server counts as one of its own."""
    for _ in range(400):
        with contextlib.suppress(OSError):
            socket.create_connection((host, int(port)), 1).close()
            return
        time.sleep(0.02)
    raise Wrong(f"nobody listens on {port}")


def read_all(stream):
    """What a peer sends until it closes or resets the connection."""
    pieces = []
    with contextlib.suppress(OSError):
        while piece := stream.recv(65536):
            pieces.append(piece)
    return b"".join(pieces)


def post_of(body, path="/x12"):
    """The bytes of a POST."""
    return b"POST %s HTTP/1.1\r\nHost: localhost\r\nContent-Length: %d\r\n\r\n" % (path.encode(), len(body)) + body


# --- texts -------------------------------------------------------------------------------------


def isa(sender, receiver, control, wants=0):
    """ISA of 4 March 2025, 09:15."""
    return f"ISA*00*{'':10}*00*{'':10}*ZZ*{sender:15}*ZZ*{receiver:15}*250304*0915*U*00401*{control:09d}*{wants}*P*>~"


def interchange(function, control, *sets, sender="ACME", receiver="WHSE1", wants=0, group=None):
    """An interchange of one group of these sets; the group has the same control number unless it is given."""
    group = control if group is None else group
    return (f"{isa(sender, receiver, control, wants)}GS*{function}*{sender}*{receiver}*20250304*0915*{group}*X*004010~"
            f"{''.join(sets)}GE*{len(sets)}*{group}~IEA*1*{control:09d}~")


def set_of(kind, segments, number=1):
    """A set of these segments, between ST and SE."""
    return "".join(f"{it}~" for it in [f"ST*{kind}*{number:04d}", *segments, f"SE*{len(segments) + 2}*{number:04d}"])


def advice(shipment, lines, order="PO77", number=1):
    """A 943 of lines of quantity, item, lot and, where there is one, date."""
    inner = []
    for quantity, item, lot, *day in lines:
        inner += [f"W04*{quantity}*EA**SK*{item}", f"N9*LT*{lot}{f'**{day[0]}' if day else ''}"]
    total = sum(line[0] for line in lines)
    return set_of("943", [f"W06*F*{order}*20250303*{shipment}", *inner, f"W03*{total}"], number)


# --- the repository ----------------------------------------------------------------------------


def files(*patterns):
    """The files of the repository that fit one of the patterns, as paths from its top, without what is built."""
    found = []
    for at, folders, names in os.walk(TOP):
        folders[:] = sorted(it for it in folders if it not in (".git", "out", "__pycache__"))
        paths = (os.path.relpath(os.path.join(at, name), TOP) for name in names)
        found += [path for path in paths if any(fnmatch.fnmatch(path, it) for it in patterns)]
    return sorted(found)


def crates_of():
    """What each crate of crates.txt uses, the repository's own and the kit's."""
    found = {}
    with open(f"{TOP}/crates.txt", encoding="utf-8") as file:
        for line in file:
            name, colon, below = line.split("#")[0].partition(":")
            if colon:
                found[name.strip()] = below.split()
    return found


def below(name, crates=None):
    """The crates of the repository that a crate stands on, itself among them."""
    crates = crates or crates_of()
    found, left = set(), [name]
    while left:
        name = left.pop()
        if name in crates and name not in found:
            found.add(name)
            left += crates[name]
    return found


# --- books and libraries -----------------------------------------------------------------------


def rows_of(book):
    """All rows of all tables of a book by the names of the tables, each in the order of its rows' texts."""
    with contextlib.closing(sqlite3.connect(book)) as db:
        names = [name for name, in db.execute("SELECT name FROM sqlite_schema WHERE type = 'table'")]
        return {name: sorted(db.execute(f"SELECT * FROM {name}"), key=repr) for name in names}


def on_terminal(words):
    """Runs a command whose standard error is a terminal (which puts CR before each LF): its exit status, what it
    prints on standard output, and what the terminal shows."""
    mine, its = pty.openpty()
    ran = subprocess.run(words, stdout=subprocess.PIPE, stderr=its, check=False)
    os.write(its, b"#")
    shown = b""
    while not shown.endswith(b"#"):
        shown += os.read(mine, 65536)
    os.close(its)
    os.close(mine)
    return ran.returncode, ran.stdout, shown[:-1]


def preloaded(folder, source, *flags):
    """A library of C, compiled so that it can stand before the C library (LD_PRELOAD)."""
    own = tempfile.mkdtemp(dir=folder)
    path, library = os.path.join(own, "before.c"), os.path.join(own, "before.so")
    with open(path, "w", encoding="utf-8") as file:
        file.write(source)
    subprocess.run(["gcc", "-shared", "-fPIC", "-O1", *flags, "-o", library, path, "-ldl"], check=True)
    return library


# --- pages -------------------------------------------------------------------------------------


def with_part(text, name, part):
    """A page with another text between `<!-- made: NAME -->` and `<!-- end -->`."""
    begin, end = f"<!-- made: {name} -->\n", "\n<!-- end -->"
    head, found, rest = text.partition(begin)
    if not found or end not in rest:
        raise Wrong(f"no part {name}")
    return head + begin + part + end + rest.partition(end)[2]


# --- figures -----------------------------------------------------------------------------------


def figure(name, value, unit):
    """Reports a measured figure: a line that bench/run puts into its file of results."""
    print(f"figure: {name} = {value:.4g} {unit}", flush=True)
