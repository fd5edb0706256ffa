#!/usr/bin/env python3
"""Attacks a server by a browser on its machine: pages of another origin, in frames, and a name made to lead there.

Usage: bench/doors.py [PROGRAM]     (default: crates/whx12/out/whx12, which `rt run` in that folder leaves)

Wants Debian's chromium. PROGRAM serves a book with clerks; Chromium, without a head, opens pages of another
server that post an advice to it: as a form of each encoding, as a form in a frame without an origin (`null`),
and by `fetch` and `sendBeacon`. Then it opens the server's own stock under a name that leads to it
(`evil.example`), and under its address. Each of the first is answered 403 or 421, nothing is in the book
afterwards, and the last shows the stock. Status 1 where something differs; the folder is then kept.
"""
import http.server
import os
import re
import shutil
import subprocess
import sys
import tempfile
import threading

from lib import Wrong, free_port, knock, program_in, same

RUN = {
    "tier": "night",
    "shows": "a browser's pages of another origin, frames and rebound names get nothing in and nothing out",
    "needs": ["program", "chromium"],
    "words": [""],
    "minutes": 1,
}
AT = ["--at", "2025-03-04T09:15"]
ADVICE = (
    "ISA*00*          *00*          *ZZ*ACME           *ZZ*WHSE1          *250304*0915*U*00401*000000001*1*P*>~"
    "GS*AR*ACME*WHSE1*20250304*0915*1*X*004010~ST*943*0001~W06*F*PO77*20250303*SHP1~W04*100*EA**SK*BOLT~N9*LT*L1~W03*100~SE*6*0001~"
    "GE*1*1~IEA*1*000000001~"
)
FORM = '<form id="f" method="post" enctype="%s" action="http://127.0.0.1:%d%s"><input name="%s" value="%s"></form><script>f.submit()</script>'
CALLS = (
    "<script>fetch('http://127.0.0.1:%(port)d/x12',{method:'POST',mode:'no-cors',body:'%(text)s'});"
    "navigator.sendBeacon('http://127.0.0.1:%(port)d/count/ZZ-ACME/T1/SHP1','BOLT,L1,1');"
    "fetch('http://127.0.0.1:%(port)d/stock/ZZ-ACME',{mode:'no-cors'})</script>"
)


def pages_of(port):
    """The pages that attack the server at this port, by their paths."""
    name, value = ADVICE.split("=")[0], ""
    kinds = ("text/plain", "multipart/form-data", "application/x-www-form-urlencoded")
    pages = {f"/form{n}": FORM % (kind, port, "/x12", name, value) for n, kind in enumerate(kinds)}
    pages["/sheet"] = FORM % (kinds[0], port, "/count/ZZ-ACME/T1/SHP1", "BOLT,L1,0", "")
    inside = (FORM % (kinds[0], port, "/x12", name, value)).replace("&", "&amp;").replace('"', "&quot;")
    pages["/frame"] = f'<iframe sandbox="allow-scripts allow-forms" srcdoc="{inside}"></iframe>'
    pages["/calls"] = CALLS % {"port": port, "text": ADVICE}
    return pages


def attacker(pages):
    """A server of these pages, and its port."""

    class Handler(http.server.BaseHTTPRequestHandler):
        def do_GET(self):
            body = pages.get(self.path, "").encode()
            self.send_response(200 if body else 404)
            self.send_header("Content-Type", "text/html; charset=utf-8")
            self.send_header("Content-Length", str(len(body)))
            self.end_headers()
            self.wfile.write(body)

        def log_message(self, *_):
            pass

    server = http.server.ThreadingHTTPServer(("127.0.0.1", 0), Handler)
    threading.Thread(target=server.serve_forever, daemon=True).start()
    return server.server_address[1]


def browse(folder, url):
    """What Chromium shows of a page, once its scripts have run."""
    words = ["chromium", "--headless", "--no-sandbox", "--disable-gpu", "--disable-dev-shm-usage", f"--user-data-dir={folder}/profile", "--virtual-time-budget=4000",
             "--host-resolver-rules=MAP *.example 127.0.0.1", "--dump-dom", url]
    return subprocess.run(words, capture_output=True, text=True, timeout=120, check=False).stdout


def attack(program, folder):
    """Serves a book, attacks it, and compares what the server told with what it must."""
    run = lambda *words: subprocess.run([program, *words, "--book", "book"], cwd=folder, capture_output=True, text=True, check=False)
    same("init", run("init", "ZZ-WHSE1", *AT).returncode, 0)
    same("enrol", run("enrol", "ZZ-ACME", *AT).returncode, 0)
    port = free_port()
    statuses = os.path.join(folder, "statuses")
    with open(statuses, "w", encoding="ascii") as out:
        server = subprocess.Popen([program, "serve", "--book", "book", "--listen", f"127.0.0.1:{port}", "--count", "1000", "--clerks", *AT, "--explain",
                                   "--host", "dock.example", "--host", "edi.example"], cwd=folder, stdout=subprocess.DEVNULL, stderr=out)
        try:
            knock(port)
            evil = attacker(pages_of(port))
            for path in pages_of(port):
                browse(folder, f"http://127.0.0.1:{evil}{path}")
            rebound = browse(folder, f"http://evil.example:{port}/stock/ZZ-ACME")
            own = [browse(folder, f"http://{host}:{port}/stock/ZZ-ACME") for host in ("127.0.0.1", "dock.example", "edi.example")]
        finally:
            server.terminate()
            server.wait()
    with open(statuses, encoding="ascii") as file:
        told = re.findall(r" (GET|POST) (\S+) \S+ (\d{3}) ", file.read())
    posts = [status for method, _, status in told if method == "POST"]
    if len(posts) < 7 or set(posts) != {"403"}:
        raise Wrong(f"the posts of other pages: {posts}")
    same("a rebound name", "421" in rebound and "on hand" not in rebound, True)
    same("the server's own page, by each of its names", ["on hand" in it for it in own], [True] * 3)
    same("what went out", run("outbox", "ZZ-ACME").stdout, "")
    same("the check", run("verify").stdout, "ok 1\n")
    return f"{len(posts)} posts of other pages 403, a rebound name 421, nothing in the book"


def main():
    program = program_in(sys.argv[1:])
    folder = tempfile.mkdtemp(prefix="doors")
    try:
        print(attack(program, folder))
    except Wrong as wrong:
        print(f"{wrong}: see {folder}", file=sys.stderr)
        return 1
    shutil.rmtree(folder)
    return 0


if __name__ == "__main__":
    sys.exit(main())
