#!/usr/bin/env python3
"""Hands the server requests that were changed by machine, and compares each response with a second reading
of HTTP's rules.

Usage: bench/requests.py [--requests N] [--seed N] [--clerks | --apart] [PROGRAM]
       (default: 100000, crates/whx12/out/whx12, which `rt run` in that folder leaves)

PROGRAM serves a book of ZZ-WHSE1 in which ZZ-ACME is enrolled. Each request is one of its routes, or
near to one, and most are then changed: bytes flipped, put in, taken out or exchanged; fields repeated,
left out or empty; lengths too small, too large or no number; the end cut off. Each is sent on a
connection of its own, which then says that nothing more comes. The status is that of the second reading
below, written from the grammar of RFC 9112 and the rules of docs/PROFILE.md without the program's code;
of an interchange the body is what bench/model.py answers, and every response has the fields and the
length that it must have. In the end `verify` says ok, and stock and outbox are those of model.py.

With --clerks the server takes clerks' requests too, and half of the requests are such. With --apart it
does so at an address of the clerks' own alone, and each request goes to one of the two addresses.

Where a head is neither plainly good nor plainly bad, of which RFC 9112 lets a server choose (a lone LF
for CR LF, blanks before a field, bytes above 7E), 400 and the other reading are both taken. The status
is 1 where something differs; the folder is then kept.
"""
import copy
import os
import re
import shutil
import socket
import subprocess
import sys
import tempfile

import compare
import model
import page_source
from lib import Wrong, free_port, knock, option, program_in

RUN = {
    "tier": "night",
    "shows": "HTTP requests changed by machine, against a second reading of HTTP's rules and "
             "model.py",
    "needs": ["program"],
    "words": ["--requests 10000", "--requests 20000 --clerks", "--requests 10000 --apart"],
    "minutes": 6,
}
AT = "2025-03-04T09:15"
# whether clerks have an address of their own; whether clerks are served at all; and where the request that is looked at went
APART = "--apart" in sys.argv
CLERKS = APART or "--clerks" in sys.argv
ASKED = {"clerks": CLERKS}
TOKEN = rb"[!#$%&'*+\-.^_`|~0-9A-Za-z]+"
PHRASES = {200: b"OK", 204: b"No Content", 400: b"Bad Request", 403: b"Forbidden", 404: b"Not Found", 405: b"Method Not Allowed", 409: b"Conflict", 411: b"Length Required",
           413: b"Payload Too Large", 421: b"Misdirected Request", 422: b"Unprocessable Entity", 501: b"Not Implemented"}


def split_head(raw):
    """The request line, the fields and what stands after the head; None where there is no plainly good head, and whether it is plainly bad."""
    # empty lines before the request are passed over
    start = 0
    while raw[start:start + 2] == b"\r\n":
        start += 2
    end = raw.find(b"\r\n\r\n", start)
    plain = end >= 0 and b"\n" not in raw[:end].replace(b"\r\n", b"") and b"\r" not in raw[:end].replace(b"\r\n", b"")
    if not plain:
        return None, end < 0 and b"\n\n" not in raw and b"\n\r\n" not in raw
    lines = raw[start:end].split(b"\r\n")
    first = re.fullmatch(rb"(%s) ([\x21-\x7e]+) HTTP/1\.([01])" % TOKEN, lines[0])
    fields = [re.fullmatch(rb"(%s):[ \t]*([\x20-\x7e\t]*?)[ \t]*" % TOKEN, line) for line in lines[1:]]
    if first is None or None in fields:
        odd = any(byte > 0x7E for byte in raw[:end]) or any(line[:1] in b" \t" or re.match(rb"%s[ \t]+:" % TOKEN, line) for line in lines[1:] if line)
        return None, not odd and re.match(rb"%s [\x21-\x7e]+ HTTP/1\.[01]$" % TOKEN, lines[0]) is None and b"\t" not in lines[0] and b"  " not in lines[0]
    return (first.group(1), first.group(2), [(f.group(1).lower(), f.group(2)) for f in fields], raw[end + 4:], end + 4), False


def plainly(raw):
    """The request with CR LF at the end of each line of its head, where LF alone may stand, no blanks before a colon, and an x for each
    byte above 7E in a value."""
    end = re.search(rb"\r?\n\r?\n", raw)
    if end is None:
        return raw
    lines = [line.rstrip(b"\r") for line in raw[:end.start()].split(b"\n")]
    lines = lines[:1] + [re.sub(rb"^(%s)[ \t]+:" % TOKEN, rb"\1:", line) for line in lines[1:]]
    lines = lines[:1] + [name + colon + re.sub(rb"[\x80-\xff]", b"x", value) for name, colon, value in (line.partition(b":") for line in lines[1:])]
    return b"\r\n".join(lines) + b"\r\n\r\n" + raw[end.end():]


def routed(path):
    """The route of a path with what it names, or None."""
    if path == b"/x12":
        return "x12", ()
    if path == b"/try/x12":
        return "tried x12", ()
    for pattern, name in ((rb"/stock/([^/]+)", "stock"), (rb"/outbox/([^/]+)", "outbox"), (rb"/outbox/([^/]+)/([^/]+)", "content")):
        found = re.fullmatch(pattern, path)
        if found:
            return name, found.groups()
    return called(path.split(b"/")) if ASKED["clerks"] else None


def called(parts):
    """What a clerk asks for at a path of these parts, or None."""
    if parts[:2] == [b"", b"try"]:
        found = called([b"", *parts[2:]])
        return ("tried deed", found[1]) if found and found[0] == "deed" else None
    if parts == [b"", b""]:
        return "page", ()
    if parts[0] == b"" and parts[1:2] in ([b"advices"], [b"orders"]) and (len(parts) == 4 or len(parts) == 5 and parts[4] == b"csv"):
        return parts[1].decode(), (*parts[2:4], len(parts) == 5)
    if parts[0] == b"" and len(parts) == 5 and parts[1] in (b"count", b"pick"):
        return "deed", (parts[1].decode(), *parts[2:])
    if parts[0] == b"" and len(parts) == 4 and parts[1] == b"recount":
        return "deed", ("recount", *parts[2:], b"")
    if parts[0] == b"" and len(parts) == 4 and parts[1] == b"stock" and parts[3] == b"csv":
        return "export", (parts[2],)
    if parts[0] == b"" and len(parts) == 3 and parts[1] == b"open":
        return "open", (parts[2],)
    if parts == [b"", b"depositors"]:
        return "depositors", ()
    return None


# those to which a body is posted
POSTED = ("x12", "deed", "tried x12", "tried deed")


# fields that say whether a browser sends a request, and for which page
DECIDING = (b"host", b"origin", b"sec-fetch-site", b"sec-fetch-mode", b"content-type")
FORMS = (b"text/plain", b"multipart/form-data", b"application/x-www-form-urlencoded")


def is_own_host(value):
    """Whether a Host is an address in digits or localhost, with a port or without."""
    if value.startswith(b"["):
        return re.fullmatch(rb"\[(?=[^\]]*:)[0-9A-Fa-f:.]*\](:[0-9]{1,5})?", value) is not None
    found = re.fullmatch(rb"([^:]*)(:[0-9]{1,5})?", value)
    if found is None:
        return False
    name = found.group(1).lower()
    digits = re.fullmatch(rb"[0-9]{1,3}(\.[0-9]{1,3}){3}", name)
    return name == b"localhost" or (digits is not None and all(int(part) <= 255 for part in name.split(b".")))


def barred(method, fields):
    """The status by which a request that a browser may send for somebody else's page is turned away, or None."""
    of = {}
    for name in DECIDING:
        values = [value for it, value in fields if it == name]
        if len(values) > 1:
            return 400
        of[name] = values[0] if values else None
    host, origin, site, mode, kind = (of[name] for name in DECIDING)
    if host is not None and not is_own_host(host):
        return 421
    if origin is not None and (host is None or origin.partition(b"://")[0] not in (b"http", b"https")
                               or origin.partition(b"://")[2].lower() != host.lower()):
        return 403
    if site is not None and site not in (b"same-origin", b"none"):
        return 403
    is_form = kind is not None and kind.partition(b";")[0].strip(b" \t").lower() in FORMS
    return 403 if method == b"POST" and (origin is not None or mode is not None) and is_form else None


def read(raw):
    """What a request asks for: ("status", code), ("x12", body) or (route, parts); with the codes that may come beside it."""
    head, is_bad = split_head(raw)
    if head is None:
        return ("status", 400), is_bad
    method, path, fields, rest, length = head
    if length > 8192 or len(fields) > 32:
        return ("status", 400), True
    if turned := barred(method, fields):
        return ("status", turned), True
    if any(name == b"transfer-encoding" for name, _ in fields):
        return ("status", 501), True
    route = routed(path)
    if route is None:
        return ("status", 404), True
    if (method == b"POST") != (route[0] in POSTED) or method not in (b"POST", b"GET"):
        return ("status", 405), True
    if route[0] not in POSTED:
        return route, True
    lengths = [value for name, value in fields if name == b"content-length"]
    if not lengths:
        return ("status", 411), True
    if len(lengths) > 1 or not re.fullmatch(rb"[0-9]+", lengths[0]):
        return ("status", 400), True
    if int(lengths[0]) > 1_048_576:
        return ("status", 413), True
    if len(rest) < int(lengths[0]):
        return ("status", 400), True
    body = rest[:int(lengths[0])]
    return (route[0], body if route[0].endswith("x12") else (*route[1], body)), True


def response(status, kind=None, body=b"", allow=b""):
    """The bytes of a response."""
    head = b"HTTP/1.1 %d %s\r\n" % (status, PHRASES[status])
    if status != 204:
        head += b"Content-Type: %s\r\nContent-Length: %d\r\n" % (kind, len(body))
    return head + allow + b"Connection: close\r\n\r\n" + body


def bare(status, allow=b""):
    return response(status, b"text/plain", b"%d %s\n" % (status, PHRASES[status]), allow)


X12, PLAIN = b"application/EDI-X12", b"text/plain"


def exchanged(book, body):
    """The response to an interchange, by the second reading of the rules."""
    printed, told, status = book.send(body, AT)
    text = printed[:-1]
    if told.startswith("refused 1 "):
        return response(400, PLAIN, b"1 Unreadable\n")
    if told.startswith("refused 3 "):
        return response(409, X12, text)
    if status:
        return response(422, X12, text)
    return response(200, X12, text) if text else response(204)


def refused(told, is_bad_path):
    """The response that tells a clerk's refusal."""
    line = told.removeprefix("refused ").encode()
    number = int(line.split(b" ")[0])
    return response(404 if is_bad_path or number == 20 else 409 if number == 21 else 422, PLAIN, line)


def clerk(book, kind, parts):
    """The response to what a clerk asks for."""
    if kind == "export":
        text, told, _ = book.stock(parts[0], True)
        return bare(404) if told else response(200, PLAIN, text)
    if kind == "page":
        return page_source.response()
    if kind in ("advices", "orders", "open", "depositors"):
        text, told, _ = getattr(book, kind)(*parts)
        return refused(told, told.startswith("refused 32 ")) if told else response(200, PLAIN, text)
    deed, who, ticket, number, sheet = parts
    is_bad = model.partner(who) is None or not model.ident(ticket, 20) or (deed != "recount" and not model.ident(number, 22))
    text, told, _ = book.clerk(deed, who, ticket, number, sheet, AT)
    return refused(told, is_bad) if told else response(200, X12, text[:-1])


def wanted(book, raw):
    """The responses that may come to a request."""
    asked, is_sure = read(raw)
    kind = asked[0]
    if kind == "status":
        route = None
        head, _ = split_head(raw)
        if asked[1] == 405:
            route = routed(head[1])
        allow = b"" if route is None else b"Allow: POST\r\n" if route[0] in POSTED else b"Allow: GET\r\n"
        return [bare(asked[1], allow)], is_sure
    if kind.startswith("tried "):
        book, kind = copy.deepcopy(book), kind.removeprefix("tried ")
    if kind == "x12":
        return [exchanged(book, asked[1])], True
    if kind in ("deed", "advices", "orders", "open", "depositors", "export", "page"):
        return [clerk(book, kind, asked[1])], True
    who = asked[1][0]
    if kind == "stock":
        text, told, _ = book.stock(who)
        return [bare(404) if told else response(200, PLAIN, text)], True
    text, told, _ = book.outbox(who)
    if told:
        return [bare(404)], True
    if kind == "outbox":
        return [response(200, PLAIN, text)], True
    if not re.fullmatch(rb"[1-9][0-9]{0,5}", asked[1][1]):
        return [bare(404)], True
    content = book.outbox(who, int(asked[1][1]))[0]
    return [response(200, X12, content[:-1]) if content else bare(404)], True


class Requests(compare.Day):
    """Requests of a house, changed by machine."""

    def body(self):
        r = self.r
        if self.sent and r.random() < 0.3:
            return r.choice(self.sent)
        text = self.interchange(r.choice([b"ACME", b"ACME", b"BETA"]))
        self.sent.append(text)
        return text

    def lengths(self, body):
        r = self.r
        if r.random() < 0.85:
            return [b"Content-Length: %d" % len(body)]
        return r.choice([[], [b"Content-Length: %d" % max(0, len(body) + r.choice([-1, 1, 20]))], [b"Content-Length:"], [b"Content-Length: +%d" % len(body)],
                         [b"Content-Length: %d" % len(body)] * 2, [b"content-LENGTH:%d\t" % len(body)], [b"Content-Length: 1048577"], [b"Content-Length: 0x10"],
                         [b"Content-Length: " + b"0" * 40 + b"%d" % len(body)], [b"Content-Length: " + b"9" * 30], [b"Content-Length: %d, %d" % (len(body), len(body))]])

    def request(self):
        r = self.r
        method = r.choice([b"POST"] * 6 + [b"GET"] * 5 + [b"PUT", b"HEAD", b"post", b"DELETE", b"G@T"])
        path = r.choice([b"/x12"] * 6 + [b"/try/x12", b"/stock/ZZ-ACME", b"/outbox/ZZ-ACME", b"/outbox/ZZ-ACME/1", b"/outbox/ZZ-ACME/01", b"/outbox/ZZ-ACME/99", b"/stock/ZZ-NONE",
                                        b"/stock/", b"/", b"/x12/", b"/x12?a=1", b"//x12", b"/stock/ZZ-ACME/1", b"/outbox//1", b"/outbox/ZZ-ACME/1000000", b"*",
                                        b"/stock/%5A%5A-ACME", b"http://localhost/x12", b"/outbox/ZZ-BETA/2"])
        deed = r.choice(["count", "count", "pick", "pick", "recount"]) if CLERKS and r.random() < 0.4 else None
        if deed:
            path = (b"/try" if r.random() < 0.2 else b"") + self.clerk_path(deed)
        elif CLERKS and r.random() < 0.2:
            who = self.word([b"ZZ-ACME"])
            sheet = r.choice([b"/advices/%s/%s", b"/advices/%s/%s/csv", b"/orders/%s/%s", b"/orders/%s/%s/csv", b"/orders/%s/%s/txt"])
            path = r.choice([sheet % (who, self.word(compare.NUMBERS)), b"/try", b"/try/depositors", b"/try/try/x12", b"/stock/%s/csv" % who, b"/orders/%s" % who, b"/stock/%s/txt" % who,
                             b"/open/%s" % who, b"/open/%s" % who, b"/depositors", b"/open", b"/open/%s/x" % who, b"/depositors/", b"/depositors/%s" % who])
        if r.random() < 0.8:
            method = b"POST" if path.endswith(b"/x12") or deed else b"GET"
        body = self.sheet(deed) if deed else self.body() if path.endswith(b"/x12") or r.random() < 0.1 else b""
        host = r.choice([b"Host: localhost"] * 20 + [b"host: LocalHost:8080", b"Host: 127.0.0.1:80", b"Host: [::1]:8080", b"Host: [::1]", b"Host: evil.example",
                                                     b"Host: localhost.evil.example", b"Host: evil.localhost", b"Host: 127.0.0.1.evil.example", b"Host: 127.0.0.256",
                                                     b"Host: localhost:", b"Host: localhost:123456", b"Host:", b"Host: :8080", b"X: no Host"])
        fields = [host] + (self.lengths(body) if body or r.random() < 0.1 else [])
        for _ in range(r.choice([0, 0, 0, 1, 2, 28, 30, 31, 32, 40])):
            fields.append(r.choice([b"Accept: */*", b"X-A: b", b"Expect: 100-continue", b"Connection: keep-alive"]))
        if r.random() < 0.15:
            fields += self.browsers()
        if r.random() < 0.03:
            fields.append(r.choice([b"Transfer-Encoding: chunked", b"transfer-encoding: identity", b"X: " + b"a" * 8200, b": x", b"A B: c", b" folded", b"X-\x80: 1", b"X: \x80"]))
        r.shuffle(fields)
        first = b" ".join([method, path, r.choice([b"HTTP/1.1"] * 12 + [b"HTTP/1.0", b"HTTP/2.0", b"http/1.1", b"HTTP/1.1 ", b""])])
        raw = first + b"\r\n" + b"".join(field + b"\r\n" for field in fields) + b"\r\n" + body
        if r.random() < 0.35:
            raw = self.bent(raw)
        return raw + (b"GET /x12 HTTP/1.1\r\n\r\n" if r.random() < 0.03 else b"")

    def browsers(self):
        """Fields that browsers send, of this server's pages and of others'."""
        r = self.r
        some = [r.choice([b"Origin: http://localhost", b"Origin: http://localhost", b"Origin: null", b"Origin: https://evil.example", b"origin: HTTP://localhost",
                          b"Origin: https://LOCALHOST", b"Origin: http://localhost.evil.example"]),
                r.choice([b"Sec-Fetch-Site: same-origin", b"Sec-Fetch-Site: none", b"Sec-Fetch-Site: cross-site", b"sec-fetch-site: same-site", b"Sec-Fetch-Site: None"]),
                r.choice([b"Sec-Fetch-Mode: cors", b"Sec-Fetch-Mode: navigate"]),
                r.choice([b"Content-Type: text/plain", b"Content-Type: Text/Plain ; charset=utf-8", b"Content-Type: multipart/form-data; boundary=x",
                          b"content-type: application/x-www-form-urlencoded", b"Content-Type: application/EDI-X12", b"Content-Type: text/plainer"]),
                r.choice([b"Host: localhost", b"Host: localhost", b"Host: evil.example"])]
        return r.sample(some, r.choice([1, 1, 1, 2, 3]))

    def clerk_path(self, deed):
        r = self.r
        parts = [deed.encode(), self.word([b"ZZ-ACME"]), self.word([b"T%d" % n for n in range(1, 40)])] + ([] if deed == "recount" else [self.word(compare.NUMBERS)])
        if r.random() < 0.05:
            parts[r.randrange(len(parts))] = r.choice([b"", b".", b"..", b"%2F", b"a" * 23, b"ZZ-ACME?x"])
        return b"/" + b"/".join(parts) + r.choice([b""] * 20 + [b"/", b"/x"])

    def bent(self, raw):
        r = self.r
        for _ in range(r.choice([1, 1, 2])):
            at = r.randrange(len(raw) + 1)
            if r.random() < 0.6:
                at = min(at, r.randrange(120))
            odd = bytes([r.choice([0, 9, 10, 13, 32, 47, 48, 58, 65, 126, 127, 128, 255])])
            raw = r.choice([raw[:at] + odd + raw[at + 1:], raw[:at] + odd + raw[at:], raw[:at] + raw[at + r.choice([1, 2, 9]):], raw[:at]])
        return raw


def once(port, raw):
    """The response to a request on a connection of its own."""
    pieces = []
    with socket.create_connection(("127.0.0.1", port), 20) as stream:
        stream.settimeout(20)
        try:
            stream.sendall(raw)
            stream.shutdown(socket.SHUT_WR)
        except OSError:
            pass  # the server answered before it had all
        while piece := stream.recv(65536):
            pieces.append(piece)
    return b"".join(pieces)


def served(program, folder, count):
    """A server of so many connections, which listens, and its ports: of partners, and of clerks."""
    port = free_port()
    own = free_port() if APART else port
    clerks = ["--clerks-at", f"127.0.0.1:{own}"] if APART else ["--clerks"] if CLERKS else []
    server = subprocess.Popen([program, "serve", "--book", "book", "--listen", f"127.0.0.1:{port}", "--count", str(count), "--at", AT, *clerks], cwd=folder,
                              stdout=subprocess.DEVNULL, stderr=subprocess.PIPE)
    knock(port)
    return server, (port, own)


def play(program, folder, seed, count):
    """So many requests to one book, each compared: how many were of which status."""
    run = lambda *words: subprocess.run([program, *words, "--book", "book"], cwd=folder, capture_output=True, check=False)
    run("init", "ZZ-WHSE1", "--at", AT)
    run("enrol", "ZZ-ACME", "--at", AT)
    day, seen = Requests(seed, folder), {}
    day.book.enrol(b"ZZ-ACME")
    server, ports = served(program, folder, count + 1)
    for number in range(count):
        raw = day.request()
        ASKED["clerks"] = day.r.random() < 0.5 if APART else CLERKS
        may, is_sure = wanted(day.book, raw)
        got = once(ports[ASKED["clerks"]], raw)
        if got not in may and not is_sure:
            # RFC 9112 lets a server take such a head: then it is the one that was meant
            may, is_sure = wanted(day.book, plainly(raw))
            is_sure = is_sure or got[9:12] not in (b"400", b"404", b"405", b"411", b"413", b"501")
        if got not in may and (is_sure or not got):
            with open(os.path.join(folder, "request"), "wb") as file:
                file.write(raw)
            raise Wrong(f"seed {seed}, request {number}: wanted {may!r}, got {got!r}: {folder}")
        seen[got[9:12]] = seen.get(got[9:12], 0) + 1
    server.wait(20)
    for words, said in ((("stock", "ZZ-ACME"), day.book.stock(b"ZZ-ACME")), (("outbox", "ZZ-ACME"), day.book.outbox(b"ZZ-ACME"))):
        if run(*words).stdout != said[0]:
            raise Wrong(f"seed {seed}: {words} differs: {folder}")
    if run("verify").returncode:
        raise Wrong(f"seed {seed}: verify: {folder}")
    return seen


def main(words):
    requests, seed = option(words, "--requests", 100_000), option(words, "--seed", 1)
    program = program_in(words)
    seen = {}
    for one in range(seed, seed + max(1, requests // 500)):
        folder = tempfile.mkdtemp(prefix="requests")
        try:
            for status, count in play(program, folder, one, min(requests, 500)).items():
                seen[status] = seen.get(status, 0) + count
        except Wrong as wrong:
            print(wrong)
            return 1
        shutil.rmtree(folder)
    print(f"{sum(seen.values())} requests, each as it must be:", ", ".join(f"{count} of {status.decode()}" for status, count in sorted(seen.items())))
    return 0


if __name__ == "__main__":
    sys.exit(main(sys.argv[1:]))
