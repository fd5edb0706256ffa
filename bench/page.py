#!/usr/bin/env python3
"""Works with the clerks' page in a real browser.

Usage: bench/page.py [--proxy] [--only NAME] [--pictures] [PROGRAM]
       (default: crates/whx12/out/whx12, which `rt run` in that folder leaves)

       --proxy        the page, and the lines of advices, come from this script and not from the server
       --only NAME    one of the parts below
       --pictures     writes docs/pictures/*.png anew, and tries nothing

Wants Debian's chromium, chromium-driver and python3-selenium; pictures also poppler-utils. PROGRAM serves a book with clerks; Chromium,
without a head, opens the page through a relay that can lose an answer. The parts:

  acts      counts, picks and a recount, typed as a scanner types; the same by command over a copy of the book: both books have the same
            seal, so each entry is the same, and each text that went out is the same, byte for byte
  lost      an answer that is lost on its way, a server that is stopped and started before an act comes in, a page that is loaded again, and
            a fault: the page gives the same act again under the same ticket, says so, and each is done once
  clerks    two browsers at one order: the second is told that it was picked, and nothing more goes out
  texts     names and addresses with tags, quotes and each printable byte are shown as they are, and no element comes of them
  day       what Today tells: pieces that came in and went out, documents that were refused, sets that were rejected, the last acts; where
            the book is as it was, a view that is shown again asks for nothing but that
  looks     at 360 and 1,920 pixels, light and dark: nothing is wider than the screen, texts have a contrast of 4.5, whatever is pressed or
            filled in has a name and a size of 24 pixels
  bars      the Code 128 bars of a printed picking sheet, read by zbarimg, where that and pdftoppm are there
  types     the types in the comments of the scripts, read by tsc, where that is there
  large     100 depositors with 10,000 pairs: the first view within a second, all of it within 3 seconds of what the browser takes
            for the bare requests
  long      one depositor with 10,000 pairs, whose stock comes from this script: stock and recount, and no stretch of a second without an
            answer to keys

In each the console has no error (but for requests that are meant to fail), and nothing is asked of another origin. Status 1 where
something differs; the folder is then kept.
"""
import base64
import contextlib
import json
import os
import shutil
import socket
import sqlite3
import subprocess
import sys
import tempfile
import threading
import time

# Debian's package of selenium, where another Python than Debian's stands first.
sys.path.append("/usr/lib/python3/dist-packages")
from selenium import webdriver  # noqa: E402
from selenium.webdriver.chrome.service import Service  # noqa: E402
from selenium.webdriver.common.by import By  # noqa: E402
from selenium.webdriver.common.keys import Keys  # noqa: E402

import lib  # noqa: E402
import page_source  # noqa: E402
from lib import LOOPBACK, TOP, Wrong, figure, free_port, option, program_in, same  # noqa: E402

RUN = {
    "tier": "night",
    "shows": "the clerks' page in Chromium: acts are those by command, lost answers come under the same ticket, texts stay texts",
    "needs": ["program", "chromium", "chromedriver"],
    "words": [""],
    "minutes": 7,
}
AT = "2026-03-02T10:20"
DAY, PICTURES = f"{TOP}/examples/day", f"{TOP}/docs/pictures"
SECONDS = 20
# The dates of the pages that are tried and pictured: the day of examples/day.
FIXED_DAY = """
  const Real = Date, shift = new Real(2026, 2, 2, 11, 30).getTime() - Real.now();
  window.Date = class extends Real { constructor(...of) { of.length ? super(...of) : super(Real.now() + shift); }
    static now() { return Real.now() + shift; } };
"""


# --- the house ---------------------------------------------------------------------------------


class House:
    """A book in a folder, and the server over it, which is stopped and started at one port."""

    def __init__(self, program, folder, name):
        self.program, self.folder, self.book = program, folder, f"{folder}/{name}.book"
        self.port, self.server = free_port(), None

    def run(self, *words, wanted=0):
        ran = subprocess.run([self.program, *words, "--book", self.book], cwd=DAY, capture_output=True, check=False)
        if ran.returncode != wanted:
            raise Wrong(f"{words}: status {ran.returncode}, {ran.stderr.decode()}")
        return ran.stdout

    def at(self, *words):
        """A command at the moment that the server has."""
        return self.run(*words, "--at", AT)

    def start(self):
        self.server, _ = lib.serve(self.program, self.book, "--clerks", "--at", AT, port=self.port, stderr=subprocess.DEVNULL)

    def stop(self):
        if self.server:
            self.server.terminate()
            self.server.wait()
        self.server = None

    def copy(self, name):
        """Another house with the same book."""
        other = House(self.program, self.folder, name)
        for end in ("", "-wal"):
            if os.path.exists(self.book + end):
                shutil.copy(self.book + end, other.book + end)
        return other

    def post(self, text):
        """An interchange that a partner hands in."""
        answer = lib.once(LOOPBACK, self.port, lib.post_of(text))[1]
        if b" 200 OK" not in answer[:20] or b"*R*" in answer:
            raise Wrong(f"an interchange was refused: {answer!r:.400}")

    def advised(self, who, shipment):
        """The lines of an advice, out of a copy of the book's files, since nothing but the server may open these."""
        with tempfile.TemporaryDirectory() as folder:
            for end in ("", "-wal"):
                shutil.copy(self.book + end, f"{folder}/book{end}")
            with contextlib.closing(sqlite3.connect(f"{folder}/book")) as db:
                is_open = db.execute("SELECT is_open FROM advice WHERE who = ? AND shipment = ?", (who, shipment)).fetchone()
                if is_open != (1,):
                    return 422, "22 UnknownAdvice\n" if is_open is None else "23 AdviceClosed\n"
                rows = db.execute("SELECT item, lot, quantity FROM advice_line WHERE who = ? AND shipment = ? ORDER BY line", (who, shipment))
                return 200, "".join(f"{item},{lot},{quantity}\n" for item, lot, quantity in rows)


def day_in(name):
    """A text of the day of the examples."""
    with open(f"{DAY}/{name}", "rb") as file:
        return file.read()


def sheet_in(name):
    """The lines of a sheet of the day."""
    return [line.split(",") for line in day_in(name).decode().split()]


class Relay:
    """Stands between the browser and the server, and hands on what it gets. It can lose answers, and answer for a server that has no page."""

    def __init__(self, house, is_proxy):
        self.house, self.is_proxy = house, is_proxy
        # Whether acts get no answer, and whether they don't come to the server and a fault is told.
        self.loses = self.faults = False
        self.listener = socket.create_server((LOOPBACK, 0))
        self.base = f"http://{LOOPBACK}:{self.listener.getsockname()[1]}/"
        threading.Thread(target=self.accept, daemon=True).start()

    def accept(self):
        while True:
            peer, _ = self.listener.accept()
            threading.Thread(target=self.hand_on, args=(peer,), daemon=True).start()

    def hand_on(self, peer):
        with peer, contextlib.suppress(OSError):
            request = self.request_of(peer)
            path = request.split(b" ", 2)[1].decode() if request.count(b" ") > 1 else ""
            is_act = request.startswith(b"POST /") and not path.startswith("/try/")
            answer = self.own(path, is_act) or self.server_says(request)
            if not (self.loses and is_act):
                peer.sendall(answer)

    @staticmethod
    def request_of(peer):
        """A whole request."""
        request = b""
        while b"\r\n\r\n" not in request:
            piece = peer.recv(65536)
            if not piece:
                return request
            request += piece
        head, _, body = request.partition(b"\r\n\r\n")
        length = next((int(line.split(b":")[1]) for line in head.split(b"\r\n") if line.lower().startswith(b"content-length:")), 0)
        while len(body) < length:
            body += peer.recv(65536)
        return head + b"\r\n\r\n" + body

    def server_says(self, request):
        with socket.create_connection((LOOPBACK, self.house.port), SECONDS) as server:
            server.sendall(request)
            return lib.read_all(server)

    def own(self, path, is_act):
        """What this answers for the server: a fault where one is wanted, and what the server itself has no answer to yet."""
        parts = path.split("/")
        if is_act and self.faults:
            status, text = 503, "41 Store\n"
        elif self.is_proxy and path == "/":
            return page_source.response()
        elif self.is_proxy and parts[1] == "advices":
            status, text = self.house.advised(parts[2], parts[3])
        else:
            return None
        head = f"HTTP/1.1 {status} Told\r\nContent-Type: text/plain\r\nContent-Length: {len(text)}\r\nConnection: close\r\n\r\n"
        return f"{head}{text}".encode()


# --- the browser -------------------------------------------------------------------------------


class Page:
    """The page in a browser of its own, at a relay."""

    def __init__(self, relay, clerk, width=1280, height=800, is_dark=False, fixed=False):
        self.relay = relay
        words = webdriver.ChromeOptions()
        words.binary_location = shutil.which("chromium")
        for word in ("headless=new", "no-sandbox", "disable-gpu", "disable-dev-shm-usage", "hide-scrollbars", f"window-size={width},{height}"):
            words.add_argument(f"--{word}")
        words.set_capability("goog:loggingPrefs", {"browser": "ALL", "performance": "ALL"})
        self.browser = webdriver.Chrome(service=Service(shutil.which("chromedriver")), options=words)
        self.tell("Emulation.setDeviceMetricsOverride", width=width, height=height, deviceScaleFactor=1, mobile=False)
        self.tell("Emulation.setEmulatedMedia", features=[{"name": "prefers-color-scheme", "value": "dark" if is_dark else "light"}])
        if fixed:
            self.tell("Page.addScriptToEvaluateOnNewDocument", source=FIXED_DAY)
        self.browser.get(relay.base)
        self.find("#clerk").send_keys(clerk)

    def tell(self, command, **how):
        return self.browser.execute_cdp_cmd(command, how)

    def asked(self, script):
        return self.browser.execute_script(f"return {script}")

    def until(self, what, script):
        """What a script gives, once that is something."""
        end = time.monotonic() + SECONDS
        while time.monotonic() < end:
            found = self.asked(script)
            if found:
                return found
            time.sleep(0.03)
        raise Wrong(f"{what}: not within {SECONDS} seconds; the page says {self.asked('document.body.innerText')!r:.1500}")

    def find(self, selector):
        return self.browser.find_element(By.CSS_SELECTOR, selector)

    def press(self, words):
        """Presses the last button with these words that is shown."""
        shown = f"[...document.querySelectorAll('button')].filter(it => it.textContent === {json.dumps(words)} && it.checkVisibility())"
        self.until(f"a button {words}", f"{shown}.length > 0")
        self.browser.execute_script(f"{shown}.at(-1).click()")

    def open(self, view):
        """A view of a page that is loaded anew."""
        self.browser.get("about:blank")
        self.browser.get(f"{self.relay.base}#{view}")
        self.until(view, "document.getElementById('view')?.getAttribute('aria-busy') === 'false'")

    def go(self, view):
        """Another view of the page that is there."""
        self.browser.execute_script(f"location.hash = {json.dumps(view)}")
        title = view.partition("/")[0].capitalize()
        self.until(view, f"document.title.startsWith('{title}') && document.getElementById('view').getAttribute('aria-busy') === 'false'")

    def says(self):
        return self.asked("document.body.innerText")

    def scan(self, text):
        """Types as a scanner does, into what has the focus."""
        self.browser.switch_to.active_element.send_keys(text, Keys.ENTER)

    def fill(self, lines):
        """Gives quantities: scans item and lot, then types the quantity."""
        for item, lot, quantity in lines:
            self.scan(f"{item},{lot}")
            self.until(f"the field of {item} {lot}", f"document.activeElement.getAttribute('aria-label') === 'Quantity of {item}, lot {lot}'")
            self.scan(quantity)

    def review(self, words):
        """Looks at the act before it is given: its ticket, and what the page says."""
        self.press(words)
        self.until("the trial", "document.querySelector('dialog[open] .tried') && !document.querySelector('dialog .tried .hint')")
        for box in self.browser.find_elements(By.CSS_SELECTOR, "dialog .question input"):
            box.click()
        return self.asked("document.querySelector('dialog code').textContent"), self.asked("document.querySelector('dialog').innerText")

    def act(self, view, lines, kind):
        """An act from its first line to its document: the ticket."""
        self.open(view)
        self.fill(lines)
        ticket, _ = self.review(f"Review the {kind}")
        self.press(f"Send the {kind}")
        self.until(f"the document of {view}", "document.querySelector('dialog .note.good')?.textContent.startsWith('Done.')")
        self.press("Done")
        return ticket

    def printed(self):
        """The view on paper, as a PDF."""
        return base64.b64decode(self.tell("Page.printToPDF", preferCSSPageSize=True)["data"])

    def end(self, may_fail=""):
        """Closes the browser: no error on the console but for requests that may fail, and no request to another origin."""
        told = [it["message"] for it in self.browser.get_log("browser")]
        wrong = [it for it in told if not (may_fail and "Failed to load resource" in it and may_fail in it)]
        events = [json.loads(it["message"])["message"] for it in self.browser.get_log("performance")]
        urls = [it["params"]["request"]["url"] for it in events if it["method"] == "Network.requestWillBeSent"]
        self.browser.quit()
        same("the console", wrong, [])
        same("requests to others", [it for it in urls if not it.startswith((self.relay.base, "data:,"))], [])
        if not urls:
            raise Wrong("no request was seen")


# --- the parts ---------------------------------------------------------------------------------


def new_house(program, folder, name):
    """A book of the day's first hour: two depositors, two advices."""
    house = House(program, folder, name)
    house.run("init", "ZZ-HARBOR")
    house.at("roster", "depositors.toml")
    for file in ("holm-advice.x12", "tearoom-advice.x12"):
        house.at("send", file)
    return house


def sheet_file(house, name, lines):
    path = f"{house.folder}/{name}"
    with open(path, "w", encoding="ascii") as file:
        file.writelines(f"{','.join(line)}\n" for line in lines)
    return path


def outbox_of(house, who):
    """All that went out to a depositor: the list, and each text."""
    listed = house.run("outbox", who).decode()
    return listed, [house.run("outbox", who, "--number", line.split()[0]) for line in listed.splitlines()]


def acts(program, folder, is_proxy):
    """Acts by the page, and by command."""
    served = new_house(program, folder, "served")
    plain = served.copy("plain")
    served.start()
    page = Page(Relay(served, is_proxy), "AB")
    count = sheet_in("holm-count.csv")
    other = [*sheet_in("tearoom-count.csv"), ["TEA-GREY", "26W77", "12"]]
    tickets = [page.act("receiving/ZZ-HOLM/SH-2041", count, "count")]
    page.open("receiving/ZZ-TEAROOM/TR-9")
    # The next lot is scanned while the quantity of the first still has the focus.
    page.scan("26W02")
    page.browser.switch_to.active_element.send_keys(other[0][2])
    time.sleep(0.3)
    page.scan("26W08")
    page.scan(other[1][2])
    page.scan("TEA-GREY 26W77")
    page.press("Add this line")
    page.scan(other[-1][2])
    tickets.append(page.review("Review the count")[0])
    page.press("Send the count")
    page.press("Done")
    served.post(day_in("holm-orders.x12"))
    tickets += [page.act(f"picking/ZZ-HOLM/SO-{n}", sheet_in(f"pick-{n}.csv"), "pick") for n in (551, 552)]
    tickets.append(page.act("recount/ZZ-HOLM", sheet_in("recount.csv"), "recount"))
    page.end(may_fail="/try/")
    served.stop()
    plain.at("count", "ZZ-HOLM", tickets[0], "SH-2041", "holm-count.csv")
    plain.at("count", "ZZ-TEAROOM", tickets[1], "TR-9", sheet_file(plain, "other.csv", other))
    plain.at("send", "holm-orders.x12")
    for ticket, n in zip(tickets[2:4], (551, 552)):
        plain.at("pick", "ZZ-HOLM", ticket, f"SO-{n}", f"pick-{n}.csv")
    plain.at("recount", "ZZ-HOLM", tickets[4], "recount.csv")
    for who in ("ZZ-HOLM", "ZZ-TEAROOM"):
        same(f"the outbox of {who}", outbox_of(served, who), outbox_of(plain, who))
    same("the seals", served.run("seal"), plain.run("seal"))
    same("the check", served.run("verify"), plain.run("verify"))
    return f"{len(tickets)} acts are those by command, byte for byte: {', '.join(tickets)}"


NO_ANSWER = "document.querySelector('dialog .note.warn')?.textContent.startsWith('No answer came.')"


def answer_lost(page, relay):
    """The act is done, and its answer lost; then it is given again: the ticket."""
    page.open("receiving/ZZ-HOLM/SH-2041")
    page.fill(sheet_in("holm-count.csv"))
    ticket, _ = page.review("Review the count")
    relay.loses = True
    page.press("Send the count")
    page.until("a note that no answer came", NO_ANSWER)
    relay.loses = False
    page.until("the answer", f"document.querySelector('dialog').innerText.includes('times under ticket {ticket}')")
    page.press("Done")
    return ticket


def server_stopped(page, house):
    """The server is stopped before the act comes in; then it is started, and the page loaded again: the ticket."""
    page.open("receiving/ZZ-TEAROOM/TR-9")
    page.fill(sheet_in("tearoom-count.csv"))
    ticket, _ = page.review("Review the count")
    house.stop()
    page.press("Send the count")
    page.until("a note that no answer came", NO_ANSWER)
    page.browser.get("about:blank")
    house.start()
    page.open("today")
    page.until("the answer", f"document.getElementById('waiting').innerText.includes('times under ticket {ticket}')")
    page.press("Seen")
    return ticket


def server_faulty(page, relay):
    """The server meets a fault, and the act waits at the top of the page: the ticket."""
    page.open("recount/ZZ-HOLM")
    page.fill([["HAMMER-12", "A311", "239"]])
    ticket, _ = page.review("Review the recount")
    relay.faults = True
    page.press("Send the recount")
    page.until("a note of the fault", "document.querySelector('dialog .note.warn')?.textContent.includes('a fault: 41 Store')")
    page.press("Close")
    page.until("what waits", f"document.getElementById('waiting').innerText.includes('{ticket}')")
    relay.faults = False
    page.press("Give it again now")
    page.until("the answer", "document.getElementById('waiting').innerText.includes('947 number 3')")
    return ticket


def lost(program, folder, is_proxy):
    """Answers that are lost."""
    house = new_house(program, folder, "lost")
    house.start()
    relay = Relay(house, is_proxy)
    page = Page(relay, "CD")
    tickets = [answer_lost(page, relay), server_stopped(page, house), server_faulty(page, relay)]
    page.end(may_fail=relay.base)
    house.stop()
    same("the outbox of ZZ-HOLM", house.run("outbox", "ZZ-HOLM"), b"     1 ANS -\n     2 944 open\n     3 947 open\n")
    same("the outbox of ZZ-TEAROOM", house.run("outbox", "ZZ-TEAROOM"), b"     1 ANS -\n     2 944 open\n")
    return f"a lost answer, a stopped server and a fault: {', '.join(tickets)} are done once"


def clerks(program, folder, is_proxy):
    """Two clerks at one order."""
    house = new_house(program, folder, "clerks")
    house.at("count", "ZZ-HOLM", "CNT-1", "SH-2041", "holm-count.csv")
    house.at("send", "holm-orders.x12")
    house.start()
    relay = Relay(house, is_proxy)
    one, two = Page(relay, "AB"), Page(relay, "CD")
    picked = sheet_in("pick-551.csv")
    two.open("picking/ZZ-HOLM/SO-551")
    two.fill(picked)
    one.act("picking/ZZ-HOLM/SO-551", picked, "pick")
    _, told = two.review("Review the pick")
    if "picked before" not in told:
        two.press("Send the pick")
        two.until("the refusal", "document.querySelector('dialog').innerText.includes('picked before')")
    same("what to do", "Don't ship it again." in two.says(), True)
    two.open("picking/ZZ-HOLM/SO-551")
    same("the order opened again", "picked before" in two.says(), True)
    one.end(may_fail="/try/")
    two.end(may_fail="ZZ-HOLM")
    house.stop()
    same("what went out", house.run("outbox", "ZZ-HOLM"), b"     1 ANS -\n     2 944 open\n     3 ANS -\n     4 945 open\n")
    return "the second clerk at an order is told, and one 945 goes out"


# An interchange that refuses document 2, a 944, made of one that accepts a 945; and an advice with a wrong sum.
REFUSING = [(b"000000103", b"000000104"), (b"AK1*SW*4", b"AK1*RE*2"), (b"AK2*945", b"AK2*944"), (b"AK5*A", b"AK5*R*5"), (b"AK9*A*1*1*1", b"AK9*R*1*1*0")]
WRONG_SUM = [(b"000000001", b"000000003"), (b"TR-9", b"TR-10"), (b"W03*500", b"W03*501")]
ASKED = "performance.getEntriesByType('resource').map(it => new URL(it.name).pathname).filter(it => !['/health', '/depositors'].includes(it))"


def changed(text, changes):
    """A text with these changes, each of which changes something."""
    for old, new in changes:
        same(f"{old} is there", old in text, True)
        text = text.replace(old, new)
    return text


def day(program, folder, is_proxy):
    """What Today tells of a day."""
    house = new_house(program, folder, "day")
    house.at("count", "ZZ-HOLM", "CNT-1", "SH-2041", "holm-count.csv")
    house.at("send", "holm-orders.x12")
    house.at("pick", "ZZ-HOLM", "PCK-1", "SO-551", "pick-551.csv")
    house.start()
    for name, changes in (("holm-ack.x12", REFUSING), ("tearoom-advice.x12", WRONG_SUM)):
        lib.once(LOOPBACK, house.port, lib.post_of(changed(day_in(name), changes)))
    page = Page(Relay(house, is_proxy), "AB", fixed=True)
    page.open("today")
    told = " ".join(page.says().split())
    shipped = sum(int(line[2]) for line in sheet_in("pick-551.csv"))
    for words in ("1 delivery to count", "1 order to pick", "374 came in", f"{shipped} went out", "ZZ-HOLM refused 944 number 2: call them.",
                  "ZZ-TEAROOM: answer 2 of today rejects 1 of 1 set: tell them.", "Count of SH-2041 for ZZ-HOLM", "Pick of SO-551 for ZZ-HOLM"):
        same(f"{words!r} in {told!r}", words in told, True)
    before = page.asked(ASKED)
    page.go("receiving")
    page.go("today")
    same("what is asked again", page.asked(ASKED)[len(before):], [])
    same("the view again", " ".join(page.says().split()), told)
    house.post(day_in("tearoom-order.x12"))
    page.go("picking")
    page.go("today")
    page.until("the new order", "document.body.innerText.includes('TO-3')")
    same("what is asked of ZZ-HOLM", [it for it in page.asked(ASKED)[len(before):] if "ZZ-HOLM" in it], ["/open/ZZ-HOLM", "/outbox/ZZ-HOLM"])
    page.end()
    house.stop()
    return f"Today tells of the day, and asks again for what changed: {len(before)} requests first"


LOOKS = r"""
  const rgb = (text) => text.match(/[\d.]+/g).map(Number);
  const part = (v) => (v / 255 <= 0.03928 ? v / 255 / 12.92 : ((v / 255 + 0.055) / 1.055) ** 2.4);
  const light = ([r, g, b]) => 0.2126 * part(r) + 0.7152 * part(g) + 0.0722 * part(b);
  const back = (it) => { for (; it; it = it.parentElement) { const is = rgb(getComputedStyle(it).backgroundColor); if ((is[3] ?? 1) > 0.99) return is; } };
  const contrast = (it) => { const [a, b] = [light(rgb(getComputedStyle(it).color)), light(back(it))]; return (Math.max(a, b) + 0.05) / (Math.min(a, b) + 0.05); };
  const shown = [...document.querySelectorAll('body *')].filter((it) => it.checkVisibility() && !it.disabled && !it.closest('svg, .skip'));
  const texts = shown.filter((it) => it.localName === 'input' || [...it.childNodes].some((one) => one.nodeType === 3 && one.data.trim()));
  const pressed = shown.filter((it) => it.matches('input, select, button, a, summary'));
  const isNamed = (it) => it.textContent.trim() || it.getAttribute('aria-label') || it.labels?.length;
  const told = (all) => all.map((it) => it.outerHTML.slice(0, 100));
  return [
    told(shown.filter((it) => document.documentElement.scrollWidth > innerWidth && it.getBoundingClientRect().right > innerWidth + 1)),
    told(texts.filter((it) => contrast(it) < 4.5)), told(pressed.filter((it) => !isNamed(it))),
    told(pressed.filter((it) => it.getBoundingClientRect().height < 24 && !it.closest('p'))), texts.length,
  ];
"""


def looks(program, folder, is_proxy):
    """Sizes, contrast and names, in light and dark."""
    house = pictured_house(program, folder)
    relay, number = Relay(house, is_proxy), 0
    for width in (360, 1920):
        for is_dark in (False, True):
            page = Page(relay, "AB", width, 900, is_dark=is_dark, fixed=True)
            for view in ("today", "depositor", "depositor/ZZ-TEAROOM", "receiving", "picking/ZZ-TEAROOM/TO-7", "recount/ZZ-TEAROOM", "receiving/ZZ-TEAROOM/TR-11"):
                page.open(view)
                if view == "depositor/ZZ-TEAROOM":
                    page.browser.execute_script("[...document.querySelectorAll('.outbox summary')].slice(0, 2).forEach(it => it.click())")
                    page.until("two texts", "document.querySelectorAll('.outbox .segments').length === 2")
                *wrong, texts_shown = page.browser.execute_script(LOOKS)
                same(f"{view} at {width}, dark {is_dark}: too wide, too faint, without a name, too small", wrong, [[]] * 4)
                number += texts_shown
            page.fill([["TEA-GREEN", "26W20", "490"]])
            page.review("Review the count")
            same(f"the review at {width}, dark {is_dark}", page.browser.execute_script(LOOKS)[:4], [[]] * 4)
            page.end()
    house.stop()
    return f"{number} texts at 360 and 1,920 pixels, in light and dark, can be read, and all that is pressed has a name"


PRINTED = "".join(map(chr, range(0x20, 0x7F)))
TAGS = ["<img src=x onerror=boom()>", "<script>boom()</script>", "\"'><svg onload=boom()>", "&lt;b&gt; {{boom()}} ${boom()}"]


def odd_interchange():
    """How many orders, and the interchange of them: their names and addresses have tags, and each printable byte in each field, since its
    delimiters aren't printed."""
    parts, inner = [PRINTED[at:at + 24] for at in range(0, len(PRINTED), 24)] + [tag[:30] for tag in TAGS], ""
    for n, part in enumerate(parts, 1):
        segments = [["W05", "N", f"ODD-{n}"], ["N1", "ST", part], ["N3", part, part], ["N4", part, "", part[:15].ljust(3, ".")], ["LX", "1"],
                    ["W01", "1", "EA", "", "SK", "SAW-9"], ["W76", "1"]]
        body = [["ST", "940", f"{n:04d}"], *segments, ["SE", str(len(segments) + 2), f"{n:04d}"]]
        inner += "".join("\x1d".join(elements) + "\x1e" for elements in body)
    head = lib.isa("HOLM", "HARBOR", 900).replace("*", "\x1d").replace(">~", "\x1f\x1e")
    group = "GS*OW*HOLM*HARBOR*20260302*1100*900*X*004010".replace("*", "\x1d")
    return len(parts), f"{head}{group}\x1e{inner}GE\x1d{len(parts)}\x1d900\x1eIEA\x1d1\x1d000000900\x1e".encode()


def texts(program, folder, is_proxy):
    """What depositors write is text."""
    house = new_house(program, folder, "texts")
    house.at("count", "ZZ-HOLM", "CNT-1", "SH-2041", "holm-count.csv")
    house.start()
    number, interchange = odd_interchange()
    house.post(interchange)
    relay = Relay(house, is_proxy)
    page = Page(relay, "AB")
    elements = ("[...new Set([...document.querySelectorAll('body *')].map(it => it.localName))]"
                ".filter(it => /^(img|iframe|object|embed|script|style|link)$/.test(it))")
    for n in range(1, number + 1):
        asked = f"GET /orders/ZZ-HOLM/ODD-{n} HTTP/1.1\r\nHost: {LOOPBACK}\r\n\r\n".encode()
        lines = lib.once(LOOPBACK, house.port, asked)[1].partition(b"\r\n\r\n")[2].decode().split("\n")
        page.open(f"picking/ZZ-HOLM/ODD-{n}")
        for place in ("main address .line", "#sheet address .line"):
            shown = page.asked(f"[...document.querySelectorAll('{place}')].map(it => it.textContent)")
            same(f"the address of ODD-{n}", shown, [it[3:] for it in lines[1:5]])
        same("elements", page.asked(elements), ["script"])
        same("scripts", page.asked("document.scripts.length"), 1)
    page.open("today")
    for tag in TAGS:
        shown = page.asked(f"[...document.querySelectorAll('td')].some(it => it.textContent === {json.dumps(tag[:30])})")
        same(f"{tag} in the list", shown, True)
    page.open("depositor/ZZ-HOLM")
    page.browser.execute_script("document.querySelector('.outbox summary').click()")
    page.until("the answer by segment", "document.querySelectorAll('.outbox .segments li').length > 5")
    same("elements", page.asked(elements), ["script"])
    same("what scripts would have done", page.asked("typeof window.boom"), "undefined")
    page.end()
    house.stop()
    return f"{number} orders with tags and each printable byte are shown as text"


def bars(program, folder, is_proxy):
    """The bars of a printed sheet, read by another program."""
    if not (shutil.which("pdftoppm") and shutil.which("zbarimg")):
        return "the bars of a sheet aren't read: wants pdftoppm and zbarimg"
    house = new_house(program, folder, "bars")
    house.at("count", "ZZ-HOLM", "CNT-1", "SH-2041", "holm-count.csv")
    house.at("send", "holm-orders.x12")
    house.start()
    page = Page(Relay(house, is_proxy), "AB")
    page.open("picking/ZZ-HOLM/SO-551")
    sheet = f"{folder}/sheet.pdf"
    with open(sheet, "wb") as file:
        file.write(page.printed())
    page.end()
    house.stop()
    subprocess.run(["pdftoppm", "-r", "200", "-png", "-singlefile", sheet, sheet], check=True)
    found = subprocess.run(["zbarimg", "-q", "--raw", f"{sheet}.png"], capture_output=True, text=True, check=False).stdout.split()
    wanted = {"SO-551"} | {word for line in sheet_in("pick-551.csv") for word in line[:2]}
    same("the bars", set(found), wanted)
    return f"{len(found)} bars of a printed sheet are read"


def types(_program, folder, _is_proxy):
    """The types in the comments of the scripts, read by the checker of Debian's node-typescript."""
    if not shutil.which("tsc"):
        return "the types of the scripts aren't read: wants tsc"
    names = [f"{page_source.PAGE}/{name}" for name in page_source.scripts()]
    words = ["--allowJs", "--checkJs", "--noEmit", "--strict", "--noImplicitAny", "false", "--noUnusedLocals", "--noUnusedParameters"]
    ran = subprocess.run(["tsc", *words, "--target", "es2022", "--lib", "es2022,dom,dom.iterable", *names],
                         cwd=folder, capture_output=True, text=True, check=False)
    same("what tsc says", ran.stdout, "")
    return f"the types of {len(names)} scripts are as their comments say"


def large_house(program, folder, depositors=100, pairs=100):
    """A book of many depositors, each with so many pairs on hand."""
    house = House(program, folder, "large")
    names = [f"D{n:03d}" for n in range(depositors)]
    for inner in ("inbox", "sheets"):
        os.mkdir(f"{folder}/{inner}")
    with open(f"{folder}/names.toml", "w", encoding="ascii") as file:
        file.write("depositors = [" + ", ".join(f'"ZZ-{name}"' for name in names) + "]\n")
    acts_of = []
    for at, name in enumerate(names):
        lines = [(10 + n, f"ITEM-{n:03d}", f"L{at}", f"2026{1 + n % 12:02d}28") for n in range(pairs)]
        sets = [lib.advice("S-1", lines), lib.advice("S-2", lines[:9], number=2)]
        with open(f"{folder}/inbox/{name}.x12", "w", encoding="ascii") as file:
            file.write(lib.interchange("AR", 1, *sets, sender=name, receiver="HARBOR"))
        sheet = sheet_file(house, f"sheets/{name}.csv", [[item, lot, str(quantity)] for quantity, item, lot, _ in lines])
        acts_of.append(f"count ZZ-{name} CNT-1 S-1 {sheet} --at {AT}\n")
    with open(f"{folder}/counts", "w", encoding="ascii") as file:
        file.writelines(acts_of)
    house.run("init", "ZZ-HARBOR")
    house.at("roster", f"{folder}/names.toml")
    house.at("take", f"{folder}/inbox")
    house.run("batch", f"{folder}/counts")
    return house


WATCH = """
  window.seen = {};
  new MutationObserver(() => {
    if (!seen.tiles && document.querySelector('.tiles')) seen.tiles = performance.now();
    if (!seen.all && document.getElementById('view')?.getAttribute('aria-busy') === 'false') seen.all = performance.now();
  }).observe(document, { subtree: true, childList: true, attributes: true });
"""


# How long the browser takes for the same requests, when nothing is made of the responses.
BARE = """
  const done = arguments[0], begun = performance.now(), names = [...Array(100).keys()].map((at) => `ZZ-D${String(at).padStart(3, '0')}`);
  const paths = names.flatMap((who) => [`/outbox/${who}`, `/open/${who}`, `/stock/${who}/csv`]);
  const worker = async () => { for (let it = paths.shift(); it; it = paths.shift()) await (await fetch(it)).text(); };
  Promise.all([...Array(6)].map(worker)).then(() => done(performance.now() - begun));
"""


def large(program, folder, is_proxy):
    """How long the first view of a large house takes."""
    house = large_house(program, folder)
    house.start()
    page = Page(Relay(house, is_proxy), "AB")
    page.tell("Page.addScriptToEvaluateOnNewDocument", source=WATCH)
    runs = []
    for _ in range(3):
        page.open("today")
        runs.append(page.until("the whole view", "window.seen.all && window.seen"))
    same("rows", page.asked("document.querySelector('[aria-label=\\'Open work\\']').tBodies[0].rows.length"), 100)
    first, whole = (min(run[name] for run in runs) for name in ("tiles", "all"))
    page.go("picking")
    before = page.asked(ASKED)
    page.go("today")
    same("what is asked again", page.asked(ASKED)[len(before):], [])
    own = page.browser.execute_async_script(BARE)
    page.open("depositor/ZZ-D042")
    same("lots", page.asked("[...document.querySelectorAll('tfoot td')][0].textContent"), "100 items, 100 lots")
    page.end()
    house.stop()
    figure("first view of 100 depositors", first, "ms")
    figure("whole view of 100 depositors, 10,000 pairs", whole, "ms")
    if first > 1000:
        raise Wrong(f"the first view took {first:.0f} ms")
    if whole > own + 3000:
        raise Wrong(f"all of it took {whole:.0f} ms, and the bare requests {own:.0f} ms")
    return f"100 depositors, 10,000 pairs: the first view after {first:.0f} ms, all of it after {whole:.0f} ms, bare requests {own:.0f} ms"


class Stocked(Relay):
    """Answers for the server with a stock of 10,000 pairs."""

    def own(self, path, is_act):
        if path != "/stock/ZZ-HOLM/csv":
            return super().own(path, is_act)
        lines = "".join(f"ITEM-{n // 10:04d},L{n % 10},2026{1 + n % 12:02d}15,0,{n % 500},0,0\n" for n in range(10_000))
        text = f"item,lot,expiry,expected,on_hand,reserved,shipped\n{lines}"
        return f"HTTP/1.1 200 OK\r\nContent-Type: text/plain\r\nContent-Length: {len(text)}\r\nConnection: close\r\n\r\n{text}".encode()


LONGEST = "window.long = [0]; new PerformanceObserver(it => long.push(...it.getEntries().map(one => one.duration))).observe({ type: 'longtask' });"


def long(program, folder, is_proxy):
    """One depositor with many lots."""
    house = new_house(program, folder, "long")
    house.start()
    page = Page(Stocked(house, is_proxy), "AB", fixed=True)
    page.tell("Page.addScriptToEvaluateOnNewDocument", source=LONGEST)
    longest = []
    for view, rows in (("depositor/ZZ-HOLM", "[aria-label=Stock] tbody tr"), ("recount/ZZ-HOLM", ".lines li")):
        page.open(view)
        page.browser.execute_script("document.querySelector('.scan').focus()")
        page.browser.switch_to.active_element.send_keys("ITEM-0731")
        page.until("what fits", f"document.querySelectorAll('{rows}').length === 10")
        longest.append(page.asked("Math.max(...long)"))
    page.browser.execute_script("document.querySelector('.scan').value = ''")
    page.fill([["ITEM-0999", "L7", "498"], ["ITEM-0002", "L1", "20"]])
    same("what is recounted", page.asked("document.querySelector('.bar p').textContent"), "2 lots recounted")
    page.end()
    house.stop()
    if max(longest) > 1000:
        raise Wrong(f"the page stood still for {max(longest):.0f} ms")
    return f"a stock of 10,000 lots: the page stands still for at most {max(longest):.0f} ms"


# --- pictures ----------------------------------------------------------------------------------


def pictured_house(program, folder):
    """The day, with more to count, and lots that expire."""
    house = new_house(program, folder, "pictures")
    house.at("count", "ZZ-HOLM", "CNT-0412", "SH-2041", "holm-count.csv")
    house.at("count", "ZZ-TEAROOM", "CNT-0413", "TR-9", "tearoom-count.csv")
    there = [(120, "TEA-BLACK", "25K01", "20260314"), (48, "TEA-BLACK", "25K02", "20260511"), (300, "TEA-WHITE", "25W40", "20260918"),
             (60, "HONEY-500", "H771", "20260226"), (90, "HONEY-500", "H790", "20260327"), (240, "HONEY-500", "H802", "20261130"),
             (1200, "CUP-SET", "C1")]
    coming = [(500, "TEA-GREEN", "26W20", "20261227"), (250, "TEA-GREEN", "26W21", "20270127"), (80, "TEA-BLACK", "26K03", "20260830")]
    advices = [lib.advice("TR-10", there, "PO-60"), lib.advice("TR-11", coming, "PO-61", 2), lib.advice("TR-12", [(24, "CUP-SET", "C2")], "PO-62", 3)]
    tools = [(400, "HAMMER-12", "A320"), (150, "SAW-9", "B075"), (1000, "NAIL-40", "N1")]
    house.start()
    house.post(lib.interchange("AR", 7, *advices, sender="TEAROOM", receiver="HARBOR").encode())
    house.post(lib.interchange("AR", 108, lib.advice("SH-2077", tools, "PO-7790"), sender="HOLM", receiver="HARBOR").encode())
    for text in ("holm-orders.x12", "tearoom-order.x12"):
        house.post(day_in(text))
    house.stop()
    sheet = sheet_file(house, "there.csv", [[item, lot, str(n)] for n, item, lot, *_ in there])
    house.at("count", "ZZ-TEAROOM", "CNT-0414", "TR-10", sheet)
    wanted = [(100, "HONEY-500"), (100, "TEA-BLACK"), (24, "CUP-SET"), (320, "TEA-WHITE")]
    lines = [part for n, (quantity, item) in enumerate(wanted, 1) for part in (f"LX*{n}", f"W01*{quantity}*EA**SK*{item}")]
    order = ["W05*N*TO-7", "N1*ST*Fjord Coffee & Tea", "N3*Strandgaten 20*Back door, ring twice", "N4*Bergen**5013*NO", *lines, "W76*544"]
    house.start()
    house.post(lib.interchange("OW", 9, lib.set_of("940", order), sender="TEAROOM", receiver="HARBOR").encode())
    return house


def reduce(name):
    """Takes a picture to fewer colours, where a tool for that is there."""
    path = f"{PICTURES}/{name}.png"
    if shutil.which("pngquant"):
        subprocess.run(["pngquant", "--force", "--skip-if-larger", "--output", path, "128", path], check=False)
    same(f"{name} is small", os.path.getsize(path) < 150_000, True)


def photograph(page, name):
    """A picture of what the page shows, once it has settled."""
    time.sleep(0.4)
    page.browser.save_screenshot(f"{PICTURES}/{name}.png")
    reduce(name)


def pictures(program, folder, is_proxy):
    """A picture of each view, and of a printed sheet."""
    house = pictured_house(program, folder)
    os.makedirs(PICTURES, exist_ok=True)
    relay = Relay(house, is_proxy)
    page = Page(relay, "AB", fixed=True)
    views = {"today": "today", "depositor": "depositor/ZZ-TEAROOM", "recount": "recount/ZZ-TEAROOM", "picking": "picking/ZZ-TEAROOM/TO-7"}
    for name, view in views.items():
        page.open(view)
        photograph(page, name)
    with open(f"{folder}/sheet.pdf", "wb") as file:
        file.write(page.printed())
    subprocess.run(["pdftoppm", "-r", "96", "-png", "-singlefile", "-H", "800", f"{folder}/sheet.pdf", f"{PICTURES}/sheet"], check=True)
    reduce("sheet")
    page.open("receiving/ZZ-TEAROOM/TR-11")
    page.fill([["TEA-GREEN", "26W20", "500"], ["TEA-GREEN", "26W21", "245"]])
    photograph(page, "receiving")
    page.review("Review the count")
    photograph(page, "review")
    page.browser.quit()
    for name, view, size in (("dark", "depositor/ZZ-TEAROOM", (1280, 800)), ("narrow", "receiving/ZZ-TEAROOM/TR-11", (360, 740))):
        page = Page(relay, "AB", *size, is_dark=name == "dark", fixed=True)
        page.open(view)
        photograph(page, name)
        page.browser.quit()
    house.stop()
    return f"pictures in {PICTURES}"


def main(words):
    is_proxy, is_pictured = "--proxy" in words, "--pictures" in words
    only = option(words, "--only", "")
    program = program_in(words)
    parts = [pictures] if is_pictured else [it for it in (acts, lost, clerks, texts, day, looks, bars, types, large, long) if only in ("", it.__name__)]
    for part in parts:
        folder = tempfile.mkdtemp(prefix="page")
        try:
            print(part(program, folder, is_proxy), flush=True)
        except Wrong as wrong:
            print(f"{part.__name__}: {wrong}: see {folder}", file=sys.stderr)
            return 1
        shutil.rmtree(folder)
    return 0


if __name__ == "__main__":
    sys.exit(main(sys.argv[1:]))
