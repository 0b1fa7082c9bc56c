#!/usr/bin/env python3
"""Tries the page of `zohapy-tool page` in a real browser, against what the tool's other commands print.

    tests/page/try.py TOOL FOLDER [--picture FILE.png]

TOOL is the zohapy-tool program, FOLDER has logs (`samples`); more are made. With --picture a screenshot of the page of FOLDER's
own logs is written. It needs Chromium (`chromium`, or what CHROMIUM names) and nothing else. It ends with 1 where anything
is wrong.
"""

import argparse
import base64
import csv
import fcntl
import io
import itertools
import json
import os
import random
import re
import select
import shutil
import subprocess
import sys
import tempfile
import time

COLUMNS = ["file", "version", "episodes", "links", "width", "apart", "refusal", "place", "loop"]
MOST_OPENED = 50


def check(holds, message):
    """Ends with a message where something is wrong."""
    if not holds:
        sys.exit(f"tests/page/try.py: {message}")


def same(given, wanted, what):
    """Checks that two values are the same, and shows them where they are not."""
    check(given == wanted, f"{what}: given\n  {shortened(given)}\nwanted\n  {shortened(wanted)}")


def shortened(value):
    text = repr(value)
    return text if len(text) < 1500 else f"{text[:1500]}.. ({len(text)} letters)"


# The browser.


class Browser:
    """A headless Chromium that is spoken to over two pipes: JSON messages, with a NUL behind each."""

    def __init__(self, folder):
        program = os.environ.get("CHROMIUM", "chromium")
        # The browser has its ends of the pipes as 3 and 4, so nothing here may be in their place.
        while (spare := os.open(os.devnull, os.O_RDONLY)) < 5:
            pass
        os.close(spare)
        browser_reads, self.to_browser = os.pipe()
        self.from_browser, browser_writes = os.pipe()

        def place_pipes():
            os.dup2(browser_reads, 3)
            os.dup2(browser_writes, 4)

        flags = ["--headless=new", "--no-sandbox", "--disable-gpu", "--disable-dev-shm-usage", "--no-first-run"]
        flags += ["--disable-background-networking", "--disable-component-update", f"--user-data-dir={folder}"]
        flags += ["--remote-debugging-pipe", "about:blank"]
        with open(os.path.join(folder, "chromium.log"), "wb") as log:
            self.process = subprocess.Popen(
                [program, *flags], stdin=subprocess.DEVNULL, stdout=log, stderr=log, close_fds=False, preexec_fn=place_pipes
            )
        os.close(browser_reads)
        os.close(browser_writes)
        fcntl.fcntl(self.from_browser, fcntl.F_SETFL, os.O_NONBLOCK)
        self.rest = b""
        self.numbers = itertools.count(1)
        self.events = []

    def ask(self, method, session=None, **parameters):
        """Sends a command and gives its answer. Events that come before it are kept."""
        number = next(self.numbers)
        message = {"id": number, "method": method, "params": parameters}
        if session:
            message["sessionId"] = session
        data = json.dumps(message).encode() + b"\0"
        while data:
            data = data[os.write(self.to_browser, data) :]
        while True:
            answer = self.next_message(method)
            if answer.get("id") == number:
                check("error" not in answer, f"{method}: {answer.get('error')}")
                return answer["result"]
            self.events.append(answer)

    def next_message(self, awaited, seconds=180):
        end = time.monotonic() + seconds
        while b"\0" not in self.rest:
            left = end - time.monotonic()
            check(left > 0 and self.process.poll() is None, f"the browser does not answer ({awaited})")
            if select.select([self.from_browser], [], [], min(left, 1))[0]:
                data = os.read(self.from_browser, 1 << 20)
                check(data, f"the browser has ended ({awaited})")
                self.rest += data
        message, self.rest = self.rest.split(b"\0", 1)
        return json.loads(message)

    def close(self):
        self.process.terminate()
        try:
            self.process.wait(10)
        except subprocess.TimeoutExpired:
            self.process.kill()
            self.process.wait()


KEYS = {
    "Enter": (13, "\r"),
    "Escape": (27, None),
    " ": (32, " "),
    "ArrowUp": (38, None),
    "ArrowDown": (40, None),
    "ArrowRight": (39, None),
    "Tab": (9, None),
}


class Page:
    """A tab of the browser."""

    def __init__(self, browser):
        self.browser = browser
        target = browser.ask("Target.createTarget", url="about:blank")["targetId"]
        self.session = browser.ask("Target.attachToTarget", targetId=target, flatten=True)["sessionId"]
        for domain in ["Page", "Runtime", "Log", "Network", "DOM"]:
            self.ask(f"{domain}.enable")
        self.size(1100, 760)

    def ask(self, method, **parameters):
        return self.browser.ask(method, self.session, **parameters)

    def size(self, width, height, mobile=False):
        self.ask("Emulation.setDeviceMetricsOverride", width=width, height=height, deviceScaleFactor=1, mobile=mobile)

    def load(self, file):
        """Loads a file and gives the seconds that it took."""
        start = time.monotonic()
        self.browser.events.clear()
        self.ask("Page.navigate", url=f"file://{file}")
        while not any(event.get("method") == "Page.loadEventFired" for event in self.browser.events):
            self.browser.events.append(self.browser.next_message("the page's loading"))
        return time.monotonic() - start

    def value(self, expression):
        """The value of an expression in the page."""
        answer = self.ask("Runtime.evaluate", expression=expression, returnByValue=True, awaitPromise=True)
        check("exceptionDetails" not in answer, f"{expression[:200]}: {answer.get('exceptionDetails')}")
        return answer["result"].get("value")

    def settle(self):
        """Waits until the page is drawn."""
        self.value("new Promise((done) => requestAnimationFrame(() => requestAnimationFrame(() => done(0))))")

    def wait(self, expression, message, seconds=5):
        """Waits until something holds, which may come with an animation."""
        last = time.monotonic() + seconds
        while not self.value(expression):
            check(time.monotonic() < last, message)
            self.settle()

    def key(self, name):
        code, text = KEYS[name]
        parameters = {"key": name, "code": "Space" if name == " " else name, "windowsVirtualKeyCode": code}
        text = {"text": text} if text else {}
        self.ask("Input.dispatchKeyEvent", type="keyDown" if text else "rawKeyDown", **parameters, **text)
        self.ask("Input.dispatchKeyEvent", type="keyUp", **parameters)
        self.settle()

    def mouse(self, element):
        """A click with the mouse into the middle of an element, which an expression gives."""
        self.value(f"({element}).scrollIntoView({{block: 'center'}})")
        self.settle()
        middle = "({left, top, width, height}) => [left + width / 2, top + height / 2]"
        x, y = self.value(f"({middle})(({element}).getBoundingClientRect())")
        for kind in ["mousePressed", "mouseReleased"]:
            self.ask("Input.dispatchMouseEvent", type=kind, x=x, y=y, button="left", clickCount=1)
        self.settle()

    def screenshot(self, file):
        self.settle()
        data = self.ask("Page.captureScreenshot", format="png")["data"]
        with open(file, "wb") as out:
            out.write(base64.b64decode(data))

    def check_quiet(self):
        """Checks that nothing went wrong in the page, and that nothing but the page was asked for."""
        self.settle()
        for event in self.browser.events:
            method, what = event.get("method"), event.get("params", {})
            check(method != "Runtime.exceptionThrown", f"an exception in the page: {what}")
            check(method != "Log.entryAdded", f"the browser complains of the page: {what}")
            check(method != "Runtime.consoleAPICalled", f"the page writes to the console: {what}")
            if method == "Network.requestWillBeSent":
                url = what["request"]["url"]
                check(re.fullmatch(r"file://[^?#]*/[a-z]+\.html", url), f"the page asks for {url}")
        return sum(event.get("method") == "Network.requestWillBeSent" for event in self.browser.events)


# The logs.


def head(episodes, version=0):
    return 1 << 28 | version << 24 | episodes


def from_word(episode):
    return 2 << 28 | episode


def to_word(episode, pause=0):
    return 3 << 28 | pause << 16 | episode


def voices(episode, count):
    return 9 << 28 | count << 16 | episode


def end(count):
    return 15 << 28 | count


def in_bytes(words):
    return b"".join(word.to_bytes(4, "little") for word in words)


def log(version, episodes, marks, links):
    """The bytes of a log: `marks` are (episode, voices), `links` (from, to, pause)."""
    words = [head(episodes, version), *(voices(*mark) for mark in marks)]
    for start, group in itertools.groupby(links, lambda link: link[0]):
        words += [from_word(start), *(to_word(to, pause) for _, to, pause in group)]
    return in_bytes([*words, end(len(links))])


# Logs that are refused, and the refusals.
DAMAGED = {
    1: [head(5)],
    2: [from_word(0), end(0)],
    3: [head(201), end(0)],
    4: [head(5), 5 << 28, end(0)],
    5: [head(5), to_word(1), end(1)],
    6: [head(5), from_word(0), end(0)],
    7: [head(5), from_word(0), to_word(7), end(1)],
    8: [head(200), from_word(0), *[to_word(1)] * 4097, end(4097)],
    9: [head(5), from_word(0), to_word(1), to_word(2)],
    10: [head(5), from_word(0), to_word(1), end(2)],
    14: [0] * 8315,
    18: [head(5, 2), end(0)],
    19: [head(5), voices(1, 3), end(0)],
    20: [head(121), voices(0, 1), end(0)],
    21: [head(5), voices(1, 2), voices(1, 2), end(0)],
}

# Names that a page can get wrong.
NAMES = [
    b"with  two spaces.log",
    b"'single' and \"double\" quotes.log",
    b"<b>&amp;.log",
    b"</script><script>alert(1)</script>.log".replace(b"/", b"\\"),
    b"a, comma.log",
    b"a\nnewline.log",
    b"a\rreturn.log",
    b"no utf-8 \xff\xfe.log",
    "späte Nacht – 夜.log".encode(),
    b"{script} {rows} {summary}.log",
    b"very-long-name-" * 12 + b".log",
]


def random_log(chance, size):
    """A log with some of all that there is: either version, marks, pauses, repeats, links both ways, loops."""
    episodes = chance.choice([chance.randrange(1, 12), chance.randrange(1, 61), chance.randrange(1, 201)])
    ceiling = chance.choice([1, 3, 400, 4096])
    order = list(range(episodes))
    if chance.random() < 0.5:
        chance.shuffle(order)
    links = []
    for _ in range(chance.randrange(size)):
        a, b = chance.randrange(episodes), chance.randrange(episodes)
        links.append((order[a], order[b], chance.randrange(ceiling)))
    if chance.random() < 0.8:
        place = {episode: i for i, episode in enumerate(order)}
        links = [link for link in links if place[link[0]] < place[link[1]]]
    marks = []
    if episodes <= 120 and chance.random() < 0.4:
        marked = chance.sample(range(episodes), chance.randrange(episodes + 1))
        marks = [(episode, chance.randrange(3)) for episode in marked]
    return log(chance.randrange(2), episodes, marks, links)


def full_log(chance, version, ceiling):
    """A log of full size: 200 episodes and 4,096 different links."""
    pairs = chance.sample([(a, b) for a in range(200) for b in range(a + 1, 200)], 4096)
    return log(version, 200, [], [(a, b, chance.randrange(ceiling)) for a, b in sorted(pairs)])


def made_logs():
    """The made logs, by name."""
    chance = random.Random(2026)
    logs = {b"damaged-%02d.log" % number: in_bytes(words) for number, words in DAMAGED.items()}
    logs |= {b"damaged-15.log": b"7 bytes", b"empty.log": b""}
    logs |= {name: random_log(chance, 40) for name in NAMES}
    for version, ceiling in itertools.product((0, 1), (1, 4096)):
        logs[b"full-%d-%d.log" % (version, ceiling)] = full_log(chance, version, ceiling)
    logs |= {b"none-%d.log" % version: log(version, 0, [], []) for version in (0, 1)}
    logs[b"doors.log"] = log(0, 3, [(0, 0), (1, 0), (2, 0)], [(0, 1, 0), (2, 1, 5)])
    logs[b"apart.log"] = log(0, 200, [], [])
    logs[b"one.log"] = log(0, 1, [], [])
    logs[b"itself.log"] = log(0, 200, [], [(5, 5, 0), (0, 199, 7), (5, 6, 3)])
    logs[b"long-loop.log"] = log(1, 200, [], [(i, (i + 1) % 200, 9) for i in range(200)] + [(3, 1, 361), (9, 9, 400)])
    logs |= {b"random-%03d.log" % i: random_log(chance, chance.choice([10, 60, 400, 2000])) for i in range(300)}
    return logs


def make_folder(folder, samples):
    """Fills a folder and gives the names in it that have a log, as the page shows them, with the files."""
    logs = made_logs()
    for name in os.listdir(os.fsencode(samples)):
        if name.endswith(b".log"):
            with open(os.path.join(os.fsencode(samples), name), "rb") as file:
                logs[name] = file.read()
    for name, content in logs.items():
        with open(os.path.join(os.fsencode(folder), name), "wb") as file:
            file.write(content)
    os.symlink("no such file", os.path.join(folder, "gone.log"))
    return {shown(name): name for name in logs}


def shown(name):
    """A file's name as the page shows it."""
    return name.decode("utf-8", "replace")


# What the tool prints.


def run(tool, *arguments, within=None, status=0):
    """What the tool prints, with this exit status."""
    done = subprocess.run([tool, *arguments], cwd=within, stdout=subprocess.PIPE, stderr=subprocess.PIPE)
    check(done.returncode == status, f"{arguments}: exit status {done.returncode}, {done.stderr.decode(errors='replace')}")
    return done.stdout


def table_of(tool, within):
    """The rows of `table`, each a list of cells. Of the logs one file cannot be read."""
    printed = run(tool, "table", "logs", within=within, status=1).decode("utf-8", "replace")
    rows = list(csv.reader(io.StringIO(printed, newline=""), strict=True))
    same(rows[0], COLUMNS, "the table's columns")
    return rows[1:]


def kind(cells):
    """What a row is: `report`, `refused` (a loop too) or `unread`."""
    refusal = cells[6]
    return "report" if refusal == "" else "refused" if refusal.isdigit() else "unread"


# What is tried.

ROWS = "[...document.querySelectorAll('tbody > tr:not(.detail)')]"
CELLS = "Array.from(row.cells, (cell) => cell.textContent)"
SEEN = f"{ROWS}.filter((row) => row.getClientRects().length > 0)"


def button(place):
    """The file's button of the row at a place among those that are shown."""
    return f"{SEEN}[{place}].querySelector('button')"


class Trial:
    def __init__(self, page, tool, folder, names):
        self.page, self.tool, self.folder, self.names = page, tool, folder, names
        self.rows = table_of(tool, folder)

    def say(self, message):
        print(f"page: {message}", flush=True)

    def path(self, cells):
        """The file of a row that has a log."""
        return os.path.join(b"logs", self.names[cells[0].rpartition("/")[2]])

    def cells(self):
        same(len(self.rows), len(self.names) + 1, "how many rows the table has")
        found = {cells[6] for cells in self.rows}
        wanted = {str(number) for number in [*DAMAGED, 13, 15]}
        check(wanted <= found, f"no log with the refusals {sorted(wanted - found)}")
        given = self.page.value(f"{ROWS}.map((row) => {CELLS})")
        for row, wanted in zip(given, self.rows):
            same(row, wanted, "a row")
        same(len(given), len(self.rows), "how many rows the page has")
        check(self.page.value("document.getElementById('summary').textContent.trim() !== ''"), "the page has no summary")
        self.say(f"{len(given)} rows are those of `table`, with {len(found) - 2} refusals and one file that is not read")

    def pictures(self):
        """The pictures of the page are those of `picture`, to the byte."""
        drawn = [i for i, cells in enumerate(self.rows) if cells[6] in ("", "13")]
        for start in range(0, len(drawn), 20):
            some = drawn[start : start + 20]
            for i, svg in zip(some, self.page.value(f"{some}.map((number) => zohapy.pictureOf(number))")):
                wanted = run(self.tool, "picture", self.path(self.rows[i]), within=self.folder).decode()
                same(svg, wanted, f"the picture of {self.rows[i][0]!r}")
        without = [i for i in range(len(self.rows)) if i not in set(drawn)]
        drawn_too = self.page.value(f"{without}.filter((number) => zohapy.pictureOf(number) !== null)")
        same(drawn_too, [], "pictures of rows without report or loop")
        loops = sum(self.rows[i][6] == "13" for i in drawn)
        self.say(f"{len(drawn)} pictures are those of `picture`, {loops} of them of loops")

    def sorting(self):
        order = list(enumerate(self.rows))
        for column in [*range(1, 9), 0]:
            for falling in (False, True):
                head = f"document.querySelectorAll('thead th')[{column}]"
                self.page.mouse(f"{head}.querySelector('button')")
                order = sorted_rows(order, column, falling)
                given = self.page.value(f"{ROWS}.map((row) => {CELLS})")
                what = f"the order by {COLUMNS[column]}, {'falling' if falling else 'rising'}"
                same([row[0] for row in given], [cells[0] for _, cells in order], what)
                sorts = self.page.value("Array.from(document.querySelectorAll('thead th'), (head) => head.ariaSort)")
                wanted = [None] * 9
                wanted[column] = "descending" if falling else "ascending"
                same(sorts, wanted, "aria-sort")
        # An opened row takes its detail along; then back to the order of the files, by the keyboard.
        self.page.value(f"{button(3)}.click()")
        self.page.value("document.querySelector('thead button').focus()")
        self.page.key("Enter")
        below = self.page.value("document.querySelector('.detail').previousElementSibling.cells[0].textContent")
        same(below, order[3][1][0], "the row above an opened one's detail")
        files = self.page.value(f"{ROWS}.map((row) => row.cells[0].textContent)")
        same(files, [cells[0] for cells in self.rows], "the files' order")
        self.page.value("document.getElementById('close-all').click()")
        self.say("each of 9 columns sorts both ways as the table's figures do")

    def filtering(self):
        choices = self.page.value("Array.from(filter.options, (choice) => [choice.value, choice.text])")
        numbers = sorted({int(cells[6]) for cells in self.rows if kind(cells) == "refused"})
        same([value for value, _ in choices], ["all", "report", "refused", *map(str, numbers), "unread"], "what can be chosen")
        for value, text in [*choices[1:], choices[0]]:
            self.choose(value)
            fits = {
                "all": lambda cells: True,
                "report": lambda cells: kind(cells) == "report",
                "refused": lambda cells: kind(cells) == "refused",
                "unread": lambda cells: kind(cells) == "unread",
            }.get(value, lambda cells: cells[6] == value)
            wanted = [cells[0] for cells in self.rows if fits(cells)]
            check(text.endswith(f" ({len(wanted)})") and "undefined" not in text, f"the choice {text!r} of {len(wanted)} rows")
            same(self.page.value(f"{SEEN}.map((row) => row.cells[0].textContent)"), wanted, f"the rows where {text!r} is chosen")
            live = self.page.value("document.querySelector('[aria-live=polite]').textContent")
            same(live, f"{len(wanted)} of {len(self.rows)} logs shown", "the live text")
        self.say(f"{len(choices)} choices show the rows that the table has")

    def choose(self, value):
        self.page.value(f"filter.value = '{value}'; filter.dispatchEvent(new Event('change'))")

    def explanations(self):
        """What an opened row says of a refused log is what `explain` prints."""
        count = 0
        for i, cells in enumerate(self.rows):
            if kind(cells) == "refused":
                self.page.value(f"{button(i)}.click()")
                parts = "Array.from(document.querySelector('.detail td').children, (part) => part.localName)"
                same(self.page.value(parts), ["div", "pre"] if cells[6] == "13" else ["pre"], f"what is below {cells[0]!r}")
                given = self.page.value("document.querySelector('.detail pre').textContent")
                wanted = run(self.tool, "explain", self.path(cells), within=self.folder, status=1).decode()
                same(given, wanted, f"the explanation of {cells[0]!r}")
                self.page.value(f"{button(i)}.click()")
                count += 1
        unread = next(i for i, cells in enumerate(self.rows) if kind(cells) == "unread")
        self.page.value(f"{button(unread)}.click()")
        check(self.page.value("document.querySelector('.detail pre').textContent") != "", "nothing is said of the unread file")
        self.page.value(f"{button(unread)}.click()")
        check(self.page.value("document.querySelector('.detail')") is None, "a row does not close")
        self.say(f"{count} explanations are those of `explain`")

    def opening(self):
        """Rows open and close by the keyboard and by the mouse."""
        page = self.page
        detail = "document.querySelector('.detail')"
        active = f"{ROWS}.findIndex((row) => row.contains(document.activeElement))"
        report = next(i for i, cells in enumerate(self.rows) if kind(cells) == "report" and cells[2] != "0")
        page.value(f"{button(report)}.focus()")
        expanded = lambda: page.value(f"{button(report)}.ariaExpanded")
        same(expanded(), "false", "aria-expanded of a closed row")
        for key in ["Enter", " "]:
            page.key(key)
            same(expanded(), "true", f"aria-expanded behind {key!r}")
            shows = "box.querySelector('svg').getBoundingClientRect().width == box.querySelector('svg').getAttribute('width')"
            check(page.value(f"((box) => {shows})({detail})"), "the picture is not shown at its size")
            controlled = page.value(f"document.getElementById({button(report)}.getAttribute('aria-controls')) === {detail}")
            check(controlled, "aria-controls does not name the detail")
            page.key("Escape")
            same((page.value(detail), expanded()), (None, "false"), f"what Escape leaves behind {key!r}")
        # Escape within the detail, which Tab goes to, closes too, and the name has the focus again.
        page.key("Enter")
        page.key("Tab")
        check(page.value(f"{detail}.contains(document.activeElement)"), "Tab does not go to the picture")
        page.key("Escape")
        same((page.value(detail), page.value(active)), (None, report), "what Escape leaves in the detail")
        # The arrow keys, over an opened row's detail too.
        page.key("Enter")
        for key, wanted in [("ArrowDown", report + 1), ("ArrowDown", report + 2), ("ArrowUp", report + 1), ("ArrowUp", report)]:
            page.key(key)
            same(page.value(active), wanted, f"where {key} goes")
        page.value(f"{button(0)}.focus()")
        page.key("ArrowUp")
        same(page.value(active), 0, "where ArrowUp goes from the first row")
        page.value(f"{button(report)}.focus()")
        page.key("Escape")
        # Only over rows that are shown.
        self.choose("13")
        loops = [i for i, cells in enumerate(self.rows) if cells[6] == "13"]
        place = next(place for place, i in enumerate(loops) if i + 1 not in loops)
        page.value(f"{button(place)}.focus()")
        page.key("ArrowDown")
        same(page.value(active), loops[place + 1], "where ArrowDown goes among loops")
        page.key("ArrowUp")
        same(page.value(active), loops[place], "where ArrowUp goes among loops")
        # The mouse, on the name and on another cell.
        for part in ["cells[0].querySelector('button')", "cells[6]"]:
            page.mouse(f"{SEEN}[0].{part}")
            opened = page.value("document.querySelector('.detail svg marker') !== null")
            check(opened, f"a click on {part} opens nothing")
            page.mouse(f"{SEEN}[0].{part}")
            check(page.value(detail) is None, f"a click on {part} closes nothing")
        page.mouse(f"{SEEN}[0].cells[6]")
        page.key("Escape")
        check(page.value(detail) is None, "Escape behind a click closes nothing")
        # All that are shown at once, where they are few; what is open goes and comes with its row.
        few = next(str(number) for number in DAMAGED if sum(cells[6] == str(number) for cells in self.rows) <= MOST_OPENED)
        check(len(self.rows) > MOST_OPENED, "there are few rows")
        self.choose("all")
        check(page.value("document.getElementById('open-all').disabled"), "all rows can be opened")
        self.choose(few)
        page.mouse("document.getElementById('open-all')")
        opened = page.value("document.querySelectorAll('.detail').length")
        same(opened, sum(cells[6] == few for cells in self.rows), "how many are opened")
        self.choose("report")
        seen = page.value("[...document.querySelectorAll('.detail')].filter((row) => row.getClientRects().length > 0).length")
        same(seen, 0, "how many details are shown without their rows")
        self.choose("all")
        page.mouse("document.getElementById('close-all')")
        same(page.value("document.querySelectorAll('.detail').length"), 0, "how many are left open")
        self.say("rows open and close by keys and by mouse")

    def names_once(self):
        """With a report and two loops opened, no two elements have one id, and what is referred to is there."""
        loops = [i for i, cells in enumerate(self.rows) if cells[6] == "13"][:2]
        report = next(i for i, cells in enumerate(self.rows) if kind(cells) == "report")
        for i in [*loops, report]:
            self.page.value(f"{ROWS}[{i}].querySelector('button').click()")
        same(self.page.value("document.querySelectorAll('.detail svg').length"), 3, "how many pictures are open")
        ids = self.page.value("Array.from(document.querySelectorAll('[id]'), (element) => element.id)")
        same(sorted(set(ids)), sorted(ids), "the ids")
        text = self.page.value("Array.from(document.querySelectorAll('.detail'), (detail) => detail.innerHTML).join('')")
        named = " ".join(re.findall(r'aria-labelledby="([^"]*)"', text)).split() + re.findall(r"url\(#([^)]*)\)", text)
        check(len(named) == 8 and set(named) <= set(ids), f"what pictures refer to: {named}")
        self.page.value("document.getElementById('close-all').click()")
        self.say(f"{len(ids)} ids, each once, with three pictures open")

    def on_a_phone(self):
        page = self.page
        page.size(360, 740, mobile=True)
        wide = next(i for i, cells in enumerate(self.rows) if cells[0].endswith("full-1-4096.log"))
        longest = next(i for i, cells in enumerate(self.rows) if cells[0].endswith("damaged-08.log"))
        for opened in [[], [wide, longest]]:
            for i in opened:
                page.value(f"{ROWS}[{i}].querySelector('button').click()")
            page.settle()
            widths = page.value("[innerWidth, document.documentElement.scrollWidth]")
            check(max(widths) <= 360, f"the page is {max(widths)} wide on a phone")
            outside = "[...document.querySelectorAll('body *:not(.picture *)')]"
            too_wide = f"{outside}.filter((element) => element.getBoundingClientRect().right > 360.5)"
            same(page.value(f"{too_wide}.map((element) => element.outerHTML.slice(0, 200))"), [], "what is too wide on a phone")
        boxes = "Array.from(document.querySelectorAll('.picture'), (box) => [box.scrollWidth > 4000, box.clientWidth < 360])"
        same(page.value(boxes), [[True, True]], "a wide picture is in a narrow box")
        page.value("document.querySelector('.picture').focus()")
        page.key("ArrowRight")
        page.wait("document.querySelector('.picture').scrollLeft > 0", "ArrowRight does not scroll a wide picture")
        page.value("document.getElementById('close-all').click()")
        page.size(1100, 760)
        self.say("on a phone of 360 pixels nothing is wider, with a wide picture open too")

    def on_paper(self):
        wide = next(i for i, cells in enumerate(self.rows) if cells[0].endswith("full-0-4096.log"))
        self.page.value(f"{ROWS}[{wide}].querySelector('button').click()")
        pdf = base64.b64decode(self.page.ask("Page.printToPDF", printBackground=True)["data"])
        pages = len(re.findall(rb"/Type\s*/Page\b", pdf))
        check(pdf.startswith(b"%PDF") and pages >= 3, f"the page prints on {pages} pages")
        self.page.value("document.getElementById('close-all').click()")
        self.say(f"it prints on {pages} pages, with a picture open")

    def without_script(self, file):
        """Without JavaScript the table is there, and says what is missing."""
        page = self.page
        page.ask("Emulation.setScriptExecutionDisabled", value=True)
        page.load(file)
        root = page.ask("DOM.getDocument")["root"]["nodeId"]
        count = lambda selector: len(page.ask("DOM.querySelectorAll", nodeId=root, selector=selector)["nodeIds"])
        same(count("tbody > tr"), len(self.rows), "how many rows there are without JavaScript")
        same((count("noscript p"), count("#controls[hidden]")), (1, 1), "what is said, and what is hidden, without JavaScript")
        same(count("th button"), 0, "buttons without JavaScript")
        for selector in ["tbody > tr:last-child", "noscript p"]:
            node = page.ask("DOM.querySelector", nodeId=root, selector=selector)["nodeId"]
            page.ask("DOM.getBoxModel", nodeId=node)
        page.ask("Emulation.setScriptExecutionDisabled", value=False)
        self.say("without JavaScript the table is whole")


def sorted_rows(rows, column, falling):
    """The order of rows by a column: numbers as lists, a message above them, empty cells last; the files in the table's order."""

    def key(row):
        number, cells = row
        if column == 0:
            return [number]
        return [int(figure) for figure in cells[column].split()] if re.fullmatch("[0-9 ]+", cells[column]) else [float("inf")]

    some = [row for row in rows if row[1][column] != ""]
    return sorted(some, key=key, reverse=falling) + [row for row in rows if row[1][column] == ""]


def write_picture(page, tool, folder, work, file):
    """A screenshot of the page of a folder's logs by their widths, with one row opened."""
    within, name = os.path.split(os.path.abspath(folder))
    with open(os.path.join(work, "samples.html"), "wb") as out:
        out.write(run(tool, "page", name, within=within))
    page.load(os.path.join(work, "samples.html"))
    page.size(1100, 840)
    page.value("document.querySelectorAll('thead button')[4].click()")
    row = f"{ROWS}.find((row) => row.cells[0].textContent === '{name}/small-night.log') ?? {ROWS}[0]"
    page.value(f"({row}).querySelector('button').click()")
    page.value("document.activeElement.blur(); scrollTo(0, 0)")
    page.screenshot(file)
    page.check_quiet()


def main():
    parser = argparse.ArgumentParser(description=__doc__.splitlines()[0])
    parser.add_argument("tool")
    parser.add_argument("folder")
    parser.add_argument("--picture", metavar="FILE.png")
    arguments = parser.parse_args()
    tool = os.path.abspath(arguments.tool)
    work = tempfile.mkdtemp(prefix="zohapy-page-")
    browser = None
    try:
        logs = os.path.join(work, "logs")
        os.mkdir(logs)
        names = make_folder(logs, arguments.folder)
        file = os.path.join(work, "week.html")
        with open(file, "wb") as out:
            out.write(run(tool, "page", "logs", within=work, status=1))
        os.mkdir(os.path.join(work, "browser"))
        browser = Browser(os.path.join(work, "browser"))
        page = Page(browser)
        seconds = page.load(file)
        trial = Trial(page, tool, work, names)
        trial.cells()
        trial.pictures()
        trial.sorting()
        trial.filtering()
        trial.explanations()
        trial.opening()
        trial.names_once()
        trial.on_a_phone()
        trial.on_paper()
        requests = page.check_quiet()
        same(requests, 1, "how many requests were made")
        trial.say(f"{os.path.getsize(file)} bytes, loaded in {seconds:.2f} s with one request, and no complaint of the browser")
        trial.without_script(file)
        if arguments.picture:
            write_picture(page, tool, arguments.folder, work, arguments.picture)
    finally:
        if browser:
            browser.close()
        shutil.rmtree(work, ignore_errors=True)


if __name__ == "__main__":
    main()
