"""Hands on the page of `mmshow html`: what a user does in a browser, and what the page says then.

One entry: check(), of checks/page.py. Each function below is a case, or several of one kind, on a
page of its own script. What is wanted comes from the rules and from how the script was written.
"""

from __future__ import annotations

import re
import statistics
import subprocess
from typing import Any, Callable

import show
from browser import Browser

# Notes each text that is drawn on a canvas, as `texts`.
NOTE_TEXTS = """
globalThis.texts = [];
const fill = CanvasRenderingContext2D.prototype.fillText;
CanvasRenderingContext2D.prototype.fillText = function (text, ...rest) {
  texts.push(String(text));
  return fill.call(this, text, ...rest);
};
"""
HEADING = "document.querySelector('#line h2').textContent"
HISTORY = "document.querySelector('#history h2 span')?.textContent"
TIP = "document.getElementById('tip')"
WARNING = "document.getElementById('warning').textContent"
LATER = "new Promise((done) => setTimeout(done, 450))"

THREADS = """machine 16 16 2 16
file data 4 65
process 0 8
createfile 1 data 0x2 d
map 1 4 4 0 0 0x10000
begin 0x1 0x1 read 0x10000 1
io 1
resume 1
read 1 0x10000 1
"""
VIEWS = """machine 16 16 2 16
file data 4 65
process 0 8
process 0 8
createfile 1 data 0x2 d
open 2 d
map 1 4 4 0 0 0x10000
map 2 4 1 0 0 0x40000
read 1 0x11000 1
alloc 2 0x80000 0x2000 0x3000 0x104
alloc 2 0 0x40000 0x3000 0x4
io 1
"""
# a page of a process beyond 2^20, which had the number of another page
FAR_KEYS = (
    b"at 1 machine 16 16 2 2\nat 2 process 1 0 8\nat 3 call\nadd p1.1048592 zero\nadd s1.16 zero\n"
)


class Hands:
    """A browser with pages that are made here, and the way to tell what differs."""

    def __init__(self, browser: Browser, report: Any, mmsim: str, whole: str, room: str) -> None:
        self.browser, self.report = browser, report
        self.mmsim, self.whole, self.room = mmsim, whole, room
        self.name = ""

    def note(self, what: str, got: object, wanted: object) -> None:
        self.report.equal(f"{self.name}: {what}", got, wanted)

    def has(self, what: str, text: object, part: str) -> None:
        self.note(f"{what} has {part!r}", part if part in str(text) else text, part)

    def file(self, name: str, data: bytes) -> str:
        path = f"{self.room}/{name}"
        with open(path, "wb") as file:
            file.write(data)
        return path

    def played(self, script: str) -> tuple[bytes, list[str]]:
        """The log of a script, and the files of the script and its answers."""
        ended = subprocess.run(
            [self.mmsim, "run"], input=script.encode(), capture_output=True, timeout=60
        )
        script_file = self.file("hands.mm", script.encode())
        return ended.stderr, [script_file, self.file("hands.out", ended.stdout)]

    def page(self, log: bytes, files: list[str], place: str = "", change: Any = None) -> str:
        """Opens the page of a log; gives the page's path."""
        status, text = show.answer(["html", self.whole, *files], log)
        self.note("the status of the reference", (status, text[:80] if status else ""), (0, ""))
        path = self.file("hands.html", (change(text) if change else text).encode())
        self.browser.open(path, place)
        return path

    def js(self, script: str) -> Any:
        return self.browser.run(script)

    def line(self, line: int, y: str = "5") -> tuple[float, float]:
        """Where the middle of a line's column is in the window, at a height of all charts."""
        script = f"""(() => {{
            const box = document.getElementById('plot').getBoundingClientRect();
            return [box.left + page.charts.axis.middle({line}), box.top + ({y})];
        }})()"""
        x, top = self.js(script)
        return x, top

    def click(self, line: int, y: str = "5") -> None:
        x, top = self.line(line, y)
        self.browser.mouse("Moved", x, top)
        self.browser.mouse("Pressed", x, top)
        self.browser.mouse("Released", x, top)

    def set(self, name: str, value: object, event: str = "change") -> None:
        self.js(
            f"(() => {{ const it = document.getElementById('{name}'); it.value = {value!r};"
            f" it.dispatchEvent(new Event('{event}')); }})()"
        )

    def find(self, text: str) -> str:
        """What the find box says, or else the history that it shows."""
        self.set("find", text)
        return self.js(
            f"document.getElementById('find').validationMessage || {HISTORY} || {HEADING}"
        )


# ---- keys, clicks, drag, zoom
def keys_and_clicks(hands: Hands) -> None:
    log, files = pressure()
    hands.page(log, files)
    browser = hands.browser
    steps: list[tuple[str, Callable[[], Any], str]] = [
        ("Home", lambda: browser.key("Home"), "Line 1"),
        ("End", lambda: browser.key("End"), "Line 57"),
        ("left", lambda: browser.key("ArrowLeft"), "Line 56"),
        ("left ten", lambda: browser.key("ArrowLeft", 8), "Line 46"),
        ("right", lambda: (browser.key("Home"), browser.key("ArrowRight")), "Line 2"),
        ("next with moves", lambda: browser.key("n"), "Line 5"),
        ("next hard fault", lambda: (hands.set("event", "hard"), browser.key("n")), "Line 22"),
        ("and the next", lambda: browser.key("n"), "Line 43"),
        ("before", lambda: browser.key("p"), "Line 22"),
        ("click", lambda: hands.click(20), "Line 20"),
        ("click after a drag", lambda: (drag(hands, 30, 39), hands.click(34)), "Line 34"),
        ("click with all lines", lambda: (browser.key("0"), hands.click(35)), "Line 35"),
        ("click after a zoom", lambda: (browser.key("+"), hands.click(40)), "Line 40"),
        ("slider", lambda: (browser.key("0"), hands.set("slider", 7, "input")), "Line 7"),
        ("a fraction", lambda: hands.set("number", "1.5"), "Line 2"),
        ("no number", lambda: hands.set("number", ""), "Line 1"),
    ]
    for what, do, wanted in steps:
        do()
        hands.note(what, hands.js(HEADING), wanted)
    hands.js(LATER)
    hands.js("document.querySelector('#frames .reference[data-frame=\"4\"]').click()")
    hands.note("a history", hands.js(HISTORY), "History of frame 4")
    browser.key("Escape")
    hands.note("closed", hands.js("document.getElementById('history').hidden"), True)
    hands.note("the console", browser.said, [])


def drag(hands: Hands, first: int, last: int) -> None:
    """Drags over the charts, which zooms."""
    for kind, line in (("Moved", first), ("Pressed", first), ("Moved", last), ("Released", last)):
        x, top = hands.line(line)
        hands.browser.mouse(kind, x, top)
    seen = hands.js("[page.view.first, page.view.last]")
    hands.note("a drag zooms", seen, [first, last])


def pressure() -> tuple[bytes, list[str]]:
    with open("examples/under-pressure.log", "rb") as file:
        log = file.read()
    return log, ["examples/under-pressure.mm", "examples/under-pressure.out"]


def zoom_at_the_line(hands: Hands) -> None:
    log, files = hands.played(VIEWS + "".join(f"read 1 0x1{n % 4}000 1\n" for n in range(188)))
    hands.page(log, files, "#line=20&from=100&to=140")
    hands.note("the chosen line is seen at first", hands.js("page.view.first <= 20"), True)
    hands.js("Object.assign(page.view, { first: 100, last: 199 })")
    hands.browser.key("+")
    seen = hands.js("[page.view.first, page.view.last]")
    hands.note("+ shows the chosen line", seen[0] <= 20 <= seen[1], True)


def tips(hands: Hands) -> None:
    log, files = pressure()
    hands.page(log, files)
    x, top = hands.line(43)
    hands.browser.mouse("Moved", x, top)
    wanted = (
        "Line 43: read 2 0x21000 1 \u2192 ok 42. 1 hard fault. 1 standby page repurposed. 1 page trimmed. "
        "1 page replaced in a full working set. 2 write-outs begun. 1 failed device call"
    )
    hands.note("a tip", hands.js(TIP + ".textContent"), wanted)
    hands.browser.key("ArrowRight")
    hands.note("a key hides it", hands.js(TIP + ".hidden"), True)
    hands.browser.mouse("Moved", x + 2, top)
    hands.note("it is there again", hands.js(TIP + ".hidden"), False)
    hands.browser.mouse("Moved", 300, 3)
    hands.note("away from the charts", hands.js(TIP + ".hidden"), True)
    hands.note(
        "a page's address", hands.js("page.regions.pageText(2, 0x32, 43)"), "valid, p2.50, frame 6"
    )


# ---- the address
def addresses(hands: Hands) -> None:
    log, files = pressure()
    hands.page(log, files, "#line=1.5&by=constructor&process=toString")
    hands.note("a fraction", hands.js(HEADING), "Line 2")
    hands.note("by=constructor", hands.js("document.getElementById('paint').value"), "state")
    hands.browser.key("End")
    hands.set("paint", "owner")
    hands.js(LATER)
    hands.note("the address keeps the place", hands.js("location.hash"), "#line=57&by=owner")
    hands.js("location.hash = '#line=43&frame=4&from=30&to=57'")
    hands.js(LATER)
    got = hands.js(f"[{HEADING}, {HISTORY}, page.view.first, page.view.paint]")
    hands.note("a changed address", got, ["Line 43", "History of frame 4", 30, "state"])
    hands.js("location.hash = '#line=9&page=s1.1'")
    hands.js(LATER)
    hands.note("a page's history", hands.js(HISTORY), "History of page s1.1")


def window_around(hands: Hands) -> None:
    log, files = pressure()
    path = hands.page(log, files)
    outer = hands.file(
        "outer.html",
        b"<!doctype html><body><script>globalThis.said = [];"
        b"onmessage = ({ data }) => said.push(data);</script>"
        b'<iframe style="width: 0; height: 400px; border: 0" src="'
        + path.encode()
        + b'"></iframe>',
    )
    hands.browser.open(outer, "", "globalThis.said?.length > 0")
    hands.note("the first line", hands.js("said[0]"), {"melzudek": "chosen", "line": 13})
    send = "document.querySelector('iframe').contentWindow.postMessage"
    hands.js(f"{send}({{ melzudek: 'line', line: 43 }}, '*'), said.length = 0")
    hands.js(f"{send}({{ melzudek: 'line', line: 'x' }}, '*'), {send}(null, '*')")
    hands.js(LATER)
    hands.note("what it is told it does not tell", hands.js("said"), [])
    hands.note("no error without a width", hands.browser.said, [])
    hands.js("document.querySelector('iframe').style.width = '900px'")
    hands.js(LATER)
    hands.note("none with one", hands.browser.said, [])


def window_in_page(hands: Hands) -> None:
    log, files = pressure()
    hands.page(log, files)
    hands.js("postMessage({ melzudek: 'line', line: 43 }, '*')")
    hands.js(LATER)
    hands.note("a message chooses a line", hands.js(HEADING), "Line 43")


# ---- what a line did
def before_and_after(hands: Hands) -> None:
    log, files = pressure()
    hands.page(log, files, "#line=13")
    turns = "[...document.querySelectorAll('#line > ol .turn')].map((one) => one.textContent)"
    hands.note("a demand-zero fault", hands.js(turns), ["frame 0: free \u2192 active s1.0"])
    told = hands.js("document.querySelector('#line > ol').textContent")
    hands.note("what is told of it", "is valid at" in told, False)
    fold = "document.querySelector('#line details summary').textContent"
    hands.has("the fold", hands.js(fold), "moves, in their order")
    passing = "document.querySelector('#line details').textContent"
    hands.has("the fold's states", hands.js(passing), "zeroed")
    hands.js("document.querySelector('#line details').open = true")
    hands.js(LATER)
    hands.browser.key("ArrowRight")
    hands.browser.key("ArrowLeft")
    hands.note("an open fold stays", hands.js("document.querySelector('#line details').open"), True)


def one_sentence(hands: Hands) -> None:
    script = "machine 64 64 4 0\nprocess 0 32\nalloc 1 0x10000 0x30000 0x3000 0x4\n"
    log, files = hands.played(script)
    hands.page(log, files, "#line=3")
    items = hands.js(
        "[...document.querySelectorAll('#line > ol > li')].map((one) => one.textContent)"
    )
    hands.note("how many sentences", len(items), 1)
    hands.has("48 pages", items, "48 pages, p1.16 0x10000 .. p1.63 0x3F000")


def names_of_numbers(hands: Hands) -> None:
    log, files = hands.played(VIEWS)
    hands.page(log, files, "#line=10")
    line = "document.getElementById('line').textContent"
    hands.has("flags", hands.js(line), "[MEM_COMMIT|MEM_RESERVE, PAGE_READWRITE|PAGE_GUARD]")
    hands.set("number", 11)
    hands.has("a code", hands.js(line), "error 1455 [ERROR_COMMITMENT_LIMIT]")
    hands.set("number", 7)
    hands.has(
        "an access", hands.js("namesInLine('map 1 4 0xF001F 0 0 0')"), "[FILE_MAP_ALL_ACCESS]"
    )
    wanted = "[MEM_RESERVE, MEM_PRIVATE]"
    answer = "ok 0x0 0x0 0x4 0x1000 0x2000 0x0 0x20000"
    hands.note("a query", hands.js(f"namesInAnswer('query 1 0', '{answer}')"), wanted)
    title = hands.js("[document.title, document.querySelector('h1').textContent]")
    hands.note("the script's name", title, ["hands.mm: memory, line by line"] * 2)


def full_paging_file(hands: Hands) -> None:
    """A writer that finds no slot says so; one that is asked for no more does not."""
    script = "machine 8 1 1 0\nprocess 0 8\nalloc 1 0x10000 0x3000 0x3000 0x4\n"
    script += "".join(f"write 1 0x1{page}000 01\n" for page in range(3))
    script += "trim 1 8\nwriter 1\nio 1\nwriter 4\nwriter 0\n"
    log, files = hands.played(script)
    sentence = "No slot of the paging file is free: 2 modified pages are not written."
    hands.page(log, files)
    for line, wanted in ((8, ""), (9, ""), (10, sentence), (11, "")):
        hands.set("number", line)
        said = hands.js("document.querySelector('#line p.not-ok')?.textContent ?? ''")
        hands.note(f"line {line}", said, wanted)


# ---- threads, keys, io
def threads(hands: Hands) -> None:
    log, files = hands.played(THREADS)
    hands.page(log, files, "#line=6")
    chips = "document.querySelector('#state dl').textContent"
    hands.has(
        "a thread that waits", hands.js(chips), "thread 1: process 1, read 0x10000 1, pending read"
    )
    hands.set("number", 8)
    hands.has("no thread waits", hands.js(chips), "Threads that wait 0none")


def far_keys(hands: Hands) -> None:
    hands.page(FAR_KEYS, [])
    names = hands.js("[...page.data.pages.values()].map(({ name }) => name)")
    hands.note("two pages", names, ["p1.1048592", "s1.16"])


def io_none(hands: Hands) -> None:
    log, files = hands.played("machine 16 16 2 0\nprocess 0 8\nio 1\nresume 3\n")
    hands.page(log, files)
    hands.note(
        "answers", hands.js("page.data.lines.slice(3).map(({ answer }) => answer)"), ["none"] * 2
    )
    hands.note("lines that are refused", hands.js("page.survey.numbers.refused[4]"), 1)


def early_end(hands: Hands) -> None:
    log, files = hands.played("machine 64 64 4 0\nprocess 0 32\n\nread 1 0x10000 1\n")
    hands.page(log, files)
    said = hands.js(WARNING)
    hands.has("a line that is none", said, "Line 3 is no line: the run ended here with status 3")
    log, files = hands.played("machine 64 64 4 0\n")
    script = hands.file("hands.mm", b"machine 64 64 4 0\nprocess 0 32\n")
    hands.page(log, [script])
    hands.has("without answers", hands.js(WARNING), "The run ended before line 2 of its script")


# ---- find
def find(hands: Hands) -> None:
    log, files = hands.played(VIEWS)
    hands.page(log, files)
    rows = [
        ("1:0x11000", "History of page s0.1"),
        ("2:0x41123", "History of page s0.1"),
        ("key 2:0x80000", "History of page p2.128 0x80000"),
        ("p2.129", "History of page p2.129 0x81000"),
        ("frame 3", "History of frame 3"),
        ("1:0x99999999", "no such page"),
        ("3:0x10000", "no such page"),
        ("p9.9", "no such page"),
        ("zzz", "no line has this"),
    ]
    for text, wanted in rows:
        hands.note(f"find {text}", hands.find(text), wanted)
    hands.find("createfile")
    hands.note("find a line", hands.js(HEADING), "Line 5")


# ---- what is drawn
def drawn(hands: Hands) -> None:
    log, files = pressure()
    hands.page(log, files, "#line=43")
    legend = "document.getElementById('legend').textContent"
    for paint in ("state", "owner", "changed"):
        hands.set("paint", paint)
        hands.has(f"legend by {paint}", hands.js(legend), "Underlined: changed")
        held = "being written" if paint == "state" else "Hatched"
        hands.has(f"legend by {paint}", hands.js(legend), held)
    hands.has(
        "legend by owner",
        (hands.set("paint", "owner"), hands.js(legend))[1],
        "Private to process 2",
    )
    chips = hands.js("document.getElementById('state').textContent")
    hands.has("addresses of chips", chips, "18 0x12000 age 0")
    hands.has("addresses of chips", chips, "p1.33 0x21000 slot 1")
    texts = hands.js("texts.length = 0, page.charts.draw(), texts")
    hands.note("the curve of keys", "Keys, not the charge" in texts, True)
    hands.note("answers in one form", "Answers other than ok" in texts, True)
    hands.note("fault rates", any(text.startswith("Faults ") for text in texts), True)
    hands.browser.resize(390, 1400)
    hands.js(LATER)
    part = hands.js("(page.charts.axis.right - page.charts.axis.left) / innerWidth")
    hands.note("charts on a phone", part > 0.9, True)
    hands.browser.resize(1500, 1400)


def only_what_is_drawn(hands: Hands) -> None:
    """The legend in each colouring; on a phone the table of addresses has the width."""
    with open("examples/first.mm", encoding="ascii") as file:
        log, files = hands.played(file.read())
    hands.page(log, files)
    pages = "Addresses:Not touched: demand-zeroIn memory: soft faultValidFrames:"
    rows = [
        ("state", "FreeModifiedActive"),
        ("owner", "No pagePrivate to process 1"),
        ("changed", "No pageChanged"),
    ]
    for paint, wanted in rows:
        hands.set("paint", paint)
        legend = hands.js("document.getElementById('legend').textContent")
        hands.note(f"the legend by {paint}", legend, f"{pages}{wanted}Underlined: changed")
    hands.browser.resize(390, 1400)
    hands.js(LATER)
    wide = "(({scrollWidth, clientWidth}) => scrollWidth - clientWidth)"
    hands.note("beyond a phone", hands.js(f"{wide}(document.getElementById('spaces'))"), 0)
    hands.browser.resize(1500, 1400)


def first_label(hands: Hands) -> None:
    long = "machine 16 16 2 0\nwrite 1 0x10000 " + "01" * 40 + "\n" + "process 0 8\n" * 31
    log, files = hands.played(long)
    for wide in (1500, 900, 700):
        hands.browser.resize(wide, 1400)
        hands.page(log, files)
        hands.note(f"clipped pixels at a width of {wide}", hands.js(CLIPPED), 0)
    hands.browser.resize(1500, 1400)


# how many pixels at the left edge of the lines' texts have ink
CLIPPED = """(() => {
  const context = document.getElementById('plot').getContext('2d');
  const ink = context.getImageData(0, 0, 1, 150).data;
  return ink.filter((value, at) => at % 4 === 3 && value > 0).length;
})()"""


def ages_and_slots(hands: Hands) -> None:
    with open("examples/cycle-with-age.mm", encoding="ascii") as file:
        log, files = hands.played(file.read())
    hands.page(log, files)
    hands.note("ages that are drawn, not those of the state", hands.js(OTHER_AGES), [])
    log, files = pressure()
    hands.page(log, files, "#line=43")
    hands.note("ages that are drawn, not those of the state", hands.js(OTHER_AGES), [])
    hands.js(LATER)
    titles = "[...document.querySelectorAll('#slots .cell')].slice(0, 4).map(({ title }) => title)"
    wanted = [
        "slot 0: s1.0, on disk alone",
        "slot 1: p1.33 0x21000, on disk alone",
        "slot 2: p1.34 0x22000, on disk alone",
        "slot 3: free",
    ]
    hands.note("slots", hands.js(titles), wanted)


# lines after which the chart of ages has other numbers than the state
OTHER_AGES = """page.data.lines.slice(1).flatMap(({ number }) => {
  const { sets } = page.survey.stateAfter(number);
  return page.data.processes.filter(Boolean).flatMap((process) => {
    const drawn = agesOf(page.data, process).map((pages) => pages[number]);
    const counted = drawn.map((_, at) => {
      const has = ({ age }) => age >= AGES[at] && age < AGES[at + 1];
      return sets[process.pid].filter(has).length;
    });
    return String(drawn) === String(counted) ? [] : [`${number}: ${drawn}, not ${counted}`];
  });
})"""


def idle_frames(hands: Hands) -> None:
    log, files = hands.played(VIEWS.replace("machine 16", "machine 4000"))
    hands.page(log, files)
    texts = hands.js("texts.length = 0, page.charts.draw(), texts")
    note = [text for text in texts if "that no line uses" in text]
    hands.note("page frames that no line uses", note, ["and 3,999 page frames that no line uses"])


def many_processes(hands: Hands) -> None:
    script = "machine 400 400 2 0\n" + "process 0 8\n" * 20
    script += "".join(
        f"alloc {n} 0 0x{n}000 0x3000 0x4\nwrite {n} 0x10000 01\n" for n in range(1, 10)
    )
    log, files = hands.played(script)
    hands.page(log, files)
    count = "texts.filter((text) => /^Working set/.test(text))"
    sets = hands.js(f"texts.length = 0, page.charts.draw(), {count}.length")
    hands.note("the busiest alone", sets, 6)
    hands.set("space", "17")
    sets = hands.js(f"texts.length = 0, page.charts.draw(), {count}")
    hands.note("another by choice", sets, ["Working set 17"])


# ---- observations
def regions(hands: Hands, observe: Callable[[str, bytes], bytes]) -> None:
    script = VIEWS + "read 2 0x80000 1\nwrite 2 0x40000 01\nread 2 0x42000 1\n"
    log, files = hands.played(script)
    observed = hands.file("hands.observed", observe(hands.mmsim, script.encode()))
    hands.page(log, [*files, observed], "#line=15")
    hands.js(LATER)
    hands.note("the warning", hands.js(WARNING), "")
    table = hands.js("document.getElementById('spaces').textContent")
    for part in ("View of data", "Copy view of data", "read/write, guard", "write copy", "2 runs"):
        hands.has("the table", table, part)
    hands.set("number", 13)
    line = hands.js("document.getElementById('line').textContent")
    hands.has("a guard that fires", line, "0x80000, 4 K: read/write, guard \u2192 read/write")
    hands.set("number", 11)
    line = hands.js("document.getElementById('line').textContent")
    hands.has("a refusal's sum", line, "6 charged + 64 asked for > 26, the limit")
    parts = hands.js("page.charge.partsAfter(15)")
    hands.note("the charge's parts", parts, [2, 0, 4])
    copied = hands.js("page.regions.pageText(2, 0x40, 15)")
    hands.note("a copied page", copied, "read/write, valid, copied, p2.64, frame 2")
    hands.set("find", "2:0x42000")
    hands.note("a view's page", hands.js(HISTORY), "History of page s0.2")
    private = hands.js("page.regions.pageText(2, 0x80, 15)")
    hands.note("a private page", private, "read/write, not touched, p2.128")
    legend = hands.js("document.getElementById('legend').textContent")
    hands.has("the legend", legend, "Guard page")
    sections = hands.js("document.getElementById('sections').textContent")
    hands.has("a section's views", sections, "1:0x10000, 2:0x40000 copy")


def without_observations(hands: Hands, observe: Callable[[str, bytes], bytes]) -> None:
    """A page of a place is of one kind, whether regions were observed or not.

    Only where both know the page: without observations a view that was unmapped stays.
    """
    with open("examples/under-pressure.mm", encoding="ascii") as file:
        script = file.read()
    log, files = hands.played(script)
    observed = hands.file("hands.observed", observe(hands.mmsim, script.encode()))
    kinds = []
    for some in ([*files, observed], files, []):
        hands.page(log, some)
        kinds.append(hands.js(KINDS))
    for what, found in (("the script", kinds[1]), ("the log alone", kinds[2])):
        other = {name: kind for name, kind in found.items() if kinds[0].get(name, kind) != kind}
        hands.note(f"kinds that are others by {what}", other, {})
    hands.note("there are kinds", len(kinds[2]) > 500, True)


# the kinds of the pages of all places that have one after a line
KINDS = """(() => {
  const kinds = {};
  for (const { number } of page.data.lines) {
    for (const { pid, page: at, name } of page.data.places.values()) {
      const found = page.pages.after(pid, at, number);
      if (found) kinds[number + ' ' + name] = found.kind + ' ' + found.isCopied;
    }
  }
  return kinds;
})()"""


def strangers(hands: Hands, observe: Callable[[str, bytes], bytes]) -> None:
    log, files = hands.played(VIEWS)
    rows = observe(hands.mmsim, VIEWS.encode()).decode()
    changes = [
        ("a charge", lambda text: re.sub(r"charge 4 (\d+)", r"charge 5 \1", text)),
        ("a limit", lambda text: re.sub(r"charge (\d+) (\d+)", r"charge \1 9\2", text)),
        (
            "a region",
            lambda text: text.replace("region 2 0x80000 0x2000", "region 2 0x80000 0x1000"),
        ),
        ("no view", lambda text: re.sub(r".* region 1 0x10000 .*\n", "", text)),
    ]
    for what, change in changes:
        observed = hands.file("hands.observed", change(rows).encode())
        hands.page(log, [*files, observed])
        hands.js(LATER)
        hands.has(what, hands.js(WARNING), "The observations are not of this run")


def bad_observations(hands: Hands) -> None:
    """The reference refuses each by the number of its line."""
    log, files = hands.played(VIEWS)
    good = "4 charge 0 26\n10 region 2 0x80000 0x2000 0x1000 0x20000 0x104 0x80000 0x104\n"
    rows = [
        ("", 0),
        ("11 charge 27 26\n", 3),
        ("9 charge 1 26\n", 3),
        ("13 charge 1 26\n", 3),
        ("11 charge 1\n", 3),
        ("11 charge 1 26", 3),
        ("11 region 3 0x80000 0x2000 0x10000 0 1 0 0\n", 3),
        ("11 region 2 0x80001 0x2000 0x10000 0 1 0 0\n", 3),
        ("11 region 2 0x7FFF0000 0x1000 0x10000 0 1 0 0\n", 3),
        ("11 region 2 0xF000 0x1000 0x10000 0 1 0 0\n", 3),
        ("11 region 2 0x80000 0x2000 0x4000 0 1 0 0\n", 3),
        ("11 region 2 0x80000 0x2000 0x10000 0 1 0 0 \n", 3),
        ("11 region 2 0x80000 0x2000 0x1000 0x20000 0x4 0x90000 0x4\n", 3),
        ("11  charge 1 26\n", 3),
        ("\n", 3),
    ]
    for more, line in rows:
        observed = hands.file("hands.observed", (good + more).encode())
        status, text = show.answer(["html", hands.whole, *files, observed], log)
        got = (status, text if status else "")
        wanted = (6, f"observation line {line}\n") if line else (0, "")
        hands.note(f"observations with {more!r}", got, wanted)


def changed_mark(hands: Hands) -> None:
    """The last mark is before the island's last line feed."""
    log, files = pressure()
    change = lambda page: re.sub(r"=.([^=\n]*)\n</script>", r"=A\1\n</script>", page, count=1)
    hands.page(log, files, "", change)
    hands.has("the page warns", hands.js(WARNING), "do not trust the charts")


def quick_steps(hands: Hands) -> None:
    """A step to another line takes at most 50 ms of the page's processor time, layout and all."""
    with open("examples/sort.mm", encoding="ascii") as file:
        log, files = hands.played(file.read())
    hands.page(log, files)
    hands.browser.ask("Performance.enable", timeDomain="threadTicks")

    def spent() -> float:
        metrics = hands.browser.ask("Performance.getMetrics")["metrics"]
        return next(one["value"] for one in metrics if one["name"] == "TaskDuration")

    took = []
    for _ in range(9):
        began = spent()
        hands.js("document.querySelector('[data-press=ArrowRight]').click()")
        hands.js("document.body.offsetHeight")
        took.append(1000 * (spent() - began))
        hands.js(LATER)
    middle = statistics.median(took)
    hands.note("a step, of at most 50 ms", middle if middle > 50 else "quick", "quick")


ALONE = [
    keys_and_clicks,
    zoom_at_the_line,
    tips,
    addresses,
    window_around,
    window_in_page,
    before_and_after,
    one_sentence,
    names_of_numbers,
    full_paging_file,
    threads,
    far_keys,
    io_none,
    early_end,
    find,
    drawn,
    only_what_is_drawn,
    first_label,
    ages_and_slots,
    idle_frames,
    many_processes,
    bad_observations,
    changed_mark,
    quick_steps,
]


def check(
    browser: Browser,
    report: Any,
    mmsim: str,
    whole: str,
    room: str,
    observe: Callable[[str, bytes], bytes],
) -> None:
    """All cases; `report` counts what is compared, `whole` is the page without data."""
    hands = Hands(browser, report, mmsim, whole, room)
    browser.ask("Page.addScriptToEvaluateOnNewDocument", source=NOTE_TEXTS)
    for case in ALONE:
        hands.name = case.__name__
        case(hands)
    for observed in (regions, without_observations, strangers):
        hands.name = observed.__name__
        observed(hands, observe)
