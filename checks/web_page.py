"""The page of the programs, in a headless Chromium: the part of checks/web.py that needs a browser.

Each check counts what it compared, tells of what differs, and raises BrowserError where nothing comes.
"""

import json
import os
import re
import tempfile
import threading
import time
from concurrent.futures import ThreadPoolExecutor
from functools import partial
from typing import Any, Callable, Dict, List, Tuple

from browser import Browser, BrowserError, find_browser

LONGEST_GAP = 200  # milliseconds in which the page's own thread may be busy at once
LINES = 20_000
BROWSERS = 3  # that are led side by side
LEAST, MOST = 0x10000, 0x7FFF0000  # the user addresses
RUNS = "Number(document.documentElement.dataset.runs ?? 0)"
SHOWN = "!!document.querySelector('iframe.shown')"
NEW_ALONE = (
    "(([one, ...more]) => one.matches('.shown:not([data-old])') && !more.length)"
    "(document.querySelectorAll('iframe'))"
)


class Checks:
    """The checks of one page; `native` runs the native programs."""

    def __init__(self, path: str, browser: str, native: Any, top: str):
        self.path, self.browser, self.native, self.top = path, browser, native, top
        self.tried = self.bad = 0
        self.lock = threading.Lock()

    def same(self, what: str, got: Any, wanted: Any) -> None:
        is_same = got == wanted
        with self.lock:
            self.tried += 1
            self.bad += not is_same
        if not is_same:
            self.tell(f"{what}: {str(got)[:300]!r}, not {str(wanted)[:300]!r}")

    def tell(self, complaint: str) -> None:
        print(f"web: {complaint}", flush=True)

    def holds(self, what: str, is_so: bool) -> None:
        self.same(what, bool(is_so), True)

    def open(self, place: str = "", is_dark: bool = False, **size: Any) -> Browser:
        asked: Dict[str, Any] = {"height": 950, **size}
        page = Browser(self.browser, **asked)
        page.is_dark(is_dark)
        page.open(self.path, place, f"{RUNS} > 0")
        return page

    def after(self, page: Browser, act: str) -> None:
        """Does something that leads to a run, and waits for its end."""
        before = page.run(RUNS)
        page.run(act)
        page.wait(f"{RUNS} > {before} && !busy", 120)

    def quiet(self, page: Browser, what: str) -> None:
        self.same(f"{what}: written to the console", "; ".join(page.said)[:300], "")

    # ---- what the native programs say of a written script

    def natively(self, script: str) -> Dict[str, str]:
        status, plain, told = self.native.run("mmnames", ["lines"], script.encode())
        _, answers, log = self.native.run("mmsim", ["run"], plain)
        with tempfile.TemporaryDirectory() as folder:
            for name, data in (("script", plain), ("answers", answers)):
                with open(f"{folder}/{name}", "wb") as file:
                    file.write(data)
            names = ["script", "answers"]
            _, page, _ = self.native.run("mmshow", ["html", *names], log, folder)
            _, tell, _ = self.native.run("mmshow", ["tell", *names], log, folder)
        texts = {"plain": plain, "answers": answers, "log": log, "page": page, "tell": tell}
        return {name: data.decode() for name, data in texts.items()} | {"status": str(status)}

    # ---- the checks

    def examples(self, page: Browser) -> None:
        """Each example: answers, log, page and moves in words, as the native programs give them."""
        page.wait(SHOWN, 60)
        for it in page.run("data.examples.map(({ name, script }) => ({ name, script }))"):
            name, script = it["name"], it["script"]
            wanted = self.natively(script)
            got = page.run(RUN_EXAMPLE % json.dumps(name))
            for part in ("plain", "answers", "log", "page"):
                self.same(f"{name}: {part}", got[part], wanted[part])
            self.names(page, name, wanted)
            if len(wanted["log"]) < 20_000:
                self.told(page, name, wanted["tell"])

    def told(self, page: Browser, name: str, tell: str) -> None:
        """The moves of each line, in words."""
        lines: List[List[str]] = []
        for line in tell.splitlines():
            if line.startswith(" "):
                lines[-1].append(line.strip())
            else:
                lines.append([])
        every = (
            "Promise.all([...Array(COUNT).keys()].map((i) => first.ask('tell', { line: i + 1 })))"
        )
        got = page.run(
            every.replace("COUNT", str(len(lines))) + ".then((all) => all.map((it) => it.moves))"
        )
        self.same(f"{name}: moves in words", got, lines)

    def names(self, page: Browser, name: str, wanted: Dict[str, str]) -> None:
        """The names of refusals beside the lines are those that mmshow has behind them."""
        answers = [it for it in wanted["answers"].splitlines() if re.match("error|raise", it)]
        got = page.run(f"{json.dumps(answers)}.map((answer) => refusalOf(answer))")
        for answer, meant in zip(answers, got):
            if f"{answer} [" in wanted["tell"]:
                self.holds(f"{name}: {answer} is {meant}", f"{answer} [{meant}]" in wanted["tell"])

    def spaces(self, page: Browser) -> None:
        """The address spaces and the charge behind a line, asked natively at each base shown."""
        for name in ("lab", "under-pressure", "shared-section", "stack-grows"):
            self.after(page, f"putExample({json.dumps(name)})")
            plain = page.run("first.ask('files').then(({ plain }) => plain)").splitlines()
            for line in range(2, len(plain) + 1, 3):
                got = page.run(f"first.ask('spaces', {{ line: {line} }})")
                asked = [
                    f"query {it['pid']} 0x{region['base']:X}"
                    for it in got["processes"]
                    for region in it["regions"]
                ]
                script = "\n".join([*plain[:line], *asked, "charge", ""])
                _, out, _ = self.native.run("mmsim", ["run"], script.encode())
                answers = out.decode().splitlines()[line:]
                regions = [region for it in got["processes"] for region in it["regions"]]
                keys = "base allocation allocationProtection size state protection type".split()
                shown = [" ".join(["ok", *(f"0x{it[key]:08X}" for key in keys)]) for it in regions]
                shown.append(f"ok {got['charge']} {got['limit']}")
                self.same(f"{name}: address spaces behind line {line}", shown, answers)
                for it in got["processes"]:
                    ends = [region["base"] + region["size"] for region in it["regions"]]
                    bases = [region["base"] for region in it["regions"]]
                    self.same(
                        f"{name}: no gap in a walk", bases + ends[-1:], [LEAST, *ends[:-1], MOST]
                    )

    def mistakes(self, page: Browser) -> None:
        """A mistake stands at its line with its reason, and goes when it is mended."""
        self.after(
            page, "putText('machine 64 64 4 0\\nprocess 0 32\\n\\nraed 1 0x10000 4\\ncharge\\n')"
        )
        reason = "no such word 'raed'; is 'read' meant?"
        row = "[...document.querySelectorAll('#answers .CodeMirror-line')][3].textContent"
        self.holds("a mistake at its line", reason in page.run(row))
        self.holds(
            "a mistake below", f"line 4: {reason}" in page.run("element('told').textContent")
        )
        sign = "!!editor.script.lineInfo(3).gutterMarkers?.signs"
        self.holds("a mistake's sign", page.run(sign))
        self.same("its word", page.run("document.querySelector('.under').textContent"), "raed")
        self.after(
            page, "editor.script.replaceRange('read', { line: 3, ch: 0 }, { line: 3, ch: 4 })"
        )
        self.holds("mended", "raise 0xC0000005" in page.run(row) and not page.run(sign))
        self.same("nothing is told", page.run("element('told').textContent"), "")

    def typing(self, page: Browser) -> None:
        """Keys: a script that is typed is run; calls and names are completed."""
        self.after(page, "putText('machine 64 64 4 0\\nprocess 0 32\\n')")
        page.run("(editor.script.focus(), editor.script.execCommand('goDocEnd'))")
        page.type("Virt")
        hinted(page)
        shown = page.run("document.querySelector('.CodeMirror-hints').textContent")
        self.holds("a call with its arguments", "VirtualAlloc pid, addr, size, type, prot" in shown)
        page.key("Enter")
        page.type("(1, 0, 64K, MEM_COM")
        hinted(page)
        self.holds(
            "a name",
            "MEM_COMMIT" in page.run("document.querySelector('.CodeMirror-hints').textContent"),
        )
        page.key("Enter")
        page.type(", PAGE_READW")
        hinted(page)
        page.key("Enter")
        page.type(")")
        page.wait("run.answers.length === 3 && run.answers[2] === 'ok 0x00010000'", 30)
        self.same(
            "what was typed",
            page.run("editor.script.getLine(2)"),
            "VirtualAlloc(1, 0, 64K, MEM_COMMIT, PAGE_READWRITE)",
        )
        help_text = awaited(page, "element('help').textContent", "MEM_RESERVE")
        self.holds("the rule of its call", "MEM_RESERVE" in help_text and "1455" in help_text)
        page.key("Tab")
        self.holds("Tab leaves the editor", not page.run("editor.script.hasFocus()"))
        page.run("editor.script.focus()")
        page.key("F6")
        self.same("F6", page.run("document.activeElement.dataset.view"), "frames")
        for name in ("bar", "grip"):
            left = f"element('{name}').getBoundingClientRect().left"
            before = page.run(f"(element('{name}').focus(), {left})")
            page.key("ArrowLeft")
            self.holds(f"an arrow key moves the {name}", page.run(left) < before)
            told = f"Number(element('{name}').getAttribute('aria-valuenow'))"
            part = f"Math.round((100 * {left}) / innerWidth)"
            self.holds(f"the {name} tells its place", page.run(f"{told} === {part}"))

    def linked(self, page: Browser) -> None:
        """A line that is chosen left is shown right, and the other way round."""
        page.run("(globalThis.heard = 0, addEventListener('message', () => globalThis.heard++))")
        page.wait(SHOWN, 60)
        page.run("document.querySelector('iframe').dataset.old = 'yes'")
        self.after(page, "(view('frames'), putExample('lab'))")
        page.wait(NEW_ALONE, 60)
        rested(page)
        page.run("editor.choose(32)")
        page.wait("run.lineOf[editor.line()] === 20")
        self.holds(
            "its moves in words",
            "hard fault" in awaited(page, "element('moves').textContent", "hard fault"),
        )
        frame = "document.querySelector('iframe:last-child')"
        page.run("editor.script.focus()")
        page.run(CHOSEN % (12, frame + ".contentWindow"))
        self.same("chosen right by no person", page.run("editor.line()"), 32)
        page.run(frame + ".focus()")
        page.run(CHOSEN % (12, frame + ".contentWindow"))
        self.same("chosen right", page.run("editor.line()"), 22)
        page.run(CHOSEN % (3, "window"))
        self.same("chosen by another window", page.run("editor.line()"), 22)

    def share(self, page: Browser) -> None:
        """Share puts the script into the address; the address opens it again."""
        script = "machine 16 8 2 0\nprocess 0 8  # \u00e4\n"
        script += "VirtualAlloc(1, 0, 4K, MEM_COMMIT, PAGE_READONLY)\n"
        self.after(page, f"putText({json.dumps(script)})")
        page.run("element('share').onclick()")
        page.wait("location.hash.startsWith('#script=')")
        place, answers = page.run("location.hash"), page.run("run.answers")
        again = self.open(place)
        try:
            self.same("shared: the script", again.run("editor.text()"), script)
            self.same("shared: the answers", again.run("run.answers"), answers)
            self.quiet(again, "a shared script")
        finally:
            again.close()

    def files(self, page: Browser) -> None:
        """What is saved is the run; a file that is dropped in is run."""
        self.after(page, "putExample('hard-fault')")
        wanted = self.natively(
            page.run("data.examples.find(({ name }) => name === 'hard-fault').script")
        )
        page.run(CATCH_SAVED)
        parts = {
            "script.mm": "plain",
            "answers.out": "answers",
            "moves.log": "log",
            "page.html": "page",
        }
        for name, part in parts.items():
            page.run(f"(element('save').value = {json.dumps(name)}, element('save').onchange())")
            page.wait(f"globalThis.saved[{json.dumps(name)}] !== undefined", 20)
            self.same(
                f"saved: {name}", page.run(f"globalThis.saved[{json.dumps(name)}]"), wanted[part]
            )
        self.after(page, DROP)
        self.same(
            "a dropped file",
            page.run("[editor.text(), run.answers[0]]"),
            ["machine 9 1 1 0\n", "ok 6"],
        )

    def second(self, page: Browser) -> None:
        """A second machine: answers, faults and where they part, against native runs."""
        self.after(page, "(view('second'), putExample('under-pressure'))")
        page.wait("!!document.querySelector('[data-name=frames]')", 30)
        for name, value in (("frames", 8), ("slots", 3), ("most", 2)):
            page.run(SET_SLIDER % (name, value))
            got = page.run(ASK_SECOND)
            plain = page.run("first.ask('files').then(({ plain }) => plain)")
            script = rewritten(plain, got["machine"])
            _, out, log = self.native.run("mmsim", ["run"], script.encode())
            self.same(f"{name} {value}: answers", got["said"]["answers"], out.decode())
            _, counted, _ = self.native.run("mmlog", ["check"], log)
            numbers = dict(line.split(" ") for line in counted.decode().splitlines()[1:])
            sums = {
                kind: sum(filter(None, got["said"]["other"][kind]))
                for kind in ("hard", "soft", "zero")
            }
            self.same(f"{name} {value}: faults", sums, {kind: int(numbers[kind]) for kind in sums})
        page.wait("element('parting').textContent.includes('part at line')", 30)
        page.wait("document.querySelectorAll('#over-frames circle').length > 10", 60)
        self.holds(
            "curves of both", page.run("document.querySelectorAll('#over-lines path').length === 2")
        )

    def stop(self, page: Browser) -> None:
        """A long run can be stopped, and the next one goes on as ever."""
        page.run("view('frames')")
        page.run(f"putText({json.dumps(bulk_script(60_000))})")
        self.holds("a long script waits for the button", page.run("!busy"))
        page.run("void start()")
        page.wait("element('run').textContent === 'Stop'", 30)
        page.run("element('run').click()")
        page.wait("element('status').textContent === 'Stopped.'", 10)
        self.after(page, "putExample('first')")
        self.same("the run after", page.run("run.answers[0]"), "ok 2")

    def long(self, page: Browser) -> None:
        """20,000 lines: no gap of the page's thread is too long. Time in which it only waited for a
        processor does not count; the best of three counts, since other work makes gaps too."""
        script, best = bulk_script(LINES - 20), 10_000.0
        page.run(WATCH_GAPS)
        for _ in range(3):
            page.run("globalThis.gaps.length = 0")
            ran, waited = page.work()
            self.after(page, f"putText({json.dumps(script)})")
            page.wait(SHOWN, 60)
            self.after(page, "editor.script.replaceRange('charge\\n', { line: 12000, ch: 0 })")
            time.sleep(1)
            ran, waited = [after - before for after, before in zip(page.work(), (ran, waited))]
            longest = page.run("Math.max(0, ...globalThis.gaps)")
            best = min(best, longest * ran / max(ran + waited, 1))
            if best <= LONGEST_GAP:
                break
        busy = "" if best <= LONGEST_GAP else f"{best:.0f} ms at once"
        self.same(f"{LINES} lines: the page's thread is busy for too long", busy, "")

    def policy(self) -> None:
        """The page may fetch nothing: a fetch and an image are refused by its policy."""
        page = self.open()
        try:
            refused = "fetch('https://example.org/').then(() => 'fetched', () => 'refused')"
            self.same("a fetch", page.run(refused), "refused")
            self.same("an image", page.run(LOAD_IMAGE), "refused")
            said = "; ".join(page.said)
            self.holds(
                "its policy refuses it", "Content Security Policy" in said and "default-src" in said
            )
            page.run("1")
            text = page.run("document.querySelector('meta[http-equiv]').content")
            self.holds(
                "no source of a network",
                not re.search(r"https?:|\*|'self'|data:|connect-src", text),
            )
        finally:
            page.close()

    def sizes(self) -> None:
        """A phone, and a dark screen: the page is drawn, and nothing is written to the console."""
        phone: Dict[str, Any] = {"width": 390, "height": 800, "is_phone": True}
        screens: List[Tuple[str, Dict[str, Any]]] = [("a phone", phone), ("dark", {})]
        for what, size in screens:
            page = self.open(is_dark=not size, **size)
            try:
                wide = page.run("document.documentElement.scrollWidth <= innerWidth")
                self.holds(f"{what}: no line of the page is wider than the screen", wide)
                for name in ("spaces", "second", "about", "frames"):
                    page.run(f"view('{name}')")
                    self.holds(
                        f"{what}: {name} is seen", page.run(f"element('{name}').offsetWidth > 200")
                    )
                self.quiet(page, what)
            finally:
                page.close()


RUN_EXAMPLE = (
    "(async () => { const { script } = data.examples.find((it) => it.name === %s);"
    " const said = await first.ask('run', { script, wantsPage: true });"
    " return { ...said, ...(await first.ask('files')) }; })()"
)
CHOSEN = (
    "dispatchEvent(new MessageEvent('message',"
    " { data: { melzudek: 'chosen', line: %d }, source: %s }))"
)
LOAD_IMAGE = (
    "new Promise((end) => { const it = new Image(); it.onload = () => end('loaded');"
    " it.onerror = () => end('refused'); it.src = 'https://example.org/a.png'; })"
)
CATCH_SAVED = (
    "globalThis.saved = {}, URL.createObjectURL = (blob) => (globalThis.blob = blob, 'blob:none'),"
    " HTMLAnchorElement.prototype.click = function () { const name = this.download;"
    " globalThis.blob.text().then((text) => (globalThis.saved[name] = text)); }, 1"
)
DROP = (
    "(() => { const dataTransfer = new DataTransfer();"
    " dataTransfer.items.add(new File(['machine 9 1 1 0\\n'], 'a.mm'));"
    " dispatchEvent(new DragEvent('drop', { dataTransfer, bubbles: true })); })()"
)
SET_SLIDER = (
    "((name, value) => { const it = document.querySelector(`[type=number][data-name=${name}]`);"
    " it.value = value; it.dispatchEvent(new Event('input', { bubbles: true })); })('%s', %d)"
)
ASK_SECOND = (
    "(async () => { const machine = second.machine();"
    " return { machine, said: await other.ask('compare', { machine }) }; })()"
)
WATCH_GAPS = (
    "globalThis.gaps ??= (() => { const list = [];"
    " new PerformanceObserver((seen) => list.push(...seen.getEntries().map((it) => it.duration)))"
    ".observe({ entryTypes: ['longtask'] }); return list; })(), 1"
)


def hinted(page: Browser) -> None:
    """Waits for the list of what may be typed, until it rests as a person would. (A run that ends just
    then may close it: Ctrl+Space opens it again.)"""
    shown = "!!document.querySelector('.CodeMirror-hints')"
    for _ in range(5):
        time.sleep(0.6)
        if page.run(shown):
            return
        page.key(" ", modifiers=2)
    page.wait(shown, 10)


def rested(page: Browser) -> None:
    """Waits until the charts tell no more: a new page chooses a line by itself, and tells it."""
    heard = -1
    while heard != page.run("globalThis.heard"):
        heard = page.run("globalThis.heard")
        time.sleep(1.5)


def awaited(page: Browser, text: str, part: str) -> str:
    """The value of a text, once it has a part."""
    page.wait(f"({text}).includes({json.dumps(part)})", 20)
    return str(page.run(text))


def rewritten(plain: str, machine: Dict[str, Any]) -> str:
    """The plain script for a second machine, as the page should rewrite it."""
    lines = []
    for line in plain.splitlines():
        words = line.split(" ")
        if words[0] == "machine":
            words[1:3] = [str(machine["frames"]), str(machine["slots"])]
        elif words[0] == "process":
            most = machine.get("most") or int(words[2])
            least = machine.get("least")
            words[1:] = [str(min(int(words[1]) if least is None else least, most)), str(most)]
        lines.append(" ".join(words))
    return "\n".join(lines) + "\n"


def bulk_script(lines: int) -> str:
    """A script of so many lines, which page."""
    head = ["machine 64 512 4 0", "process 0 48", "alloc 1 0 0x80000 0x3000 0x04"]
    body = [f"write 1 0x{0x10000 + (i * 37 % 128) * 4096:X} {i % 256:02X}" for i in range(lines)]
    return "\n".join(head + body) + "\n"


def check(path: str, native: Any, top: str) -> Tuple[int, int]:
    """How many things were compared in the browser, and how many are wrong."""
    try:
        browser = find_browser()
    except SystemExit:
        print("web: the browser is left out, since chromium cannot be had")
        return 0, 0
    if not browser:
        print("web: the browser is left out, as MELZUDEK_NO_BROWSER=1 says")
        return 0, 0
    checks = Checks(os.path.abspath(path), browser, native, top)
    whole = [checks.examples, checks.spaces, checks.mistakes, checks.typing, checks.linked]
    whole += [checks.share, checks.files, checks.second, checks.stop]
    acts = [partial(on_a_page, checks, one) for one in whole] + [checks.policy, checks.sizes]
    with ThreadPoolExecutor(BROWSERS) as pool:
        list(pool.map(partial(guarded, checks), acts))
    guarded(checks, partial(on_a_page, checks, checks.long))  # by itself: it looks at the clock
    return checks.tried, checks.bad


def on_a_page(checks: Checks, one: Callable[[Browser], None]) -> None:
    """One check on a page of its own."""
    page = checks.open()
    try:
        one(page)
        checks.quiet(page, one.__name__)
    finally:
        page.close()


def guarded(checks: Checks, act: Any) -> None:
    """One check, and what it is called where nothing came."""
    name = act.args[1].__name__ if isinstance(act, partial) else act.__name__
    try:
        act()
    except BrowserError as trouble:
        checks.same(name, str(trouble), "it comes to its end")
