"""A talk with a machine: lines as people write them, each answered at once.

`mmnames talk` says what a line means, and why it means nothing; `mmshow tell` gives the answer with
Windows' names and the line's moves in words. Nothing of either is decided here. The number before
a line is the one that it has in the script and in the log.
"""

from __future__ import annotations

import contextlib
import io
import os
import re
import subprocess
import sys
import tempfile
import textwrap
from collections.abc import Iterable, Iterator
from pathlib import Path
from typing import NamedTuple

from . import programs
from .errors import Ended, Mistake
from .machine import Machine
from .told import told_of

WIDTH = 100
MOST_MOVES = 20  # of a line that are shown at once
TOLD = re.compile(r"(warning: |)line (\d+)((?: column \d+)?: .*)")
MISSING = re.compile(r".*: a word is missing: (.*)")
BEGIN = "lines as people write them; `help` tells more, `quit` ends"
HELP = """\
A line is what docs/WRITTEN.md takes: `alloc 1 0 0x10000 0x3000 4` and
`VirtualAlloc(1, 0, 64K, MEM_COMMIT | MEM_RESERVE, PAGE_READWRITE)` are the same, process 1 first.
A talk begins with a machine, as `machine 64 64 4 0`, and a process, as `process 0 32`.

help WORD   what a call takes, as `help alloc` or `help VirtualAlloc`
moves       all moves of the last line
undo        takes the last line back: the others are run again
quit        ends the talk, as the end of input does"""


class Heard(NamedTuple):
    """What written lines mean: the plain lines, and what is said of the written ones by number."""

    plain: list[str]
    said: dict[
        int, list[tuple[str, str]]
    ]  # `warning: ` or nothing, and what stands behind `line N`


def hear(written: Iterable[str]) -> Heard:
    """Asks `mmnames talk`; Mistake where it cannot say."""
    given = "".join(line + "\n" for line in written).encode("utf-8", "surrogateescape")
    words = [programs.find("mmnames"), "talk"]
    ran = subprocess.run(words, input=given, capture_output=True, start_new_session=True)
    told = ran.stderr.decode("utf-8", "replace").splitlines()
    if ran.returncode:
        raise Mistake(f"mmnames talk ends with status {ran.returncode}: {' '.join(told[-1:])}")
    said: dict[int, list[tuple[str, str]]] = {}
    for kind, line, reason in (found.groups() for found in map(TOLD.fullmatch, told) if found):
        said.setdefault(int(line), []).append((kind, reason))
    return Heard(ran.stdout.decode("ascii").splitlines(), said)


def script_of(name: str) -> list[str]:
    """The lines of a written file; Mistake where one of them means nothing."""
    try:
        given = Path(name).read_bytes()
    except OSError as error:
        raise Mistake(f"{name} cannot be read: {error.strerror}") from error
    ran = subprocess.run([programs.find("mmnames")], input=given, capture_output=True)
    told = ran.stderr.decode("utf-8", "replace").splitlines()
    if ran.returncode:
        raise Mistake("; ".join(f"{name}: {it}" for it in told) or f"{name} is no script")
    return [line.rstrip("\r") for line in given.decode("utf-8-sig", "surrogateescape").split("\n")]


class Talk:
    """The lines that were taken so far, and the machine that they made."""

    def __init__(self) -> None:
        self.written: list[str] = []
        self.machine: Machine | None = None
        self.last: list[str] = []  # what was told of the last line

    @property
    def number(self) -> int:
        """The number of the next line, in the script and in the log."""
        return self.machine.lines + 1 if self.machine else 1

    def close(self) -> None:
        if self.machine:
            self.machine.close()

    def begin(self, name: str) -> None:
        """Takes a file's lines first."""
        self.written = [line for line in script_of(name) if line.strip()]
        self.again()
        show(f"{name}: {self.number - 1:,} lines are run")

    def take(self, line: str) -> None:
        """Takes a line, and shows what became of it."""
        heard = hear([*self.written, line])
        said = heard.said.get(len(self.written) + 1, [])
        for kind, reason in said:
            show(f"{kind}line {self.number}{reason}")
        if any(not kind for kind, _ in said):
            return
        try:
            for plain in heard.plain[self.number - 1 :]:
                self.answer(plain)
        except Ended as ended:
            show(f"{ended}; the lines before it are run again")
            self.again()
            return
        self.written.append(line)

    def answer(self, plain: str) -> None:
        """Gives the machine a line, and shows its answer and its moves."""
        if self.machine:
            self.machine.send(plain)
        else:
            self.machine = Machine.of([plain])
        self.last = self.told(plain)
        show(*self.last[: MOST_MOVES + 1])
        more = len(self.last) - MOST_MOVES - 1
        if more > 0:
            show(f"     and {more:,} more: `moves` shows all")

    def told(self, plain: str) -> list[str]:
        """The last line's answer with Windows' names, and its moves in words."""
        assert self.machine
        answer, number = self.machine.answers[-1], str(self.machine.lines)
        with tempfile.TemporaryDirectory(prefix="melzudek-") as folder:
            script, answers = Path(folder, "script.mm"), Path(folder, "answers.out")
            script.write_text(self.machine.script, "ascii")
            answers.write_text("".join(it + "\n" for it in self.machine.answers), "ascii")
            words = [programs.find("mmshow"), "tell", str(script), str(answers)]
            with open(f"/proc/self/fd/{self.machine.channel.moves}", "rb") as log:
                ran = subprocess.run(words, stdin=log, capture_output=True, start_new_session=True)
        rows = told_of(ran.stdout.decode("latin-1").splitlines(), int(number))
        if ran.returncode or not rows:
            return [f"{answer} (mmshow tell ends with status {ran.returncode})"]
        first = rows[0].removeprefix(number).strip().removeprefix(plain).strip()
        return [first if first.startswith(answer) else answer, *rows[1:]]

    def again(self) -> None:
        """Makes the machine anew of the lines that were taken."""
        self.close()
        self.machine, self.last = None, []
        plain = hear(self.written).plain
        if plain:
            self.machine = Machine.of(plain)

    def undo(self) -> None:
        if not self.written:
            show("there is no line to take back")
            return
        line = self.written.pop()
        self.again()
        show(f"taken back: {line}")

    def do(self, line: str) -> bool:
        """Takes a word of the talk or a line of a script. Whether the talk goes on."""
        word, *more = line.split() or [""]
        if not word:
            return True
        if line.strip() == "quit":
            return False
        if word == "help" and len(more) < 2:
            show(*(help_of(more[0]) if more else [HELP]))
        elif line.strip() == "undo":
            self.undo()
        elif line.strip() == "moves":
            show(*(self.last[1:] or ["the last line moved nothing"]))
        else:
            self.take(line)
        return True


# ---------------------------------------------------------------- help


def help_of(word: str) -> list[str]:
    """What a call takes, as mmnames says it, and its rule where docs/PROFILE.md is there."""
    heard = hear([word])
    reasons = [reason for _, reason in heard.said.get(1, [])]
    found = [missing[1] for missing in map(MISSING.fullmatch, reasons) if missing]
    if not found:  # a word that takes nothing means something, once there is a machine
        found = hear(["machine 6 0 1 0", word]).plain[1:]
    if not found:
        return [reason.partition(": ")[2] for reason in reasons]
    return [*found, *rule_of(found[0].partition(" ")[0])]


def profile() -> str:
    """The text of docs/PROFILE.md, of the checkout or of the place of installation; or nothing."""
    places = [above / "docs" for above in Path(__file__).resolve().parents]
    places += [above / "share/doc/melzudek" for above in Path(__file__).resolve().parents]
    for place in places:
        with contextlib.suppress(OSError):
            return (place / "PROFILE.md").read_text("utf-8")
    return ""


def rule_of(keyword: str) -> Iterator[str]:
    """The paragraphs of the rules that begin with a keyword, up to the next such."""
    is_its = False
    for part in re.split(r"\n\s*\n|\n(?=- )", profile()):
        if re.match(r"(?:- )?\*\*|#", part):
            is_its = keyword in re.findall(r"\*\*`(\w+)", part.partition("\n")[0])
        if is_its:
            text = re.sub(r"\*\*|`", "", " ".join(part.split()))
            yield textwrap.fill(text, WIDTH, initial_indent="  ", subsequent_indent="  ")


# ---------------------------------------------------------------- the prompt


def show(*texts: str) -> None:
    print(*texts, sep="\n", flush=True)


def lines_of(talk: Talk) -> Iterator[str]:
    """Lines to their end: at a terminal with editing and history, else shown as they come."""
    is_terminal = sys.stdin.isatty() and sys.stdout.isatty()
    if is_terminal:
        with contextlib.suppress(ImportError):
            import readline  # noqa: F401 (input() takes editing and history from it)
    while True:
        prompt = f"{talk.number}> "
        try:
            line = input(prompt if is_terminal else "")
        except EOFError:
            if is_terminal:
                show("")
            return
        except KeyboardInterrupt:
            if not is_terminal:
                raise
            show("")
            continue
        if not is_terminal:
            show(prompt + line)
        yield line


def talk(script: str | None = None, into: str | None = None) -> None:
    """Talks until `quit` or the end of input; the run is kept in a folder where one is named."""
    for name in ("mmnames", "mmsim", "mmshow"):
        programs.find(name)
    for stream, errors in ((sys.stdin, "surrogateescape"), (sys.stdout, "backslashreplace")):
        if isinstance(stream, io.TextIOWrapper):
            stream.reconfigure(errors=errors)
    one = Talk()
    try:
        if script:
            one.begin(script)
        if sys.stdin.isatty():
            show(BEGIN)
        for line in lines_of(one):
            if not go_on(one, line):
                break
        if into and one.machine:
            one.machine.save(into)
            print(f"melzudek: {os.fspath(into)} has the run", file=sys.stderr)
    finally:
        one.close()


def go_on(one: Talk, line: str) -> bool:
    """Does what a line says; an interrupt at a terminal ends the line alone."""
    try:
        return one.do(line)
    except KeyboardInterrupt:
        if not sys.stdin.isatty():
            raise
        show("interrupted: the lines before it are run again")
        one.again()
        return True
