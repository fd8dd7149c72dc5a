"""Scripts as lines: read from wherever they are, and put on other machines.

Housekeeping in place of a script's own comes after references: `age` and `trim` after each so many
of their process, so that one that seldom runs is not aged by another; `writer`, `zeroer` and `io`,
which serve all processes, after each so many of the whole script.
"""

from __future__ import annotations

import os
import re
from collections import Counter
from collections.abc import Iterable, Iterator, Mapping
from pathlib import Path
from typing import NamedTuple, Union

from .errors import Mistake

# spelled so that Python 3.9 takes it: tools that run before anything is installed import this
Script = Union[str, "os.PathLike[str]", Iterable[str]]
Value = Union[int, str]
MACHINE = re.compile(r"machine (\d+) (\d+) (\d+) (\d+)")
PROCESS = re.compile(r"process (\d+) (\d+)")
ACCESSES = ("read", "write", "exec")
OF_MACHINE = ("frames", "slots", "depth", "blocks")
LIMITS = ("minimum", "maximum")
OF_PROCESS = {"age": "age {pid}", "trim": "trim {pid} {count}"}
OF_ALL = {"writer": "writer {count}", "zeroer": "zeroer {count}", "io": "io 1"}
RHYTHMS = {**OF_PROCESS, **OF_ALL}


class Head(NamedTuple):
    """What a script's first line says of the machine."""

    frames: int
    slots: int
    depth: int
    blocks: int


def read_script(script: Script) -> list[str]:
    """The lines of a path, of a text that has a line feed, or of lines.

    Raises Mistake where there is no file, or it has no `machine` line.
    """
    if isinstance(script, os.PathLike) or isinstance(script, str) and "\n" not in script:
        try:
            text = Path(script).read_bytes().decode("ascii")
        except OSError as error:
            raise Mistake(f"{os.fspath(script)} cannot be read: {error.strerror}") from error
        except UnicodeDecodeError as error:
            raise Mistake(f"{os.fspath(script)} is no script: it is not ASCII") from error
        lines, name = text.split("\n"), os.fspath(script)
    else:
        lines = script.split("\n") if isinstance(script, str) else list(script)
        name = "the script"
    if lines and not lines[-1]:
        lines.pop()
    if not lines or not lines[0].startswith("machine "):
        raise Mistake(f"{name} is no script of mmsim: its first line is no `machine` line")
    return [line.rstrip("\r") for line in lines]


def head(lines: list[str]) -> Head:
    """The machine of a script; Mistake where the line is not of its form."""
    found = MACHINE.fullmatch(lines[0]) if lines else None
    if not found:
        raise Mistake(f"`{lines[0] if lines else ''}` is no `machine FRAMES SLOTS DEPTH BLOCKS`")
    return Head(*map(int, found.groups()))


def processes(lines: Iterable[str]) -> int:
    """How many processes a script asks for."""
    return sum(line.startswith("process ") for line in lines)


class Rhythm:
    """Housekeeping lines that come after references. 0 references: none of them comes."""

    def __init__(self, rules: Mapping[str, Value]) -> None:
        """`rules` has N or "N:COUNT" for a word: after each N references so many pages, or lines."""
        self.rules = [(word, *often(word, value)) for word, value in rules.items()]
        self.replaced = frozenset(rules)
        self.passed: Counter[str] = Counter()  # references of each process; "": of all

    def after(self, pid: str) -> Iterator[str]:
        """What is due right after the next reference, which is one of this process."""
        self.passed[pid] += 1
        self.passed[""] += 1
        for word, every, count in self.rules:
            of = pid if word in OF_PROCESS else ""
            if every and self.passed[of] % every == 0:
                line = RHYTHMS[word].format(pid=pid, count=count)
                yield from [line] * (count if word == "io" else 1)


def often(word: str, value: Value) -> tuple[int, int]:
    """`N` or `N:COUNT`; Mistake where it is neither."""
    every, _, count = str(value).partition(":")
    if not every.isdecimal() or (count and not count.isdecimal()):
        raise Mistake(f"{word}={value} is no number of references, nor `REFERENCES:COUNT`")
    return int(every), int(count or 1)


def varied(lines: list[str], parameters: Mapping[str, Value]) -> Iterator[str]:
    """The script on another machine: each parameter stands in place of what the script has.

    `frames`, `slots`, `depth`, `blocks`; `minimum` and `maximum` of all working sets, `minimum:2`
    of that of process 2; `age`, `trim`, `writer`, `zeroer`, `io` as in `Rhythm`.
    """
    own = head(lines)
    yield "machine " + " ".join(str(parameters.get(it, getattr(own, it))) for it in OF_MACHINE)
    rhythm = Rhythm({word: parameters[word] for word in RHYTHMS if word in parameters})
    made = 0
    for line in lines[1:]:
        word = line.partition(" ")[0]
        if word == "process":
            made += 1
            yield limited(line, made, parameters)
        elif word not in rhythm.replaced:
            yield line
            if word in ACCESSES and rhythm.rules:
                yield from rhythm.after(line.split(" ")[1])


def limited(line: str, pid: int, parameters: Mapping[str, Value]) -> str:
    """A `process` line with other limits of its working set."""
    found = PROCESS.fullmatch(line)
    if not found:
        return line
    limits = []
    for word, own in zip(LIMITS, found.groups()):
        limits.append(parameters.get(f"{word}:{pid}", parameters.get(word, own)))
    return f"process {limits[0]} {limits[1]}"
