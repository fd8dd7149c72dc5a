"""What a worker of a sweep does: one machine, from its parameters to a row. Standard library alone.

The programs travel with the sweep. A worker whose machine has the very same file uses it; another
puts it into its folder for temporary files, under a name that tells what is in it.
"""

from __future__ import annotations

import csv
import functools
import hashlib
import os
import pickle
import subprocess
import tempfile
import zlib
from collections.abc import Iterable, Mapping, Sequence
from dataclasses import dataclass
from pathlib import Path
from typing import Any, Protocol, runtime_checkable

from . import programs
from .classes import FAULTS, GROUPS, by_process, grouped
from .scripts import ACCESSES, LIMITS, OF_MACHINE, RHYTHMS, Value, head, processes, varied

NAMES = ("mmsim", "mmshow")
COUNTS = ("references", *GROUPS)
Parameters = Mapping[str, Value]
Row = dict[str, Any]


class Failure(Exception):
    """A machine that has no counts, with the reason in words."""


@dataclass(frozen=True)
class Program:
    """One of the programs as it is on the machine that began the sweep."""

    path: str
    content: bytes

    @classmethod
    def named(cls, name: str) -> Program:
        path = programs.find(name)
        return cls(path, Path(path).read_bytes())

    def here(self) -> str:
        """The path of this very program on this machine."""
        return placed(self.path, self.content)


@functools.lru_cache(maxsize=len(NAMES) * 2)
def placed(path: str, content: bytes) -> str:
    """The path itself where it has this content, else that of a file which was put there whole."""
    try:
        if Path(path).read_bytes() == content and os.access(path, os.X_OK):
            return path
    except OSError:
        pass
    folder = Path(tempfile.gettempdir()) / f"melzudek-{os.getuid()}"
    folder.mkdir(mode=0o700, exist_ok=True)
    if folder.stat().st_uid != os.getuid():
        raise Failure(f"{folder} on this worker is another user's")
    digest = hashlib.sha256(content).hexdigest()[:24]
    to = folder / f"{Path(path).name}-{digest}"
    if not to.exists():
        part = to.with_suffix(f".{os.getpid()}")
        part.write_bytes(content)
        part.chmod(0o700)
        part.rename(to)
    return str(to)


Tools = Mapping[str, Program]


def tools() -> dict[str, Program]:
    return {name: Program.named(name) for name in NAMES}


@dataclass(frozen=True)
class Made:
    """A run on a worker: its log, and how many references the counts are of."""

    log: Path
    references: int


@runtime_checkable
class Source(Protocol):
    """What a sweep runs on each machine."""

    def parameters(self) -> frozenset[str]:
        """The names that may be varied; `minimum` stands for `minimum:2` too."""

    def processes(self) -> int:
        """How many processes have columns of their own: none where there is but one."""

    def make(self, vary: Parameters, tools: Tools, folder: Path) -> Made:
        """Runs it; raises Failure, or whatever it likes, where it cannot."""


@dataclass(frozen=True)
class ScriptSource:
    """A script, on machines with other numbers and with housekeeping at another pace."""

    lines: Sequence[str]
    refusals: bool = False  # lines may be answered otherwise than with `ok`

    def parameters(self) -> frozenset[str]:
        return frozenset((*OF_MACHINE, *LIMITS, *RHYTHMS))

    def processes(self) -> int:
        count = processes(self.lines)
        return count if count > 1 else 0

    def make(self, vary: Parameters, tools: Tools, folder: Path) -> Made:
        own = head(list(self.lines[:1]))
        fewest = 2 * int(vary.get("depth", own.depth)) + 4
        if int(vary.get("frames", own.frames)) < fewest:
            raise Failure(f"a machine of this depth has at least {fewest} page frames")
        return simulate(varied(list(self.lines), vary), tools, folder, self.refusals)


@dataclass(frozen=True)
class BulkSource:
    """The generated scripts of `mmsim bulk SEED COUNT`, by their seeds."""

    count: int

    def parameters(self) -> frozenset[str]:
        return frozenset(["seed"])

    def processes(self) -> int:
        return 2

    def make(self, vary: Parameters, tools: Tools, folder: Path) -> Made:
        log = folder / "moves.log"
        command = [tools["mmsim"].here(), "bulk", str(vary["seed"]), str(self.count)]
        with open(log, "wb") as moves:
            ran = subprocess.run(command, stdout=subprocess.PIPE, stderr=moves)
        if ran.returncode:
            raise Failure(f"mmsim ends with status {ran.returncode}: {ran.stdout.decode().strip()}")
        with open(log, "rb") as moves:
            touched = sum(b" access " in line for line in moves)
        return Made(log, touched)


def simulate(lines: Iterable[str], tools: Tools, folder: Path, refusals: bool = False) -> Made:
    """Runs a script; Failure where mmsim ends otherwise than well, or a line is refused."""
    script, answers, log = (folder / name for name in ("script.mm", "answers.out", "moves.log"))
    references = 0
    with open(script, "w", encoding="ascii", newline="") as to:
        for line in lines:
            to.write(line + "\n")
            references += line.startswith(ACCESSES)
    with open(script, "rb") as given, open(answers, "wb") as told, open(log, "wb") as moves:
        command = [tools["mmsim"].here(), "run"]
        status = subprocess.run(command, stdin=given, stdout=told, stderr=moves).returncode
    if status:
        last = answers.read_text("latin-1").rstrip("\n").rpartition("\n")[2]
        raise Failure(f"mmsim ends with status {status}: {last}")
    if not refusals:
        look_for_refusal(script, answers)
    return Made(log, references)


def look_for_refusal(script: Path, answers: Path) -> None:
    """Raises Failure for the first line that is answered otherwise than with `ok` or `none`."""
    with open(script, encoding="ascii") as lines, open(answers, encoding="ascii") as told:
        for number, (line, answer) in enumerate(zip(lines, told), 1):
            if not answer.startswith(("ok", "none")):
                what = f"`{line.strip()}`, is answered `{answer.strip()}`"
                raise Failure(f"line {number}, {what}")


def measure(made: Made, tools: Tools, processes: int) -> Row:
    """The counts of a log, as mmshow tells them."""
    row: Row = {"references": made.references, **grouped(shown(made.log, tools, "sums"))}
    if processes:
        found = by_process(csv.DictReader(shown(made.log, tools, "faults", "csv")))
        for pid in range(1, processes + 1):
            counts = found.get(pid, {})
            row |= {f"{fault}:{pid}": counts.get(fault, 0) for fault in FAULTS}
    return row


def shown(log: Path, tools: Tools, *words: str) -> list[str]:
    with open(log, "rb") as given:
        ran = subprocess.run([tools["mmshow"].here(), *words], stdin=given, capture_output=True)
    text = ran.stdout.decode("latin-1").splitlines()
    if ran.returncode:
        raise Failure(f"mmshow {' '.join(words)} ends with status {ran.returncode}: {text[-1:]}")
    return text


def packed(source: Source, tools: Tools) -> bytes:
    """A source and the programs as bytes, in which a long script is a tenth of its size."""
    return zlib.compress(pickle.dumps((source, dict(tools))), 1)


def unpacked(bundle: bytes) -> tuple[Source, Tools]:
    source, tools = pickle.loads(zlib.decompress(bundle))
    return source, tools


def row_of(carried: tuple[Source, Tools], vary: Parameters, more: Row | None = None) -> Row:
    """One machine. A run that fails is a row with its reason, and raises nothing."""
    source, tools = carried
    row: Row = {**vary, **(more or {})}
    try:
        with tempfile.TemporaryDirectory(prefix="melzudek-") as folder:
            made = source.make(vary, tools, Path(folder))
            row |= measure(made, tools, source.processes())
    except Exception as reason:  # the sweep goes on, and the row says why it has no counts
        text = str(reason) or type(reason).__name__
        row["reason"] = " ".join(text.split())
    return row
