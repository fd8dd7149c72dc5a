"""Runs of the programs: their instructions, their time by the clock, their memory."""

from __future__ import annotations

import os
import re
import resource
import shutil
import subprocess
import sys
import time
from pathlib import Path
from typing import Callable, Iterable, NamedTuple, Optional, Sequence

from .inputs import is_set_up

CLOCKED = 9  # runs by the clock, of which the median is taken
TIME = "/usr/bin/time"


def debian(command: str, package: str) -> Optional[str]:
    """Where a command is; its package is installed where it is missing and may be."""
    if not shutil.which(command) and os.geteuid() == 0 and shutil.which("apt-get"):
        for words in (["update"], ["install", "-y", "--no-install-recommends", package]):
            subprocess.run(
                ["apt-get", *words],
                stdin=subprocess.DEVNULL,
                stdout=subprocess.DEVNULL,
                stderr=subprocess.DEVNULL,
                env={**os.environ, "DEBIAN_FRONTEND": "noninteractive"},
            )
    return shutil.which(command)


class Clocked(NamedTuple):
    """A whole run: its seconds, the median of some, and the memory of its largest process."""

    seconds: float
    memory: int

    def told(self, count: int, unit: str) -> str:
        """The cells of a row about so many lines, pages, moves or references."""
        times = f"{count / self.seconds:,.0f} {unit}s a second"
        return f"{self.seconds:.3f} s | {times} | {self.memory:,}"


class Bench:
    """The programs, a folder for inputs and outputs, the seed, and what lines are divided by."""

    def __init__(self, programs: dict[str, str], folder: str, seed: int, part: int) -> None:
        self.programs = programs
        self.folder = folder
        self.seed = seed
        self.part = part

    def path(self, name: str) -> str:
        return f"{self.folder}/{name}"

    def write(self, name: str, lines: Iterable[str]) -> tuple[str, int]:
        """An input's file, and how many lines it has."""
        count = 0
        with open(self.path(name), "w", encoding="ascii") as to:
            for line in lines:
                to.write(line + "\n")
                count += 1
        return self.path(name), count

    def instructions(self, program: str, words: Sequence[str], source: str) -> int:
        """The instructions of a whole run; its outputs stand beside its input."""
        counts, log = f"{source}.callgrind", f"{source}.valgrind"
        tool = ["valgrind", "--tool=callgrind", f"--callgrind-out-file={counts}"]
        tool += [f"--log-file={log}", self.programs[program], *words]
        moves = f"{source}.moves" if program == "mmsim" else os.devnull
        out = f"{source}.out" if program == "mmsim" else os.devnull
        with open(source, "rb") as given, open(out, "wb") as said, open(moves, "wb") as to:
            status = subprocess.run(tool, stdin=given, stdout=said, stderr=to).returncode
        found = re.search(r"Collected : (\d+)", Path(log).read_text(errors="replace"))
        if status or not found:
            told = " ".join([program, *words])
            sys.exit(f"bench: {told} < {source} ended with status {status}: see {log}")
        return int(found[1])

    def mmsim(self, name: str, lines: Iterable[str]) -> tuple[int, int]:
        """The instructions of a script, and how many lines it has."""
        source, count = self.write(name, lines)
        return self.instructions("mmsim", ["run"], source), count

    def run(self, name: str, lines: Iterable[str]) -> tuple[str, int]:
        """A script's file, with answers and moves beside it, run without counting; its lines."""
        source, count = self.write(name, lines)
        with open(source, "rb") as given, open(f"{source}.out", "wb") as out, open(
            f"{source}.moves", "wb"
        ) as moves:
            words = [self.programs["mmsim"], "run"]
            subprocess.run(words, stdin=given, stdout=out, stderr=moves, check=True)
        return source, count

    def moves_of(self, name: str) -> int:
        with open(self.path(f"{name}.moves"), "rb") as it:
            return sum(1 for _ in it)

    def beyond_set_up(self, name: str, lines: Sequence[str]) -> tuple[float, int]:
        """A line's instructions without the lines that set a script up, and how many lines."""
        setting = [line for line in lines if is_set_up(line)]
        whole, count = self.mmsim(name, lines)
        before, _ = self.mmsim(f"{name}-set-up", setting)
        return (whole - before) / (count - len(setting)), count - len(setting)

    def lines_beyond(self, name: str, script: Callable[[int], Iterable[str]], lines: int) -> float:
        """A line's instructions once a machine is set up: what twice as many lines take more."""
        once, _ = self.mmsim(f"{name}-once", script(lines))
        twice, _ = self.mmsim(f"{name}-twice", script(2 * lines))
        return (twice - once) / lines

    def clocked(self, words: Sequence[str], source: str, times: int = CLOCKED) -> Clocked:
        """Whole runs of a command by the clock, and once for its memory."""
        took = []
        for _ in range(times):
            with open(source, "rb") as given:
                began = time.perf_counter()
                subprocess.run(
                    words,
                    stdin=given,
                    stdout=subprocess.DEVNULL,
                    stderr=subprocess.DEVNULL,
                    check=True,
                )
                took.append(time.perf_counter() - began)
        return Clocked(sorted(took)[times // 2], self.resident(words, source))

    def resident(self, words: Sequence[str], source: str) -> int:
        """The largest resident size in bytes of a command, or of a process that it starts."""
        if not debian(TIME, "time"):
            sys.exit(f"bench: no {TIME} here, and Debian's package time could not be installed")
        to = self.path("resident")
        # (a process of a Python's own begins with Python's size: this one's does not)
        with open(source, "rb") as given:
            subprocess.run(
                [TIME, "-f", "%M", "-o", to, *words],
                stdin=given,
                stdout=subprocess.DEVNULL,
                stderr=subprocess.DEVNULL,
                check=True,
            )
        return int(Path(to).read_text(encoding="ascii")) * 1024


def processor_seconds(words: Sequence[str], source: str) -> float:
    """The processor's time of a command and of what it starts."""
    before = resource.getrusage(resource.RUSAGE_CHILDREN)
    with open(source, "rb") as given:
        subprocess.run(
            words, stdin=given, stdout=subprocess.DEVNULL, stderr=subprocess.DEVNULL, check=True
        )
    after = resource.getrusage(resource.RUSAGE_CHILDREN)
    return after.ru_utime + after.ru_stime - before.ru_utime - before.ru_stime
