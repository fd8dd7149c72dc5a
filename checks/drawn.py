#!/usr/bin/env python3
"""A random run: 300,000 drawn lines, answered as if every page had a page frame of its own.

    python3 checks/drawn.py [--seed N] [--scripts N] [--lines N]

The seed is the day's, and printed; --seed makes a run again. Sixty scripts of 5,000 lines are drawn
for machines from ample to short of page frames. `mmsim` runs each, and checks/reference/unpaged.py,
a model without paging, gives the answers. In four scripts of five no device fails: of these the
lines but those of threads, which wait where pages are read, are run by `mmunpaged` too, whose pages
never leave memory, and each answer that does not tell of paging is the same. `mmlog check` takes
each log, and counts as checks/reference/life.py does, a replay in Python; so does `mmlog
where`. Then each log is cut or spoiled in one line, 40 times, and both refuse it alike.
"""

from __future__ import annotations

import argparse
import concurrent.futures
import datetime
import importlib
import random
import re
import sys
import zlib
from typing import Any, Callable, NamedTuple, Optional

from common import TOP, begin, processors, run
from stores import first_difference, without_threads

sys.path.insert(0, str(TOP / "checks/reference"))
sys.dont_write_bytecode = True
from unpaged import PAGE, WRITES, Process, Region, World  # noqa: E402

life: Any = importlib.import_module("life")

PROTECTIONS = [1, 2, 4, 4, 4, 8, 8, 0x10, 0x20, 0x40, 0x80, 0x101, 0x102, 0x104, 0x104, 0x108, 3]
SPOILS = 40
# How much of a log is spoiled, in moves.
SPOILED_MOVES = 500


class Task(NamedTuple):
    """A script to be drawn, and the programs that run it."""

    mmsim: str
    mmlog: str
    mmunpaged: str
    seed: int
    lines: int


class Result(NamedTuple):
    """What was compared, and what differs."""

    lines: int
    moves: int
    spoils: int
    wrong: list[str]


class Script:
    """Draws a script, led by a model of its own to what is there."""

    def __init__(self, seed: int):
        self.draw = random.Random(seed)
        self.world = World()
        self.lines: list[str] = []
        self.fails = seed % 5 == 0
        self.files = 0

    def add(self, line: str) -> None:
        self.lines.append(line)
        self.world.answer(line)

    def begin(self) -> None:
        """The machine, its first processes, a file, sections that are mapped, and memory."""
        draw = self.draw
        frames = draw.choice([6, 8, 10, 12, 14, 18, 24, 32, 48, 64, 160])
        depth = draw.randint(1, min(6, (frames - 4) // 2))
        slots = draw.choice([0, 20, 60, 150, 300])
        self.add(f"machine {frames} {slots} {depth} {draw.choice([4, 24, 60])}")
        for _ in range(draw.randint(1, 3)):
            self.process()
        for _ in range(8):
            draw.choice([self.file, self.create, self.map, self.alloc, self.stack])()

    def line(self) -> None:
        """One more line, or a few that belong together."""
        ways: list[tuple[int, Callable[[], None]]] = [
            (110, self.access), (18, self.thread), (26, self.housekeeping), (6, self.told),
            (8, self.query), (10, self.protect), (10, self.alloc), (7, self.free),
            (6, self.create), (7, self.map), (4, self.unmap), (3, self.flush), (3, self.watch),
            (2, self.stack), (5, self.probe), (1, self.seldom),
        ]  # fmt: skip
        kinds = [way for weight, way in ways for _ in range(weight)]
        self.draw.choice(kinds)()

    def pid(self) -> int:
        """A process that lives, but seldom one that does not."""
        alive = list(self.world.processes)
        return self.draw.choice(alive) if alive and self.draw.random() < 0.98 else 9

    def region(self, pid: int) -> Optional[Region]:
        process: Optional[Process] = self.world.processes.get(pid)
        if process is None or not process.bases or self.draw.random() < 0.06:
            return None
        return process.regions[self.draw.choice(process.bases)]

    def page(self, pid: int) -> int:
        """A page of a region of the process, near its ends, or any."""
        region, draw = self.region(pid), self.draw
        if region is None:
            return draw.choice([0, 15, 16, 17, 0x7FFEF, 0x7FFF0, 0xFFFFF, draw.randrange(16, 400)])
        for _ in range(16 if draw.random() < 0.9 else 0):
            region = self.region(pid) or region
            page = region.base + min(draw.randrange(12), len(region.rows) - 1)
            row = region.row(page)
            if region.is_committed(page) and row.prot in WRITES and not row.guard:
                return page
        at = draw.choice([draw.randrange(10), draw.randrange(3), len(region.rows) - 1, -1, 40])
        return max(0, region.base + min(at, len(region.rows)))

    def some(self, pid: int) -> tuple[int, int]:
        """A range: an address, and a size of some bytes or pages."""
        address = self.page(pid) * PAGE + self.draw.choice([0, 0, 0, 1, 4095])
        return address, self.draw.choice([0, 1, PAGE, PAGE, 2 * PAGE, 3 * PAGE, PAGE + 1])

    def way(self) -> str:
        """An access but its process: a read or a write within a page."""
        count = self.draw.choice([1, 1, 2, 4, 8, 64])
        return self.draw.choice([f"read {{}} {count}", "write {} " + self.bytes(count)])

    def bytes(self, count: int) -> str:
        return "".join(f"{self.draw.randrange(256):02X}" for _ in range(count))

    def access(self) -> None:
        pid = self.pid()
        page, draw = self.page(pid), self.draw
        if draw.random() < 0.06:
            self.add(f"exec {pid} 0x{page * PAGE + draw.randrange(PAGE):X}")
            return
        word, rest = self.way().split(" ", 1)
        offset = draw.choice([0, 0, 8, PAGE - 64, draw.randrange(PAGE - 63)])
        self.add(f"{word} {pid} {rest.format(f'0x{page * PAGE + offset:X}')}")

    def thread(self) -> None:
        pid, tid = self.pid(), self.draw.randrange(6)
        if self.draw.random() < 0.5:
            self.add(f"resume {tid}")
        else:
            address = f"0x{self.page(pid) * PAGE:X}"
            self.add(f"begin {tid} {pid} {self.way().format(address)}")

    def housekeeping(self) -> None:
        pid, draw = self.pid(), self.draw
        lines = ["io 1", "io 1", f"io {draw.randint(1, 4)}", f"trim {pid} {draw.randint(0, 9)}"]
        lines += [f"age {pid}", f"writer {draw.randint(0, 5)}", f"zeroer {draw.randint(0, 4)}"]
        self.add(draw.choice(lines))

    def told(self) -> None:
        self.add(self.draw.choice(["charge", "counts"]))

    def query(self) -> None:
        pid = self.pid()
        self.add(f"query {pid} 0x{self.page(pid) * PAGE:X}")

    def prot(self) -> str:
        return f"0x{self.draw.choice(PROTECTIONS):X}"

    def protect(self) -> None:
        pid = self.pid()
        address, size = self.some(pid)
        self.add(f"protect {pid} 0x{address:X} 0x{size:X} {self.prot()}")

    def alloc(self) -> None:
        pid, draw = self.pid(), self.draw
        prot = draw.choice(["0x4", "0x4", "0x4", "0x40", "0x104", self.prot()])
        kind = draw.choice([0x1000, 0x2000, 0x3000, 0x3000, 0x202000, 0x203000, 0x201000])
        size = draw.choice([1, PAGE, 3 * PAGE, 8 * PAGE, 16 * PAGE, 20 * PAGE])
        address = draw.choice([0, 0, draw.randrange(1, 40) << 16, draw.randrange(1 << 22)])
        if kind == 0x1000 and draw.random() < 0.9:
            address, size = self.some(pid)
        self.add(f"alloc {pid} 0x{address:X} 0x{size:X} 0x{kind:X} {prot}")

    def free(self) -> None:
        pid, draw = self.pid(), self.draw
        address, size = self.some(pid)
        region = self.region(pid)
        is_many = region is not None and len(self.world.processes[pid].bases) > 12
        if region is not None and draw.random() < (0.7 if is_many else 0.25):
            how = draw.choice([0x8000, 0x8000, 0x4000])
            self.add(f"free {pid} 0x{region.base * PAGE:X} 0 0x{how:X}")
        else:
            self.add(f"free {pid} 0x{address:X} 0x{size:X} 0x4000")

    def name(self) -> str:
        return self.draw.choice(["-", "a", "b", "c"])

    def create(self) -> None:
        pid, draw = self.pid(), self.draw
        flags = draw.choice([4, 4, 4, 2, 8, 0x4000004, 0x4000002, 0x8000004, 0x10, 0xC000004])
        ways = [
            f"create {pid} 0x{draw.choice([1, PAGE, 4 * PAGE, 20 * PAGE, 0]):X} 0x{flags:X}",
            f"createfile {pid} f{draw.randrange(3)} 0x{flags:X}",
        ]
        self.add(f"{draw.choice(ways)} {self.name()}")
        if draw.random() < 0.5:
            self.add(f"open {self.pid()} {draw.choice('abc')}")

    def map(self) -> None:
        pid, draw = self.pid(), self.draw
        process = self.world.processes.get(pid)
        handles = list(process.handles) if process else []
        handle = draw.choice(handles) if handles and draw.random() < 0.95 else 4 * draw.randrange(9)
        access = draw.choice([1, 1, 2, 2, 4, 6, 0xF001F, 3])
        offset, length = draw.choice([0, 0, 0, 0x10000, 1]), draw.choice([0, 0, 1, PAGE, 9 * PAGE])
        address = draw.choice([0, 0, 0, draw.randrange(1, 60) << 16, 0x7FFE0000, 0x1000])
        self.add(f"map {pid} {handle} 0x{access:X} 0x{offset:X} 0x{length:X} 0x{address:X}")
        if draw.random() < 0.25:
            self.add(f"close {pid} {handle}")

    def unmap(self) -> None:
        pid = self.pid()
        region = self.region(pid)
        address = region.base * PAGE if region else self.page(pid) * PAGE
        self.add(f"unmap {pid} 0x{address:X}")

    def flush(self) -> None:
        pid = self.pid()
        address, size = self.some(pid)
        self.add(f"flush {pid} 0x{address:X} 0x{size:X}")

    def watch(self) -> None:
        pid, draw = self.pid(), self.draw
        address, size = self.some(pid)
        ways = [f"watch {pid} {draw.randrange(2)} 0x{address:X} 0x{size:X} {draw.randint(1, 16)}"]
        self.add(draw.choice([*ways, *ways, f"resetwatch {pid} 0x{address:X} 0x{size:X}"]))

    def stack(self) -> None:
        reserve = self.draw.choice([0x10000, 0x10000, 0x20000, 0, 1])
        commit = self.draw.choice([0, 0x1000, 0xA000, 0xD000, 0xE000])
        self.add(f"stack {self.draw.randrange(6)} {self.pid()} 0x{reserve:X} 0x{commit:X}")

    def probe(self) -> None:
        tid = self.draw.randrange(6)
        stack = self.world.stacks.get(tid)
        page = stack.guard + self.draw.choice([0, 0, 0, 1, -1, 2]) if stack else 16
        self.add(f"probe {tid} 0x{page * PAGE + 8:X}")

    def process(self) -> None:
        most = self.draw.choice([1, 2, 4, 6, 10, 30])
        self.add(f"process {self.draw.randint(0, min(most, 3))} {most}")

    def file(self) -> None:
        self.files += 1
        name = f"f{self.files % 4}"
        self.add(f"file {name} {self.draw.randint(1, 6)} {self.draw.randrange(256)}")

    def seldom(self) -> None:
        """What changes the machine, or ends a process."""
        draw = self.draw
        ways: list[Callable[[], None]] = [self.process, self.file]
        ways.append(lambda: self.add(f"grow {draw.randint(1, 9)}"))
        ways.append(lambda: self.add(f"exit {self.pid()}"))
        if self.fails:
            device, way = draw.choice(["paging", "file"]), draw.choice(["read", "write"])
            numbers = f"{draw.randint(1, 400)} {draw.randint(1, 6)}"
            ways += [lambda: self.add(f"fail {device} {way} {numbers}")] * 4
        draw.choice(ways)()
        if not self.world.processes:
            self.process()


def script_of(seed: int, lines: int) -> list[str]:
    """The lines of a drawn script."""
    script = Script(seed)
    script.begin()
    while len(script.lines) < lines:
        script.line()
    return script.lines[:lines]


def compare_answers(name: str, lines: list[str], said: list[str]) -> list[str]:
    """The first line whose answer is not the model's."""
    if len(said) != len(lines):
        return [f"{name}: {len(said)} answers for {len(lines)} lines"]
    world = World()
    for number, (line, answer) in enumerate(zip(lines, said), 1):
        wanted = world.answer(line, answer)
        if answer != wanted:
            return [f"{name}: line {number}, {line}: {answer}, not {wanted}"]
    return []


class Replay:
    """A log, replayed by life.py: its counts, and its first line that is none."""

    def __init__(self, log: bytes):
        self.life = life.Life()
        self.words: dict[str, int] = {}
        self.soft = 0
        self.bad: Optional[int] = None
        fresh: set[int] = set()
        lines = log.split(b"\n")
        for number, line in enumerate(lines[:-1], 1):
            move = life.read_move(line)
            if move is None or not self.life.apply(move):
                self.bad = number
                return
            word = move[0]
            self.words[word] = self.words.get(word, 0) + 1
            if word == "at":
                fresh = set()
            elif word in ("give", "got"):
                fresh.add(move[1])
            elif word == "map" and move[1] not in fresh:
                self.soft += 1
        if lines[-1]:
            self.bad = len(lines)

    def check(self) -> tuple[int, bytes]:
        """What `mmlog check` comes to."""
        if self.bad is not None:
            return 3, b"no line %d\n" % self.bad
        count = self.words
        numbers = {
            "moves": sum(count.values()),
            "zero": count.get("give", 0),
            "soft": self.soft,
            "hard": count.get("read", 0),
            "steals": count.get("steal", 0),
            "writes": count.get("wrote", 0),
        }
        return 0, ("yes\n" + "".join(f"{it} {n}\n" for it, n in numbers.items())).encode()

    def where(self, key: str) -> bytes:
        """What `mmlog where KEY` comes to."""
        pid, page = key[1:].split(".")
        held = self.life.held((key[0], int(pid), int(page)))
        return " ".join(map(str, held)).encode() + b"\n"


def spoil(moves: list[bytes], draw: random.Random) -> bytes:
    """A log that is cut, or of which one line is changed, left out, doubled or put elsewhere."""
    at = draw.randrange(len(moves))
    move = moves[at]
    numbers = list(re.finditer(rb"\d+", move))
    if numbers and draw.random() < 0.6:
        one = draw.choice(numbers)
        number = draw.choice(
            [int(one[0]) + 1, max(0, int(one[0]) - 1), draw.randrange(40), 2**32]
        )
        new = [move[: one.start()] + b"%d" % number + move[one.end() :]]
    else:
        ways: list[list[bytes]] = [
            [],
            [move, move],
            [moves[draw.randrange(len(moves))]],
            [move[:-1]],
            [b" " + move],
        ]
        ways += [[move.replace(b" ", b"  ", 1)], [move.upper()], [b"\n"], [b"\xff\n"]]
        new = draw.choice(ways)
    spoiled = b"".join([*moves[:at], *new, *moves[at + 1 :]])
    return spoiled[: draw.randrange(len(spoiled))] if draw.random() < 0.15 else spoiled


def compare_log(task: Task, name: str, log: bytes) -> tuple[list[str], int]:
    """A log as `mmlog` and the replay have it, whole and spoiled."""
    draw, wrong, spoils = random.Random(task.seed), [], 0
    replay = Replay(log)
    ended = run([task.mmlog, "check"], log)
    if replay.bad is not None or ended[:2] != replay.check():
        wrong.append(f"{name}: mmlog {ended[:2]!r:.120}, not {replay.check()!r:.120}")
    keys = sorted(set(re.findall(rb"[ps]\d+\.\d+", log)))
    for key in draw.sample(keys, min(3, len(keys))):
        held = run([task.mmlog, "where", key], log).out
        if held != replay.where(key.decode()):
            wrong.append(f"{name}: where {key.decode()}: {held!r}")
    moves = log.splitlines(True)[:SPOILED_MOVES]
    for turn in range(SPOILS):
        spoils += 1
        spoiled = spoil(moves, draw)
        ended, wanted = run([task.mmlog, "check"], spoiled), Replay(spoiled).check()
        if ended[:2] != wanted:
            wrong.append(f"{name}: spoil {turn}: {ended[:2]!r:.120}, not {wanted!r:.120}")
    return wrong, spoils


def compare(task: Task) -> Result:
    """Draws a script, runs it, and compares its answers and its log."""
    lines = script_of(task.seed, task.lines)
    name = f"seed {task.seed}"
    ended = run([task.mmsim, "run"], "".join(line + "\n" for line in lines).encode())
    wrong = compare_answers(name, lines, ended.out.decode().splitlines())
    if ended.status:
        wrong.append(f"{name}: ends with status {ended.status}: {ended.out[-80:]!r}")
    if task.seed % 5:
        differs = first_difference(task.mmsim, task.mmunpaged, without_threads(lines))
        wrong += [f"{name}: without threads, {differs}"] if differs else []
    others, spoils = compare_log(task, name, ended.err)
    return Result(len(lines), ended.err.count(b"\n"), spoils, wrong + others)


def main() -> int:
    parser = argparse.ArgumentParser(description=(__doc__ or "").split("\n")[0])
    today = int(datetime.date.today().strftime("%Y%m%d"))
    parser.add_argument("--seed", type=int, default=today, help="the day's, as 20261231")
    parser.add_argument("--scripts", type=int, default=60, help="how many scripts")
    parser.add_argument("--lines", type=int, default=5000, help="the lines of each")
    check = begin(__doc__, ("mmsim", "mmlog", "mmunpaged"), parser)
    words = check.words
    print(f"drawn: seed {words.seed} (again: python3 checks/drawn.py --seed {words.seed})")
    first = zlib.crc32(str(words.seed).encode()) * 1000
    mmsim, mmlog, mmunpaged = (check.programs[it] for it in ("mmsim", "mmlog", "mmunpaged"))
    tasks = [Task(mmsim, mmlog, mmunpaged, first + at, words.lines) for at in range(words.scripts)]
    moves = spoils = 0
    with concurrent.futures.ProcessPoolExecutor(processors()) as pool:
        for result in pool.map(compare, tasks):
            check.compared += result.lines + result.spoils
            moves, spoils = moves + result.moves, spoils + result.spoils
            for complaint in result.wrong:
                check.wrong("a drawn script", complaint)
    print(f"drawn: {words.scripts} scripts, {moves} moves, {spoils} spoiled logs")
    return check.end()


if __name__ == "__main__":
    sys.exit(main())
