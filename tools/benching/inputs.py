"""The inputs of tools/bench: scripts and a trace, drawn from a seed alone."""

from __future__ import annotations

import heapq
from functools import partial
from pathlib import Path
from typing import Callable, Iterator, NamedTuple

ROOT = Path(__file__).resolve().parent.parent.parent
USER_PAGES = 524_256
PAGE = 4096
GRANULE = 65536


class Draws:
    """Numbers from a seed, by splitmix64, the same everywhere."""

    def __init__(self, seed: int) -> None:
        self.state = seed

    def below(self, n: int) -> int:
        self.state = (self.state + 0x9E3779B97F4A7C15) % 2**64
        z = self.state
        z = (z ^ (z >> 30)) * 0xBF58476D1CE4E5B9 % 2**64
        z = (z ^ (z >> 27)) * 0x94D049BB133111EB % 2**64
        return (z ^ (z >> 31)) % n

    def bytes(self) -> str:
        return "".join(f"{self.below(256):02X}" for _ in range(1 + self.below(8)))


def access(draws: Draws, pid: int, page: int) -> str:
    """A read or a write of 1 to 8 bytes of a page."""
    if draws.below(2):
        data = draws.bytes()
        return f"write {pid} 0x{page * PAGE + draws.below(PAGE - 7):X} {data}"
    return f"read {pid} 0x{page * PAGE + draws.below(PAGE - 7):X} {1 + draws.below(8)}"


def valid_pages(seed: int, lines: int, frames: int = 4096, pages: int = 1024) -> Iterator[str]:
    """Reads and writes of pages that are valid after their first use."""
    draws = Draws(seed)
    yield f"machine {frames} 1024 4 0"
    yield f"process 0 {pages}"
    yield f"alloc 1 0x10000 0x{pages * PAGE:X} 0x3000 0x4"
    for page in range(pages):
        yield f"write 1 0x{(16 + page) * PAGE:X} 01"
    for _ in range(lines):
        yield access(draws, 1, 16 + draws.below(pages))


class Region(NamedTuple):
    """A region that is there."""

    process: int
    granule: int
    pages: int


class Regions:
    """Regions of at most eight pages, each alone in its granule, and the free granules."""

    def __init__(self, draws: Draws, processes: int) -> None:
        self.draws = draws
        self.free = [list(range(1, 1 + USER_PAGES // 16)) for _ in range(processes)]
        self.live: list[Region] = []

    def alloc(self) -> str:
        process = self.draws.below(len(self.free))
        granule = heapq.heappop(self.free[process])
        pages = 1 + self.draws.below(8)
        kind = "0x3000" if self.draws.below(4) else "0x2000"
        self.live.append(Region(process + 1, granule, pages))
        return f"alloc {process + 1} 0 0x{pages * PAGE:X} {kind} 0x4"

    def release(self) -> str:
        at = self.draws.below(len(self.live))
        self.live[at], self.live[-1] = self.live[-1], self.live[at]
        process, granule, _ = self.live.pop()
        heapq.heappush(self.free[process - 1], granule)
        return f"free {process} 0x{granule * GRANULE:X} 0 0x8000"

    def protect(self) -> str:
        process, granule, pages = self.live[self.draws.below(len(self.live))]
        first = self.draws.below(pages)
        count = 1 + self.draws.below(pages - first)
        protection = ("0x2", "0x4", "0x20")[self.draws.below(3)]
        address = granule * GRANULE + first * PAGE
        return f"protect {process} 0x{address:X} 0x{count * PAGE:X} {protection}"

    def query(self) -> str:
        process, granule, _ = self.live[self.draws.below(len(self.live))]
        return f"query {process} 0x{granule * GRANULE + self.draws.below(16) * PAGE:X}"


def many_regions(seed: int, calls: int, count: int = 2000, frames: int = 1024) -> Iterator[str]:
    """So many regions, then calls that keep about as many."""
    draws = Draws(seed)
    processes = 1 if count <= 30_000 else 2
    regions = Regions(draws, processes)
    yield f"machine {frames} 262144 4 0"
    for _ in range(processes):
        yield "process 0 64"
    for _ in range(count):
        yield regions.alloc()
    for _ in range(calls):
        kind = draws.below(4)
        if kind < 2:
            yield regions.alloc() if len(regions.live) <= count - 1 + kind else regions.release()
        else:
            yield regions.protect() if kind == 2 else regions.query()


def whole_space(times: int) -> Iterator[str]:
    """All user pages are reserved and released."""
    yield "machine 64 64 4 0"
    yield "process 0 64"
    for _ in range(times):
        yield f"alloc 1 0x10000 0x{USER_PAGES * PAGE:X} 0x2000 0x4"
        yield "free 1 0x10000 0 0x8000"


def long_run(times: int) -> Iterator[str]:
    """The run of all user pages is asked for."""
    yield "machine 64 64 4 0"
    yield "process 0 64"
    yield f"alloc 1 0x10000 0x{USER_PAGES * PAGE:X} 0x2000 0x4"
    for _ in range(times):
        yield "query 1 0x10000"


def stored_trace(frames: int = 64) -> list[str]:
    """The references of `sort`, an `age` after each 64: one process, some 450 pages in all."""
    first, *rest = (ROOT / "examples/sort.mm").read_text(encoding="ascii").splitlines()
    word, _, *others = first.split()
    return [" ".join([word, str(frames), *others]), *rest]


def is_set_up(line: str) -> bool:
    return line.split()[0] in ("machine", "process", "alloc", "protect")


def ages(lines: int, pages: int, used: int) -> Iterator[str]:
    """`age` lines over a working set of so many pages, of which so many are read before each."""
    yield "machine 131072 1024 4 0"
    yield f"process 0 {pages}"
    yield f"alloc 1 0x10000 0x{pages * PAGE:X} 0x3000 0x4"
    for page in range(pages):
        yield f"write 1 0x{(16 + page) * PAGE:X} 01"
    at = 0
    for _ in range(lines):
        for _ in range(used):
            yield f"read 1 0x{(16 + at % pages) * PAGE:X} 1"
            at += 1
        yield "age 1"


# Handles


def named_section() -> Iterator[str]:
    yield "machine 64 64 4 0"
    yield "process 0 16"
    yield "create 1 0x1000 0x4 s"


def one_by_one(count: int) -> Iterator[str]:
    """Each handle is closed before the next is opened; the section's own, the first, stays."""
    yield from named_section()
    for index in range(2, 2 + count):
        yield "open 1 s"
        yield f"close 1 {4 * index}"
    yield "exit 1"


def all_together(count: int) -> Iterator[str]:
    """All handles are opened, and then closed from the lowest on."""
    yield from named_section()
    for _ in range(count):
        yield "open 1 s"
    for index in range(1, 1 + count):
        yield f"close 1 {4 * index}"
    yield "exit 1"


def closed_by_exit(count: int) -> Iterator[str]:
    """All handles are opened, every second is closed from the highest down, the others at exit."""
    yield from named_section()
    for _ in range(count):
        yield "open 1 s"
    for index in range(1 + count, 1, -2):
        yield f"close 1 {4 * index}"
    yield "exit 1"


# Paging


def heavy_paging(seed: int, lines: int, frames: int = 512, processes: int = 2) -> Iterator[str]:
    """Half as many shared pages as there are frames, as many private ones, and a copy view."""
    draws = Draws(seed)
    shared, copied = frames // 2, max(1, frames // 8)
    private = frames // processes
    most = max(2, min(65_536, frames * 3 // 4))
    yield f"machine {frames} {min(262_144, 4 * frames)} {min(8, frames // 2 - 2)} 0"
    for _ in range(processes):
        yield f"process 0 {most}"
    yield f"create 1 0x{shared * PAGE:X} 0x4 s"
    for pid in range(1, processes + 1):
        if pid > 1:
            yield f"open {pid} s"
        yield f"map {pid} 4 6 0 0 0x10000000"
        yield f"alloc {pid} 0x40000000 0x{private * PAGE:X} 0x3000 0x4"
    yield f"map 2 4 1 0 0x{copied * PAGE:X} 0x20000000"
    for pid in range(1, processes + 1):
        for page in range(private):
            yield f"write {pid} 0x{(0x40000 + page) * PAGE:X} 01"
    for _ in range(lines):
        yield paging_line(draws, processes, shared, private, copied)


def paging_line(draws: Draws, processes: int, shared: int, private: int, copied: int) -> str:
    pid = 1 + draws.below(processes)
    kind = draws.below(100)
    if kind < 3:
        return f"writer {1 + draws.below(8)}"
    if kind < 8:
        return "io 1"
    if kind < 9:
        return f"trim {pid} {1 + draws.below(16)}"
    if kind < 16:
        return access(draws, 2, 0x20000 + draws.below(copied))
    if kind < 52:
        return access(draws, pid, 0x10000 + draws.below(shared))
    return access(draws, pid, 0x40000 + draws.below(private))


def drawn_trace(seed: int, references: int) -> Iterator[str]:
    """References of a program as Valgrind's Lackey writes them: near each other, then elsewhere."""
    draws, page = Draws(seed), 0
    for _ in range(references):
        page = draws.below(400) if draws.below(20) == 0 else page
        near = page + draws.below(4)
        yield f" {'S' if draws.below(3) == 0 else 'L'} {near << 12:08x},4"


# Smaller and larger machines


class Growing(NamedTuple):
    """A case on machines of several sizes: the unit of size, a script of a size and of so many
    lines, and for each size how many lines are counted."""

    case: str
    unit: str
    script: Callable[[int, int], Iterator[str]]
    sizes: dict[int, int]


# Lines to be counted on machines that page: by then most pages were touched.
PAGED = {16: 20_000, 64: 20_000, 512: 50_000, 4096: 100_000, 262_144: 5_000}
IN_A_SET = "pages in a working set"


def growing(seed: int, lines: int) -> Iterator[Growing]:
    """What is counted on smaller and larger machines, and on smaller and larger working sets."""

    def valid(frames: int, count: int) -> Iterator[str]:
        return valid_pages(seed, count, frames, min(1024, frames // 2))

    def in_a_set(pages: int, count: int) -> Iterator[str]:
        return valid_pages(seed, count, 131_072, pages)

    def regions(many: int, count: int) -> Iterator[str]:
        return many_regions(seed, count, many)

    def regions_on(frames: int, count: int) -> Iterator[str]:
        return many_regions(seed, count, 2000, frames)

    def paging(frames: int, count: int) -> Iterator[str]:
        return heavy_paging(seed, count, frames, 8 if frames == 262_144 else 2)

    yield Growing("a", "page frames", valid, dict.fromkeys((16, 4096, 262_144), lines))
    yield Growing("a", IN_A_SET, in_a_set, dict.fromkeys((100, 65_000), lines))
    yield Growing("b", "regions", regions, dict.fromkeys((10, 2000, 60_000), lines))
    yield Growing("b", "page frames", regions_on, dict.fromkeys((16, 4096, 262_144), lines))
    yield Growing("e", "page frames", paging, PAGED)
    for used in (0, 8):
        unit = f"{IN_A_SET}, {used} read before each"
        sizes = dict.fromkeys((100, 1000, 10_000, 65_000), 100)
        yield Growing("`age`", unit, partial(aged, used), sizes)


def aged(used: int, pages: int, lines: int) -> Iterator[str]:
    return ages(lines, pages, used)
