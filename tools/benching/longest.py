"""A log of ten million moves, and what `mmshow tell` takes for it."""

from __future__ import annotations

import itertools
import subprocess
from pathlib import Path
from typing import Iterator

from .inputs import heavy_paging
from .runs import Bench

# How many moves the longest log has. A script has at most a million lines, so behind each 45 lines
# of e's a buffer is allocated and freed: 520 moves in all.
LONG = 10_000_000
DRAWN = 45_000
BUFFER = ("alloc 1 0x60000000 0xB0000 0x3000 0x4", "free 1 0x60000000 0 0x8000")


def long_script(seed: int, wanted: int) -> Iterator[str]:
    """Case e, whose drawn lines are repeated, with buffers between them."""
    lines = list(heavy_paging(seed, DRAWN))
    yield from lines[:-DRAWN]
    drawn = itertools.cycle(lines[-DRAWN:])
    for _ in range(wanted // 520 + 1):
        yield from itertools.islice(drawn, 45)
        yield from BUFFER


def long_log(bench: Bench, wanted: int) -> tuple[str, int]:
    """A log of about so many moves: its file, its moves."""
    source, _ = bench.write("long", long_script(bench.seed, wanted))
    with open(source, "rb") as given, open(f"{source}.moves", "wb") as moves:
        words = [bench.programs["mmsim"], "run"]
        subprocess.run(words, stdin=given, stdout=subprocess.DEVNULL, stderr=moves, check=True)
    return f"{source}.moves", bench.moves_of("long")


def long(bench: Bench) -> Iterator[str]:
    """`mmshow tell` of a log of ten million moves, and of a tenth of it."""
    yield "| `mmshow tell` of | Bytes of log | Seconds | Bytes resident |"
    yield "|---|---|---|---|"
    for wanted in (LONG // 10 // bench.part, LONG // bench.part):
        log, count = long_log(bench, wanted)
        run = bench.clocked([bench.programs["mmshow"], "tell"], log, 1)
        size = Path(log).stat().st_size
        yield f"| {count:,} moves | {size:,} | {run.seconds:.1f} | {run.memory:,} |"
