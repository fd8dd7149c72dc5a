"""The references of a script, for the policies: LRU, the optimum, FIFO and Clock.

A policy has one memory for all pages, so a script may do nothing but refer to private pages: none
may be shared, ended, or waited for.
"""

from __future__ import annotations

from collections.abc import Iterable, Sequence

from .errors import Mistake
from .libraries import require
from .scripts import ACCESSES

require("numpy")
import numpy  # noqa: E402

from .policies import Policies  # noqa: E402
from .traces import Chunk, Pages, read  # noqa: E402
from .traces.base import KIND_BITS  # noqa: E402

OTHERS = ("machine", "process", "alloc", "protect", "query", "charge", "counts")
HOUSEKEEPING = ("age", "trim", "writer", "zeroer", "io", "grow")
ROWS = 1 << 18  # references at a time


def of_script(lines: Sequence[str], sizes: Iterable[int]) -> dict[int, dict[str, int]]:
    """The faults of each policy for these numbers of page frames; Mistake where a line is none."""
    pages = Pages()
    policies = Policies(pages, list(sizes))
    codes: list[int] = []
    for number, line in enumerate(lines, 1):
        word, *words = line.split(" ")
        if word in ACCESSES:
            process = pages.process(words[0].encode("ascii"))
            codes.append(pages.number(process, value(words[1]) >> 12) << KIND_BITS)
        elif word not in (*OTHERS, *HOUSEKEEPING):
            why = f"line {number}, `{line[:60]}`, does more than that"
            raise Mistake(f"policies are computed where a script refers to private pages: {why}")
        if len(codes) == ROWS:
            policies.take(Chunk(numpy.array(codes, numpy.int64)))
            codes = []
    policies.take(Chunk(numpy.array(codes, numpy.int64)))
    return policies.faults()


def of_trace(path: str, form: str, sizes: Iterable[int]) -> dict[int, dict[str, int]]:
    """The same of a whole trace in a file."""
    pages = Pages()
    policies = Policies(pages, list(sizes))
    with open(path, "rb") as source:
        for chunk in read(source, form, pages):
            policies.take(chunk)
    return policies.faults()


def value(word: str) -> int:
    """A number of a script."""
    return int(word, 16) if word[:2] in ("0x", "0X") else int(word)
