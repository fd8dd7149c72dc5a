"""Two runs side by side: where they part, which faults are gone, new or moved, who holds what.

    from melzudek import compare
    two = compare("sort-128.mm", "sort-129.mm")
    print(two)
    two.faults                # by process and page
    two.cumulative(["hard"])  # a row for each place where one of them has a fault

Lines are matched by their number where the scripts differ in the numbers of `machine` and `process`
lines alone. Else the n-th reference of the one is the n-th of the other, and what stands between
references belongs to the one before.
"""

from __future__ import annotations

import html
from collections import Counter, defaultdict
from collections.abc import Iterable, Iterator
from dataclasses import dataclass
from functools import cached_property
from itertools import zip_longest
from pathlib import Path
from typing import Any, NamedTuple

from .classes import FAULTS
from .libraries import require
from .scripts import ACCESSES, Script
from .tables import Run, run

require("pandas")
import numpy  # noqa: E402
import pandas  # noqa: E402

FREE_FORMS = ("machine", "process")  # lines whose numbers may differ where lines match by number
REFERENCES = (*ACCESSES, "begin")
ROWS = 12  # of the table of faults that a text shows


class Step(NamedTuple):
    """A line of a log with its moves."""

    line: int
    moves: tuple[str, ...]


class First(NamedTuple):
    """The first place where moves differ: its lines, 0 where one run has none, and their words."""

    lines: tuple[int, int]
    words: tuple[str, str]


@dataclass(frozen=True)
class Comparison:
    """What `compare` found; `one` and `other` are the runs."""

    one: Run
    other: Run
    by: str  # what is matched: "line" or "reference"

    @cached_property
    def runs(self) -> tuple[Run, Run]:
        return self.one, self.other

    @cached_property
    def positions(self) -> tuple[Any, Any]:
        """Of each line of either run, from line 0 on, the place at which it is compared."""
        return tuple(position(it.lines, self.by) for it in self.runs)  # type: ignore[return-value]

    @cached_property
    def first(self) -> First | None:
        """The first lines whose moves differ, in words; None where the runs move alike."""
        sides = [steps(it.log) for it in self.runs]
        if self.by == "reference":
            sides = [referring(side, it.lines) for side, it in zip(sides, self.runs)]
        for one, other in zip_longest(*sides):
            lines = (one.line if one else 0, other.line if other else 0)
            if not one or not other or (one.moves != other.moves and lines != (1, 1)):
                pairs = zip(self.runs, lines)
                told = tuple(it.words(line) if line else "" for it, line in pairs)
                return First(lines, (told[0], told[1]))
        return None

    @cached_property
    def faults(self) -> Any:
        """By process, page and kind: how many faults are gone, new, and moved (as many in both, at
        other places)."""
        found = [self.places(side) for side in (0, 1)]
        rows = []
        for page in sorted(found[0].keys() | found[1].keys()):
            here, there = found[0].get(page, []), found[1].get(page, [])
            gone, new = max(len(here) - len(there), 0), max(len(there) - len(here), 0)
            moved = min(len(here), len(there)) - common(here, there)
            if gone or new or moved:
                rows.append((*page, gone, new, moved))
        names = ["process", "key", "fault", "gone", "new", "moved"]
        return pandas.DataFrame(rows, columns=names)

    def places(self, side: int) -> dict[tuple[int, str, str], list[int]]:
        """Where a run's faults are, in order, by process, page and kind."""
        table = self.runs[side].faults
        at = self.positions[side][table["line"].to_numpy()]
        found: dict[tuple[int, str, str], list[int]] = defaultdict(list)
        processes = table["process"].fillna(0).astype(int)
        for process, key, fault, place in zip(processes, table["key"], table["fault"], at.tolist()):
            found[process, key, fault].append(place)
        return found

    def cumulative(self, kinds: Iterable[str] = ("hard",)) -> Any:
        """How many faults of these kinds each run has had, and `other` less `one`, by place."""
        wanted = list(kinds)
        sides = []
        for side, name in enumerate(("one", "other")):
            table = self.runs[side].faults
            lines = table[table["fault"].isin(wanted)]["line"].to_numpy()
            counts = pandas.Series(self.positions[side][lines]).value_counts().sort_index()
            sides.append(counts.cumsum().rename(name))
        both = pandas.concat(sides, axis=1).sort_index().ffill().fillna(0).astype("int64")
        both.index.name = self.by
        return both.assign(difference=both["other"] - both["one"])

    def __str__(self) -> str:
        return "\n".join(self.text())

    def text(self) -> Iterator[str]:
        """The comparison for a terminal."""
        if not self.first:
            yield f"no move differs (matched by {self.by})"
        else:
            yield f"matched by {self.by}; the first moves that differ:"
            for name, line, words in zip(("one", "other"), *self.first):
                yield f"--- {name}" + ("" if line else ": no such line")
                yield from words.splitlines()
        yield ""
        rows = [(name, *it.count.values()) for name, it in zip(("one", "other"), self.runs)]
        yield pandas.DataFrame(rows, columns=["run", *self.one.count]).to_string(index=False)
        for fault in FAULTS:
            table = self.faults[self.faults["fault"] == fault]
            sums = [int(table[word].sum()) for word in ("gone", "new", "moved")]
            if any(sums):
                yield "\n{} faults: {:,} gone, {:,} new, {:,} moved".format(fault, *sums)
                order = table[["gone", "new", "moved"]].sum(axis=1).sort_values(ascending=False)
                yield table.loc[order.index[:ROWS]].to_string(index=False)
                if len(table) > ROWS:
                    yield f"and {len(table) - ROWS:,} pages more"

    def _repr_html_(self) -> str:
        from .pictures import inline

        return f"<pre>{html.escape(str(self))}</pre>{inline(self.picture())}"

    def picture(self, kinds: Iterable[str] = ("hard",)) -> Any:
        """Cumulative faults with their difference, and pages: only of one, of the other, of both."""
        from .pictures import comparison

        return comparison(self, tuple(kinds))


def compare(one: Script | Run, other: Script | Run) -> Comparison:
    """Runs, or scripts that are run now, side by side."""
    first, second = (it if isinstance(it, Run) else run(it) for it in (one, other))
    return Comparison(first, second, "line" if alike(first.lines, second.lines) else "reference")


def alike(one: list[str], other: list[str]) -> bool:
    """Whether the scripts differ in nothing but the numbers of `machine` and `process` lines."""
    if len(one) != len(other):
        return False
    for line, its in zip(one, other):
        form = line.partition(" ")[0]
        if line != its and (form not in FREE_FORMS or form != its.partition(" ")[0]):
            return False
    return True


def position(lines: list[str], by: str) -> Any:
    """Of each line, counted from 1, the place at which it is compared; line 0 has place 0."""
    if by == "line":
        return numpy.arange(len(lines) + 1)
    refers = [False, *(line.startswith(REFERENCES) for line in lines)]
    return numpy.cumsum(numpy.array(refers, dtype=numpy.int64))


def steps(log: Path) -> Iterator[Step]:
    """The lines of a log in order, in constant memory."""
    line, moves = 0, list[str]()
    with open(log, encoding="ascii") as rows:
        for row in rows:
            if row.startswith("at "):
                if line:
                    yield Step(line, tuple(moves))
                line, moves = int(row.split(" ", 2)[1]), []
            else:
                moves.append(row)
    if line:
        yield Step(line, tuple(moves))


def referring(side: Iterator[Step], lines: list[str]) -> Iterator[Step]:
    """The lines that refer to memory, alone."""
    return (it for it in side if lines[it.line - 1].startswith(REFERENCES))


def common(one: list[int], other: list[int]) -> int:
    """How many faults are at the same place in both."""
    return (Counter(one) & Counter(other)).total()
