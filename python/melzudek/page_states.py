"""Which pages are valid, in memory, on disk, not touched: over a log, for pictures.

The state of a page follows from the words of the moves alone (PROFILE, section 11): `map` and
`unmap` say where it is valid, `give` and `read` that a page frame has it, `steal` and `bad` that
none has it any more.
"""

from __future__ import annotations

from collections import defaultdict
from collections.abc import Iterable, Iterator
from dataclasses import dataclass
from pathlib import Path
from typing import Any

from .libraries import require

require("numpy")
import numpy  # noqa: E402

CODES = ("", "valid", "in memory", "on disk", "not touched")
NONE, VALID, MEMORY, DISK, UNTOUCHED = range(len(CODES))
Place = tuple[int, int]  # process, page


@dataclass(frozen=True)
class States:
    """A row for each place and a column for each piece of the run: a number from CODES."""

    places: list[Place]
    codes: Any
    last: int  # of the lines, or of the places that are compared
    across: str = "line"

    @property
    def pages(self) -> list[int]:
        return [page for _, page in self.places]

    def of(self, process: int) -> States:
        """Those of one process."""
        rows = [at for at, (pid, _) in enumerate(self.places) if pid == process]
        return States([self.places[at] for at in rows], self.codes[rows], self.last, self.across)


class Follower:
    """The state of each page, and when it became another."""

    def __init__(self) -> None:
        self.of_key: dict[str, int] = {}
        self.in_frame: dict[str, str] = {}  # the key that a page frame has
        self.at: dict[Place, str] = {}  # the key that was last seen at a place
        self.places: dict[str, set[Place]] = defaultdict(set)
        self.valid: set[Place] = set()
        self.changes: dict[Place, list[tuple[int, int]]] = defaultdict(list)

    def take(self, line: int, words: list[str]) -> None:
        """A move, with the place of its line."""
        match words:
            case ["add", key, home, *_]:
                if key[0] == "p":
                    self.meet(key, place_of(key[1:]))
                self.become(line, key, UNTOUCHED if home == "zero" else DISK)
            case ["drop", key]:
                self.become(line, key, NONE)
            case ["give" | "read", frame, key]:
                self.in_frame[frame] = key
                self.become(line, key, MEMORY)
            case ["steal" | "bad", frame]:
                self.become(line, self.in_frame.pop(frame, ""), DISK)
            case ["map", frame, where]:
                place = place_of(where)
                self.meet(self.in_frame.get(frame, ""), place)
                self.valid.add(place)
                self.changes[place].append((line, VALID))
            case ["unmap", where]:
                place = place_of(where)
                self.valid.discard(place)
                self.changes[place].append((line, self.of_key.get(self.at.get(place, ""), NONE)))

    def meet(self, key: str, place: Place) -> None:
        """The key is the one at the place from now on."""
        old = self.at.get(place)
        if old is not None:
            self.places[old].discard(place)
        self.at[place] = key
        self.places[key].add(place)

    def become(self, line: int, key: str, state: int) -> None:
        """The key's page is in another state, wherever it is not valid."""
        if not key or self.of_key.get(key) == state:
            return
        self.of_key[key] = state
        for place in self.places[key] - self.valid:
            self.changes[place].append((line, state))


def place_of(text: str) -> Place:
    pid, _, page = text.partition(".")
    return int(pid), int(page)


def page_states(log: Path, columns: int, at: Any = None, last: int = 0) -> States:
    """The states of all places at the end of each of so many pieces of a run.

    `at` has the place of each line where runs are compared, up to `last`; else it is its number.
    """
    follower = Follower()
    line = 0
    for line, words in moves(log):
        follower.take(int(at[line]) if at is not None else line, words)
    last = last or line
    edges = numpy.linspace(last / columns, last, columns) if last else numpy.zeros(columns)
    places = sorted(follower.changes)
    codes = numpy.zeros((len(places), columns), numpy.uint8)
    for row, place in enumerate(places):
        for when, state in follower.changes[place]:
            codes[row, int(numpy.searchsorted(edges, when)) :] = state
    return States(places, codes, last)


def moves(log: Path) -> Iterator[tuple[int, list[str]]]:
    """The moves of a log with their lines; a line without moves has an empty one."""
    line = 0
    with open(log, encoding="ascii") as rows:
        for row in rows:
            words = row.split()
            if words[0] == "at":
                line = int(words[1])
                yield line, []
            else:
                yield line, words
