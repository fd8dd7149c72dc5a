"""What all formats of traces share: places, codes, lines that are taken one by one.

A place is a page of a process, or a page of a file in a process. Places are numbered in the order
of their first references, and a reference is a code, `number << 2 | kind`.
"""

from __future__ import annotations

import re
from collections.abc import Iterator
from typing import ClassVar, NamedTuple, Protocol

from ..errors import Mistake
from ..libraries import require

require("numpy")
import numpy as np  # noqa: E402
import numpy.typing as npt  # noqa: E402

READ, WRITE, EXECUTE = 0, 1, 2
KIND_BITS = 2
PAGE_BITS = 12
CHUNK = 1 << 18
MOST_PROCESSES = 64
LARGEST_ACCESS = 1 << 20
LONGEST_LINE = 1 << 12
MOST_KEPT = 1 << 18  # lines whose meaning is kept
Codes = npt.NDArray[np.int64]
Times = npt.NDArray[np.float64]


class Source(Protocol):
    """What a trace is read from."""

    def read(self, size: int, /) -> bytes:
        """At most so many bytes, none at the end."""


class BadLine(Mistake):
    """A line that is none of its format, with its number and the reason."""

    def __init__(self, number: int, line: bytes, why: str) -> None:
        text = line[:60].decode("ascii", "backslashreplace")
        super().__init__(f"line {number} of the trace, `{text}`, is none: {why}")


class Wrong(Exception):
    """Why a line is none."""


class Chunk(NamedTuple):
    """References in order; where the trace has a clock of its own, the time of each."""

    codes: Codes
    times: Times | None = None


class Place(NamedTuple):
    """A page of a process: private where `file` is below 0, else a page of that file."""

    process: int
    file: int
    page: int


class Pages:
    """The places, processes and files of a trace, numbered from 0 on."""

    def __init__(self) -> None:
        self.places: list[Place] = []
        self.processes: list[str] = []
        self.files: list[str] = []
        self._place: dict[Place, int] = {}
        self._process: dict[bytes, int] = {}
        self._file: dict[bytes, int] = {}

    def process(self, name: bytes) -> int:
        """A process by its name in the trace, made where it is new; Wrong for the 65th."""
        found = self._process.get(name)
        if found is None:
            if len(self.processes) == MOST_PROCESSES:
                raise Wrong(f"its process is one more than {MOST_PROCESSES}")
            found = self._process[name] = len(self.processes)
            self.processes.append(name.decode("ascii", "backslashreplace"))
        return found

    def file(self, name: bytes) -> int:
        found = self._file.get(name)
        if found is None:
            found = self._file[name] = len(self.files)
            self.files.append(name.decode("ascii", "backslashreplace"))
        return found

    def number(self, process: int, page: int, file: int = -1) -> int:
        place = Place(process, file, page)
        found = self._place.get(place)
        if found is None:
            found = self._place[place] = len(self.places)
            self.places.append(place)
        return found

    def access(
        self, kind: int, process: int, address: int, size: int = 1, file: int = -1
    ) -> tuple[int, ...]:
        """The codes of an access: one for each of its pages."""
        if not 1 <= size <= LARGEST_ACCESS:
            raise Wrong(f"its size is not 1 to {LARGEST_ACCESS:,} bytes")
        last = address + size - 1
        if last >> 64:
            raise Wrong("its last byte is past the addresses of 64 bits")
        return tuple(
            self.number(process, page, file) << KIND_BITS | kind
            for page in range(address >> PAGE_BITS, (last >> PAGE_BITS) + 1)
        )


class Format:
    """A format of traces: how bytes become codes.

    `name` is what a user writes, `about` one line for the help; `samples` is true where the trace
    has only some of the references, so that LRU and its like cannot be computed from it.
    """

    name: ClassVar[str]
    about: ClassVar[str]
    samples: ClassVar[bool] = False
    LINE: ClassVar[re.Pattern[bytes]]

    def __init__(self, pages: Pages) -> None:
        self.pages = pages
        self.lines = 0  # before the chunk at hand

    def read(self, source: Source) -> Iterator[Chunk]:
        """The references of a trace, many at a time; BadLine at a line that is none."""
        rest = b""
        while piece := source.read(CHUNK):
            text = rest + piece
            end = text.rfind(b"\n") + 1
            rest = text[end:]
            if end:
                yield self.parse(text[:end])
            if len(rest) > LONGEST_LINE:
                raise BadLine(self.lines + 1, rest, "it has no end")
        if rest:
            yield self.parse(rest + b"\n")

    def parse(self, text: bytes) -> Chunk:
        """The references of whole lines."""
        raise NotImplementedError

    def line(self, line: bytes) -> tuple[int, ...]:
        """The codes of one line, none where it tells something else; Wrong where it is none."""
        raise NotImplementedError


class LineByLine(Format):
    """A format that gives only `line`. What a line means is kept, since a loop's come again."""

    def __init__(self, pages: Pages) -> None:
        super().__init__(pages)
        self.known = Known(self)

    def parse(self, text: bytes) -> Chunk:
        lines = text.split(b"\n")
        lines.pop()
        if len(self.known) > MOST_KEPT:
            self.known.clear()
        try:
            chunk = self.chunk(lines)
        except Wrong as wrong:
            # all lines before the wrong one are known
            at = next(at for at, line in enumerate(lines) if self.essence(line) not in self.known)
            raise BadLine(self.lines + at + 1, lines[at], str(wrong)) from None
        self.lines += len(lines)
        return chunk

    def chunk(self, lines: list[bytes]) -> Chunk:
        known = self.known
        essences = map(self.essence, lines)
        return Chunk(np.array([code for line in essences for code in known[line]], np.int64))

    def essence(self, line: bytes) -> bytes:
        """The part of a line that `line` gets: without what is another in each line."""
        return line


class Known(dict[bytes, tuple[int, ...]]):
    """The codes of each line that was met."""

    def __init__(self, form: Format) -> None:
        super().__init__()
        self.form = form

    def __missing__(self, line: bytes) -> tuple[int, ...]:
        if len(line) > LONGEST_LINE:
            raise Wrong(f"it has more than {LONGEST_LINE:,} bytes")
        found = self[line] = self.form.line(line.rstrip(b"\r"))
        return found
