"""Traces of memory references. A format is a class in a file of its own; FORMATS has them all."""

from __future__ import annotations

import io
from collections.abc import Iterator

from ..errors import Mistake
from .base import BadLine, Chunk, Codes, Format, Pages, Place, Source
from .lackey import Lackey
from .memtrace import Memtrace
from .perf import Perf
from .pin import Pin
from .table import Csv

__all__ = ["FORMATS", "BadLine", "Chunk", "Codes", "Format", "Pages", "Place", "Source", "read"]

FORMATS: dict[str, type[Format]] = {it.name: it for it in (Lackey, Pin, Csv, Memtrace, Perf)}


def read(source: Source, name: str, pages: Pages) -> Iterator[Chunk]:
    """The references of a trace in this format, many at a time.

    Mistake, in one sentence, where a line is none, where the trace has no reference, and where the
    name is none of FORMATS.
    """
    if name not in FORMATS:
        raise Mistake(f"there is no format {name}: formats are {', '.join(FORMATS)}")
    head = Head(source)
    form = FORMATS[name](pages)
    some = False
    try:
        for chunk in form.read(head):
            if chunk.codes.size:
                some = True
                yield chunk
    except BadLine as bad:
        other = None if some else guess(head.first, name)
        raise Mistake(f"{bad}; the trace looks like `{other}`") if other else bad from None
    if not some:
        raise Mistake("the trace is empty: it has no reference")


class Head:
    """A source that remembers how it began."""

    def __init__(self, source: Source) -> None:
        self.source = source
        self.first = b""

    def read(self, size: int) -> bytes:
        piece = self.source.read(size)
        self.first = self.first or piece
        return piece


def guess(text: bytes, name: str) -> str | None:
    """Another format that most of these lines fit."""
    lines = [line.rstrip(b"\r\n") for line in io.BytesIO(text[: 1 << 14])][:50]
    fits = {
        other: sum(form.LINE.fullmatch(line) is not None for line in lines)
        for other, form in FORMATS.items()
        if other != name
    }
    best = max(fits, key=fits.__getitem__)
    return best if 2 * fits[best] > len(lines) else None
