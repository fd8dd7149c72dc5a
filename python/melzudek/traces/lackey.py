"""What `valgrind --tool=lackey --trace-mem=yes` writes, many lines at once by numpy.

A line is `I  04001090,3`, ` L 1ffeffe7e8,8`, ` S ..` or ` M ..`. Its page is known by the eight
bytes of text before the last three digits: each such text is parsed and tested once, by Python, and
found again in a table. The rest of a line is tested by tables of pairs of bytes. Lines that are rare
(long addresses, sizes of three digits, accesses that cross pages) go one by one.
"""

from __future__ import annotations

import re
from collections.abc import Mapping
from typing import Any, cast

import numpy as np
import numpy.typing as npt

from .base import EXECUTE, KIND_BITS, READ, WRITE, BadLine, Chunk, Codes, Format, Pages, Wrong

Words = npt.NDArray[np.uint64]
Bytes = npt.NDArray[np.uint8]
KIND_OF = {b"I ": EXECUTE, b" L": READ, b" S": WRITE, b" M": WRITE}
PAGE_TEXT = re.compile(rb".*[ ]([0-9a-f]{5,7})")
NOISE = (b"==", b"--", b"**")
NOISE_LINE = re.compile(rb"^(?:==|--|\*\*)[^\n]*\n", re.MULTILINE)
PADDING = b"\n" * 16  # around a text, so that eight bytes can be taken anywhere
BAD = 255


class Texts:
    """The page of each text of eight bytes: a table with one try, and a dictionary behind it."""

    MOST_BITS = 22

    def __init__(self, pages: Pages) -> None:
        self.pages = pages
        self.known: dict[int, int] = {}
        self.make(12)

    def make(self, bits: int) -> None:
        self.bits = bits
        self.shift = np.uint64(64 - bits)
        self.texts = np.zeros(1 << bits, np.uint64)
        self.codes = np.zeros(1 << bits, np.int64)

    def slots(self, words: Words) -> Codes:
        return ((words * np.uint64(0x9E3779B97F4A7C15)) >> self.shift).view(np.int64)

    def find(self, words: Words) -> Codes:
        """The code of each text's page; Wrong where one has none."""
        slots = self.slots(words)
        strange = np.flatnonzero(self.texts.take(slots) != words)
        if strange.size:
            self.learn(words[strange].tolist())
            slots = self.slots(words)
            strange = np.flatnonzero(self.texts.take(slots) != words)
        found = self.codes.take(slots)
        if strange.size:  # two texts with one slot, in the largest table
            found[strange] = [self.known[word] for word in words[strange].tolist()]
        return found

    def learn(self, words: list[int]) -> None:
        for word in dict.fromkeys(words):
            if word not in self.known:
                found = PAGE_TEXT.fullmatch(word.to_bytes(8, "little"))
                if not found:
                    raise Wrong
                self.known[word] = self.pages.number(0, int(found[1], 16)) << KIND_BITS
        bits = self.bits
        while not self.put() and bits < self.MOST_BITS:
            bits += 1
            self.make(bits)

    def put(self) -> bool:
        """Whether each text has a slot of its own."""
        words = np.fromiter(self.known, np.uint64, len(self.known))
        slots = self.slots(words)
        self.texts[slots] = words
        self.codes[slots] = np.fromiter(self.known.values(), np.int64, len(self.known))
        return bool((self.texts[slots] == words).all())


def pair_table(of: Mapping[bytes, int]) -> Bytes:
    """A value for each two bytes of text; BAD for those that are not named."""
    table = np.full(1 << 16, BAD, np.uint8)
    for pair, value in of.items():
        table[int.from_bytes(pair, "little")] = value
    return table


DIGITS = [bytes([byte]) for byte in b"0123456789abcdef"]
VALUE = np.zeros(256, np.int64)
VALUE[list(b"0123456789abcdef")] = range(16)
HEAD = pair_table(KIND_OF)
# An access may cross pages from 0xFF0 on, and from 0xF00 on where its size has two digits: it may
# where the values of both pairs have a bit in common.
ONE_DIGIT, TWO_DIGITS = 1, 3
UPPER = pair_table({a + b: (a == b"f") * (3 if b == b"f" else 2) for a in DIGITS for b in DIGITS})
LOWER = pair_table({digit + b",": 0 for digit in DIGITS})
SIZE = pair_table(
    {a + b"\n": ONE_DIGIT for a in DIGITS[1:10]}
    | {a + b: TWO_DIGITS for a in DIGITS[1:10] for b in DIGITS[:10]}
)
SIZE_BYTES = np.zeros(256, np.int64)  # of a size and the line feed
SIZE_BYTES[[ONE_DIGIT, TWO_DIGITS]] = 2, 3


def unaligned(text: bytes, kind: str) -> npt.NDArray[Any]:
    """A number of this kind from each byte on."""
    size = np.dtype(kind).itemsize
    return np.ndarray((len(text) - size + 1,), kind, text, strides=(1,))


class Lackey(Format):
    """One process, that valgrind ran."""

    name = "lackey"
    about = "what `valgrind --tool=lackey --trace-mem=yes` writes"
    LINE = re.compile(rb"(I | [LSM]) ([0-9a-fA-F]{1,16}),([0-9]{1,7})")

    def __init__(self, pages: Pages) -> None:
        super().__init__(pages)
        self.process = pages.process(b"program")
        self.texts = Texts(pages)

    def parse(self, text: bytes) -> Chunk:
        first = self.lines
        codes = self.in_bulk(text)
        if codes is None:
            codes = self.in_bulk(NOISE_LINE.sub(b"", text))
            self.lines = first
            if codes is None:
                codes = self.one_by_one(text)
            else:
                self.lines += text.count(b"\n")
        return Chunk(codes)

    def in_bulk(self, text: bytes) -> Codes | None:
        """The codes of lines with one comma each; None where one is bad, or too many are rare."""
        padded = b"".join((PADDING, text, PADDING))
        taken = np.frombuffer(padded, np.uint8)
        pairs = unaligned(padded, "<u2")
        marks = np.flatnonzero((taken == 44) | (taken == 10))[len(PADDING) : -len(PADDING)]
        commas, ends = marks[::2], marks[1::2]
        if commas.size != ends.size or (taken[commas] != 44).any() or (taken[ends] != 10).any():
            return None
        starts = np.empty_like(ends)
        starts[:1] = len(PADDING)
        starts[1:] = ends[:-1] + 1
        kinds = HEAD.take(pairs[starts])
        upper = UPPER.take(pairs[commas - 3])
        size = SIZE.take(pairs[commas + 1])
        digits = commas - starts - 3
        rare = (kinds | upper | LOWER.take(pairs[commas - 1]) | size) == BAD
        rare |= (digits < 8) | (digits > 10) | (ends - commas != SIZE_BYTES.take(size))
        near = np.flatnonzero(upper & size)
        rare[near] |= crosses(taken, commas[near], size[near])
        odd = np.flatnonzero(rare)
        at = commas - 11
        if odd.size:
            if odd.size > commas.size // 8:
                return None
            at[odd] = at[np.argmin(rare)]  # a text that has a page; its code is replaced below
        try:
            codes = self.texts.find(unaligned(padded, "<u8")[at])
        except Wrong:
            return None
        codes |= kinds
        self.lines += commas.size
        return self.with_odd(codes, odd, starts, ends, padded) if odd.size else codes

    def with_odd(
        self, codes: Codes, odd: Codes, starts: Codes, ends: Codes, text: bytes
    ) -> Codes | None:
        """The codes with those of some lines, taken one by one, in their places."""
        places: list[int] = []
        more: list[int] = []
        for index, start, end in zip(odd.tolist(), starts[odd].tolist(), ends[odd].tolist()):
            try:
                found = self.line(text[start:end].rstrip(b"\r"))
            except Wrong:
                return None
            places += [index] * len(found)
            more += found
        keep = np.ones(len(codes), bool)
        keep[odd] = False
        before = np.cumsum(keep) - keep
        where = before[np.array(places, np.int64)]
        return cast(Codes, np.insert(codes[keep], where, np.array(more, np.int64)))

    def one_by_one(self, text: bytes) -> Codes:
        codes: list[int] = []
        for line in text.split(b"\n")[:-1]:
            self.lines += 1
            try:
                codes += self.line(line.rstrip(b"\r"))
            except Wrong as wrong:
                raise BadLine(self.lines, line, str(wrong)) from None
        return np.array(codes, np.int64)

    def line(self, line: bytes) -> tuple[int, ...]:
        found = self.LINE.fullmatch(line)
        if found:
            return self.pages.access(
                KIND_OF[found[1]], self.process, int(found[2], 16), int(found[3])
            )
        if line.startswith(NOISE):
            return ()
        if line[:3] not in (b"I  ", b" L ", b" S ", b" M "):
            raise Wrong("it begins with none of `I  `, ` L `, ` S `, ` M `, `==`, `--`, `**`")
        if not re.match(rb"[0-9a-fA-F]{1,16},", line[3:]):
            raise Wrong("its address is not 1 to 16 hexadecimal digits and a comma")
        raise Wrong("its size is no decimal number of 1 to 7 digits")


def crosses(taken: Bytes, commas: Codes, size: Bytes) -> npt.NDArray[np.bool_]:
    """Whether accesses from 0xF00 on, of at most 99 bytes, go on in the next page."""
    low = 16 * VALUE.take(taken[commas - 2]) + VALUE.take(taken[commas - 1])
    first, second = taken[commas + 1].astype(np.int64) - 48, taken[commas + 2].astype(np.int64) - 48
    count = np.where(size == TWO_DIGITS, 10 * first + second, first)
    return cast(npt.NDArray[np.bool_], low + count > 256)
