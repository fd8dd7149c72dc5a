"""What lines that change nothing answered: the text is checked and packed as the page has it.

Written from web/README.md alone. The text has, in the order of the lines of the log,

    LINE charge CHARGED LIMIT
    LINE region PID BASE SIZE STATE TYPE PROTECTION ALLOCATION-BASE ALLOCATION-PROTECTION

Numbers are those of scripts: decimal, or hexadecimal behind `0x`.
"""

from __future__ import annotations

import remarks

PAGE = 4096
FIRST_PAGE, LAST_PAGE = 0x10, 0x7FFF0  # of the user's addresses; the second is behind them
FREE, RESERVED, COMMITTED = 0x10000, 0x2000, 0x1000
PRIVATE, MAPPED = 0x20000, 0x40000
# the letter of a region's row, by its state and type
LETTERS = {
    (RESERVED, PRIVATE): "r",
    (RESERVED, MAPPED): "R",
    (COMMITTED, PRIVATE): "c",
    (COMMITTED, MAPPED): "C",
}
PROTECTIONS = (0x01, 0x02, 0x04, 0x08, 0x10, 0x20, 0x40, 0x80)
GUARD = 0x100


class BadObservation(Exception):
    """The number of the first line of the observations that is none."""


def digits(n: int) -> str:
    """Base 32, the low digit first, as the bytes 63 to 126: 32 more say that another follows."""
    out = ""
    while True:
        low, n = n & 31, n >> 5
        out += chr(63 + low + (32 if n else 0))
        if not n:
            return out


def is_protection(n: int) -> bool:
    return n & ~GUARD in PROTECTIONS


def is_region(row: list[int]) -> bool:
    """Whether the numbers behind `region` are one's: whole pages of the user's, and a state."""
    _, base, size, state, kind, protection, allocation, first = row
    is_whole = base % PAGE == 0 and size % PAGE == 0 and size > 0
    if not is_whole or base < FIRST_PAGE * PAGE or base + size > LAST_PAGE * PAGE:
        return False
    if state == FREE:
        return (kind, protection, allocation, first) == (0, 1, 0, 0)
    if (state, kind) not in LETTERS or not is_protection(first):
        return False
    if allocation % PAGE or not FIRST_PAGE * PAGE <= allocation <= base:
        return False
    return protection == 0 if state == RESERVED else is_protection(protection)


class Packer:
    """Packs rows in their order: it keeps the line and the end of the region before."""

    def __init__(self) -> None:
        self.line, self.end, self.out = 0, 0, ""

    def at(self, line: int) -> None:
        """The rows from here on are of this line."""
        if line != self.line:
            self.out += "\n" + digits(line - self.line)
            self.line = line

    def charge(self, charged: int, limit: int) -> None:
        self.out += "q" + digits(charged) + digits(limit)

    def region(self, row: list[int]) -> None:
        pid, base, size, state, kind, protection, allocation, first = row
        page = base // PAGE
        step = page - self.end
        where = [pid, 2 * step if step >= 0 else -2 * step - 1, size // PAGE]
        self.end = page + size // PAGE
        more = [] if state == FREE else [page - allocation // PAGE, first]
        more += [protection] if state == COMMITTED else []
        self.out += LETTERS.get((state, kind), "f") + "".join(map(digits, where + more))


def packed(data: bytes, count: int, processes: dict[int, int]) -> str:
    """The packed observations.

    `count` is how many lines have answers; `processes` has the line at which each process was made.
    Raises BadObservation at the first line that is none.
    """
    lines = data.replace(b"\r\n", b"\n").split(b"\n")
    if lines.pop():
        lines.append(b"")  # no line feed at the end: no line either
    packer = Packer()
    for at, text in enumerate(lines, 1):
        words = text.decode("latin-1").split(" ")
        row = [remarks.number(word) for word in words[:1] + words[2:]]
        if None in row or len(words) < 2 or not packer.line <= row[0] <= count or row[0] < 1:
            raise BadObservation(at)
        line, *rest = row
        if words[1] == "charge" and len(rest) == 2 and rest[0] <= rest[1]:
            packer.at(line)
            packer.charge(*rest)
        elif words[1] == "region" and len(rest) == 8 and processes.get(rest[0], count + 1) <= line:
            if not is_region(rest):
                raise BadObservation(at)
            packer.at(line)
            packer.region(rest)
        else:
            raise BadObservation(at)
    return packer.out + "\n"
