"""What a script and its answers add to a transcript: Windows' names of numbers, and pages' ages.

Written from docs/WRITTEN.md (the names) and docs/PROFILE.md (the numbers' places, ages) alone.
"""
from __future__ import annotations

import re
from typing import Any, Optional

Place = tuple[int, int]

MEMORY = {
    0x1000: "MEM_COMMIT",
    0x2000: "MEM_RESERVE",
    0x4000: "MEM_DECOMMIT",
    0x8000: "MEM_RELEASE",
    0x200000: "MEM_WRITE_WATCH",
}
PAGE = {
    0x01: "PAGE_NOACCESS",
    0x02: "PAGE_READONLY",
    0x04: "PAGE_READWRITE",
    0x08: "PAGE_WRITECOPY",
    0x10: "PAGE_EXECUTE",
    0x20: "PAGE_EXECUTE_READ",
    0x40: "PAGE_EXECUTE_READWRITE",
    0x80: "PAGE_EXECUTE_WRITECOPY",
    0x100: "PAGE_GUARD",
}
SECTION = {0x4000000: "SEC_RESERVE", 0x8000000: "SEC_COMMIT"}
VIEW = {1: "FILE_MAP_COPY", 2: "FILE_MAP_WRITE", 4: "FILE_MAP_READ"}
WHOLE_VIEW = {0xF001F: "FILE_MAP_ALL_ACCESS"}
STATE = {0x1000: "MEM_COMMIT", 0x2000: "MEM_RESERVE", 0x10000: "MEM_FREE"}
TYPE = {0x20000: "MEM_PRIVATE", 0x40000: "MEM_MAPPED"}
# how many words a line has, and the names of its numbers, by their places among the words
PLACES: dict[str, tuple[int, dict[int, dict[int, str]]]] = {
    "alloc": (6, {4: MEMORY, 5: PAGE}),
    "free": (5, {4: MEMORY}),
    "protect": (5, {4: PAGE}),
    "create": (5, {3: {**PAGE, **SECTION}}),
    "createfile": (5, {3: {**PAGE, **SECTION}}),
    "map": (7, {3: VIEW}),
}
ERRORS = {
    2: "ERROR_FILE_NOT_FOUND",
    5: "ERROR_ACCESS_DENIED",
    6: "ERROR_INVALID_HANDLE",
    87: "ERROR_INVALID_PARAMETER",
    183: "ERROR_ALREADY_EXISTS",
    487: "ERROR_INVALID_ADDRESS",
    1132: "ERROR_MAPPED_ALIGNMENT",
    1455: "ERROR_COMMITMENT_LIMIT",
}
STATUSES = {
    0x80000001: "STATUS_GUARD_PAGE_VIOLATION",
    0xC0000005: "STATUS_ACCESS_VIOLATION",
    0xC0000006: "STATUS_IN_PAGE_ERROR",
    0xC00000FD: "STATUS_STACK_OVERFLOW",
}


def number(word: str) -> Any:
    """A number of a script, or None: 1 to 10 digits below 2^32, or `0x` and 1 to 8 digits."""
    if re.fullmatch(r"[0-9]{1,10}", word):
        n = int(word)
        return n if n < 1 << 32 else None
    return int(word, 16) if re.fullmatch(r"0x[0-9A-Fa-f]{1,8}", word) else None


def whole_name(names: Any, n: int) -> Optional[str]:
    """The name of a number, or of its bits, which rise; None where a bit has none."""
    if names is VIEW and n in WHOLE_VIEW:
        return WHOLE_VIEW[n]
    if not n or n & ~sum(names):
        return None
    return "|".join(names[bit] for bit in sorted(names) if n & bit)


def bracket(names: Any) -> str:
    names = [name for name in names if name]
    return "[%s]" % ", ".join(names) if names else ""


def names_of_line(line: str) -> str:
    """The Windows names of a script's line, in brackets, or nothing."""
    words = line.split(" ")
    count, places = PLACES.get(words[0], (0, {}))
    return (
        bracket(whole_name(names, number(words[at])) for at, names in places.items())
        if len(words) == count
        else ""
    )


def names_of_answer(line: str, answer: str) -> str:
    """The Windows names of the answer to a line, in brackets, or nothing."""
    words = answer.split(" ")
    if len(words) == 2 and words[0] == "error":
        return bracket([ERRORS.get(number(words[1]))])
    if len(words) == 2 and words[0] == "raise":
        return bracket([STATUSES.get(number(words[1]))])
    if line.split(" ")[0] == "query" and len(words) == 8 and words[0] == "ok":
        state, page, kind = map(number, words[5:])
        return bracket([STATE.get(state), page and whole_name(PAGE, page), TYPE.get(kind)])
    return ""


def place_at(numbers: Any) -> Place:
    """The place of a page, by the process and the address."""
    pid, address = numbers
    return pid, address // 4096


class Ages:
    """How old each page of a working set is, by the lines of the script and their answers.

    An age is the number of `age` lines of the process since the page was mapped, or an access
    there was answered `ok`, 7 at most.
    """

    def __init__(self) -> None:
        self.lines: dict[Any, Any] = {}  # pid -> its `age` lines so far
        self.stamps: dict[
            Any, Any
        ] = {}  # place -> the `age` lines of its process when it was used last
        self.kept: dict[Any, Any] = {}  # thread -> the place of its pending access

    def use(self, place: Place) -> None:
        self.stamps[place] = self.lines.get(place[0], 0)

    def of(self, place: Place) -> Any:
        return min(7, self.lines.get(place[0], 0) - self.stamps[place])

    def after(self, line: str, answer: str) -> None:
        """What a line did that its answer tells of."""
        words, is_ok = line.split(" "), answer.split(" ")[0] == "ok"
        numbers = [number(word) or 0 for word in words]
        if words[0] in ("read", "write", "exec") and is_ok:
            self.use(place_at(numbers[1:3]))
        elif words[0] == "age" and is_ok:
            self.lines[numbers[1]] = self.lines.get(numbers[1], 0) + 1
        elif words[0] == "exit" and is_ok:
            self.kept = {
                thread: place for thread, place in self.kept.items() if place[0] != numbers[1]
            }
        elif words[0] in ("begin", "resume") and answer not in ("busy", "error 6"):
            self.follow_thread(words[0], numbers, answer, is_ok)

    def follow_thread(self, word: str, numbers: Any, answer: str, is_ok: bool) -> None:
        thread = numbers[1]
        if word == "begin":
            self.kept[thread] = place_at([numbers[2], numbers[4]])
        place = self.kept.get(thread)
        if place is None:
            return
        if is_ok:
            self.use(place)
        if not answer.startswith("pending"):
            del self.kept[thread]


def why_chosen(code: str, place: Place, age: Any, is_above: bool) -> str:
    """Why a search or a full set took this page, for an `unmap` of class r or T; else nothing."""
    if code not in ("r", "T"):
        return ""
    oldest = "oldest: age %d" % age if age else "lowest page of age 0"
    first = (
        "process %d is the first above its minimum; " % place[0] if code == "T" and is_above else ""
    )
    return " [%s%s]" % (first, oldest)


def unwritten(line: str, begun: int, life: Any) -> list[str]:
    """What is said of a `writer` line that ended, where it could not go on for want of slots.

    It had begun fewer write-outs than it was to, a request could have begun, and no slot is free.
    """
    words = line.split(" ")
    asked = number(words[1]) if words[0] == "writer" and len(words) == 2 else None
    asked = asked if asked and asked <= 1_000_000 else 0
    left = len(life.lists["modified"])
    can_begin = begun < asked and len(life.requests) < life.depth
    if not left or not can_begin or life.free_slots:
        return []
    pages = "1 modified page is" if left == 1 else f"{left} modified pages are"
    return [f"     no slot of the paging file is free: {pages} not written"]
