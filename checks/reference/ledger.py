"""A small reader of logs, written from the table of moves in docs/PROFILE.md, section 11, alone.

It keeps what the table's last column says and tests no condition, so it takes legal logs only. It
knows nothing of life.py, the other replay here. Its texts are those of `mmshow counts` and
`mmshow state LINE`; of `mmshow faults` it has the numbers, by the classes of section 12.
"""

from __future__ import annotations

import re
from collections import Counter
from dataclasses import dataclass, field
from typing import Iterator, Optional

LISTS = ("zeroed", "free", "standby", "modified")
IO = {"": "no I/O", "read": "being read", "write": "being written"}
IO["again"] = "being written, changed since"
# The columns of `faults`.
COLUMNS = "hard standby modified writing active zero copy collided".split()
Faults = dict[tuple[str, str], "Counter[str]"]


@dataclass
class Frame:
    """The record of a page frame; `backing` is empty, `slot N` or `block N`."""

    owner: str = ""
    changed: bool = False
    backing: str = ""
    shares: int = 0
    request: str = ""


@dataclass
class Ledger:
    """All that a replay keeps. `home` has the live keys: a frame's number, or what holds the bytes."""

    line: int = 0
    kind: list[str] = field(default_factory=list)
    frames: list[Frame] = field(default_factory=list)
    lists: dict[str, list[int]] = field(default_factory=lambda: {name: [] for name in LISTS})
    home: dict[str, "int | str"] = field(default_factory=dict)
    valid: dict[str, int] = field(default_factory=dict)
    sets: dict[int, tuple[int, int]] = field(default_factory=dict)
    requests: list[int] = field(default_factory=list)
    slots: int = 0
    free_slots: set[int] = field(default_factory=set)

    def leave(self, number: int) -> None:
        """Takes a frame from its list, if it is on one."""
        for name in LISTS:
            if number in self.lists[name]:
                self.lists[name].remove(number)

    def go(self, number: int, name: str) -> None:
        """Puts a frame at the end of a list; one that goes to free loses owner and backing."""
        self.leave(number)
        self.lists[name].append(number)
        if name == "free":
            self.frames[number] = Frame(shares=self.frames[number].shares)

    def give_back(self, held: str) -> None:
        """A slot is free again; a block or nothing is let be."""
        if held.startswith("slot "):
            self.free_slots.add(int(held[5:]))

    def settle(self, number: int) -> None:
        """A frame without shares and request goes to modified or standby."""
        frame = self.frames[number]
        if not frame.shares and not frame.request:
            self.go(number, "modified" if frame.changed else "standby")

    def end_request(self, number: int) -> bool:
        """Ends a request; where the page was given up the frame is free, and so is its slot."""
        frame = self.frames[number]
        frame.request = ""
        self.requests.remove(number)
        if not frame.owner:
            self.give_back(frame.backing)
            self.go(number, "free")
        return bool(frame.owner)

    def take(self, move: str) -> None:
        """A move of the log."""
        word, *rest = move.split(" ")
        getattr(self, "move_" + word)(*rest)

    def move_at(self, line: str, *kind: str) -> None:
        self.line, self.kind = int(line), list(kind)
        numbers = [int(it) for it in kind[1:]]
        if kind[0] == "machine":
            self.frames = [Frame() for _ in range(numbers[0])]
            self.lists["free"] = list(range(numbers[0]))
        if kind[0] in ("machine", "grow"):
            more = numbers[1] if kind[0] == "machine" else numbers[0]
            self.free_slots.update(range(self.slots, self.slots + more))
            self.slots += more
        if kind[0] == "process":
            self.sets[numbers[0]] = (numbers[1], numbers[2])

    def move_add(self, key: str, *home: str) -> None:
        self.home[key] = " ".join(home)

    def move_drop(self, key: str) -> None:
        home = self.home.pop(key)
        if isinstance(home, str):
            self.give_back(home)
            return
        frame = self.frames[home]
        if frame.request:
            frame.owner = ""
        else:
            self.give_back(frame.backing)
            self.go(home, "free")

    def move_clear(self, number: str) -> None:
        self.go(int(number), "zeroed")

    def move_steal(self, number: str) -> None:
        frame = self.frames[int(number)]
        self.home[frame.owner] = frame.backing
        self.go(int(number), "free")

    def move_give(self, number: str, key: str) -> None:
        self.frames[int(number)] = Frame(key, True)
        self.home[key] = int(number)
        self.go(int(number), "modified")

    def move_read(self, number: str, key: str) -> None:
        self.leave(int(number))
        self.frames[int(number)] = Frame(key, False, str(self.home[key]), 0, "read")
        self.home[key] = int(number)
        self.requests.append(int(number))

    def move_got(self, number: str) -> None:
        if self.end_request(int(number)):
            self.settle(int(number))

    def move_bad(self, number: str) -> None:
        frame = self.frames[int(number)]
        owner, backing = frame.owner, frame.backing
        if self.end_request(int(number)):
            self.home[owner] = backing
            self.go(int(number), "free")

    def move_map(self, number: str, place: str) -> None:
        self.valid[place] = int(number)
        self.frames[int(number)].shares += 1
        self.leave(int(number))

    def move_unmap(self, place: str) -> None:
        number = self.valid.pop(place)
        self.frames[number].shares -= 1
        self.settle(number)

    def move_soil(self, number: str) -> None:
        frame = self.frames[int(number)]
        if frame.request:
            frame.request = "again"
            return
        frame.changed = True
        self.give_back(frame.backing)
        if frame.backing.startswith("slot "):
            frame.backing = ""

    def move_write(self, number: str, what: str, where: str) -> None:
        self.leave(int(number))
        frame = self.frames[int(number)]
        if what == "slot":
            frame.backing = f"slot {where}"
            self.free_slots.remove(int(where))
        frame.request = "write"
        self.requests.append(int(number))

    def end_write(self, number: int, is_written: bool) -> None:
        """Ends a write: a page that is not written, or was changed meanwhile, has no slot."""
        frame = self.frames[number]
        is_clean = is_written and frame.request != "again"
        if self.end_request(number):
            if not is_clean and frame.backing.startswith("slot "):
                self.give_back(frame.backing)
                frame.backing = ""
            frame.changed = not is_clean
            self.settle(number)

    def move_wrote(self, number: str) -> None:
        self.end_write(int(number), True)

    def move_lost(self, number: str) -> None:
        self.end_write(int(number), False)


def lines_of(log: str) -> Iterator[tuple[Ledger, bool, str]]:
    """Each move with the ledger before it (False), and the ledger after each line (True)."""
    ledger = Ledger()
    for move in log.splitlines():
        if move.startswith("at ") and ledger.line:
            yield ledger, True, move
        yield ledger, False, move
        ledger.take(move)
    yield ledger, True, ""


def numbers(ledger: Ledger) -> list[int]:
    """The eight numbers of `counts`."""
    used = [frame for frame in ledger.frames if frame.shares or frame.request]
    active = sum(frame.shares > 0 for frame in used)
    lists = [len(ledger.lists[name]) for name in LISTS]
    return lists + [active, len(used) - active, len(ledger.free_slots), len(ledger.requests)]


def counts(log: str) -> list[str]:
    """The rows of `mmshow counts` but its head."""
    rows = []
    for ledger, is_end, _ in lines_of(log):
        if is_end:
            rows.append(f"{ledger.line:7}" + "".join(f"{it:11}" for it in numbers(ledger)))
    return rows


def place_of(ledger: Ledger, number: int) -> str:
    """What a frame is doing: active, in transition, or on a list."""
    frame = ledger.frames[number]
    if frame.shares:
        return "active"
    if frame.request:
        return "being read" if frame.request == "read" else "being written"
    return next(name for name in LISTS if number in ledger.lists[name])


def state(log: str, line: int) -> list[str]:
    """The rows of `mmshow state LINE`."""
    for ledger, is_end, _ in lines_of(log):
        if is_end and ledger.line == line:
            return state_rows(ledger)
    return [f"no such line {line}"]


def state_rows(ledger: Ledger) -> list[str]:
    """Every list, every frame, every working set and the slots."""
    rows = [f"after line {ledger.line}"]
    rows += [" ".join([name, *map(str, ledger.lists[name])]) for name in LISTS]
    rows.append(" ".join(["requests", *map(str, ledger.requests)]))
    runs: list[tuple[int, int, str]] = []  # of frames that follow one another: first, last, facts
    for number, frame in enumerate(ledger.frames):
        facts = [place_of(ledger, number), frame.owner or "no page"]
        facts += ["changed" if frame.changed else "not changed", frame.backing or "no copy"]
        facts += [f"{frame.shares} places", IO[frame.request]]
        said = ", ".join(facts)
        if runs and runs[-1][2] == said:
            runs[-1] = (runs[-1][0], number, said)
        else:
            runs.append((number, number, said))
    for first, last, said in runs:
        rows.append(
            f"frame {first} {said}" if first == last else f"frames {first} to {last} {said}"
        )
    for pid, (least, most) in sorted(ledger.sets.items()):
        places = [place.split(".") for place in ledger.valid]
        pages = sorted(int(page) for owner, page in places if int(owner) == pid)
        rows.append(" ".join([f"process {pid} min {least} max {most} pages", *map(str, pages)]))
    return rows + [f"slots {len(ledger.free_slots)} of {ledger.slots} free"]


def fault(ledger: Ledger, move: str, before: str, fresh: set[str], arrived: set[str]) -> str:
    """The column of `faults` that a move counts in, or nothing."""
    word, *rest = move.split(" ")
    if word == "read":
        return "hard"
    if word == "add" and rest[1] == "zero" and ledger.kind[0] in ("access", "thread"):
        return "copy"
    if word == "give":
        return "" if rest[1][0] == "p" and rest[1][1:] in ledger.valid else "zero"
    if word == "got":
        frame = ledger.frames[int(rest[0])]
        own = before.startswith(f"read {rest[0]} ")
        return "collided" if frame.owner and ledger.kind[0] == "access" and not own else ""
    if word == "map" and rest[0] not in fresh and rest[0] not in arrived:
        frame = ledger.frames[int(rest[0])]
        is_modified = int(rest[0]) in ledger.lists["modified"]
        other = "writing" if frame.request else "modified" if is_modified else "standby"
        return "active" if frame.shares else other
    return ""


def key_of(ledger: Ledger, move: str) -> str:
    """The page that a move is about."""
    word, *rest = move.split(" ")
    if word == "add":
        return rest[0]
    return rest[1] if word in ("give", "read") else ledger.frames[int(rest[0])].owner


def faults(log: str) -> Faults:
    """How many faults of each column, by the line's process and the page; and the device calls."""
    found: Faults = {}
    fresh: set[str] = set()
    arrived: set[str] = set()
    before = ""
    for ledger, is_end, move in lines_of(log):
        if is_end:
            continue
        word, *rest = move.split(" ")
        column = fault(ledger, move, before, fresh, arrived)
        if column:
            for key in (key_of(ledger, move), "all"):
                found.setdefault((ledger.kind[1], key), Counter())[column] += 1
        if word in ("got", "bad", "wrote", "lost"):
            backing = ledger.frames[int(rest[0])].backing
            device = "paging file" if backing.startswith("slot") else "files"
            found.setdefault((device, ""), Counter())[word] += 1
        fresh = set() if word == "at" else fresh | {rest[0]} if word in ("give", "got") else fresh
        if word == "got":
            arrived.add(rest[0])
        elif word in ("map", "give"):
            arrived.discard(rest[0])
        before = move
    return found


DEVICE = re.compile(
    r"(paging file|files): (\d+) read, (\d+) reads failed, (\d+) written, (\d+) writes failed"
)


def read_faults(told: str) -> Faults:
    """The numbers of `mmshow faults`; its last column, and its last row, are made of the others."""
    found: Faults = {}
    for row in told.splitlines()[1:]:
        device: Optional[re.Match[str]] = DEVICE.fullmatch(row)
        if device:
            named = zip(("got", "bad", "wrote", "lost"), device.groups()[1:])
            count = Counter({word: int(it) for word, it in named if int(it)})
            if count:
                found[device[1], ""] = count
        elif row[:1].isdigit():
            pid, key, *rest = row.split()
            named_columns = zip(COLUMNS, rest)
            found[pid, key] = Counter({name: int(it) for name, it in named_columns if int(it)})
    return found
