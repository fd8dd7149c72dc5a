"""The replay of a log of moves in Python, written from docs/PROFILE.md, "Logs of moves", alone.

It shares nothing with the programs, so what they show of a log can be compared with what this
shows. A move is a tuple:
  ('at', line, kind)          kind: ('machine',f,s,d,b) ('process',pid,min,max) ('unbind',pid)
                              ('access',pid) ('thread',pid) ('trim',pid) ('writer',) ('zeroer',)
                              ('io',) ('call',) ('grow',n)
  ('add', key, None)          `add <key> zero`
  ('add', key, b)             `add <key> block <b>`
  ('drop', key) ('clear', f) ('steal', f) ('give', f, key) ('read', f, key) ('got', f) ('bad', f)
  ('map', f, place) ('unmap', place) ('soil', f) ('write', f, 'slot'|'block', n)
  ('wrote', f) ('lost', f)
A key is ('p', pid, vpn) or ('s', area, index); a place is (pid, vpn).
"""
from __future__ import annotations

import heapq
from collections import OrderedDict
from typing import Any, Callable, Optional, Sequence

Key = tuple[str, int, int]
Place = tuple[int, int]
Home = tuple[Any, ...]
Move = tuple[Any, ...]

U32 = 1 << 32


# ---------------------------------------------------------------- spelling


def number(w: bytes) -> Optional[int]:
    """Decimal without leading zeros, below 2^32; None outside the spelling."""
    if not w or len(w) > 10 or not all(48 <= c <= 57 for c in w):
        return None
    if w[0] == 48 and len(w) > 1:
        return None
    n = int(w)
    return n if n < U32 else None


def pid_number(w: bytes) -> Optional[int]:
    n = number(w)
    return n if n is not None and n < 256 else None


def read_pair(w: bytes) -> Optional[list[bytes]]:
    parts = w.split(b".")
    if len(parts) != 2:
        return None
    return parts


def read_place(w: bytes) -> Optional[Place]:
    parts = read_pair(w)
    if parts is None:
        return None
    p, v = pid_number(parts[0]), number(parts[1])
    return None if p is None or v is None else (p, v)


def read_key(w: bytes) -> Optional[Key]:
    if w[:1] == b"p":
        pl = read_place(w[1:])
        return None if pl is None else ("p",) + pl
    if w[:1] == b"s":
        parts = read_pair(w[1:])
        if parts is None:
            return None
        a, i = number(parts[0]), number(parts[1])
        return None if a is None or i is None else ("s", a, i)
    return None


Parsers = Sequence[Callable[[bytes], Any]]

KINDS: dict[bytes, Parsers] = {  # kind word: parsers of its numbers
    b"machine": [number] * 4,
    b"process": [pid_number, number, number],
    b"unbind": [pid_number],
    b"access": [pid_number],
    b"thread": [pid_number],
    b"trim": [pid_number],
    b"writer": [],
    b"zeroer": [],
    b"io": [],
    b"call": [],
    b"grow": [number],
}


def read_all(parsers: Parsers, words: Sequence[bytes]) -> Optional[list[Any]]:
    if len(parsers) != len(words):
        return None
    out = []
    for p, w in zip(parsers, words):
        v = p(w)
        if v is None:
            return None
        out.append(v)
    return out


# The other moves: parsers of their words.
FORMS: dict[bytes, Parsers] = {
    b"drop": [read_key],
    b"clear": [number],
    b"steal": [number],
    b"give": [number, read_key],
    b"read": [number, read_key],
    b"got": [number],
    b"bad": [number],
    b"map": [number, read_place],
    b"unmap": [read_place],
    b"soil": [number],
    b"wrote": [number],
    b"lost": [number],
}


def read_move(line: bytes) -> Optional[Move]:
    """`line` is the bytes before the line feed.  None exactly outside the spelling."""
    ws = line.split(b" ")
    w = ws[0]
    if w == b"at":
        if len(ws) < 3:
            return None
        n = number(ws[1])
        if n is None or ws[2] not in KINDS:
            return None
        vals = read_all(KINDS[ws[2]], ws[3:])
        if vals is None:
            return None
        return ("at", n, (ws[2].decode(),) + tuple(vals))
    if w == b"add":
        if len(ws) == 3 and ws[2] == b"zero":
            k = read_key(ws[1])
            return None if k is None else ("add", k, None)
        if len(ws) == 4 and ws[2] == b"block":
            vals = read_all([read_key, number], [ws[1], ws[3]])
            return None if vals is None else ("add", vals[0], vals[1])
        return None
    if w == b"write":
        if len(ws) != 4 or ws[2] not in (b"slot", b"block"):
            return None
        vals = read_all([number, number], [ws[1], ws[3]])
        return None if vals is None else ("write", vals[0], ws[2].decode(), vals[1])
    if w not in FORMS:
        return None
    vals = read_all(FORMS[w], ws[1:])
    return None if vals is None else (w.decode(),) + tuple(vals)


def spell_key(k: Key) -> str:
    return "%s%d.%d" % k


def spell_move(m: Move) -> str:
    w = m[0]
    if w == "at":
        return "at %d %s" % (m[1], " ".join(str(x) for x in m[2]))
    if w == "add":
        return "add %s %s" % (spell_key(m[1]), "zero" if m[2] is None else "block %d" % m[2])
    if w in ("give", "read"):
        return "%s %d %s" % (w, m[1], spell_key(m[2]))
    if w == "drop":
        return "drop %s" % spell_key(m[1])
    if w == "map":
        return "map %d %d.%d" % (m[1], m[2][0], m[2][1])
    if w == "unmap":
        return "unmap %d.%d" % m[1]
    if w == "write":
        return "write %d %s %d" % (m[1], m[2], m[3])
    return "%s %d" % (w, m[1])


# ---------------------------------------------------------------- replay


class Rec:
    """The record of a page frame."""

    __slots__ = ("owner", "changed", "backing", "shares", "request")

    def __init__(self) -> None:
        self.owner: Any = None  # key or None
        self.changed = False
        self.backing: Any = None  # None, ('slot', s) or ('block', b)
        self.shares = 0
        self.request: Optional[str] = None  # None, 'read', 'write' or 'again'


def machine_in_range(f: int, s: int, d: int, b: int) -> bool:
    """The ranges of a machine's numbers."""
    return (
        6 <= f <= 262144
        and 0 <= s <= 262144
        and 1 <= d <= 64
        and 0 <= b <= 65536
        and f >= 2 * d + 4
    )


class Life:
    """The state of the replay, and `apply`: False exactly where the move is not legal.

    Nothing is changed then.
    """

    def __init__(self) -> None:
        self.frames = self.slots = self.depth = self.blocks = 0  # machine
        self.line = 0
        self.kind: Any = None
        self.procs: dict[int, tuple[int, int]] = {}  # pid -> (min, max)
        self.lists: dict[str, OrderedDict[int, bool]] = {
            n: OrderedDict() for n in ("zeroed", "free", "standby", "modified")
        }
        self.rec: list[Rec] = []
        self.free_slots: list[int] = []  # a heap of the free slots
        self.home: dict[
            Key, Home
        ] = {}  # live key without a frame -> ('zero',) ('slot',s) ('block',b)
        self.frame_of: dict[Key, int] = {}  # live key with a frame -> frame
        self.page_file: set[Key] = set()  # live keys that were added with `zero`
        self.blocks_added: set[int] = set()
        self.valid: dict[Place, int] = {}  # place -> frame
        self.nvalid: dict[int, int] = {}  # pid -> number of valid places
        self.requests: list[int] = []  # frames with a request, oldest first

    # -- readers ---------------------------------------------------------
    def limit(self) -> int:
        return self.frames + self.slots - (2 * self.depth + 2)

    def live(self, key: Key) -> bool:
        return key in self.home or key in self.frame_of

    def first(self, name: str) -> Optional[int]:
        lst = self.lists[name]
        return next(iter(lst)) if lst else None

    def empty(self, name: str) -> bool:
        return not self.lists[name]

    def list_of(self, f: int) -> Optional[str]:
        for n, lst in self.lists.items():
            if f in lst:
                return n
        return None

    def valid_places(self, pid: int) -> int:
        return self.nvalid.get(pid, 0)

    def counts(self) -> tuple[int, ...]:
        active = sum(1 for r in self.rec if r.shares > 0)
        transition = sum(1 for r in self.rec if r.shares == 0 and r.request is not None)
        return (
            len(self.lists["zeroed"]),
            len(self.lists["free"]),
            len(self.lists["standby"]),
            len(self.lists["modified"]),
            active,
            transition,
            len(self.free_slots),
            len(self.requests),
        )

    def held(self, key: Key) -> Home:
        """Where the key's bytes stand."""
        if key in self.frame_of:
            f = self.frame_of[key]
            if self.rec[f].request == "read":
                return tuple(self.rec[f].backing)
            return ("frame", f)
        if key in self.home:
            return self.home[key]
        return ("dead",)

    # -- small effects ---------------------------------------------------
    def leave(self, f: int) -> None:
        for lst in self.lists.values():
            lst.pop(f, None)

    def go(self, f: int, name: str) -> None:
        self.leave(f)
        self.lists[name][f] = True
        if name == "free":
            r = self.rec[f]
            r.owner = None
            r.backing = None
            r.changed = False

    def settle(self, f: int) -> None:
        r = self.rec[f]
        if r.shares == 0 and r.request is None:
            self.go(f, "modified" if r.changed else "standby")

    def free_slot(self, backing: Optional[Home]) -> None:
        if backing is not None and backing[0] == "slot":
            heapq.heappush(self.free_slots, backing[1])

    def end_request(self, f: int) -> None:
        self.rec[f].request = None
        self.requests.remove(f)

    # -- the moves -------------------------------------------------------
    def apply(self, m: Move) -> bool:
        if self.line == 0 and m[0] != "at":
            return False
        return bool(getattr(self, "m_" + m[0])(*m[1:]))

    def is_frame(self, f: int) -> bool:
        return f < self.frames

    def kind_in(self, *words: str) -> bool:
        return bool(self.kind[0] in words)

    def access_of(self, pid: int) -> bool:
        return self.kind_in("access", "thread") and self.kind[1] == pid

    def m_at(self, line: int, kind: tuple[Any, ...]) -> bool:
        w = kind[0]
        if self.line == 0:
            if line != 1 or w != "machine" or not machine_in_range(*kind[1:]):
                return False
            self.frames, self.slots, self.depth, self.blocks = kind[1:]
            self.rec = [Rec() for _ in range(self.frames)]
            self.lists["free"] = OrderedDict((f, True) for f in range(self.frames))
            self.free_slots = list(range(self.slots))
            self.line, self.kind = line, kind
            return True
        if w == "machine" or line != self.line + 1 or len(self.requests) > self.depth:
            return False
        if w == "process":
            if kind[1] != len(self.procs) + 1 or kind[1] > 64:
                return False
            self.procs[kind[1]] = (kind[2], kind[3])
        if w == "grow":
            if kind[1] < 1 or self.slots + kind[1] > 262144:
                return False
            for s in range(self.slots, self.slots + kind[1]):
                heapq.heappush(self.free_slots, s)
            self.slots += kind[1]
        self.line, self.kind = line, kind
        return True

    def m_add(self, key: Key, block: Optional[int]) -> bool:
        if self.live(key):
            return False
        if block is None:
            if not len(self.page_file) < self.limit():
                return False
            ok = self.kind_in("call")
            if (
                not ok
                and self.kind_in("access", "thread")
                and key[0] == "p"
                and key[1] == self.kind[1]
                and (key[1], key[2]) in self.valid
            ):
                owner = self.rec[self.valid[(key[1], key[2])]].owner
                ok = owner is not None and owner[0] == "s"
            if not ok:
                return False
            self.home[key] = ("zero",)
            self.page_file.add(key)
            return True
        if not (
            self.kind_in("call")
            and key[0] == "s"
            and block < self.blocks
            and block not in self.blocks_added
        ):
            return False
        self.home[key] = ("block", block)
        self.blocks_added.add(block)
        return True

    def m_drop(self, key: Key) -> bool:
        if not (self.kind_in("call", "unbind") and key in self.page_file):
            return False
        f = self.frame_of.get(key)
        if f is not None and self.rec[f].shares > 0:
            return False
        self.page_file.discard(key)
        if f is None:
            self.free_slot(self.home.pop(key))
            return True
        del self.frame_of[key]
        r = self.rec[f]
        if r.request is None:
            before = r.backing
            self.go(f, "free")
            self.free_slot(before)
        else:
            r.owner = None
        return True

    def m_clear(self, f: int) -> bool:
        if self.first("free") != f:
            return False
        if not (
            self.kind_in("zeroer") or (self.kind_in("access", "thread") and self.empty("zeroed"))
        ):
            return False
        self.leave(f)
        self.lists["zeroed"][f] = True
        return True

    def m_steal(self, f: int) -> bool:
        if not (
            self.first("standby") == f
            and self.empty("zeroed")
            and self.empty("free")
            and self.kind_in("access", "thread")
        ):
            return False
        r = self.rec[f]
        key, before = r.owner, r.backing
        del self.frame_of[key]
        self.home[key] = before
        self.go(f, "free")
        return True

    def m_give(self, f: int, key: Key) -> bool:
        if not (
            self.first("zeroed") == f
            and self.home.get(key) == ("zero",)
            and self.kind_in("access", "thread")
        ):
            return False
        del self.home[key]
        self.frame_of[key] = f
        r = self.rec[f]
        r.owner, r.changed, r.backing = key, True, None
        self.go(f, "modified")
        return True

    def m_read(self, f: int, key: Key) -> bool:
        if not (self.first("free") == f or (self.empty("free") and self.first("zeroed") == f)):
            return False
        h = self.home.get(key)
        if h is None or h[0] not in ("slot", "block"):
            return False
        if not (
            self.kind_in("access") or (self.kind_in("thread") and len(self.requests) < self.depth)
        ):
            return False
        self.leave(f)
        del self.home[key]
        self.frame_of[key] = f
        r = self.rec[f]
        r.owner, r.changed, r.backing, r.request = key, False, h, "read"
        self.requests.append(f)
        return True

    def m_got(self, f: int) -> bool:
        if not (
            self.is_frame(f) and self.rec[f].request == "read" and self.kind_in("io", "access")
        ):
            return False
        self.end_request(f)
        r = self.rec[f]
        if r.owner is not None:
            self.settle(f)
        else:
            before = r.backing
            self.go(f, "free")
            self.free_slot(before)
        return True

    def m_bad(self, f: int) -> bool:
        if not (
            self.is_frame(f) and self.rec[f].request == "read" and self.kind_in("io", "access")
        ):
            return False
        self.end_request(f)
        r = self.rec[f]
        owner, before = r.owner, r.backing
        self.go(f, "free")
        if owner is not None:
            del self.frame_of[owner]
            self.home[owner] = before
        else:
            self.free_slot(before)
        return True

    def m_map(self, f: int, place: Place) -> bool:
        if not self.is_frame(f):
            return False
        r = self.rec[f]
        if r.owner is None or r.request == "read" or place in self.valid:
            return False
        if r.owner[0] == "p" and (r.owner[1], r.owner[2]) != place:
            return False
        pid = place[0]
        if not (
            self.access_of(pid)
            and pid in self.procs
            and self.valid_places(pid) < self.procs[pid][1]
        ):
            return False
        self.valid[place] = f
        self.nvalid[pid] = self.valid_places(pid) + 1
        r.shares += 1
        self.leave(f)
        return True

    def m_unmap(self, place: Place) -> bool:
        if place not in self.valid:
            return False
        pid = place[0]
        f = self.valid[place]
        r = self.rec[f]
        first = self.kind == ("unbind", pid)
        second = self.kind == ("trim", pid) and self.valid_places(pid) > self.procs[pid][0]
        third = self.access_of(pid) and self.valid_places(pid) == self.procs[pid][1]
        fourth = (
            self.kind_in("access")
            and self.empty("zeroed")
            and self.empty("free")
            and self.empty("standby")
        )
        fifth = (
            self.access_of(pid)
            and r.owner is not None
            and r.owner[0] == "s"
            and self.live(("p",) + place)
        )
        if not (first or second or third or fourth or fifth):
            return False
        del self.valid[place]
        self.nvalid[pid] -= 1
        r.shares -= 1
        self.settle(f)
        return True

    def m_soil(self, f: int) -> bool:
        if not self.is_frame(f):
            return False
        r = self.rec[f]
        if not (r.shares > 0 and self.kind_in("access", "thread")):
            return False
        if not ((not r.changed and r.request is None) or r.request == "write"):
            return False
        if r.request is None:
            r.changed = True
            if r.backing is not None and r.backing[0] == "slot":
                self.free_slot(r.backing)
                r.backing = None
        else:
            r.request = "again"
        return True

    def m_write(self, f: int, what: str, n: int) -> bool:
        if not self.is_frame(f):
            return False
        r = self.rec[f]
        fewer = len(self.requests) < self.depth
        if what == "slot":
            if not (
                f in self.lists["modified"]
                and r.owner in self.page_file
                and self.free_slots
                and self.free_slots[0] == n
            ):
                return False
            if not (self.kind_in("access") or (self.kind_in("writer") and fewer)):
                return False
            heapq.heappop(self.free_slots)
            self.leave(f)
            r.backing, r.request = ("slot", n), "write"
            self.requests.append(f)
            return True
        if not (
            r.changed and r.owner is not None and r.request is None and r.backing == ("block", n)
        ):
            return False
        on_modified = f in self.lists["modified"]
        if not (
            (on_modified and self.kind_in("access"))
            or (on_modified and self.kind_in("writer") and fewer)
            or self.kind_in("call")
        ):
            return False
        self.leave(f)
        r.request = "write"
        self.requests.append(f)
        return True

    def can_end_write(self, f: int) -> bool:
        return (
            self.is_frame(f)
            and self.rec[f].request in ("write", "again")
            and self.kind_in("io", "access", "call")
        )

    def m_wrote(self, f: int) -> bool:
        if not self.can_end_write(f):
            return False
        r = self.rec[f]
        again = r.request == "again"
        self.end_request(f)
        if r.owner is None:
            before = r.backing
            self.go(f, "free")
            self.free_slot(before)
            return True
        if again:
            if r.backing[0] == "slot":
                self.free_slot(r.backing)
                r.backing = None
        else:
            r.changed = False
        self.settle(f)
        return True

    def m_lost(self, f: int) -> bool:
        if not self.can_end_write(f):
            return False
        r = self.rec[f]
        self.end_request(f)
        if r.backing[0] == "slot":
            self.free_slot(r.backing)
            r.backing = None
        if r.owner is None:
            self.go(f, "free")
            return True
        self.settle(f)
        return True
