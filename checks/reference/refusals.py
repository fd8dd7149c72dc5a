"""Why a move is not legal, in words: the first part of its condition that fails.

The conditions are those of docs/PROFILE.md, "Logs of moves". Their order and their words are those
of the table in checks/reference/README.md. The replay itself, life.py, is not asked: where a
move has no reason here, it has to be legal there.
"""

from __future__ import annotations

from typing import Any, Callable, Iterator, Optional

from life import Key, Life, Move, Place, machine_in_range, spell_key

# Each part of a condition: whether it holds, and what is said where it does not.
Parts = Iterator[tuple[bool, Callable[[], str]]]


TOUCH = ("access", "thread")


def line_is(l: Life, rest: str) -> str:
    return "line %d (%s) %s" % (l.line, " ".join(str(x) for x in l.kind), rest)


def first_is(l: Life, name: str) -> str:
    """What stands at the front of a list."""
    first = l.first(name)
    return "; %s: none" % name if first is None else "; the first is %d" % first


def not_first(l: Life, f: int, name: str) -> str:
    return "frame %d is not the first %s frame%s" % (f, name, first_is(l, name))


def not_empty(l: Life, name: str) -> str:
    return "%s is not empty%s" % (name, first_is(l, name))


def depth_is(l: Life) -> str:
    return "%d requests are in flight, and the depth is %d" % (len(l.requests), l.depth)


def stands(l: Life, key: Key) -> str:
    """Where a page stands."""
    held = ("frame", l.frame_of[key]) if key in l.frame_of else l.home.get(key)
    if held is None:
        return "there is no page %s" % spell_key(key)
    return "page %s is %s" % (
        spell_key(key),
        "demand-zero" if held == ("zero",) else "in %s %d" % held,
    )


def set_is(l: Life, pid: int, name: str) -> str:
    if pid not in l.procs:
        return "there is no process %d" % pid
    limit = l.procs[pid][name == "maximum"]
    return "the working set of process %d has %d pages, and its %s is %d" % (
        pid,
        l.valid_places(pid),
        name,
        limit,
    )


def record(l: Life, f: int) -> Any:
    """The record of a frame, or None where there is no such frame."""
    return l.rec[f] if f < len(l.rec) else None


def at_parts(l: Life, n: int, kind: tuple[Any, ...]) -> Parts:
    word = kind[0]
    yield n == l.line + 1, lambda: "the next line is %d" % (l.line + 1)
    yield l.line == 0 or len(l.requests) <= l.depth, lambda: depth_is(l)
    if word == "machine":
        yield l.line == 0, lambda: "the machine is known already"
        yield machine_in_range(*kind[1:]), lambda: "its numbers are out of range"
        return
    yield l.line > 0, lambda: "the machine is not known yet"
    if word == "process":
        yield kind[1] == len(l.procs) + 1, lambda: "the next process is %d" % (len(l.procs) + 1)
        yield kind[1] <= 64, lambda: "there are at most 64 processes"
    if word == "grow":
        yield kind[1] >= 1, lambda: "it grows by no slot"
        yield l.slots + kind[1] <= 262144, lambda: "there are at most 262144 slots"


def add_parts(l: Life, key: Key, block: Optional[int]) -> Parts:
    is_new = not l.live(key), lambda: "page %s is there already" % spell_key(key)
    if block is None:
        yield is_new
        limit = max(0, l.limit())
        yield len(l.page_file) < limit, lambda: "the commit limit of %d pages is reached" % limit
        yield l.kind_in("call") or makes_copy(l, key), lambda: line_is(
            l, "is no call, and makes no copy of a page"
        )
        return
    yield l.kind_in("call"), lambda: line_is(l, "is no call")
    yield key[0] == "s", lambda: "page %s is no page of a file" % spell_key(key)
    yield is_new
    yield block < l.blocks, lambda: "there are %d file blocks" % l.blocks
    yield block not in l.blocks_added, lambda: f"file block {block} had a page before"


def makes_copy(l: Life, key: Key) -> bool:
    """Whether a shared page is valid at the place of a private key, in an access of its process."""
    owner = l.rec[l.valid[key[1:]]].owner if key[0] == "p" and key[1:] in l.valid else None
    return owner is not None and owner[0] == "s" and l.access_of(key[1])


def drop_parts(l: Life, key: Key) -> Parts:
    yield l.kind_in("call", "unbind"), lambda: line_is(l, "is no call and no unbind")
    yield key in l.page_file, lambda: "page %s is a file's" % spell_key(key) if l.live(
        key
    ) else stands(l, key)
    shares = l.rec[l.frame_of[key]].shares if key in l.frame_of else 0
    yield shares == 0, lambda: "page %s is valid at %d places" % (spell_key(key), shares)


def clear_parts(l: Life, f: int) -> Parts:
    yield l.first("free") == f, lambda: not_first(l, f, "free")
    yield not l.kind_in(*TOUCH) or l.empty("zeroed"), lambda: not_empty(l, "zeroed")
    yield l.kind_in("zeroer", *TOUCH), lambda: line_is(l, "is no zeroer and no access")


def steal_parts(l: Life, f: int) -> Parts:
    yield l.first("standby") == f, lambda: not_first(l, f, "standby")
    yield l.empty("zeroed"), lambda: not_empty(l, "zeroed")
    yield l.empty("free"), lambda: not_empty(l, "free")
    yield l.kind_in(*TOUCH), lambda: line_is(l, "is no access")


def give_parts(l: Life, f: int, key: Key) -> Parts:
    yield l.first("zeroed") == f, lambda: not_first(l, f, "zeroed")
    yield l.home.get(key) == ("zero",), lambda: stands(l, key)
    yield l.kind_in(*TOUCH), lambda: line_is(l, "is no access")


def read_parts(l: Life, f: int, key: Key) -> Parts:
    if l.empty("free"):
        yield l.first("zeroed") == f, lambda: "free is empty, and " + not_first(l, f, "zeroed")
    else:
        yield l.first("free") == f, lambda: not_first(l, f, "free")
    yield l.home.get(key, ("zero",)) != ("zero",), lambda: stands(l, key)
    yield not l.kind_in("thread") or len(l.requests) < l.depth, lambda: depth_is(l)
    yield l.kind_in(*TOUCH), lambda: line_is(l, "is no access")


def end_read_parts(l: Life, f: int) -> Parts:
    r = record(l, f)
    yield r is not None and r.request == "read", lambda: "frame %d is not being read" % f
    yield l.kind_in("io", "access"), lambda: line_is(l, "is no io and no access")


def end_write_parts(l: Life, f: int) -> Parts:
    r = record(l, f)
    yield r is not None and r.request in (
        "write",
        "again",
    ), lambda: "frame %d is not being written" % f
    yield l.kind_in("io", "access", "call"), lambda: line_is(l, "is no io, no access and no call")


def map_parts(l: Life, f: int, place: Place) -> Parts:
    r, (pid, page) = record(l, f), place
    yield r is not None and r.owner is not None, lambda: "frame %d holds no page" % f
    fits = r.owner[0] == "s" or r.owner[1:] == place
    yield fits, lambda: "frame %d holds page %s, no page of %d.%d" % (
        f,
        spell_key(r.owner),
        pid,
        page,
    )
    yield r.request != "read", lambda: "frame %d is being read" % f
    yield place not in l.valid, lambda: "%d.%d is valid already" % place
    yield l.access_of(pid), lambda: line_is(l, "is no access of process %d" % pid)
    yield pid in l.procs and l.valid_places(pid) < l.procs[pid][1], lambda: set_is(
        l, pid, "maximum"
    )


def unmap_parts(l: Life, place: Place) -> Parts:
    pid = place[0]
    yield place in l.valid, lambda: "%d.%d is not valid" % place
    owner = l.rec[l.valid[place]].owner
    least, most = l.procs[pid]
    is_short = l.empty("zeroed") and l.empty("free") and l.empty("standby")
    is_copied = owner is not None and owner[0] == "s" and l.live(("p",) + place)
    if l.kind == ("trim", pid):
        yield l.valid_places(pid) > least, lambda: set_is(l, pid, "minimum")
    elif l.access_of(pid):
        may = l.valid_places(pid) == most or is_copied or (l.kind_in("access") and is_short)
        yield may, lambda: set_is(l, pid, "maximum")
    elif l.kind_in("access"):
        yield is_short, lambda: "frames are left on zeroed, free or standby"
    else:
        yield l.kind == ("unbind", pid), lambda: line_is(l, "ends no place of process %d" % pid)


def soil_parts(l: Life, f: int) -> Parts:
    r = record(l, f)
    yield r is not None and r.shares > 0, lambda: "frame %d is valid nowhere" % f
    yield (
        not r.changed and r.request is None
    ) or r.request == "write", lambda: "frame %d is changed already" % f
    yield l.kind_in(*TOUCH), lambda: line_is(l, "is no access")


def write_parts(l: Life, f: int, what: str, n: int) -> Parts:
    r = record(l, f)
    is_modified = f in l.lists["modified"], lambda: "frame %d is not on the modified list" % f
    has_room = not l.kind_in("writer") or len(l.requests) < l.depth, lambda: depth_is(l)
    if what == "slot":
        yield is_modified
        yield r.owner in l.page_file, lambda: "frame %d holds no page of the paging file" % f
        yield n in l.free_slots, lambda: "slot %d is not free" % n
        yield n == min(l.free_slots), lambda: "slot %d is not the lowest free slot" % n
        yield has_room
        yield l.kind_in("access", "writer"), lambda: line_is(l, "is no access and no writer")
        return
    yield r is not None and r.changed, lambda: "frame %d is not changed" % f
    yield r.owner is not None, lambda: "frame %d holds no page" % f
    yield r.request is None, lambda: "frame %d is being %s" % (
        f,
        "read" if r.request == "read" else "written",
    )
    yield r.backing == ("block", n), lambda: "frame %d holds no page of block %d" % (f, n)
    yield l.kind_in("access", "writer", "call"), lambda: line_is(
        l, "is no access, no writer and no call"
    )
    if not l.kind_in("call"):
        yield is_modified
        yield has_room


PARTS: dict[str, Callable[..., Parts]] = {
    "at": at_parts,
    "add": add_parts,
    "drop": drop_parts,
    "clear": clear_parts,
    "steal": steal_parts,
    "give": give_parts,
    "read": read_parts,
    "got": end_read_parts,
    "bad": end_read_parts,
    "map": map_parts,
    "unmap": unmap_parts,
    "soil": soil_parts,
    "write": write_parts,
    "wrote": end_write_parts,
    "lost": end_write_parts,
}


def unstarted() -> Life:
    """A state before line 1: nothing is there."""
    l = Life()
    l.frames = l.slots = l.depth = l.blocks = 0
    l.kind = ("call",)
    return l


def refusal(l: Life, m: Move) -> Optional[str]:
    """Why the move m is not legal in the state l, or None where it is."""
    l = l if l.line else unstarted()
    for holds, words in PARTS[m[0]](l, *m[1:]):
        if not holds:
            return words()
    return None
