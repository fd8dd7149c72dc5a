"""Address spaces as if every page had a page frame of its own: the answers of a script, in Python.

Written from docs/PROFILE.md, sections 1 to 8, alone, by somebody who had not read the definitions
or the code of the calls. It shares nothing with the programs.

    world = World()
    world.answer(line, said)    the answer that the rules give to the line; `said` is the program's

Few answers depend on paging: `pending ..` of a thread, `io`, the numbers of `counts`, and, once a
`fail` line was taken, `fault` and 0xC0000006. For these `said` is given back where it may come, and
the world goes on as the program did.
"""

from __future__ import annotations

import bisect
from dataclasses import dataclass, field
from typing import Optional

PAGE, GRANULE = 4096, 65536
FIRST, LAST = 0x10, 0x7FFEF
ZEROS = bytes(PAGE)
READS = {0x02, 0x04, 0x08, 0x10, 0x20, 0x40, 0x80}
WRITES = {0x04, 0x08, 0x40, 0x80}
EXECUTES = {0x10, 0x20, 0x40, 0x80}
PERMITTED = {"read": READS, "write": WRITES, "exec": EXECUTES}
PRIVATE = {0x01, 0x02, 0x04, 0x10, 0x20, 0x40}
ALL = PRIVATE | {0x08, 0x80}
VIEWS = {"read": {0x01, 0x02, 0x08}, "write": {0x01, 0x02, 0x04, 0x08}}
MARKED = {0x01, 0x02, 0x04, 0x08}
KINDS = {1: "copy", 4: "read", 2: "write", 6: "write", 0xF001F: "write"}
STARTS = {"read": 0x02, "write": 0x04, "copy": 0x08}
GUARD = 0x100
GUARD_HIT, NO_ACCESS, OVERFLOW = "raise 0x80000001", "raise 0xC0000005", "raise 0xC00000FD"
NOT_READ = "raise 0xC0000006"


class Refused(Exception):
    """An answer other than `ok` that changes nothing."""


def refuse(is_so: bool, answer: "int | str") -> None:
    """Ends the line with an error's code, or a word, where the refusal holds."""
    if is_so:
        raise Refused(answer if isinstance(answer, str) else f"error {answer}")


def pages_for(size: int) -> int:
    """How many pages so many bytes need."""
    return -(-size // PAGE)


def spell(number: int) -> str:
    return f"0x{number:08X}"


@dataclass
class Area:
    """A control area: the bytes of its pages, and which are committed; None where all are."""

    count: int
    fill: int = -1
    pages: dict[int, bytearray] = field(default_factory=dict)
    committed: Optional[set[int]] = None

    def has(self, index: int) -> bool:
        return self.committed is None or index in self.committed

    def bytes_of(self, index: int) -> bytes:
        if index in self.pages:
            return self.pages[index]
        return ZEROS if self.fill < 0 else bytes([(self.fill + index) % 256]) * PAGE

    def change(self, index: int) -> bytearray:
        """The bytes of a page, to be written to."""
        if index not in self.pages:
            self.pages[index] = bytearray(self.bytes_of(index))
        return self.pages[index]


@dataclass
class Section:
    """A section: its control area, its protection, its name, and who refers to it."""

    area: Area
    prot: int
    name: str
    is_file: bool
    handles: int = 0
    views: int = 0


class Row:
    """A page of a region. `own` are its own bytes; a private row is committed where it has some."""

    __slots__ = ("prot", "guard", "mark", "own")

    def __init__(self, prot: int, mark: bool = False):
        self.prot = prot
        self.guard = False
        self.mark = mark
        self.own: "bytes | bytearray | None" = None

    def set(self, prot: int) -> None:
        """A protection, with its guard; a marked row that may be written has what fits its copy."""
        self.prot, self.guard = prot & 0xFF, bool(prot & GUARD)
        if self.mark and self.prot in (0x04, 0x08):
            self.prot = 0x04 if self.own is not None else 0x08

    def spelled(self) -> int:
        return self.prot | (GUARD if self.guard else 0)

    def clear(self) -> None:
        self.prot, self.guard, self.own = 0, False, None


@dataclass
class Region:
    """A reservation or a view."""

    base: int
    rows: list[Row]
    prot: int
    kind: str = "private"
    section: Optional[Section] = None
    first: int = 0
    written: Optional[set[int]] = None

    @property
    def end(self) -> int:
        return self.base + len(self.rows)

    def row(self, page: int) -> Row:
        return self.rows[page - self.base]

    def index(self, page: int) -> int:
        """The section page of a page of a view."""
        return self.first + page - self.base

    def is_committed(self, page: int) -> bool:
        if self.section is None:
            return self.row(page).own is not None
        return self.section.area.has(self.index(page))

    def accepts(self, page: int, prot: int) -> bool:
        """Whether a page may be given a protection, guard aside."""
        if self.kind == "private":
            return prot in PRIVATE
        return prot in (MARKED if self.row(page).mark else VIEWS[self.kind])

    def charged(self) -> int:
        """The committed private rows, or the marked rows of a view."""
        if self.kind == "private":
            return sum(row.own is not None for row in self.rows)
        return sum(row.mark for row in self.rows)


class Process:
    """The regions of a process, by their bases, and its handles."""

    def __init__(self) -> None:
        self.bases: list[int] = []
        self.regions: dict[int, Region] = {}
        self.handles: dict[int, Section] = {}
        self.given = 0

    def at(self, page: int) -> Optional[Region]:
        """The region that has a page."""
        place = bisect.bisect_right(self.bases, page) - 1
        if place < 0:
            return None
        region = self.regions[self.bases[place]]
        return region if page < region.end else None

    def with_base(self, address: int) -> Optional[Region]:
        """The region whose base is an address, to the byte."""
        return self.regions.get(address // PAGE) if address % PAGE == 0 else None

    def around(self, address: int, size: int) -> Optional[Region]:
        """The region that has all pages of a range."""
        region = self.at(address // PAGE)
        return region if region and (address + size - 1) // PAGE < region.end else None

    def is_free(self, first: int, last: int) -> bool:
        """Whether pages are free user pages."""
        if first < FIRST or last > LAST:
            return False
        place = bisect.bisect_right(self.bases, last) - 1
        return place < 0 or self.regions[self.bases[place]].end <= first

    def gap(self, count: int) -> Optional[int]:
        """The lowest page on a granule from which so many pages are free."""
        page = FIRST
        for base in self.bases:
            if page + count <= base:
                break
            page = max(page, -(-self.regions[base].end // 16) * 16)
        return page if page + count - 1 <= LAST else None

    def place(self, region: Region) -> None:
        bisect.insort(self.bases, region.base)
        self.regions[region.base] = region

    def take_out(self, region: Region) -> None:
        self.bases.remove(region.base)
        del self.regions[region.base]

    def give(self, section: Section) -> int:
        """A new handle to a section."""
        self.given += 1
        self.handles[4 * self.given] = section
        section.handles += 1
        return 4 * self.given


@dataclass
class Stack:
    """A thread's stack, and its guard page."""

    pid: int
    region: Region
    guard: int


def pages_of(address: int, size: int) -> range:
    """The pages that hold a byte of a range."""
    return range(address // PAGE, (address + size - 1) // PAGE + 1)


def is_protection(prot: int, among: set[int]) -> bool:
    """Whether this is one of some protections, which may have the guard but beside 0x01."""
    return prot in among or (prot & GUARD != 0 and prot - GUARD in among - {0x01})


def section_flags(flags: int) -> bool:
    """Whether these are the flags of a section."""
    return flags & ~0xC000000 in (0x02, 0x04, 0x08) and flags >> 26 != 3


class World:
    """All that the answers of a script depend on."""

    def __init__(self) -> None:
        self.frames = self.slots = self.depth = self.blocks = 0
        self.used_blocks = self.charge = self.made = self.fails = 0
        self.processes: dict[int, Process] = {}
        self.files: dict[str, Area] = {}
        self.names: dict[str, Section] = {}
        self.pending: dict[int, tuple[int, list[str]]] = {}
        self.stacks: dict[int, Stack] = {}
        self.said = ""

    def answer(self, line: str, said: str = "") -> str:
        """The answer to a line that is no fault."""
        self.said = said
        word, *fields = line.split(" ")
        try:
            return str(getattr(self, "line_" + word)(*fields))
        except Refused as refused:
            return str(refused)

    def failed(self, answer: str) -> bool:
        """Whether the program says that a device call failed, as it may after a `fail` line."""
        return self.said == answer and self.fails > 0

    @property
    def limit(self) -> int:
        return self.frames + self.slots - 2 * self.depth - 2

    def process(self, pid: str) -> Process:
        found = self.processes.get(int(pid, 0))
        if found is None:
            raise Refused("error 6")
        return found

    def claim(self, more: int) -> None:
        """Charges so many pages, where the limit allows it; 1455 otherwise."""
        refuse(more > 0 and self.charge + more > self.limit, 1455)
        self.charge += more

    # Machine, processes, files, and lines that only page.

    def line_machine(self, *fields: str) -> str:
        self.frames, self.slots, self.depth, self.blocks = (int(it, 0) for it in fields)
        return f"ok {self.limit}"

    def line_process(self, least: str, most: str) -> str:
        refuse(self.made == 64, "full")
        self.made += 1
        self.processes[self.made] = Process()
        return f"ok {self.made}"

    def line_exit(self, pid: str) -> str:
        process = self.process(pid)
        number = int(pid, 0)
        for tid in [it for it, kept in self.pending.items() if kept[0] == number]:
            del self.pending[tid]
        for handle in sorted(process.handles):
            self.close(process, handle)
        for region in list(process.regions.values()):
            self.release(process, region)
        del self.processes[number]
        return "ok"

    def line_file(self, name: str, pages: str, byte: str) -> str:
        refuse(name in self.files, 183)
        refuse(self.used_blocks + int(pages, 0) > self.blocks, "full")
        refuse(self.failed("fault"), "fault")
        self.used_blocks += int(pages, 0)
        self.files[name] = Area(int(pages, 0), int(byte, 0))
        return "ok"

    def line_fail(self, *fields: str) -> str:
        refuse(self.fails == 64, "full")
        self.fails += 1
        return "ok"

    def line_grow(self, more: str) -> str:
        refuse(self.slots + int(more, 0) > 262144, "full")
        self.slots += int(more, 0)
        return f"ok {self.limit}"

    def line_charge(self) -> str:
        return f"ok {self.charge} {self.limit}"

    def line_counts(self) -> str:
        """The frames add up; the other numbers are paging's."""
        word, *numbers = self.said.split(" ")
        is_so = word == "ok" and len(numbers) == 8
        is_so = is_so and sum(int(it) for it in numbers[:6]) == self.frames
        return self.said if is_so else f"ok with the numbers of {self.frames} frames"

    def line_io(self, number: str) -> str:
        is_so = self.said in ("ok", "none") or self.failed("fault")
        return self.said if is_so else "ok or none"

    def line_trim(self, pid: str, count: str) -> str:
        self.process(pid)
        return "ok"

    def line_age(self, pid: str) -> str:
        self.process(pid)
        return "ok"

    def line_writer(self, count: str) -> str:
        return "ok"

    def line_zeroer(self, count: str) -> str:
        return "ok"

    # Private memory.

    def line_alloc(self, pid: str, address: str, size: str, kind: str, prot: str) -> str:
        process = self.process(pid)
        at, count, how, rights = (int(it, 0) for it in (address, size, kind, prot))
        refuse(how not in (0x1000, 0x2000, 0x3000, 0x202000, 0x203000), 87)
        refuse(count == 0 or not is_protection(rights, PRIVATE), 87)
        if how & 0x2000 or at == 0:
            return self.reserve(process, at, count, how, rights)
        region = process.around(at, count)
        if region is None or region.section is not None and region.section.is_file:
            raise Refused("error 487")
        return self.commit(region, at, count, rights)

    def reserve(self, process: Process, at: int, size: int, how: int, prot: int) -> str:
        """A new private region, whose pages are committed where the type says so."""
        if at:
            first, last = at // GRANULE * 16, (at + size - 1) // PAGE
            refuse(not process.is_free(first, last), 487)
        else:
            gap = process.gap(pages_for(size))
            if gap is None:
                raise Refused("error 487")
            first, last = gap, gap + pages_for(size) - 1
        if how & 0x1000:
            self.claim(last + 1 - first)
        region = Region(first, [Row(0) for _ in range(first, last + 1)], prot)
        if how & 0x1000:
            for row in region.rows:
                row.own = ZEROS
                row.set(prot)
        if how & 0x200000:
            region.written = set()
        process.place(region)
        return f"ok {spell(first * PAGE)}"

    def commit(self, region: Region, at: int, size: int, prot: int) -> str:
        """Commits the pages of a range in a private region or a view of a page-file section."""
        pages = pages_of(at, size)
        if region.section is not None:
            refuse(any(not region.accepts(page, prot & 0xFF) for page in pages), 87)
        new = [page for page in pages if not region.is_committed(page)]
        self.claim(len(new))
        for page in new:
            if region.section is None:
                region.row(page).own = ZEROS
            elif region.section.area.committed is not None:
                region.section.area.committed.add(region.index(page))
        for page in pages:
            region.row(page).set(prot)
        return f"ok {spell(at // PAGE * PAGE)}"

    def line_free(self, pid: str, address: str, size: str, kind: str) -> str:
        process = self.process(pid)
        at, count, how = (int(it, 0) for it in (address, size, kind))
        refuse(how not in (0x4000, 0x8000) or how == 0x8000 and count != 0, 87)
        region = process.around(at, count) if count else process.with_base(at)
        if region is None or region.kind != "private":
            raise Refused("error 487")
        if how == 0x8000:
            self.release(process, region)
            return "ok"
        for page in pages_of(at, count) if count else range(region.base, region.end):
            row = region.row(page)
            self.charge -= row.own is not None
            row.clear()
        return "ok"

    def release(self, process: Process, region: Region) -> None:
        """Ends a region, private or a view."""
        self.charge -= region.charged()
        process.take_out(region)
        for tid in [it for it, stack in self.stacks.items() if stack.region is region]:
            del self.stacks[tid]
        if region.section is not None:
            region.section.views -= 1
            self.end(region.section)

    def line_protect(self, pid: str, address: str, size: str, prot: str) -> str:
        process = self.process(pid)
        at, count, rights = (int(it, 0) for it in (address, size, prot))
        refuse(count == 0 or not is_protection(rights, ALL), 87)
        region = process.around(at, count)
        pages = pages_of(at, count)
        if region is None or any(not region.is_committed(page) for page in pages):
            raise Refused("error 487")
        refuse(any(not region.accepts(page, rights & 0xFF) for page in pages), 87)
        rows = [region.row(page) for page in pages]
        new = []
        if region.section is not None and rights & 0xFF == 0x08:
            new = [row for row in rows if not row.mark]
        self.claim(len(new))
        before = rows[0].spelled()
        for row in new:
            row.mark = True
        for row in rows:
            row.set(rights)
        return f"ok {spell(before)}"

    def line_query(self, pid: str, address: str) -> str:
        process = self.process(pid)
        page = int(address, 0) // PAGE
        refuse(not FIRST <= page <= LAST, 87)
        region = process.at(page)
        if region is None:
            place = bisect.bisect_right(process.bases, page)
            end = process.bases[place] if place < len(process.bases) else LAST + 1
            numbers = [page * PAGE, 0, 0, (end - page) * PAGE, 0x10000, 0x01, 0]
            return "ok " + " ".join(map(spell, numbers))
        asked = self.looks(region, page)
        end = page + 1
        while end < region.end and self.looks(region, end) == asked:
            end += 1
        kind = 0x20000 if region.section is None else 0x40000
        numbers = [page * PAGE, region.base * PAGE, region.prot, (end - page) * PAGE]
        return "ok " + " ".join(map(spell, [*numbers, *asked, kind]))

    @staticmethod
    def looks(region: Region, page: int) -> tuple[int, int]:
        """The state of a page, and its protection with the guard."""
        if not region.is_committed(page):
            return 0x2000, 0
        return 0x1000, region.row(page).spelled()

    # Sections and views.

    def line_create(self, pid: str, size: str, flags: str, name: str) -> str:
        process = self.process(pid)
        count, how = int(size, 0), int(flags, 0)
        refuse(not section_flags(how) or not 0 < count <= 0x7FFE0000, 87)
        if name in self.names:
            return f"ok {process.give(self.names[name])} 183"
        area = Area(pages_for(count), committed=set() if how & 0x4000000 else None)
        self.claim(0 if how & 0x4000000 else area.count)
        return self.new_section(process, Section(area, how & 0xFF, name, False))

    def line_createfile(self, pid: str, file: str, flags: str, name: str) -> str:
        process = self.process(pid)
        refuse(not section_flags(int(flags, 0)), 87)
        refuse(file not in self.files, 2)
        if name in self.names:
            return f"ok {process.give(self.names[name])} 183"
        section = Section(self.files[file], int(flags, 0) & 0xFF, name, True)
        return self.new_section(process, section)

    def new_section(self, process: Process, section: Section) -> str:
        if section.name != "-":
            self.names[section.name] = section
        return f"ok {process.give(section)} 0"

    def line_open(self, pid: str, name: str) -> str:
        process = self.process(pid)
        refuse(name not in self.names, 2)
        return f"ok {process.give(self.names[name])}"

    def line_close(self, pid: str, handle: str) -> str:
        process = self.process(pid)
        refuse(int(handle, 0) not in process.handles, 6)
        self.close(process, int(handle, 0))
        return "ok"

    def close(self, process: Process, handle: int) -> None:
        section = process.handles.pop(handle)
        section.handles -= 1
        if not section.handles and self.names.get(section.name) is section:
            del self.names[section.name]
        self.end(section)

    def end(self, section: Section) -> None:
        """Gives back the pages of a page-file section that nothing refers to any more."""
        if section.handles or section.views or section.is_file:
            return
        area = section.area
        self.charge -= area.count if area.committed is None else len(area.committed)

    def line_map(self, pid: str, handle: str, access: str, *fields: str) -> str:
        process = self.process(pid)
        kind = KINDS.get(int(access, 0))
        refuse(kind is None, 87)
        section = process.handles.get(int(handle, 0))
        if section is None or kind is None:
            raise Refused("error 6")
        offset, length, at = (int(it, 0) for it in fields)
        refuse(kind == "write" and section.prot != 0x04, 5)
        refuse(offset % GRANULE != 0 or at % GRANULE != 0, 1132)
        first = offset // PAGE
        count = pages_for(length) if length else section.area.count - first
        refuse(first >= section.area.count or first + count > section.area.count, 487)
        base: Optional[int] = at // PAGE
        if at == 0:
            base = process.gap(count)
        elif not process.is_free(at // PAGE, at // PAGE + count - 1):
            base = None
        if base is None:
            raise Refused("error 487")
        self.claim(count if kind == "copy" else 0)
        rows = [Row(STARTS[kind], kind == "copy") for _ in range(count)]
        section.views += 1
        process.place(Region(base, rows, STARTS[kind], kind, section, first))
        return f"ok {spell(base * PAGE)}"

    def line_unmap(self, pid: str, address: str) -> str:
        process = self.process(pid)
        region = process.with_base(int(address, 0))
        if region is None or region.section is None:
            raise Refused("error 487")
        self.release(process, region)
        return "ok"

    def line_flush(self, pid: str, address: str, size: str) -> str:
        process = self.process(pid)
        region = process.around(int(address, 0), max(1, int(size, 0)))
        if region is None or region.section is None:
            raise Refused("error 487")
        refuse(region.section.is_file and self.failed("fault"), "fault")
        return "ok"

    # Watched regions and stacks.

    def watched(self, pid: str, address: str, size: str) -> tuple[set[int], range]:
        """The written pages of the watched region that has a range, and the range's pages."""
        process = self.process(pid)
        at, count = int(address, 0), int(size, 0)
        region = process.around(at, count) if count else None
        if region is None or region.written is None:
            raise Refused("error 87")
        return region.written, pages_of(at, count)

    def line_watch(self, pid: str, flag: str, address: str, size: str, count: str) -> str:
        written, pages = self.watched(pid, address, size)
        found = sorted(page for page in written if page in pages)[: int(count, 0)]
        if int(flag, 0):
            written.difference_update(found)
        return " ".join([f"ok {len(found)}", *(spell(page * PAGE) for page in found)])

    def line_resetwatch(self, pid: str, address: str, size: str) -> str:
        written, pages = self.watched(pid, address, size)
        written.difference_update([page for page in written if page in pages])
        return "ok"

    def line_stack(self, tid: str, pid: str, reserve: str, commit: str) -> str:
        process = self.process(pid)
        refuse(int(tid, 0) in self.stacks, "busy")
        count = -(-int(reserve, 0) // GRANULE) * 16
        committed = max(1, pages_for(int(commit, 0)))
        refuse(count == 0 or committed + 2 > count, 87)
        base = process.gap(count)
        if base is None:
            raise Refused("error 487")
        self.claim(committed + 1)
        region = Region(base, [Row(0) for _ in range(count)], 0x04)
        guard = region.end - committed - 1
        for page in range(guard, region.end):
            region.row(page).own = ZEROS
            region.row(page).set(0x104 if page == guard else 0x04)
        process.place(region)
        self.stacks[int(tid, 0)] = Stack(int(pid, 0), region, guard)
        numbers = [base * PAGE, count * PAGE, guard * PAGE]
        return "ok " + " ".join(map(spell, numbers))

    def line_probe(self, tid: str, address: str) -> str:
        stack = self.stacks.get(int(tid, 0))
        if stack is None:
            return "none"
        page = int(address, 0) // PAGE
        region = self.processes[stack.pid].at(page)
        if region is None or not region.is_committed(page):
            return NO_ACCESS
        row = region.row(page)
        if row.guard:
            return self.touch_guard(stack, page, row)
        if row.prot not in READS:
            return NO_ACCESS
        return f"ok {spell(stack.guard * PAGE)}"

    def touch_guard(self, stack: Stack, page: int, row: Row) -> str:
        """A probe of a page whose guard is on."""
        row.guard = False
        if page != stack.guard:
            return GUARD_HIT
        below = page - 1
        if below == stack.region.base:
            return OVERFLOW
        if stack.region.row(below).own is None:
            if self.charge == self.limit:
                return OVERFLOW
            self.charge += 1
            stack.region.row(below).own = ZEROS
        stack.region.row(below).set(0x104)
        stack.guard = below
        return f"ok {spell(below * PAGE)}"

    # Accesses.

    def line_read(self, pid: str, address: str, count: str) -> str:
        return self.access(self.process(pid), "read", int(address, 0), count)

    def line_write(self, pid: str, address: str, data: str) -> str:
        return self.access(self.process(pid), "write", int(address, 0), data)

    def line_exec(self, pid: str, address: str) -> str:
        return self.access(self.process(pid), "exec", int(address, 0), "")

    def line_begin(self, tid: str, pid: str, way: str, address: str, what: str) -> str:
        process = self.process(pid)
        refuse(int(tid, 0) in self.pending, "busy")
        return self.thread(int(tid, 0), int(pid, 0), process, [way, address, what])

    def line_resume(self, tid: str) -> str:
        kept = self.pending.pop(int(tid, 0), None)
        if kept is None:
            return "none"
        return self.thread(int(tid, 0), kept[0], self.processes[kept[0]], kept[1])

    def thread(self, tid: int, pid: int, process: Process, kept: list[str]) -> str:
        """An access of a thread, which may wait where it is permitted."""
        way, address, what = kept
        waits = self.said in ("pending read", "pending frame", "pending full")
        if waits and self.is_permitted(process, way, int(address, 0) // PAGE):
            self.pending[tid] = (pid, kept)
            return self.said
        return self.access(process, way, int(address, 0), what)

    @staticmethod
    def is_permitted(process: Process, way: str, page: int) -> bool:
        """Whether an access is one that can wait: the first three cases do not hold."""
        region = process.at(page)
        if region is None or not region.is_committed(page):
            return False
        row = region.row(page)
        return not row.guard and row.prot in PERMITTED[way]

    def access(self, process: Process, way: str, address: int, what: str) -> str:
        """A read of so many bytes, a write of these, or an execution."""
        page, offset = address // PAGE, address % PAGE
        region = process.at(page)
        if region is None or not region.is_committed(page):
            return NO_ACCESS
        row = region.row(page)
        if row.guard:
            row.guard = False
            return GUARD_HIT
        if row.prot not in PERMITTED[way]:
            return NO_ACCESS
        if self.failed(NOT_READ):
            return NOT_READ
        if way == "exec":
            return "ok"
        if way == "write":
            self.store(region, row, page, offset, bytes.fromhex(what))
            return "ok"
        held = row.own
        if held is None and region.section is not None:
            held = region.section.area.bytes_of(region.index(page))
        assert held is not None
        return "ok " + bytes(held[offset : offset + int(what, 0)]).hex().upper()

    @staticmethod
    def store(region: Region, row: Row, page: int, offset: int, data: bytes) -> None:
        """A permitted write: to own bytes, to the section page, or to a copy that it makes."""
        if region.written is not None:
            region.written.add(page)
        section = region.section
        if row.own is None and section is not None and not row.mark:
            section.area.change(region.index(page))[offset : offset + len(data)] = data
            return
        if row.own is None and section is not None:
            row.own = bytearray(section.area.bytes_of(region.index(page)))
            row.prot = 0x04
        if not isinstance(row.own, bytearray):
            row.own = bytearray(ZEROS)
        row.own[offset : offset + len(data)] = data
