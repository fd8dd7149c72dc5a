"""A machine that one can talk to: each method is a line of a script, answered before it returns.

docs/PROFILE.md has the rules of each line. What is answered otherwise than `ok` is raised:
Refused, Raised, Busy, Full, DeviceFault. Ended comes where the run itself is over.
"""

from __future__ import annotations

import os
import shutil
from collections.abc import Iterable, Iterator
from pathlib import Path
from types import TracebackType
from typing import IO, NamedTuple

from .channel import Channel, batches, encode
from .errors import Busy, DeviceFault, Ended, Full, Raised, Refused
from .names import FILE_MAP, MEM, PAGE, SEC, spelled

PAGE_SIZE = 4096
FIRST_USER = 0x10000
USER_END = 0x7FFF0000


class Counts(NamedTuple):
    """How many page frames are on each list, active and in transition; slots; requests."""

    zeroed: int
    free: int
    standby: int
    modified: int
    active: int
    transition: int
    free_slots: int
    requests: int

    @property
    def available(self) -> int:
        """Page frames that can be taken at once."""
        return self.zeroed + self.free + self.standby


class Charge(NamedTuple):
    """Commit charge and commit limit, in pages."""

    charged: int
    limit: int


class Region(NamedTuple):
    """What VirtualQuery tells of a run of pages, in the order of an answer's words."""

    base: int
    allocation_base: int
    allocation_protection: PAGE
    size: int
    state: MEM
    protection: PAGE
    type: MEM

    @classmethod
    def of(cls, words: list[str]) -> Region:
        base, start, allowed, size, state, protection, kind = (int(word, 16) for word in words)
        return cls(base, start, PAGE(allowed), size, MEM(state), PAGE(protection), MEM(kind))

    @property
    def end(self) -> int:
        return self.base + self.size

    def __str__(self) -> str:
        words = [f"0x{self.base:08X}", f"{self.size // 1024:>9,} KiB", spelled(self.state)]
        if self.state != MEM.FREE:
            words += [spelled(self.protection), spelled(self.type)]
            words += [f"allocated at 0x{self.allocation_base:08X}"]
            words += [f"with {spelled(self.allocation_protection)}"]
        return "  ".join(words)


class Stack(NamedTuple):
    """Where a thread's stack lies."""

    base: int
    size: int
    guard: int  # address of the guard page


class Machine:
    """A machine of so many page frames, slots of the paging file, requests, and file blocks.

    `moves` is a file for the log, where the caller wants it; else it is kept until the end.
    """

    def __init__(
        self,
        frames: int = 64,
        slots: int = 64,
        depth: int = 1,
        blocks: int = 0,
        *,
        moves: IO[bytes] | None = None,
    ) -> None:
        self.begin(f"machine {frames} {slots} {depth} {blocks}", moves)

    def begin(self, line: str, moves: IO[bytes] | None) -> None:
        self.channel = Channel(moves)
        self._script = bytearray()
        self._answers = bytearray()
        self._whole = (0, 0, 0)  # bytes of both that belong together, and their lines
        self._start = 0  # of the last call's moves
        try:
            self.limit = int(self.ask(line)[0])
        except BaseException:
            self.close()
            raise

    @classmethod
    def of(cls, script: str | Iterable[str], *, moves: IO[bytes] | None = None) -> Machine:
        """The machine after a script, which has its `machine` line first. No answer raises."""
        lines = iter(script.splitlines() if isinstance(script, str) else script)
        machine = cls.__new__(cls)
        machine.begin(next(lines, ""), moves)
        try:
            machine.run(lines)
        except BaseException:
            machine.close()
            raise
        return machine

    def __reduce__(self) -> tuple[object, tuple[str]]:
        return type(self).of, (self.script,)  # what is unpickled is the same machine, run anew

    def __enter__(self) -> Machine:
        return self

    def __exit__(
        self,
        kind: type[BaseException] | None,
        error: BaseException | None,
        trace: TracebackType | None,
    ) -> None:
        self.close()

    def close(self) -> None:
        """Ends the run; script, answers and moves can be read on."""
        self.channel.close()

    # lines

    def send(self, line: str) -> str:
        """The answer to a line, whatever it is."""
        text = encode(line)
        channel = self.channel
        start = channel.size()
        channel.enter()
        answer = channel.exchange(text, 1)[0]
        self._record(text, answer + b"\n", 1)
        self._start = start
        channel.leave()
        return answer.decode("ascii")

    def run(self, lines: Iterable[str]) -> list[str]:
        """The answers to many lines, at the program's own speed; none of them raises.

        Where the run ends among them, the lines that were answered are in the script, and Ended.
        """
        channel = self.channel
        start = channel.size()
        told: list[str] = []
        for text, count in batches(lines):
            channel.enter()
            try:
                answers = channel.exchange(text, count)
            except Ended as ended:
                self._record_some(text, ended.answers)
                raise
            self._record(text, b"\n".join(answers) + b"\n", count)
            self._start = start
            channel.leave()
            told += [it.decode("ascii") for it in answers]
        return told

    def _record(self, text: bytes, answers: bytes, count: int) -> None:
        script, told, lines = self._whole
        self._script[script:] = text
        self._answers[told:] = answers
        # one assignment, so that an interrupt finds both longer or neither
        self._whole = len(self._script), len(self._answers), lines + count

    def _record_some(self, text: bytes, answers: tuple[str, ...]) -> None:
        lines = text.splitlines(keepends=True)[: len(answers)]
        told = "".join(answer + "\n" for answer in answers)
        self._record(b"".join(lines), told.encode("ascii", "replace"), len(lines))

    def ask(self, line: str, address: int = 0) -> list[str]:
        """The words behind `ok`; `none` and `pending` with that word first; others raise."""
        word, *words = self.send(line).split(" ")
        if word == "ok":
            return words
        if word in ("none", "pending"):
            return [word, *words]
        if word == "error":
            raise Refused(int(words[0]), line)
        if word == "raise":
            raise Raised(int(words[0], 16), line, address)
        raise {"busy": Busy, "full": Full, "fault": DeviceFault}[word](line)

    @property
    def lines(self) -> int:
        """How many lines the script has so far."""
        return self._whole[2]

    @property
    def script(self) -> str:
        """The lines so far: they make the same machine again."""
        return self._script[: self._whole[0]].decode("ascii")

    @property
    def answers(self) -> list[str]:
        return self._answers[: self._whole[1]].decode("ascii").splitlines()

    @property
    def moves(self) -> list[str]:
        """The moves of the last call: of one line, or of all lines of a `run`."""
        text = self.channel.read_moves(self._start, self.channel.size()).decode("ascii")
        return [move for move in text.splitlines() if not move.startswith("at ")]

    @property
    def log(self) -> str:
        """The log so far, as `mmlog check` takes it."""
        return self.channel.read_moves(0, self.channel.size()).decode("ascii")

    def save(self, folder: str | os.PathLike[str]) -> None:
        """Writes script.mm, answers.out and moves.log: `mmsim run` makes the others of the first.

        After a run that ended in the middle the log may have moves of a line not in the script.
        """
        to = Path(folder)
        to.mkdir(parents=True, exist_ok=True)
        script, answers, _ = self._whole
        (to / "script.mm").write_bytes(self._script[:script])
        (to / "answers.out").write_bytes(self._answers[:answers])
        with open(f"/proc/self/fd/{self.channel.moves}", "rb") as log:  # a position of its own
            with open(to / "moves.log", "wb") as copy:
                shutil.copyfileobj(log, copy)

    # the whole machine

    def process(self, minimum: int = 0, maximum: int = 65536) -> Process:
        """CreateProcess, with the limits of its working set in pages."""
        return Process(self, int(self.ask(f"process {minimum} {maximum}")[0]))

    def file(self, name: str, pages: int, byte: int = 0) -> None:
        """Makes a file whose page i holds the byte (byte + i) mod 256 throughout."""
        self.ask(f"file {name} {pages} {byte}")

    def charge(self) -> Charge:
        return Charge(*map(int, self.ask("charge")))

    def counts(self) -> Counts:
        return Counts(*map(int, self.ask("counts")))

    def writer(self, count: int = 1) -> None:
        """The modified page writer starts at most so many writes."""
        self.ask(f"writer {count}")

    def zeroer(self, count: int = 1) -> None:
        """The zero page thread clears the first so many free page frames."""
        self.ask(f"zeroer {count}")

    def io(self, which: int = 1) -> bool:
        """Ends a device request, counted from the oldest; whether there was one.

        Raises DeviceFault where its device call failed.
        """
        return self.ask(f"io {which}") != ["none"]

    def fail(self, device: str, direction: str, first: int, count: int = 1) -> None:
        """Of the calls of `paging` or `file`, `read` or `write`, these will fail, counted from 1."""
        self.ask(f"fail {device} {direction} {first} {count}")

    def grow(self, slots: int) -> int:
        """The paging file grows by so many slots; the new commit limit."""
        self.limit = int(self.ask(f"grow {slots}")[0])
        return self.limit

    def thread(self, tid: int) -> Thread:
        """A thread by its number, 0 to 255. Its accesses are begun in a process."""
        return Thread(self, tid)


class Process:
    """A process of a machine. Every call is refused with ERROR_INVALID_HANDLE after its exit."""

    def __init__(self, machine: Machine, pid: int) -> None:
        self.machine = machine
        self.pid = pid

    def __repr__(self) -> str:
        return f"Process({self.pid})"

    # private memory

    def alloc(
        self,
        address: int = 0,
        size: int = PAGE_SIZE,
        type: int = MEM.COMMIT | MEM.RESERVE,
        protection: int = PAGE.READWRITE,
    ) -> int:
        """VirtualAlloc; the base address."""
        numbers = f"0x{address:X} 0x{size:X} 0x{type:X} 0x{protection:X}"
        return int(self.machine.ask(f"alloc {self.pid} {numbers}", address)[0], 16)

    def free(self, address: int, size: int = 0, type: int = MEM.RELEASE) -> None:
        """VirtualFree."""
        self.machine.ask(f"free {self.pid} 0x{address:X} 0x{size:X} 0x{type:X}", address)

    def protect(self, address: int, size: int, protection: int) -> PAGE:
        """VirtualProtect; the first page's protection before."""
        line = f"protect {self.pid} 0x{address:X} 0x{size:X} 0x{protection:X}"
        return PAGE(int(self.machine.ask(line, address)[0], 16))

    def query(self, address: int) -> Region:
        """VirtualQuery."""
        return Region.of(self.machine.ask(f"query {self.pid} 0x{address:X}", address))

    def regions(self, free: bool = False) -> Iterator[Region]:
        """The user address space, walked by VirtualQuery; with `free` also what is free."""
        address = FIRST_USER
        while address < USER_END:
            region = self.query(address)
            if free or region.state != MEM.FREE:
                yield region
            address = region.end

    # sections

    def create(
        self, size: int, flags: int = PAGE.READWRITE | SEC.COMMIT, name: str = "-"
    ) -> Handle:
        """CreateFileMapping of the paging file."""
        return Handle.of(self, f"create {self.pid} 0x{size:X} 0x{flags:X} {name}")

    def create_file(self, file: str, flags: int = PAGE.READWRITE, name: str = "-") -> Handle:
        """CreateFileMapping of a file of the machine."""
        return Handle.of(self, f"createfile {self.pid} {file} 0x{flags:X} {name}")

    def open(self, name: str) -> Handle:
        """OpenFileMapping."""
        return Handle.of(self, f"open {self.pid} {name}")

    def unmap(self, address: int) -> None:
        """UnmapViewOfFile."""
        self.machine.ask(f"unmap {self.pid} 0x{address:X}", address)

    def flush(self, address: int, size: int = 0) -> None:
        """FlushViewOfFile; DeviceFault where a write failed."""
        self.machine.ask(f"flush {self.pid} 0x{address:X} 0x{size:X}", address)

    # accesses

    def read(self, address: int, length: int = 1) -> bytes:
        line = f"read {self.pid} 0x{address:X} {length}"
        return bytes.fromhex(self.machine.ask(line, address)[0])

    def write(self, address: int, data: bytes) -> None:
        self.machine.ask(f"write {self.pid} 0x{address:X} {data.hex().upper()}", address)

    def execute(self, address: int) -> None:
        self.machine.ask(f"exec {self.pid} 0x{address:X}", address)

    # working set

    def trim(self, count: int) -> None:
        """At most so many pages leave the working set, the oldest first, down to its minimum."""
        self.machine.ask(f"trim {self.pid} {count}")

    def age(self) -> None:
        """Each page of the working set is older by one, up to 7."""
        self.machine.ask(f"age {self.pid}")

    # write watch

    def watch(self, address: int, size: int, count: int = 16, reset: bool = False) -> list[int]:
        """GetWriteWatch; the addresses of at most `count` (1 to 16) written pages."""
        line = f"watch {self.pid} {reset:d} 0x{address:X} 0x{size:X} {count}"
        return [int(word, 16) for word in self.machine.ask(line, address)[1:]]

    def reset_watch(self, address: int, size: int) -> None:
        """ResetWriteWatch."""
        self.machine.ask(f"resetwatch {self.pid} 0x{address:X} 0x{size:X}", address)

    def exit(self) -> None:
        """ExitProcess."""
        self.machine.ask(f"exit {self.pid}")

    def thread(self, tid: int) -> Thread:
        """A thread whose accesses are in this process."""
        return Thread(self.machine, tid, self)


class Handle:
    """A handle of a process to a section."""

    def __init__(self, process: Process, value: int, existed: bool) -> None:
        self.process = process
        self.value = value
        self.existed = existed  # ERROR_ALREADY_EXISTS: it is that of a section with this name

    def __repr__(self) -> str:
        return f"Handle({self.value} of process {self.process.pid})"

    @classmethod
    def of(cls, process: Process, line: str) -> Handle:
        value, *code = process.machine.ask(line)
        return cls(process, int(value), code == ["183"])

    def map(
        self,
        access: int = FILE_MAP.WRITE,
        offset: int = 0,
        length: int = 0,
        address: int = 0,
    ) -> int:
        """MapViewOfFileEx; the base address."""
        numbers = f"0x{access:X} 0x{offset:X} 0x{length:X} 0x{address:X}"
        line = f"map {self.process.pid} {self.value} {numbers}"
        return int(self.process.machine.ask(line, address)[0], 16)

    def close(self) -> None:
        """CloseHandle."""
        self.process.machine.ask(f"close {self.process.pid} {self.value}")


class Pending:
    """An access that a thread keeps, since its page cannot be had at once."""

    def __init__(self, thread: Thread, why: str, address: int) -> None:
        self.thread = thread
        self.why = why  # read, frame, full
        self.address = address

    def __repr__(self) -> str:
        return f"Pending({self.why!r} of thread {self.thread.tid} at 0x{self.address:08X})"

    def resume(self) -> bytes | Pending | None:
        """Decides it anew: what it read, None for a write, or Pending again."""
        return self.thread.step(f"resume {self.thread.tid}", self.address)


class Thread:
    """A thread by its number. It keeps at most one access, and has at most one stack."""

    def __init__(self, machine: Machine, tid: int, process: Process | None = None) -> None:
        self.machine = machine
        self.tid = tid
        self.process = process

    def __repr__(self) -> str:
        return f"Thread({self.tid})"

    def step(self, line: str, address: int) -> bytes | Pending | None:
        words = self.machine.ask(line, address)
        if words[:1] == ["pending"]:
            return Pending(self, words[1], address)
        return None if not words or words == ["none"] else bytes.fromhex(words[0])

    def read(self, address: int, length: int = 1) -> bytes | Pending | None:
        """Begins a read: its bytes, or Pending. Busy where an access is kept."""
        return self.step(f"begin {self.tid} {self._pid()} read 0x{address:X} {length}", address)

    def write(self, address: int, data: bytes) -> Pending | None:
        """Begins a write: None where it is done, or Pending. Busy where an access is kept."""
        words = f"begin {self.tid} {self._pid()} write 0x{address:X} {data.hex().upper()}"
        pending = self.step(words, address)
        assert not isinstance(pending, bytes)
        return pending

    def resume(self) -> bytes | Pending | None:
        """Decides the kept access anew; None also where none is kept."""
        return self.step(f"resume {self.tid}", 0)

    def stack(self, reserve: int = 0x100000, commit: int = PAGE_SIZE) -> Stack:
        """Makes the thread's stack; Busy where it has one."""
        words = self.machine.ask(f"stack {self.tid} {self._pid()} 0x{reserve:X} 0x{commit:X}")
        return Stack(*(int(word, 16) for word in words))

    def probe(self, address: int) -> int | None:
        """Touches the stack as __chkstk does: the guard page's address, None without a stack."""
        words = self.machine.ask(f"probe {self.tid} 0x{address:X}", address)
        return None if words == ["none"] else int(words[0], 16)

    def _pid(self) -> int:
        if self.process is None:
            raise ValueError(f"thread {self.tid} is of no process: take it by Process.thread")
        return self.process.pid
