"""Talking to a running `mmsim run`: lines go in, answers and moves come out.

Moves go to a file and not through a pipe. mmsim writes them before the answer, so when the answer
is here they are all in the file, however many a line makes, and mmsim never waits for a reader. At
most BATCH bytes of lines go in at a time, and all their answers are taken before the next. No
answer has more than ten times the bytes of its line, so neither pipe fills.
"""

from __future__ import annotations

import os
import subprocess
import tempfile
import weakref
from collections.abc import Iterable, Iterator
from typing import IO

from . import programs
from .errors import Ended

BATCH = 4096  # what mmsim reads at a time, and a pipe takes whole
PIPE = 65536
FEW_MOVES = 8192
LAST_TEXTS = (b"bad line ", b"too long line ", b"usage: ")
INTERRUPTED = (
    "the run is over: it was interrupted between a line and its answer (or asked by two threads at"
    " once). The script so far makes the same machine again"
)
FORKED = "the run belongs to the process that began it, and this is a fork of that one"
CLOSED = "the run was closed"
OPEN: weakref.WeakSet[Channel] = weakref.WeakSet()


class Channel:
    """A running `mmsim run`.

    `moves` is where the log is written, a file of its own that is gone with the channel by default;
    `program` is mmsim, found by melzudek.programs by default.
    """

    def __init__(self, moves: IO[bytes] | None = None, program: str | None = None) -> None:
        command = [program or programs.find("mmsim"), "run"]
        self.log = moves or tempfile.TemporaryFile()
        self.moves = self.log.fileno()
        # a session of its own: Ctrl-C at a terminal is for this program, not for the simulator
        self.program = subprocess.Popen(
            command,
            stdin=subprocess.PIPE,
            stdout=subprocess.PIPE,
            stderr=self.log,
            bufsize=0,
            start_new_session=True,
        )
        assert self.program.stdin and self.program.stdout
        self.input = self.program.stdin.fileno()
        self.output = self.program.stdout.fileno()
        self.failure: Ended | None = None
        OPEN.add(self)

    def ask(self, text: bytes, count: int) -> list[bytes]:
        """The answers to `count` whole lines of at most BATCH bytes; Ended where the run is over.

        An interrupt in here would leave the next line with this line's answer, so it ends the run.
        """
        self.enter()
        answers = self.exchange(text, count)
        self.leave()
        return answers

    def enter(self) -> None:
        """From here to `leave` an exception of any kind ends the run."""
        if self.failure:
            raise self.failure
        self.failure = Ended(None, INTERRUPTED)

    def leave(self) -> None:
        self.failure = None

    def exchange(self, text: bytes, count: int) -> list[bytes]:
        """`ask` for one who has entered, and has to do more before they leave."""
        try:
            while text:
                text = text[os.write(self.input, text) :]
        except BrokenPipeError:
            pass  # its last text tells why
        got = os.read(self.output, PIPE)
        while got.count(b"\n") < count:
            piece = os.read(self.output, PIPE)
            if not piece:
                self.end(got)
            got += piece
        answers = got.split(b"\n")
        answers.pop()
        if answers[-1].startswith(LAST_TEXTS):
            self.end(got)
        return answers

    def end(self, got: bytes) -> None:
        """Raises Ended for a program that said no more than this."""
        status = self.program.wait()
        answers = [line.decode("ascii", "replace") for line in got.splitlines()]
        last = answers.pop() if answers and got.splitlines()[-1].startswith(LAST_TEXTS) else ""
        self.failure = Ended(status, last, tuple(answers))
        raise self.failure

    def size(self) -> int:
        """How many bytes of moves there are. Never by seeking: mmsim shares the position."""
        return os.fstat(self.moves).st_size

    def read_moves(self, start: int, end: int) -> bytes:
        """The bytes of the log from one size to another."""
        parts = []
        while start < end:
            part = os.pread(self.moves, min(end - start, 1 << 30), start)
            if not part:
                break
            parts.append(part)
            start += len(part)
        return b"".join(parts)

    def new_moves(self, start: int) -> bytes:
        """The bytes of the log from there to its end."""
        moves = os.pread(self.moves, FEW_MOVES, start)
        if len(moves) == FEW_MOVES:
            moves += self.read_moves(start + FEW_MOVES, self.size())
        return moves

    def close(self) -> int:
        """Ends the run as its script's end does, and gives mmsim's status. The log stays."""
        assert self.program.stdin and self.program.stdout
        if not self.program.stdin.closed:
            self.program.stdin.close()
            while os.read(self.output, PIPE):
                pass
            self.program.stdout.close()
        if self.failure is None:
            self.failure = Ended(None, CLOSED)
        return self.program.wait()

    def forsake(self) -> None:
        """In a fork: lets the pipes go, so that mmsim sees the end of its script from its owner."""
        self.failure = Ended(None, FORKED)
        assert self.program.stdin and self.program.stdout
        self.program.stdin.close()
        self.program.stdout.close()
        self.program.returncode = 0  # not this process's child: nothing waits for it


def forsake_all() -> None:
    for channel in list(OPEN):
        channel.forsake()


os.register_at_fork(after_in_child=forsake_all)


def batches(lines: Iterable[str]) -> Iterator[tuple[bytes, int]]:
    """Lines as texts of at most BATCH bytes, each with the number of its lines.

    Raises ValueError where one holds a line feed or is not ASCII: that is not one line of a script.
    """
    text: list[bytes] = []
    size = 0
    for line in lines:
        encoded = encode(line)
        if size + len(encoded) > BATCH and text:
            yield b"".join(text), len(text)
            text, size = [], 0
        text.append(encoded)
        size += len(encoded)
    if text:
        yield b"".join(text), len(text)


def encode(line: str) -> bytes:
    """One line with its line feed."""
    if "\n" in line or not line.isascii():
        raise ValueError(f"not one line of a script: {line[:60]!r}")
    return line.encode("ascii") + b"\n"
