"""DynamoRIO's memtrace in its text view: `drrun -t drmemtrace -simulator_type view`."""

from __future__ import annotations

import re

from .base import EXECUTE, READ, WRITE, LineByLine, Wrong


class Memtrace(LineByLine):
    """The threads of a process share its pages; a workload, written `W` and its number before the
    thread, is a process of its own.

    A line is `RECORD INSTRUCTION: THREAD read 8 byte(s) @ 0x7f..`; markers, prefetches and the
    view's own head tell of no reference.
    """

    name = "memtrace"
    about = "the text view of DynamoRIO's drmemtrace"
    LINE = re.compile(
        rb"(?:\s*[0-9]+\s+[0-9]+: )?\s*(?:(W[0-9]+)\.)?T?[0-9]+\s+"
        rb"([a-z][a-z0-9_-]*)\s+([0-9]{1,7}) byte\(s\) @ 0x([0-9a-fA-F]{1,16})(?:\s.*)?"
    )
    MARKER = re.compile(rb"(?:\s*[0-9]+\s+[0-9]+: )?\s*(?:W[0-9]+\.)?T?[0-9]+\s+<.*>")
    HEAD = (b"Output format:", b"<--record", b"----", b"View tool results:", b"====")
    KINDS = {b"read": READ, b"write": WRITE, b"ifetch": EXECUTE}

    def essence(self, line: bytes) -> bytes:
        return line.partition(b": ")[2] if line[:1] == b" " else line

    def line(self, line: bytes) -> tuple[int, ...]:
        found = self.LINE.fullmatch(line)
        if found:
            kind = self.KINDS.get(found[2])
            if kind is None:
                return ()
            process = self.pages.process(found[1] or b"program")
            return self.pages.access(kind, process, int(found[4], 16), int(found[3]))
        if not line.strip() or self.MARKER.fullmatch(line) or line.startswith(self.HEAD):
            return ()
        if re.fullmatch(rb"\s*[0-9]+ : total (?:disassembled )?instructions", line):
            return ()
        raise Wrong("it is no `RECORD INSTRUCTION: THREAD read|write|ifetch N byte(s) @ 0xADDRESS`")
