"""Page faults that Linux counted: `perf script` of page-fault events. They are samples."""

from __future__ import annotations

import re

from .base import EXECUTE, READ, WRITE, LineByLine, Wrong

WROTE, FETCHED = 2, 16  # bits of the processor's error code


class Perf(LineByLine):
    """Only references that faulted are told, so LRU and its like cannot be computed from them.

    `perf record -d -c 1 -e page-faults` and `perf script -F comm,pid,tid,time,event,addr` give no
    kind: each is a read. The event exceptions:page_fault_user with `-F .. ,trace` tells it.
    """

    name = "perf"
    about = "`perf script` of page-fault events: samples"
    samples = True
    LINE = re.compile(
        rb".*?\s([0-9]+)/[0-9]+\s+(?:\[[0-9]+\]\s+)?(?:[0-9]+\.[0-9]+:\s+)?(?:[0-9]+\s+)?"
        rb"(?:(?:page|minor|major)-faults(?::[a-zA-Z]+)?:\s+(?:0x)?([0-9a-f]{1,16})(?:\s.*)?"
        rb"|exceptions:page_fault_(?:user|kernel):\s+address=(?:0x)?([0-9a-f]{1,16})\S*"
        rb"\s.*error_code=(0x[0-9a-f]+|[0-9]+).*)"
    )
    TIME = re.compile(rb"[0-9]+\.[0-9]+: ")

    def essence(self, line: bytes) -> bytes:
        return self.TIME.sub(b"", line, 1)

    def line(self, line: bytes) -> tuple[int, ...]:
        found = self.LINE.fullmatch(line)
        if not found:
            if not line.strip() or line.startswith(b"#"):
                return ()
            raise Wrong("it is no `COMMAND PID/TID TIME: page-faults: ADDRESS` of perf script")
        process = self.pages.process(found[1])
        code = int(found[4], 0) if found[4] else 0
        kind = EXECUTE if code & FETCHED else WRITE if code & WROTE else READ
        return self.pages.access(kind, process, int(found[2] or found[3], 16))
