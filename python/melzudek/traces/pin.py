"""What Pin's example `pinatrace` writes: `0xIP: R 0xADDRESS` and `0xIP: W 0xADDRESS`."""

from __future__ import annotations

import re

from .base import EXECUTE, READ, WRITE, LineByLine, Wrong


class Pin(LineByLine):
    """One process. A line is an instruction fetch and an access of one byte."""

    name = "pin"
    about = "what Pin's example pinatrace writes"
    LINE = re.compile(rb"0x([0-9a-fA-F]{1,16}): ([RW]) 0x([0-9a-fA-F]{1,16})")

    def line(self, line: bytes) -> tuple[int, ...]:
        found = self.LINE.fullmatch(line)
        if not found:
            if line.startswith(b"#"):
                return ()
            raise Wrong(
                "it is no `0xIP: R 0xADDRESS` nor `0xIP: W 0xADDRESS`, and has no `#` first"
            )
        process = self.pages.process(b"program")
        fetched = self.pages.access(EXECUTE, process, int(found[1], 16))
        kind = WRITE if found[2] == b"W" else READ
        return fetched + self.pages.access(kind, process, int(found[3], 16))
