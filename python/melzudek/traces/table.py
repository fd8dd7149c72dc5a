"""Traces in csv: lines `process,address,r|w|x[,bytes]`, or columns that the first line names."""

from __future__ import annotations

import csv
import re

import numpy as np

from .base import EXECUTE, READ, WRITE, Chunk, LineByLine, Pages, Wrong

NAMES = {
    "time": "time",
    "process": "process",
    "pid": "process",
    "address": "address",
    "access": "access",
    "kind": "access",
    "bytes": "bytes",
    "size": "bytes",
}
KINDS = {"r": READ, "w": WRITE, "x": EXECUTE}


class Csv(LineByLine):
    """Processes are numbered from 1 in the order of their first lines.

    An address is decimal, or hexadecimal with 0x. `FILE:OFFSET` is a byte of a file, which all
    processes that name it share. A column `time` has numbers that do not fall; columns of other
    names are passed over.
    """

    name = "csv"
    about = "columns process,address,r|w|x[,bytes], or as the first line names them"
    LINE = re.compile(
        rb"[^,]+,\s*(?:[^,]+:)?(?:0[xX][0-9a-fA-F]{1,16}|[0-9]{1,20}),\s*[rwxRWX]"
        rb"(?:,\s*[0-9]{1,7})?\s*|(?i:.*\baddress\b.*)"
    )
    ADDRESS = re.compile(r"(?:(.+):)?(?:0[xX]([0-9a-fA-F]{1,16})|([0-9]{1,20}))")

    def __init__(self, pages: Pages) -> None:
        super().__init__(pages)
        self.columns = {"process": 0, "address": 1, "access": 2, "bytes": 3}
        self.fewest, self.most = 3, 4
        self.time: int | None = None
        self.last = float("-inf")

    def chunk(self, lines: list[bytes]) -> Chunk:
        if self.lines == 0 and lines and b"address" in lines[0].lower():
            self.take_names(lines[0])
            self.known[self.essence(lines[0])] = ()
        if self.time is None:
            return super().chunk(lines)
        codes: list[int] = []
        times: list[float] = []
        for line in lines:
            found = self.known[self.essence(line)]
            if found:
                self.take_time(line)
                codes += found
                times += [self.last] * len(found)
        return Chunk(np.array(codes, np.int64), np.array(times, np.float64))

    def take_names(self, line: bytes) -> None:
        names = [it.strip().lower() for it in fields_of(line)]
        self.columns = {NAMES[it]: at for at, it in enumerate(names) if it in NAMES}
        if "access" not in self.columns:
            raise Wrong("it names a column `address` and none `access`")
        self.time = self.columns.get("time")
        self.fewest = self.most = len(names)

    def take_time(self, line: bytes) -> None:
        assert self.time is not None
        text = line.split(b",")[self.time].strip()
        try:
            time = float(text)
        except ValueError:
            raise self.forgotten(line, "its time is no number") from None
        if not self.last <= time < float("inf"):
            raise self.forgotten(line, "its time is before that of the line above")
        self.last = time

    def forgotten(self, line: bytes, why: str) -> Wrong:
        """Wrong, of a line that is not known any more, since its time is the reason."""
        del self.known[self.essence(line)]
        return Wrong(why)

    def essence(self, line: bytes) -> bytes:
        if self.time is None:
            return line
        fields = line.split(b",")
        if self.time < len(fields):
            fields[self.time] = b""
        return b",".join(fields)

    def line(self, line: bytes) -> tuple[int, ...]:
        fields = fields_of(line)
        if not self.fewest <= len(fields) <= self.most:
            wanted = "three or four" if self.fewest != self.most else str(self.most)
            raise Wrong(f"its fields are {len(fields)} and not {wanted}")
        values = {name: fields[at].strip() for name, at in self.columns.items() if at < len(fields)}
        if not values.get("process", "program"):
            raise Wrong("its process has no name")
        found = self.ADDRESS.fullmatch(values["address"])
        if not found:
            raise Wrong("its address is no number, with 0x if hexadecimal, nor `FILE:NUMBER`")
        kind = KINDS.get(values["access"].lower())
        if kind is None:
            raise Wrong("its access is none of r, w, x")
        size = values.get("bytes") or "1"
        if not (size.isdecimal() and size.isascii() and len(size) <= 7):
            raise Wrong("its number of bytes is no decimal number of 1 to 7 digits")
        address = int(found[2], 16) if found[2] else int(found[3])
        process = self.pages.process(values.get("process", "program").encode())
        file = self.pages.file(found[1].encode()) if found[1] else -1
        return self.pages.access(kind, process, address, int(size), file)


def fields_of(line: bytes) -> list[str]:
    try:
        return next(csv.reader([line.decode("utf-8").rstrip("\r")], skipinitialspace=True), [])
    except (UnicodeDecodeError, csv.Error) as error:
        raise Wrong(f"it is no line of csv ({error})") from None
