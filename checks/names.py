#!/usr/bin/env python3
"""Compares `mmnames` with what it has to say.

    tests/mistakes/mistakes.txt   a newcomer's mistakes: what is told of each, the status, and that
                                  nothing is written
    examples/*.mm, tests/rows     each script, written the friendly way, comes out as itself, and
                                  `mmsim` answers it as it did
    tests/rows/lines.txt          each line comes out as the shortest line that says the same
    examples/lab.txt              the lab: `mmsim` answers examples/lab.answers
    drawn lines                   10,000 lines spelled as `mmsim` prints events pass unchanged
    forms                         `lines`, and `talk`, which answers at once
"""

from __future__ import annotations

import random
import re
import subprocess
import sys
from typing import Callable

from common import Check, begin, read, rows_of, table, text

CALLS = {
    "alloc": "VirtualAlloc", "free": "VirtualFree", "protect": "VirtualProtect",
    "query": "VirtualQuery", "create": "CreateFileMapping", "open": "OpenFileMapping",
    "close": "CloseHandle", "map": "MapViewOfFile", "unmap": "UnmapViewOfFile",
    "flush": "FlushViewOfFile", "watch": "GetWriteWatch", "resetwatch": "ResetWriteWatch",
    "exit": "ExitProcess",
}  # fmt: skip
PROT = {
    0x01: "PAGE_NOACCESS", 0x02: "PAGE_READONLY", 0x04: "PAGE_READWRITE", 0x08: "PAGE_WRITECOPY",
    0x10: "PAGE_EXECUTE", 0x20: "PAGE_EXECUTE_READ", 0x40: "PAGE_EXECUTE_READWRITE",
    0x80: "PAGE_EXECUTE_WRITECOPY", 0x100: "PAGE_GUARD", 0x4000000: "SEC_RESERVE",
    0x8000000: "SEC_COMMIT",
}  # fmt: skip
MEM = {
    0x1000: "MEM_COMMIT", 0x2000: "MEM_RESERVE", 0x4000: "MEM_DECOMMIT", 0x8000: "MEM_RELEASE",
    0x200000: "MEM_WRITE_WATCH",
}  # fmt: skip
VIEW = {
    1: "FILE_MAP_COPY", 2: "FILE_MAP_WRITE", 4: "FILE_MAP_READ", 0xF001F: "FILE_MAP_ALL_ACCESS",
}  # fmt: skip


def union(number: int, names: dict[int, str]) -> str:
    """A number as a union of Windows' names, where it is one."""
    if number in names:
        return names[number]
    parts = [name for bit, name in sorted(names.items()) if number & bit]
    if sum(bit for bit in names if number & bit) == number and parts:
        return " | ".join(parts)
    return hex(number)


def size(number: int) -> str:
    """A number as a person may write a size: with M or K, or as a sum."""
    if number and number % 2**20 == 0:
        return f"{number >> 20}M"
    if number % 1024 == 0 and number:
        return f"{number >> 10}K"
    return f"{number - number % 16:#x}+{number % 16}" if number % 16 else hex(number)


def protection(number: int) -> str:
    return union(number, PROT)


def memory(number: int) -> str:
    return union(number, MEM)


def access(number: int) -> str:
    return union(number, VIEW)


# How the numbers of a line are spelled, by their places among its words.
Speller = Callable[[int], str]
SPELLED: dict[str, dict[int, Speller]] = {
    "alloc": {2: size, 3: size, 4: memory, 5: protection},
    "free": {2: size, 3: size, 4: memory},
    "protect": {2: size, 3: size, 4: protection},
    "create": {2: size, 3: protection},
    "createfile": {3: protection},
    "map": {3: access, 4: size, 5: size, 6: size},
}


def friendly(line: str) -> str:
    """Another way to write a plain line."""
    words = line.split(" ")
    keyword = words[0]
    for at, spelled in SPELLED.get(keyword, {}).items():
        words[at] = spelled(int(words[at], 0) if words[at].startswith("0x") else int(words[at]))
    is_text = keyword == "write" and re.fullmatch("([4-7][0-9A-Fa-f])+", words[3])
    if is_text and "7f" not in words[3].lower():
        words[3] = '"' + bytes.fromhex(words[3]).decode() + '"'
    call = CALLS.get(keyword, keyword.upper())
    if keyword in CALLS:
        return f"  {call}( {', '.join(words[1:])} )\t# {line}\r"
    return f"{call}\t {'   '.join(words[1:])} # {line}"


def plain(check: Check, written: bytes) -> tuple[int, bytes]:
    """What a written text comes out as: the status, and the script or what is told."""
    ended = check.run("mmnames", [], written)
    return ended.status, ended.err if ended.status else ended.out


def compare_mistakes(check: Check) -> None:
    """Each mistake: what is told of it, and that nothing is written."""
    for block in text("tests/mistakes/mistakes.txt").split("\n= ")[1:]:
        title, rest = block.split("\n", 1)
        written, told = rest.split("--\n", 1)
        status = 0 if title.endswith("/ 0") else 3
        ended = check.run("mmnames", [], written.encode())
        check.same(f"{title}: what is told", ended.err.decode(), told.strip("\n") + "\n")
        check.same(f"{title}: status", ended.status, status)
        if status:
            check.same(f"{title}: what is written", ended.out, b"")


def compare_scripts(check: Check) -> None:
    """Scripts that are written the friendly way."""
    for row in rows_of("examples", "tests/rows"):
        is_long = len(row.script) > 200000 or max(map(len, row.script.split(b"\n"))) > 250
        if row.status == 3 or is_long:
            continue
        wanted = plain(check, row.script)
        check.same(f"{row.name}: status", wanted[0], 0)
        lines = row.script.decode().replace("\r", "").split("\n")[:-1]
        body = "\n".join(friendly(line) for line in lines)
        written = "\ufeff# written by hand\n\n" + body
        check.same(f"{row.name}, the friendly way", plain(check, written.encode()), wanted)
        ended = check.run("mmsim", ["run"], wanted[1])
        check.same(f"{row.name}: answers", ended[:2], (row.status, row.answers))


def compare_lines(check: Check) -> None:
    """Each form of line, and the shortest line that says the same."""
    for fields in table("tests/rows/lines.txt"):
        line, shortest = fields[0].replace("\\r", "\r"), fields[1]
        first = "" if line.startswith("machine") else "machine 6 0 1 0\n"
        got = plain(check, f"{first}{line}\n".encode())
        check.same(f"{fields[0]}", got, (0, f"{first}{shortest}\n".encode()))


class Drawn:
    """Lines spelled as events are printed, from a seed."""

    def __init__(self, seed: int):
        self.draw = random.Random(seed)

    def number(self) -> str:
        draw = self.draw
        return str(draw.choice([0, 1, 4096, 65536, draw.randrange(2**32), 2**32 - 1]))

    def hexadecimal(self) -> str:
        return f"0x{int(self.number()):X}"

    def decimal(self, least: int, most: int) -> str:
        return str(self.draw.choice([least, most, self.draw.randint(least, most)]))

    def name(self) -> str:
        rest = "".join(self.draw.choice("abc019_.-XYZ") for _ in range(self.draw.randrange(32)))
        return self.draw.choice("abcXYZ") + rest

    def named(self) -> str:
        return self.draw.choice(["-", self.name(), "PAGE_GUARD", "read"])

    def access(self, way: str) -> str:
        """An access within a page."""
        address = int(self.number())
        room = min(64, 4096 - address % 4096)
        count = self.draw.randint(1, room)
        if way == "read":
            return f"0x{address:X} {count}"
        return f"0x{address:X} " + "".join(f"{self.draw.randrange(256):02X}" for _ in range(count))

    def line(self) -> str:
        """A line of some form, each field drawn within its range."""
        n, h, d, pid = self.number, self.hexadecimal, self.decimal, self.decimal(0, 255)
        low, draw = self.draw.randint(1, 65536), self.draw
        device = f"{draw.choice(['paging', 'file'])} {draw.choice(['read', 'write'])}"
        return draw.choice([
            f"process {draw.randint(0, low)} {low}", f"exit {pid}",
            f"file {self.name()} {d(1, 65536)} {d(0, 255)}",
            f"alloc {pid} {h()} {h()} {h()} {h()}", f"free {pid} {h()} {h()} {h()}",
            f"protect {pid} {h()} {h()} {h()}", f"query {pid} {h()}",
            f"create {pid} {h()} {h()} {self.named()}",
            f"createfile {pid} {self.name()} {h()} {self.named()}", f"open {pid} {self.name()}",
            f"close {pid} {n()}", f"map {pid} {n()} {h()} {h()} {h()} {h()}",
            f"unmap {pid} {h()}", f"flush {pid} {h()} {h()}", f"read {pid} {self.access('read')}",
            f"write {pid} {self.access('write')}", f"exec {pid} {h()}",
            f"begin {d(0, 255)} {pid} read {self.access('read')}",
            f"begin {d(0, 255)} {pid} write {self.access('write')}", f"resume {d(0, 255)}",
            f"io {d(1, 64)}", f"trim {pid} {d(0, 1000000)}", f"age {pid}",
            f"writer {d(0, 1000000)}", f"zeroer {d(0, 1000000)}",
            f"fail {device} {d(1, 1000000)} {d(1, 1000000)}", "charge", "counts",
            f"grow {d(1, 262144)}", f"watch {pid} {d(0, 1)} {h()} {h()} {d(1, 16)}",
            f"resetwatch {pid} {h()} {h()}", f"stack {d(0, 255)} {pid} {h()} {h()}",
            f"probe {d(0, 255)} {h()}",
        ])  # fmt: skip


def compare_drawn(check: Check) -> None:
    """Lines as they are printed mean themselves."""
    drawn = Drawn(44)
    lines = ["machine 64 64 4 0"] + [drawn.line() for _ in range(10000)]
    script = "".join(line + "\n" for line in lines).encode()
    ended = check.run("mmnames", [], script)
    check.same("drawn lines: status", ended.status, 0)
    check.same("drawn lines", ended.out, script)


def compare_forms(check: Check) -> None:
    """`lines`, `talk`, and that `talk` answers each line before the next comes."""
    written = b"# one\nmachine 64 64 4 0\n\nprocess 0 32\n"
    script = b"machine 64 64 4 0\nprocess 0 32\n"
    told = b"# 1: line 2\n# 2: line 4\n"
    check.same("lines", check.run("mmnames", ["lines"], written), (0, script, told))
    ended = check.run("mmnames", ["lines"], b"machin\n")
    check.same("lines, where one means nothing", ended[:2], (3, b""))
    first = b"proces 0 32\nprocess 0 32\nMACHINE 64 64 4 0\nproces 0 32\n"
    talked = first + b"process 0 32\nmachine 64 64 4 0\ncharge"
    reasons = [
        "line 1 column 1: no such word 'proces'; is 'process' meant?",
        "line 2: a script begins with 'machine'",
        "line 4 column 1: no such word 'proces'; is 'process' meant?",
        "line 6: a second 'machine'; a script has one, in its first line",
    ]
    wanted = (0, script + b"charge\n", "".join(it + "\n" for it in reasons).encode())
    check.same("talk", check.run("mmnames", ["talk"], talked), wanted)
    words = [check.programs["mmnames"], "talk"]
    pipe = subprocess.PIPE
    with subprocess.Popen(words, stdin=pipe, stdout=pipe, stderr=pipe) as talk:
        assert talk.stdin and talk.stdout
        for line in (b"Machine 64 64 4 0\n", b"process 0 16+16\n"):
            talk.stdin.write(line)
            talk.stdin.flush()
            wanted_line = line.lower().replace(b"16+16", b"32")
            check.same("talk answers at once", talk.stdout.readline(), wanted_line)
        talk.stdin.close()
        check.same("talk ends", talk.wait(60), 0)


def main() -> int:
    check = begin(__doc__, ("mmnames", "mmsim"))
    compare_mistakes(check)
    compare_scripts(check)
    compare_lines(check)
    lab = plain(check, read("examples/lab.txt"))
    check.same("the lab: status", lab[0], 0)
    answers = check.run("mmsim", ["run"], lab[1]).out
    check.same("the lab: answers", answers, read("examples/lab.answers"))
    compare_drawn(check)
    compare_forms(check)
    return check.end()


if __name__ == "__main__":
    sys.exit(main())
