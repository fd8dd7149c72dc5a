#!/usr/bin/env python3
"""What tools/try shows: each written line beside its answer, or what mmnames says of a mistake.

tests/mistakes/tries.txt has faulty lines, each behind two good ones, with a part of the reason that
tools/try prints.
"""

from __future__ import annotations

import os
import re
import sys
import tempfile
from pathlib import Path

from common import Check, begin, run, table

MACHINE = b"machine 6 0 1 0\nprocess 0 8\n"
# What a text file cannot hold: other encodings, a line that is too long.
OTHER = [
    (MACHINE + b"x" * 300 + b"\n", "no such word"),
    (b"process 0 8\n", "a script begins with 'machine'"),
    (b"", "a script begins with 'machine'"),
    (MACHINE.decode().encode("utf-16"), "UTF-16"),
]
WRITTEN = b"""# two lines as people write them
machine 6 0 1 0
process(0, 8)  # one process
let heap = 64K
VirtualAlloc(1, heap, 4K, MEM_COMMIT | MEM_RESERVE, PAGE_READWRITE)
"""
SHOWN = [
    "# two lines as people write them",
    "machine 6 0 1 0                                                      ok 2",
    "process(0, 8)                                                        ok 1",
    "let heap = 64K",
    "VirtualAlloc(1, heap, 4K, MEM_COMMIT | MEM_RESERVE, PAGE_READWRITE)  ok 0x00010000",
]


def scripts() -> list[tuple[bytes, str]]:
    """Each faulty script, and a part of what is said of it."""
    lines = [
        (MACHINE + line.replace("\\t", "\t").encode() + b"\n", reason)
        for reason, line in table("tests/mistakes/tries.txt")
    ]
    return lines + OTHER


def words_of(check: Check, folder: str) -> list[str]:
    """The words of a run on the programs that are checked."""
    programs = f"{folder}/programs"
    os.makedirs(programs, exist_ok=True)
    for name in ("mmsim", "mmnames"):
        if not os.path.exists(f"{programs}/{name}"):
            os.symlink(os.path.abspath(check.programs[name]), f"{programs}/{name}")
    return [sys.executable, "tools/try", "--bin", programs, "--into", folder]


def compare_reasons(check: Check) -> None:
    """What tools/try says of each faulty script: the status is 1, and nothing is run."""
    with tempfile.TemporaryDirectory(prefix="tries-") as folder:
        for at, (script, reason) in enumerate(scripts()):
            path = Path(folder, f"{at:02}.txt")
            path.write_bytes(script)
            ended = run([*words_of(check, folder), str(path)])
            said = ended.err.decode("latin-1").replace("\n", " ")
            what = f"tools/try of {script[-40:]!r}"
            check.same(f"{what}, status", ended.status, 1)
            check.holds(what, reason in said, f"says {said[:200]!r}, and not '{reason}'")


def compare_shown(check: Check) -> None:
    """Written lines beside their answers."""
    with tempfile.TemporaryDirectory(prefix="tries-") as folder:
        path = Path(folder, "written.txt")
        path.write_bytes(WRITTEN)
        ended = run([*words_of(check, folder), str(path)])
        check.same("a written script, status", ended.status, 0)
        check.same("a written script", ended.out.decode().splitlines(), SHOWN)
        plain = re.sub(r"\s+", " ", Path(folder, "written.mm").read_text())
        wanted = "machine 6 0 1 0 process 0 8 alloc 1 0x10000 0x1000 0x3000 0x4 "
        check.same("its plain script", plain, wanted)


def main() -> int:
    check = begin(__doc__, ("mmsim", "mmnames"))
    compare_reasons(check)
    compare_shown(check)
    return check.end()


if __name__ == "__main__":
    sys.exit(main())
