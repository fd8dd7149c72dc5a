#!/usr/bin/env python3
"""The words of the four programs: which are a form, with its status and text, and which are none.

Words that are no form are answered by the usage line (tests/rows/usage.txt) and status 2, and
nothing is read from standard input.
"""

from __future__ import annotations

import os
import subprocess
import sys
import tempfile
from typing import Optional, Sequence

from common import Check, Word, begin, table

# What is on standard input, and what a form answers then.
SCRIPT = b"machine 6 0 1 0\n"
CHECKED = b"yes\nmoves 0\nzero 0\nsoft 0\nhard 0\nsteals 0\nwrites 0\n"
LOG = b"at 1 machine 6 0 1 0\n"
COUNTED = (
    b"line,zeroed,free,standby,modified,active,transition,slots,requests,sets,charge,limit\n"
    b"1,0,6,0,0,0,0,0,0,,,\n"
)
FAULTS = b"process,page,hard,standby,modified,writing,active,demand-zero,copy,collided\n"

# Forms that ask for what the log does not have: status 6, and what is missing.
MISSING: list[tuple[list[Word], bytes]] = [
    (["counts", "2"], b"no such line 2\n"),
    (["state", "0x2"], b"no such line 2\n"),
    (["state", "1000000"], b"no such line 1000000\n"),
    (["frame", "6"], b"no such frame 6\n"),
    (["frame", "4294967295"], b"no such frame 4294967295\n"),
]

# Words that are no form of any program. A word that begins with `-` is none; nor are `help` and a
# beginning of a name. (`mmnames` without words is a form.)
NO_FORMS: list[list[Word]] = [
    [""],
    ["help"],
    ["help", "run"],
    ["help", "bulk"],
    ["help", "check"],
    ["help", "where"],
    ["help", "talk"],
    ["help", "help"],
    ["-"],
    ["--"],
    ["values"],
    ["words"],
    ["foo"],
    [b"\xff"],
    ["x" * 100000],
    ["x"] * 1000,
]
FORMS: dict[str, list[tuple[list[Word], bytes, Optional[bytes]]]] = {
    "mmsim": [
        (["run"], SCRIPT, b"ok 2\n"),
        (["bulk", "1", "2"], SCRIPT, None),
        (["bulk", "0", "0"], SCRIPT, None),
        (["bulk", "00000000000000000001", "000002"], SCRIPT, None),
        (["bulk", "18446744073709551615", "2"], SCRIPT, None),
        (["bulk", "1", "100000"], SCRIPT, None),
    ],
    "mmlog": [
        (["check"], b"", CHECKED),
        (["where", "p1.16"], b"", b"dead\n"),
        (["where", "s0.0"], b"", b"dead\n"),
        (["where", "p255.4294967295"], b"", b"dead\n"),
    ],
    "mmshow": [
        (["sums"], LOG, b"at machine 1\n"),
        (["counts", "csv"], LOG, COUNTED),
        (["counts", "csv"], b"", COUNTED.splitlines(True)[0]),
        (["faults", "csv"], LOG, FAULTS),
        (["key", "p255.4294967295"], LOG, b"page p255.4294967295\nat the end: dead\n"),
        (["key", "1:0x10FFF"], LOG, b"page p1.16\nat the end: dead\n"),
        (["tell"], LOG, b"1  machine 6 0 1 0\n"),
    ],
    "mmnames": [
        ([], SCRIPT, SCRIPT),
        (["lines"], SCRIPT, SCRIPT),
        (["talk"], SCRIPT, SCRIPT),
    ],
}
OTHER: dict[str, list[list[Word]]] = {
    "mmsim": [
        [], ["run", "x"], ["run", ""], ["run", "run"], ["run", b"\xff"], ["run", "-h"],
        ["run", "--help"], ["run", "--"], ["--", "run"], ["-h", "run"], ["run", "help"], ["Run"],
        ["ru"], ["runs"], ["run "], ["foo", "run"], ["bulk"], ["bulk", "1"],
        ["bulk", "1", "2", "3"], ["bulk", "1", "2", "3", "4"], ["bulk", "-h"],
        ["bulk", "--", "1", "2"], ["bulk", "1", "--", "2"], ["bulk", "1", "2", "--"],
        ["--", "bulk", "1", "2"], ["bulk", "-1", "2"], ["bulk", "1", "-2"], ["bulk", "+1", "2"],
        ["bulk", "", "1"], ["bulk", "1", ""], ["bulk", "a", "b"], ["bulk", "0x1", "2"],
        ["bulk", "1 ", "2"], ["bulk", "000000000000000000001", "2"],
        ["bulk", "18446744073709551616", "2"], ["bulk", "99999999999999999999", "2"],
        ["bulk", "1", "100001"], ["bulk", "1", "0000002"], ["bulk", "run", "bulk"],
        ["bul", "1", "2"], ["run", "bulk", "1", "2"], ["check"],
    ],
    "mmlog": [
        [], ["check", "x"], ["check", ""], ["check", "check"], ["check", "-h"], ["check", "--"],
        ["--", "check"], ["Check"], ["chec"], ["where"], ["where", ""], ["where", b"\xff"],
        ["where", "-h"], ["where", "--", "p1.16"], ["where", "p1.16", "--"], ["where", "-p1.16"],
        ["where", "p1.16", "p1.16"], ["where", "help"], ["where", "p01.16"], ["where", "p256.16"],
        ["where", "p1.4294967296"], ["where", "p1"], ["where", "q1.16"], ["wher", "p1.16"],
        ["check", "where", "p1.16"], ["run"], ["bulk", "1", "2"],
    ],
    "mmshow": [
        [], ["html", "a", "b", "c", "d"], ["html", "-h"], ["--", "sums"], ["sums", "x"],
        ["sums", ""],
        ["sum"], ["none"], ["tell", "a", "b", "c"], ["tell", "-h"], ["counts", "x"],
        ["counts", "1", "2"], ["counts", "0"], ["counts", "1000001"], ["counts", "csv", "a", "b", "c"],
        ["counts", "1", "csv"], ["counts", "CSV"], ["counts", ""], ["state"], ["state", ""],
        ["state", "0"], ["state", "1", "2"], ["frame"], ["frame", "p1.16"],
        ["frame", "4294967296"], ["key"], ["key", "1.16"], ["key", "p256.1"], ["key", "p1"],
        ["key", "1:"], ["key", "1:x"], ["key", "256:0x1000"], ["key", "1:0x100000000"],
        ["key", "p1.16", "p1.17"], ["faults", "x"], ["faults", "csv", "x"],
        ["faults", "1"], ["state", "csv"], ["sums", "csv"], ["--plain", "tell"], ["run"], ["check"],
    ],
    "mmnames": [
        ["line"], ["lin"], ["Lines"], ["lines "], ["lines", "talk"], ["lines", "lines"],
        ["lines", ""], ["", "lines"], ["talk", "--"], ["--", "talk"], ["talk", "-h"], ["run"],
    ],
}  # fmt: skip


def run_words(program: str, words: Sequence[Word], given: bytes) -> tuple[int, bytes, bytes, int]:
    """The status, what was written to both streams, and how many bytes were read."""
    with tempfile.TemporaryFile() as source:
        source.write(given)
        source.seek(0)
        ended = subprocess.run([program, *words], stdin=source, capture_output=True, timeout=300)
        place = os.lseek(source.fileno(), 0, os.SEEK_CUR)
        return ended.returncode, ended.stdout, ended.stderr, place


def compare_form(
    check: Check, name: str, words: Sequence[Word], given: bytes, wanted: Optional[bytes]
) -> None:
    """A form: status 0 and its text; a generated script has four lines and reads nothing."""
    status, said, _, place = run_words(check.programs[name], words, given)
    what = f"{name} {words!r:.200}"
    if wanted is not None:
        check.same(what, (status, said), (0, wanted))
        return
    names = [line.split(b" ")[0] for line in said.splitlines()]
    check.same(what, (status, names, place), (0, [b"lines", b"ok", b"none", b"charge"], 0))


def compare_missing(check: Check) -> None:
    """What a log does not have."""
    for words, wanted in MISSING:
        status, said, _, _ = run_words(check.programs["mmshow"], words, LOG)
        check.same(f"mmshow {words!r}", (status, said), (6, wanted))


def main() -> int:
    check = begin(__doc__, tuple(FORMS))
    usages = {name: line for name, line in table("tests/rows/usage.txt")}
    check.same("tests/rows/usage.txt", sorted(usages), sorted(FORMS))
    compare_missing(check)
    for name, forms in FORMS.items():
        for words, given, wanted in forms:
            compare_form(check, name, words, given, wanted)
        usage = usages.get(name, "").encode() + b"\n"
        for words in NO_FORMS + OTHER[name]:
            got = run_words(check.programs[name], words, SCRIPT)
            if ASKING & set(words):
                compare_asking(check, name, words, got)
            else:
                compare_usage(check, name, words, got, usage)
        for word in sorted(ASKING):
            got = run_words(check.programs[name], [word], SCRIPT)
            compare_asking(check, name, [word], got)
    return check.end()


# One of these words, wherever it stands, asks for help or for the version.
ASKING: set[Word] = {"-h", "--help", "-V", "--version"}


def compare_asking(
    check: Check, name: str, words: Sequence[Word], got: tuple[int, bytes, bytes, int]
) -> None:
    """Help and the version are written to standard output with status 0; nothing is read. Behind
    words that are no form, what is wrong is written to standard error, with status 2."""
    status, out, err, place = got
    what = f"{name} {words!r:.200}"
    if list(words) in (["-V"], ["--version"]):
        check.same(what, got, (0, f"{name} 1.0\n".encode(), b"", 0))
    elif status == 2:
        check.same(what, (out, err[:7], place), (b"", b"error: ", 0))
    else:
        told = b"Usage: " in out or out == f"{name} 1.0\n".encode()
        check.same(what, (status, told, err, place), (0, True, b"", 0))


def compare_usage(
    check: Check,
    name: str,
    words: Sequence[Word],
    got: tuple[int, bytes, bytes, int],
    usage: bytes,
) -> None:
    """Words that are no form: the usage line, status 2, and behind it on standard error what is
    wrong, where clap says so; `mmnames` writes its usage to standard error, as it writes scripts.
    """
    status, out, err, place = got
    if name == "mmnames":
        said, out, err = out, err[: len(usage)], err[len(usage) :]
        check.same(f"{name} {words!r:.200}: output", said, b"")
    wrong = err[:7] if err else b"error: "
    check.same(f"{name} {words!r:.200}", (status, out, wrong, place), (2, usage, b"error: ", 0))


if __name__ == "__main__":
    sys.exit(main())
