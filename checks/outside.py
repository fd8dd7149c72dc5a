#!/usr/bin/env python3
"""What the four programs do where the outside fails: descriptors, and memory that is refused.

Each program with its standard input closed or a folder, and its output closed, full, or a pipe that
nobody reads. The status is that of docs/PROFILE.md, section 10, and docs/WRITTEN.md: 4 where the
input cannot be read, 5 where the output cannot be written, 6 where the log cannot. No answer is
written whose moves were not taken. Then tools/refused-memory refuses each request for memory.
"""

from __future__ import annotations

import argparse
import os
import re
import subprocess
import sys
from typing import NamedTuple, Optional

from common import PROGRAMS, Check, Ended, begin, debian, read, run

# Descriptors as a shell writes them; FILE is the form's usual input.
BAD_INPUTS = {"closed": "<&-", "a folder": "<."}
BAD_OUTPUTS = {"closed": ">&-", "full": ">/dev/full"}
BAD_ERRORS = {"closed": "2>&-", "full": "2>/dev/full"}


class Form(NamedTuple):
    """Words of a program, a file for its input, and its status by what fails.

    `unread` is None where nothing is read, and `untold` where standard error is not written to.
    """

    program: str
    words: list[str]
    file: str
    unread: Optional[int]
    unwritten: Optional[int]
    untold: Optional[int]


SCRIPT, LOG = "examples/far-past-the-frames.mm", "examples/far-past-the-frames.log"
MISTAKE = "README.md"
FORMS = [
    Form("mmsim", ["run"], SCRIPT, 4, 5, 6),
    Form("mmsim", ["bulk", "7", "500"], SCRIPT, None, 5, 6),
    Form("mmsim", ["help"], SCRIPT, None, 5, None),
    Form("mmlog", ["check"], LOG, 4, 5, None),
    Form("mmlog", ["where", "p1.16"], LOG, 4, 5, None),
    Form("mmlog", ["help"], LOG, None, 5, None),
    *(
        Form("mmshow", words, LOG, 4, 5, None)
        for words in (
            ["sums"], ["faults"], ["html"], ["html", SCRIPT], ["tell"], ["tell", SCRIPT],
            ["counts"], ["counts", "9"], ["state", "9"], ["frame", "1"], ["key", "p1.16"],
            ["events"],
        )
    ),
    Form("mmshow", ["help"], LOG, None, 5, None),
    Form("mmnames", [], SCRIPT, 4, 5, None),
    Form("mmnames", ["lines"], SCRIPT, 4, 5, 5),
    Form("mmnames", ["talk"], SCRIPT, 4, 5, None),
    *(Form(name, ["--help"], SCRIPT, None, 5, None) for name in PROGRAMS),
    *(Form(name, ["--version"], SCRIPT, None, 5, None) for name in PROGRAMS),
    Form("mmnames", [], MISTAKE, 4, None, 5),
    Form("mmnames", ["lines"], MISTAKE, 4, None, 5),
]  # fmt: skip


def with_descriptors(check: Check, form: Form, descriptors: str) -> Ended:
    """A run whose descriptors a shell opens so."""
    words = [check.programs[form.program], *form.words]
    return run(["sh", "-c", f'exec "$@" {descriptors}', "sh", *words])


def compare_form(check: Check, form: Form) -> None:
    """A form with each stream in turn as it should not be."""
    name = " ".join([form.program, *form.words])
    usual = with_descriptors(check, form, f"<{form.file}")
    check.holds(name, usual.status in (0, 2, 3), f"ends with status {usual.status} as it is")
    for how, opened in BAD_INPUTS.items():
        ended = with_descriptors(check, form, opened)
        wanted = usual.status if form.unread is None else form.unread
        check.same(f"{name}, input {how}", ended.status, wanted)
        if form.unread is None:
            check.same(f"{name}, input {how}", ended[1:], usual[1:])
    for how, opened in BAD_OUTPUTS.items():
        ended = with_descriptors(check, form, f"<{form.file} {opened}")
        wanted = usual.status if form.unwritten is None else form.unwritten
        check.same(f"{name}, output {how}", ended.status, wanted)
    for how, opened in BAD_ERRORS.items():
        ended = with_descriptors(check, form, f"<{form.file} {opened}")
        if form.untold is None:
            check.same(f"{name}, error {how}", ended[:2], usual[:2])
        else:
            check.same(f"{name}, error {how}", ended.status, form.untold)
        if form.program == "mmsim" and form.untold:
            check.same(f"{name}, error {how}, answers", ended.out, b"")


def compare_pipe(check: Check, form: Form) -> None:
    """A form whose output is a pipe that nobody reads."""
    if form.unwritten is None:
        return
    taken, given = os.pipe()
    os.close(taken)
    words = [check.programs[form.program], *form.words]
    try:
        ended = subprocess.run(
            words,
            input=read(form.file),
            stdout=given,
            stderr=subprocess.DEVNULL,
            timeout=60,
        )
    finally:
        os.close(given)
    name = " ".join([form.program, *form.words])
    check.same(f"{name}, output that nobody reads", ended.returncode, form.unwritten)


def compare_memory(check: Check) -> None:
    """Each request for memory refused in turn."""
    if not debian("cc", "gcc"):
        check.leave_out("memory that is refused, as there is no C compiler (package gcc)")
        return
    words = [sys.executable, "tools/refused-memory"]
    for name in PROGRAMS:
        words += [f"--{name}", check.programs[name]]
    ended = run(words, seconds=1200)
    counted = re.findall(r" +(\d+) +\d+ +\d+(?:  .*)?$", ended.out.decode(), re.MULTILINE)
    asked = sum(map(int, counted))
    check.compared += asked
    complaints = [line for line in ended.out.decode().splitlines() if "refused:" in line]
    is_so = ended.status == 0 and asked > 0
    told = "; ".join(complaints[:5]) or ended.err.decode()[-300:] or "no request was refused"
    check.holds("tools/refused-memory", is_so, told)


def main() -> int:
    parser = argparse.ArgumentParser(description=(__doc__ or "").split("\n")[0])
    parser.add_argument("--descriptors", action="store_true", help="refuse no memory")
    check = begin(__doc__, ("mmsim", "mmlog", "mmshow", "mmnames"), parser)
    for form in FORMS:
        compare_form(check, form)
        compare_pipe(check, form)
    if not check.words.descriptors:
        compare_memory(check)
    return check.end()


if __name__ == "__main__":
    sys.exit(main())
