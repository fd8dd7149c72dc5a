#!/usr/bin/env python3
"""Compares each example with what the programs say, and sees that a document names it.

    examples/NAME.mm     a script: `mmsim run` answers NAME.out with status 0, and `mmlog check`
                         takes its log, which is NAME.log where there is one
    examples/NAME.log    a log: `mmlog check` says NAME.check, `mmlog where KEY` what NAME.where has
    examples/NAME.tell   `mmshow tell` says it of the script, its answers and its log, and so does
                         checks/reference/show.py
    examples/NAME.txt    a script with Windows' names: the plain script that `mmnames` makes of it has
                         the answers NAME.answers, the log NAME.log and the words NAME.tell, where
                         they are there
    examples/NAME.part   lines of the log (checks/rows.py); NAME.table, NAME.csv and NAME.svg belong
                         to checks of the tools

README.md or a page of docs/ names each script; what it prints of one is for checks/documents.py.
"""

from __future__ import annotations

import sys
import tempfile
from pathlib import Path

from common import TOP, Check, begin, maybe, read, row, run, text

ENDINGS = "mm out log check where tell part table csv svg txt answers ipynb xz".split()


def compare_script(check: Check, script: Path) -> None:
    """A script: its answers, its log, and what is told of it."""
    stored = row(script)
    ended = check.run("mmsim", ["run"], stored.script)
    check.same(f"{stored.name}: status", ended.status, 0)
    check.same(f"{stored.name}: answers", ended.out, stored.answers)
    if stored.log is not None:
        check.same(f"{stored.name}: log", ended.err, stored.log)
    check.holds(f"{stored.name}: log", check.is_log(ended.err), "`mmlog check` refuses it")
    tell = maybe(f"{stored.name}.tell")
    if tell is not None:
        words = ["tell", f"{stored.name}.mm", f"{stored.name}.out"]
        told = check.run("mmshow", words, ended.err)
        check.same(f"{stored.name}: tell, status", told.status, 0)
        check.same(f"{stored.name}: tell", told.out, tell)
        said = run([sys.executable, "checks/reference/show.py", *words], ended.err)
        check.same(f"{stored.name}: tell of the reference", said.out, tell)


def compare_written(check: Check, script: Path) -> None:
    """A script with Windows' names: its answers, its log, and what is told of it."""
    stem = str(script.relative_to(TOP).with_suffix(""))
    named = check.run("mmnames", [], script.read_bytes())
    check.same(f"{stem}: names", (named.status, named.err), (0, b""))
    ended = check.run("mmsim", ["run"], named.out)
    check.same(f"{stem}: status", ended.status, 0)
    check.same(f"{stem}: answers", ended.out, read(f"{stem}.answers"))
    with tempfile.TemporaryDirectory(prefix="examples-") as folder:
        words = ["tell", f"{folder}/plain.mm", f"{folder}/plain.out"]
        Path(words[1]).write_bytes(named.out)
        Path(words[2]).write_bytes(ended.out)
        told = check.run("mmshow", words, ended.err).out
    for what, said in (("log", ended.err), ("tell", told)):
        kept = maybe(f"{stem}.{what}")
        if kept is not None:
            check.same(f"{stem}: {what}", said, kept)


def compare_named(check: Check, script: Path, printed: str) -> None:
    """A script is named in a document."""
    name = script.relative_to(TOP)
    told = "no page of README.md and docs/ names it"
    check.holds(str(name), f"`{name}`" in printed, told)


def compare_log(check: Check, log: Path) -> None:
    """A stored log: what `mmlog` says of it."""
    stem = str(log.relative_to(TOP).with_suffix(""))
    ended = check.run("mmlog", ["check"], log.read_bytes())
    check.same(f"{stem}: check, status", ended.status, 0)
    check.same(f"{stem}: check", ended.out, read(f"{stem}.check"))
    for line in (maybe(f"{stem}.where") or b"").decode().splitlines():
        key, answer = line.split(" ", 1)
        said = check.run("mmlog", ["where", key], log.read_bytes())
        check.same(f"{stem}: where {key}", said, (0, answer.encode() + b"\n", b""))


def pages() -> str:
    """All that README.md and docs/ have."""
    found = ["README.md", *sorted(str(it.relative_to(TOP)) for it in TOP.glob("docs/**/*.md"))]
    return "".join(text(path) for path in found)


def main() -> int:
    check = begin(__doc__, ("mmsim", "mmlog", "mmshow", "mmnames"))
    printed = pages()
    for path in sorted((TOP / "examples").iterdir()):
        if path.suffix in (".mm", ".txt"):
            compare_named(check, path, printed)
        if path.suffix == ".mm":
            compare_script(check, path)
        elif path.suffix == ".txt":
            compare_written(check, path)
        elif path.suffix == ".log":
            compare_log(check, path)
        elif path.suffix[1:] not in ENDINGS:
            check.wrong(f"examples/{path.name}", "no check knows a file of this ending")
    return check.end()


if __name__ == "__main__":
    sys.exit(main())
