#!/usr/bin/env python3
"""The Python package: checks/python.py [--bin FOLDER] [PROGRAM ..]

    black, mypy   the package and its tests
    pytest        the tests of python/tests
    sweep         60 machines on a scheduler with two workers in processes of their own, one of
                  which is ended in the middle: all rows come, each once, with the counts of
                  `mmlog check`; then a thousand machines on two workers
    notebook      examples/paging.ipynb runs, by Jupyter where it is installed, else cell by cell,
                  and draws the pictures of docs/pictures

It needs Debian's Python with the packages of PACKAGES, which it installs where it may; what is not
to be had is left out, and the check says so. Without words the programs are those that the gate
built, crates/NAME/out/NAME; with --bin, or MELZUDEK_BIN, those of a folder; a PROGRAM is a file
whose name begins with the program's. --only STEP does one step, style, tests, sweep or notebook.
The last line is `python: N compared, no differences`.
"""

from __future__ import annotations

import argparse
import json
import os
import re
import subprocess
import sys
import tempfile
from collections.abc import Sequence
from pathlib import Path
from typing import Any, Optional

sys.path.insert(0, os.path.dirname(os.path.abspath(__file__)))
from common import DEBIAN, LIBRARIES, missing  # noqa: E402

TOP = Path(__file__).resolve().parent.parent
PYTHON = TOP / "python"
NOTEBOOK = TOP / "examples" / "paging.ipynb"
PROGRAMS = ("mmsim", "mmlog", "mmshow", "mmnames")
# what is imported, and the package of Debian that has it
PACKAGES = {
    **LIBRARIES,
    **{"pytest": "python3-pytest", "hypothesis": "python3-hypothesis"},
    **{"black": "black", "mypy": "mypy"},
}
JUPYTER = {"nbconvert": "jupyter-nbconvert", "ipykernel": "python3-ipykernel"}
SECONDS = 1800  # of one step
SHOWN = 25  # lines of what a step says when it fails


class Check:
    """Counts what is compared, and says what differs and what is left out."""

    def __init__(self, environment: dict[str, str]) -> None:
        self.environment = environment
        self.compared = 0
        self.differences = 0

    def same(self, what: str, got: object, wanted: object) -> None:
        self.compared += 1
        if got != wanted:
            self.wrong(f"{what}: {got!r}, not {wanted!r}")

    def wrong(self, complaint: str) -> None:
        self.differences += 1
        print(f"python: {complaint}", flush=True)

    def leave_out(self, what: str) -> None:
        print(f"python: left out: {what}", flush=True)

    def step(self, name: str, words: Sequence[str], folder: Path = PYTHON) -> str:
        """Runs a program of Debian's Python; what it writes. Another status than 0 is told."""
        self.compared += 1
        try:
            ended = subprocess.run(
                [DEBIAN, "-B", *words],
                cwd=folder,
                env=self.environment,
                stdin=subprocess.DEVNULL,
                stdout=subprocess.PIPE,
                stderr=subprocess.STDOUT,
                timeout=SECONDS,
            )
        except subprocess.TimeoutExpired:
            self.wrong(f"{name}: it did not end in {SECONDS:,} seconds")
            return ""
        text = ended.stdout.decode("utf-8", "replace")
        if ended.returncode:
            last = "\n    ".join(text.splitlines()[-SHOWN:])
            self.wrong(f"{name} ends with status {ended.returncode}:\n    {last}")
        return text

    def end(self) -> int:
        count = f"{self.differences} differences" if self.differences else "no differences"
        print(f"python: {self.compared} compared, {count}", flush=True)
        return 1 if self.differences else 0


# ---------------------------------------------------------------- the steps


def try_style(check: Check, lacking: Sequence[str]) -> None:
    if "black" in lacking:
        check.leave_out("black: Debian's package black is not there and cannot be installed")
    else:
        words = ["--config", "pyproject.toml", "--check", "--quiet"]
        files = ["melzudek", "tests", str(Path(__file__).resolve())]
        check.step("black (`black -l 100` mends it)", ["-m", "black", *words, *files])
    if "mypy" in lacking:
        check.leave_out("mypy: Debian's package mypy is not there and cannot be installed")
    else:
        with tempfile.TemporaryDirectory() as cache:
            words = ["--strict", "--cache-dir", cache, "melzudek", "tests"]
            check.step("mypy --strict", ["-m", "mypy", *words])


def try_tests(check: Check) -> None:
    words = ["-m", "pytest", "-q", "-p", "no:cacheprovider", "tests"]
    said = check.step("pytest", words)
    passed = re.search(r"(\d+) passed", said)
    check.compared += int(passed[1]) if passed else 0
    if not passed:
        check.wrong("pytest: no test passed")


# What `try_sweep` runs by Debian's Python: 60 machines, of whose workers one is ended at row 15.
SWEEP = """
import csv, json, os, sys
from pathlib import Path
sys.path[:0] = ["tests"]
from clusters import cluster
from melzudek.scripts import varied
from melzudek.sweeps import Cluster, sweep
from melzudek.tables import run

def script():
    yield "machine 16 64 1 0"
    yield "process 0 64"
    yield "alloc 1 0x10000 0x18000 0x3000 0x4"
    for turn in range(240):
        word, byte = ("write", "41") if turn % 3 else ("read", "1")
        yield f"{word} 1 0x{0x10000 + turn * 7 % 24 * 4096:X} {byte}"

def main(folder):
    vary = {"frames": list(range(8, 28)), "age": [0, 4, 16]}
    to, ended = folder / "rows.csv", 0
    with cluster(folder) as own:
        for at, row in enumerate(sweep(script(), vary, to, scheduler=own.address, progress=False)):
            if at == 15:
                own.workers[0].kill()
                ended = own.workers[0].wait()
    rows = list(csv.DictReader(to.read_text("utf-8").splitlines()))
    counted = []
    for row in rows:
        one = run(varied(list(script()), {"frames": row["frames"], "age": row["age"]})).totals
        counted.append([one[it] for it in ("zero", "soft", "hard", "steals", "writes")])
    many = {"frames": list(range(8, 258)), "age": [0, 4, 16, 64]}
    with Cluster(workers=2) as two:
        thousand = list(sweep(script(), many, cluster=two, progress=False))
    keys = {(row["frames"], row["age"]) for row in thousand if not row.get("reason")}
    print(json.dumps([ended, rows, counted, len(thousand), len(keys)]))

if __name__ == "__main__":
    main(Path(sys.argv[1]))
"""


def try_sweep(check: Check) -> None:
    with tempfile.TemporaryDirectory() as room:
        program = Path(room, "sixty.py")
        program.write_text(SWEEP, encoding="utf-8")
        said = check.step("the sweep", [str(program), room]).splitlines()
    try:
        ended, rows, counted, thousand, keys = json.loads(said[-1])
    except (IndexError, ValueError):
        check.wrong("the sweep: it did not say which rows it has")
        return
    check.same("the worker that is ended in the middle has its signal", ended, -9)
    every = sorted((frames, age) for frames in range(8, 28) for age in (0, 4, 16))
    check.same("rows", sorted((int(row["frames"]), int(row["age"])) for row in rows), every)
    names = ("zero", "soft", "hard", "repurposed", "writes")
    for row, wanted in zip(rows, counted):
        got = [int(row[name] or -1) for name in names]
        check.same(f"the counts of {row['frames']} page frames, age {row['age']}", got, wanted)
    check.same("a thousand machines", (thousand, keys), (1000, 1000))


# A notebook without Jupyter: its cells in one namespace, none of them run again by workers.
CELLS = """
import json, sys
if __name__ == "__main__":
    for cell in json.load(open(sys.argv[1], encoding="utf-8"))["cells"]:
        if cell["cell_type"] == "code":
            exec(compile("".join(cell["source"]), cell["id"], "exec"), globals())
"""


def try_notebook(check: Check) -> None:
    """Runs the notebook in a copy, so that neither it nor the pictures of the documents change."""
    lacking = missing(JUPYTER)
    folder = NOTEBOOK.parent
    with tempfile.TemporaryDirectory() as room:
        check.environment["MELZUDEK_PICTURES"] = room
        if lacking:
            what = f"Jupyter ({', '.join(JUPYTER[it] for it in lacking)} cannot be installed)"
            check.leave_out(f"{what}: the cells of {NOTEBOOK.name} are run without it")
            program = Path(room, "cells.py")
            program.write_text(CELLS, encoding="utf-8")
            check.step("the notebook's cells", [str(program), str(NOTEBOOK)], folder)
        else:
            words = ["-m", "nbconvert", "--execute", "--to", "notebook", "--output-dir", room]
            kernel = "--ExecutePreprocessor.timeout=900"
            check.step("the notebook", [*words, kernel, str(NOTEBOOK)], folder)
        drawn = sorted(it.name for it in Path(room).glob("*.svg"))
    kept = sorted(it.name for it in (TOP / "docs" / "pictures").glob("*.svg"))
    check.same("the pictures that the notebook draws", drawn, kept)
    source = NOTEBOOK.read_text(encoding="utf-8")
    outputs = [cell.get("outputs") for cell in json.loads(source)["cells"]]
    check.same("what the stored notebook has of outputs", [it for it in outputs if it], [])


def try_light(check: Check) -> None:
    """The live machine and observations import the standard library alone."""
    heavy = ", ".join(repr(name) for name in PACKAGES)
    test = "import sys, melzudek, melzudek.observe; "
    test += f"sys.exit(str([it for it in ({heavy}) if it in sys.modules] or '') or None)"
    check.step("what the live machine imports", ["-c", test])


# ---------------------------------------------------------------- words and programs


def environment(given: argparse.Namespace) -> dict[str, str]:
    """The package on Python's path, and the programs by name."""
    found = {name: TOP / "crates" / name / "out" / name for name in PROGRAMS}
    folder = given.bin or os.environ.get("MELZUDEK_BIN")
    if folder:
        found = {name: Path(folder).resolve() / name for name in PROGRAMS}
    for file in given.programs:
        stem: Any = re.match(r"[a-z]*", os.path.basename(file))
        if stem[0] not in PROGRAMS:
            sys.exit(f"{file}: a program's file name begins with one of {', '.join(PROGRAMS)}")
        found[stem[0]] = Path(file).resolve()
    named = {f"MELZUDEK_{name.upper()}": str(path) for name, path in found.items()}
    return {**os.environ, **named, "PYTHONPATH": str(PYTHON), "PYTHONDONTWRITEBYTECODE": "1"}


STEPS = {"tests": try_tests, "sweep": try_sweep, "notebook": try_notebook}


def do_steps(check: Check, lacking: Sequence[str], only: Optional[str]) -> None:
    """The steps whose packages are there, or one of them."""
    asked = [step for name, step in STEPS.items() if only in (None, name)]
    needed = [name for name in lacking if name not in ("black", "mypy")]
    if needed and asked:
        packages = ", ".join(PACKAGES[name] for name in needed)
        check.leave_out(f"tests, sweep and notebook: {packages} cannot be installed here")
        asked = []
    if only in (None, "style"):
        try_style(check, lacking)
    for step in asked:
        step(check)


def main(arguments: Optional[Sequence[str]] = None) -> int:
    """Does all steps that can be done here. The status: 1 where something differs."""
    parser = argparse.ArgumentParser(description=(__doc__ or "").split(":")[0])
    parser.add_argument("--bin", metavar="FOLDER", help="the folder of the programs")
    parser.add_argument("--only", choices=("style", *STEPS), help="one step")
    parser.add_argument("programs", nargs="*", metavar="PROGRAM", help="a program elsewhere")
    words = parser.parse_args(arguments)
    check = Check(environment(words))
    for name in ("mmsim", "mmlog", "mmshow"):
        path = check.environment[f"MELZUDEK_{name.upper()}"]
        if not os.access(path, os.X_OK):
            check.wrong(f"there is no program {path}")
    if not os.access(DEBIAN, os.X_OK):
        check.wrong(f"there is no {DEBIAN}: the package's libraries are those of Debian")
    if check.differences:
        return check.end()
    if subprocess.run(
        [DEBIAN, "-c", "import sys; sys.exit(sys.version_info < (3, 11))"]
    ).returncode:
        check.leave_out(f"all of it: {DEBIAN} is older than Python 3.11")
        return check.end()
    try_light(check)
    do_steps(check, missing(PACKAGES), words.only)
    return check.end()


if __name__ == "__main__":
    sys.exit(main())
