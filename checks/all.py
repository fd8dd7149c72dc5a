#!/usr/bin/env python3
"""Runs the gate's own checks, side by side: python3 checks/all.py [--bin FOLDER] [NAME ..]

Without names all of them. A check that is missing fails, and so does one that ends with another
status than 0, or whose last line does not say that nothing differs. What a check prints comes when
it ends. The last line is `checks: N passed, M failed`.
With --bin the programs are those of a folder, else those that the gate built.
"""

from __future__ import annotations

import argparse
import os
import re
import subprocess
import sys
import threading
import time
from concurrent.futures import ThreadPoolExecutor
from pathlib import Path
from typing import NamedTuple, Optional

from common import processors

TOP = Path(__file__).resolve().parent.parent
# Those that take longest come first, so that none is left alone at the end.
CHECKS = """
web documents show python page drawn wine hostile traces outside install rows prose names examples
tries faces words windows
""".split()
# How many processors a check is given (MELZUDEK_PROCESSORS), where it can do with more than one.
WIDE = {"show": 2, "drawn": 2, "hostile": 2, "outside": 2, "rows": 2, "web": 2}
# Checks that take their programs by place.
BY_PLACE = {"page": ("mmsim", "mmshow"), "traces": ("mmsim", "mmlog", "mmshow")}
MOST_SECONDS = 3600
COUNT = re.compile(r"(\d+) (?:compared|tried|runs|logs)?[^,]*, (?:0|no) (?:differences|wrong|bad)")


class Result(NamedTuple):
    """What a check came to: whether it passed, how many it compared, and its seconds."""

    name: str
    is_passed: bool
    compared: str
    seconds: float


def file_of(name: str) -> Optional[Path]:
    """The file of a check, or None where it is missing."""
    for path in (TOP / f"checks/{name}.py", TOP / f"checks/{name}"):
        if path.is_file():
            return path
    return None


class Places:
    """The processors of this machine, given to checks that run side by side."""

    def __init__(self, count: int):
        self.count = self.free = count
        self.changed = threading.Condition()

    def take(self, asked: int) -> int:
        """Waits until as many are free as are asked for, or as there are."""
        taken = min(asked, self.count)
        with self.changed:
            self.changed.wait_for(lambda: self.free >= taken)
            self.free -= taken
        return taken

    def give(self, taken: int) -> None:
        with self.changed:
            self.free += taken
            self.changed.notify_all()


def words_of(name: str, path: Path, folder: Optional[str]) -> list[str]:
    """The command of a check."""
    # by its first line, as a check may need Debian's Python and its packages
    words = [str(path)] if os.access(path, os.X_OK) else [sys.executable, str(path)]
    if folder:
        words += [os.path.join(folder, program) for program in BY_PLACE.get(name, ())]
    return words


def run_check(name: str, folder: Optional[str], width: int) -> Result:
    """Runs a check, and prints what it printed when it ended."""
    began = time.monotonic()
    path = file_of(name)
    if path is None:
        print(f"{name}: there is no checks/{name}.py", flush=True)
        return Result(name, False, "", 0)
    env = {**os.environ, "PYTHONDONTWRITEBYTECODE": "1", "MELZUDEK_PROCESSORS": str(width)}
    if folder:
        env["MELZUDEK_BIN"] = os.path.abspath(folder)
    with subprocess.Popen(
        words_of(name, path, folder),
        cwd=TOP,
        env=env,
        stdin=subprocess.DEVNULL,
        stdout=subprocess.PIPE,
        stderr=subprocess.STDOUT,
    ) as started:
        try:
            said = started.communicate(timeout=MOST_SECONDS)[0]
        except subprocess.TimeoutExpired:
            started.kill()
            said = started.communicate()[0]
    lines = said.decode(errors="replace").splitlines() or [""]
    counted = COUNT.search(lines[-1])
    if started.returncode == 0 and not counted:
        lines.append(f"{name}: its last line does not say that nothing differs")
    print("\n".join(lines), flush=True)
    is_passed = started.returncode == 0 and counted is not None
    return Result(name, is_passed, counted[1] if counted else "", time.monotonic() - began)


def run_all(names: list[str], folder: Optional[str]) -> list[Result]:
    """Runs checks side by side, as many as there are processors for, in this order."""
    places = Places(processors())

    def one(name: str, width: int) -> Result:
        try:
            return run_check(name, folder, width)
        finally:
            places.give(width)

    with ThreadPoolExecutor(len(names)) as pool:
        tasks = [pool.submit(one, name, places.take(WIDE.get(name, 1))) for name in names]
        return [task.result() for task in tasks]


def main() -> int:
    parser = argparse.ArgumentParser(description=(__doc__ or "").split("\n")[0])
    parser.add_argument("--bin", metavar="FOLDER", help="the folder of the programs")
    parser.add_argument("names", nargs="*", metavar="NAME", help="a check")
    words = parser.parse_args()
    given = words.bin or os.environ.get("MELZUDEK_BIN")
    folder = os.path.abspath(given) if given else None
    names = words.names or CHECKS
    began = time.monotonic()
    results = run_all(names, folder)
    passed = [it for it in results if it.is_passed]
    failed = [it.name for it in results if not it.is_passed]
    counts = ", ".join(f"{it.name} ({it.compared})" for it in passed)
    slow = sorted(results, key=lambda it: -it.seconds)[:3]
    took = f"{(time.monotonic() - began) / 60:.1f} minutes on {processors()} processors"
    print(f"slowest: {', '.join(f'{it.name} {it.seconds:.0f} s' for it in slow)}; all took {took}")
    print(f"compared: {counts}{'; FAILED: ' if failed else ''}{' '.join(failed)}")
    print(f"checks: {len(passed)} passed, {len(failed)} failed")
    return 1 if failed else 0


if __name__ == "__main__":
    sys.exit(main())
