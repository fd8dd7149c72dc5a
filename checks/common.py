"""What the checks share: the programs, running them, stored rows, differences, and the last line.

A check is begun by `begin`, which reads its words:

    python3 checks/NAME.py [--bin FOLDER] [PROGRAM ..]

Without words the programs are those that the gate built, crates/NAME/out/NAME. With --bin they are
those of a folder, and a PROGRAM is a file whose name begins with the program's. A check ends with
the line `NAME: N compared, no differences`, or `M differences` and status 1. A program that is
missing is a difference, and so is a check that compared nothing.
"""

from __future__ import annotations

import argparse
import contextlib
import difflib
import fcntl
import os
import re
import shutil
import subprocess
import sys
import tempfile
import threading
from pathlib import Path
from typing import Iterator, NamedTuple, Optional, Sequence, Union

TOP = Path(__file__).resolve().parent.parent
PROGRAMS = ("mmsim", "mmlog", "mmshow", "mmnames")
DEBIAN = "/usr/bin/python3"
# what the package for Python imports, and the package of Debian that has it
LIBRARIES = {
    **{"numpy": "python3-numpy", "pandas": "python3-pandas", "matplotlib": "python3-matplotlib"},
    **{"dask": "python3-dask", "distributed": "python3-distributed", "tqdm": "python3-tqdm"},
}
# Those and the one that checks alone run.
ALL_PROGRAMS = (*PROGRAMS, "mmunpaged")
# How many complaints a check prints; the others are only counted.
PRINTED = int(os.environ.get("MELZUDEK_PRINTED", "20"))

Word = Union[str, bytes]


class Ended(NamedTuple):
    """What a program came to."""

    status: int
    out: bytes
    err: bytes


class Row(NamedTuple):
    """A stored script and what a run of it comes to; the log, or a part, where it is stored."""

    name: str
    script: bytes
    answers: bytes
    status: int
    log: Optional[bytes]
    part: Optional[bytes]


def run(words: Sequence[Word], given: bytes = b"", seconds: float = 300) -> Ended:
    """Runs a program on some standard input. One that does not end in time has status -1."""
    try:
        ended = subprocess.run(words, input=given, capture_output=True, timeout=seconds)
    except subprocess.TimeoutExpired as late:
        return Ended(-1, late.stdout or b"", late.stderr or b"")
    except OSError as missing:
        return Ended(-2, b"", str(missing).encode())
    return Ended(ended.returncode, ended.stdout, ended.stderr)


def read(path: Union[str, Path]) -> bytes:
    """A file of the repository, by its path from the top."""
    return (TOP / path).read_bytes()


def text(path: Union[str, Path]) -> str:
    """A file of the repository as text."""
    return read(path).decode()


def maybe(path: Union[str, Path]) -> Optional[bytes]:
    """A file of the repository, or None where there is none."""
    return read(path) if (TOP / path).is_file() else None


def row(script: Path) -> Row:
    """The row of a script."""
    stem = script.with_suffix("")
    status = maybe(f"{stem}.status")
    name = str(stem.relative_to(TOP) if stem.is_absolute() else stem)
    return Row(
        name,
        read(script),
        read(f"{stem}.out"),
        int(status) if status else 0,
        maybe(f"{stem}.log"),
        maybe(f"{stem}.part"),
    )


def rows_of(*folders: str) -> list[Row]:
    """The rows of folders, by name."""
    return [row(script) for folder in folders for script in sorted((TOP / folder).glob("*.mm"))]


def table(path: str) -> Iterator[list[str]]:
    """The lines of a stored table but comments (#), each as its fields between tabs."""
    for line in text(path).splitlines():
        if not line.startswith("#"):
            yield line.split("\t")


def difference(got: bytes, wanted: bytes) -> str:
    """The first lines in which two texts differ."""
    pair = [part.decode("latin-1").splitlines() for part in (wanted, got)]
    lines = list(difflib.unified_diff(pair[0], pair[1], "wanted", "got", n=0, lineterm=""))
    shown = [line[:200] for line in lines[2:8]]
    return "\n    ".join(shown) if shown else f"{got[-40:]!r}, not {wanted[-40:]!r}"


def short(thing: object) -> str:
    """A thing in at most some 200 characters."""
    spelled = repr(thing)
    return spelled if len(spelled) <= 200 else spelled[:120] + ".." + spelled[-70:]


def processors() -> int:
    """How many processors a check may take: those that checks/all.py gives it, else all."""
    return int(os.environ.get("MELZUDEK_PROCESSORS", "0")) or os.cpu_count() or 1


@contextlib.contextmanager
def alone(name: str) -> Iterator[None]:
    """What only one of this machine's checks does at a time."""
    with open(Path(tempfile.gettempdir(), f"melzudek-{name}.lock"), "a", encoding="ascii") as lock:
        fcntl.flock(lock, fcntl.LOCK_EX)
        yield


def apt(packages: Sequence[str], seconds: Optional[float] = None) -> None:
    """Installs Debian's packages, where that may be; whether it did is seen afterwards."""
    if os.geteuid() != 0 or not shutil.which("apt-get"):
        return
    with alone("apt"):
        for words in (["update"], ["install", "-y", "--no-install-recommends", *packages]):
            # (no pipe: what an installation leaves running would keep it open)
            with contextlib.suppress(subprocess.TimeoutExpired):
                subprocess.run(
                    ["apt-get", "-o", "DPkg::Lock::Timeout=300", *words],
                    stdin=subprocess.DEVNULL,
                    stdout=subprocess.DEVNULL,
                    stderr=subprocess.DEVNULL,
                    env={**os.environ, "DEBIAN_FRONTEND": "noninteractive"},
                    timeout=seconds,
                )


def has(name: str) -> bool:
    """Whether Debian's Python has a library."""
    words = [DEBIAN, "-c", f"import importlib.util as u, sys; sys.exit(not u.find_spec({name!r}))"]
    return subprocess.run(words).returncode == 0


def missing(packages: dict[str, str]) -> list[str]:
    """The libraries of Debian's Python, by their packages, that are neither there nor to be had."""
    lacking = [name for name in packages if not has(name)]
    if lacking:
        apt([packages[name] for name in lacking])
        lacking = [name for name in lacking if not has(name)]
    return lacking


def debian(command: str, package: str) -> bool:
    """Whether a command is there; where it is missing its package is installed, if that may be."""
    if not shutil.which(command):
        apt([package])
    return shutil.which(command) is not None


class Check:
    """Counts what is compared, and prints what differs."""

    def __init__(self, name: str, programs: dict[str, str], words: argparse.Namespace):
        self.name = name
        self.programs = programs
        self.words = words
        self.compared = 0
        self.differences = 0
        self.lock = threading.Lock()

    def run(self, program: str, words: Sequence[Word] = (), given: bytes = b"") -> Ended:
        """Runs one of the four programs."""
        return run([self.programs[program], *words], given)

    def wrong(self, what: str, complaint: str) -> None:
        """A difference: what it is about, and what is wrong."""
        with self.lock:
            self.differences += 1
            if self.differences <= PRINTED:
                print(f"{self.name}: {what}: {complaint}", flush=True)
            elif self.differences == PRINTED + 1:
                print(f"{self.name}: further differences are only counted", flush=True)

    def holds(self, what: str, is_so: bool, complaint: str) -> bool:
        """Counts a comparison, and tells of it where it fails."""
        with self.lock:
            self.compared += 1
        if not is_so:
            self.wrong(what, complaint)
        return is_so

    def same(self, what: str, got: object, wanted: object) -> bool:
        """Compares two things; of texts the first lines that differ are shown."""
        if isinstance(got, bytes) and isinstance(wanted, bytes):
            return self.holds(what, got == wanted, "" if got == wanted else difference(got, wanted))
        return self.holds(what, got == wanted, f"{short(got)}, not {short(wanted)}")

    def is_log(self, log: bytes) -> bool:
        """Whether `mmlog check` takes a log."""
        return self.run("mmlog", ["check"], log).status == 0

    def leave_out(self, what: str) -> None:
        """Says in one line what could not be compared here."""
        print(f"{self.name}: left out: {what}", flush=True)

    def end(self) -> int:
        """Prints the last line. The status: 1 where something differs or nothing was compared."""
        if self.compared == 0 and self.differences == 0:
            self.wrong("the check", "compared nothing")
        count = f"{self.differences} differences" if self.differences else "no differences"
        print(f"{self.name}: {self.compared} compared, {count}", flush=True)
        return 1 if self.differences else 0


def find_programs(folder: Optional[str], files: Sequence[str]) -> dict[str, str]:
    """Where the programs are: those of the gate, of a folder, or files by their names."""
    found = {name: str(TOP / "crates" / name / "out" / name) for name in ALL_PROGRAMS}
    if folder:
        found = {name: os.path.join(os.path.abspath(folder), name) for name in ALL_PROGRAMS}
    for file in files:
        stem = re.match(r"[a-z]*", os.path.basename(file))
        if not stem or stem[0] not in ALL_PROGRAMS:
            sys.exit(f"{file}: a program's file name begins with one of {', '.join(ALL_PROGRAMS)}")
        found[stem[0]] = os.path.abspath(file)
    return found


def begin(
    document: Optional[str], needed: Sequence[str], parser: Optional[argparse.ArgumentParser] = None
) -> Check:
    """Reads the words of a check, which needs some of the programs, and goes to the top."""
    name = Path(sys.argv[0]).stem
    first = (document or "").strip().split("\n")[0]
    parser = parser or argparse.ArgumentParser(description=first)
    parser.add_argument("--bin", metavar="FOLDER", help="the folder of the programs")
    parser.add_argument("programs", nargs="*", metavar="PROGRAM", help="a program of another place")
    words = parser.parse_args()
    folder = words.bin or os.environ.get("MELZUDEK_BIN")
    check = Check(name, find_programs(folder, words.programs), words)
    os.chdir(TOP)
    for program in needed:
        if not os.access(check.programs[program], os.X_OK):
            check.wrong(program, f"there is no program {check.programs[program]}")
    if check.differences:
        sys.exit(check.end())
    return check
