#!/usr/bin/env python3
"""tools/install into an empty folder, and a run from there: programs, pages, completions, package.

    pages         found by `man` and clean for `mandoc -T lint`; the forms and the statuses of each
                  program are those that it prints itself, the parts of `melzudek` those of the
                  package, the forms of lines, the kinds and the moves those of docs/PROFILE.md
    completions   `complete -p` knows them in bash; they give the forms that the programs list
    a run         a written script through `mmnames` and `mmsim`, and a talk, with nothing on the PATH
                  but the folder's programs and the system's

It needs Debian's scdoc and mandoc, and pip, setuptools and wheel for its Python; they are installed
where that may be, else the check says what it left out.
"""

from __future__ import annotations

import os
import re
import subprocess
import sys
import tempfile
from pathlib import Path

from common import PROGRAMS, TOP, Check, begin, debian, read, run, text

DEBIAN = "/usr/bin/python3"
PAGES = {**{name: 1 for name in (*PROGRAMS, "melzudek")}, "melzudek-script": 5, "melzudek-log": 5}
NEEDED = {
    "scdoc": "command -v scdoc",
    "mandoc": "command -v mandoc",
    "python3-pip": f"{DEBIAN} -c 'import pip'",
    "python3-setuptools": f"{DEBIAN} -c 'import setuptools'",
    "python3-wheel": f"{DEBIAN} -c 'import wheel'",
}
# what scdoc always writes, and mandoc would have otherwise
HABITS = re.compile(
    r"skipping paragraph macro: PP|input text line longer than 80 bytes|lower case character in"
)
TALK = b"machine 64 64 4 0\nprocess 0 32\nVirtualAlloc(1, 0, 4K, MEM_RESERVE, PAGE_READWRITE)\n"


class Place:
    """The folder that everything was installed into, and what can be run there."""

    def __init__(self, check: Check, prefix: str):
        self.check, self.prefix = check, prefix
        self.environment = {
            "PATH": f"{prefix}/bin:/usr/bin:/bin",
            "HOME": prefix,
            "LC_ALL": "C.UTF-8",
        }

    def run(self, words: list[str], given: bytes = b"") -> tuple[int, str, str]:
        ran = subprocess.run(
            words, input=given, capture_output=True, env=self.environment, cwd=self.prefix
        )
        return ran.returncode, ran.stdout.decode("utf-8", "replace"), ran.stderr.decode()

    def page(self, name: str) -> dict[str, str]:
        """A page as it is read, by its sections."""
        path = f"{self.prefix}/share/man/man{PAGES[name]}/{name}.{PAGES[name]}"
        _, shown, _ = self.run(["mandoc", "-T", "ascii", "-O", "width=400", path])
        plain = re.sub(r".\x08", "", shown)
        parts = re.split(r"^([A-Z][A-Z ]+)$", plain, flags=re.MULTILINE)
        return dict(zip(parts[1::2], parts[2::2]))


def install(check: Check, room: str) -> Place | None:
    """Installs into a folder that is not there yet; None where that fails."""
    prefix, programs = f"{room}/prefix", f"{room}/programs"
    os.mkdir(programs)
    for name in PROGRAMS:
        os.symlink(os.path.abspath(check.programs[name]), f"{programs}/{name}")
    ended = run([DEBIAN, "-B", "tools/install", "--bin", programs, prefix])
    said = (ended.out + ended.err).decode("utf-8", "replace").strip()
    if not check.holds("tools/install", ended.status == 0, said):
        return None
    check.holds("tools/install says which programs", programs in said, said)
    check.same("what it leaves in the sources", sorted(TOP.glob("python/**/*.egg-info")), [])
    return Place(check, prefix)


def try_pages(place: Place) -> None:
    """`man` finds each page by the PATH alone, and no page has more than scdoc's habits."""
    check = place.check
    for name, section in PAGES.items():
        path = f"{place.prefix}/share/man/man{section}/{name}.{section}"
        status, found, told = place.run(["man", "-w", str(section), name])
        check.same(f"man -w {name}", (status, found.strip()), (0, path))
        _, said, _ = place.run(["mandoc", "-T", "lint", path])
        bad = [line.partition(": ")[2] for line in said.splitlines() if not HABITS.search(line)]
        check.same(f"mandoc -T lint {name}", bad, [])
        status, shown, _ = place.run(["man", "-P", "cat", str(section), name])
        check.holds(f"man {name}", status == 0 and "SEE ALSO" in shown, told or shown[:80])
        for other in re.findall(r"([a-z-]+)\((\d)\)", place.page(name).get("SEE ALSO", "")):
            check.holds(f"{name}: see also", PAGES.get(other[0]) == int(other[1]), f"no {other}")


def forms(program: str, usage: str) -> list[str]:
    """The forms that a usage or a synopsis has, without the program's name and redirections."""
    found = re.split(r" \| |\n", usage)
    bare = (re.sub(r" ?2?[<>] \w+", "", it).strip() for it in found if it.strip())
    return sorted(it.removeprefix(program).strip() for it in bare)


def usage_of(place: Place, name: str) -> str:
    """What a program says of words that are no form."""
    _, out, err = place.run([name, "none such"])
    found = re.search(r"^usage: (.*)$", out + err, re.MULTILINE)
    return found[1] if found else ""


def compare_programs(place: Place) -> None:
    """Synopsis and statuses of each program's page are what the program says."""
    for name in PROGRAMS:
        page = place.page(name)
        usage = usage_of(place, name)
        place.check.same(f"{name}: synopsis", forms(name, page["SYNOPSIS"]), forms(name, usage))
        said = " ".join(place.run([name, "--help"])[1].partition("Statuses: ")[2].split())
        wanted = re.findall(r"(\d+) ([^;]+?)(?:;|\.$)", said)
        shown = re.findall(r"^ +(\d+)\s+(\S.*)$", page["EXIT STATUS"], re.MULTILINE)
        place.check.same(f"{name}: statuses", shown, wanted)


def compare_package(place: Place) -> None:
    """The parts of `melzudek` are those of the package, each with what it is for."""
    program = "import sys; sys.path.insert(0, sys.argv[1]); from melzudek.command import PARTS; "
    program += "[print(it.name, it.help, sep='\\t') for it in PARTS]"
    said = subprocess.run(
        [DEBIAN, "-Bc", program, str(TOP / "python")], capture_output=True, text=True
    )
    wanted = [tuple(line.split("\t")) for line in said.stdout.splitlines()]
    shown = place.page("melzudek")["DESCRIPTION"]
    place.check.same(
        "melzudek: parts", re.findall(r"^ {7}([a-z]+)\n +(\S.*)$", shown, re.MULTILINE), wanted
    )


def compare_rules(place: Place) -> None:
    """The forms of lines, kinds and moves are those of the rules."""
    rules = text("docs/PROFILE.md").replace("\\|", "\1")

    def first_cells(head: str) -> list[str]:
        rows = rules.partition(f"\n| {head}")[2].split("\n\n")[0].splitlines()[2:]
        cells = [it for row in rows for it in re.findall(r"`([^`]+)`", row.split(" | ")[0])]
        return sorted(it.replace("\1", "|") for it in cells)

    def shown(name: str, section: str) -> list[str]:
        rows = place.page(name)[section].splitlines()
        return sorted(it.strip() for it in rows if re.match(r" {9,}[a-z]+( [<\w|>. -]+)?$", it))

    lines = shown("melzudek-script", "PLAIN SCRIPTS")
    place.check.same("forms of lines", lines, first_cells("Line | Ranges"))
    kinds = shown("melzudek-log", "LINES OF THE SCRIPT")
    place.check.same("kinds", kinds, first_cells("Kind | Lines |"))
    moves = shown("melzudek-log", "MOVES")
    place.check.same("moves", sorted(set(moves)), sorted(set(first_cells("Move | Legal "))))


def try_completions(place: Place) -> None:
    """Each completion is known to bash, and gives the forms that the program's help lists."""
    folder = f"{place.prefix}/share/bash-completion/completions"

    def completed(name: str, *words: str) -> list[str]:
        typed = " ".join(f"'{it}'" for it in (name, *words))
        script = f". {folder}/{name}; complete -p {name}; COMP_WORDS=({typed}); "
        script += f"COMP_CWORD={len(words)}; _melzudek {name}; printf '%s\\n' \"${{COMPREPLY[@]}}\""
        status, said, told = place.run(["bash", "--norc", "-c", script])
        known, *found = said.splitlines() or [""]
        is_known = status == 0 and "-F _melzudek" in known and known.endswith(f" {name}")
        place.check.holds(f"complete -p {name}", is_known, told or said)
        return [it for it in found if it]

    for name in PROGRAMS:
        usage = usage_of(place, name)
        wanted = sorted({it.split(" ")[0] for it in forms(name, usage) if it})
        got = [it for it in completed(name, "") if not it.startswith("-")]
        place.check.same(f"{name}: forms are completed", sorted(got), wanted)
    parts = re.findall(r"^ {7}([a-z]+)$", place.page("melzudek")["DESCRIPTION"], re.MULTILINE)
    got = [it for it in completed("melzudek", "") if not it.startswith("-")]
    place.check.same("melzudek: parts are completed", sorted(got), sorted(parts))
    place.check.same("mmshow co", completed("mmshow", "co"), ["counts"])
    place.check.same("mmshow tell: bash completes a file", completed("mmshow", "tell", ""), [])
    found = "--into" in completed("melzudek", "talk", "--in")
    place.check.holds("melzudek talk --in", found, "--into is not completed")


def try_run(place: Place) -> None:
    """The programs and the package work from there, with the rules beside them."""
    check, lab = place.check, read("examples/lab.txt")
    status, plain, _ = place.run(["mmnames"], lab)
    check.same("mmnames", status, 0)
    status, answers, _ = place.run(["mmsim", "run"], plain.encode())
    check.same("mmsim", (status, answers), (0, text("examples/lab.answers")))
    status, said, told = place.run(["melzudek", "talk"], TALK + b"help alloc\n")
    check.same("melzudek talk", (status, told), (0, ""))
    check.holds("a talk's answer", "[MEM_RESERVE, PAGE_READWRITE]" in said, said)
    if run([DEBIAN, "-c", "import dask, distributed, pandas, tqdm"]).status == 0:
        words = ["sweep", str(TOP / "examples/first.mm"), "--vary", "frames=6,8", "--workers", "1"]
        status, rows, told = place.run(["melzudek", *words, "--refusals"])
        check.holds("melzudek sweep", status == 0 and len(rows.splitlines()) == 3, told[-300:])
    check.holds(
        "the rules beside the package", "alloc (VirtualAlloc). Type is" in said, said[-200:]
    )


def missing() -> list[str]:
    """The packages that are not there."""
    return [it for it, test in NEEDED.items() if run(["sh", "-c", f"{test} 2>&1"]).status]


def try_without_scdoc(check: Check) -> None:
    """Where scdoc is missing, what to install is said, and nothing is installed."""
    with tempfile.TemporaryDirectory(prefix="install-") as room:
        words = ["env", "PATH=/nowhere", DEBIAN, "-B", "tools/install", f"{room}/prefix"]
        ended = run(words)
        says = b"apt-get install scdoc" in ended.err and ended.status == 1
        check.holds("without scdoc", says, ended.err.decode())
        check.same("without scdoc nothing is installed", os.listdir(room), [])


def main() -> int:
    check = begin(__doc__, PROGRAMS)
    try_without_scdoc(check)
    for package in missing():
        debian(f"the command of {package}", package)
    if missing():
        check.leave_out(f"all the rest: {', '.join(missing())} cannot be installed here")
        return check.end()
    with tempfile.TemporaryDirectory(prefix="install-") as room:
        place = install(check, room)
        if place is not None:
            for part in PARTS:
                part(place)
    return check.end()


PARTS = (
    try_pages,
    compare_programs,
    compare_package,
    compare_rules,
    try_completions,
    try_run,
)

if __name__ == "__main__":
    sys.exit(main())
