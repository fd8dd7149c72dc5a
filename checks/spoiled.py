#!/usr/bin/env python3
"""Spoils what the checks look at, one thing at a time, and sees that the check fails: run by hand.

    python3 checks/spoiled.py [--bin FOLDER] [--only CHECK]

Each spoil is made in a copy of the repository, with programs that call the real ones. The check
has to end with status 1 and say what is expected of it; on the copy without a spoil it has to pass.
Behind a check's name stand further words of it. Each check of checks/all.py has a spoil here, or
that is a difference. It takes some minutes, and is no part of the gate. Prints a table.
"""

from __future__ import annotations

import argparse
import os
import re
import shlex
import shutil
import subprocess
import sys
import tempfile
from concurrent.futures import ThreadPoolExecutor, as_completed
from pathlib import Path
from typing import Callable, NamedTuple

from common import ALL_PROGRAMS, PROGRAMS, TOP, begin, text

# What makes a check quicker where it would look at much, and checks that read the crates.
QUICK = {
    "documents": ["--quick"],
    "show": ["--few"],
    "drawn": ["--seed", "1", "--scripts", "10", "--lines", "1000"],
    "outside": ["--descriptors"],
    "web": ["--tried"],
}
# Checks that take their programs by place, and what is left out of them: a browser.
BY_PLACE = {"page": ("mmsim", "mmshow"), "traces": ("mmsim", "mmlog", "mmshow")}
LEFT = {"page": {"MELZUDEK_NO_BROWSER": "1"}}
WHOLE = ("faces", "prose", "documents")
KEPT = (".ci", "checks", "crates", "docs", "examples", "python", "tests", "tools", "web")


class Room:
    """A copy of the repository, and the programs that its checks are given.

    The crates are copied, and git is told of the copy, only for a check that reads them.
    """

    def __init__(self, folder: str, programs: dict[str, str], is_whole: bool):
        self.top = Path(folder) / "copy"
        self.bin = Path(folder) / "bin"
        self.bin.mkdir()
        leave = shutil.ignore_patterns("out", "__pycache__", ".git")
        for name in KEPT:
            if name == "crates" and not is_whole:
                (self.top / name).symlink_to(TOP / name)
            else:
                shutil.copytree(TOP / name, self.top / name, ignore=leave, symlinks=True)
        for path in TOP.iterdir():
            if path.is_file() and path.suffix not in (".log", ".html"):
                shutil.copy2(path, self.top / path.name)
        for words in (["init", "-q"], ["add", "-A"]) if is_whole else ():
            subprocess.run(["git", *words], cwd=self.top, check=True)
        self.real = programs
        for name in ALL_PROGRAMS:
            (self.bin / name).symlink_to(programs[name])

    def edit(self, path: str, old: str, new: str) -> None:
        """Puts a text in place of another, which has to be there."""
        whole = (self.top / path).read_text(encoding="utf-8")
        if old not in whole:
            raise ValueError(f"{path} has no {old!r}")
        (self.top / path).write_text(whole.replace(old, new, 1), encoding="utf-8")

    def add(self, path: str, more: str) -> None:
        """Adds to a file, or makes it."""
        with open(self.top / path, "a", encoding="utf-8") as file:
            file.write(more)

    def remove(self, path: str) -> None:
        (self.top / path).unlink()

    def program(self, name: str, body: str) -> None:
        """A shell script in place of a program; `$real` is the real one."""
        path = self.bin / name
        path.unlink()
        path.write_text(f"#!/bin/bash\nreal={self.real[name]}\n{body}\n", encoding="utf-8")
        path.chmod(0o755)

    def lose(self, name: str) -> None:
        (self.bin / name).unlink()

    def words(self, name: str, more: list[str]) -> list[str]:
        """The command of a check here."""
        if name == "memory":
            words = ["tools/refused-memory", "tests/rows/reserve-section.mm"]
            words += [it for kind in PROGRAMS for it in (f"--{kind}", str(self.bin / kind))]
            return [sys.executable, "-B", *words]
        if name == "run":
            return ["bash", ".ci/run"]
        if name in BY_PLACE:
            # (by its first line, where it needs Debian's packages)
            first = ["checks/traces"] if name == "traces" else [sys.executable, "checks/page.py"]
            return [*first, *(str(self.bin / it) for it in BY_PLACE[name])]
        words = [sys.executable, "-B", f"checks/{name}.py", "--bin", str(self.bin)]
        return [*words, *QUICK.get(name, []), *more]

    def check(self, asked: str) -> "tuple[int, str]":
        """The status and the output of a check here."""
        name, *more = asked.split()
        env = {**os.environ, "PATH": f"{self.bin}:{os.environ['PATH']}"}
        env.update(LEFT.get(name, {}), PYTHONDONTWRITEBYTECODE="1")
        if name == "run":
            env["MELZUDEK_BIN"] = str(self.bin)
        words = self.words(name, more)
        ended = subprocess.run(words, cwd=self.top, env=env, capture_output=True, timeout=1800)
        return ended.returncode, (ended.stdout + ended.stderr).decode(errors="replace")


class Spoil(NamedTuple):
    """What is spoiled for a check, how, and what it says then, as a pattern."""

    check: str
    what: str
    how: Callable[[Room], None]
    said: str


def piped(name: str, words: str, change: str) -> Callable[[Room], None]:
    """A program whose standard output is changed by sed, where its words match a pattern."""
    changed = f'"$real" "$@" | sed {shlex.quote(change)}; exit ${{PIPESTATUS[0]}}'
    body = f'if [[ "$*" == {words} ]]; then {changed}; fi'
    return lambda room: room.program(name, body + '\nexec "$real" "$@"')


def edited(path: str, old: str, new: str) -> Callable[[Room], None]:
    return lambda room: room.edit(path, old, new)


def stub(name: str, body: str) -> Callable[[Room], None]:
    return lambda room: room.program(name, body)


def unfaced(room: Room) -> None:
    """A proof that names a module of another crate."""
    words = [sys.executable, "-B", "checks/faces.py", "--write"]
    subprocess.run(words, cwd=room.top, capture_output=True, check=False)
    found = re.compile(r"^use Rattle\.(mm_\w+)\.specs\.\{(\w+)[^}]*\}$", re.MULTILINE)
    for path in sorted((room.top / "crates").glob("*/proofs/*.antt")):
        crate = path.parent.parent.name
        for it in found.finditer(path.read_text(encoding="utf-8")):
            face = (room.top / "crates" / it[1] / "specs/Lib.antt").read_text(encoding="utf-8")
            module = re.search(rf"pub use ([\w.]+)\.\{{[^}}]*\b{it[2]}\b", face)
            if it[1] != crate and module:
                more = f"use Rattle.{it[1]}.specs.{module[1]}.{{{it[2]}}}\n"
                path.write_text(more + path.read_text(encoding="utf-8"), encoding="utf-8")
                return
    raise ValueError("no proof to spoil")


def silent(room: Room) -> None:
    """A check that ends well and says nothing."""
    (room.top / "checks/words.py").write_text("#!/usr/bin/env python3\nprint()\n", encoding="utf-8")


def failing_rt(room: Room) -> None:
    """An `rt` that finds one crate wrong."""
    path = room.bin / "rt"
    path.write_text('#!/bin/bash\necho "54 passed, 1 failed"\nexit 1\n', encoding="utf-8")
    path.chmod(0o755)
    room.edit("checks/all.py", "names = words.names or", 'names = words.names or ["words"] or')


GUIDE = "docs/guide"
ALWAYS_YES = '"$real" "$@"\n[ $? -ne 2 ] || exit 2\nexit 0'
SPOILS = [
    Spoil("rows", "a stored answer", edited("tests/rows/grow.out", "ok", "ok 1"), "grow: answers"),
    Spoil("rows", "a stored move", edited("examples/hard-fault.log", "steal", "clear"), "moves"),
    Spoil("rows", "the column of a fault",
          edited("tests/rows/faults.txt", "19\talloc", "18\talloc"), "alloc 1 0 1 0x3000"),
    Spoil("rows", "a line's answer by prepared.mm",
          edited("tests/rows/lines.txt", "\tok 13 118", "\tok 12 118"), "charge"),
    Spoil("rows", "an mmsim that adds a page to each charge",
          piped("mmsim", "run", r"s/^ok 13 118$/ok 14 118/"), "charge"),
    Spoil("rows", "an mmlog that takes every log", stub("mmlog", ALWAYS_YES), "logs/.*status"),
    Spoil("rows", "the model: a guard that stays on",
          edited("checks/reference/unpaged.py", "row.guard = False\n        if page", "if page"),
          "without paging"),
    Spoil("rows", "no mmlog", lambda room: room.lose("mmlog"), "there is no program"),
    Spoil("examples", "an mmshow that always ends with 2", stub("mmshow", "exit 2"), "status"),
    Spoil("examples", "no mmshow", lambda room: room.lose("mmshow"), "there is no program"),
    Spoil("examples", "a word of a stored tell",
          edited("examples/full-set.tell", "working set", "working-set"), "tell"),
    Spoil("examples", "a file that nothing reads",
          lambda room: room.add("examples/first.odd", "x\n"), "no check knows"),
    Spoil("examples", "a script that no page names",
          edited("docs/guide/2-calls-and-protections.md", "/stack-grows.mm", "/stack.mm"), "names it"),
    Spoil("examples", "an answer to a script with Windows' names",
          edited("examples/heap.answers", "error 1455", "error 87"), "heap: answers"),
    Spoil("examples", "a word of what is told of a written script",
          edited("examples/heap.tell", "soft fault", "hard fault"), "heap: tell"),
    Spoil("words", "a usage line",
          edited("tests/rows/usage.txt", "faults | sums", "faults"), "mmshow"),
    Spoil("words", "an mmlog that knows help",
          stub("mmlog", '[ "$1" != help ] || exit 0\nexec "$real" "$@"'), "mmlog .'help"),
    Spoil("words", "an mmshow without frames above 9",
          stub("mmshow", '[[ "$*" != frame\\ ??* ]] || exit 2\nexec "$real" "$@"'), "frame"),
    Spoil("names", "no mmsim", lambda room: room.lose("mmsim"), "there is no program"),
    Spoil("names", "an mmnames that writes digits in lower case",
          piped("mmnames", "''", "s/0xABCDEF09/0xabcdef09/"), "0xabcDEF09"),
    Spoil("names", "what is told of a mistake",
          edited("tests/mistakes/mistakes.txt", "is 'read' meant?", "is 'raed' meant?"), "told"),
    Spoil("windows", "a verdict",
          edited("tests/windows/MapViewOfFile.md", "differs; Wine", "agrees; Wine"),
          "what it says of Windows"),
    Spoil("windows", "a count",
          edited("tests/windows/README.md", "| 31 | 22 | 9 |", "| 31 | 23 | 8 |"), "does not say"),
    Spoil("windows", "a row that differs and is told nowhere",
          edited("docs/WINDOWS.md", "`unmap-middle`", "`unmap-twice`"), "unmap"),
    Spoil("windows", "a sum of the document",
          edited("docs/WINDOWS.md", "184 agree", "185 agree"), "does not say `184 agree`"),
    Spoil("hostile", "an mmsim whose faults end with status 0",
          stub("mmsim", '"$real" "$@"\ns=$?\n[ $s -ne 3 ] || exit 0\nexit $s'), "byte"),
    Spoil("hostile", "an mmsim that fails no read",
          piped("mmsim", "run", "s/^raise 0xC0000006$/ok 00/"), "fail"),
    Spoil("outside", "an mmlog that looks at no write",
          stub("mmlog", '"$real" "$@" | cat 2>/dev/null\nexit ${PIPESTATUS[0]}'), "output full"),
    Spoil("outside", "an mmsim that goes on without its log",
          stub("mmsim", 'exec "$real" "$@" 2> >(cat >&2)'), "error (closed|full)"),
    Spoil("memory", "a rule: no memory for `map`",
          edited("tools/refused-memory", " open map grow", " open grow"), "asks for memory"),
    Spoil("drawn", "an mmsim that answers 487 for 1455",
          piped("mmsim", "run", "s/^error 1455$/error 487/"), "error 487, not error 1455"),
    Spoil("drawn", "an mmlog that tells another line",
          piped("mmlog", "check", "s/^no line .*1$/no line 1/"), "spoil"),
    Spoil("drawn", "an mmunpaged that chooses another address",
          stub("mmunpaged", '"$real" | sed "s/^ok 0x00010000/ok 0x00020000/"'), "unpaged ok"),
    Spoil("drawn", "an mmlog that counts one soft fault more",
          piped("mmlog", "check", "s/^soft \\(.*\\)$/soft 1\\1/"), "mmlog"),
    Spoil("show", "an mmshow without the form sums",
          stub("mmshow", '[ "$1" != sums ] || exit 2\nexec "$real" "$@"'), "sums"),
    Spoil("show", "an mmshow that counts hard faults as soft",
          piped("mmshow", "faults", "s/^\\(1  *all  *\\)[0-9]*/\\199/"), "faults"),
    Spoil("show", "a reason",
          edited("tests/rows/show/reasons.txt", "there are 2 file", "there are 3 file"), "by hand"),
    Spoil("faces", "a proof that names a module", unfaced, "names a module"),
    Spoil("prose", "a function in another crate",
          lambda room: room.add("docs/MODEL.md", "\nSee `run_log` of `mm_vad`.\n"), "run_log"),
    Spoil("prose", "a name that nothing declares",
          lambda room: room.add("README.md", "\nThe call `take_all_pages` does it.\n"),
          "take_all_pages"),
    Spoil("prose", "a crate that is not on the map",
          edited("docs/ARCHITECTURE.md", "mm_requests", "mm_queues"), "mm_requests is not on"),
    Spoil("documents", "an answer in README.md",
          edited("README.md", "ok 6F6E65", "ok 6F6E66"), "README.*answers"),
    Spoil("documents", "an answer below its line",
          edited(f"{GUIDE}/2-calls-and-protections.md", "0x00003000 0x00001000", "0x00002000 0x00001000"),
          "2-calls.*answers"),
    Spoil("documents", "a script with a name that is none",
          edited(f"{GUIDE}/3-sections-and-sharing.md", "FILE_MAP_COPY, 0", "FILE_MAP_COPIES, 0"),
          "3-sections.*what is wrong"),
    Spoil("documents", "what is said of a mistake",
          edited(f"{GUIDE}/1-first-steps.md", "is 'read' meant?", "is 'raed' meant?"), "is wrong"),
    Spoil("documents", "a line of a numbered script",
          edited(f"{GUIDE}/4-paging.md", "16  write 1 0x16000", "16  write 1 0x17000"), "numbered"),
    Spoil("documents", "a sentence of a part of a file",
          edited(f"{GUIDE}/4-paging.md", "soft fault: s0.0 is", "soft fault: s0.1 is"), "is no part"),
    Spoil("documents", "a block without tag or mark",
          lambda room: room.add("docs/GUIDE.md", "\n```\nnothing of the kind\n```\n"), "mark it"),
    Spoil("documents", "a number that is made again",
          edited(f"{GUIDE}/5-traces-and-sweeps.md", "has 300", "has 301"), "prints '300"),
    Spoil("documents", "a link",
          edited(f"{GUIDE}/5-traces-and-sweeps.md", "(../sort.svg)", "(../sorted.svg)"),
          "leads nowhere"),
    Spoil("documents", "a link to a heading",
          edited("docs/WRITTEN.md", "#4-script", "#4-scripts"), "has no heading"),
    Spoil("documents", "a command that leaves a file",
          edited(f"{GUIDE}/1-first-steps.md", "> heap-tell.out", "> heap-tell.txt"), "leave"),
    Spoil("documents", "a heading that the contents list has not",
          edited("docs/PROFILE.md", "## 10. A run", "## 10. Runs"), "PROFILE.md: contents"),
    Spoil("documents", "a part of the guide without contents",
          edited(f"{GUIDE}/4-paging.md", "Contents: ", "In this part: "), "no contents list"),
    Spoil("documents", "a part that the guide's first page does not list",
          lambda room: room.add(f"{GUIDE}/7-more.md", "# More\n\nContents: \n\n"), "GUIDE.md: parts"),
    Spoil("documents", "a part of the guide that is too long",
          lambda room: room.add(f"{GUIDE}/4-paging.md", "\nA line.\n" * 100), "at most 500"),
    Spoil("documents", "a README that is too large",
          lambda room: room.add("README.md", "\nA line.\n" * 200), "README.md: has .* at most 8"),
    Spoil("documents", "a crate's README that is too large",
          lambda room: room.add("crates/mm_bits/README.md", "\nA line.\n" * 300),
          "mm_bits/README.md: has .* at most 3"),
    Spoil("documents", "documents that are too large together",
          lambda room: room.add("docs/WRITTEN.md", "\nA line.\n" * 9000), "docs/: has .* at most"),
    Spoil("install", "a form that a page of the manual has not",
          edited("docs/man/mmlog.1.scd", "*mmlog where* _KEY_ < _LOG_", ""), "mmlog: synopsis"),
    Spoil("install", "a status of a page of the manual",
          edited("docs/man/mmlog.1.scd", "memory was refused", "memory ran out"),
          "mmlog: statuses"),
    Spoil("install", "completions that give no forms",
          edited("tools/completions.bash", "Commands|positional", "Forms|positional"),
          "forms are completed"),
    Spoil("install", "an installed program that is another",
          stub("mmsim", '[ "$1" != run ] || exit 0\nexec "$real" "$@"'), "install: mmsim"),
    Spoil("python --only style", "a function without types",
          lambda room: room.add("python/melzudek/errors.py", "\n\ndef same(it):\n    return it\n"),
          "mypy --strict ends"),
    Spoil("python --only style", "a line that is not laid out",
          lambda room: room.add("python/melzudek/errors.py", "\n\nWORDS = ( 1,2 )\n"),
          "black.*ends"),
    Spoil("python --only sweep", "an mmlog that counts one hard fault more",
          piped("mmlog", "check", "s/^hard .*$/hard 9999/"), "the counts of"),
    Spoil("page", "a page that is not the program's own",
          edited("web/page.html", "<html", "<html  "), "web/pack --check"),
    Spoil("page", "an mmshow that writes one more byte",
          piped("mmshow", "html*", "s/^<title>/<title> /"), "the page's bytes"),
    Spoil("page", "an mmshow that packs a write of a script as one of another process",
          piped("mmshow", "html*", "s/^L\\([=-~]\\)/K\\1/"), "the page's bytes"),
    Spoil("traces", "a number of a stored table",
          edited("examples/sort.table", "49,274", "49,275"), "examples/sort.table"),
    Spoil("traces", "a stored script",
          edited("examples/two-processes.mm", "age ", "age  "), "examples/two-processes.mm"),
    Spoil("wine", "a difference that the list has not",
          edited("tests/windows/results/wine-8.0-known.txt", "64 flush-free:3", "64 flush-free:4"),
          "wine: .*flush-free"),
    Spoil("wine", "an mmsim that answers 487 for 87",
          piped("mmsim", "run", "s/^error 87$/error 487/"), "wine: .*error"),
    Spoil("web", "a native mmlog that tells another line",
          piped("mmlog", "check", "s/^no line .*1$/no line 1/"), "web: mmlog.*differ"),
    Spoil("web", "a page whose worker is cut",
          edited("web/release/play.html", "postMessage", "postMesage"), "web: "),
    Spoil("tries", "a form of tools/try",
          edited("tools/try", '    "probe": ', '    "prob": '), "forms"),
    Spoil("all hostile", "a check that is missing",
          lambda room: room.remove("checks/hostile.py"), "0 passed, 1 failed"),
    Spoil("all words", "a check that says nothing",
          silent, "does not say"),
    Spoil("run", "an `rt ci` that fails", failing_rt, "55 passed, 1 failed"),
]  # fmt: skip


def is_whole(asked: str) -> bool:
    """Whether a check reads the crates, or writes among the sources."""
    return asked.split()[0] in WHOLE


def without_spoil() -> list[str]:
    """The checks of checks/all.py that nothing here spoils."""
    found = re.search(r'^CHECKS = """(.*?)"""', text("checks/all.py"), re.MULTILINE | re.DOTALL)
    spoiled = {it.check.split()[0] for it in SPOILS}
    return [it for it in (found[1].split() if found else ["CHECKS"]) if it not in spoiled]


def tried(spoil: Spoil, programs: dict[str, str]) -> tuple[bool, str]:
    """Whether the check refuses a spoil as expected, and the first line that it says."""
    with tempfile.TemporaryDirectory(prefix="spoiled-") as folder:
        room = Room(folder, programs, is_whole(spoil.check))
        try:
            spoil.how(room)
        except (OSError, ValueError) as wrong:
            return False, f"cannot be spoiled: {wrong}"
        status, said = room.check(spoil.check)
    found = re.search(rf"^.*{spoil.said}.*$", said, re.MULTILINE)
    shown = (found[0] if found else said[-200:]).replace(folder, "..").replace("\n", " ")
    return status == 1 and found is not None, shown[:110]


def unspoiled(name: str, programs: dict[str, str]) -> str:
    """What a check says of a copy that is not spoiled, where it does not pass; else nothing."""
    if name in ("faces", "run") or name.startswith("all "):
        return ""
    with tempfile.TemporaryDirectory(prefix="spoiled-") as folder:
        status, said = Room(folder, programs, is_whole(name)).check(name)
    return "" if status == 0 else said[-200:]


def main() -> int:
    parser = argparse.ArgumentParser(description=(__doc__ or "").split("\n")[0])
    parser.add_argument("--only", metavar="CHECK", help="the spoils of one check")
    parser.add_argument("--spoils", action="store_true", help="no copies without a spoil")
    parser.add_argument("--at-once", type=int, default=2, help="how many at once")
    check = begin(__doc__, PROGRAMS, parser)
    check.same("checks without a spoil", without_spoil(), [])
    spoils = [it for it in SPOILS if check.words.only in (None, it.check.split()[0])]
    names = sorted({it.check for it in spoils})
    with ThreadPoolExecutor(check.words.at_once) as pool:
        wholes = {}
        if not check.words.spoils:
            wholes = {name: pool.submit(unspoiled, name, check.programs) for name in names}
        results = {pool.submit(tried, it, check.programs): it for it in spoils}
        print("| Check | Spoil | What it says |\n|---|---|---|")
        for result in as_completed(results):
            spoil, (is_refused, shown) = results[result], result.result()
            print(f"| {spoil.check} | {spoil.what} | {shown.replace('|', '/')} |", flush=True)
            check.holds(f"{spoil.check}: {spoil.what}", is_refused, f"is not refused: {shown}")
        for name, whole in wholes.items():
            check.same(f"{name} without a spoil", whole.result(), "")
    return check.end()


if __name__ == "__main__":
    sys.exit(main())
