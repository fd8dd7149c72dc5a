#!/usr/bin/env python3
"""Makes the calls of all rows of tests/windows, and of 60 drawn scripts, under Wine:
checks/wine.py [MMSIM | --bin FOLDER]

Wine is no Windows. Each line that it answers otherwise than Windows as the row says, or than the
simulator in a drawn script, stands in a list with its reason (tests/windows/results). The list is
exact: a line that is not in it fails, and so does one whose difference is gone.

    --write              writes the lists anew; what has no reason is marked ?, and fails
    --seeds FIRST LAST   other drawn scripts, of 100 lines each: each difference needs a reason
    --scripts FILE..     likewise scripts of one's own

Needs wine64 and gcc-mingw-w64-x86-64 (Debian's names, 670 MB). Where they are not installed they
are installed, if this is root and there is an apt-get; else the check is left out. With a 32-bit
Wine the 32-bit program is compared too.
"""

from __future__ import annotations

import os
import re
import shutil
import subprocess
import sys
import tempfile
from pathlib import Path
from typing import Iterator

TOP = Path(__file__).resolve().parent.parent
TOOLS, RESULTS = TOP / "tools" / "windows", TOP / "tests" / "windows" / "results"
DOCUMENT = TOP / "docs" / "WINDOWS.md"
# The last cell of a line of docs/WINDOWS.md that is about rows.
ROWS_OF = re.compile(r"\| ((?:`[a-z0-9-]+`, )+)(?:certain|likely|unsure) \|$")
sys.path[:0] = [str(TOOLS), str(TOP / "checks")]

import draw  # noqa: E402
import held  # noqa: E402
import reasons  # noqa: E402
from common import apt  # noqa: E402

PACKAGES = ["wine64", "gcc-mingw-w64-x86-64"]
COMPILER, COMPILER_32 = "x86_64-w64-mingw32-gcc", "i686-w64-mingw32-gcc"
PLACES_64 = ["/usr/lib/wine/wine64", "wine64", "wine"]
PLACES_32 = ["/usr/lib/wine/wine", "/usr/lib/i386-linux-gnu/wine/wine"]
SCRIPTS, LINES = 60, 60
# "64 ROW:LINE" or "drawn SCRIPT:LINE", to the line, the expected answer, Wine's, and the reason.
Known = dict[str, list[str]]


def found(places: list[str]) -> str | None:
    return next((path for place in places if (path := shutil.which(place))), None)


def quietly(command: list[str], environment: dict[str, str], seconds: int) -> None:
    """Runs a command without any pipe, which what it leaves running would keep open."""
    try:
        subprocess.run(
            command,
            env=environment,
            stdin=subprocess.DEVNULL,
            stdout=subprocess.DEVNULL,
            stderr=subprocess.DEVNULL,
            timeout=seconds,
        )
    except subprocess.TimeoutExpired:
        return


def installed() -> bool:
    """Whether Wine and the compiler are here; where they are not, tries to install them."""
    if found(PLACES_64) and shutil.which(COMPILER):
        return True
    apt(PACKAGES, 1200)
    return bool(found(PLACES_64) and shutil.which(COMPILER))


class Wine:
    """A Wine with a prefix of its own, which is ended and removed at the end."""

    def __init__(self, room: Path) -> None:
        self.room, self.pack = room, room / "pack"
        hidden = ("DISPLAY", "WAYLAND_DISPLAY")
        base = {name: value for name, value in os.environ.items() if name not in hidden}
        base |= {"WINEDEBUG": "-all", "WINEDLLOVERRIDES": "mscoree,mshtml="}
        base["TMPDIR"] = str(room)  # where the server has its socket
        # Each program has a prefix of its own kind, so that the 32-bit one is on a 32-bit system.
        self.environments = {
            bits: base | {"WINEPREFIX": str(room / f"prefix{bits}"), "WINEARCH": f"win{bits}"}
            for bits in (64, 32)
        }
        programs = [
            "real64.exe",
            *(["real32.exe"] if found(PLACES_32) and shutil.which(COMPILER_32) else []),
        ]
        pack = [str(TOOLS / "pack"), str(self.pack), *programs]
        ran = subprocess.run(pack, stdout=subprocess.PIPE, stderr=subprocess.STDOUT, text=True)
        if ran.returncode:
            raise RuntimeError(ran.stdout.strip())

    def start(self) -> None:
        """The first start makes the prefixes, which takes some seconds."""
        for bits, environment in self.environments.items():
            command = self.command(bits)
            if command:
                quietly([command[0], "wineboot", "-i"], environment, 300)

    def run(self, command: list[str], bits: int) -> subprocess.CompletedProcess[bytes]:
        return subprocess.run(
            command,
            cwd=self.pack,
            env=self.environments[bits],
            stdin=subprocess.DEVNULL,
            stdout=subprocess.PIPE,
            stderr=subprocess.DEVNULL,
            timeout=600,
        )

    def command(self, bits: int) -> list[str] | None:
        loader = found(PLACES_64 if bits == 64 else PLACES_32)
        return (
            [loader, f"real{bits}.exe", "--stacks"]
            if loader and (self.pack / f"real{bits}.exe").exists()
            else None
        )

    def result(self, bits: int) -> str | None:
        """The file of results that the program writes for all rows; None where there is no such
        Wine.
        """
        command = self.command(bits)
        if not command:
            return None
        ran = self.run([*command, "rows.txt", "result.txt"], bits)
        if ran.returncode not in (0, 1):
            raise RuntimeError(f"real{bits}.exe ended with status {ran.returncode}")
        return (self.pack / "result.txt").read_text("ascii")

    def end(self) -> None:
        server = found(["wineserver", "/usr/lib/wine/wineserver64", "/usr/lib/wine/wineserver"])
        for bits, environment in self.environments.items():
            if server and (self.room / f"prefix{bits}").exists():
                quietly([server, "-k"], environment, 60)
                quietly([server, "-w"], environment, 60)


# ---- rows ----


def rows_of(pack: Path) -> dict[str, tuple[list[str], list[str]]]:
    """The rows that were packed: the lines of each, and the simulator's answers."""
    rows: dict[str, tuple[list[str], list[str]]] = {}
    for text in (pack / "rows.txt").read_text("ascii").splitlines():
        if text.startswith("# "):
            name = text.split()[2]
            rows[name] = ([], [])
        else:
            line, answer = text.split("\t")[:2]
            rows[name][0].append(line)
            rows[name][1].append(answer)
    return rows


def otherwise(result: str) -> Iterator[tuple[str, int, str, str, str]]:
    """The lines of a file of results that are otherwise: the row, the line's number, the line, the
    row's answer, this system's.
    """
    name = ""
    for text in result.splitlines():
        if text.startswith("  ") and " | this system: " in text and name:
            head, row, real = text.strip().split(" | ")
            at, _, line = head.partition(": ")
            yield name, int(at), line, row.partition(": ")[2], real.partition(": ")[2]
        elif ".md " in text and ": " in text:
            name = text.split(": ")[0].split()[1]


def reason_in_row(lines: list[str], at: int, real: str, simulate: held.Simulate) -> str:
    """The reason that explains an answer to a line of a row, or "" where none does."""
    for number, case in held.Script("row", lines, simulate).cases():
        if number == at - 1:
            return (
                (reasons.explain(case, real) or reasons.after(case, real) or "")
                if real != case.said
                else ""
            )
    return ""


def differences_of_rows(
    wine: Wine, bits: int, result: str, simulate: held.Simulate, known: Known
) -> Known:
    rows = rows_of(wine.pack)
    told: Known = {}
    for name, at, line, row, real in otherwise(result):
        key = f"{bits} {name}:{at}"
        reason = reason_in_row(rows[name][0], at, real, simulate)
        told[key] = [line, row, real, reason or known.get(key, ["?"])[-1]]
    return told


# ---- drawn scripts ----


def differences_of_scripts(
    scripts: list[tuple[str, list[str]]], wine: Wine, simulate: held.Simulate
) -> tuple[Known, int]:
    command = wine.command(64) or []
    found_ones, compared = held.hold(
        scripts, simulate, held.system(command, wine.pack, wine.environments[64])
    )
    return {
        f"drawn {one.script}:{one.at}": [one.line, one.said, one.real, one.reason or "?"]
        for one in found_ones
    }, compared


def drawn(first: int, last: int, lines: int) -> list[tuple[str, list[str]]]:
    return [(str(seed), draw.script(seed, lines)) for seed in range(first, last + 1)]


# ---- what the documents tell of the results ----


def outcomes() -> dict[str, dict[str, list[str]]]:
    """For each system that has files of results ("Wine 8.0") and each row what it came to, in the
    64-bit and in the 32-bit program.
    """
    found_ones: dict[str, dict[str, list[str]]] = {}
    for path in sorted(RESULTS.glob("*-??.txt")):
        name, version_of_it = path.stem[:-3].split("-", 1)
        rows = found_ones.setdefault(f"{name.capitalize()} {version_of_it}", {})
        for text in path.read_text("ascii").splitlines():
            row = re.match(r"\S+\.md (\S+): ([^,]+),", text)
            if row:
                rows.setdefault(row[1], []).append(row[2])
    return found_ones


def seen(names: list[str], systems: dict[str, dict[str, list[str]]]) -> str:
    """On which systems Windows' answers of some rows were seen, as the tables of docs/WINDOWS.md
    have it.
    """
    told = []
    for system, rows in systems.items():
        came = [rows.get(name, []) for name in names]
        if any("otherwise" in one for one in came):
            told.append(f"not {system}")
        elif all("as WINDOWS.md says" in one for one in came):
            told.append(system)
        elif any("as WINDOWS.md says" in one for one in came):
            told.append(f"{system} in part")
    return ", ".join(told) or "no"


def result_row(path: Path) -> str:
    """The row of docs/WINDOWS.md that tells of a file of results."""
    name, version_of_it = path.stem[:-3].split("-", 1)
    text = path.read_text("ascii")
    sums = re.search(r"^all +(\d+) +(\d+) +(\d+) +(\d+) +(\d+)$", text, re.MULTILINE)
    lines = re.search(r"^lines (\d+), compared (\d+)$", text, re.MULTILINE)
    cells = [
        f"{name.capitalize()} {version_of_it}",
        f"{path.stem[-2:]} bits",
        *(sums.groups() if sums else ()),
        lines[2] if lines else "",
    ]
    return "| " + " | ".join(cells) + f" | [{path.name}](../tests/windows/results/{path.name}) |"


def compare_document() -> list[str]:
    """What docs/WINDOWS.md does not tell as the files of results have it."""
    wrong, systems = [], outcomes()
    text = DOCUMENT.read_text("ascii").splitlines()
    for line in text:
        cell = ROWS_OF.search(line)
        names = re.findall(r"`([^`]*)`", cell[1]) if cell else []
        if names and f" | {seen(names, systems)} | `" not in line:
            wrong.append(
                f"docs/WINDOWS.md: {names[0]}: its column Seen is to be `{seen(names, systems)}`"
            )
    wrong += [
        f"docs/WINDOWS.md: lacks `{row}`"
        for path in sorted(RESULTS.glob("*-??.txt"))
        if (row := result_row(path)) not in text
    ]
    return wrong


# ---- what is stored ----


def read_known(path: Path) -> Known:
    if not path.exists():
        return {}
    return {
        text.split("\t")[0]: text.split("\t")[1:]
        for text in path.read_text("ascii").splitlines()
        if "\t" in text
    }


def write_known(path: Path, known: Known) -> None:
    head = "Lines that Wine answers otherwise: script and line, the line, "
    head += "the row's answer (of a drawn script the simulator's), Wine's, the reason.\n"
    path.write_text(
        head + "".join("\t".join([key, *parts]) + "\n" for key, parts in known.items()), "ascii"
    )


def reasons_told() -> set[str]:
    """The reasons that tests/windows/results/README.md has in its tables."""
    return {
        text.split("`")[1]
        for text in (RESULTS / "README.md").read_text("ascii").splitlines()
        if text.startswith("| `")
    }


def compare_known(told: Known, known: Known) -> list[str]:
    """What differs between the lines that were found and those that are stored, and which have no
    reason.
    """
    wrong = []
    for key in told.keys() | known.keys():
        if key not in known:
            wrong.append(f"{key}: {' | '.join(told[key])}: stands in no list")
        elif key not in told:
            wrong.append(f"{key}: {known[key][0]}: is listed, and Wine answers as was expected")
        elif told[key] != known[key]:
            wrong.append(f"{key}: {' | '.join(told[key])}: the list has {' | '.join(known[key])}")
    names = reasons_told()
    wrong += [f"{key}: {parts[0]}: no reason" for key, parts in told.items() if parts[-1] == "?"]
    wrong += [
        f"{parts[-1]}: no such reason in tests/windows/results/README.md"
        for parts in told.values()
        if parts[-1] not in names | {"?"}
    ]
    return sorted(set(wrong))


def compare_text(name: str, text: str, stored: Path) -> list[str]:
    """The lines in which a file of results is not the stored one."""
    had = stored.read_text("ascii").splitlines() if stored.exists() else []
    got = text.splitlines()
    return [
        f"{name}: has `{line}`, which is stored otherwise" for line in got if line not in had
    ] + [f"{name}: `{line}` is stored, and gone" for line in had if line not in got]


def version(result: str) -> str:
    """The system as a result's first line names it: "wine-8.0"."""
    return result.split(",")[0]


def lists(result: str) -> tuple[Path, Known, bool]:
    """The list of this version of Wine, what is in it, and whether it is there. Where it is not, the
    reasons of the newest other one are taken.
    """
    path = RESULTS / f"{version(result)}-known.txt"
    others = sorted(RESULTS.glob("wine-*-known.txt"))
    return path, read_known(path if path.exists() or not others else others[-1]), path.exists()


def check_all(wine: Wine, simulate: held.Simulate, write: bool) -> tuple[int, list[str]]:
    """Rows and drawn scripts against what is stored: how many lines were compared, and what
    differs. Of a Wine of which nothing is stored only the reasons are asked for.
    """
    results = {bits: result for bits in (64, 32) if (result := wine.result(bits)) is not None}
    path, known, is_listed = lists(results[64])
    wrong: list[str] = []
    told: Known = {}
    for bits, result in results.items():
        stored = RESULTS / f"{version(result)}-{bits}.txt"
        told |= differences_of_rows(wine, bits, result, simulate, known)
        if write:
            stored.write_text(result, "ascii")
        if is_listed or write:
            wrong += compare_text(stored.name, result, stored)
    of_scripts, lines = differences_of_scripts(drawn(1, SCRIPTS, LINES), wine, simulate)
    told |= of_scripts
    ran = {"drawn", *(str(bits) for bits in results)}
    if write:
        kept = {key: parts for key, parts in known.items() if key.split()[0] not in ran}
        write_known(path, told | (kept if is_listed else {}))
        known = read_known(path)
    if is_listed or write:
        asked = {key: parts for key, parts in known.items() if key.split()[0] in ran}
    else:
        print(f"wine: nothing is stored of {version(results[64])}: only reasons are compared")
        asked = told
    compared = sum(int(result.partition("compared ")[2].split()[0]) for result in results.values())
    return compared + lines, wrong + compare_known(told, asked) + compare_document()


def check_scripts(
    scripts: list[tuple[str, list[str]]], wine: Wine, simulate: held.Simulate
) -> tuple[int, list[str]]:
    """Other scripts: each difference needs a reason, and is printed with it."""
    told, compared = differences_of_scripts(scripts, wine, simulate)
    for key, parts in told.items():
        print(f"wine: {key}: {' | '.join(parts)}")
    return compared, [
        f"{key}: {parts[0]}: no reason" for key, parts in told.items() if parts[-1] == "?"
    ]


def scripts_asked(arguments: list[str]) -> list[tuple[str, list[str]]]:
    if arguments[0] == "--seeds":
        return drawn(int(arguments[1]), int(arguments[2]), 100)
    return [
        (Path(path).stem, Path(path).read_text("latin-1").splitlines()) for path in arguments[1:]
    ]


def program_of(arguments: list[str]) -> str:
    """The simulator: the first word, or that of --bin FOLDER, or of the folder MELZUDEK_BIN, or
    the one that the gate built.
    """
    if arguments[:1] == ["--bin"] and len(arguments) > 1:
        folder = arguments[1]
        del arguments[:2]
        return os.path.join(folder, "mmsim")
    if arguments and not arguments[0].startswith("-"):
        return arguments.pop(0)
    built = str(TOP / "crates" / "mmsim" / "out")
    return os.path.join(os.environ.get("MELZUDEK_BIN", built), "mmsim")


def main(arguments: list[str]) -> int:
    arguments = list(arguments)
    mmsim = program_of(arguments)
    if not installed():
        print(
            "wine: left out, as Wine is not installed and cannot be"
            f" (apt-get install {' '.join(PACKAGES)}): 0 compared, no differences"
        )
        return 0
    if not os.access(mmsim, os.X_OK):
        print(f"wine: there is no {mmsim}: build it, or name one\nwine: 0 compared, 1 differences")
        return 1
    simulate = held.simulator(mmsim)
    with tempfile.TemporaryDirectory(prefix="wine-") as room:
        wine = Wine(Path(room))
        try:
            wine.start()
            if arguments[:1] in (["--seeds"], ["--scripts"]):
                compared, wrong = check_scripts(scripts_asked(arguments), wine, simulate)
            else:
                compared, wrong = check_all(wine, simulate, "--write" in arguments)
        finally:
            wine.end()
    for one in wrong:
        print(f"wine: {one}")
    print(f"wine: {compared} compared, {len(wrong) or 'no'} differences")
    return bool(wrong)


if __name__ == "__main__":
    sys.exit(main(sys.argv[1:]))
