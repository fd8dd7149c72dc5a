#!/usr/bin/env python3
"""Compares the facts about Windows in tests/windows/ with what the program says.

    python3 checks/windows.py --script NAME     prints the script of a row, to be run by hand

tests/windows/README.md says what a row is. The answers of the program, and of a model without
paging, are those of the row. The row says rightly whether Windows has others, so a change of either
shows. The README counts the rows of each file. docs/WINDOWS.md names each row that differs, says
how sure it is, and has both codes where only the code differs.
"""

from __future__ import annotations

import argparse
import re
import sys
from dataclasses import dataclass, field

from common import TOP, Check, begin, text

sys.path.insert(0, str(TOP / "checks/reference"))
sys.dont_write_bytecode = True
from unpaged import World  # noqa: E402

FOLDER, README, DOCUMENT = "tests/windows", "tests/windows/README.md", "docs/WINDOWS.md"
ROW = re.compile(
    r"^## (?P<name>[a-z0-9-]+)\n\n(?P<fact>.+)\n\n"
    r"\*(?P<sure>certain|likely|unsure); (?P<verdict>agrees|differs|differs in the code); "
    r"(?P<source>.+)\*\n\n"
    r"```[a-z]*\n(?P<lines>(?:(?!```).*\n)+)```$",
    re.MULTILINE,
)


# The last cell of a line of docs/WINDOWS.md that is about rows.
ROWS_OF = re.compile(r"\| ((?:`[a-z0-9-]+`, )+)(?:certain|likely|unsure) \|$")


@dataclass
class Fact:
    """A row: its script, the profile's answers, and for some lines Windows' own."""

    name: str
    sure: str
    verdict: str
    script: list[str] = field(default_factory=list)
    here: list[str] = field(default_factory=list)
    windows: dict[int, str] = field(default_factory=dict)

    def differing(self) -> str:
        """What the answers say: in the code, where both refuse and only the code differs."""
        both = [(self.here[at], answer) for at, answer in self.windows.items()]
        if not both:
            return "agrees"
        is_code = all(answer.startswith("error ") for pair in both for answer in pair)
        return "differs in the code" if is_code else "differs"

    def whole(self) -> str:
        """The script as a file has it."""
        return "".join(line + "\n" for line in self.script)


def fact_of(found: re.Match[str]) -> Fact:
    """A row as it is written."""
    fact = Fact(found["name"], found["sure"], found["verdict"])
    for line in found["lines"].splitlines():
        left, _, answer = re.sub(r" {2,}", "\t", line.strip()).partition("\t")
        if left == "Windows" and fact.here:
            fact.windows[len(fact.here) - 1] = answer
        else:
            fact.script.append(left)
            fact.here.append(answer)
    return fact


def facts_of(check: Check, name: str) -> list[Fact]:
    """The rows of a file; each heading of the second level is one."""
    read = text(f"{FOLDER}/{name}")
    facts = [fact_of(found) for found in ROW.finditer(read)]
    named = re.findall(r"^## (.*)$", read, re.MULTILINE)
    for lost in sorted(set(named) ^ {fact.name for fact in facts}):
        check.wrong(lost, f"{FOLDER}/{name} has no whole row of this name")
    return facts


def compare(check: Check, fact: Fact) -> None:
    """A row with the program's answers, and its verdict with its answers."""
    ended = check.run("mmsim", ["run"], fact.whole().encode())
    said = ended.out.decode().splitlines()
    other = [
        f"`{line}` is answered {got!r}, not {wanted!r}"
        for line, wanted, got in zip(fact.script, fact.here, [*said, *[""] * len(fact.script)])
        if got != wanted
    ]
    check.holds(fact.name, not other, "; ".join(other[:2]))
    world = World()
    for line, answer in zip(fact.script, fact.here):
        check.same(f"{fact.name}: `{line}` without paging", world.answer(line, answer), answer)
    is_whole = ended.status == 0 and len(said) == len(fact.script)
    check.holds(fact.name, is_whole, f"ends with status {ended.status} after {len(said)} answers")
    for at, answer in fact.windows.items():
        if answer == fact.here[at]:
            check.wrong(fact.name, f"Windows' answer to `{fact.script[at]}` is no other")
    check.same(f"{fact.name}: what it says of Windows", fact.verdict, fact.differing())


def compare_counts(check: Check, files: dict[str, list[Fact]]) -> None:
    """The README counts the rows, and no two have one name."""
    for file, facts in files.items():
        agree = sum(fact.verdict == "agrees" for fact in facts)
        counted = f"| [{file}]({file}) | {len(facts)} | {agree} | {len(facts) - agree} |"
        check.holds(file, counted in text(README), f"{README} does not say `{counted}`")
    names = [fact.name for facts in files.values() for fact in facts]
    twice = sorted({name for name in names if names.count(name) > 1})
    check.holds(FOLDER, not twice, f"two rows are named {', '.join(twice)}")


def compare_document(check: Check, files: dict[str, list[Fact]]) -> None:
    """docs/WINDOWS.md has each row that differs, with its certainty and its codes."""
    places = {fact.name: (file, fact) for file, facts in files.items() for fact in facts}
    named = set()
    for line in text(DOCUMENT).splitlines():
        cell = ROWS_OF.search(line)
        for name in re.findall(r"`([^`]*)`", cell[1]) if cell else ():
            if check.holds(name, name in places, f"{DOCUMENT} names it, and no row has the name"):
                named.add(name)
                compare_line(check, line, places[name][1])
    differ = sum(fact.verdict != "agrees" for _, fact in places.values())
    whole = " ".join(text(DOCUMENT).split())
    for told in (
        f"{len(places)} facts",
        f"{len(places) - differ} agree",
        f"The {differ} that differ",
    ):
        check.holds(DOCUMENT, told in whole, f"does not say `{told}`")
    for name, (_, fact) in places.items():
        if fact.verdict != "agrees":
            check.holds(name, name in named, f"differs, and {DOCUMENT} does not tell it")


def compare_line(check: Check, line: str, fact: Fact) -> None:
    """A line of a table in docs/WINDOWS.md, about a row that it names."""
    is_sure = line.endswith(f", {fact.sure} |")
    check.holds(fact.name, is_sure, f"is {fact.sure}, which {DOCUMENT} does not say")
    for at, answer in fact.windows.items():
        theirs, ours = (it.removeprefix("error ") for it in (answer, fact.here[at]))
        if fact.verdict == "differs in the code":
            codes = f"| {theirs} | {ours} |"
            check.holds(fact.name, codes in line, f"{DOCUMENT} does not say `{codes}`")


def main() -> int:
    parser = argparse.ArgumentParser(description=(__doc__ or "").split("\n")[0])
    parser.add_argument("--script", metavar="NAME", help="print the script of this row")
    check = begin(__doc__, () if "--script" in sys.argv else ("mmsim",), parser)
    names = sorted(it.name for it in (TOP / FOLDER).glob("*.md") if it.name != "README.md")
    files = {name: facts_of(check, name) for name in names}
    facts = [fact for some in files.values() for fact in some]
    if check.words.script:
        asked = [fact for fact in facts if fact.name == check.words.script]
        print("".join(fact.whole() for fact in asked), end="")
        return 0 if asked else 1
    for fact in facts:
        compare(check, fact)
    compare_counts(check, files)
    compare_document(check, files)
    differ = sum(fact.verdict != "agrees" for fact in facts)
    print(f"windows: {len(facts)} facts, {differ} of which differ from Windows as they say")
    return check.end()


if __name__ == "__main__":
    sys.exit(main())
