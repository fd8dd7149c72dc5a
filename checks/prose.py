#!/usr/bin/env python3
"""What the documents name in backquotes is declared where the sentence says it is.

Of README.md, CONTRIBUTING.md, docs/ and each README of a crate, blocks apart:

  - a file or a folder is there;
  - a name is a definition, a function, a clause, a field, a case or a module of some crate, a
    function of a tool, or one of the words below (VOCABULARY, and the lines of docs/PROFILE.md);
  - `a` and `b` of `mm_x`, `mm_x`'s `a`, `mm_x::a`, and `mm_x`: `a` (`b`): declared in that crate;
    `a` in `mm_x`: a word of its sources;
  - in a crate's README: declared in that crate, in one below it, or in one that the sentence names.

docs/ARCHITECTURE.md has a row for each crate of crates.txt, with the crates right below it, and a
map with each of them. README.md names the kit's libraries, and counts the facts about Windows.
"""

from __future__ import annotations

import re
import subprocess
import sys
from collections import defaultdict
from pathlib import Path

from common import TOP, Check, begin, table, text
from documents import BLOCK, pages

DECLARES = """fn ensures requires struct enum trait const type mod record data pub abbrev unfoldable
ghost impl for let static function class def interface""".split()
DECLARED = re.compile(r"(?=\b(?:" + "|".join(DECLARES) + r")\s+([A-Za-z_]\w*))")
FIELD = re.compile(r"\b([A-Za-z_]\w*) ?: ")
CASE = re.compile(r"^\s*(?:\| ?)?([A-Z]\w*)\b(?=[,({ ]|$)", re.MULTILINE)
NAME = re.compile(r"[A-Za-z_]\w*(?:(?:::|\.)[A-Za-z_]\w*)*")
COMMENT = re.compile(r"<!--.*?-->", re.DOTALL)
# Programs and words that no source here declares: other programs, the kit's, the language's and
# Windows' names, words that a script, a log or a table may have.
VOCABULARY = set(
    """
sh text rt antt clang git valgrind callgrind chromium python3 bash sed awk diff paste cmp sort wc
grep tee
black mypy apt select wine32 rlib real32.exe real64.exe realloc malloc alloc_zeroed ptr copy_nonoverlapping swap_remove position subst
Ok Err None Some Option Result Vec Box String Debug Case Error core std_alloc alloc
true false match let return loop while impl for fn type mut pub use mod where self requires ensures
ghost unfoldable data record abbrev specs proofs src All Unit Bool Nat IfOk the_type nat_le nat_lt
add drop clear steal give read got bad map unmap soil write wrote lost at
zeroed free standby modified active transition hard soft zero writes reused lru optimum steals
machine process exit file protect query create createfile open close flush exec begin resume
io trim age writer zeroer fail charge counts grow watch resetwatch stack probe access thread unbind
call busy full fault pending ok error raise none dead slot block frame line yes moves
run bulk check tell events synchronous fifo clock state key faults sums html lines talk help version small large
manage undo quit
fromkeys dict try_get_matches_from named NAME regional tactic ap cc omega rw else unsafe args stdin
stdout resize
with_capacity circular_buffer from_residual matches ret heap maximum Lcg64Xsh32 __try __chkstk
_resetstkoflw
""".split()
)
# Names of the kit's own library and of its notation.
KIT = set("Rattle std prelude Prelude core Source S x2 OnErr take_rest Self goal at".split())
PREFIXES = "Nt|Mm|Mi|Rtl|Virtual|Create|Open|Map|Unmap|Flush|Get|Reset|Close|Exit"
WINDOWS = re.compile(rf"[A-Z][A-Z0-9]*(_[A-Z0-9]+)+|({PREFIXES})[A-Z]\w+")


class Sources:
    """What each crate declares, which words it has, and which crates are below it."""

    def __init__(self) -> None:
        words = ["git", "ls-files", "-z", "--cached", "--others", "--exclude-standard"]
        listed = subprocess.run(words, cwd=TOP, capture_output=True, check=True).stdout.decode()
        self.files = [it for it in listed.split("\0") if it and (TOP / it).is_file()]
        self.declared: dict[str, set[str]] = defaultdict(set)
        self.words: dict[str, set[str]] = defaultdict(set)
        self.tools: set[str] = set()
        for path in self.files:
            self.read(path)
        self.anywhere = set().union(*self.declared.values()) | self.tools
        self.below: dict[str, list[str]] = {}
        for line in text("crates.txt").splitlines():
            name, found, rest = line.split("#")[0].partition(":")
            if found:
                self.below[name.strip()] = rest.split()
        usages = " ".join(line for _, line in table("tests/rows/usage.txt"))
        self.placeholders = set(re.findall(r"\b[A-Z]+\b", usages))
        self.libraries = set().union(*self.below.values()) - set(self.below)

    def read(self, path: str) -> None:
        """Notes what a file declares."""
        crate = re.match(r"crates/(\w+)/(?:src|specs|proofs|must-fail)/(.*)", path)
        is_tool = re.match(r"(tools|checks|web|python)/|\.ci/", path) and not path.endswith(
            (".png", ".xz", ".wasm")
        )
        if crate:
            read = text(path)
            names = self.declared[crate[1]]
            names.update(re.findall(r"\w+", crate[2]))
            for pattern in (DECLARED, FIELD, CASE):
                names.update(pattern.findall(read))
            self.words[crate[1]].update(re.findall(r"\w+", read))
        elif is_tool:
            read = text(path)
            self.tools.update(re.findall(r"\w+", path))
            self.tools.update(DECLARED.findall(read))
            self.tools.update(re.findall(r"^([A-Z_]+) =", read, re.MULTILINE))

    def all_below(self, name: str) -> set[str]:
        """A crate and all that it is built on."""
        found = {name}
        for other in self.below.get(name, []):
            if other not in found:
                found |= self.all_below(other)
        return found

    def is_known(self, name: str) -> bool:
        """Whether a name is a crate, a library, or a word that every reader has."""
        if (
            name in self.below
            or name in self.libraries
            or name in VOCABULARY | KIT | self.placeholders
        ):
            return True
        return WINDOWS.fullmatch(name) is not None or len(name) == 1


def prose(document: str) -> str:
    """A document without its blocks, its comments, and rows that are marked as to be filled in."""
    rows = [it for it in text(document).splitlines() if not ("TODO-LEAD" in it and it[:2] == "| ")]
    return COMMENT.sub("", BLOCK.sub("", "\n".join(rows) + "\n"))


def named(read: str) -> list[str]:
    """All that is in backquotes."""
    return re.findall(r"`([^`\n]+)`", read)


def parts(said: str) -> list[str]:
    """The names of a path."""
    return re.split(r"::|\.", said)


# Files

TOP_FOLDERS = "|".join(
    sorted(re.escape(it.name) for it in TOP.iterdir() if it.is_dir() and it.name != ".git")
)
FILE = re.compile(rf"(?:{TOP_FOLDERS})/[\w./-]+")
OWN_FILE = re.compile(r"(?:src|specs|proofs|must-fail)/[\w/.-]+")
WRITTEN = re.compile(r"\.(mm|out|log|stdout|html|svg|csv|txt)$")
NO_FILE = re.compile(r"NAME|\*|^out/|/out/|/out$")


def is_there(document: str, said: str) -> bool:
    """Whether a file that is named is there; some endings, and the own crate, may be left out."""
    plain = said.rstrip("/")
    folder = TOP if FILE.fullmatch(said) else (TOP / document).parent
    return any((folder / f"{plain}{ending}").exists() for ending in ("", ".py", ".antt", ".rt"))


def compare_file(check: Check, document: str, said: str) -> bool:
    """Compares a name of a file; whether it was one."""
    is_own = document.startswith("crates/") and OWN_FILE.fullmatch(said) is not None
    if not is_own and (not FILE.fullmatch(said) or NO_FILE.search(said)):
        return False
    check.holds(document, is_there(document, said), f"`{said}` is not there")
    return True


# Names


def compare_names(check: Check, sources: Sources, document: str) -> None:
    """Each name of a document is declared somewhere, or a word that every reader has."""
    for said in named(prose(document)):
        if compare_file(check, document, said) or not NAME.fullmatch(said):
            continue
        is_file = (
            WRITTEN.search(said)
            or (TOP / said).exists()
            or any(it.endswith("/" + said) for it in sources.files)
        )
        lost = [it for it in parts(said) if it not in sources.anywhere and not sources.is_known(it)]
        check.holds(document, bool(is_file) or not lost, f"`{said}` is declared nowhere")


LIST = r"((?:`[^`\n]+`(?: \([^()\n]*\))?(?:, (?!and )| and (?=`))?)+)"
ATTRIBUTIONS = (
    (re.compile(LIST + r" of `(mm_\w+)`"), 1, 2),
    (re.compile(r"`(mm_\w+)`'s (`[^`\n]+`)"), 2, 1),
    (re.compile(r"`(mm_\w+)::(?=([\w:]+)`)"), 2, 1),
)
INSIDE = re.compile(LIST + r" in `(mm_\w+)`(?!\w)")


def compare_places(check: Check, sources: Sources, document: str) -> None:
    """Names that a sentence puts in a crate are declared there."""
    read = prose(document).replace("\n", " ")
    for pattern, names, place in ATTRIBUTIONS:
        for found in pattern.finditer(read):
            if found[place] in sources.below:
                of_it = named(found[names]) or [found[names]]
                plain = [it for it in of_it if not it.startswith("mm_")]
                compare_declared(check, sources, document, found[place], plain)
    for found in INSIDE.finditer(read):
        if found[2] in sources.below:
            words = sources.words[found[2]] | sources.declared[found[2]]
            for said in filter(NAME.fullmatch, named(found[1])):
                lost = [it for it in parts(said) if it not in words and not sources.is_known(it)]
                check.holds(document, not lost, f"`{said}` is no word of {found[2]}")
    for crate, rest in re.findall(r"`(mm_?[a-z_]+)`: ((?:[^;|`\n]|`[^`\n]+`)*)", prose(document)):
        if crate in sources.below and "not in" not in rest:
            listed = named(rest.split("`mm_")[0])
            compare_declared(check, sources, document, crate, listed, sources.words[crate])


def compare_declared(
    check: Check,
    sources: Sources,
    document: str,
    crate: str,
    names: list[str],
    more: "set[str] | None" = None,
) -> None:
    """Names that are declared in one crate, or that its clauses cite with a capital."""
    cited = {it for it in more or () if it[:1].isupper()}
    for said in filter(NAME.fullmatch, names):
        lost = [
            it
            for it in parts(said)
            if it not in sources.declared[crate] | cited and not sources.is_known(it)
        ]
        check.holds(document, not lost, f"`{said}` is not in {crate}")


def compare_readme(check: Check, sources: Sources, document: str) -> None:
    """A crate's README names what the crate or one below declares, or the crate that does."""
    crate = document.split("/")[1]
    own = set().union(*(sources.declared[it] for it in sources.all_below(crate)))
    for sentence in re.split(r"(?<=[.:;])\s|\n\n|\n(?=[|-])", prose(document)):
        said_of = [it for it in re.findall(r"\bmm\w+", sentence) if it in sources.below]
        here = own.union(*(sources.declared[it] for it in said_of)) | sources.tools
        for said in filter(NAME.fullmatch, named(sentence)):
            lost = [it for it in parts(said) if it not in here and not sources.is_known(it)]
            told = f"`{said}` is in no crate below {crate}, and the sentence names no other"
            check.holds(document, not lost, told)


# Crates


def compare_crates(check: Check, sources: Sources, document: str) -> None:
    """The table of crates, with those right below each, and the map."""
    rows: dict[str, list[str]] = {}
    for line in text(document).splitlines():
        row = re.match(r"\| `(mm\w+)` \| .*? \| ((?:[`*]\w+[`*](?:, )?)+|nothing) \|", line)
        if row and (row[1] in sources.below or "TODO-LEAD" not in line):
            rows[row[1]] = re.findall(r"\w+", row[2].replace("nothing", ""))
    chart = next((it["body"] for it in BLOCK.finditer(text(document)) if "mm_" in it["body"]), "")
    for name, all_of in sources.below.items():
        least = [
            it
            for it in all_of
            if not any(it in sources.all_below(other) - {other} for other in all_of)
        ]
        if name.endswith("_tests"):
            check.holds(document, f"`{name}`" in text(document), f"{name} is not named")
            continue
        is_so = sorted(rows.get(name, ["no row"])) == sorted(least)
        told = f"{name} is right above {', '.join(least) or 'nothing'}, which its row does not say"
        check.holds(document, is_so, told)
        check.holds(document, bool(re.search(rf"\b{name}\b", chart)), f"{name} is not on the map")
    for name in rows:
        check.holds(document, name in sources.below, f"{name} is no crate of crates.txt")


def compare_counts(check: Check, sources: Sources) -> None:
    """README.md names the kit's libraries, and counts the facts about Windows."""
    readme = text("README.md")
    for library in sources.libraries - {"core", "std_alloc"}:
        check.holds("README.md", f"`{library}`" in readme, f"{library} is not named")
    facts = [it for it in sources.files if re.fullmatch(r"tests/windows/(?!README)[\w-]+\.md", it)]
    count = sum(text(it).count("\n## ") for it in facts)
    told = re.findall(r"(\d+)\s+facts", readme)
    is_so = bool(told) and all(int(it) == count for it in told)
    check.holds("README.md", is_so, f"does not say that there are {count} facts")


def main() -> int:
    check = begin(__doc__, ())
    sources = Sources()
    readmes = sorted(it for it in sources.files if re.fullmatch(r"crates/\w+/README\.md", it))
    for document in pages() + readmes:
        compare_names(check, sources, document)
        compare_places(check, sources, document)
    for document in readmes:
        compare_readme(check, sources, document)
    if (TOP / "docs/ARCHITECTURE.md").is_file():
        compare_crates(check, sources, "docs/ARCHITECTURE.md")
    compare_counts(check, sources)
    return check.end()


if __name__ == "__main__":
    sys.exit(main())
