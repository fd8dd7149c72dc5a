#!/usr/bin/env python3
"""What the documents print, compared with what is there: python3 checks/documents.py [--quick]

README.md, CONTRIBUTING.md and each page below docs/. Every block is one of these:

    ```sh              commands. They are pasted, in a clean copy of the repository with the
                       programs on the path. What they write to standard output is the block
                       `text` right behind, else the stored answers, log or table of the example
                       that they run, else nothing. Left out: the gate and what proves (PROVES).
    ```text FILE       a part of that file, `..` for lines left out; of a script the lines have
                       their numbers
    ```text, ```       a script, as people write it or plain. It is run, and an answer is beside its
                       line, or below it behind four spaces. A script that `mmnames` refuses has
                       what `mmnames` says as the next block. Or a part of a stored file of
                       examples/ or tests/
    ```c, ```python    code, which is not compared

A block that is none of these has a mark in the line before: <!-- not run: WHY -->. A paragraph
behind <!-- made by: COMMAND --> has each word that the command prints, so its numbers are made
again. A file that a command writes and that has the name of one in examples/ is that file. Nothing
that the commands write shows in `git status`. Links lead to files and headings that are there.
A paragraph `Contents: ..` links each heading of the second level in order; the parts of the guide
and docs/PROFILE.md have one, and docs/GUIDE.md links each part. Pages keep to their sizes (LIMITS).
With --quick nothing is compiled: commands that call the kit are left out.
"""

from __future__ import annotations

import argparse
import os
import re
import shutil
import subprocess
import sys
import tempfile
from pathlib import Path
from typing import Iterator, NamedTuple, Optional

from common import LIBRARIES, TOP, Check, begin, missing, text

# Commands that prove: the gate, and a program's first run, which proves all that it is built on.
PROVES = re.compile(r"\.ci/run\b|\brt (run|ci|check)\b|checks/all\.py")
COMPILES = re.compile(r"\brt \w+\b|tools/try\b(?!.*--(built|mmsim))")
BLOCK = re.compile(
    r"^(?:<!-- not run: (?P<why>[^\n]*) -->\n)?```(?P<info>[^\n`]*)\n(?P<body>.*?)^```$",
    re.MULTILINE | re.DOTALL,
)
# Commands whose standard output is a file, or that have none.
SILENT = re.compile(r"(?<![2&])>\s*[^&\s]|^(mkdir|cp|mv|ln|rm|cd) ")
MADE = re.compile(r"<!-- made by: (.*?) -->\n(.*?)(?:\n\n|\Z)", re.DOTALL)
COMMENT = re.compile(r"<!--(?! not run: | made by: ).*?-->\n?", re.DOTALL)
LINK = re.compile(r"\]\(([^)\s]+)\)")
STORED = (".mm", ".out", ".log", ".tell", ".check", ".table", ".csv", ".txt", ".answers", ".part")


class Block(NamedTuple):
    """A block of a document, and what is between it and the next one."""

    document: str
    line: int
    why: Optional[str]
    info: list[str]
    body: str
    is_followed: bool

    @property
    def place(self) -> str:
        return f"{self.document}:{self.line}"


def pages() -> list[str]:
    """The documents, from the top."""
    found = [it for it in ("README.md", "CONTRIBUTING.md") if (TOP / it).is_file()]
    return found + sorted(str(it.relative_to(TOP)) for it in TOP.glob("docs/**/*.md"))


def blocks_of(document: str) -> list[Block]:
    """Each block of a document that is in no comment."""
    whole = text(document)
    comments = [it.span() for it in COMMENT.finditer(whole)]
    found = [
        it
        for it in BLOCK.finditer(whole)
        if not any(first <= it.start() < end for first, end in comments)
    ]
    blocks = []
    for at, it in enumerate(found):
        between = whole[it.end() : found[at + 1].start()] if at + 1 < len(found) else "end"
        line = whole[: it.start()].count("\n") + 1
        info = it["info"].split()
        blocks.append(Block(document, line, it["why"], info, it["body"], not between.strip()))
    return blocks


class Near(NamedTuple):
    """A block with the one right before it, and the next one."""

    block: Block
    before: Optional[Block]
    following: Optional[Block]

    @property
    def right_behind(self) -> Optional[Block]:
        return self.following if self.block.is_followed else None


# Parts of files, and scripts


def is_part(part: str, whole: str) -> bool:
    """Whether the pieces of a block between lines `..` are in a text, in order."""
    at = 0
    for piece in re.split(r"^\.\.\n", part, flags=re.MULTILINE):
        found = f"\n{whole}".find(f"\n{piece}", at)
        if found < 0:
            return False
        at = found + len(piece)
    return True


def numbered(script: str) -> str:
    return "".join(f"{at:2}  {line}\n" for at, line in enumerate(script.splitlines(), 1))


def compare_part(check: Check, block: Block) -> None:
    """A block that names the file of which it is a part."""
    path = block.info[1]
    if not (TOP / path).is_file():
        check.wrong(block.place, f"{path} is no file")
    elif path.endswith(".mm"):
        whole = numbered(text(path))
        is_so = is_part(block.body, whole) or block.body == text(path)
        check.holds(block.place, is_so, f"the block of {path} is not the script, numbered")
    else:
        check.holds(block.place, is_part(block.body, text(path)), f"is no part of {path}")


def stored() -> list[str]:
    """The texts of the stored files of which a block may be a part, scripts numbered too."""
    found = []
    for folder in ("examples", "tests"):
        for path in sorted((TOP / folder).rglob("*")):
            if path.is_file() and path.suffix in STORED and path.stat().st_size < 1 << 20:
                found.append(path.read_text(encoding="latin-1"))
                if path.suffix == ".mm":
                    found.append(numbered(found[-1]))
    return found


class Sides(NamedTuple):
    """A block with a script: its lines, what is shown beside or below each, and whether any is."""

    script: list[str]
    shown: list[str]
    has_answers: bool


def sides(body: str) -> Sides:
    """The script of a block and its answers: in a column, or below a line behind four spaces."""
    lines = body.splitlines()
    column = re.search(r"^machine .*? {2,}(?=\S)", body)
    width = len(column[0]) if column else 300
    script: list[str] = []
    shown: list[str] = []
    for at, line in enumerate(lines):
        is_below = column is not None and line.startswith("    ")
        if is_below and shown:
            shown[-1] = line.strip()
            continue
        is_long = column is not None and "".join(lines[at + 1 : at + 2]).startswith("    ")
        script.append(line if is_long else line[:width].rstrip())
        shown.append("" if is_long else line[width:])
    return Sides(script, shown, column is not None)


def compare_script(check: Check, block: Block, following: Optional[Block] = None) -> bool:
    """A script, as it is written or plain. Whether the next block has what is wrong with it."""
    found = sides(block.body)
    written = "".join(line + "\n" for line in found.script).encode()
    named = check.run("mmnames", ["lines"], written)
    if named.status == 3 and following is not None and following.info in ([], ["text"]):
        told = check.run("mmnames", [], written).err.decode()
        return check.same(f"{block.place}: what is wrong", following.body, told) or True
    ended = check.run("mmsim", ["run"], named.out if named.status == 0 else written)
    said = ended.out.decode().splitlines()
    if found.has_answers:
        numbers = re.findall(rb"^# \d+: line (\d+)$", named.err, re.MULTILINE)
        answers = dict(zip(map(int, numbers), said))
        wanted = [answers.get(at, "") for at in range(1, len(found.shown) + 1)]
        check.same(f"{block.place}: answers", wanted, found.shown)
    else:
        is_told = ended.status == 0 or f"`{said[-1]}`" in text(block.document)
        check.holds(block.place, is_told, f"the script ends with {said[-1:]}, which is not told")
    return False


def compare_plain(check: Check, block: Block, files: list[str], following: Optional[Block]) -> bool:
    """A block by itself: a script, or a part of a stored file. Whether the next one belongs to it."""
    if block.body.startswith("machine "):
        return compare_script(check, block, following)
    complaint = (
        "is no script, and no part of a stored file: tag it (`sh`, `text FILE`), or mark it in the "
        "line before, `<!-- not run: WHY -->`"
    )
    check.holds(block.place, any(is_part(block.body, it) for it in files), complaint)
    return False


# Commands


class Copy:
    """A clean copy of the repository, in which commands are pasted."""

    def __init__(self, check: Check, folder: str):
        self.check = check
        self.folder = folder
        self.logs: dict[str, str] = {}
        self.pasted: set[str] = set()
        words = ["git", "ls-files", "-z", "--cached", "--others", "--exclude-standard"]
        listed = subprocess.run(words, cwd=TOP, capture_output=True, check=True).stdout.decode()
        for name in filter(None, listed.split("\0")):
            if (TOP / name).is_file():
                (Path(folder) / name).parent.mkdir(parents=True, exist_ok=True)
                shutil.copy2(TOP / name, Path(folder) / name)
        for git in (["init", "-q"], ["add", "-A"]):
            subprocess.run(["git", *git], cwd=folder, check=True)
        # what tools/build has compiled here of the same sources it takes there too
        if (TOP / "out/try/bin").is_dir():
            shutil.copytree(TOP / "out/try/bin", Path(folder) / "out/try/bin")
        self.path = os.environ.get("PATH", "")
        for program, built in check.programs.items():
            out = Path(folder) / "crates" / program / "out"
            out.mkdir(parents=True, exist_ok=True)
            (out / program).symlink_to(built)
            self.path = f"{out}:{self.path}"

    def run(self, place: str, command: str, may_fail: bool = False) -> str:
        """What a command writes to standard output."""
        ran = subprocess.run(
            ["bash", "-c", command],
            cwd=self.folder,
            env={**os.environ, "PATH": self.path},
            stdin=subprocess.DEVNULL,
            capture_output=True,
            timeout=3000,
        )
        told = ran.stderr.decode(errors="replace")[-300:]
        is_well = ran.returncode == 0 or may_fail
        self.check.holds(place, is_well, f"`{command}` ends with status {ran.returncode}: {told}")
        return ran.stdout.decode(errors="replace")

    def paste(self, block: Block, following: Optional[Block]) -> None:
        """Pastes a block of commands, and compares what they write."""
        commands = block.body.replace("\\\n", " ").splitlines()
        if following is not None and following.info[:1] == ["text"] and len(following.info) == 1:
            said = self.run(block.place, block.body, may_fail=True)
            wanted = following.body
            told = f"`{commands[-1]}` writes otherwise than printed:\n{said[:600]}"
            self.check.holds(block.place, said == wanted, told)
            return
        for command in commands:
            if not command.strip() or command.lstrip().startswith("#"):
                continue
            said = self.run(block.place, command)
            known = expected(command, self)
            told = f"`{command}` writes what nothing stored has:\n{said[:600]}"
            self.check.holds(block.place, said in known, told)

    def compare_written(self) -> None:
        """What the commands left: nothing that git shows, and stored files under their names."""
        words = ["git", "status", "--porcelain"]
        shown = subprocess.run(words, cwd=self.folder, capture_output=True, check=True)
        left = [line[3:] for line in shown.stdout.decode().splitlines() if line[1] != " "]
        self.check.holds("git status", not left, f"the commands leave {', '.join(left)}")
        for path in sorted(Path(self.folder).glob("*")):
            example = TOP / "examples" / path.name
            if path.is_file() and example.is_file():
                is_so = path.read_bytes() == example.read_bytes()
                self.check.holds(path.name, is_so, f"is not examples/{path.name}")


def beside(name: str) -> str:
    """A plain script's lines beside their answers, as tools/try prints them."""
    script, answers = file_or_nothing(f"examples/{name}.mm"), file_or_nothing(
        f"examples/{name}.out"
    )
    pairs = zip(script.splitlines(), answers.splitlines())
    return "".join(f"{line:<38}  {answer}\n" for line, answer in pairs)


def tried(check: Check, words: list[str]) -> str:
    """What tools/try prints of examples."""
    names = [it for it in words if not it.startswith("--")]
    said = ""
    for name in names:
        said += f"== {name}\n" * (len(names) > 1) + beside(name)
        if "--check" in words:
            log = check.run("mmsim", ["run"], text(f"examples/{name}.mm").encode()).err
            told = check.run("mmlog", ["check"], log).out.decode()
            said += "mmlog check: " + ", ".join(told.splitlines()) + "\n"
    return said


def file_or_nothing(path: str) -> str:
    return text(path) if (TOP / path).is_file() else ""


def expected(command: str, copy: Copy) -> list[str]:
    """What a command may write to standard output: what is stored of its example, else nothing."""
    found: list[str] = []
    kept = re.search(r"< \S*?([a-z-]+)\.mm .*2> (\S+)", command)
    if kept:
        copy.logs[kept[2]] = kept[1]
    if SILENT.search(command):
        return [""]
    if command.startswith("tools/try "):
        found.append(tried(copy.check, command.split()[1:]))
    if re.search(r"rt try --cases \S+", command):
        found.append(tried_cases(Path(copy.folder) / "out/cases"))
    where = re.search(r"where (\S+) < \S*?([a-z-]+)\.log", command)
    if where:
        rows = file_or_nothing(f"examples/{where[2]}.where").splitlines()
        pairs = (line.split(" ", 1) for line in rows)
        return [answer + "\n" for key, answer in pairs if key == where[1]]
    for name in re.findall(r"([\w-]+)\.(?:mm|log|txt|csv)\b", command):
        name = copy.logs.get(f"{name}.log", name)
        endings = ("out", "check", "tell", "table", "answers", "log", "csv")
        found += [file_or_nothing(f"examples/{name}.{ending}") for ending in endings]
    return [it for it in found if it] or [""]


def tried_cases(folder: Path) -> str:
    """What `rt try --cases` prints of a folder: the answers that are not stored there."""
    names = sorted(it.name for it in folder.glob("*.mm") if not Path(f"{it}.stdout").is_file())
    return "".join(f"== {it}\n{file_or_nothing(f'examples/{it[:-3]}.out')}" for it in names)


# Links and numbers


def anchor(heading: str) -> str:
    """A heading's anchor, as it is made on GitHub."""
    plain = re.sub(r"[^\w\- ]", "", heading.replace("`", "").lower())
    return plain.strip().replace(" ", "-")


def anchors(document: str) -> set[str]:
    """The anchors of a document's headings."""
    whole = BLOCK.sub("", text(document))
    return {anchor(it) for it in re.findall(r"^#+ (.*)$", whole, re.MULTILINE)}


def compare_links(check: Check, document: str) -> None:
    """Each link of a document to a place in the repository."""
    whole = BLOCK.sub("", text(document))
    for target in LINK.findall(re.sub(r"`[^`\n]*`", "", whole)):
        path, _, anchor = target.partition("#")
        if re.match(r"[a-z]+:", target):
            continue
        found = (TOP / document).parent / path if path else TOP / document
        if not check.holds(document, found.exists(), f"the link {target} leads nowhere"):
            continue
        if anchor and found.suffix == ".md":
            name = os.path.relpath(found, TOP)
            check.holds(document, anchor in anchors(name), f"{name} has no heading {anchor}")


def compare_made(copy: Copy, document: str) -> None:
    """Paragraphs whose numbers a command makes again."""
    for command, paragraph in MADE.findall(text(document)):
        if copy.check.words.quick and COMPILES.search(command):
            continue
        said = copy.run(document, command)
        words = [it.replace(",", "") for it in said.split()]
        plain = paragraph.replace(",", "")
        lost = [
            it for it in words if not re.search(rf"(?<![\w.]){re.escape(it)}(?!\w|\.\d)", plain)
        ]
        copy.check.holds(document, bool(words) and not lost, f"`{command}` prints {said[:200]!r}")


def links_of_all() -> Iterator[str]:
    """Documents whose links are followed: the pages, and each README."""
    yield from pages()
    words = ["git", "ls-files", "-z", "*README.md", "--cached", "--others", "--exclude-standard"]
    listed = subprocess.run(words, cwd=TOP, capture_output=True, check=True).stdout.decode()
    yield from (it for it in listed.split("\0") if "/" in it)


def is_left(check: Check, block: Block) -> bool:
    """Whether a block of commands is not pasted: it proves, or compiles where that is not asked."""
    is_quick = check.words.quick and COMPILES.search(block.body)
    return bool(PROVES.search(block.body) or is_quick)


def compare_block(check: Check, copy: Copy, near: Near, files: list[str]) -> bool:
    """A block, between those that stand beside it. Whether the next one is compared with it."""
    block, before = near.block, near.before
    is_output = before is not None and before.info[:1] == ["sh"] and block.info == ["text"]
    if block.why is not None:
        check.holds(block.place, block.why.strip() != "", "its mark has no reason")
    elif block.info[:1] == ["sh"]:
        if not is_left(check, block) and block.body not in copy.pasted:
            copy.paste(block, near.right_behind)
        copy.pasted.add(block.body)
    elif block.info[:1] == ["text"] and len(block.info) > 1:
        compare_part(check, block)
    elif before is not None and is_output:
        # what commands print that are left out is compared by itself, where it can be
        if is_left(check, before) and block.body.startswith("machine "):
            compare_script(check, block)
    elif block.info in ([], ["text"]):
        return compare_plain(check, block, files, near.following)
    return False


def compare_blocks(check: Check, copy: Copy) -> None:
    """Each block of each page."""
    files = stored()
    for document in pages():
        blocks = blocks_of(document)
        is_done = False
        for at, block in enumerate(blocks):
            before = blocks[at - 1] if at and blocks[at - 1].is_followed else None
            following = blocks[at + 1] if at + 1 < len(blocks) else None
            near = Near(block, before, following)
            is_done = not is_done and compare_block(check, copy, near, files)


# Contents and sizes

KB = 1024
LIMITS = {
    "README.md": 8, "docs/MODEL.md": 20, "docs/ARCHITECTURE.md": 14, "docs/DECISIONS.md": 15,
    "docs/PROVING.md": 15, "docs/SPEED.md": 10,
}  # fmt: skip
PART_LINES = 500  # of a part of the guide
CRATE_LIMIT = 3  # KB of a crate's README
DOCUMENTS_LIMIT, CRATES_LIMIT = 210, 110  # KB of README.md and docs/, of the crates' READMEs
PARTS = "docs/guide"


def size(document: str) -> int:
    return (TOP / document).stat().st_size


def compare_size(check: Check, what: str, taken: int, limit: int) -> None:
    """A size in bytes with its limit in KB."""
    check.holds(what, taken <= limit * KB, f"has {taken} bytes, and at most {limit} KB")


def compare_sizes(check: Check) -> None:
    """Each page that has a limit, the parts of the guide, the crates' READMEs, and the sums."""
    for document, limit in LIMITS.items():
        compare_size(check, document, size(document), limit)
    for part in sorted(TOP.glob(f"{PARTS}/*.md")):
        count = text(part).count("\n")
        told = f"has {count} lines, and at most {PART_LINES}"
        check.holds(part.name, count <= PART_LINES, told)
    readmes = sorted(str(it.relative_to(TOP)) for it in TOP.glob("crates/*/README.md"))
    for readme in readmes:
        compare_size(check, readme, size(readme), CRATE_LIMIT)
    compare_size(check, "the crates' READMEs", sum(map(size, readmes)), CRATES_LIMIT)
    documents = [it for it in pages() if it != "CONTRIBUTING.md"]
    compare_size(check, "README.md and docs/", sum(map(size, documents)), DOCUMENTS_LIMIT)


def compare_contents(check: Check, document: str) -> None:
    """A page's contents list: each heading of the second level, in order."""
    whole = BLOCK.sub("", text(document))
    found = re.search(r"^Contents: (.*?)\n\n", whole, re.MULTILINE | re.DOTALL)
    if found is None:
        is_asked = document.startswith(f"{PARTS}/") or document == "docs/PROFILE.md"
        check.holds(document, not is_asked, "has no contents list")
        return
    headings = [anchor(it) for it in re.findall(r"^## (.*)$", whole, re.MULTILINE)]
    links = re.findall(r"\]\(#([^)]*)\)", found[1])
    check.same(f"{document}: contents", links, headings)


def compare_index(check: Check) -> None:
    """docs/GUIDE.md links each part of the guide, in order."""
    links = re.findall(r"\]\((guide/[^)#]*)\)", text("docs/GUIDE.md"))
    parts = sorted(f"guide/{it.name}" for it in TOP.glob(f"{PARTS}/*.md"))
    check.same("docs/GUIDE.md: parts", links, parts)


def main() -> int:
    parser = argparse.ArgumentParser(description=(__doc__ or "").split("\n")[0])
    parser.add_argument("--quick", action="store_true", help="compile nothing")
    check = begin(__doc__, ("mmsim", "mmlog", "mmshow", "mmnames"), parser)
    if not check.words.quick and not shutil.which("rt"):
        check.leave_out("commands that call the kit, as there is no `rt` on the path")
        check.words.quick = True
    lacking = missing(LIBRARIES)
    check.holds("packages", not lacking, f"{', '.join(lacking)} cannot be installed here")
    with tempfile.TemporaryDirectory(prefix="documents-") as folder:
        copy = Copy(check, folder)
        compare_blocks(check, copy)
        for document in pages():
            compare_made(copy, document)
        copy.compare_written()
    for document in sorted(set(links_of_all())):
        compare_links(check, document)
    for document in pages():
        compare_contents(check, document)
    compare_index(check)
    compare_sizes(check)
    return check.end()


if __name__ == "__main__":
    sys.exit(main())
