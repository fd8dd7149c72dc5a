#!/usr/bin/env python3
"""Sees that crates name each other by their faces.

    python3 checks/faces.py --write [--top FOLDER]     puts right what does not

The face of a crate is what its specs/Lib.antt and proofs/Lib.antt pass on with `pub use`: the
definitions and lemmas that other crates name. A file names another crate's face alone, in a line or
two (`use Rattle.mm_world.specs.{alloc, blank}`). It names the modules of its own crate, with two
exceptions: a proof and a file of `src` without types name the specs by their face, and the answers
of a function name the lemmas so.

Some things are in no face: a module (`use .. as NAME`), a name that means two things in its crate,
and one that is also the name of a module. These are named where they are. So are lemmas in a file
that some file of specs leads to (the lemmas of a law that an `impl` states), because the face of a
crate's proofs leads to modules that no contract may cite.

Where a list of names is wrapped, and in which order it is, makes no difference: a name of another
length would have whole crates proved again.

With --write the files are put right, and each face gets what is asked for; `rt fmt` in the changed
crates comes after it. Unused names stay in a face, because removing one would have all crates above
proved again.
"""

from __future__ import annotations

import argparse
import collections
import os
import re
import sys
from typing import Iterator, Optional, Union

from common import begin

USE = re.compile(
    r"^(\s*)(ghost )?use Rattle\.(\w+)\.(specs|proofs)\.(?:([^{}\s]+)\.)?\{([^{}]*)\}(;?)\s*$"
)
LEADS = re.compile(
    r"^(?:pub )?use Rattle\.(\w+)\.(specs|proofs)(?:\.([^{}\s]+?))?(?:\.\{([^{}]*)\}| as \w+)\s*$"
)
FACE = re.compile(r"^(unfoldable )?pub use ([^{}\s]+)\.\{([^{}]*)\}\s*$")
TYPE = re.compile(r"^\s*(?:pub(?:\([^)]*\))? )?(?:struct|enum|trait|union|type) ", re.M)
WIDTHS = {"imports": 150, "face": 100}


def names_in(text: str) -> list[str]:
    """The items of a list in braces, each as it is written there."""
    return [name.strip() for name in text.split(",") if name.strip()]


def item(name: str) -> str:
    """The item that `a as b` names."""
    return name.split(" as ")[0].strip()


def read(path: str) -> str:
    """A file, by its whole path."""
    with open(path, encoding="utf8") as file:
        return file.read()


class Library:
    """The specs or the proofs of a crate: its modules, and the face as it stands."""

    def __init__(self, root: str, crate: str, kind: str):
        self.crate, self.kind = crate, kind
        self.folder = os.path.join(root, "crates", crate, kind)
        self.lib = os.path.join(self.folder, "Lib.antt")
        self.modules: dict[str, bool] = {}
        self.new: dict[str, str] = {}
        self.find_modules(self.lib, [], True)
        self.face: dict[str, str] = {}
        self.asked: dict[str, set[str]] = collections.defaultdict(set)
        if os.path.exists(self.lib):
            for line in read(self.lib).split("\n"):
                if found := FACE.match(line):
                    self.face.update((name, found[2]) for name in names_in(found[3]))

    def find_modules(self, node: str, path: list[str], public: bool) -> None:
        """Notes the modules below a file, and whether other crates may see them."""
        if not os.path.exists(node):
            return
        for line in read(node).split("\n"):
            if found := re.match(r"^(pub )?mod (\w+)\s*$", line):
                inner = path + [found[2]]
                seen = public and bool(found[1])
                self.modules[".".join(inner)] = seen
                self.find_modules(os.path.join(self.folder, *inner) + ".antt", inner, seen)

    def may_pass_on(self, module: str) -> bool:
        """Whether the face may pass on items of a module: of a public file, or types of `src`."""
        if module in self.modules:
            return self.modules[module]
        last = module.split(".")[-1]
        return (
            self.kind == "specs"
            and module.startswith("declared.")
            and not last.startswith("The")
            and last != "Given"
        )

    def taken(self) -> set[str]:
        """Names that no item of the face may have: those of modules."""
        taken = {module.split(".")[0] for module in self.modules} | {"declared", "contracts"}
        if self.kind == "proofs":
            for _, folders, _ in os.walk(self.folder):
                taken.update(folders)
            for _, _, files in os.walk(os.path.join(os.path.dirname(self.folder), "src")):
                taken.update(file[:-3] for file in files if file.endswith(".rt"))
        return taken

    def settle(self) -> None:
        """The face with what is asked for: name to module."""
        taken = self.taken()
        self.new = {n: m for n, m in self.face.items() if n not in self.asked}
        for name, modules in self.asked.items():
            if len(modules) == 1 and name not in taken:
                self.new[name] = next(iter(modules))

    def unfoldable(self, module: str) -> set[str]:
        """The names of a module whose definitions may be unfolded."""
        path = os.path.join(self.folder, *module.split(".")) + ".antt"
        if not os.path.exists(path):
            return set()
        return set(re.findall(r"^\s*unfoldable pub (?:data |record )?(\S+)", read(path), re.M))

    def lines(self) -> list[str]:
        """The lines of the new face, in the order of the modules, the types of `src` last."""
        order = {module: place for place, module in enumerate(self.modules)}
        by_module = collections.defaultdict(list)
        for name, module in self.new.items():
            by_module[module].append(name)
        lines: list[str] = []
        for module in sorted(by_module, key=lambda m: (m not in order, order.get(m, 0), m)):
            opened = self.unfoldable(module)
            for head, names in (
                ("pub use", [n for n in by_module[module] if n not in opened]),
                ("unfoldable pub use", [n for n in by_module[module] if n in opened]),
            ):
                lines += wrapped(f"{head} {module}.", sorted(names), WIDTHS["face"], "")
        return lines

    def written(self) -> str:
        """The text of Lib.antt with the new face."""
        old = read(self.lib) if os.path.exists(self.lib) else ""
        kept = [line for line in old.split("\n") if not FACE.match(line)]
        text = "\n".join(kept).strip("\n")
        face = "\n".join(self.lines())
        parts = [part for part in (text, face) if part]
        return "\n".join(parts) + "\n" if parts else ""


def wrapped(head: str, names: list[str], width: int, tail: str) -> list[str]:
    """`head{a, b, ..}tail` in lines of at most `width` columns."""
    lines: list[str] = []
    line: list[str] = []
    for name in names:
        if line and len(head + "{" + ", ".join(line + [name]) + "}" + tail) > width:
            lines.append(head + "{" + ", ".join(line) + "}" + tail)
            line = []
        line.append(name)
    return lines + [head + "{" + ", ".join(line) + "}" + tail] if line else lines


def unwrapped(text: str) -> tuple[list[str], dict[str, list[str]]]:
    """The lines of a text that name no items, and the items that the others name, by their place."""
    others: list[str] = []
    named: dict[str, list[str]] = collections.defaultdict(list)
    for line in text.split("\n"):
        if found := re.match(r"^(.*\buse [^{}]*)\{([^{}]*)\};?\s*$", line):
            named[found[1]] = sorted(named[found[1]] + names_in(found[2]))
        else:
            others.append(line)
    return others, named


Taken = tuple["re.Match[str]", Library, list[tuple[str, Optional[str]]]]
Group = tuple[int, str, str]


class Repository:
    """All crates, and the files that do not name others by their faces."""

    def __init__(self, root: str):
        self.root = root
        self.crates = sorted(os.listdir(os.path.join(root, "crates")))
        kinds = ("specs", "proofs")
        self.libraries = {(c, k): Library(root, c, k) for c in self.crates for k in kinds}
        self.cited: set[str] = set()
        for crate, kind, path in self.files():
            if kind == "specs":
                self.cite(path)
        for crate, kind, path in self.files():
            for line in read(path).split("\n"):
                self.ask(crate, kind, path, line)
        for library in self.libraries.values():
            library.settle()

    def files(self) -> Iterator[tuple[str, str, str]]:
        """Each source: its crate, its kind, its path."""
        for crate in self.crates:
            for kind in ("src", "specs", "proofs"):
                for folder, _, files in os.walk(os.path.join(self.root, "crates", crate, kind)):
                    for file in sorted(files):
                        if file.endswith((".rt", ".antt")):
                            yield crate, kind, os.path.join(folder, file)

    def cite(self, path: str) -> None:
        """Notes the files that this one leads to."""
        if path in self.cited or not os.path.exists(path):
            return
        self.cited.add(path)
        for line in read(path).split("\n"):
            if found := LEADS.match(line):
                library = self.libraries.get((found[1], found[2]))
                if not library:
                    continue
                names = names_in(found[4] or "")
                modules = [found[3]] if found[3] else [library.face.get(item(n)) for n in names]
                for module in modules:
                    if module:
                        self.cite(os.path.join(library.folder, *module.split(".")) + ".antt")

    def by_face(self, crate: str, kind: str, path: str, library: Library) -> bool:
        """Whether a file names that library by its face."""
        if library.kind == "proofs" and path in self.cited:
            return False
        if library.crate != crate:
            return kind != "specs" and kind != "src" or library.kind == "specs"
        if kind == "src":
            return library.kind == "specs" and not TYPE.search(read(path))
        if kind != "proofs":
            return False
        if library.kind == "specs":
            return True
        module = os.path.relpath(path, library.folder)[: -len(".antt")].replace(os.sep, ".")
        return module not in library.modules and not module.endswith("Lib")

    def taken_from(self, crate: str, kind: str, path: str, line: str) -> Optional[Taken]:
        """A `use` line that may go by a face: its match, its library, its names' modules."""
        found = USE.match(line)
        library = self.libraries.get((found[3], found[4])) if found else None
        if found is None or library is None:
            return None
        is_other = not found[5] and library.crate != crate
        if not (self.by_face(crate, kind, path, library) or is_other):
            return None
        if found[5] and not library.may_pass_on(found[5]):
            return None
        pairs = [(name, found[5] or library.face.get(item(name))) for name in names_in(found[6])]
        return found, library, pairs

    def ask(self, crate: str, kind: str, path: str, line: str) -> None:
        """Notes what a line names of another library."""
        if taken := self.taken_from(crate, kind, path, line):
            for name, module in taken[2]:
                if module:
                    taken[1].asked[item(name)].add(module)

    def rewritten(self, crate: str, kind: str, path: str) -> str:
        """The text of a file with its imports by faces, those of one face together."""
        out: list[Union[str, Group]] = []
        groups: dict[Group, tuple[str, str, list[str]]] = {}
        block = 0
        for line in read(path).split("\n"):
            taken = self.taken_from(crate, kind, path, line)
            if not taken:
                block += bool(re.match(r"^\s+\S", line)) and not re.match(r"^\s+ghost use", line)
                out.append(line)
                continue
            found, library, pairs = taken
            goes = self.by_face(crate, kind, path, library)
            head = f"{found[1]}{found[2] or ''}use Rattle.{library.crate}.{library.kind}."
            apart: dict[Optional[str], list[str]] = collections.defaultdict(list)
            for name, module in pairs:
                if goes and module and library.new.get(item(name)) == module:
                    group = (block if found[1] else -1, library.crate, library.kind)
                    if group not in groups:
                        groups[group] = (head, found[7], [])
                        out.append(group)
                    if name not in groups[group][2]:
                        groups[group][2].append(name)
                else:
                    apart[module].append(name)
            for module, names in apart.items():
                out.append(
                    f"{head}{module + '.' if module else ''}{{{', '.join(names)}}}{found[7]}"
                )
        lines: list[str] = []
        for place in out:
            if isinstance(place, str):
                lines.append(place)
            else:
                head, tail, names = groups[place]
                lines += wrapped(head, names, WIDTHS["imports"], tail)
        return "\n".join(lines)

    def changes(self) -> Iterator[tuple[str, str]]:
        """Each file that is not as it should be, with its text as it should be."""
        for crate, kind, path in self.files():
            if path not in (library.lib for library in self.libraries.values()):
                text = self.rewritten(crate, kind, path)
                if text != read(path):
                    yield path, text
        for library in self.libraries.values():
            text = library.written()
            if text != (read(library.lib) if os.path.exists(library.lib) else ""):
                yield library.lib, text


def main() -> int:
    parser = argparse.ArgumentParser(description=(__doc__ or "").split("\n")[0])
    parser.add_argument("--write", action="store_true", help="put the files right")
    parser.add_argument("--top", metavar="FOLDER", default=".", help="the repository")
    check = begin(__doc__, (), parser)
    root = check.words.top
    repository = Repository(root)
    changes = list(repository.changes())
    if not check.words.write:
        changes = [it for it in changes if unwrapped(it[1]) != unwrapped(read(it[0]))]
    check.compared = sum(1 for _ in repository.files())
    for path, changed in changes:
        if check.words.write:
            with open(path, "w", encoding="utf8") as file:
                file.write(changed)
        else:
            complaint = "names a module of another crate and not its face, or is a face without it"
            check.wrong(os.path.relpath(path, root), complaint)
    if check.words.write:
        print(f"faces: {len(changes)} files written")
    return check.end()


if __name__ == "__main__":
    sys.exit(main())
