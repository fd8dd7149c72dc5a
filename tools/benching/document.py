"""The tables between marks of docs/SPEED.md."""

from __future__ import annotations

import re
import sys
from pathlib import Path


def marked(name: str) -> re.Pattern[str]:
    """What stands between the marks of `tools/bench --NAME`."""
    first, last = f"<!-- filled by: tools/bench --{name} -->", f"<!-- end of --{name} -->"
    return re.compile(f"({re.escape(first)}\n).*?({re.escape(last)})", re.DOTALL)


def fill(path: Path, name: str, lines: list[str]) -> None:
    """Puts lines between the marks of a document, which has to have them once."""
    whole = path.read_text(encoding="utf-8")
    if len(marked(name).findall(whole)) != 1:
        sys.exit(f"bench: {path} has no marks for --{name}, or has them twice")
    body = "".join(line + "\n" for line in lines)
    path.write_text(marked(name).sub(lambda it: it[1] + body + it[2], whole), encoding="utf-8")
