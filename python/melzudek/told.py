"""The texts that `mmshow tell` prints, line by line of a script."""

from __future__ import annotations

from collections.abc import Iterable


def told_of(rows: Iterable[str], line: int) -> list[str]:
    """What `mmshow tell` tells of one line of a script: the line with its answer, then its moves."""
    told: list[str] = []
    for row in rows:
        if row.partition(" ")[0] == str(line):
            told = [row]
        elif told and row[:1] != " ":
            break
        elif told:
            told.append(row)
    return told
