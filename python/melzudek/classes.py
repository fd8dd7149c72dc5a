"""How many faults a log has, as `mmshow sums` tells it: the classes of moves, in groups.

The letters are those of PROFILE, section 12, which says when a move is of which class. They stand
here in the groups that Windows' counters have; nothing is decided from moves.
"""

from __future__ import annotations

from collections.abc import Iterable, Mapping

GROUPS = {
    "zero": "g",  # demand-zero faults
    "copy": "y",  # copy-on-write faults
    "soft": "1234",  # the page was in memory still, or already
    "hard": "hH",  # from the paging file, from a file
    "collided": "q",  # the page was being read for another
    "repurposed": "s",  # standby page frames that another page got
    "writes": "kKj",  # write-outs that succeeded, whoever began them
    "synchronous": "E",  # write-outs that an access began for want of frames, and waits for
}
FAULTS = ("zero", "copy", "soft", "hard", "collided")
# how the class of an event that is a fault begins, as `mmshow events` writes it
BEGINNINGS = {
    **{
        "demand-zero": "zero",
        "demand zero": "zero",
        "copy-on-write": "copy",
        "copy on write": "copy",
    },
    **{"soft": "soft", "hard": "hard", "collided": "collided"},
}
# what columns of `mmshow faults csv` are called, by the group that they belong to
COLUMNS = {
    **{"demand-zero": "zero", "copy": "copy", "hard": "hard", "collided": "collided"},
    **{"standby": "soft", "modified": "soft", "writing": "soft", "active": "soft"},
}


def grouped(sums: Iterable[str]) -> dict[str, int]:
    """The counts of the groups from the rows of `mmshow sums`."""
    letters: dict[str, int] = {}
    for row in sums:
        name, _, count = row.strip().rpartition(" ")
        letters[name] = int(count)
    return {group: sum(letters.get(it, 0) for it in named) for group, named in GROUPS.items()}


def by_process(rows: Iterable[Mapping[str, str]]) -> dict[int, dict[str, int]]:
    """The faults of each process from the rows of `mmshow faults csv`, without its sums."""
    found: dict[int, dict[str, int]] = {}
    for row in rows:
        if row["page"] == "all":
            continue
        counts = found.setdefault(int(row["process"]), dict.fromkeys(FAULTS, 0))
        for name, value in row.items():
            group = COLUMNS.get(name)
            if group:
                counts[group] += int(value)
    return found


def fault_of(name: str) -> str | None:
    """Which of FAULTS the class of an event is; None where it is no fault."""
    for beginning, fault in BEGINNINGS.items():
        if name.startswith(beginning):
            return fault
    return None
