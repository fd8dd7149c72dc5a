"""Two runs side by side: what differs, by rules that are worked out by hand."""

from __future__ import annotations

import random
from pathlib import Path

import pytest

from melzudek.comparison import compare
from melzudek.page_states import CODES, page_states
from melzudek.tables import run

EXAMPLES = Path(__file__).resolve().parents[2] / "examples"


def cycle(frames: int, pages: int = 8, rounds: int = 3, age: bool = False) -> list[str]:
    """Reads eight pages in turn: page 0x10 is the first."""
    lines = [f"machine {frames} 16 1 0", "process 0 64", "alloc 1 0x10000 0x8000 0x3000 0x4"]
    for _ in range(rounds):
        for page in range(pages):
            lines.append(f"read 1 0x{0x10000 + 4096 * page:X} 1")
            lines += ["age 1"] if age else []
    return lines


def test_alike() -> None:
    two = compare(cycle(8), cycle(9))
    assert two.by == "line" and two.first is None
    assert len(two.faults) == 0 and "no move differs" in str(two)


def test_the_first_difference_and_the_faults() -> None:
    two = compare(cycle(8), cycle(7))
    # pages 0x10 to 0x17 fill eight page frames, lines 4 to 11; with seven the last one has none
    assert two.by == "line" and two.first and two.first.lines == (11, 11)
    assert "for want of frames" in two.first.words[1]
    assert "for want of frames" not in two.first.words[0]
    # all are of age 0, so the lowest page goes: 0x10 for 0x17, then 0x11 for 0x10, and so on
    hard = two.faults[two.faults["fault"] == "hard"]
    lost = run(cycle(7)).count["hard"]
    assert hard["new"].sum() == lost and not hard["gone"].any() and not hard["moved"].any()
    table = two.cumulative(["hard"])
    assert table["one"].tolist()[-1] == 0 and table["other"].tolist()[-1] == lost
    assert (table["difference"] == table["other"] - table["one"]).all()
    back = compare(cycle(7), cycle(8))
    assert back.faults["gone"].sum() == lost


def test_by_references_where_scripts_differ() -> None:
    two = compare(cycle(7), cycle(7, age=True))
    assert two.by == "reference"
    # with an age line after each read the oldest goes, page 0x10 as well, at the eighth read; the
    # first other choice is the next one: ages decide, no more the lowest page alone
    assert two.first is not None
    one, other = (it.lines for it in two.runs)
    first, second = two.first.lines
    assert one[first - 1] == other[second - 1]
    assert one[:first].count(one[first - 1]) == other[:second].count(other[second - 1])
    assert second - 3 == 2 * (first - 3) - 1  # an age line behind each read before it
    assert two.faults["moved"].sum() + two.faults["new"].sum() > 0


def test_a_run_that_is_shorter() -> None:
    two = compare(cycle(8, rounds=1), cycle(8, rounds=2))
    assert two.by == "reference" and two.first and two.first.lines == (0, 12)
    assert "no such line" in str(two)


def drawn(frames: int, references: int = 500) -> list[str]:
    """References to 40 pages, most of them near one another."""
    draw = random.Random(7)
    lines = [f"machine {frames} 64 1 0", "process 0 64", "alloc 1 0x10000 0x28000 0x3000 0x4"]
    for at in range(references):
        page = (at // 20 + draw.randrange(12)) % 40 if draw.random() < 0.8 else draw.randrange(40)
        lines += [f"write 1 0x{0x10000 + 4096 * page:X} 41"]
        lines += ["age 1"] if at % 8 == 7 else []
    return lines


def test_one_more_page_frame() -> None:
    two = compare(drawn(20), drawn(21))
    hard = [it.totals["hard"] for it in two.runs]
    table = two.faults[two.faults["fault"] == "hard"]
    assert hard[0] != hard[1]
    assert table["gone"].sum() - table["new"].sum() == hard[0] - hard[1]
    assert two.cumulative()["difference"].tolist()[-1] == hard[1] - hard[0]
    # the first line where the 21st page frame is of use is the first fault that finds none free
    assert two.first and two.first.lines[0] == two.first.lines[1]
    assert "frame 20" in two.first.words[1] and "frame 20" not in two.first.words[0]


@pytest.mark.parametrize("name", ["under-pressure", "copy-view", "short-of-frames"])
def test_states_of_pages(name: str) -> None:
    one = run(EXAMPLES / f"{name}.mm")
    states = page_states(one.log, len(one.lines))
    held: set[tuple[int, int]] = set()
    frames: dict[int, set[tuple[int, int]]] = {}
    for line in range(1, len(one.lines) + 1):
        frames[line] = set()
    last = 0
    for move in one.moves.itertuples():
        for line in range(last, move.line):
            frames[line] = set(held)
        last = move.line
        if move.move == "map":
            held.add((move.of, move.page))
        elif move.move == "unmap":
            held.discard((move.of, move.page))
    for line in range(last, len(one.lines) + 1):
        frames[line] = set(held)
    valid = CODES.index("valid")
    for line in range(1, len(one.lines) + 1):
        column = states.codes[:, line - 1]
        assert {it for it, code in zip(states.places, column) if code == valid} == frames[line]


def test_states_by_hand() -> None:
    # a page that is committed, written, trimmed, written out, repurposed, and freed at last
    lines = ["machine 6 8 1 0", "process 0 8", "alloc 1 0x10000 0x6000 0x3000 0x4"]
    lines += ["write 1 0x10000 AA", "trim 1 8", "writer 1", "io 1"]
    lines += [f"write 1 0x{0x11000 + 4096 * page:X} BB" for page in range(5)]
    lines += ["free 1 0x10000 0 0x8000"]
    lines += ["free 1 0x10000 0x0 0x8000"]
    one = run([*lines[:-2], lines[-1]])
    states = page_states(one.log, len(one.lines)).of(1)
    row = [CODES[code] for code in states.codes[states.pages.index(0x10)]]
    assert row[:4] == ["", "", "not touched", "valid"]
    assert row[4:7] == ["in memory"] * 3 and row[7:11] == ["in memory"] * 4
    assert row[11:] == ["in memory", ""]
