"""Costs and pictures."""

from __future__ import annotations

from pathlib import Path

import pandas
import pytest

from melzudek import Mistake, pictures
from melzudek.comparison import compare
from melzudek.costs import Costs, spelled, told
from melzudek.observe import observe
from melzudek.scripts import read_script, varied
from melzudek.tables import run

EXAMPLES = Path(__file__).resolve().parents[2] / "examples"
COUNTS = {"references": 1000, "zero": 10, "copy": 1, "soft": 20, "hard": 5, "collided": 2}
COUNTS |= {"synchronous": 4, "writes": 9, "repurposed": 7}
WEIGHTS = "hard=100us,soft=1us,zero=0.5us,write=200us,copy=2us,collided=50us,reference=1ns"


def test_by_hand() -> None:
    costs = Costs.parse(WEIGHTS)
    faults = 5 * 100_000 + 20 * 1000 + 10 * 500 + 2000 + 2 * 50_000
    assert costs.faults(COUNTS) == faults
    assert costs.synchronous(COUNTS) == 4 * 200_000
    assert costs.total(COUNTS) == faults + 800_000 + 1000
    assert costs.effective(COUNTS) == (faults + 801_000) / 1000
    assert costs.effective({**COUNTS, "references": 0}) == faults + 800_000
    assert told(costs, COUNTS).startswith("effective access time 1.428 us, faults 627 us, writes")
    assert [spelled(it) for it in (1, 2500, 3e6, 4e9)] == ["1 ns", "2.5 us", "3 ms", "4 s"]


def test_columns() -> None:
    table = pandas.DataFrame([COUNTS, {**COUNTS, "hard": 0}])
    costs = Costs.parse("hard=1ms,reference=10ns")
    assert costs.effective(table).tolist() == [5010.0, 10.0]


@pytest.mark.parametrize("bad", ["", "hard", "hard=5", "hard=us", "hot=1us", "hard=1us,hard=2us"])
def test_what_is_no_cost(bad: str) -> None:
    with pytest.raises(Mistake, match="is no cost: write NAME=TIME, as hard=100us; reference"):
        Costs.parse(bad)


def test_a_run_has_what_costs_need() -> None:
    one = run(EXAMPLES / "under-pressure.mm")
    # an access begins a write-out only for want of frames; the writer's cost an access nothing
    begun = one.moves[one.moves["move"] == "write"]["kind"].value_counts()
    assert begun["writer"] > 0
    assert Costs.parse("write=1s").total(one.count) == begun["access"] * 1e9
    assert Costs.parse("reference=1ns").effective(one.count) == 1


def test_pictures_are_the_same_each_time(tmp_path: Path) -> None:
    one = run(EXAMPLES / "under-pressure.mm")
    for kind in ("svg", "png"):
        files = [pictures.pages(one).save(tmp_path / f"{turn}.{kind}") for turn in (1, 2)]
        assert files[0].read_bytes() == files[1].read_bytes()
    assert pictures.lists(one).drawn("svg").count(b"<path") > 20
    assert pictures.inline(pictures.charge(one)).startswith("<svg")
    assert pictures.charge(observe(EXAMPLES / "copy-view.mm")).figure.axes[0].lines
    script = read_script(EXAMPLES / "far-past-the-frames.mm")
    two = compare(script, varied(script, {"frames": 12}))
    assert two.picture(["hard", "zero"]).drawn("svg") and "<svg" in two._repr_html_()


def test_curves(tmp_path: Path) -> None:
    rows = [dict(COUNTS, frames=frames, age=age) for frames in (8, 16, 64) for age in (1, 9)]
    path = tmp_path / "rows.csv"
    pandas.DataFrame(rows).assign(reason="", lru=3).to_csv(path, index=False)
    drawn = pictures.curves(path, by="age", policies=["lru"], title="Title")
    axes = drawn.figure.axes[0]
    assert [it.get_text() for it in axes.get_legend().get_texts()] == ["age 1", "age 9", "lru"]
    assert [line.get_xdata().tolist() for line in axes.lines] == [[8, 16, 64]] * 3
    assert [line.get_ydata().tolist() for line in axes.lines][0] == [5, 5, 5]
    costly = pictures.curves(rows, by="age", costs=Costs.parse("hard=1us"))
    assert costly.figure.axes[0].get_ylabel() == "effective access time"
    assert pictures.bars({"one": {"hard": 3}, "two": {"hard": 4}}, "faults").drawn("png")


def test_mistakes(tmp_path: Path) -> None:
    with pytest.raises(Mistake, match="no column ages: "):
        pictures.curves([dict(COUNTS, frames=8)], by="ages")
    with pytest.raises(Mistake, match="no row with counts"):
        pictures.curves([{"frames": 4, "reason": "too few"}])
    with pytest.raises(Mistake, match="is no table of a sweep"):
        pictures.curves(tmp_path / "none.csv")
    one = run(EXAMPLES / "first.mm")
    with pytest.raises(Mistake, match="process 9 has no page in this run"):
        pictures.pages(one, 9)
    with pytest.raises(Mistake, match="no ending that says what picture it is"):
        pictures.pages(one, 1).save(tmp_path / "picture.jpg")
    with pytest.raises(Mistake, match="cannot be written: No such file or directory"):
        pictures.pages(one, 1).save(tmp_path / "none" / "picture.svg")
