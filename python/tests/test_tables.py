"""Runs as tables: they are what the files say, and events add up to what mmlog counts."""

from __future__ import annotations

import html
import re
import subprocess
from pathlib import Path

import pandas
import pytest

from melzudek import Ended, Machine, Mistake, programs
from melzudek.scripts import read_script
from melzudek.tables import TooOld, load, run

EXAMPLES = Path(__file__).resolve().parents[2] / "examples"
NAMES = ["under-pressure", "short-of-frames", "collided-fault", "copy-view", "who-goes-first"]
SHORT = "machine 8 8 1 0\nprocess 0 4\nalloc 1 0 0x2000 0x3000 0x4\nwrite 1 0x10000 AA\n"


@pytest.mark.parametrize("name", NAMES)
def test_events_add_up_to_the_counts_of_mmlog(name: str) -> None:
    one = run(EXAMPLES / f"{name}.mm")
    faults = one.faults["fault"].value_counts()
    counted = one.totals
    assert faults.get("hard", 0) == counted["hard"] == one.count["hard"]
    # a copy takes a zeroed frame, which mmlog counts as one more zero fill
    assert faults.get("zero", 0) + faults.get("copy", 0) == counted["zero"]
    # and the first use of a page that another line read in is one more soft fault to mmlog
    arrived = one.events["class"].str.contains("first use").sum()
    assert faults.get("soft", 0) + arrived == counted["soft"]
    assert one.count["repurposed"] == counted["steals"]
    assert one.count["writes"] == counted["writes"]


@pytest.mark.parametrize("name", NAMES)
def test_answers_and_moves_are_those_of_the_files(name: str) -> None:
    one = run(EXAMPLES / f"{name}.mm")
    lines = (EXAMPLES / f"{name}.mm").read_text("ascii").splitlines()
    assert one.answers["text"].tolist() == lines
    assert one.answers["answer"].tolist() == one.answers_file.read_text("ascii").splitlines()
    at, rows = 0, []
    for row in one.log.read_text("ascii").splitlines():
        words = row.split()
        if words[0] == "at":
            at = int(words[1])
        else:
            rows.append((at, words[0], words))
    assert list(zip(one.moves["line"], one.moves["move"])) == [(at, word) for at, word, _ in rows]
    for move, (_, word, words) in zip(one.moves.itertuples(), rows):
        if word == "map":
            assert words == ["map", str(move.frame), f"{move.of}.{move.page}"]
        elif word in ("give", "read"):
            assert words == [word, str(move.frame), move.key]
        elif word == "write":
            assert words == [word, str(move.frame), *move.rest.split()]


def test_moves_of_a_long_log_are_read_in_pieces(monkeypatch: pytest.MonkeyPatch) -> None:
    whole = run(EXAMPLES / "under-pressure.mm").moves
    monkeypatch.setattr("melzudek.tables.ROWS", 7)
    pieces = run(EXAMPLES / "under-pressure.mm").moves
    pandas.testing.assert_frame_equal(whole, pieces, check_categorical=False)


def test_columns() -> None:
    one = run(EXAMPLES / "under-pressure.mm")
    head = "line,kind,class,process,page,address,key,frame,from,to,reason"
    assert [name for name in one.events.columns if name in head.split(",")] == head.split(",")
    hard = one.faults[one.faults["fault"] == "hard"]
    assert set(hard["kind"]) <= {"access", "thread"}
    private = one.events[one.events["key"].str.startswith("p") & one.events["page"].notna()]
    keys = [f"p{it.process}.{it.page}" for it in private.itertuples()]
    assert keys == private["key"].tolist()
    assert all(int(it, 16) == page * 4096 for it, page in zip(private["address"], private["page"]))
    assert one.counts["line"].tolist() == list(range(1, 58))
    frames = ["zeroed", "free", "standby", "modified", "active", "transition"]
    assert (one.counts[frames].sum(axis=1) == 10).all()
    sets = [name for name in one.counts.columns if name.startswith("process ")]
    valid = one.counts[sets].sum(axis=1)
    assert sets == ["process 1", "process 2"] and (valid >= one.counts["active"]).all()
    assert one.counts["charge"].iloc[-1] == 8 and one.counts["limit"].iloc[-1] == 16
    assert one.answers["name"][54] == "STATUS_IN_PAGE_ERROR"


def test_the_charge_is_that_of_the_last_charge_line() -> None:
    with Machine(frames=8, slots=8) as machine:
        process = machine.process(0, 4)
        first = machine.charge()
        process.alloc(size=8192)
        second = machine.charge()
        process.alloc(size=4096)
        counts = run(machine.script).counts
    told = [(one.charge, one.limit) for one in counts.itertuples() if one.charge is not pandas.NA]
    assert told == [tuple(first)] * 2 + [tuple(second)] * 2
    assert counts["charge"].isna().sum() == len(counts) - 4


def test_words_and_page_are_those_of_mmshow() -> None:
    one = run(EXAMPLES / "under-pressure.mm")
    told = (EXAMPLES / "under-pressure.tell").read_text("ascii").splitlines()
    first = next(at for at, row in enumerate(told) if row.startswith("43  "))
    last = next(at for at, row in enumerate(told) if row.startswith("44  "))
    assert one.words(43).splitlines() == told[first:last]
    assert one.words(99) == ""
    shown = one._repr_html_()
    page = html.unescape(re.findall(r'srcdoc="([^"]*)"', shown)[0])
    assert page.encode() == one.page() and page.startswith("<!")


def test_a_live_run_that_was_saved(tmp_path: Path) -> None:
    with Machine(frames=8, slots=8) as machine:
        process = machine.process(0, 4)
        process.write(process.alloc(size=8192), b"hello")
        machine.save(tmp_path / "one")
        script = machine.script
    saved, again = load(tmp_path / "one"), run(script)
    assert saved.lines == again.lines == script.splitlines()
    pandas.testing.assert_frame_equal(saved.moves, again.moves)
    assert load(again.save(tmp_path / "two")).count == saved.count
    assert repr(saved) == repr(again)


def test_scripts_from_anywhere(tmp_path: Path) -> None:
    path = tmp_path / "short.mm"
    path.write_bytes(SHORT.replace("\n", "\r\n").encode())
    lines = SHORT.splitlines()
    assert read_script(path) == read_script(str(path)) == read_script(SHORT) == lines
    assert read_script(iter(lines)) == lines
    into = tmp_path / "kept"
    assert run(path, into=into).folder == into and load(into).lines == lines


def test_mistakes(tmp_path: Path) -> None:
    with pytest.raises(Mistake, match="no such file|No such file"):
        run(tmp_path / "none.mm")
    with pytest.raises(Mistake, match="no `machine` line"):
        run(["process 0 4"])
    with pytest.raises(Mistake, match="is no saved run: it has no script.mm"):
        load(tmp_path)
    with pytest.raises(Ended) as ended:
        run(SHORT + "nonsense\n")
    assert (ended.value.status, ended.value.text) == (3, "bad line 5 column 1")
    one = run(SHORT, into=tmp_path / "one")
    one.log.write_text(one.log.read_text("ascii") + "give 0 p9.9\n", "ascii")
    for name in ("events", "counts", "count", "totals"):
        with pytest.raises(Mistake, match="no line [0-9]+"):
            getattr(one, name)


def test_an_mmshow_that_is_too_old(tmp_path: Path, monkeypatch: pytest.MonkeyPatch) -> None:
    old = tmp_path / "mmshow"
    old.write_text("#!/bin/sh\necho 'usage: mmshow tell'\nexit 2\n", "ascii")
    old.chmod(0o755)
    monkeypatch.setenv("MELZUDEK_MMSHOW", str(old))
    for name, form in (
        ("events", "events"),
        ("counts", "counts csv"),
        ("faults_by_page", "faults csv"),
    ):
        with pytest.raises(TooOld, match=f"this mmshow is too old, as it has no form `{form}"):
            getattr(run(SHORT), name)


def test_what_mmshow_adds_is_kept(tmp_path: Path, monkeypatch: pytest.MonkeyPatch) -> None:
    more = tmp_path / "mmshow"
    rows = 'line,weather,class,frame\\n3,\\"wet, cold\\",hard fault,7\\n3,,soft fault,\\n'
    more.write_text(f'#!/bin/sh\nprintf "{rows}"\n', "ascii")
    more.chmod(0o755)
    monkeypatch.setenv("MELZUDEK_MMSHOW", str(more))
    events = run(SHORT).events
    assert events["weather"].tolist() == ["wet, cold", ""]
    assert events["frame"].isna().tolist() == [False, True]
    assert run(SHORT).faults["fault"].tolist() == ["hard", "soft"]


def test_the_programs_are_there() -> None:
    for name in ("mmsim", "mmlog", "mmshow"):
        assert subprocess.run([programs.find(name), "no form"], capture_output=True).returncode == 2
