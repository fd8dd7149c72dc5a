"""Traces: parsing, what is left out, policies, layouts, rhythms, managers."""

from __future__ import annotations

import io
import random
import subprocess
from pathlib import Path

import numpy as np
import pytest
from hypothesis import HealthCheck, given, settings
from hypothesis import strategies as draw

from melzudek import Machine, Mistake, programs
from melzudek.exact import MOST_BLOCKS, Filter, Setup
from melzudek.layout import END, Layout
from melzudek.manager import Rules
from melzudek.policies import Policies
from melzudek.rhythm import Clock, Rhythm
from melzudek.tracing import TraceSource, in_columns, machines, trace
from melzudek.traces import Chunk, Pages, Place, read
from melzudek.traces.lackey import Lackey
from melzudek.workers import tools


def references(text: bytes, form: str) -> list[tuple[Place, int]]:
    pages = Pages()
    return [
        (pages.places[code >> 2], code & 3)
        for chunk in read(io.BytesIO(text), form, pages)
        for code in chunk.codes.tolist()
    ]


def drawn_lackey(seed: int, count: int = 12_000) -> bytes:
    draws = random.Random(seed)
    lines = []
    for at in range(count):
        page = 0x4000 + at // 1500 * 7 + min(int(draws.paretovariate(0.5)), 60)
        if draws.random() < 0.01:
            page = draws.choice([0x1FFEFFE, 0xFFFFFFFFFF, 0x1FFF0, 0x10])
        kind = draws.choice((b" L", b" S", b" M", b"I "))
        offset = draws.choice((draws.randrange(4096), 0xFF0 + draws.randrange(16)))
        lines.append(b"%s %05x%03x,%d\n" % (kind, page, offset, draws.choice((1, 8, 16, 32, 512))))
    return b"==1== noise\n" + b"".join(lines)


@pytest.mark.parametrize("seed", range(4))
def test_lines_in_bulk_are_lines_one_by_one(seed: int) -> None:
    text = drawn_lackey(seed) + b" L ffffffffffff0000,512\r\nI  04000fff,2\n==2== more,\n L 16,1"
    bulk, slow = Pages(), Pages()
    codes = np.concatenate([it.codes for it in Lackey(bulk).read(io.BytesIO(text))]).tolist()
    wanted = Lackey(slow).one_by_one(text + b"\n").tolist()
    one, other = (
        [(p.places[it >> 2], it & 3) for it in c] for p, c in ((bulk, codes), (slow, wanted))
    )
    assert one == other


@pytest.mark.parametrize(
    "bad", [b" L 04001g90,8", b"IL 04001090,8", b" L 04001090,0", b"x", b",", b"", b" L 4001090,8,"]
)
def test_a_bad_line_has_its_number(bad: bytes) -> None:
    text = b"==1== noise\n" + b" L 04001090,8\n" * 70 + bad + b"\n" + b" L 04001090,8\n"
    with pytest.raises(Mistake, match="line 72 of the trace"):
        references(text, "lackey")


def run(text: bytes, form: str, setup: Setup, whole: bool, rules: Rules | None = None) -> Filter:
    pages, to = Pages(), io.BytesIO()
    blocks = MOST_BLOCKS if form == "csv" else 0
    made = Filter(to, pages, setup, blocks=blocks, whole=whole, rules=rules)
    for chunk in read(io.BytesIO(text), form, pages):
        made.take(chunk)
    made.finish()
    assert not made.reason
    ran = subprocess.run([programs.find("mmsim"), "run"], input=to.getvalue(), capture_output=True)
    assert ran.stderr == made.channel.read_moves(0, made.channel.size())
    return made


def moves_of(made: Filter) -> list[bytes]:
    log = made.channel.read_moves(0, made.channel.size())
    return [it for it in log.splitlines() if not it.startswith(b"at ")]


PROCESS = draw.sampled_from("aaab")
PAGE_OF = draw.one_of(
    draw.integers(0, 30).map(lambda page: str(page * 4096)),
    draw.integers(0, 20).map(lambda page: f"lib.so:{page * 4096}"),
)
STRETCH = draw.lists(
    draw.builds("{},{},{}".format, PROCESS, PAGE_OF, draw.sampled_from("rrwx")),
    min_size=1,
    max_size=14,
)


@settings(max_examples=25, deadline=None, suppress_health_check=list(HealthCheck))
@given(draw.lists(draw.tuples(STRETCH, draw.integers(1, 8)), min_size=1, max_size=20), draw.data())
def test_filtered_moves_are_the_wholes(
    loops: list[tuple[list[str], int]], data: draw.DataObject
) -> None:
    text = "".join("\n".join(lines) + "\n" for lines, times in loops for _ in range(times)).encode()
    trim, writer, zeroer, io_pace = (
        (data.draw(draw.integers(0, 40)), data.draw(draw.integers(1, 3))) for _ in range(4)
    )
    rhythm = Rhythm.of(data.draw(draw.integers(0, 60)), trim, writer, zeroer, io_pace)
    frames, depth = data.draw(draw.integers(8, 24)), data.draw(draw.integers(1, 2))
    limits = {"": data.draw(draw.integers(1, 20))}
    setup = Setup(frames, depth=depth, rhythm=rhythm, maximum=limits, slots=200)
    rules = Rules(20, data.draw(draw.integers(0, 9)), modified=5, free=3)
    made, whole = (run(text, "csv", setup, it, rules) for it in (False, True))
    assert moves_of(made) == moves_of(whole)
    assert made.lines <= whole.lines


def test_windows_keep_their_order() -> None:
    draws = random.Random(3)
    for _ in range(50):
        layout = Layout()
        places = [
            draws.choice([1, 5, 0x55555, 0x7FFFF7D, 0x7FFFFFFD]) + draws.randrange(9)
            for _ in range(30)
        ]
        found = {it: layout.page(Place(0, -1, it << 8 | 7)) for it in places}
        assert layout.disordered == 0
        assert all(0x100 <= page < END << 8 and page & 255 == 7 for page in found.values())
        pages = [found[it] for it in sorted(found)]
        assert pages == sorted(set(pages))
    own = Layout()
    assert [own.page(Place(0, -1, it)) for it in (0x4001, 0x108, 0x48FF)] == [0x4001, 0x108, 0x48FF]


def test_rhythms_by_references_and_by_time() -> None:
    owners = np.array([1, 2, 1, 1, 2, 1], np.int64)
    clock = Clock(Rhythm.of(age=2, writer=(3, 5)))
    assert clock.due(owners, 6, 2, None) == [
        (3, "age 1"),
        (3, "writer 5"),
        (5, "age 2"),
        (6, "age 1"),
        (6, "writer 5"),
    ]
    clock = Clock(Rhythm.of(age=1, by_time=True))
    times = np.array([0.25, 0.5, 1.5, 1.75, 4.0])
    assert clock.due(None, 5, 1, times) == [(2, "age 1"), *[(4, "age 1")] * 3]
    with pytest.raises(Mistake, match="column `time`"):
        clock.due(None, 5, 1, None)


def test_a_file_is_shared() -> None:
    text = b"a,lib:0,r\nb,lib:0,r\nb,lib:0,w\na,lib:0,w\na,lib:0,w\n"
    made = run(text, "csv", Setup(), False)
    assert made.check()["hard"] == 1 and made.check()["soft"] == 1
    assert made.sums().get("w") == 1
    pages = Pages()
    whole = Policies(pages, [4])
    for chunk in read(io.BytesIO(text), "csv", pages):
        whole.take(chunk)
    assert len(whole.recent.pages) == 1


def test_one_pass_on_several_machines(tmp_path: Path) -> None:
    text = "".join(f"a,{page % 40 * 4096},r\n" for page in range(400))
    wanted = machines(frames=[16, 32, 64], age=[0, 100], slots=60)
    told: list[str] = []
    rows = trace(io.BytesIO(text.encode()), "csv", wanted, to=tmp_path / "s.mm", tell=told.append)
    assert [row["hard"] for row in rows if row["frames"] == 64] == [0, 0]
    assert all(row["lru"] == (360 if row["frames"] < 40 else 0) for row in rows)
    assert len(list(tmp_path.iterdir())) == 6 and len(list(in_columns(rows))) == 7
    for row in rows:
        name = f"s-{row['frames']}-{row['age']}.mm"
        assert len((tmp_path / name).read_text().splitlines()) == row["lines"]
    assert "400 references" in told[-1]
    with pytest.raises(Mistake, match="room for the script of one machine"):
        trace(io.BytesIO(text.encode()), "csv", wanted, to="-")


def test_a_trace_in_a_sweep(tmp_path: Path) -> None:
    path = tmp_path / "t.csv"
    path.write_text("".join(f"a,{page % 40 * 4096},r\n" for page in range(400)))
    source = TraceSource(str(path), "csv")
    made = source.make({"frames": 64, "age": 50, "low": 3, "trim": 2}, tools(), tmp_path)
    assert made.references == 400 and made.log.stat().st_size
    with pytest.raises(Mistake, match="commit limit"):
        source.make({"frames": 16, "slots": 5}, tools(), tmp_path)


def test_the_manager_acts_below_its_mark() -> None:
    draws = random.Random(5)
    hot = [
        at // 300 * 6 + draws.randrange(10 if draws.random() < 0.9 else 40) for at in range(6_000)
    ]
    text = "".join(f"a,{page % 64 * 4096},{draws.choice('rrw')}\n" for page in hot).encode()
    setup = Setup(24, rhythm=Rhythm(()))
    none, some, aged = (
        run(text, "csv", setup, False, Rules(50, low, trim, modified=4))
        for low, trim in ((0, 8), (6, 8), (6, 0))
    )
    assert none.check()["soft"] == 0 < some.check()["soft"]
    assert none.why["trim"] == aged.why["trim"] == none.why["age"] == 0 < aged.why["age"]
    assert some.sums().get("E", 0) < aged.sums()["E"]
    assert some.check()["hard"] < none.check()["hard"]


def test_counts_of_the_log_are_the_machines() -> None:
    text = drawn_lackey(11, 3_000)
    made = run(text, "lackey", Setup(24), False)
    with Machine(24) as machine:
        assert machine.limit == 24 + 64 - 4
    counts, sums = made.check(), made.sums()
    assert counts["hard"] == sums.get("h", 0) + sums.get("H", 0)
    assert counts["zero"] == sums["g"]


def test_times_go_with_their_codes() -> None:
    text = b"time,process,address,access,bytes\n0.5,a,0x1ff0,r,32\n1,b,7,w,1\n"
    pages = Pages()
    (chunk,) = read(io.BytesIO(text), "csv", pages)
    assert isinstance(chunk, Chunk) and chunk.times is not None
    assert chunk.times.tolist() == [0.5, 0.5, 1.0] and len(chunk.codes) == 3
