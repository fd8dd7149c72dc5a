"""The command: what it prints, and one sentence for what cannot be done."""

from __future__ import annotations

import csv
import io
import subprocess
import sys
from pathlib import Path

import pytest
from test_sweeps import small

from melzudek import command

EXAMPLES = Path(__file__).resolve().parents[2] / "examples"
PRESSURE = str(EXAMPLES / "under-pressure.mm")
TWO = str(EXAMPLES / "two-processes.mm")


def answer(capsys: pytest.CaptureFixture[str], *words: str) -> tuple[int, str, str]:
    """The status, standard output and standard error."""
    try:
        status = command.main(words)
    except SystemExit as end:
        status = int(end.code or 0)
    said = capsys.readouterr()
    return status, said.out, said.err


def only_row(said: str) -> dict[str, str]:
    """A table of one row by its head."""
    head, row = (line.split() for line in said.splitlines())
    return dict(zip(head, row))


def test_help_has_an_example_for_each_part(capsys: pytest.CaptureFixture[str]) -> None:
    status, said, _ = answer(capsys, "--help")
    assert status == 0
    for part in command.PARTS:
        assert part.name in said
        status, told, _ = answer(capsys, part.name, "--help")
        assert status == 0 and f"melzudek {part.name} " in told.partition("example: ")[2]


def test_run(capsys: pytest.CaptureFixture[str], tmp_path: Path) -> None:
    into = tmp_path / "kept"
    status, said, told = answer(capsys, "run", PRESSURE, "--into", str(into), "--costs", "hard=1us")
    assert (status, told) == (0, "")
    assert said.startswith("57 lines, answered 50 ok, 6 none, 1 raise\n")
    assert "effective access time 227.3 ns" in said  # 5 hard faults of 1 us in 22 references
    for name in ("answers", "moves", "events", "counts", "faults", "pages"):
        status, table, _ = answer(capsys, "run", str(into), "--table", name)
        assert status == 0 and len(list(csv.DictReader(io.StringIO(table)))) > 10
    for what in ("pages", "lists", "charge"):
        file = tmp_path / f"{what}.svg"
        status, _, _ = answer(capsys, "run", str(into), "--picture", what, str(file))
        assert status == 0 and file.read_text("utf-8").startswith("<?xml")


def test_sweep(capsys: pytest.CaptureFixture[str], tmp_path: Path) -> None:
    script, to, picture = (tmp_path / name for name in ("small.mm", "rows.csv", "rows.svg"))
    script.write_text("".join(line + "\n" for line in small()), "ascii")
    words = ["sweep", str(script), "--vary", "frames=4,8..24..8", "age=0,4", "--workers", "1"]
    status, said, _ = answer(capsys, *words, "--to", str(to), "--picture", str(picture))
    assert status == 0 and picture.exists()
    head, *rows = [line.split() for line in said.splitlines()]
    assert [row[:2] for row in rows] == [[f, a] for f in "4 8 16 24".split() for a in ("0", "4")]
    assert rows[0][2:6] == ["a", "machine", "of", "this"]
    assert [row[head.index("zero")] for row in rows[2:]] == ["24"] * 6
    assert len(list(csv.DictReader(to.read_text("utf-8").splitlines()))) == 8
    status, _, told = answer(capsys, *words, "--to", str(to))
    assert status == 1 and told.endswith("go on with it (resume), or name another file\n")


def test_sweep_by_the_tool_of_the_checkout(tmp_path: Path) -> None:
    """Workers are processes, which read the file of the command again."""
    script = tmp_path / "small.mm"
    script.write_text("".join(line + "\n" for line in small()), "ascii")
    tool = str(EXAMPLES.parent / "tools" / "melzudek")
    words = [sys.executable, tool, "sweep", str(script), "--vary", "frames=8,16", "--workers", "1"]
    ran = subprocess.run(words, capture_output=True, text=True, timeout=120)
    assert ran.returncode == 0 and "freeze_support" not in ran.stderr
    assert [line.split()[0] for line in ran.stdout.splitlines()] == ["frames", "8", "16"]


def test_compare_and_page(capsys: pytest.CaptureFixture[str], tmp_path: Path) -> None:
    files = [tmp_path / name for name in ("both.svg", "faults.csv", "page.html")]
    one, more = tmp_path / "one.mm", tmp_path / "more.mm"
    one.write_text("".join(line + "\n" for line in small()), "ascii")
    more.write_text(one.read_text("ascii").replace("machine 16", "machine 20", 1), "ascii")
    words = ["compare", str(one), str(more), "--picture", str(files[0]), "--faults", str(files[1])]
    status, said, _ = answer(capsys, *words)
    assert status == 0 and said.startswith("matched by line; the first moves that differ:\n--- one")
    status, _, told = answer(capsys, "page", PRESSURE, "--to", str(files[2]))
    assert status == 0 and "open it in a browser" in told
    assert all(file.stat().st_size for file in files)


def test_observe(capsys: pytest.CaptureFixture[str], tmp_path: Path) -> None:
    script, picture, to = EXAMPLES / "copy-view.mm", tmp_path / "charge.svg", tmp_path / "run.obs"
    status, said, _ = answer(capsys, "observe", str(script))
    assert status == 0 and {line.split()[1] for line in said.splitlines()} == {"charge", "region"}
    words = ["observe", str(script), "--to", str(to), "--picture", str(picture)]
    status, nothing, _ = answer(capsys, *words)
    assert (status, nothing, to.read_text("ascii")) == (0, "", said) and picture.exists()


def test_trace_and_manage(capsys: pytest.CaptureFixture[str], tmp_path: Path) -> None:
    trace, to = str(EXAMPLES / "two-processes.csv"), tmp_path / "two.mm"
    status, said, _ = answer(capsys, "trace", "csv", trace, "--frames", "24", "--to", str(to))
    assert status == 0 and len(said.splitlines()) == 2
    row = only_row(said)
    # examples/two-processes.table has what LRU and the optimum have on these references
    assert (row["references"], row["lru"], row["optimum"]) == ("800", "300", "252")
    status, told, _ = answer(capsys, "run", str(to))
    assert status == 0 and f"{row['hard']} hard" in told
    words = ["manage", "csv", trace, "--frames", "48", "--every", "64", "--low", "0,8"]
    table = tmp_path / "rows.csv"
    status, said, _ = answer(capsys, *words, "--csv", str(table), "--no-policies")
    assert status == 0 and "never" in said
    assert [it["low"] for it in csv.DictReader(table.read_text("utf-8").splitlines())] == ["0", "8"]
    sweep = ["sweep", trace, "--format", "csv", "--vary", "frames=24", "--workers", "1"]
    status, said, _ = answer(capsys, *sweep, "--policies")
    again = only_row(said)
    assert status == 0 and all(
        again[name] == row[name] for name in ("hard", "zero", "lru", "clock")
    )


@pytest.mark.parametrize(
    ("words", "status", "why"),
    [
        (["run", "none.mm"], 1, "melzudek: none.mm cannot be read: No such file or directory"),
        (["run", "/"], 1, "melzudek: / is no saved run: it has no script.mm"),
        (["run", PRESSURE, "--costs", "x"], 1, "melzudek: `x` is no cost: "),
        (["run", PRESSURE, "--picture", "all", "a.svg"], 1, "melzudek: there is no picture `all`"),
        (["run"], 2, "melzudek run: the following arguments are required: SCRIPT (`melzudek run"),
        (["walk"], 2, "melzudek: argument PART: invalid choice: 'walk'"),
        (["sweep", TWO], 1, "melzudek: a sweep has "),
        (["sweep", TWO, "--vary", "frames"], 2, "melzudek sweep: argument --vary: `frames` is not"),
        (["sweep", TWO, "--vary", "frames=8..x"], 2, "melzudek sweep: argument --vary: `frames="),
        (["sweep", TWO, "--vary", "hue=8"], 1, "melzudek: hue cannot be varied here: "),
        (["sweep", TWO, "--vary", "age=8", "age=9"], 1, "melzudek: a name is twice behind --vary"),
        (["sweep", TWO, "--vary", "age=8", "--only", "3/2"], 2, "melzudek sweep: argument --only:"),
        (["compare", TWO, TWO, "--kinds", "cold"], 1, "melzudek: `cold` are no kinds of faults"),
        (["trace", "csv", "none.csv"], 1, "melzudek: none.csv cannot be read: No such file or dir"),
        (["trace", "odd", "/dev/null"], 1, "melzudek: there is no format odd: formats are lackey"),
        (["trace", "csv", "/dev/null"], 1, "melzudek: the trace is empty: it has no reference"),
        (["trace", "csv", "--frames", "2"], 2, "melzudek trace: argument --frames: no numbers"),
        (["trace", "csv", "--io", "x"], 2, "melzudek trace: argument --io: `x` is not N, nor"),
        (["observe", "/dev/null"], 1, "melzudek: /dev/null is no script of mmsim: its first line"),
        (["sweep", TWO, "--format", "odd", "--vary", "age=8"], 1, "melzudek: there is no format"),
        (["page", PRESSURE, "--to", "/none/p.html"], 1, "melzudek: /none/p.html: No such file"),
    ],
)
def test_one_sentence(
    capsys: pytest.CaptureFixture[str], words: list[str], status: int, why: str
) -> None:
    ended, said, told = answer(capsys, *words)
    assert (ended, said) == (status, "")
    assert told.startswith(why) and told.count("\n") == 1


@pytest.mark.parametrize(
    ("words", "package"),
    [
        (["sweep", TWO, "--vary", "age=8"], "python3-dask python3-distributed python3-tqdm"),
        (["sweep", TWO, "--format", "csv", "--vary", "age=8"], "python3-numpy"),
        (["trace", "csv", "/dev/null"], "python3-numpy"),
    ],
)
def test_a_library_that_is_missing(
    capsys: pytest.CaptureFixture[str],
    monkeypatch: pytest.MonkeyPatch,
    words: list[str],
    package: str,
) -> None:
    monkeypatch.setattr("importlib.util.find_spec", lambda name: None)
    status, said, told = answer(capsys, *words)
    assert (status, said, told.count("\n")) == (1, "", 1) and f"`apt-get install {package}`" in told


def test_a_reader_that_goes_away() -> None:
    one = [sys.executable, "-m", "melzudek", "run", TWO, "--table", "moves"]
    two = subprocess.Popen(one, stdout=subprocess.PIPE, stderr=subprocess.PIPE)
    assert two.stdout and two.stderr
    two.stdout.read(10)
    two.stdout.close()
    assert two.stderr.read() == b"" and two.wait() == 1
