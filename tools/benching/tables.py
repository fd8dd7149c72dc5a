"""The tables of tools/bench: each gives the lines of one, as they are known."""

from __future__ import annotations

import os
import re
import shutil
import subprocess
import sys
from functools import partial
from pathlib import Path
from typing import Callable, Iterable, Iterator, NamedTuple, Sequence

from . import inputs
from .inputs import ROOT, USER_PAGES, stored_trace
from .runs import Bench, Clocked, processor_seconds

Rows = Iterator[str]


class Case(NamedTuple):
    """A case: its name, the unit of its figure, and the most instructions that it should take."""

    name: str
    unit: str
    goal: float


CASES = {
    "a": Case("reads and writes of valid pages", "line", 920),
    "b": Case("calls among 2,000 regions", "line", 1750),
    "c": Case("all user pages reserved and released", "page", 0.1),
    "d": Case("the run of all user pages asked for", "page", 0.1),
    "e": Case("heavy paging", "line", 1900),
    "f": Case("`mmlog check` of the log of e", "move", 300),
    "g": Case("the stored trace of `sort`", "line", 1200),
}
# The forms of `mmshow` that are counted on the log of e, and how many times f the goal is.
FORMS = {"tell": 3, "html": 2, "events": 0}
TRACE_FRAMES = 128
REFERENCES = 1_000_000  # of a drawn trace
EIGHT = "64,96,128,192,256,384,512,1024"
MANY, MANY_FRAMES = 64, "64..1072..16"  # machines of a sweep
CONVERTED: tuple[tuple[str, list[str]], ...] = (
    (f"`melzudek trace`, {TRACE_FRAMES} page frames", []),
    ("the exact filter alone", ["--no-policies"]),
)


def script(bench: Bench, case: str) -> Iterable[str]:
    """The lines of a case that `mmsim run` decides."""
    seed, part = bench.seed, bench.part
    scripts: dict[str, Callable[[], Iterable[str]]] = {
        "a": lambda: inputs.valid_pages(seed, 400_000 // part),
        "b": lambda: inputs.many_regions(seed, 200_000 // part),
        "c": lambda: inputs.whole_space(max(1, 10 // part)),
        "d": lambda: inputs.long_run(max(1, 200 // part)),
        "e": lambda: inputs.heavy_paging(seed, 50_000 // part),
        "g": stored_trace,
    }
    return scripts[case]()


def units(bench: Bench, case: str, lines: int) -> int:
    """How many lines or pages a script's figure is divided by."""
    pages = {
        "c": max(1, 10 // bench.part) * USER_PAGES,
        "d": max(1, 200 // bench.part) * USER_PAGES,
    }
    return pages.get(case, lines)


def figure(bench: Bench, case: str) -> tuple[float, int]:
    """Instructions a line, a page or a move of a case, and how many of them there were."""
    if case == "g":
        return bench.beyond_set_up("g", list(script(bench, "g")))
    if case == "f":
        if not os.path.exists(bench.path("e.moves")):
            bench.run("e", script(bench, "e"))
        count = bench.moves_of("e")
        return bench.instructions("mmlog", ["check"], bench.path("e.moves")) / count, count
    total, lines = bench.mmsim(case, script(bench, case))
    count = units(bench, case, lines)
    return total / count, count


def spelled(number: float) -> str:
    return f"{number:,.2f}" if number < 10 else f"{number:,.0f}"


def built(bench: Bench) -> str:
    """Which programs were counted, and which kit built them."""
    folder = os.path.dirname(os.path.abspath(bench.programs["mmsim"]))
    build = "the proved build" if folder == str(ROOT / "crates/mmsim/out") else "a build"
    rt = shutil.which("rt")
    said = subprocess.run([rt, "version"], capture_output=True, text=True).stdout if rt else ""
    return f"{build} of {said.split()[0] if said else 'an unknown kit'}, seed {bench.seed}"


def row_of(bench: Bench, case: str, name: str = "") -> str:
    """The row of a case; of its name only the letter is needed where a table of them stands."""
    now, count = figure(bench, case)
    _, unit, goal = CASES[case]
    return f"| {case}{name} | {goal:,} | {spelled(now)} a {unit} | {count:,} |"


HEAD = ("| | Goal | Now | of |", "|---|---|---|---|")


def moves_a_line(bench: Bench) -> Rows:
    with open(bench.path("e"), "rb") as it:
        lines = sum(1 for _ in it)
    yield ""
    yield f"Moves a line of e: {bench.moves_of('e') / lines:.2f}."


def few(bench: Bench, cases: Sequence[str]) -> Rows:
    """Some cases alone."""
    yield from HEAD
    for case in cases:
        yield row_of(bench, case, f", {CASES[case].name}")
    if "e" in cases:
        yield from moves_a_line(bench)


def table(bench: Bench) -> Rows:
    """Instructions: the cases, the forms of `mmshow`, a sweep, the exact filter on a trace."""
    yield from HEAD
    for case in sorted(CASES):
        yield row_of(bench, case)
    yield from shown(bench)
    yield from tools(bench)
    yield from moves_a_line(bench)


def shown(bench: Bench) -> Rows:
    """Rows: what forms of `mmshow` take for a move of the log of e, and how many times f."""
    source, _ = bench.run("e-shown", script(bench, "e"))
    log = f"{source}.moves"
    count = bench.moves_of("e-shown")
    check = bench.instructions("mmlog", ["check"], log)
    for form, times in FORMS.items():
        total = bench.instructions("mmshow", [form, source, f"{source}.out"], log)
        goal = f"{times} times f" if times else ""
        told = f"{total / count:,.0f} a move, {total / check:.1f} times f"
        yield f"| `mmshow {form}` of e | {goal} | {told} | {count:,} |"


# Time


def tool_words(bench: Bench, *words: str) -> list[str]:
    """The command `melzudek` of this checkout on the programs that are counted."""
    for name, program in bench.programs.items():
        os.environ[f"MELZUDEK_{name.upper()}"] = os.path.abspath(program)
    return [str(ROOT / "tools/melzudek"), *words]


def sweep_words(bench: Bench, frames: str, workers: int) -> list[str]:
    words = ["sweep", str(ROOT / "examples/sort.mm"), "--vary", f"frames={frames}"]
    return tool_words(bench, *words, "--workers", str(workers))


def trace_words(bench: Bench, more: Sequence[str]) -> list[str]:
    words = ["trace", "lackey", "--frames", str(TRACE_FRAMES)]
    return tool_words(bench, *words, *more)


def drawn_trace(bench: Bench) -> tuple[str, int]:
    """The file of a drawn trace, and its references."""
    return bench.write("trace", inputs.drawn_trace(bench.seed, REFERENCES // bench.part))


def tools(bench: Bench) -> Rows:
    """Rows of the processor's time: a sweep of eight machines, a trace through the exact filter."""
    took = processor_seconds(sweep_words(bench, EIGHT, 1), os.devnull)
    lines = 8 * len(stored_trace())
    told = f"{took * 1e6 / lines:.0f} s of processor a million"
    yield f"| `melzudek sweep`, eight machines | | {told} | {lines:,} |"
    trace, count = drawn_trace(bench)
    for name, more in CONVERTED:
        took = processor_seconds(trace_words(bench, more), trace)
        told = f"{took * 1e6 / count:.2f} s of processor a million"
        yield f"| {name} | | {told} | {count:,} |"


def timed(bench: Bench, case: str) -> tuple[Clocked, int]:
    """A case by the clock, and how many lines, pages or moves it has."""
    if case == "f":
        bench.run("f", script(bench, "e"))
        words = [bench.programs["mmlog"], "check"]
        return bench.clocked(words, bench.path("f.moves")), bench.moves_of("f")
    source, lines = bench.write(case, script(bench, case))
    words = [bench.programs["mmsim"], "run"]
    return bench.clocked(words, source), units(bench, case, lines)


def clock(bench: Bench, cases: Sequence[str] = ()) -> Rows:
    """Whole runs by the clock, the median of nine, and the memory of the largest process."""
    yield "| | Time | How many | Bytes of memory |"
    yield "|---|---|---|---|"
    for case in cases or sorted(CASES):
        run, count = timed(bench, case)
        yield f"| {case} | {run.told(count, CASES[case].unit)} |"
    if cases:
        return
    trace, count = drawn_trace(bench)
    for name, more in CONVERTED:
        run = bench.clocked(trace_words(bench, more), trace, 3)
        yield f"| {name} | {run.told(count, 'reference')} |"
    processors = os.cpu_count() or 1
    run = bench.clocked(sweep_words(bench, MANY_FRAMES, processors), os.devnull, 3)
    name = f"`melzudek sweep`, {MANY} machines on {processors} processors"
    yield f"| {name} | {run.told(MANY * len(stored_trace()), 'line')} |"
    source, _ = bench.write("start", [MACHINES["the largest"]])
    run = bench.clocked([bench.programs["mmsim"], "run"], source)
    yield f"| the largest machine's start (goal: 0.030 s) | {run.told(1, 'start')} |"


# Sizes


def growth(bench: Bench) -> Rows:
    """Smaller and larger machines, and smaller and larger working sets: a row for what grows."""
    yield "| | Size | Instructions a line |"
    yield "|---|---|---|"
    sizes, lines = (16, 64, 1024), []
    for frames in sizes:
        lines.append(bench.beyond_set_up(f"trace-{frames}", stored_trace(frames))[0])
    yield grown("g", sizes, "page frames", lines)
    for number, it in enumerate(inputs.growing(bench.seed, 20_000 // bench.part)):
        lines = [
            bench.lines_beyond(f"growth-{number}-{size}", partial(it.script, size), count)
            for size, count in it.sizes.items()
        ]
        yield grown(it.case, list(it.sizes), it.unit, lines)


def grown(case: str, sizes: Sequence[int], unit: str, lines: Sequence[float]) -> str:
    """A row: the sizes of what grows, and a line's instructions at each."""
    told = ", ".join(f"{size:,}" for size in sizes)
    return f"| {case} | {told} {unit} | {'; '.join(f'{it:,.0f}' for it in lines)} |"


def handles(bench: Bench) -> Rows:
    """A process that opens and closes handles: instructions and resident size."""
    yield "| Handles | How many | Instructions a line | Bytes of memory |"
    yield "|---|---|---|---|"
    scripts = (
        ("one by one", inputs.one_by_one),
        ("all together", inputs.all_together),
        ("half closed by exit", inputs.closed_by_exit),
    )
    for number, (name, lines_of) in enumerate(scripts):
        for count in (50_000 // bench.part, 100_000 // bench.part):
            source = f"handles-{number}-{count}"
            total, lines = bench.mmsim(source, lines_of(count))
            memory = bench.resident([bench.programs["mmsim"], "run"], bench.path(source))
            yield f"| {name} | {count:,} | {total / lines:,.0f} | {memory:,} |"


MACHINES = {"the largest": "machine 262144 262144 64 65536", "six page frames": "machine 6 0 1 0"}


def addresses(bench: Bench, machine: str) -> int:
    """The bytes of addresses that a machine takes: its process is looked at while it waits."""
    pipe = subprocess.PIPE
    words = [bench.programs["mmsim"], "run"]
    with subprocess.Popen(words, stdin=pipe, stdout=pipe, stderr=subprocess.DEVNULL) as run:
        assert run.stdin and run.stdout
        run.stdin.write(f"{machine}\n".encode())
        run.stdin.flush()
        run.stdout.readline()
        status = Path(f"/proc/{run.pid}/status").read_text(encoding="ascii")
        run.stdin.close()
    found = re.search(r"VmPeak:\s+(\d+) kB", status)
    return int(found[1]) * 1024 if found else sys.exit("bench: no VmPeak of a process here")


def start(bench: Bench) -> Rows:
    """The start of the largest machine, whose goal is 30 ms, and of one with six page frames."""
    yield "| Machine | By the clock | Bytes resident | Bytes of addresses | Instructions |"
    yield "|---|---|---|---|---|"
    for name, machine in MACHINES.items():
        source, _ = bench.write("start", [machine])
        run = bench.clocked([bench.programs["mmsim"], "run"], source)
        taken = addresses(bench, machine)
        total = bench.instructions("mmsim", ["run"], source)
        told = f"{run.seconds * 1000:.1f} ms | {run.memory:,} | {taken:,} | {total:,}"
        yield f"| {name} | {told} |"
