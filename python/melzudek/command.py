"""The command `melzudek`: runs, traces, sweeps, comparisons, observations, pages, talks.

Each part has `--help` with an example. What cannot be done is told in one sentence, and the status
is 1; words that are no form of the command end with 2, and an interrupt with 130.
"""

from __future__ import annotations

import argparse
import contextlib
import os
import re
import sys
from collections.abc import Callable, Sequence
from dataclasses import dataclass
from pathlib import Path
from typing import Any, NoReturn

from .command_traces import add_manage, add_trace, do_manage, do_trace
from .errors import Answered, Ended, Mistake
from .libraries import require
from .scripts import Value, processes, read_script

Words = argparse.Namespace
RANGE = re.compile(r"([0-9]+)\.\.([0-9]+)(?:\.\.([1-9][0-9]*))?")
INTERRUPTED = 130
PICTURES = ("pages", "lists", "charge")  # of one run


class Parser(argparse.ArgumentParser):
    """Says in one sentence what is wrong with the words."""

    def error(self, message: str) -> NoReturn:
        self.exit(2, f"{self.prog}: {message} (`{self.prog} --help` shows an example)\n")


@dataclass(frozen=True)
class Part:
    """A part of the command: its name, what it is for, an example, its words, what it does."""

    name: str
    help: str
    example: str
    add: Callable[[argparse.ArgumentParser], None]
    do: Callable[[Words], int | None]


# ---------------------------------------------------------------- words that several parts have


def number(lowest: int, highest: int) -> Callable[[str], int]:
    """A type of argparse for a number of a range."""

    def parse(text: str) -> int:
        if not (text.isdecimal() and text.isascii() and lowest <= int(text) <= highest):
            raise argparse.ArgumentTypeError(f"no number from {lowest:,} to {highest:,}: {text}")
        return int(text)

    return parse


def several(text: str) -> tuple[str, list[Value]]:
    """`NAME=VALUE,VALUE,..`; a value is a number, LOW..HIGH, LOW..HIGH..STEP, or N:COUNT."""
    name, equals, words = text.partition("=")
    values: list[Value] = []
    for word in words.split(","):
        found = RANGE.fullmatch(word)
        if found:
            step = int(found[3] or 1)
            values += range(int(found[1]), int(found[2]) + 1, step)
        elif word.isdecimal():
            values.append(int(word))
        elif re.fullmatch(r"[0-9]+:[0-9]+", word):
            values.append(word)
        else:
            raise argparse.ArgumentTypeError(f"`{text}` is not NAME=NUMBER,NUMBER,..")
    if not equals or not values:
        raise argparse.ArgumentTypeError(f"`{text}` is not NAME=NUMBER,NUMBER,.. (no number)")
    return name, values


def share(text: str) -> tuple[int, int]:
    """`I/N`: every N-th from the I-th on."""
    found = re.fullmatch(r"([0-9]+)/([0-9]+)", text)
    if not found or not 1 <= int(found[1]) <= int(found[2]):
        raise argparse.ArgumentTypeError(f"`{text}` is not I/N with I from 1 to N, as 3/8")
    return int(found[1]), int(found[2])


def weights(text: str) -> Any:
    """A type of argparse for costs, whose Mistake is told like any other."""
    from .costs import Costs

    return Costs.parse(text)


def opened(name: str) -> Any:
    """A run that was saved in a folder, or that of a script, which is run now."""
    from .tables import load, run

    return load(name) if Path(name).is_dir() else run(name)


def print_table(table: Any) -> None:
    print(table.to_string(index=False))


def say(text: str) -> None:
    print(f"melzudek: {text}", file=sys.stderr)


# ---------------------------------------------------------------- run


def add_run(parser: argparse.ArgumentParser) -> None:
    add = parser.add_argument
    add("script", metavar="SCRIPT", help="a script, or the folder of a saved run")
    add("--into", metavar="FOLDER", help="where script.mm, answers.out and moves.log are kept")
    tables = ("answers", "moves", "events", "counts", "faults", "pages")
    add("--table", choices=tables, help="writes a table as csv in place of the summary")
    text = "what faults cost, as hard=100us,reference=1ns"
    add("--costs", type=weights, metavar="NAME=TIME,..", help=text)
    text = f"WHAT is {', '.join(PICTURES)}"
    add("--picture", nargs=2, metavar=("WHAT", "FILE"), help=text)
    add("--process", type=number(1, 64), default=1, help="whose pages are drawn (1)")


def do_run(given: Words) -> None:
    if given.picture and given.picture[0] not in PICTURES:
        raise Mistake(f"there is no picture `{given.picture[0]}`: {', '.join(PICTURES)}")
    one = opened(given.script)
    if given.into:
        one.save(given.into)
    if given.table:
        write_table(one, given.table)
    else:
        summarise(one, given.costs)
    if given.picture:
        what, file = given.picture
        picture_of(one, what, file, given.process)


def write_table(one: Any, name: str) -> None:
    """One of a run's tables as csv; `pages` are the faults by process and page."""
    table = one.faults_by_page if name == "pages" else getattr(one, name)
    table.to_csv(sys.stdout, index=name == "answers")


def summarise(one: Any, costs: Any) -> None:
    from .costs import told

    results = one.answers["result"].value_counts()
    said = ", ".join(f"{count:,} {word}" for word, count in results.items() if count)
    print(f"{len(one.lines):,} lines, answered {said}")
    print(", ".join(f"{count:,} {name}" for name, count in one.count.items()))
    if processes(one.lines) > 1:
        table = one.faults.groupby(["process", "fault"]).size().unstack(fill_value=0)
        print(table.reset_index().rename_axis(columns=None).to_string(index=False))
    if costs:
        print(told(costs, one.count))


def picture_of(one: Any, what: str, file: str, process: int) -> None:
    from . import pictures

    if what == "pages":
        made = pictures.pages(one, process, f"Pages of process {process}")
    elif what == "lists":
        made = pictures.lists(one, "Page frames by list")
    else:
        made = pictures.charge(one, "Commit charge and limit")
    made.save(file)


# ---------------------------------------------------------------- sweep


def add_sweep(parser: argparse.ArgumentParser) -> None:
    add = parser.add_argument
    add("script", metavar="SCRIPT", nargs="?", help="a script, or with --format a trace")
    form = "the format of a trace, which each machine takes whole: lackey, pin, csv, memtrace, perf"
    add("--format", metavar="FORMAT", help=form)
    bulk = "in place of a script: the generated ones of `mmsim bulk SEED COUNT`; vary seed"
    add("--bulk", type=number(1, 100_000), metavar="COUNT", help=bulk)
    vary = "frames, slots, depth, blocks; minimum, maximum (minimum:2 is process 2's); age, trim,"
    vary += " writer, zeroer, io after so many references (N or N:COUNT), in place of the script's"
    text = "NAME=VALUE,.."
    add("--vary", nargs="+", type=several, default=[], metavar=text, help=vary, action="extend")
    policies = "adds LRU, the optimum, FIFO and Clock on the same references"
    add("--policies", action="store_true", help=policies)
    add("--refusals", action="store_true", help="lines may be answered otherwise than with `ok`")
    add("--to", metavar="FILE", help="a csv file that gets each row as its machine ends")
    add("--resume", metavar="FILE", help="goes on with a file: leaves out what it has")
    add("--only", type=share, default=(1, 1), metavar="I/N", help="a share, for job arrays")
    add("--scheduler", metavar="tcp://HOST:PORT", help="a scheduler of Dask that runs")
    workers = "processes of this machine, without a scheduler (as many as there are processors)"
    add("--workers", type=number(1, 1024), metavar="N", help=workers)
    text = "adds the effective access time to the table, and draws it"
    add("--costs", type=weights, metavar="NAME=TIME,..", help=text)
    add("--picture", metavar="FILE", help="a curve for each combination of the other names")
    add("--across", metavar="NAME", help="what goes from left to right in it (the first of --vary)")
    add("--up", metavar="COUNT", default="hard", help="what goes up in it (hard)")
    add("--title", default="", help="its title")


def do_sweep(given: Words) -> int:
    from .sweeps import sweep

    if bool(given.script) == bool(given.bulk) or not given.vary:
        raise Mistake("a sweep has a SCRIPT or --bulk COUNT, and something to --vary")
    if given.to and given.resume:
        raise Mistake("--resume FILE goes on with FILE, so --to is not wanted beside it")
    vary = dict(given.vary)
    if len(vary) < len(given.vary):
        raise Mistake("a name is twice behind --vary: give all its values at once")
    to = given.resume or given.to
    rows: list[dict[str, Any]] = []
    try:
        for row in sweep(
            source_of(given),
            vary,
            to,
            resume=bool(given.resume),
            only=given.only,
            scheduler=given.scheduler,
            workers=given.workers,
            policies=given.policies,
        ):
            rows.append(row)
    except KeyboardInterrupt:
        more = f"; go on with them by --resume {to}" if to else ""
        raise Mistake(f"interrupted after {len(rows):,} rows{more}") from None
    finish_sweep(given, to, rows, list(vary))
    return 1 if rows and all(row.get("reason") for row in rows) else 0


def source_of(given: Words) -> Any:
    """What the sweep runs on each machine."""
    from .workers import BulkSource, ScriptSource

    if given.bulk:
        return BulkSource(given.bulk)
    if given.format:
        return trace_source(given.script, given.format)
    return ScriptSource(read_script(given.script), given.refusals)


def trace_source(name: str, form: str) -> Any:
    """A trace in a file, by its whole path, so that workers find it."""
    require("numpy")
    from .traces import FORMATS
    from .tracing import TraceSource

    if form not in FORMATS:
        raise Mistake(f"there is no format {form}: formats are {', '.join(FORMATS)}")
    if not Path(name).is_file():
        raise Mistake(f"{name} is no file: a sweep reads a trace once for each machine")
    return TraceSource(str(Path(name).resolve()), form)


def finish_sweep(
    given: Words, to: str | None, rows: list[dict[str, Any]], names: list[str]
) -> None:
    """The rows in order as a table on the screen, and as a picture."""
    import pandas

    from .pictures import curves
    from .sweeps import POLICIES

    table = pandas.read_csv(to) if to else pandas.DataFrame(rows)
    if not len(table):
        return
    reason = table.pop("reason") if "reason" in table.columns else pandas.Series(dtype=str)
    table = table.convert_dtypes()  # a row without counts makes no fraction of the others'
    if given.costs and "references" in table.columns:
        table["effective ns"] = given.costs.effective(table).round(1)
    if reason.notna().any() and (reason != "").any():
        table["reason"] = reason.fillna("")
    print_table(table.sort_values(names).astype(object).fillna(""))
    if given.picture:
        across = given.across or names[0]
        by = [name for name in names if name != across and table[name].nunique() > 1]
        policies = [name for name in POLICIES if name in table.columns and across == "frames"]
        named = {"policies": policies, "costs": given.costs, "title": given.title}
        drawn = curves(table, across, given.up, by, **named)
        drawn.save(given.picture)


# ---------------------------------------------------------------- compare


def add_compare(parser: argparse.ArgumentParser) -> None:
    add = parser.add_argument
    add("one", metavar="ONE", help="a script, or the folder of a saved run")
    add("other", metavar="OTHER", help="another")
    kinds = "the faults that are drawn (hard)"
    add("--kinds", default="hard", metavar="KIND,..", help=f"{kinds}: zero, copy, soft, hard")
    add("--picture", metavar="FILE", help="cumulative faults, and the pages that each holds")
    add("--faults", metavar="FILE", help="all pages with faults gone, new or moved, as csv")


def do_compare(given: Words) -> int:
    from .classes import FAULTS
    from .comparison import compare

    kinds = given.kinds.split(",")
    if not set(kinds) <= set(FAULTS):
        raise Mistake(f"`{given.kinds}` are no kinds of faults: {', '.join(FAULTS)}")
    two = compare(opened(given.one), opened(given.other))
    print(two)
    if given.faults:
        two.faults.to_csv(given.faults, index=False)
    if given.picture:
        two.picture(kinds).save(given.picture)
    return 0


# ---------------------------------------------------------------- observe


def add_observe(parser: argparse.ArgumentParser) -> None:
    add = parser.add_argument
    add("script", metavar="SCRIPT", help="a script")
    add("--to", metavar="FILE", help="where the observations are written (standard output)")
    add("--whole", action="store_true", help="asks for everything after each line: slow, the same")
    add("--picture", metavar="FILE", help="the commit charge against its limit")
    add("--title", default="", help="the picture's title")


def do_observe(given: Words) -> None:
    from .observe import observe

    seen = observe(given.script, whole=given.whole)
    if given.to:
        with open(given.to, "w", encoding="ascii") as to:
            seen.write(to)
    elif not given.picture:
        seen.write(sys.stdout)
    if given.picture:
        from .pictures import charge

        charge(seen, given.title).save(given.picture)


# ---------------------------------------------------------------- page


def add_page(parser: argparse.ArgumentParser) -> None:
    add = parser.add_argument
    add("script", metavar="SCRIPT", help="a script, or the folder of a saved run")
    add("--to", metavar="FILE", help="the page (the script's name with .html)")
    text = "with address spaces and the charge, which lines put between are asked for"
    add("--observe", action="store_true", help=text)


def do_page(given: Words) -> None:
    name = Path(given.script)
    to = Path(given.to) if given.to else Path(name.with_suffix(".html").name)
    page = opened(given.script).page(given.observe)
    to.write_bytes(page)
    say(f"{to} is the page, {len(page):,} bytes: open it in a browser")


# ---------------------------------------------------------------- talk


def add_talk(parser: argparse.ArgumentParser) -> None:
    add = parser.add_argument
    add("script", metavar="SCRIPT", nargs="?", help="a script that is run before the first prompt")
    add("--into", metavar="FOLDER", help="where script.mm, answers.out and moves.log are kept")


def do_talk(given: Words) -> None:
    from .talk import talk

    talk(given.script, given.into)


PARTS = (
    Part(
        "run",
        "runs a script and tells what it did: a summary, a table or a picture",
        "melzudek run examples/under-pressure.mm --table events",
        add_run,
        do_run,
    ),
    Part(
        "trace",
        "runs a trace of memory references on machines, and writes the script of each",
        "melzudek trace csv examples/two-processes.csv --frames 24,48 --age 16 --to two.mm",
        add_trace,
        do_trace,
    ),
    Part(
        "sweep",
        "runs a script on many machines, and gives a row of counts for each",
        "melzudek sweep examples/sort.mm --vary frames=64,96,128 age=16,64 --picture sort.svg",
        add_sweep,
        do_sweep,
    ),
    Part(
        "compare",
        "sets two runs side by side: where they part, and whose faults differ",
        "melzudek compare one.mm other.mm --picture both.svg",
        add_compare,
        do_compare,
    ),
    Part(
        "manage",
        "as trace, with a manager that ages, trims, writes and zeroes when page frames run short",
        "melzudek manage csv examples/two-processes.csv --frames 48 --every 64 --low 0,4,8",
        add_manage,
        do_manage,
    ),
    Part(
        "observe",
        "tells the charge and the address spaces of a run, line by line, for the page",
        "melzudek observe examples/copy-view.mm --picture charge.svg",
        add_observe,
        do_observe,
    ),
    Part(
        "page",
        "runs a script and writes the page of its log, for a browser",
        "melzudek page examples/under-pressure.mm --to under-pressure.html",
        add_page,
        do_page,
    ),
    Part(
        "talk",
        "takes lines as people write them, and answers each with its moves in words",
        "melzudek talk examples/lab.txt",
        add_talk,
        do_talk,
    ),
)


def parser() -> Parser:
    made = Parser(prog="melzudek", description=__doc__.split("\n")[0])
    parts = made.add_subparsers(dest="part", metavar="PART", required=True, parser_class=Parser)
    for part in PARTS:
        one = parts.add_parser(
            part.name,
            help=part.help,
            description=f"{part.name}: {part.help}.",
            epilog=f"example: {part.example}",
        )
        part.add(one)
        one.set_defaults(do=part.do)
    return made


def main(arguments: Sequence[str] | None = None) -> int:
    """Does what the words say, and gives the status."""
    try:
        given = parser().parse_args(arguments)
        status = given.do(given)
        if sys.stdout:  # it is none where it was closed before we began
            sys.stdout.flush()
        return status or 0
    except BrokenPipeError:
        forget_output()
    except KeyboardInterrupt:
        say("interrupted")
        return INTERRUPTED
    except (Mistake, Ended, Answered) as error:
        say(str(error))
    except OSError as error:
        forget_output()
        name = f"{error.filename}: " if error.filename else ""
        say(f"{name}{error.strerror or error}")
    return 1


def forget_output() -> None:
    """What could not be written is not tried again when the program ends."""
    if sys.stdout:
        with contextlib.suppress(OSError, ValueError):
            os.dup2(os.open(os.devnull, os.O_WRONLY), sys.stdout.fileno())
