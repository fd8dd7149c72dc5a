#!/usr/bin/env python3
"""Compares each worked row, line, log and generated script with what the programs say.

tests/rows/README.md says what the files are. Of each row: status, answers, the log or a part of it
where it is stored; `mmlog check` takes the log, and a second run gives the same bytes. Each example
is a row too. The stored answers are also those of checks/reference/unpaged.py, a model without
paging, and, but for what tells of paging, of `mmunpaged`, the proved world over pages that never
leave memory: so each row is answered by a store that pages and by one that does not. Then lines that
are refused, with the columns of their faults; lines that are read, on a machine with processes,
regions and sections, with their answers; logs that no run writes; and generated scripts, whose
lines checks/reference/bulk.py draws from the seed.
"""

from __future__ import annotations

import re
import sys
from concurrent.futures import ThreadPoolExecutor

from common import TOP, Check, Row, begin, maybe, processors, read, rows_of, run, table
from stores import first_difference, without_threads

sys.path.insert(0, str(TOP / "checks/reference"))
sys.dont_write_bytecode = True
from unpaged import World  # noqa: E402

PREPARED = "tests/rows/prepared"


def compare_row(check: Check, row: Row) -> None:
    """One script: status, answers, log, and a second run."""
    ended = check.run("mmsim", ["run"], row.script)
    check.same(f"{row.name}: status", ended.status, row.status)
    check.same(f"{row.name}: answers", ended.out, row.answers)
    if row.log is not None:
        check.same(f"{row.name}: moves", ended.err, row.log)
    if row.part is not None:
        check.holds(f"{row.name}: moves", row.part in ended.err, "they lack a part that is stored")
    # a script that ends before its first line has no log
    if ended.err:
        check.holds(f"{row.name}: log", check.is_log(ended.err), "`mmlog check` refuses it")
    check.holds(
        f"{row.name}: again",
        check.run("mmsim", ["run"], row.script) == ended,
        "a second run gives other bytes",
    )


def compare_unpaged(check: Check, row: Row) -> None:
    """The stored answers with those of a model without paging, up to the end of the run."""
    world = World()
    lines = row.script.decode("latin-1").split("\n")[:-1]
    for line, answer in zip(lines, row.answers.decode().splitlines()):
        if answer.startswith(("bad line", "too long line")):
            return
        wanted = world.answer(line.removesuffix("\r"), answer)
        if not check.same(f"{row.name}: `{line}` without paging", wanted, answer):
            return


def compare_stores(check: Check, row: Row) -> None:
    """The answers of both stores, up to a bad line, to the lines that are of no thread."""
    answers = row.answers.decode().splitlines()
    bad = [at for at, it in enumerate(answers) if it.startswith(("bad line", "too long line"))]
    lines = row.script.decode("latin-1").split("\n")[: (bad or [len(answers)])[0]]
    if lines and not any(line.startswith("fail ") for line in lines):
        programs = check.programs["mmsim"], check.programs["mmunpaged"]
        differs = first_difference(*programs, without_threads(lines))
        check.holds(f"{row.name}: stores", differs is None, differs or "")


def compare_logs(check: Check) -> None:
    """Logs of moves that no run writes, most of them not legal."""
    for log in sorted((TOP / "tests/rows/logs").glob("*.log")):
        stem = str(log.relative_to(TOP).with_suffix(""))
        wanted = int(maybe(f"{stem}.status") or b"0")
        ended = check.run("mmlog", ["check"], log.read_bytes())
        check.same(f"{stem}: status", ended.status, wanted)
        check.same(f"{stem}: check", ended.out, read(f"{stem}.check"))


def unescaped(field: str) -> str:
    """A line as it stands in a table."""
    return re.sub(r"\\(r|x20)", lambda it: "\r" if it[1] == "r" else " ", field)


def compare_faults(check: Check) -> None:
    """Lines that are refused, behind a `machine` line if they are none: the column of the fault."""
    for column, field in table("tests/rows/faults.txt"):
        line = unescaped(field)
        is_first = line.startswith("machine")
        script = line + "\n" if is_first else f"machine 6 0 1 0\n{line}\n"
        wanted = (
            f"bad line 1 column {column}\n" if is_first else f"ok 2\nbad line 2 column {column}\n"
        )
        ended = check.run("mmsim", ["run"], script.encode())
        check.same(f"'{field}'", (ended.status, ended.out), (3, wanted.encode()))


def compare_lines(check: Check) -> None:
    """Lines that are read, as they stand and in the shortest form, with the answer of both."""
    before, answered = read(f"{PREPARED}.mm"), read(f"{PREPARED}.out")
    for fields in table("tests/rows/lines.txt"):
        if len(fields) != 3:
            check.wrong(f"tests/rows/lines.txt: {fields[0]}", "has no three fields")
            continue
        for field in fields[:2]:
            line = unescaped(field)
            is_first = line.startswith("machine")
            script = b"" if is_first else before
            wanted = (b"" if is_first else answered) + fields[2].encode() + b"\n"
            ended = check.run("mmsim", ["run"], script + line.encode() + b"\n")
            check.same(f"'{field}'", (ended.status, ended.out[-300:]), (0, wanted[-300:]))


def compare_generated(check: Check) -> None:
    """Generated scripts: the moves of lines that another program draws, and the four last lines."""
    for seed in ("7", "42", "20260101"):
        drawn = run([sys.executable, str(TOP / "checks/reference/bulk.py"), seed, "3000"])
        check.holds(f"bulk {seed} 3000", drawn.status == 0, "cannot be drawn")
        ended = check.run("mmsim", ["run"], drawn.out)
        bulk = check.run("mmsim", ["bulk", seed, "3000"])
        check.same(f"bulk {seed} 3000: moves", bulk.err, ended.err)
        said = ended.out.decode().splitlines()
        check.same(f"bulk {seed} 3000", bulk.out.decode(), four_lines(said))
    first, second = (check.run("mmsim", ["bulk", "7", "20000"]) for _ in range(2))
    four = dict(line.split(" ", 1) for line in first.out.decode().splitlines())
    check.same("bulk 7 20000: lines", four.get("lines"), "20011")
    check.same("bulk 7 20000: charge", four.get("charge"), "192 310")
    decided = sum(int(four.get(word, "0")) for word in ("ok", "none"))
    check.same("bulk 7 20000: ok and none", decided, 20011)
    check.holds("bulk 7 20000: log", check.is_log(first.err), "`mmlog check` refuses it")
    check.holds("bulk 7 20000", first == second, "a second run gives other bytes")


def four_lines(answers: list[str]) -> str:
    """What `bulk` writes of the answers of its lines; charge and limit are those of each seed."""
    ok = sum(answer.startswith("ok") for answer in answers)
    none = answers.count("none")
    return f"lines {len(answers)}\nok {ok}\nnone {none}\ncharge 192 310\n"


def main() -> int:
    check = begin(__doc__, ("mmsim", "mmlog", "mmunpaged"))
    with ThreadPoolExecutor(processors()) as pool:
        tasks = [pool.submit(compare_generated, check)]
        for row in rows_of("tests/rows", "examples"):
            tasks += [pool.submit(it, check, row) for it in (compare_row, compare_stores)]
        tasks += [pool.submit(it, check) for it in (compare_logs, compare_faults, compare_lines)]
        for row in rows_of("tests/rows", "examples"):
            compare_unpaged(check, row)
        for task in tasks:
            task.result()
    return check.end()


if __name__ == "__main__":
    sys.exit(main())
