#!/usr/bin/env python3
"""Compares what `mmshow` says of logs with an independent reading of the same logs in Python.

Each form but `html` (the pages are compared by checks/page), on the log of each example, of 200
generated scripts, and of 30 scripts that are drawn here, with failing devices, threads that wait
and `age` and `charge` lines, so that there are names, reasons and charges to tell. Where there is
a script, `tell`, `events` and `counts csv` are compared without it, with it, and with its answers.
Each log is then spoiled in one line, and all
forms are compared again, with the status and the reason why a move is not legal.

tests/rows/show/ has logs by hand with the reason of their last move, and a script by hand with the
names behind its answers. Then scripts that do not fit, and files that are missing.

With --few fewer logs are compared, for a quick look. checks/reference/README.md says what the
references were written from. checks/reference/ledger.py,
the second of them, knows nothing of the first: it gives `counts`, `state` and `faults` of 100
drawn logs.
"""

from __future__ import annotations

import argparse
import concurrent.futures
import importlib
import random
import re
import sys
import tempfile
from typing import Any, Iterator, NamedTuple, Optional

from common import TOP, Check, Ended, begin, processors, read, run, short, table, text

sys.path.insert(0, str(TOP / "checks/reference"))
sys.dont_write_bytecode = True
import ledger  # noqa: E402

# (this file has the same name)
show: Any = importlib.import_module("show")

BULK = [(seed, 40 + seed) for seed in range(1, 201)]
DRAWN = range(1, 31)
LEDGERS = range(101, 201)
# What follows the first line of a drawn script, on machines from ample to short of frames.
MACHINES = [
    "machine 64 256 4 32\nprocess 8 48\nprocess 8 48\n",
    "machine 20 120 4 32\nprocess 2 10\nprocess 2 10\n",
    "machine 14 140 3 32\nprocess 1 6\nprocess 3 5\n",
]
MADE = """file data 32 1
alloc 1 0x0 0x80000 0x3000 0x4
create 1 0x20000 0x4 pool
open 2 pool
map 1 4 0x2 0x0 0x0 0x0
map 2 4 0x2 0x0 0x0 0x0
createfile 2 data 0x4 -
map 2 8 0x1 0x0 0x0 0x0
"""
ACCESSES = ["write {pid} {page} {byte}", "read {pid} {page} 1"]
THREADS = [
    "begin {thread} {pid} read {page} 1",
    "begin {thread} {pid} write {page} 55",
    "resume {thread}",
    "age {pid}",
]
OTHERS = [
    "zeroer {few}",
    "fail {device} {way} {many} {few}",
    "query {pid} {page}",
    "charge",
    "protect {pid} {page} 0x1000 {protection}",
    "grow {few}",
    "alloc 1 {page} 0x3000 0x1000 0x4",
    "free 1 {page} 0x2000 0x4000",
    "flush 2 {page} 0x1000",
    "exec {pid} {page}",
    "close 2 8",
]
EVENTS = ACCESSES * 8 + THREADS * 2 + ["io 1", "writer 4", "trim {pid} 8"] * 4 + OTHERS
PROTECTIONS = ["0x1", "0x2", "0x4", "0x104", "0x8", "0x20", "0x6"]


class Case(NamedTuple):
    """A log, with the files of its script and answers where there are some."""

    name: str
    log: bytes
    files: list[str]


def drawn(seed: int) -> bytes:
    """A script that no one wrote: 150 lines, and ten for each of the seed."""
    draw = random.Random(seed)
    lines = []
    for _ in range(150 + 10 * (seed % 100)):
        facts = {
            "pid": draw.randint(1, 2),
            "page": f"0x{0x10000 + 4096 * draw.randrange(draw.choice([30, 160])):X}",
            "byte": f"{draw.randrange(256):02X}",
            "thread": draw.randrange(4),
            "few": draw.randint(1, 5),
            "many": draw.randint(1, 60),
            "device": draw.choice(["paging", "file"]),
            "way": draw.choice(["read", "write"]),
            "protection": draw.choice(PROTECTIONS),
        }
        lines.append(draw.choice(EVENTS).format(**facts) + "\n")
    return (MACHINES[seed % 3] + MADE + "".join(lines)).encode()


def spoiled(log: bytes, draw: random.Random) -> bytes:
    """The log with one line changed, left out, doubled, swapped with the next, or cut."""
    moves = log.splitlines(True)
    at = draw.randrange(len(moves))
    move = moves[at]
    numbers = list(re.finditer(rb"\d+", move))
    one = draw.choice(numbers) if numbers else None
    changed = move
    if one:
        number = draw.choice([int(one[0]) + 1, draw.randrange(70)])
        changed = move[: one.start()] + b"%d" % number + move[one.end() :]
    other = moves[draw.randrange(len(moves))]
    # what is there now, in place of how many lines
    ways: list[tuple[list[bytes], int]] = [([changed], 1)] * 4
    ways += [([], 1), ([move], 0), ([other], 0), ([other], 1), ([b"no move\n"], 1)]
    ways += [([move[:-1]], 1), (moves[at + 1 : at + 2] + [move], 2)]
    new, gone = draw.choice(ways)
    return b"".join(moves[:at] + new + moves[at + gone :])


def forms_of(log: bytes, files: list[str], draw: random.Random) -> list[list[str]]:
    """The words to be compared, with a line, a frame and a page that are drawn."""
    lines = 1 + log.count(b"at ")
    key = draw.choice(sorted(set(re.findall(rb"[ps]\d+\.\d+", log))) or [b"p1.16"]).decode()
    line, other = (str(draw.randint(1, lines)) for _ in range(2))
    frame = str(draw.randrange(16))
    forms = [["tell"], ["events"], ["counts"], ["counts", line], ["state", other], ["frame", frame]]
    forms += [["key", key], ["faults"], ["sums"], ["counts", "csv"], ["faults", "csv"]]
    if key.startswith("p"):
        pid, page = key[1:].split(".")
        address = int(page) * 4096 % 2**32 + draw.randrange(4096)
        forms.append(["key", f"{pid}:0x{address:X}"])
    for count in range(1, len(files) + 1):
        forms += [[*form, *files[:count]] for form in (["tell"], ["events"], ["counts", "csv"])]
    return forms


def differing(got: Ended, wanted: tuple[int, bytes]) -> Optional[str]:
    """What differs between a program's end and the reference's, or None."""
    if got.status != wanted[0]:
        return f"status {got.status}, not {wanted[0]}: {got.out[-100:]!r}, not {wanted[1][-100:]!r}"
    pairs = zip(got.out.split(b"\n") + [b""], wanted[1].split(b"\n") + [b""])
    for at, (said, asked) in enumerate(pairs, 1):
        if said != asked:
            return f"row {at} is {said!r}, not {asked!r}"
    return None if got.out == wanted[1] else "it is cut"


def complaints(mmshow: str, case: Case) -> tuple[int, list[str]]:
    """Compares all texts of a log, and of the log spoiled: how many, and what is wrong."""
    draw = random.Random(case.name)
    tried, bad = 0, []
    for what, log in ((case.name, case.log), (f"{case.name}, spoiled", spoiled(case.log, draw))):
        for words in forms_of(log, case.files, draw):
            tried += 1
            status, said = show.answer(words, log)
            wrong = differing(run([mmshow, *words], log), (status, said.encode("latin-1")))
            if wrong:
                bad.append(f"{what}: {' '.join(words)}: {wrong}")
    return tried, bad


def cases(check: Check, room: str) -> Iterator[Case]:
    """Each log with its name and the files of its script; with --few a tenth of those drawn."""
    step = 10 if check.words.few else 1
    scripts = {it.stem: it.read_bytes() for it in sorted((TOP / "examples").glob("*.mm"))}
    scripts.update((f"drawn {seed}", drawn(seed)) for seed in DRAWN[::step])
    for name, script in scripts.items():
        ended = check.run("mmsim", ["run"], script)
        yield Case(name, ended.err, written(room, name.replace(" ", "-"), script, ended.out))
    for seed, lines in BULK[::step]:
        log = check.run("mmsim", ["bulk", str(seed), str(lines)]).err
        yield Case(f"bulk {seed} {lines}", log, [])


def written(room: str, name: str, script: bytes, answers: bytes) -> list[str]:
    """The files of a script and its answers."""
    files = [f"{room}/{name}.mm", f"{room}/{name}.out"]
    for path, data in zip(files, (script, answers)):
        with open(path, "wb") as file:
            file.write(data)
    return files


def compare_reasons(check: Check) -> None:
    """Each bad log by hand: its reason, of the program and of the reference."""
    first = text("tests/rows/show/first.log")
    for moves, why in table("tests/rows/show/reasons.txt"):
        log = first + moves.replace("|", "\n") + "\n"
        last = moves.split("|")[-1]
        wanted = f"no line {log.count(chr(10))}: {last}: {why}\n"
        ended = check.run("mmshow", ["sums"], log.encode())
        check.same(f"a bad log by hand: {last}", (ended.status, ended.out.decode()), (3, wanted))
        check.same(f"the reference of it: {last}", show.answer(["sums"], log.encode()), (3, wanted))


def compare_remarks(check: Check, room: str) -> None:
    """Each line by hand: what is behind its answer, of the program and of the reference."""
    remarks = list(table("tests/rows/show/remarks.txt"))
    script = "".join(line + "\n" for line, _ in remarks).encode()
    ended = check.run("mmsim", ["run"], script)
    words = ["tell", *written(room, "remarks", script, ended.out)]
    told = check.run("mmshow", words, ended.err).out.decode()
    for who, said in (("mmshow", told), ("the reference", show.answer(words, ended.err)[1])):
        rows = [line for line in said.splitlines() if line[:1].isdigit()]
        for number, (line, remark) in enumerate(remarks, 1):
            got = rows[number - 1] if number <= len(rows) else ""
            is_so = got.startswith(f"{number}  {line} ") and got.endswith(f" {remark}")
            check.holds(f"a remark by hand, {who}", is_so, f"{got!r}, not {line} {remark}")


def compare_faults(check: Check) -> None:
    """Where the log or the script is wrong."""
    log, script = read("examples/under-pressure.log"), "examples/under-pressure.mm"
    moves = log.splitlines(True)
    for at in (0, 1, 20, 77, len(moves) - 1):
        short = b"".join(moves[:at]) + b"give 0 p9.9\n" + b"".join(moves[at:])
        ended = check.run("mmshow", ["sums"], short)
        check.same(f"a move that is not legal after {at}", ended.status, 3)
        page = check.run("mmshow", ["html"], short)
        check.same(f"a page of it ({at})", page[:2], (3, b"no line %d\n" % (at + 1)))
    missing = b"cannot read examples/none\n"
    for what, words, given, status, said in [
        ("a log that ends within a line", ["html"], log[:-3], 3, b"no line %d\n" % len(moves)),
        ("no line of a log", ["html"], b"x\n", 3, b"no line 1\n"),
        ("another script", ["html", "examples/first.mm"], log, 6, b"script line 3\n"),
        ("answers that are missing", ["html", script, "examples/none"], log, 4, missing),
        ("a script that is missing", ["html", "examples/none"], log, 4, missing),
        ("a script that is missing", ["tell", "examples/none"], log, 4, missing),
    ]:
        check.same(what, check.run("mmshow", words, given)[:2], (status, said))


def compare_answers(check: Check, room: str) -> None:
    """Answers that are not a log's, runs that ended early, and bytes that no terminal is to get."""
    script = read("examples/under-pressure.mm")
    ended = check.run("mmsim", ["run"], script)
    said = ended.out.splitlines(True)
    other = check.run("mmsim", ["run"], read("examples/first.mm")).out
    cases: list[tuple[str, list[bytes], Optional[int]]] = [
        ("one too few", said[:-1], len(said)),
        ("none", [], 1),
        ("one too many", said + [b"ok\n"], len(said) + 1),
        ("one that is none", said[:4] + [b"pending read\n"] + said[5:], 5),
        ("a number too few", [b"ok\n"] + said[1:], 1),
        ("those of another run", other.splitlines(True), None),
        (
            "behind the end of a run",
            said + [b"bad line %d column 1\n" % (len(said) + 1)] * 2,
            len(said) + 2,
        ),
    ]
    for what, answers, line in cases:
        files = written(room, "answers", script, b"".join(answers))
        for form in ("tell", "events", "html"):
            got = check.run("mmshow", [form, *files], ended.err)
            last = got.out.splitlines()[-1]
            is_so = (
                last.startswith(b"answer line ")
                if line is None
                else last == b"answer line %d" % line
            )
            check.holds(
                f"answers, {what}: {form}", got.status == 6 and is_so, f"{got.status}, {last!r}"
            )
            if form != "html":
                status, wanted = show.answer([form, *files], ended.err)
                wrong = differing(got, (status, wanted.encode("latin-1")))
                check.holds(f"answers, {what}: {form}", not wrong, wrong or "")
    compare_ends(check, room)


def compare_ends(check: Check, room: str) -> None:
    """What is said of a run that ended early, with its answers and without them."""
    begun = b"machine 8 8 1 0\nprocess 0 4\n"
    cut = "line 3 was not reached: the run ended before it"
    for what, line, answered, alone in [
        ("no line", b"foo\n", "line 3 is no line: the run ended here", cut),
        ("too long", b"f" * 257 + b"\n", "line 3 is too long: the run ended here", cut),
        ("nothing", b"", None, None),
        ("no line feed", b"age 1", "line 3 is no line: the run ended here", None),
    ]:
        ended = check.run("mmsim", ["run"], begun + line)
        files = written(room, "ended", begun + line, ended.out)
        for words, wanted in ((["tell", *files], answered), (["tell", files[0]], alone)):
            got = check.run("mmshow", words, ended.err)
            rows = got.out.decode().splitlines()
            check.same(
                f"an early end, {what}", (got.status, rows[2:]), (0, [wanted] if wanted else [])
            )
            check.same(
                f"the reference of it, {what}", show.answer(words, ended.err), (0, got.out.decode())
            )
    shown = b"machine \x1b[31m8\xff\nprocess\t0\n"
    files = written(room, "bytes", shown.replace(b"\t", b" \t"), b"ok 12\nok 1\n")
    log = check.run("mmsim", ["run"], begun).err
    got = check.run("mmshow", ["tell", *files], log)
    check.holds(
        "control bytes", b"machine ?[31m8?" in got.out and b"process ?0" in got.out, repr(got.out)
    )
    check.same(
        "control bytes, the reference",
        show.answer(["tell", *files], log),
        (0, got.out.decode("latin-1")),
    )


# A paging file of one slot, three changed pages, and one request at a time.
FULL = b"machine 8 1 1 0\nprocess 0 8\nalloc 1 0x10000 0x3000 0x3000 0x4\n"
FULL += b"write 1 0x10000 01\nwrite 1 0x11000 01\nwrite 1 0x12000 01\ntrim 1 8\n"
# Each line, and how many pages are told to be left for want of slots.
WRITERS = [
    (b"writer 3", 0),  # the one slot is taken, and the one request is in flight
    (b"io 1", 0),
    (b"writer 0", 0),
    (b"writer 0x4", 2),
    (b"zeroer 1", 0),
    (b"writer  1", 0),  # no line: the run ends
]


def compare_writers(check: Check, room: str) -> None:
    """A writer that finds no slot says so, in front of the next line and at the end of a log."""
    row = "     no slot of the paging file is free: 2 modified pages are not written"
    for count in range(1, len(WRITERS) + 1):
        lines = WRITERS[:count]
        script = FULL + b"".join(line + b"\n" for line, _ in lines)
        ended = check.run("mmsim", ["run"], script)
        files = written(room, f"writers-{count}", script, ended.out)
        for words in (["tell", *files], ["tell", files[0]], ["tell"]):
            got = check.run("mmshow", words, ended.err)
            said = got.out.decode().count(row + "\n")
            wanted = sum(1 for _, left in lines if left) if words[1:] else 0
            check.same(f"{count} lines of writers, {len(words)} words", said, wanted)
            check.same(
                f"the reference of it, {count}, {len(words)}",
                show.answer(words, ended.err),
                (got.status, got.out.decode()),
            )
        bad = ended.err + b"no move\n"
        got = check.run("mmshow", ["tell", files[0]], bad)
        status, said = show.answer(["tell", files[0]], bad)
        wrong = differing(got, (status, said.encode("latin-1")))
        check.holds(f"a bad log of {count} lines of writers", not wrong, wrong or "")


def ledger_complaints(programs: tuple[str, str], seed: int) -> tuple[int, list[str]]:
    """The second reader, on a drawn log: `counts`, the state after some lines, and `faults`."""
    mmsim, mmshow = programs
    log = run([mmsim, "run"], drawn(seed)).err
    plain, draw = log.decode(), random.Random(seed)

    def rows(*words: str) -> list[str]:
        return run([mmshow, *words], log).out.decode().splitlines()

    lines = plain.count("at ")
    pairs: list[tuple[str, Any, Any]] = [
        ("counts", rows("counts")[1:], ledger.counts(plain)),
    ]
    for line in (draw.randint(1, lines), lines):
        pairs.append((f"state {line}", rows("state", str(line)), ledger.state(plain, line)))
    said = "".join(it + "\n" for it in rows("faults"))
    pairs.append(("faults", ledger.read_faults(said), ledger.faults(plain)))
    bad = [
        f"ledger {seed}: {what}: {short(got)}, not {short(wanted)}"
        for what, got, wanted in pairs
        if got != wanted
    ]
    return len(pairs), bad


def main() -> int:
    parser = argparse.ArgumentParser(description=(__doc__ or "").split("\n")[0])
    parser.add_argument("--few", action="store_true", help="compare a tenth of the drawn logs")
    check = begin(__doc__, ("mmsim", "mmshow"), parser)
    mmshow = check.programs["mmshow"]
    workers = processors()
    with tempfile.TemporaryDirectory() as room:
        with concurrent.futures.ProcessPoolExecutor(workers) as pool:
            seeds = LEDGERS[:: 10 if check.words.few else 1]
            programs = (check.programs["mmsim"], mmshow)
            tasks = [pool.submit(ledger_complaints, programs, seed) for seed in seeds]
            tasks += [pool.submit(complaints, mmshow, it) for it in cases(check, room)]
            for task in tasks:
                tried, bad = task.result()
                check.compared += tried
                for complaint in bad:
                    check.wrong("texts", complaint)
        compare_remarks(check, room)
        compare_answers(check, room)
        compare_writers(check, room)
    compare_reasons(check)
    compare_faults(check)
    return check.end()


if __name__ == "__main__":
    sys.exit(main())
