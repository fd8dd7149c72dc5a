#!/usr/bin/env python3
"""Hostile scripts: cut after any byte, an odd byte anywhere, a million lines, failing devices.

`fail` lines name each device call in turn. What a line answers is compared with the rules of
docs/PROFILE.md: a failed device call may touch the line in which it failed and what depends on
paging, no more. tests/rows/README.md says what the scripts are.
"""

from __future__ import annotations

import sys
from concurrent.futures import ThreadPoolExecutor
from typing import Optional

from common import Check, begin, processors, text

NOT_READ = "raise 0xC0000006"
ROW = "tests/rows/decommit-and-commit"


class Run:
    """A run of a script: its status, its answers, and the moves of each line."""

    def __init__(self, check: Check, script: str):
        ended = check.run("mmsim", ["run"], script.encode())
        self.status = ended.status
        self.said = ended.out.decode()
        self.answers = self.said.splitlines()
        self.log = ended.err
        self.moves: list[list[str]] = []
        for move in ended.err.decode().splitlines():
            if move.startswith("at "):
                self.moves.append([])
            self.moves[-1].append(move)


def kind(line: str) -> str:
    """What a line is to the rules of failure."""
    word = line.split(" ")[0]
    if word in ("read", "write", "exec"):
        return "access"
    return "thread" if word in ("begin", "resume") else word


def words_of(moves: list[str]) -> list[str]:
    return [move.split(" ")[0] for move in moves]


def last_search(moves: list[str]) -> list[str]:
    """The words of the moves behind the last of a line that gives a frame or reads into one."""
    words = words_of(moves)
    for place in range(len(words), 0, -1):
        if words[place - 1] in ("give", "read"):
            return words[place:]
    return words


def failure(line: str, answer: str, moves: list[str], frames: int) -> Optional[str]:
    """What is wrong with an answer as the line's moves have it, or None."""
    words = words_of(moves)
    if kind(line) == "access":
        search = last_search(moves)
        may = "bad" in words or ("lost" in search and "wrote" not in search)
        if answer == NOT_READ and not may:
            return "an access fails and no device call that it may fail for did"
        if "bad" in words and answer != NOT_READ:
            return "an access whose read failed does not fail"
    elif kind(line) == "io":
        failed = "bad" in words or "lost" in words
        if answer != ("none" if len(words) == 1 else "fault" if failed else "ok"):
            return "the request ended otherwise"
    elif kind(line) == "flush":
        if (answer == "fault") != ("lost" in words):
            return "a flush fails exactly where a write failed"
    elif kind(line) == "counts":
        if sum(map(int, answer.split(" ")[1:7])) != frames:
            return "the frames do not add up"
    return None


def may_answer(line: str, answer: str, quiet: str) -> bool:
    """Whether a line that did not fail may answer so, if it answers `quiet` without failures."""
    if kind(line) == "thread":
        return answer == quiet or answer.startswith("pending ") or answer in ("none", "ok 0A")
    if kind(line) == "io":
        return answer in ("ok", "none")
    return answer.startswith("ok ") if kind(line) == "counts" else answer == quiet


def judge(check: Check, name: str, script: str, ran: Run) -> list[str]:
    """Compares a run with one without the lines that failed by a device. Returns these lines."""
    lines = script.splitlines()
    is_whole = ran.status == 0 and len(ran.answers) == len(lines) == len(ran.moves)
    if not check.holds(name, is_whole, f"status {ran.status}, {len(ran.answers)} answers"):
        return []
    check.holds(name, check.is_log(ran.log), "its log is not accepted")
    frames = int(lines[0].split(" ")[1])
    for place, line in enumerate(lines):
        complaint = failure(line, ran.answers[place], ran.moves[place], frames)
        if complaint:
            check.wrong(name, f"line {place + 1}, {line} => {ran.answers[place]}: {complaint}")
    failed = [place for place, it in enumerate(ran.answers) if it in (NOT_READ, "fault")]
    kept = [
        it for it in range(len(lines)) if it not in failed and not lines[it].startswith("fail ")
    ]
    quiet = Run(check, "".join(lines[place] + "\n" for place in kept))
    check.same(f"{name}, without the failed lines", quiet.status, 0)
    for place, answer in zip(kept, quiet.answers):
        if not may_answer(lines[place], ran.answers[place], answer):
            check.wrong(name, f"line {place + 1}: {ran.answers[place]}, not {answer}")
    return [lines[place] for place in failed]


def behind(script: str, word: str, line: str) -> str:
    """The script with a line behind its first one of that word."""
    end = script.index("\n", script.index(word)) + 1
    return script[:end] + line + "\n" + script[end:]


def cut_scripts(check: Check) -> None:
    """A script that ends after each of its bytes."""
    script, answers = text(f"{ROW}.mm"), text(f"{ROW}.out").splitlines()
    for end in range(len(script) + 1):
        whole = script[:end].count("\n")
        cut = end - (script.rfind("\n", 0, end) + 1)
        wanted = "".join(answer + "\n" for answer in answers[:whole])
        is_done = end > 0 and cut == 0
        if not is_done:
            wanted += f"bad line {whole + 1} column {cut + 1}\n"
        ran = Run(check, script[:end])
        what = f"the script up to byte {end}"
        check.same(what, (ran.status, ran.said), (0 if is_done else 3, wanted))
        if ran.log:
            check.holds(what, check.is_log(ran.log), "its log is not accepted")


def odd_bytes(check: Check) -> None:
    """A byte that no line may have, at each place: the fault is at the word that has it."""
    script, answers = text(f"{ROW}.mm"), text(f"{ROW}.out").splitlines()
    for place in range(len(script) - 1):
        line = script[:place].count("\n")
        start = script.rfind("\n", 0, place) + 1
        word = max(start, script.rfind(" ", 0, place) + 1)
        wanted = "".join(answer + "\n" for answer in answers[:line])
        wanted += f"bad line {line + 1} column {word - start + 1}\n"
        odd = script[:place].encode() + b"\xff" + script[place + 1 :].encode()
        ended = check.run("mmsim", ["run"], odd)
        got = (ended.status, ended.out.decode())
        check.same(f"an odd byte at {place}", got, (3, wanted))


def most_lines(check: Check) -> None:
    """A million lines, and one byte more."""
    script = b"machine 6 0 1 0\n" + b"charge\n" * 999999
    wanted = b"ok 2\n" + b"ok 0 2\n" * 999999
    last = b"too long line 1000001\n"
    for more, status, end in [(b"", 0, b""), (b"\n", 8, last), (b"c", 8, last)]:
        ended = check.run("mmsim", ["run"], script + more)
        is_so = ended.status == status and ended.out == wanted + end
        complaint = f"status {ended.status}, it ends with {ended.out[-30:]!r}"
        check.holds(f"a million lines and {len(more)} bytes", is_so, complaint)


def far_past_the_frames(check: Check) -> None:
    """Each write and each read of the paging device fails once."""
    script = text("examples/far-past-the-frames.mm")
    answers = text("examples/far-past-the-frames.out").splitlines()
    reads = [at for at, line in enumerate(script.splitlines()) if line.startswith("read ")]
    for way in ("write", "read"):
        for call in range(1, 55):
            name = f"far past the frames, fail paging {way} {call} 1"
            ran = Run(check, behind(script, "process", f"fail paging {way} {call} 1"))
            wanted = list(answers)
            if way == "read" and call < 54:
                wanted[reads[call - 1]] = NOT_READ
            wanted.insert(2, "ok")
            said = ran.answers
            # the numbers of frames and slots are others once a call failed
            if call < 54:
                wanted, said = wanted[:-1], said[:-1]
            other = [at + 1 for at, pair in enumerate(zip(said, wanted)) if pair[0] != pair[1]]
            is_so = ran.status == 0 and said == wanted
            check.holds(name, is_so, f"status {ran.status}, other answers at lines {other}")
            check.holds(name, check.is_log(ran.log), "its log is not accepted")


def fits(answers: list[str], wanted: list[str]) -> bool:
    """Whether these are the stored answers, of which `?` is any."""
    return len(answers) == len(wanted) and all(it in ("?", got) for got, it in zip(answers, wanted))


def one_call(check: Check, name: str, script: str, fail: str) -> Run:
    """Calls of a device fail from one on, once or for good."""
    failing = behind(script, "machine", fail)
    ran = Run(check, failing)
    failed = judge(check, f"{name}, {fail}", failing, ran)
    accesses = [line for line in failed if kind(line) == "access"]
    if fail.endswith(" 1") and " write " in fail:
        check.holds(f"{name}, {fail}", not accesses, "an access fails for one failed write")
    if fail.endswith(" 1") and " read " in fail:
        check.holds(f"{name}, {fail}", len(accesses) < 2, "two accesses fail for one failed read")
    return ran


def each_call(check: Check, name: str) -> None:
    """Each call of each device fails once, and all calls from it on."""
    script = text(f"tests/rows/hostile/{name}.mm")
    ran = Run(check, script)
    stored = text(f"tests/rows/hostile/{name}.out").splitlines()
    check.holds(name, ran.status == 0 and fits(ran.answers, stored), "other answers")
    judge(check, name, script, ran)
    for device in ("paging", "file"):
        for way in ("read", "write"):
            quiet = Run(check, behind(script, "machine", f"fail {device} {way} 1000000 1"))
            for call in range(1, 1000):
                one_call(check, name, script, f"fail {device} {way} {call} 1")
                ran = one_call(check, name, script, f"fail {device} {way} {call} 1000000")
                if (ran.said, ran.log) == (quiet.said, quiet.log):
                    break
            else:
                check.wrong(f"{name}, fail {device} {way}", "a call fails for every number")
            check.holds(f"{name}, fail {device} {way}", call > 1, "there is no such call")


def main() -> int:
    check = begin(__doc__, ("mmsim", "mmlog"))
    with ThreadPoolExecutor(processors()) as pool:
        tasks = [pool.submit(it, check) for it in (cut_scripts, odd_bytes, most_lines)]
        tasks.append(pool.submit(far_past_the_frames, check))
        tasks += [
            pool.submit(each_call, check, it) for it in ("shared-and-short", "two-that-share")
        ]
        for task in tasks:
            task.result()
    return check.end()


if __name__ == "__main__":
    sys.exit(main())
