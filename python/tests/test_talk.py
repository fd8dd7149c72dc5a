"""A talk: answers, moves and reasons below each line, by a pipe and at a terminal."""

from __future__ import annotations

import os
import pty
import re
import select
import subprocess
import sys
import time
from pathlib import Path

import pytest

from melzudek import talk
from melzudek.machine import Machine

TOP = Path(__file__).resolve().parents[2]
COMMAND = [sys.executable, "-m", "melzudek", "talk"]
SECONDS = 120
WRITTEN = """\
machine 64 64 4 0
# a machine and a process
process 0 32
let heap = 1M
VirtualAlloc(1, heap, 8K, MEM_COMMIT | MEM_RESERVE, PAGE_READWRITE)
write 1 heap "hello"
query 1 heap
read 1 64K 1
VirtualFree(1, heap + 4K, 0, MEM_RELEASE)
"""
SHOWN = """\
1> machine 64 64 4 0
ok 118
2> # a machine and a process
2> process 0 32
ok 1
3> let heap = 1M
3> VirtualAlloc(1, heap, 8K, MEM_COMMIT | MEM_RESERVE, PAGE_READWRITE)
ok 0x00100000  [MEM_COMMIT|MEM_RESERVE, PAGE_READWRITE]
"""


def said(given: str, *words: str) -> tuple[int, str, str]:
    """The status and both streams of a talk by a pipe."""
    ran = subprocess.run(
        [*COMMAND, *words], input=given, capture_output=True, text=True, timeout=SECONDS
    )
    return ran.returncode, ran.stdout, ran.stderr


def below(shown: str, prompt: str) -> list[str]:
    """What is shown below a line, up to the next prompt."""
    behind = shown.partition(f"{prompt}\n")[2]
    return re.split(r"^\d+> ", behind, maxsplit=1, flags=re.MULTILINE)[0].splitlines()


def test_each_line_is_answered_in_windows_names_and_its_moves_in_words() -> None:
    status, shown, told = said(WRITTEN)
    assert (status, told) == (0, "")
    assert shown.startswith(SHOWN)
    written = below(shown, '4> write 1 heap "hello"')
    assert written[0] == "ok"
    assert any("demand-zero fault: p1.256 gets zeroed frame 0" in it for it in written)
    query = below(shown, "5> query 1 heap")
    assert query[0].startswith("ok 0x00100000 ") and "MEM_PRIVATE" in query[0]
    assert below(shown, "6> read 1 64K 1")[0].split() == [
        "raise",
        "0xC0000005",
        "[STATUS_ACCESS_VIOLATION]",
    ]
    assert (
        "[ERROR_INVALID_ADDRESS" in below(shown, "7> VirtualFree(1, heap + 4K, 0, MEM_RELEASE)")[0]
    )


def test_moves_are_those_of_mmshow_tell() -> None:
    _, shown, _ = said(WRITTEN)
    with Machine.of(talk.hear(WRITTEN.splitlines()).plain) as machine:
        one = talk.Talk()
        one.machine = machine
        assert machine.lines == 7 and one.number == 8
        assert one.told("free 1 0x101000 0 0x8000")[0] in shown


def test_reasons_have_the_number_of_the_log_and_leave_the_line_out() -> None:
    given = (
        "process 0 32\nmachine 64 64 4 0\n# comment\nraed 1 0 1\nread 1 10000 4\nmachine 6 0 1 0\n"
    )
    status, shown, _ = said(given)
    assert status == 0
    assert below(shown, "1> process 0 32")[0].startswith("line 1: ")
    assert below(shown, "2> raed 1 0 1") == [
        "line 2 column 1: no such word 'raed'; is 'read' meant?"
    ]
    warned = below(shown, "2> read 1 10000 4")
    assert warned[0].startswith("warning: line 2") and warned[1].startswith("error 6")
    assert below(shown, "3> machine 6 0 1 0")[0].startswith("line 3: a second 'machine'")


def test_undo_runs_the_lines_before_it_again(tmp_path: Path) -> None:
    into = tmp_path / "kept"
    given = "undo\nmachine 64 64 4 0\nprocess 0 32\nprocess 0 8\nundo\nlet a = 64K\nundo\n"
    given += "read 1 a 1\nundo\nundo\nundo\nmachine 8 8 1 0\nprocess 0 4\n"
    status, shown, told = said(given, "--into", str(into))
    assert status == 0 and told == f"melzudek: {into} has the run\n"
    assert below(shown, "1> undo") == ["there is no line to take back"]
    assert below(shown, "4> undo") == ["taken back: process 0 8"]
    assert below(shown, "3> undo") == ["taken back: let a = 64K"]
    assert below(shown, "3> read 1 a 1")[0].startswith("line 3 column 8: a is no name")
    assert (into / "script.mm").read_text() == "machine 8 8 1 0\nprocess 0 4\n"
    assert (into / "answers.out").read_text() == "ok 12\nok 1\n"


def test_help_has_the_form_by_mmnames_and_the_rule() -> None:
    forms = {
        "alloc": "alloc PID ADDRESS SIZE TYPE PROTECTION",
        "VirtualAlloc": "alloc PID ADDRESS SIZE TYPE PROTECTION",
        "machine": "machine FRAMES SLOTS DEPTH BLOCKS",
        "charge": "charge",
        "io": "io REQUEST",
    }
    for word, form in forms.items():
        assert talk.help_of(word)[0] == form
    rule = "\n".join(talk.help_of("alloc")[1:])
    assert "MEM_RESERVE" in rule and "VirtualFree" not in rule
    assert talk.help_of("allok") == ["no such word 'allok'; is 'alloc' meant?"]
    _, shown, _ = said("help\nhelp free\nhelp me out\n")
    assert "undo" in shown and "free PID ADDRESS SIZE TYPE" in shown
    assert below(shown, "1> help me out")[0].startswith("line 1 column 1: no such word 'help'")


def test_a_script_comes_first(tmp_path: Path) -> None:
    lab = TOP / "examples" / "lab.txt"
    count = len((TOP / "examples" / "lab.answers").read_text().splitlines())
    status, shown, _ = said("counts\n", str(lab))
    assert status == 0 and shown.startswith(
        f"{lab}: {count:,} lines are run\n{count + 1}> counts\nok "
    )
    bad = tmp_path / "bad.txt"
    bad.write_text("machine 64 64 4 0\nraed 1 0 1\n")
    status, shown, told = said("counts\n", str(bad))
    wanted = f"melzudek: {bad}: line 2 column 1: no such word 'raed'; is 'read' meant?\n"
    assert (status, shown, told) == (1, "", wanted)
    status, _, told = said("", str(tmp_path / "none.txt"))
    assert status == 1 and told.startswith(f"melzudek: {tmp_path / 'none.txt'} cannot be read: ")


def test_many_moves_are_cut_and_shown_when_asked_for() -> None:
    given = (
        "machine 64 64 4 0\nprocess 0 32\nalloc 1 0 256K MEM_COMMIT|MEM_RESERVE PAGE_READWRITE\n"
        "free 1 64K 0 MEM_RELEASE\n"
    )
    _, shown, _ = said(given + "moves\n")
    cut = below(shown, "4> free 1 64K 0 MEM_RELEASE")
    assert len(cut) == talk.MOST_MOVES + 2 and cut[-1].strip().startswith("and 44 more")
    assert len(below(shown, "5> moves")) == 64


class Terminal:
    """A talk at a terminal of its own."""

    def __init__(self, *words: str) -> None:
        self.shown = ""
        self.child, self.file = pty.fork()
        if not self.child:
            os.environ["TERM"] = "dumb"
            os.execv(COMMAND[0], [*COMMAND, *words])

    def wait(self, text: str) -> None:
        """Reads until a text is shown behind what was awaited before."""
        end = time.monotonic() + SECONDS
        while text not in self.shown:
            assert select.select([self.file], [], [], max(0, end - time.monotonic()))[0], self.shown
            try:
                got = os.read(self.file, 65536)
            except OSError:
                got = b""  # the other side is closed
            assert got, f"{text!r} never came: {self.shown!r}"
            self.shown += got.decode("utf-8", "replace")
        self.shown = self.shown.partition(text)[2]

    def type(self, text: str) -> None:
        os.write(self.file, text.encode())

    def end(self) -> int:
        status = os.waitstatus_to_exitcode(os.waitpid(self.child, 0)[1])
        os.close(self.file)
        return status


def test_at_a_terminal_lines_are_edited_and_had_again(tmp_path: Path) -> None:
    pytest.importorskip("readline")
    into = tmp_path / "kept"
    one = Terminal("--into", str(into))
    one.wait("`quit` ends")
    one.wait("1> ")
    one.type("mach\b\b\b\bmachine 64 64 4 0\n")
    one.wait("ok 118")
    one.wait("2> ")
    one.type("process 0 32\n")
    one.wait("ok 1\r\n3> ")
    one.type("\x1b[A\n")  # up: the line before
    one.wait("ok 2\r\n4> ")
    one.type("read 1 ")
    one.wait("read 1 ")
    one.type("\x03")  # Ctrl-C drops the line
    one.wait("4> ")
    one.type("raed 1 64K 1\n")
    one.wait("line 4 column 1: no such word 'raed'")
    one.wait("4> ")
    one.type("undo\n")
    one.wait("taken back: process 0 32")
    one.wait("3> ")
    one.type("stack 0 1 64K 4K\n")
    one.wait("ok 0x00010000")
    one.wait("4> ")
    one.type("\x04")  # Ctrl-D ends the talk
    one.wait("has the run")
    assert one.end() == 0
    log = (into / "moves.log").read_text().splitlines()
    assert [line.split()[1] for line in log if line.startswith("at ")] == ["1", "2", "3"]
    assert "at 3 " in log[-3] or any(line.startswith("at 3 ") for line in log)
