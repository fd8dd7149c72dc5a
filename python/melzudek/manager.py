"""A balance set manager and a modified page writer, in a closed loop with a machine.

mmsim ages, trims and writes only where a line says so. Windows does it when page frames run short.
This manager looks at a machine after each so many references of a trace: where few page frames are
available it ages and trims working sets, where many are modified the writer writes, where many are
free the zero page thread zeroes. Its lines stand in the script like all others, so a run replays.
"""

from __future__ import annotations

from dataclasses import dataclass
from typing import Protocol

from .errors import Mistake

NEVER = 1 << 30


class Managed(Protocol):
    """A machine that the manager can look after: melzudek.exact.Filter is one."""

    def counts(self) -> list[int]:
        """The numbers of `counts`, in their order."""

    def stirred(self) -> bool:
        """Whether a page frame went from one list to another since the last `counts`."""

    def working_sets(self) -> list[tuple[int, int, int]]:
        """The number of each process, how many pages its working set has, and its minimum."""

    def keep_house(self, line: str) -> None:
        """Gives the machine a line."""


@dataclass(frozen=True)
class Rules:
    """When the manager acts, in pages. It looks after each `every` references of the trace.

    Available page frames are those zeroed, free and on standby. Below `low` of them each process
    is aged, and `trim` pages of it go, the oldest first, while it is above its minimum; with `trim`
    0 processes are only aged. Above `modified` modified pages `writes` of them are written. Above
    `free` free page frames those that are more are zeroed.
    """

    every: int = 1_000
    low: int = 0
    trim: int = 8
    modified: int = NEVER
    writes: int = 4
    free: int = NEVER

    def __post_init__(self) -> None:
        if self.every < 1:
            raise Mistake("a manager looks after each 1 or more references")
        if min(self.low, self.trim, self.modified, self.writes, self.free) < 0:
            raise Mistake("a manager's numbers of pages are 0 or more")


class Manager:
    """Looks after one machine by rules."""

    def __init__(self, rules: Rules) -> None:
        self.rules = rules
        self.available = self.modified = self.free = 0

    def look(self, machine: Managed) -> None:
        rules = self.rules
        self.ask(machine)
        if self.available < rules.low:
            for pid, pages, minimum in machine.working_sets():
                machine.keep_house(f"age {pid}")
                if rules.trim and pages > minimum:
                    machine.keep_house(f"trim {pid} {rules.trim}")
            self.ask(machine)
        if self.modified > rules.modified:
            for _ in range(min(rules.writes, self.modified)):
                machine.keep_house("writer 1")
                machine.keep_house("io 1")
            self.ask(machine)
        if self.free > rules.free:
            machine.keep_house(f"zeroer {self.free - rules.free}")

    def ask(self, machine: Managed) -> None:
        if machine.stirred():
            zeroed, self.free, standby, self.modified, *_ = machine.counts()
            self.available = zeroed + self.free + standby
