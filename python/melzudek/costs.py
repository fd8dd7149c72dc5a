"""What faults cost: an effective access time from weights, for a run, a row of a sweep, a curve.

    costs = Costs.parse("hard=100us,soft=1us,zero=0.5us,copy=1us,write=100us,reference=1ns")
    costs.effective(run.count)                    # nanoseconds for each reference
    costs.effective(pandas.read_csv("rows.csv"))  # a column of them

A write-out that an access begins, because no page frame is left, is waited for: the time of those
is a part of its own (`synchronous`). What the modified page writer writes costs an access nothing.
"""

from __future__ import annotations

import re
from collections.abc import Mapping
from dataclasses import dataclass, fields
from typing import Any

from .errors import Mistake

UNITS = {"ns": 1.0, "us": 1e3, "ms": 1e6, "s": 1e9}
WEIGHT = re.compile(r"([0-9]+(?:\.[0-9]*)?)(ns|us|ms|s)")
SHOWN = (("s", 1e9), ("ms", 1e6), ("us", 1e3))


@dataclass(frozen=True)
class Costs:
    """Nanoseconds of each reference, of a fault of each kind beside it, of a synchronous write."""

    reference: float = 0
    zero: float = 0
    copy: float = 0
    soft: float = 0
    hard: float = 0
    collided: float = 0
    write: float = 0

    @classmethod
    def parse(cls, text: str) -> Costs:
        """Weights as `hard=100us,reference=1ns`; one that is not named is 0. Raises Mistake."""
        found: dict[str, float] = {}
        names = [it.name for it in fields(cls)]
        for part in text.split(","):
            name, _, weight = part.strip().partition("=")
            number = WEIGHT.fullmatch(weight)
            if name not in names or not number or name in found:
                known = ", ".join(names)
                raise Mistake(f"`{part}` is no cost: write NAME=TIME, as hard=100us; {known}")
            found[name] = float(number[1]) * UNITS[number[2]]
        return cls(**found)

    def faults(self, counts: Mapping[str, Any]) -> Any:
        """Nanoseconds of all faults, without the writes that they waited for."""
        kinds = ("zero", "copy", "soft", "hard", "collided")
        return sum(counts[kind] * getattr(self, kind) for kind in kinds)

    def synchronous(self, counts: Mapping[str, Any]) -> Any:
        """Nanoseconds of the write-outs inside accesses."""
        return counts["synchronous"] * self.write

    def total(self, counts: Mapping[str, Any]) -> Any:
        """Nanoseconds of all references, of their faults and of the writes inside them."""
        own = counts["references"] * self.reference
        return own + self.faults(counts) + self.synchronous(counts)

    def effective(self, counts: Mapping[str, Any]) -> Any:
        """The effective access time: nanoseconds for each reference; 0 where there is none.

        `counts` has numbers, or columns of them: then this is a column.
        """
        references = counts["references"]
        return self.total(counts) / (references + (references == 0))


def spelled(nanoseconds: float) -> str:
    """A time with its unit: `1.25 us`."""
    for unit, size in SHOWN:
        if nanoseconds >= size:
            return f"{nanoseconds / size:,.4g} {unit}"
    return f"{nanoseconds:,.4g} ns"


def told(costs: Costs, counts: Mapping[str, int]) -> str:
    """The effective access time of a run, and what it is made of, in words."""
    parts = [
        f"effective access time {spelled(costs.effective(counts))}",
        f"faults {spelled(costs.faults(counts))}",
        f"writes inside accesses {spelled(costs.synchronous(counts))}",
        f"in all {spelled(costs.total(counts))} for {counts['references']:,} references",
    ]
    return ", ".join(parts)
