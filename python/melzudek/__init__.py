"""Melzudek: a simulator of the memory manager of 32-bit Windows, for Python.

The live machine needs the standard library alone. What needs more is imported when it is asked for.
"""

from __future__ import annotations

import importlib
from typing import TYPE_CHECKING

from .errors import Busy, DeviceFault, Ended, Full, Mistake, Missing, Raised, Refused
from .machine import Charge, Counts, Handle, Machine, Pending, Process, Region, Stack, Thread
from .names import ERROR, FILE_MAP, MEM, PAGE, SEC, STATUS
from .observe import Observations, observe

if TYPE_CHECKING:
    from .comparison import compare
    from .costs import Costs
    from .sweeps import sweep
    from .tables import load, run

# What is asked for later, with the module that has it. A module in this table has another name than
# what it gives: else importing it would put the module in the place of the function.
LATER: dict[str, str] = {
    "compare": "comparison",
    "Costs": "costs",
    "load": "tables",
    "run": "tables",
    "sweep": "sweeps",
}

__all__ = ["Machine", "Process", "Thread", "Handle", "Pending"]
__all__ += ["Region", "Stack", "Charge", "Counts", "Observations", "observe"]
__all__ += ["PAGE", "MEM", "SEC", "FILE_MAP", "ERROR", "STATUS"]
__all__ += ["Refused", "Raised", "Busy", "Full", "DeviceFault", "Ended", "Mistake", "Missing"]
__all__ += ["run", "load", "sweep", "compare", "Costs"]


def __getattr__(name: str) -> object:
    if name not in LATER:
        raise AttributeError(f"module melzudek has no {name}")
    found = globals()[name] = getattr(importlib.import_module("." + LATER[name], __name__), name)
    return found
