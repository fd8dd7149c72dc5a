"""Where the proved programs are: mmsim, mmlog, mmshow, mmnames."""

from __future__ import annotations

import os
import shutil
from pathlib import Path

from .errors import Missing


def find(name: str) -> str:
    """The path of a program: MELZUDEK_MMSIM and its like first, then the PATH, then the checkout.

    Raises Missing, with what to do, where none of these has it.
    """
    variable = "MELZUDEK_" + name.upper()
    named = os.environ.get(variable)
    if named:
        found = shutil.which(named)
        if not found:
            raise Missing(f"{variable} names {named}, and no program is there: correct or unset it")
        return found
    found = shutil.which(name) or in_checkout(name)
    if not found:
        raise Missing(
            f"there is no program {name}: put its folder on the PATH, or set {variable} to its"
            f" path, or build it with `rt run` in crates/{name} of a checkout of Melzudek"
        )
    return found


def in_checkout(name: str) -> str | None:
    """The program that the gate or `rt run` left in the checkout that has this package."""
    for folder in Path(__file__).resolve().parents:
        built = folder / "crates" / name / "out" / name
        if os.access(built, os.X_OK) and built.is_file():
            return str(built)
    return None
