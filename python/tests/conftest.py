"""The tests use the package beside them, and the programs of the PATH or of this checkout."""

from __future__ import annotations

import os
import sys
from pathlib import Path

PYTHON = Path(__file__).resolve().parents[1]
sys.path.insert(0, str(PYTHON))
os.environ["PYTHONPATH"] = os.pathsep.join(
    part for part in (str(PYTHON), os.environ.get("PYTHONPATH")) if part
)

from hypothesis import settings  # noqa: E402

settings.register_profile("plain", database=None)  # no folder of what was drawn is left behind
settings.load_profile("plain")
