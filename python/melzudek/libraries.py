"""Libraries that only a part of the package needs, and where they come from."""

from __future__ import annotations

import importlib.util

from .errors import Missing

PACKAGES = {
    "numpy": "python3-numpy",
    "pandas": "python3-pandas",
    "matplotlib": "python3-matplotlib",
    "dask": "python3-dask",
    "distributed": "python3-distributed",
    "tqdm": "python3-tqdm",
}


def require(*names: str) -> None:
    """Raises Missing, with the command that installs them, where a library is not there."""
    missing = [name for name in names if importlib.util.find_spec(name) is None]
    if missing:
        packages = " ".join(PACKAGES[name] for name in missing)
        raise Missing(
            f"this needs {' and '.join(missing)}, which this Python does not have:"
            f" `apt-get install {packages}`, and Debian's own /usr/bin/python3"
        )
