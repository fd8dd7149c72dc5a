"""A scheduler of Dask with workers in processes of their own, which tests and the gate may end."""

from __future__ import annotations

import json
import os
import subprocess
import sys
import time
from collections.abc import Iterator
from contextlib import contextmanager
from dataclasses import dataclass
from pathlib import Path

SECONDS = 60


@dataclass
class Own:
    """The address of the scheduler, and its workers."""

    address: str
    workers: list[subprocess.Popen[bytes]]


def begin(module: str, *words: str, folder: Path) -> subprocess.Popen[bytes]:
    """A program of distributed, without this package on its path: the code has to travel."""
    environment = {name: value for name, value in os.environ.items() if name != "PYTHONPATH"}
    quiet = subprocess.DEVNULL
    command = [sys.executable, "-m", f"distributed.cli.{module}", *words]
    return subprocess.Popen(command, cwd=folder, env=environment, stdout=quiet, stderr=quiet)


@contextmanager
def cluster(folder: Path, workers: int = 2) -> Iterator[Own]:
    """A scheduler of this machine; whatever of it still runs at the end is ended."""
    file = folder / "scheduler.json"
    local = ["--host", "127.0.0.1", "--no-dashboard"]
    begun: list[subprocess.Popen[bytes]] = []
    try:
        where = ["--port", "0", "--scheduler-file", str(file)]
        begun.append(begin("dask_scheduler", *local, *where, folder=folder))
        address = wait_for(file)
        words = [address, "--nthreads", "1", "--no-nanny", "--local-directory", str(folder)]
        for _ in range(workers):
            begun.append(begin("dask_worker", *words, *local, folder=folder))
        yield Own(address, begun[1:])
    finally:
        for process in reversed(begun):
            process.kill()
            process.wait()


def wait_for(file: Path) -> str:
    """The scheduler's address, once it has written it."""
    until = time.monotonic() + SECONDS
    while time.monotonic() < until:
        try:
            return str(json.loads(file.read_text("utf-8"))["address"])
        except (OSError, ValueError):
            time.sleep(0.1)
    raise TimeoutError("the scheduler did not begin")
