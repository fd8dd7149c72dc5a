"""What both stores answer to the same script: `mmsim`, whose pages come and go, and `mmunpaged`,
the same world over pages that never leave memory."""

from __future__ import annotations

from typing import Optional

from common import Ended, run

# A thread's access waits where its page is read; so what threads do comes at another time.
THREADS = {"begin", "resume"}
# Answers that tell of reads in flight, writes of modified pages and page frames.
HOUSEKEEPING = {"io", "writer", "counts"}


def without_threads(lines: list[str]) -> list[str]:
    """The lines of a script but those of threads."""
    return [line for line in lines if line.split(" ")[0] not in THREADS]


def ending(ended: Ended) -> str:
    """How a run ended, in words."""
    return f"status {ended.status} after {ended.out.count(10)} answers"


def first_difference(mmsim: str, mmunpaged: str, lines: list[str]) -> Optional[str]:
    """The first line whose answer is another where pages never leave memory, for a script whose
    lines are all good, without threads and without devices that fail."""
    script = "".join(line + "\n" for line in lines).encode()
    paged, unpaged = run([mmsim, "run"], script), run([mmunpaged], script)
    answers = zip(paged.out.decode().splitlines(), unpaged.out.decode().splitlines())
    for number, (line, (answer, other)) in enumerate(zip(lines, answers), 1):
        if line.split(" ")[0] not in HOUSEKEEPING and answer != other:
            return f"line {number}, {line}: {answer}, unpaged {other}"
    if ending(paged) != ending(unpaged) or paged.status:
        return f"paged {ending(paged)}, unpaged {ending(unpaged)}"
    return None
