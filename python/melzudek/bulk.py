"""Finding the few references that matter among many that do not, by numpy."""

from __future__ import annotations

from collections.abc import Callable

import numpy as np

from .traces.base import Codes

FEWEST, MOST = 64, 1 << 16  # references that are looked up at once


class Search:
    """Finds the numbers whose byte in a table is not 0, in order, while the table changes.

    `loud` is the table as bytes, which Python sets one by one; `view` is the same bytes for numpy.
    How many numbers are looked up at once follows what was found.
    """

    def __init__(self, size: int = 1 << 12) -> None:
        self.loud = bytearray(b"\1" * size)
        self.view = np.frombuffer(self.loud, np.uint8)
        self.step = FEWEST

    def room(self, count: int) -> None:
        """Makes the table long enough for numbers below this; what is new is not 0."""
        if count > len(self.loud):
            more = max(count - len(self.loud), len(self.loud))
            self.loud = bytearray(bytes(self.loud) + b"\1" * more)
            self.view = np.frombuffer(self.loud, np.uint8)

    def go(self, numbers: Codes, found: Callable[[int, int], bool]) -> None:
        """Calls `found` with the place and the number of each that is loud when it is reached.

        It answers whether numbers may have become loud again, that were looked up already.
        """
        at, end = 0, len(numbers)
        while at < end:
            part = numbers[at : at + self.step]
            places = self.view.take(part).nonzero()[0]
            for place, number in zip(places.tolist(), part[places].tolist()):
                if self.loud[number] and found(at + place, number):
                    at += place + 1
                    self.step = max(FEWEST, min(MOST, 2 * (place + 1)))
                    break
            else:
                at += len(part)
                self.step = min(2 * self.step, MOST)
