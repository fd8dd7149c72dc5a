"""Where the pages of a trace lie in a machine's address space, 2 GiB less 128 KiB.

Pages keep their own addresses where these are low enough. Others come in windows of 256 pages
(1 MiB). Of pages that are equally old the one with the lowest number goes first, so windows keep
their order: a window lies between its neighbours, as far from one of them as in the program where
there is room. A trace is read once, so a window may come too late for that; then it lies elsewhere,
and `disordered` counts it.
"""

from __future__ import annotations

from bisect import bisect_left

from .traces.base import Place

WINDOW_BITS = 8  # of pages
WINDOW_PAGES = 1 << WINDOW_BITS
FIRST, END = 1, 0x7FF  # windows of the machine that hold user pages alone
FILES = 1 << 60  # windows of files are above all others


class NoRoom(Exception):
    """More windows than the address space has."""


class Layout:
    """The windows of one process."""

    def __init__(self) -> None:
        self.windows: list[int] = []  # those that keep their order, rising
        self.labels: list[int] = []  # where each of them lies
        self.of: dict[int, int] = {}
        self.taken: set[int] = set()
        self.disordered = 0

    def page(self, place: Place) -> int:
        """The page of the machine for a page of the trace; NoRoom where there is none."""
        window = place.page >> WINDOW_BITS
        if place.file >= 0:
            window |= FILES | place.file << 52
        label = self.of.get(window)
        if label is None:
            label = self.of[window] = self.put(window)
            self.taken.add(label)
        return label << WINDOW_BITS | place.page & WINDOW_PAGES - 1

    def put(self, window: int) -> int:
        at = bisect_left(self.windows, window)
        low = self.labels[at - 1] if at else FIRST - 1
        high = self.labels[at] if at < len(self.labels) else END
        label = self.between(window, at, low, high)
        if label is None:
            self.disordered += 1
            return self.anywhere(low)
        self.windows.insert(at, window)
        self.labels.insert(at, label)
        return label

    def between(self, window: int, at: int, low: int, high: int) -> int | None:
        """A label above `low` and below `high`, the best for this window."""
        free = [label for label in (low + 1, high - 1) if label not in self.taken]
        if high - low < 2 or not free:
            return None
        wanted = []
        if window < END:
            wanted.append(min(max(window, low + 1), high - 1))
        else:
            if at:
                wanted.append(low + window - self.windows[at - 1])
            if at < len(self.windows):
                wanted.append(high - (self.windows[at] - window))
            # below all others much room is left for windows that keep their own addresses
            wanted.append(low + max(1, (high - low) // 2 if at else (high - low) * 7 // 8))
        wanted += free
        return next(it for it in wanted if low < it < high and it not in self.taken)

    def anywhere(self, near: int) -> int:
        labels = [label for label in range(FIRST, END) if label not in self.taken]
        if not labels:
            raise NoRoom("its addresses are in more pieces than mmsim's address space has room for")
        return min(labels, key=lambda label: abs(label - near))
