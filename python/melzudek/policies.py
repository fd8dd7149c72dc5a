"""Four other ways to choose the page that goes, by their own definitions, on a whole trace.

LRU takes the page that was not used for longest, the optimum (Belady) the one that will not be used
for longest, FIFO the one that came first, Clock the first page round the circle that was not used
since the hand passed it. Each has one memory of so many page frames for all processes, empty at
first. A page's first use is a fault in any memory, so counts leave first uses out.
"""

from __future__ import annotations

import heapq
from array import array
from collections import Counter, deque
from collections.abc import Sequence

import numpy as np

from .bulk import Search
from .traces.base import KIND_BITS, Chunk, Codes, Pages

NAMES = ("lru", "optimum", "fifo", "clock")


class Recent:
    """LRU, and what the optimum has to know. `smallest` is the least number of page frames.

    Only references to a page that is not among the `smallest` used last are looked at one by one.
    The others are hits of LRU and of the optimum in any memory that is not smaller: where the
    optimum lets a page go, at least as many other pages as it has page frames are used before that
    page is used again.
    """

    def __init__(self, smallest: int) -> None:
        self.smallest = smallest
        self.search = Search()
        self.time = 0  # references taken
        self.last = np.zeros(1 << 10, np.int64)  # the time of each page's last use, from 1 on
        self.held: list[int] = []  # the pages used last
        self.distances: Counter[int] = Counter()
        self.pages = array("q")  # of the references that were looked at
        self.before = array("q")  # the time of the last use, 0 where there was none
        self.times = array("q")

    def take(self, pages: Codes, count: int) -> None:
        """References to pages below `count`."""
        self.search.room(count)
        if count > len(self.last):
            self.last = np.concatenate([self.last, np.zeros(count, np.int64)])
        start, done = self.time, 0

        def miss(place: int, page: int) -> bool:
            nonlocal done
            self.use(pages[done:place], start + done)
            done = place
            return self.miss(page, start + place + 1)

        self.search.go(pages, miss)
        self.use(pages[done:], start + done)
        self.time = start + len(pages)

    def use(self, pages: Codes, before: int) -> None:
        """Of a page that is there twice the later time stays."""
        self.last[pages] = np.arange(before + 1, before + 1 + len(pages))

    def miss(self, page: int, time: int) -> bool:
        before = int(self.last[page])
        if before:
            # Mattson's stack distance: pages that were used since, and this one
            self.distances[1 + int(np.count_nonzero(self.last > before))] += 1
        self.pages.append(page)
        self.before.append(before)
        self.times.append(time)
        self.search.loud[page] = 0
        self.last[page] = time
        if len(self.held) < self.smallest:
            self.held.append(page)
            return False
        oldest = int(self.last[self.held].argmin())
        self.search.loud[self.held[oldest]] = 1
        self.held[oldest] = page
        return True

    def lru(self, frames: int) -> int:
        return sum(count for distance, count in self.distances.items() if distance > frames)

    def optimum(self, frames: int) -> int:
        """A page is idle from its last use on until a use that was looked at, or for ever."""
        never = self.time + 1
        used = [(int(time), page, never + page) for page, time in enumerate(self.last) if time]
        idle = [it for it in zip(self.before, self.pages, self.times) if it[0]] + used
        idle.sort(reverse=True)
        held: set[int] = set()
        farthest: list[tuple[int, int]] = []
        faults = 0
        for page, before, time in zip(self.pages, self.before, self.times):
            while idle and idle[-1][0] < time:
                _, other, use = idle.pop()
                heapq.heappush(farthest, (-use, other))
            if page not in held:
                faults += before > 0
                if len(held) == frames:
                    # uses that have passed are in the heap too, but none is the farthest
                    held.remove(heapq.heappop(farthest)[1])
                held.add(page)
        return faults


class Fifo:
    """FIFO with so many page frames."""

    def __init__(self, frames: int) -> None:
        self.frames = frames
        self.search = Search()
        self.queue: deque[int] = deque()
        self.met: set[int] = set()
        self.faults = 0

    def take(self, pages: Codes, count: int) -> None:
        self.search.room(count)
        self.search.go(pages, self.miss)

    def miss(self, place: int, page: int) -> bool:
        self.count(page)
        self.search.loud[page] = 0
        self.queue.append(page)
        if len(self.queue) <= self.frames:
            return False
        self.search.loud[self.queue.popleft()] = 1
        return True

    def count(self, page: int) -> None:
        if page in self.met:
            self.faults += 1
        else:
            self.met.add(page)


class Clock(Fifo):
    """Clock: the circle is a queue, whose first page goes or, where it was used, to the end.

    A page is loud where it is not held, or was not used since the hand passed it.
    """

    def __init__(self, frames: int) -> None:
        super().__init__(frames)
        self.held: set[int] = set()

    def miss(self, place: int, page: int) -> bool:
        loud = self.search.loud
        loud[page] = 0
        if page in self.held:
            return False
        self.count(page)
        is_full = len(self.held) == self.frames
        if is_full:
            while not loud[self.queue[0]]:
                loud[self.queue[0]] = 1
                self.queue.rotate(-1)
            self.held.remove(self.queue.popleft())
        self.held.add(page)
        self.queue.append(page)
        return is_full


class Policies:
    """All four, for several numbers of page frames at once."""

    def __init__(self, pages: Pages, sizes: Sequence[int]) -> None:
        self.pages = pages
        self.sizes = sorted(set(sizes))
        self.recent = Recent(self.sizes[0])
        self.fifo = [Fifo(size) for size in self.sizes]
        self.clock = [Clock(size) for size in self.sizes]
        self.of_place = np.zeros(0, np.int64)  # pages of files are one for all processes
        self.files: dict[tuple[int, int], int] = {}

    def take(self, chunk: Chunk) -> None:
        if len(self.of_place) < len(self.pages.places):
            self.meet()
        pages = self.of_place.take(chunk.codes >> KIND_BITS)
        self.recent.take(pages, len(self.of_place))
        for policy in (*self.fifo, *self.clock):
            policy.take(pages, len(self.of_place))

    def meet(self) -> None:
        more = [
            self.files.setdefault((place.file, place.page), number) if place.file >= 0 else number
            for number, place in enumerate(
                self.pages.places[len(self.of_place) :], len(self.of_place)
            )
        ]
        self.of_place = np.concatenate([self.of_place, np.array(more, np.int64)])

    def faults(self) -> dict[int, dict[str, int]]:
        """For each number of page frames the faults of each policy."""
        return {
            size: {
                "lru": self.recent.lru(size),
                "optimum": self.recent.optimum(size),
                "fifo": fifo.faults,
                "clock": clock.faults,
            }
            for size, fifo, clock in zip(self.sizes, self.fifo, self.clock)
        }
