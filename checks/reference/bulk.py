#!/usr/bin/env python3
"""The script whose lines `mmsim bulk SEED COUNT` decides: bulk.py SEED COUNT

Written from docs/PROFILE.md, "Generated scripts", and from the published PCG32 alone. The generator
is first held against outputs known from outside.
"""
from __future__ import annotations

import sys
from typing import Iterator

FIXED = """machine 64 256 4 32
process 8 48
process 8 48
file data 32 1
alloc 1 0x0 0x80000 0x3000 0x4
create 1 0x20000 0x4 pool
open 2 pool
map 1 4 0x2 0x0 0x0 0x0
map 2 4 0x2 0x0 0x0 0x0
createfile 2 data 0x4 -
map 2 8 0x1 0x0 0x0 0x0
"""
STREAM = 54
# The first outputs of that stream. Those of 42 are what PCG's own demonstration in C prints.
KNOWN = {42: [0xA15C02B7, 0x7B47F409, 0xBA1D3330, 0x83D2F293, 0xBFA4784B, 0xCBED606E],
         7: [0xA454B9C3, 0x6C327FBC, 0x198BC4FD, 0xB7666DE2, 0xB92C3A58, 0x7D8E9EEF]}  # fmt: skip


def outputs(seed: int) -> Iterator[int]:
    """PCG32, 'XSH RR': its 32-bit outputs from a seed on."""
    step = 2 * STREAM + 1
    state = (step + seed) * 6364136223846793005 + step
    while True:
        state %= 1 << 64
        word, turn = (state >> 18 ^ state) >> 27 & 0xFFFFFFFF, state >> 59
        yield (word >> turn | word << 32 - turn) & 0xFFFFFFFF
        state = state * 6364136223846793005 + step


def events(seed: int, count: int) -> Iterator[str]:
    """The drawn lines."""
    words = outputs(seed)

    def draw(n: int) -> int:
        return next(words) % n

    for _ in range(count):
        kind = draw(8)
        if kind in (0, 1, 3):
            pid, pages = (2, 64) if kind == 3 else (1, 160)
            yield f"write {pid} 0x{0x10000 + 4096 * draw(pages):X} {draw(256):02X}"
        elif kind in (2, 4):
            pid, pages = (1, 160) if kind == 2 else (2, 64)
            yield f"read {pid} 0x{0x10000 + 4096 * draw(pages):X} 1"
        elif kind == 5:
            yield f"trim {1 + draw(2)} 8"
        else:
            yield "writer 4" if kind == 6 else "io 1"


def main() -> None:
    for seed, known in KNOWN.items():
        if [word for word, _ in zip(outputs(seed), known)] != known:
            sys.exit("bulk.py: this is no PCG32")
    sys.stdout.write(
        FIXED + "".join(event + "\n" for event in events(int(sys.argv[1]), int(sys.argv[2])))
    )


if __name__ == "__main__":
    main()
