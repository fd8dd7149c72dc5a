"""The page of a long log: its size, and how long a browser takes for it."""

from __future__ import annotations

import os
import re
import subprocess
import sys
import tempfile
from pathlib import Path
from typing import Iterator

from .inputs import heavy_paging
from .runs import Bench, debian

# So many lines of case e make 400,000 moves, without those that begin a line.
LINES = 143_400
# Chooses ten lines, one after another, and tells how long that took.
CHOOSE = """
<script>
const slider = document.getElementById('slider');
const began = performance.now();
for (let part = 1; part <= 10; part++) {
  slider.value = Math.floor((slider.max * part) / 11);
  slider.dispatchEvent(new Event('input'));
}
document.documentElement.dataset.choosing = Math.round((performance.now() - began) / 10);
</script>
"""


def page(bench: Bench) -> Iterator[str]:
    """The page of a log of case e on 4,096 page frames."""
    source, lines = bench.run("page", heavy_paging(bench.seed, LINES // bench.part, 4096))
    count = bench.moves_of("page")
    shown = Path(f"{source}.html")
    words = [bench.programs["mmshow"], "html", source, f"{source}.out"]
    with open(f"{source}.moves", "rb") as given, open(shown, "wb") as out:
        subprocess.run(words, stdin=given, stdout=out, check=True)
    text = shown.read_bytes()
    told = ", ".join(f"{name} {size:,}" for name, size in parts(text).items())
    rest = len(text) - sum(parts(text).values())
    yield f"{lines:,} lines, {count - lines:,} moves but `at`: a page of {len(text):,} bytes"
    yield f"({told}, the rest {rest:,})"
    shown.write_bytes(text.replace(b"</body>", CHOOSE.encode() + b"</body>"))
    chromium = browser()
    ready, choosing = zip(*[opened(chromium, str(shown)) for _ in range(5)])
    yield f"from the navigation to the first drawing {sorted(ready)[2]} ms (the median of five)"
    yield f"another line {sorted(choosing)[2]} ms (the median of five)"
    total = bench.instructions("mmshow", ["html"], f"{source}.moves")
    yield f"mmshow html: {total / count:,.0f} instructions a move"


def parts(text: bytes) -> dict[str, int]:
    """The bytes of what a page carries of its log."""
    found = {}
    for name in ("moves", "script", "answers"):
        data = re.search(rb'id="data-%s">([^<]*)<' % name.encode(), text)
        found[name] = len(data[1]) if data else 0
    return found


def browser() -> str:
    """Chromium's name; it is installed where it is missing and may be."""
    found = debian("chromium", "chromium") or debian("chromium-browser", "chromium")
    return found or sys.exit("bench: no chromium here, and none could be installed")


def opened(chromium: str, path: str) -> tuple[int, int]:
    """What a page tells of its own times, in milliseconds: ready, and another line chosen."""
    with tempfile.TemporaryDirectory() as profile:
        words = [chromium, "--headless=new", "--no-sandbox", "--disable-gpu"]
        words += ["--window-size=1500,1400", f"--user-data-dir={profile}"]
        words += ["--dump-dom", f"file://{os.path.abspath(path)}"]
        document = subprocess.run(words, capture_output=True, check=True).stdout.decode()
    head = document[: document.index("<head>")]
    times = [re.search(rf'data-{name}="(\d+)"', head) for name in ("ready", "choosing")]
    if not all(times):
        sys.exit("bench: the page does not tell its times")
    ready, choosing = (int(it[1]) for it in times if it)
    return ready, choosing
