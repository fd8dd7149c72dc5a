#!/usr/bin/env python3
"""The programs in a browser: compared with the native ones, and the page in a headless Chromium.

usage: checks/web.py [--bin FOLDER] [--tried] [--seed N] [--page FILE]

It builds the page (tools/web/build; what was built of the same sources is taken), and compares

  the four programs    status and both streams of each, native against WebAssembly in Node:
                       examples, rows, mistakes, scripts and logs that are cut or spoiled,
                       generated scripts, words that are no form, every form of mmshow
  the page             each example by the page's own worker; names, address spaces, a second
                       machine; a mistake at its line; both directions between script and charts;
                       share and open again; stop; 20,000 lines without a long gap; its policy; and
                       that nothing is written to the console

FOLDER has the native programs (MELZUDEK_BIN, or crates/NAME/out/NAME, where it is not given). The
page is built of the proved modules; with --tried, or where libraries are not proved here, of those
of `rt try`. What was built of the same sources is taken from this machine's cache (tools/web/build),
else four programs are proved again, as many at once as memory allows. Where a package is missing and
cannot be installed, what needs it is left out, and a line says so.
"""

import argparse
import concurrent.futures
import glob
import hashlib
import json
import os
import random
import shutil
import subprocess
import sys
import tempfile
from typing import Any, Dict, List, Tuple

TOP = os.path.dirname(os.path.dirname(os.path.abspath(__file__)))
sys.path.insert(0, os.path.join(TOP, "checks"))
sys.dont_write_bytecode = True

import web_page  # noqa: E402
from common import apt, processors  # noqa: E402

BUILTINS = "/usr/lib/llvm-*/lib/clang/*/lib/wasi/libclang_rt.builtins-wasm32.a"
NEEDED = {
    "/usr/lib/wasm32-wasi/libc.a": "wasi-libc",
    BUILTINS: "libclang-rt-19-dev-wasm32",
    "/usr/share/javascript/codemirror/codemirror.js": "libjs-codemirror",
}
SHORT = 900  # bytes; scripts up to here are cut and spoiled
MOST_LOG = 400_000  # bytes of a log that mmshow is asked about
LOGS = 140
SPOILED = 4  # of each log
NAMES = ["mmsim", "mmlog", "mmshow", "mmnames"]
Case = Tuple[str, List[str], bytes, Dict[str, bytes]]


def sum_of(data: bytes) -> str:
    return hashlib.sha256(data).hexdigest()


class Native:
    """The native programs, by name."""

    def __init__(self, folder: str):
        built = {name: f"{TOP}/crates/{name}/out/{name}" for name in NAMES}
        self.paths = {name: f"{folder}/{name}" for name in NAMES} if folder else built

    def lacking(self) -> List[str]:
        return [path for path in self.paths.values() if not os.access(path, os.X_OK)]

    def run(
        self, name: str, words: List[str], given: bytes, folder: str = ""
    ) -> Tuple[int, bytes, bytes]:
        """Status, output and standard error of a run."""
        ended = subprocess.run(
            [self.paths[name], *words],
            input=given,
            capture_output=True,
            timeout=600,
            cwd=folder or None,
        )
        return ended.returncode, ended.stdout, ended.stderr

    def result(self, case: Case) -> List[Any]:
        program, words, given, files = case
        with tempfile.TemporaryDirectory() as folder:
            for name, data in files.items():
                with open(f"{folder}/{name}", "wb") as file:
                    file.write(data)
            status, out, err = self.run(program, words, given, folder)
        return [status, sum_of(out), sum_of(err)]


# ---- the cases


def read(path: str) -> bytes:
    with open(path, "rb") as file:
        return file.read()


def scripts() -> List[bytes]:
    """Examples, rows and hostile scripts, as they stand."""
    folders = ("examples", "tests/rows", "tests/rows/hostile")
    paths = [path for folder in folders for path in sorted(glob.glob(f"{TOP}/{folder}/*.mm"))]
    return [data for data in map(read, paths) if len(data) < 200_000]


def of_mmsim(draw: random.Random, native: Native) -> List[Case]:
    found: List[Case] = []

    def run(given: bytes) -> None:
        found.append(("mmsim", ["run"], given, {}))

    for script in scripts():
        run(script)
        if len(script) >= SHORT:
            continue
        for _ in range(12):
            run(script[: draw.randrange(len(script) + 1)])
            at = draw.randrange(len(script) + 1)
            odd = bytes([draw.choice([0, 10, 32, 45, 48, 57, 127, 255, draw.randrange(256)])])
            run(script[:at] + odd + script[at + draw.randrange(2) :])
    for seed in range(1, 41):
        words = ["bulk", str(seed), str(200 + 25 * seed)]
        found.append(("mmsim", words, b"", {}))
    for given in (b"", b"\n" * 3000, b"A" * 100_000, b"machine 64 64 4 0\n" * 3):
        run(given)
    run(bytes(draw.randrange(256) for _ in range(5000)))
    run(b"machine 6 0 1 0\n" * 1 + b"charge\n" * 20_000)
    no_forms: List[List[str]] = [[], ["run", "x"], ["bulk"], ["bulk", "x", "1"], ["", ""], ["help"]]
    no_forms += [["bulk", "1", "18446744073709551616"], ["bulk", "18446744073709551616", "1"]]
    found += [("mmsim", words, b"machine 6 0 1 0\n", {}) for words in no_forms]
    return found


def of_mmnames(draw: random.Random) -> List[Case]:
    lab = read(f"{TOP}/examples/lab.txt")
    forms: List[List[str]] = [["lines"], [], ["talk"], ["x"]]
    found: List[Case] = [("mmnames", words, lab, {}) for words in forms]
    for path in sorted(glob.glob(f"{TOP}/tests/mistakes/*.txt")):
        for block in read(path).split(b"\n= ")[1:]:
            written = block.split(b"\n", 1)[1].split(b"--\n", 1)[0]
            found += [("mmnames", words, written, {}) for words in forms[:3]]
    found += [("mmnames", ["lines"], script, {}) for script in scripts()]
    for _ in range(150):
        at = draw.randrange(len(lab) + 1)
        odd = bytes([draw.randrange(256)])
        found.append(("mmnames", ["lines"], lab[:at] + odd + lab[at + draw.randrange(3) :], {}))
        found.append(("mmnames", ["talk"], lab[: draw.randrange(len(lab))], {}))
    return found


FORMS = [["html", "S", "A"], ["html", "S"], ["html"], ["tell", "S", "A"], ["tell", "S"], ["tell"]]
FORMS += [["counts"], ["counts", "3"], ["faults"], ["sums"], ["state", "5"], ["frame", "1"]]
FORMS += [["html", "S", "A", "O"], ["events", "S", "A"], ["events"], ["faults", "csv"]]
FORMS += [["counts", "csv"], ["counts", "csv", "S", "A"]]
FORMS += [["key", "p1.16"], ["key", "1:0x10000"], ["tell", "none", "none"], ["html", "none"], []]


def of_logs(draw: random.Random, native: Native) -> List[Case]:
    """What mmlog and mmshow say of logs, whole ones and spoiled ones."""
    found: List[Case] = []
    for script in scripts()[:LOGS]:
        _, answers, log = native.run("mmsim", ["run"], script)
        if len(log) >= MOST_LOG:
            continue
        files = {"S": script, "A": answers, "O": b""}
        found += [("mmlog", ["check"], log, {}), ("mmlog", ["where", "p1.16"], log, {})]
        found += [("mmshow", words, log, files) for words in FORMS]
        for spoiled in spoiled_logs(draw, log):
            found += [("mmlog", ["check"], spoiled, {}), ("mmlog", ["where", "s0.1"], spoiled, {})]
            found += [("mmshow", words, spoiled, files) for words in (FORMS[0], FORMS[3])]
    no_forms: List[List[str]] = [[], ["check", "x"], ["where"], ["where", "q"]]
    found += [("mmlog", words, b"", {}) for words in no_forms]
    for path in sorted(glob.glob(f"{TOP}/tests/rows/logs/*.log")):
        found += [("mmlog", ["check"], read(path), {}), ("mmshow", ["tell"], read(path), {})]
    return found


def spoiled_logs(draw: random.Random, log: bytes) -> List[bytes]:
    lines = log.split(b"\n")
    found = []
    for _ in range(SPOILED if log else 0):
        at, other = draw.randrange(len(lines)), draw.randrange(len(lines))
        line = lines[at]
        put = draw.choice([b"", line[:-1], line + b"0", b"steal 1", lines[other]])
        found.append(b"\n".join([*lines[:at], put, *lines[at + 1 :]]))
    return found


# ---- comparing


def by_node(cases: List[Case], room: str) -> List[List[Any]]:
    """The results of the WebAssembly programs, in as many Node processes as there are processors."""
    names: Dict[bytes, str] = {}

    def put(data: bytes) -> str:
        if data not in names:
            names[data] = f"{room}/{len(names)}.in"
            with open(names[data], "wb") as file:
                file.write(data)
        return names[data]

    told = [
        [program, words, put(given), {name: put(data) for name, data in files.items()}]
        for program, words, given, files in cases
    ]
    shares = processors()
    parts = [(told[at::shares], f"{room}/{at}") for at in range(shares)]
    with concurrent.futures.ThreadPoolExecutor(shares) as pool:
        found = list(pool.map(by_one_node, parts))
    results: List[List[Any]] = [[]] * len(cases)
    for at, some in enumerate(found):
        results[at::shares] = some
    return results


def by_one_node(part: Tuple[List[Any], str]) -> List[List[Any]]:
    """The results of some cases in one Node process."""
    told, place = part
    with open(f"{place}.cases", "w", encoding="utf-8") as file:
        json.dump(told, file)
    places = [f"{TOP}/web/play/host.js", f"{TOP}/out/web/built.json", f"{place}.cases"]
    words = ["node", f"{TOP}/checks/web_node.mjs", *places, f"{place}.results"]
    subprocess.run(words, check=True, timeout=1800)
    with open(f"{place}.results", encoding="utf-8") as file:
        results: List[List[Any]] = json.load(file)
    return results


def compare(native: Native, seed: int) -> Tuple[int, int]:
    """How many cases were compared, and how many differ."""
    draw = random.Random(seed)
    cases = of_mmsim(draw, native) + of_mmnames(draw) + of_logs(draw, native)
    with tempfile.TemporaryDirectory() as room:
        with concurrent.futures.ThreadPoolExecutor(processors()) as pool:
            wanted = list(pool.map(native.result, cases))
        got = by_node(cases, room)
    bad = 0
    for case, want, have in zip(cases, wanted, got):
        if want == have:
            continue
        bad += 1
        if bad <= 20:
            program, words, given, _ = case
            parts = ("status", "output", "standard error")
            other = [part for part, a, b in zip(parts, want, have) if a != b]
            start = given[:60]
            print(f"web: {program} {words} of {start!r}: {', '.join(other)} differ ({have[0]})")
    return len(cases), bad


# ---- what it needs


def lacking() -> List[str]:
    """Packages that building and Node's part need, and that are not there."""
    found = [package for place, package in NEEDED.items() if not glob.glob(place)]
    return found + ([] if shutil.which("node") else ["nodejs"])


def build(is_tried: bool) -> bool:
    """Builds the page; whether it was built."""
    words = [sys.executable, f"{TOP}/tools/web/build"] + (["--tried"] if is_tried else [])
    ended = subprocess.run(words, stdout=subprocess.DEVNULL, stderr=subprocess.PIPE, text=True)
    if ended.returncode == 3 and not is_tried:
        print("web: libraries are not proved here, so the page is built before the proofs")
        return build(True)
    if ended.returncode:
        print(f"web: the page was not built: {ended.stderr.strip()}")
    return ended.returncode == 0


def main(arguments: List[str]) -> int:
    parser = argparse.ArgumentParser(usage=__doc__)
    parser.add_argument("--bin", default=os.environ.get("MELZUDEK_BIN", ""))
    parser.add_argument("--tried", action="store_true")
    parser.add_argument("--seed", type=int, default=7)
    parser.add_argument("--page", default=f"{TOP}/web/release/play.html")
    given = parser.parse_args(arguments)
    native = Native(given.bin)
    if native.lacking():
        print(f"web: {native.lacking()[0]} is missing: let the gate build it, or name --bin")
        return 1
    if lacking():
        apt(lacking())
    if lacking():
        print(f"web: left out, since these packages cannot be had: {', '.join(lacking())}")
        print("web: 0 compared, no differences")
        return 0
    if not build(given.tried):
        return 1
    tried, bad = compare(native, given.seed)
    seen, wrong = web_page.check(given.page, native, TOP)
    total = bad + wrong
    ending = "no differences" if not total else f"{total} differences"
    print(f"web: {tried + seen} compared, {ending}")
    return 1 if total else 0


if __name__ == "__main__":
    sys.exit(main(sys.argv[1:]))
