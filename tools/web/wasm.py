"""A program's LLVM module as a WebAssembly module, by the kit's own clang, which is wasm-ld too.

What was made is kept in out/web/wasm, under the sum of all that it was made of.
"""

import glob
import hashlib
import os
import subprocess
import sys
from typing import Dict, List, Set

HERE = os.path.dirname(os.path.abspath(__file__))
TARGET = ["--target=wasm32-unknown-unknown", "-mbulk-memory", "--no-default-config"]
COMPILE = [*TARGET, "-mnontrapping-fptoint", "-msign-ext", "-O2", "-Xclang", "-fmerge-functions"]
SHIM = [*TARGET, "-std=c11", "-O2", "-Wall", "-Wextra", "-Werror", "-ffreestanding", "-nostdlib"]
LINK = ["--no-entry", "--gc-sections", "--strip-all", "-z", "stack-size=1048576", "--stack-first"]
BUILTINS = "/usr/lib/llvm-*/lib/clang/*/lib/wasi/libclang_rt.builtins-wasm32.a"
PACKAGES = {
    "wasi-libc": "/usr/lib/wasm32-wasi/libc.a",
    "libclang-rt-19-dev-wasm32": BUILTINS,
}
ALLOWED = {"host.read", "host.write"}


class Stopped(Exception):
    """Why no WebAssembly module is made, in a sentence."""


def archives() -> List[str]:
    """Debian's two archives: for malloc, and for products and shifts of 128 bits."""
    found = []
    for package, place in PACKAGES.items():
        paths = sorted(glob.glob(place))
        if not paths:
            raise Stopped(f"{place} is missing: apt-get install {package}")
        found.append(paths[-1])
    return found


def sum_of(*parts: bytes) -> str:
    whole = hashlib.sha256()
    for part in parts:
        whole.update(hashlib.sha256(part).digest())
    return whole.hexdigest()


def read(path: str) -> bytes:
    with open(path, "rb") as file:
        return file.read()


def call(words: List[str], name: str = "") -> None:
    """Runs a command, under the name that it is to know itself by; Stopped with what it says."""
    program = words[0]
    shown = [name or program, *words[1:]]
    ran = subprocess.run(shown, executable=program, stderr=subprocess.PIPE, errors="replace")
    if ran.returncode:
        raise Stopped(f"{os.path.basename(shown[0])} failed: {ran.stderr.strip()[-900:]}")


def number(data: bytes, at: int) -> List[int]:
    """A LEB128 number, and where it ends."""
    value = shift = 0
    while True:
        value |= (data[at] & 127) << shift
        shift, at = shift + 7, at + 1
        if data[at - 1] < 128:
            return [value, at]


def imports(data: bytes) -> Set[str]:
    """What a module imports, as MODULE.NAME; each import is a function, or Stopped."""
    if data[:8] != b"\0asm\1\0\0\0":
        raise Stopped("what was linked is no WebAssembly module")
    at, found = 8, set()
    while at < len(data):
        section = data[at]
        size, at = number(data, at + 1)
        end = at + size
        if section == 2:
            count, at = number(data, at)
            for _ in range(count):
                words = []
                for _ in range(2):
                    length, at = number(data, at)
                    words.append(data[at : at + length].decode())
                    at += length
                if data[at]:
                    raise Stopped(f"the module imports {'.'.join(words)}, which is no function")
                _, at = number(data, at + 1)
                found.add(".".join(words))
        at = end
    return found


def check_imports(program: str, data: bytes) -> None:
    """Stopped where a module asks the host for more than reading and writing (mmshow: opening)."""
    allowed = ALLOWED | ({"host.open"} if program == "mmshow" else set())
    more = sorted(imports(data) - allowed)
    if more:
        raise Stopped(f"{program} would import {', '.join(more)}: only read and write are given")


def convert(clang: str, module: bytes, way: str, room: str, out: str) -> None:
    """Writes the WebAssembly module of an LLVM module to `out`."""
    with open(f"{room}/m.bc", "wb") as file:
        file.write(module)
    spelled = ["-S", "-emit-llvm", "-O0", "-Xclang", "-disable-llvm-passes"]
    of_x86 = ["--target=x86_64-unknown-linux-gnu", "-x", "ir", f"{room}/m.bc"]
    call([clang, *of_x86, *spelled, "-o", f"{room}/m.ll"])
    flags = ["--tried"] if way == "tried" else []
    call([sys.executable, f"{HERE}/to32.py", *flags, f"{room}/m.ll", f"{room}/m.32.ll"])
    call([clang, *COMPILE, "-c", "-x", "ir", f"{room}/m.32.ll", "-o", f"{room}/m.o"])
    call([clang, *SHIM, "-c", f"{HERE}/shim.c", "-o", f"{room}/shim.o"])
    linker = os.path.join(os.path.dirname(clang), "wasm-ld")
    call([clang, *LINK, "-o", out, f"{room}/m.o", f"{room}/shim.o", *archives()], linker)


def made(
    kit: str, program: str, module: bytes, way: str, kept: str, room: str
) -> Dict[str, object]:
    """The WebAssembly module of a program, with the sums of what it was made of and of itself."""
    clang = f"{kit}/toolchain/bin/clang"
    tools = [read(f"{HERE}/{name}") for name in ("to32.py", "shim.c")]
    words = repr([COMPILE, SHIM, LINK, way]).encode()
    kit_id = read(f"{kit}/KIT-ID")
    name = sum_of(module, *tools, words, kit_id, *map(read, archives()))
    path = f"{kept}/{program}-{name[:16]}.wasm"
    if not os.path.isfile(path):
        os.makedirs(kept, exist_ok=True)
        convert(clang, module, way, room, f"{room}/{program}.wasm")
        check_imports(program, read(f"{room}/{program}.wasm"))
        os.replace(f"{room}/{program}.wasm", path)
    data = read(path)
    check_imports(program, data)
    sums = {"module": hashlib.sha256(module).hexdigest(), "wasm": hashlib.sha256(data).hexdigest()}
    return {"path": path, "way": way, "bytes": len(data), **sums}
