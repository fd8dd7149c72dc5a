#!/usr/bin/env python3
"""Makes a module for 32-bit WebAssembly of the text of one that Rattle wrote for x86-64.

usage: tools/web/to32.py [--tried] FROM.ll TO.ll

A pointer keeps its place of eight bytes in memory, and its value gets 32 bits: it is stored as a
number of 64 bits, whose upper half is 0, and made a pointer again when it is loaded. In a constant
each pointer is followed by four bytes of 0. All other values are as they were; usize has 64 bits.
With --tried, for a module of `rt try` alone, what only such a module has is left out: the filling
of locals, the checks, the traps behind an index. A form of line that is not known here ends this
with a message, since what such a line would come to is not known either.
"""

import re
import sys
from typing import Iterator, List, Match, Tuple

LAYOUT = "e-m:e-p:32:32-p10:8:8-p20:8:8-i64:64-i128:128-n32:64-S128-ni:1:10:20"
OF_X86 = (
    r' ("frame-pointer"="[^"]*"|"probe-stack"="[^"]*"|"stack-probe-size"="[^"]*"'
    r'|"target-cpu"="[^"]*"|"target-features"="[^"]*"|sanitize_address)'
)
CONSTANT = r"(?:private |internal |unnamed_addr |constant |global )+"
PACKED = re.compile(rf"({CONSTANT})<\{{ (.*?) \}}> <\{{ (.*) \}}>(, align \d+\n)$", re.S)
SIZED = re.compile(
    r"^(\s*call void @llvm\.mem(?:set|move|cpy)\.\S*?)\.i64\((.*), i64 (\S+), i1 (\w+)\)(.*)$", re.S
)
LOAD = re.compile(r"^(\s*)(%\S+) = load ptr, ptr (.+?), align (\d+)(.*)$", re.S)
STORE = re.compile(r"^(\s*)store ptr (.+), ptr ([^,]+|getelementptr .*), align (\d+)(.*)$", re.S)
PAIR = r"\{ [\w, ]*\bptr\b[\w, ]* \}"
LOAD_PAIR = re.compile(rf"^  (%\S+) = load ({PAIR}), ptr (.+?), align (\d+)(.*)$", re.S)
STORE_PAIR = re.compile(rf"^  store ({PAIR}) (%\S+), ptr (.+?), align (\d+)(.*)$", re.S)
AGGREGATE = re.compile(r"(load|store|alloca) (\{|<\{|\[\d+ x ptr)")
WITH_POINTERS = re.compile(r"(load|store|alloca) .*\bptr\b.*\bptr\b")
KNOWN_LOAD = re.compile(r"= load (i\d+|double|float|<\d+ x i\d+>), ptr")
KNOWN_STORE = re.compile(r"store (i\d+|double|float|<\d+ x i\d+>) ")
INSTRUCTION = re.compile(r"^  (?:%\S+ = )?(?:tail |musttail |notail )?([a-z]+)")
ROW_OF_SWITCH = re.compile(r"^    i\d+ -?\d+, label |^  \]$")
STEP = re.compile(r"getelementptr (?:inbounds |nuw |nusw )*\(?(?:i\d+),")
KNOWN = frozenset(
    "add alloca and ashr bitcast br call extractvalue fadd fcmp fdiv fmul fneg fptosi fptoui frem"
    " fsub getelementptr icmp insertelement insertvalue inttoptr load lshr mul or phi ptrtoaddr"
    " ptrtoint ret sdiv select sext shl shufflevector sitofp srem store sub switch trunc udiv"
    " uitofp unreachable urem xor zext".split()
)
OTHER_CALL = re.compile(r"^[^@]*\basm\b|\bptr (?:\w+ )*(?:byval|inalloca|sret)\(")
OF_NUMBERS = frozenset(["bitcast", "insertelement", "shufflevector"])


def stop(what: str, line: str) -> None:
    sys.exit(f"to32: {what} of a form that is not known here: {line.strip()[:200]}")


def value_end(text: str, at: int) -> int:
    """Where a constant's value ends that begins at `at`: at its comma, or the text's end."""
    if text.startswith('c"', at):
        return text.index('"', at + 2) + 1
    depth = 0
    while at < len(text) and not (text[at] == "," and depth == 0):
        depth += (text[at] == "(") - (text[at] == ")")
        at += 1
    return at


def fields(kinds: List[str], text: str, line: str) -> Iterator[Tuple[str, str]]:
    """Each field of a packed constant as [kind, value]."""
    at = 0
    for number, kind in enumerate(kinds):
        if not text.startswith(kind + " ", at):
            stop("a constant", line)
        start = at + len(kind) + 1
        at = value_end(text, start)
        yield kind, text[start:at]
        if number + 1 < len(kinds):
            if text[at : at + 2] != ", ":
                stop("a constant", line)
            at += 2
    if at != len(text):
        stop("a constant", line)


def constant(line: str) -> str:
    """A line of a constant, with four bytes of 0 behind each pointer in it."""
    head, _, rest = line.partition(" = ")
    if line.count("getelementptr ") != len(STEP.findall(line)):
        stop("a constant", line)
    if not re.match(CONSTANT + r"<\{", rest):
        if "ptr" in rest.split('c"')[0]:
            stop("a constant", line)
        return line
    found = PACKED.match(rest)
    if not found:
        stop("a constant", line)
        return line
    kinds, values = [], []
    for kind, value in fields(found[2].split(", "), found[3], line):
        kinds.append(kind)
        values.append(f"{kind} {value}")
        if kind == "ptr":
            kinds.append("[4 x i8]")
            values.append("[4 x i8] zeroinitializer")
    return f"{head} = {found[1]}<{{ {', '.join(kinds)} }}> <{{ {', '.join(values)} }}>{found[4]}"


def attributes(line: str) -> str:
    """A line of attributes, without those that are x86-64's or AddressSanitizer's."""
    return re.sub(r"\{ *\}", "{ nounwind }", re.sub(OF_X86, "", line))


def load_pair(found: Match[str], name: str) -> Iterator[str]:
    """The load of a pair that has a pointer: that of numbers, field by field made the pair."""
    to, pair, place, align, _ = found.groups()
    kinds = pair[2:-2].split(", ")
    wide = "{ " + ", ".join("i64" if kind == "ptr" else kind for kind in kinds) + " }"
    yield f"  {name}.a = load {wide}, ptr {place}, align {align}\n"
    last = "poison"
    for at, kind in enumerate(kinds):
        field = f"{name}.e{at}"
        yield f"  {field} = extractvalue {wide} {name}.a, {at}\n"
        if kind == "ptr":
            yield f"  {name}.p{at} = inttoptr i64 {field} to ptr\n"
            field = f"{name}.p{at}"
        result = to if at + 1 == len(kinds) else f"{name}.v{at}"
        yield f"  {result} = insertvalue {pair} {last}, {kind} {field}, {at}\n"
        last = result


def store_pair(found: Match[str], name: str) -> Iterator[str]:
    """The store of a pair that has a pointer, as that of numbers."""
    pair, value, place, align, rest = found.groups()
    kinds = pair[2:-2].split(", ")
    wide = "{ " + ", ".join("i64" if kind == "ptr" else kind for kind in kinds) + " }"
    last = "poison"
    for at, kind in enumerate(kinds):
        field, stored = f"{name}.e{at}", "i64" if kind == "ptr" else kind
        yield f"  {field} = extractvalue {pair} {value}, {at}\n"
        if kind == "ptr":
            yield f"  {name}.p{at} = ptrtoint ptr {field} to i64\n"
            field = f"{name}.p{at}"
        yield f"  {name}.v{at} = insertvalue {wide} {last}, {stored} {field}, {at}\n"
        last = f"{name}.v{at}"
    yield f"  store {wide} {last}, ptr {place}, align {align}{rest}"


def sized(found: Match[str], name: str) -> Iterator[str]:
    """A call of memset, memmove or memcpy, whose length has 32 bits."""
    call, words, size, volatile, rest = found.groups()
    if size.startswith("%"):
        yield f"  {name}.n = trunc i64 {size} to i32\n"
        size = f"{name}.n"
    yield f"{call}.i32({words}, i32 {size}, i1 {volatile}){rest}"


def check_form(line: str) -> None:
    """Stops where an instruction, or a step from one place to another, is not of a known form."""
    if ROW_OF_SWITCH.match(line):
        return
    found = INSTRUCTION.match(line)
    name = found[1] if found else ""
    if name not in KNOWN or (name in OF_NUMBERS and re.search(r"\bptr\b", line)):
        stop("an instruction", line)
    if name == "call" and OTHER_CALL.search(line):
        stop("a call", line)
    if line.count("getelementptr ") != len(STEP.findall(line)):
        stop("a step from one place to another", line)


def is_of_try(line: str) -> bool:
    """Whether a line is one that only a module of `rt try` has."""
    fills = "i8 -86" in line and line.lstrip().startswith("call void @llvm.memset")
    checks = line.startswith('  call void @"rattle-llvm-checks::')
    return fills or checks or line == "  call void @llvm.trap()\n"


def single(line: str, name: str) -> Iterator[str]:
    """A load or store of one pointer, a local that holds one, or a line that is as it was."""
    if found := LOAD.match(line):
        blanks, to, place, align, _ = found.groups()
        yield f"{blanks}{name}.a = load i64, ptr {place}, align {align}\n"
        yield f"{blanks}{to} = inttoptr i64 {name}.a to ptr\n"
    elif found := STORE.match(line):
        blanks, value, place, align, rest = found.groups()
        yield f"{blanks}{name}.a = ptrtoint ptr {value} to i64\n"
        yield f"{blanks}store i64 {name}.a, ptr {place}, align {align}{rest}"
    elif " = alloca ptr" in line:
        yield line.replace("alloca ptr", "alloca i64")
    elif " = ptrtoaddr ptr " in line:
        yield line.replace("ptrtoaddr", "ptrtoint")
    else:
        known = KNOWN_LOAD.search(line) or KNOWN_STORE.search(line)
        if WITH_POINTERS.search(line) and not known:
            stop("a load or a store", line)
        yield line


def instruction(line: str, name: str) -> Iterator[str]:
    """The lines that stand for one of a function's body; `name` begins the names that are new."""
    check_form(line)
    if found := LOAD_PAIR.match(line):
        yield from load_pair(found, name)
    elif found := STORE_PAIR.match(line):
        yield from store_pair(found, name)
    elif AGGREGATE.search(line) and "ptr" in line.split(", ptr")[0]:
        stop("a load or a store", line)
    elif found := SIZED.match(line):
        yield from sized(found, name)
    else:
        yield from single(line, name)


def convert(lines: Iterator[str], is_tried: bool) -> Iterator[str]:
    """The module's lines for wasm32."""
    for number, line in enumerate(lines, 1):
        if line.startswith("target datalayout"):
            yield f'target datalayout = "{LAYOUT}"\n'
        elif line.startswith("target triple"):
            yield 'target triple = "wasm32-unknown-unknown"\n'
        elif line.startswith("@"):
            yield constant(line)
        elif line.startswith("attributes"):
            yield attributes(line)
        elif line.startswith("declare void @llvm.mem"):
            yield re.sub(r"\.i64\(", ".i32(", line).replace(", i64, i1", ", i32, i1")
        elif not line.startswith("  "):
            yield line
        elif not (is_tried and is_of_try(line)):
            yield from instruction(line, f"%w{number}")


def main(words: List[str]) -> int:
    is_tried = words[:1] == ["--tried"]
    paths = words[1:] if is_tried else words
    if len(paths) != 2:
        sys.exit(__doc__)
    with open(paths[0], encoding="latin-1") as source:
        with open(paths[1], "w", encoding="latin-1") as target:
            target.writelines(convert(iter(source), is_tried))
    return 0


if __name__ == "__main__":
    sys.exit(main(sys.argv[1:]))
