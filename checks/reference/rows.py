"""What `mmshow` writes as csv: a row for each move of a log, and the tables of counts and of faults.

It is written from the documents alone, and Python's own csv writes the rows.
"""
import csv
import io

from life import spell_key

HEAD = "line,kind,class,process,page,address,key,frame,from,to,reason".split(",")
COUNTS = (
    "line,zeroed,free,standby,modified,active,transition,slots,requests,sets,charge,limit".split(
        ","
    )
)
FAULTS = "process,page,hard,standby,modified,writing,active,demand-zero,copy,collided".split(",")

# code: what happened, and why or by what; what stands in braces comes from the move
EVENTS = {
    "c": ("added", "demand-zero"),
    "f": ("added", "file block {b}"),
    "y": ("copy-on-write", ""),
    "d": ("deleted", ""),
    "D": ("deleted", "its I/O is in flight"),
    "z": ("zeroed", "zero page thread"),
    "Z": ("zeroed", "on demand"),
    "s": ("repurposed", "now only in {home}"),
    "g": ("demand-zero", ""),
    "G": ("frame for a copy", ""),
    "h": ("hard fault", "paging-file {home}"),
    "H": ("hard fault", "file {home}"),
    "o": ("read in", ""),
    "q": ("collided fault", "begun by an earlier line"),
    "O": ("read in", "page deleted meanwhile"),
    "b": ("read failed", ""),
    "B": ("read failed", "page deleted meanwhile"),
    "m": ("made valid", ""),
    "n": ("first use", "read in by an earlier line"),
    "1": ("soft fault", "standby list"),
    "2": ("soft fault", "modified list"),
    "3": ("soft fault", "being written"),
    "4": ("soft fault", "valid elsewhere"),
    "u": ("given up", "its place ends"),
    "t": ("trimmed", "trim"),
    "T": ("trimmed", "want of frames"),
    "r": ("replaced", "working set is full"),
    "p": ("given up", "makes way for the copy"),
    "w": ("first write", ""),
    "W": ("first write", "while it is being written"),
    "e": ("write begun", "modified page writer, to {home}"),
    "E": ("write begun", "want of frames, to {home}"),
    "F": ("write begun", "flush, to {home}"),
    "k": ("written out", ""),
    "K": ("written out", "changed meanwhile"),
    "j": ("written out", "page deleted meanwhile"),
    "l": ("write failed", ""),
    "L": ("write failed", "page deleted meanwhile"),
}


def csv_line(fields):
    """A row by the rule of csv, without the line feed behind it."""
    text = io.StringIO()
    csv.writer(text, lineterminator="\n").writerow(fields)
    return text.getvalue()[:-1]


def counts(l, charge):
    """The row of a line that ends: the eight counts, the working sets in the order of processes, the charge and its limit."""
    sets = " ".join(str(l.valid_places(pid)) for pid in sorted(l.procs))
    return csv_line([l.line, *l.counts(), sets, *charge])


def event(l, code, facts, why):
    """The row of a move that was made in the state l; `why` is how the page stood that left its working set, as `tell` has it."""
    what, reason = EVENTS[code]
    place, key = facts.get("place"), facts.get("key")
    if place is None and key is not None and key[0] == "p":
        place = key[1:]
    process = (
        place[0]
        if place
        else l.kind[1]
        if l.kind[0] in ("process", "unbind", "access", "thread", "trim")
        else ""
    )
    page = place[1] if place else ""
    address = "0x%X" % (page * 4096) if place and page < 1 << 20 else ""
    reason = reason.format(**{"home": "zeros", **facts}) + (", " + why[2:-1] if why else "")
    return csv_line(
        [
            l.line,
            l.kind[0],
            what,
            process,
            page,
            address,
            spell_key(key) if key else "",
            facts.get("f", ""),
            facts.get("was", ""),
            facts.get("is", ""),
            reason,
        ]
    )
