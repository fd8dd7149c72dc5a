#!/usr/bin/env python3
"""What `mmshow` writes, in Python: the reference that its texts are compared with (checks/show, checks/page.py).

    show.py tell [SCRIPT [ANSWERS]] < LOG           a transcript in words; --plain before `tell`: a row for each move, without what the
                                                    script and the answers add to the words, as the page's own text has it
    show.py events [SCRIPT [ANSWERS]] < LOG         a row of csv for each move
    show.py counts [LINE] < LOG                     lists after each line; use counts after one line
    show.py counts csv [SCRIPT [ANSWERS]] < LOG     lists, working sets and the charge after each line, as csv
    show.py state LINE < LOG                        every list, frame and working set after one line
    show.py frame N < LOG, show.py key KEY < LOG    the history of a frame, of a page, `p1.16`, `s0.2` or `1:0x10000`
    show.py faults < LOG                            per process and page; device traffic
    show.py faults csv < LOG                        per process and page, as csv
    show.py sums < LOG                              how many moves are of each class
    show.py html PAGE [SCRIPT [ANSWERS [OBSERVATIONS]]] < LOG
                                                    the page; PAGE is what `web/pack --whole` prints

It stands on life.py, an independent replay of a log.
"""
import functools
import itertools
import re
import sys
from collections import Counter, OrderedDict

import observations
import remarks
import rows
from life import Life, read_move, spell_key, spell_move
from refusals import refusal

# ------------------------------------------------------------------ the classes
# code: (move, group, words).  The groups are the tracks of the page and the columns of `faults`.
CLASSES = OrderedDict(
    [
        ("c", ("add", "", "page {k} comes to be, demand-zero: no frame yet")),
        ("f", ("add", "", "file page {k} comes to be, its bytes in file block {b}")),
        ("y", ("add", "copy", "copy-on-write fault: page {k} becomes private")),
        ("d", ("drop", "", "page {k} is deleted{freed}")),
        ("D", ("drop", "", "page {k} is deleted; its I/O keeps frame {f} until it ends")),
        ("z", ("clear", "zeroing", "zero page thread clears free frame {f}")),
        ("Z", ("clear", "zeroing", "free frame {f} is zeroed on demand")),
        ("s", ("steal", "steal", "standby frame {f} is repurposed: {k} is now only in {home}")),
        ("g", ("give", "zero", "demand-zero fault: {k} gets zeroed frame {f}")),
        ("G", ("give", "", "zeroed frame {f} is taken for the copy {k}")),
        ("h", ("read", "hard", "hard fault: {k} is read from paging-file {home} into frame {f}")),
        ("H", ("read", "hard", "hard fault: {k} is read from file {home} into frame {f}")),
        ("o", ("got", "", "page-in of {k} into frame {f} is complete")),
        (
            "q",
            (
                "got",
                "collided",
                "collided fault: the page-in of {k} that was in flight completes in frame {f}",
            ),
        ),
        (
            "O",
            (
                "got",
                "",
                "page-in into frame {f} is complete; its page was deleted, so the frame is free",
            ),
        ),
        ("b", ("bad", "failed", "page-in of {k} FAILED: frame {f} is free again")),
        (
            "B",
            (
                "bad",
                "failed",
                "page-in into frame {f} FAILED; its page was deleted, so the frame is free",
            ),
        ),
        ("m", ("map", "", "{k} is valid at {p}: frame {f} is active")),
        ("n", ("map", "", "{k}, read in by an earlier line, is valid at {p}: frame {f} is active")),
        (
            "1",
            (
                "map",
                "soft",
                "soft fault: {k} is found on the standby list, frame {f}, and valid at {p}",
            ),
        ),
        (
            "2",
            (
                "map",
                "soft",
                "soft fault: {k} is found on the modified list, frame {f}, and valid at {p}",
            ),
        ),
        (
            "3",
            (
                "map",
                "soft",
                "soft fault: {k} is found in transition (being written), frame {f}, and valid at {p}",
            ),
        ),
        (
            "4",
            ("map", "soft", "soft fault: {k} is active already, frame {f}, and now shared at {p}"),
        ),
        ("u", ("unmap", "", "{p} ends: frame {f} leaves the working set of process {i}{goes}")),
        (
            "t",
            (
                "unmap",
                "trim",
                "{p} is trimmed from the working set of process {i}: frame {f}{goes}",
            ),
        ),
        (
            "T",
            (
                "unmap",
                "trim",
                "{p} is trimmed from the working set of process {i} for want of frames: frame {f}{goes}",
            ),
        ),
        (
            "r",
            (
                "unmap",
                "replace",
                "{p} is replaced: the working set of process {i} is full: frame {f}{goes}",
            ),
        ),
        ("p", ("unmap", "", "at {p} the shared page {k} makes way for the copy: frame {f}{goes}")),
        ("w", ("soil", "", "first write to {k}: frame {f} is changed{unslot}")),
        (
            "W",
            (
                "soil",
                "",
                "first write to {k} while it is being written: frame {f} will stay changed",
            ),
        ),
        ("e", ("write", "write", "modified page writer writes {k}: frame {f} to {home}")),
        ("E", ("write", "write", "write-out for want of frames: {k}, frame {f} to {home}")),
        ("F", ("write", "write", "flush writes {k}: frame {f} to {home}")),
        ("k", ("wrote", "", "write-out of {k} is complete: frame {f} is clean{goes}")),
        (
            "K",
            (
                "wrote",
                "",
                "write-out of {k} is complete, but it was changed meanwhile: frame {f} stays changed{goes}",
            ),
        ),
        (
            "j",
            (
                "wrote",
                "",
                "write-out of frame {f} is complete; its page was deleted, so the frame is free",
            ),
        ),
        ("l", ("lost", "failed", "write-out of {k} FAILED: frame {f} stays changed{goes}")),
        (
            "L",
            (
                "lost",
                "failed",
                "write-out of frame {f} FAILED; its page was deleted, so the frame is free",
            ),
        ),
    ]
)
KINDS = OrderedDict(
    [
        ("machine", "M"),
        ("process", "P"),
        ("grow", "N"),
        ("access", "a"),
        ("thread", "t"),
        ("trim", "r"),
        ("unbind", "u"),
        ("writer", "w"),
        ("zeroer", "z"),
        ("io", "i"),
        ("call", "c"),
    ]
)
FORMS = {  # first word of a script line: the kinds that its `at` may have
    "machine": "machine",
    "process": "process call",
    "grow": "grow call",
    "exit": "unbind call",
    "free": "unbind call",
    "unmap": "unbind call",
    "read": "access call",
    "write": "access call",
    "exec": "access call",
    "begin": "thread call",
    "resume": "thread call",
    "trim": "trim call",
    "writer": "writer",
    "zeroer": "zeroer",
    "io": "io",
}
FORMS.update(
    (w, "call")
    for w in (
        "file alloc protect query create createfile open close map flush age fail charge counts "
        "watch resetwatch stack"
    ).split()
)
FORMS["probe"] = "call"

# what a line answers that is done, by its first word; the others answer `ok` alone
HEX, NUM = "0x[0-9A-F]{8}", "[0-9]+"
DONE = {
    word: form
    for words, form in [
        ("machine process grow open", "ok " + NUM),
        ("alloc map probe protect", "ok " + HEX),
        ("create createfile charge", f"ok {NUM} {NUM}"),
        ("query", "ok" + 7 * (" " + HEX)),
        ("counts", "ok" + 8 * (" " + NUM)),
        ("stack", "ok" + 3 * (" " + HEX)),
        ("read", "ok [0-9A-F]+"),
        ("begin resume", "ok( [0-9A-F]+)?"),
        ("watch", f"ok {NUM}( [0-9A-Fx ]+)?"),
    ]
    for word in words.split()
}
# and what else it may answer
OTHERS = {word: ["error (2|5|6|87|183|487|1132|1455)"] for word in FORMS}
for words, form in [
    ("machine process grow resume io writer zeroer fail charge counts probe", None),
    ("read write exec begin resume probe", "raise 0x(80000001|C0000005|C0000006|C00000FD)"),
    ("begin resume", "pending (read|frame|full)"),
    ("resume io probe", "none"),
    ("begin stack", "busy"),
    ("process file fail grow", "full"),
    ("file flush io grow", "fault"),
]:
    for word in words.split():
        OTHERS[word] = OTHERS[word] + [form] if form else []


def can_answer(word, answer):
    """Whether a line with this first word can have this answer."""
    return any(re.fullmatch(form, answer) for form in [DONE.get(word, "ok")] + OTHERS.get(word, []))


def run_end(line, text):
    """What a run that ended at this line wrote behind the answers says of the line; None where it is no such text."""
    if re.match(f"bad line {line} column ", text):
        return "is no line"
    return "is too long" if text == f"too long line {line}" else None


class Marks:
    """What a class needs beside the state of the replay and the moves next to it."""

    def __init__(self):
        self.fresh = (
            set()
        )  # the frames with a `give` or a `got` in this line, as for mmlog's count of soft faults
        self.arrived = set()  # the frames whose page was read in, and was valid nowhere since

    def follow(self, m):
        w = m[0]
        if w == "at":
            self.fresh = set()
        elif w == "give":
            self.fresh.add(m[1])
        elif w == "got":
            self.fresh.add(m[1])
            self.arrived.add(m[1])
        elif w in ("map", "give"):
            self.arrived.discard(m[1])


def class_of(l, marks, before, m, after):
    """The class of the legal move m in the state l, between the moves `before` and `after` (None at the ends)."""
    w, kind = m[0], l.kind
    runs = kind is not None and kind[0] in ("access", "thread")
    if w == "at":
        return KINDS[m[2][0]]
    if w == "add":
        return "f" if m[2] is not None else "y" if runs else "c"
    if w == "drop":
        f = l.frame_of.get(m[1])
        return "D" if f is not None and l.rec[f].request else "d"
    if w == "clear":
        return "z" if kind[0] == "zeroer" else "Z"
    if w == "steal":
        return "s"
    if w == "give":
        return "G" if m[2][0] == "p" and m[2][1:] in l.valid else "g"
    if w == "read":
        return "h" if l.home[m[2]][0] == "slot" else "H"
    if w == "got":
        own = before is not None and before[0] == "read" and before[1] == m[1]
        return "O" if l.rec[m[1]].owner is None else "q" if kind[0] == "access" and not own else "o"
    if w == "bad":
        return "B" if l.rec[m[1]].owner is None else "b"
    if w == "map":
        f = m[1]
        if f in marks.fresh:
            return "m"
        if f in marks.arrived:
            return "n"
        r = l.rec[f]
        return "4" if r.shares else "3" if r.request else "2" if f in l.lists["modified"] else "1"
    if w == "unmap":
        pid = m[1][0]
        if kind[0] == "unbind":
            return "u"
        if kind[0] == "trim":
            return "t"
        owner = l.rec[l.valid[m[1]]].owner
        if owner is not None and owner[0] == "s" and l.live(("p",) + m[1]) and kind[1] == pid:
            return "p"
        full = kind[1] == pid and l.valid_places(pid) == l.procs[pid][1]
        short = kind[0] == "access" and l.empty("zeroed") and l.empty("free") and l.empty("standby")
        next_in = after is not None and after[0] == "map" and after[2][0] == pid
        return "T" if short and not (full and next_in) else "r"
    if w == "soil":
        return "W" if l.rec[m[1]].request else "w"
    if w == "write":
        return {"writer": "e", "access": "E"}.get(kind[0], "F")
    r = l.rec[m[1]]
    if w == "wrote":
        return "j" if r.owner is None else "K" if r.request == "again" else "k"
    return "L" if r.owner is None else "l"


# ------------------------------------------------------------------ a log, read and classified
class BadLog(Exception):
    """The log's line that is no spelling of a legal move, and why a move that is spelled is not legal."""

    def __init__(self, line, why=""):
        super().__init__(line, why)
        self.line, self.why = line, why


class BadScript(Exception):
    pass


class Missing(Exception):
    """What a log that replays does not have."""


class BadAnswer(Exception):
    pass


def fits(script, answers, m):
    """Raises BadScript where the script has no line that the move `at` can stand for, BadAnswer where that cannot be its answer."""
    n = m[1]
    if script is None:
        return
    word = script[n - 1].split(" ")[0] if n <= len(script) else ""
    if m[2][0] not in FORMS.get(word, "").split():
        raise BadScript(n)
    if answers is not None and not (n <= len(answers) and can_answer(word, answers[n - 1])):
        raise BadAnswer(n)


def fits_end(answers, count):
    """Raises BadAnswer where answers stand behind those of so many lines; what a run wrote that ended there is none."""
    left = answers[count:] if answers is not None else []
    first = count + 1
    if left and run_end(first, left[0]):
        left, first = left[1:], first + 1
    if left:
        raise BadAnswer(first)


def moves_of(data):
    """The moves of the log's bytes, numbered lines; BadLog where a line is no spelling."""
    *lines, rest = data.split(b"\n")
    for n, line in enumerate(lines, 1):
        m = read_move(line)
        if m is None:
            raise BadLog(n)
        yield m
    if rest:
        raise BadLog(len(lines) + 1)


def spelled(data):
    """The moves of the log, and then None or what is wrong with its next line."""
    moves = []
    try:
        for m in moves_of(data):
            moves.append(m)
    except BadLog as bad:
        return moves, bad
    return moves, None


@functools.lru_cache(maxsize=2)
def steps(data):
    """The log's moves; the class of each that is legal and facts for its words; what is wrong behind them, or None.

    A log is mostly asked about in several ways, one after another: its moves are judged once.
    """
    l, marks = Life(), Marks()
    moves, bad = spelled(data)
    told, before = [], None
    why = refusal(l, moves[0]) if moves else None
    for at, m in enumerate(moves):
        if why is not None:
            return moves, told, BadLog(at + 1, "%s: %s" % (spell_move(m), why))
        after = moves[at + 1] if at + 1 < len(moves) else None
        # the class of a move hangs on the next one, where that is legal
        code, last_code = class_of(l, marks, before, m, after), class_of(l, marks, before, m, None)
        facts = facts_before(l, m)
        if not l.apply(m):
            raise AssertionError("%s is legal by refusals.py alone" % spell_move(m))
        why = refusal(l, after) if after else None
        marks.follow(m)
        facts_after(l, m, code, facts)
        told.append((last_code if why else code, facts))
        before = m
    return moves, told, bad


def walk(data, seen, ended=lambda l: None):
    """Replays; calls seen(l, m, code, facts) after each move, and ended(l) after each line.  `facts` are texts for the words."""
    moves, told, bad = steps(data)
    l = Life()
    for m, (code, facts) in zip(moves, told):
        if m[0] == "at" and l.line:
            ended(l)
        l.apply(m)
        seen(l, m, code, facts)
    if bad:
        raise BadLog(bad.line, bad.why)
    if l.line:
        ended(l)
    return l


REQUESTS = {
    None: "no I/O",
    "read": "being read",
    "write": "being written",
    "again": "being written, changed since",
}


def spell_home(h):
    return "zeros" if h is None or h[0] == "zero" else "%s %d" % h


def state_of(l, f):
    r = l.rec[f]
    if r.shares:
        return "active"
    if r.request:
        return "being read" if r.request == "read" else "being written"
    return l.list_of(f)


def facts_before(l, m):
    w, d = m[0], {}
    f = key = None
    if w in ("add", "drop"):
        key = m[1]
        f = l.frame_of.get(key)
        d["b"] = m[2] if w == "add" else None
    elif w in ("give", "read"):
        f, key = m[1], m[2]
    elif w == "unmap":
        f, d["place"] = l.valid[m[1]], m[1]
        key = l.rec[f].owner
        d["above"] = l.valid_places(m[1][0]) > l.procs[m[1][0]][0]
    elif w != "at":
        f = m[1]
        key = l.rec[f].owner
        if w == "map":
            d["place"] = m[2]
    if f is not None:
        r = l.rec[f]
        d["f"], d["was"] = f, state_of(l, f)
        d["home"] = spell_home(l.home[key] if w == "read" else m[2:] if w == "write" else r.backing)
        d["unslot"] = (
            "; its slot %d is free" % r.backing[1] if r.backing and r.backing[0] == "slot" else ""
        )
    d["key"], d["k"] = key, spell_key(key) if key else "-"
    home = l.home.get(key) if key else None
    d["freed"] = (
        "; frame %d is free" % f
        if f is not None
        else "; slot %d is free" % home[1]
        if home and home[0] == "slot"
        else ""
    )
    return d


def facts_after(l, m, code, d):
    if "f" in d:
        d["is"] = state_of(l, d["f"])
        d["goes"] = (
            (" stays active" if code in "rtTup" else "")
            if d["is"] == "active"
            else "; it goes to the %s list" % d["is"]
            if d["is"] in ("standby", "modified", "free") and d["is"] != d["was"]
            else " is being written still"
            if d["is"] == "being written"
            else ""
        )


def words_of(code, d, with_addresses=False):
    facts = {"p": "", "f": "", "i": "", "goes": "", "unslot": "", **d}
    if "place" in d:
        facts["p"], facts["i"] = spell_place(d["place"], with_addresses), d["place"][0]
    return CLASSES[code][2].format(**facts)


def spell_place(place, with_address):
    """A place, and the address of its page where it is one of a 32-bit address space."""
    return "%d.%d" % place + (
        " (0x%X)" % (place[1] * 4096) if with_address and place[1] < 1 << 20 else ""
    )


# ------------------------------------------------------------------ texts
def texts(names):
    """The lines of the script and of the answers, as lists; both may be absent."""
    out = []
    for name in names[:2]:
        data = open(name, "rb").read().replace(b"\r\n", b"\n")
        out.append(data.decode("latin-1").split("\n")[:-1])
    return (out + [None, None])[:2]


def printed(text):
    """A line as a terminal shows it: control bytes, and those that are no ASCII, as `?`."""
    return "".join(c if " " <= c <= "~" else "?" for c in text)


def fold_of(moves):
    """Of moves by which pages come to be: what is said of all of them."""
    first, last = moves[0], moves[-1]
    keys = f"pages {spell_key(first[1])} to {spell_key(last[1])} come to be, "
    return (
        "file %stheir bytes in file blocks %d to %d" % (keys, first[2], last[2])
        if last[2] is not None
        else keys + "demand-zero: no frame yet"
    )


def is_next(m, after):
    """Whether the page of the second `add` stands right behind that of the first, and its block behind that block."""
    (*space, page), (*other, behind) = m[1], after[1]
    blocks = (m[2], after[2])
    return (
        space == other
        and page + 1 == behind
        and (blocks == (None, None) or None not in blocks and blocks[0] + 1 == blocks[1])
    )


def end_of_run(script, answers, count):
    """What is said behind a log of so many lines, where the run ended before the end of the script."""
    line = count + 1
    what = run_end(line, answers[count]) if answers is not None and count < len(answers) else None
    if what:
        return [f"line {line} {what}: the run ended here"]
    return (
        [f"line {line} was not reached: the run ended before it"]
        if script is not None and count < len(script)
        else []
    )


def do_tell(out, data, names, is_plain):
    """A transcript; a plain one has a row for each move, and not how a run ended."""
    script, answers = texts(names)
    fold = (
        []
    )  # moves by which pages come to be, one right behind another; the last has its row already
    with_names = script is not None and not is_plain
    ages = remarks.Ages() if with_names and answers is not None else None

    def said_at(n):
        return answers[n - 1] if answers and n <= len(answers) else ""

    def row(n, asked):
        told = ("%d  %-46s  %s" % (n, printed(asked), printed(said_at(n)))).rstrip(" ")
        if not with_names:
            return told
        answer, numbers = remarks.names_of_answer(asked, said_at(n)), remarks.names_of_line(asked)
        return told + (answer and " " + answer) + (numbers and "  " + numbers)

    begun: list[Any] = []  # the write-outs of the line
    unwritten: list[str] = []  # what the line that ended left

    def ended(l):
        if ages:
            ages.after(script[l.line - 1], said_at(l.line))
        if with_names:
            unwritten[:] = remarks.unwritten(script[l.line - 1], len(begun), l)
        begun.clear()

    def seen(l, m, code, d):
        if m[0] == "at":
            fold.clear()
            fits(script, answers, m)
            out.extend(unwritten)
            out.append(row(m[1], script[m[1] - 1] if script else " ".join(str(x) for x in m[2])))
            return
        if m[0] == "write":
            begun.append(m)
        if ages and m[0] == "map":
            ages.use(m[2])
        if code in "cf" and not is_plain and fold and is_next(fold[-1], m):
            fold.append(m)
            out[-1] = "     " + fold_of(fold)
            return
        fold[:] = [m] if code in "cf" else []
        why = (
            remarks.why_chosen(code, m[1], ages.of(m[1]), d["above"])
            if ages and m[0] == "unmap"
            else ""
        )
        out.append("     " + words_of(code, d, with_names) + why)

    end = walk(data, seen, ended)
    fits_end(answers, end.line or 0)
    out += unwritten
    if not is_plain:
        out += end_of_run(script, answers, end.line or 0)


def do_events(out, data, names):
    script, answers = texts(names)
    ages = remarks.Ages() if script is not None and answers is not None else None
    out.append(",".join(rows.HEAD))

    def ended(l):
        if ages and l.line <= len(answers):
            ages.after(script[l.line - 1], answers[l.line - 1])

    def seen(l, m, code, d):
        if m[0] == "at":
            fits(script, answers, m)
            return
        if ages and m[0] == "map":
            ages.use(m[2])
        why = (
            remarks.why_chosen(code, m[1], ages.of(m[1]), d["above"])
            if ages and m[0] == "unmap"
            else ""
        )
        out.append(rows.event(l, code, d, why))

    fits_end(answers, walk(data, seen, ended).line or 0)


HEADS = ("zeroed", "free", "standby", "modified", "active", "transition", "slots", "requests")


def use_rows(l):
    """The page frames by their use and list, the slots, the requests, the working sets."""
    names = (
        "Process private",
        "Page-file section",
        "Mapped file",
        "Deleted, I/O in flight",
        "Unused",
    )
    cols = ("active", "standby", "modified", "transition", "zeroed", "free")
    c = Counter()
    for f in range(l.frames):
        o, s = l.rec[f].owner, state_of(l, f)
        s = "transition" if s.startswith("being") else s
        row = (
            4
            if s in ("zeroed", "free")
            else 3
            if o is None
            else 0
            if o[0] == "p"
            else 1
            if o in l.page_file
            else 2
        )
        c[row, s] += 1
    t = [
        "use of page frames after line %d" % l.line,
        "%-24s" % "" + "".join("%12s" % x.capitalize() for x in cols + ("total",)),
    ]
    for i, name in enumerate(names):
        v = [c[i, s] for s in cols]
        t.append("%-24s" % name + "".join("%12d" % x for x in v + [sum(v)]))
    v = [sum(c[i, s] for i in range(5)) for s in cols]
    t.append("%-24s" % "Total" + "".join("%12d" % x for x in v + [sum(v)]))
    t.append("paging-file slots free %d of %d" % (len(l.free_slots), l.slots))
    t.append("requests in flight %d, depth %d" % (len(l.requests), l.depth))
    for pid in sorted(l.procs):
        t.append(
            "working set of process %d: %d (min %d, max %d)"
            % ((pid, l.valid_places(pid)) + l.procs[pid])
        )
    return t


def frame_row(l, f):
    r = l.rec[f]
    return "%s, %s, %s, %s, %d places, %s" % (
        state_of(l, f),
        spell_key(r.owner) if r.owner else "no page",
        "changed" if r.changed else "not changed",
        "%s %d" % r.backing if r.backing else "no copy",
        r.shares,
        REQUESTS[r.request],
    )


def frame_rows(said):
    """A row for each run of frames of which the same is said."""
    t, first = [], 0
    for row, same in itertools.groupby(said):
        last = first + len(list(same)) - 1
        t.append(
            ("frame %d" % first if first == last else "frames %d to %d" % (first, last)) + " " + row
        )
        first = last + 1
    return t


def state_rows(l):
    """Every list, every frame, every working set, the slots."""
    t = ["after line %d" % l.line]
    t += [
        " ".join([name] + [str(f) for f in l.lists[name]])
        for name in ("zeroed", "free", "standby", "modified")
    ]
    t.append(" ".join(["requests"] + [str(f) for f in l.requests]))
    t += frame_rows([frame_row(l, f) for f in range(l.frames)])
    for pid in sorted(l.procs):
        pages = sorted(v for p, v in l.valid if p == pid)
        t.append(
            " ".join(
                ["process %d min %d max %d pages" % ((pid,) + l.procs[pid])]
                + [str(v) for v in pages]
            )
        )
    return t + ["slots %d of %d free" % (len(l.free_slots), l.slots)]


def nothing(l, m, code, d):
    pass


def do_counts(out, data):
    out.append("%7s" % "line" + "".join("%11s" % h for h in HEADS))
    walk(
        data,
        nothing,
        lambda l: out.append("%7d" % l.line + "".join("%11d" % x for x in l.counts())),
    )


def do_line(out, data, line, rows):
    """The rows of the state after one line."""
    end = walk(data, nothing, lambda l: out.extend(rows(l)) if l.line == line else None)
    if (end.line or 0) < line:
        raise Missing("line %d" % line)


def do_counts_csv(out, data, names):
    """The counts, the working sets and the charge that was told last, after each line."""
    script, answers = texts(names)
    told, held = ["", ""], []

    def charge(n):
        asked = (
            script is not None
            and answers is not None
            and n <= min(len(script), len(answers))
            and script[n - 1] == "charge"
        )
        words = answers[n - 1].split(" ") if asked else []
        numbers = [remarks.number(word) for word in words[1:]]
        if words[:1] == ["ok"] and len(numbers) == 2 and None not in numbers:
            told[:] = numbers

    def ended(l):
        charge(l.line)
        held.append(rows.counts(l, told))

    def seen(l, m, code, d):
        if m[0] == "at":
            fits(script, answers, m)
        out.extend(held)
        held.clear()

    out.append(",".join(rows.COUNTS))
    fits_end(answers, walk(data, seen, ended).line or 0)
    out.extend(held)


def history(out, data, wanted, begun=lambda l: None):
    """A row for each move that is wanted; begun(l) is called after the first line's `at`.  Returns the state at the end."""

    def seen(l, m, code, d):
        if m[0] == "at":
            if m[1] == 1:
                begun(l)
        elif wanted(d):
            turn = "%s -> %s" % (d["was"], state_of(l, d["f"])) if "f" in d else ""
            out.append("line %-7d %-26s %s" % (l.line, turn, words_of(code, d)))

    return walk(data, seen)


def do_frame(out, data, n):
    end = history(
        out,
        data,
        lambda d: d.get("f") == n,
        lambda l: out.append("frame %d" % n) if n < l.frames else None,
    )
    if n >= (end.frames or 0):
        raise Missing("frame %d" % n)
    out.append("at the end: " + frame_row(end, n))


def do_key(out, data, key):
    out.append("page %s" % spell_key(key))
    end = history(out, data, lambda d: d.get("key") == key)
    out.append("at the end: %s" % " ".join(str(x) for x in end.held(key)))


# the columns of `faults`: the groups of the classes, of the soft faults the classes themselves
SOFT = "1234"
FAULTS = OrderedDict(
    [
        ("hard", "hard"),
        ("1", "standby"),
        ("2", "modified"),
        ("3", "writing"),
        ("4", "active"),
        ("zero", "demand-0"),
        ("copy", "copy"),
        ("collided", "collided"),
    ]
)


def do_faults(data, is_csv=False):
    pages, procs, io, moves = {}, {}, Counter(), Counter()

    def seen(l, m, code, d):
        if m[0] == "at":
            return
        moves[code] += 1
        column = code if code in SOFT else CLASSES[code][1]
        if column in FAULTS:
            pages.setdefault((l.kind[1], d["key"]), Counter())[column] += 1
            procs.setdefault(l.kind[1], Counter())[column] += 1
        if m[0] in ("got", "bad", "wrote", "lost"):
            io["paging file" if d["home"].startswith("slot") else "files", m[0]] += 1

    walk(data, seen)

    keys = {pid: [k for p, k in sorted(pages) if p == pid] for pid in sorted(procs)}
    if is_csv:
        told = [
            (pid, *one)
            for pid in keys
            for one in [("all", procs[pid])] + [(spell_key(k), pages[pid, k]) for k in keys[pid]]
        ]
        return [",".join(rows.FAULTS)] + [
            rows.csv_line([pid, page] + [c[x] for x in FAULTS]) for pid, page, c in told
        ]

    def row(a, b, c):
        h, s = c["hard"], sum(c[x] for x in SOFT)
        return (
            "%-9s %-14s" % (a, b)
            + "".join("%10d" % c[x] for x in FAULTS)
            + ("  %14d %%" % (100 * h // (h + s)) if h + s else "")
        )

    out = [
        "%-9s %-14s" % ("process", "page")
        + "".join("%10s" % head for head in FAULTS.values())
        + "  hard of hard+soft"
    ]
    for pid in keys:
        out.append(row(pid, "all", procs[pid]))
        out += [row(pid, spell_key(k), pages[pid, k]) for k in keys[pid]]
    for dev in ("paging file", "files"):
        out.append(
            "%s: %d read, %d reads failed, %d written, %d writes failed"
            % ((dev,) + tuple(io[dev, w] for w in ("got", "bad", "wrote", "lost")))
        )
    out.append(
        "as mmlog check counts: zero fills %d, hard %d, soft %d (%d of them first uses of pages that an earlier line read in)"
        % (
            sum(moves[x] for x in "gG"),
            sum(moves[x] for x in "hH"),
            sum(moves[x] for x in "n" + SOFT),
            moves["n"],
        )
    )
    return out


def do_sums(data):
    c = Counter()
    walk(data, lambda l, m, code, d: c.update([code if m[0] != "at" else "at " + m[2][0]]))
    return ["%s %d" % (k, c[k]) for k in list(CLASSES) + ["at " + k for k in KINDS] if c[k]]


# ------------------------------------------------------------------ the page
number = observations.digits


def numbers(*ns):
    return "".join(number(n) for n in ns)


def spell_key_code(k):
    """A private key: 2 * pid, page.  A shared one: 2 * area + 1, index."""
    return numbers(2 * k[1] + (k[0] == "s"), k[2])


def encode(m, code):
    w = m[0]
    if w == "at":
        return "\n" + code + numbers(*m[2][1:])
    if w == "add":
        return code + spell_key_code(m[1]) + (number(m[2]) if m[2] is not None else "")
    if w == "drop":
        return code + spell_key_code(m[1])
    if w in ("give", "read"):
        return code + number(m[1]) + spell_key_code(m[2])
    if w == "map":
        return code + numbers(m[1], *m[2])
    if w == "unmap":
        return code + numbers(*m[1])
    if w == "write":
        return code + numbers(m[1], 2 * m[3] + (m[2] == "block"))
    return code + number(m[1])


EVERY = 64  # a mark stands after each line 64 k, and at the end


def island(data, script=None, answers=None):
    """The classified moves, one text line for each line; marks `=` with the eight counts."""
    out = []

    def ended(l):
        if l.line % EVERY == 0:
            out.append("=" + numbers(*l.counts()))

    def seen(l, m, code, d):
        if m[0] == "at":
            fits(script, answers, m)
        out.append(encode(m, code))

    end = walk(data, seen, ended)
    fits_end(answers, end.line or 0)
    if end.line and end.line % EVERY:
        out.append("=" + numbers(*end.counts()))
    return "".join(out) + "\n"


def safe(line):
    keep = "".join(chr(c) if 32 <= c < 127 and c not in (38, 60) else "?" for c in range(256))
    return line[:256].translate(keep)


def pair(value):
    """A number below 4356 in two bytes."""
    return chr(61 + value // 66) + chr(61 + value % 66)


def packed_digits(digits):
    """Hexadecimal digits, three in two bytes; behind them two, one, or `!` for none."""
    whole = len(digits) // 3 * 3
    text = "".join(pair(int(digits[at : at + 3], 16)) for at in range(0, whole, 3))
    left = digits[whole:]
    if not left:
        return text + "!"
    return text + (chr(39 + int(left, 16)) if len(left) == 1 else pair(4096 + int(left, 16)))


ACCESS = re.compile("(read|write) ([0-9]) 0x([0-9A-F]{0,256}) ([0-9A-F]{0,256})")
TOLD = re.compile("ok ([0-9A-F]{0,256})")


def script_row(line):
    """A line of the script: an access packed, any other behind a tab if it begins as one does."""
    access = ACCESS.fullmatch(line)
    if not access:
        return ("\t" if "A" <= line[:1] <= "T" else "") + safe(line) + "\n"
    word, pid, address, behind = access.groups()
    letter = chr(ord("A" if word == "read" else "K") + int(pid))
    return letter + packed_digits(address) + packed_digits(behind)


def answer_row(answer):
    """An answer: the digits of `ok DIGITS`, what stands behind `ok`, any other behind a tab."""
    told = TOLD.fullmatch(answer)
    if told:
        return packed_digits(told[1])
    if answer == "ok" or answer.startswith("ok "):
        return answer[2:3] + safe(answer[3:]) + "\n"
    return "\t" + safe(answer) + "\n"


def do_html(data, page, names):
    script, answers = texts(names)
    packed = observed(names[2], script, answers) if len(names) > 2 else ""
    page = open(page, encoding="ascii").read()
    islands = {
        "CLASSES": class_table(),
        "MOVES": island(data, script, answers),
        "SCRIPT": "".join(script_row(x) for x in script or []),
        "ANSWERS": "".join(answer_row(x) for x in answers or []),
        "NAME": safe(names[0]) + "\n" if names else "",
        "OBSERVATIONS": packed,
    }
    for name, text in islands.items():
        page = page.replace("@%s@" % name, text)
    return page.removesuffix("\n")


def observed(name, script, answers):
    """The observations of a file, packed, where they can be of a script and its answers."""
    answered = [
        (line, answer)
        for line, answer in zip(script, answers)
        if first_word(answer) not in ("bad", "too")
    ]
    made = {}
    for at, (line, answer) in enumerate(answered, 1):
        pid = (
            remarks.number(answer[3:])
            if first_word(line) == "process" and answer.startswith("ok ")
            else None
        )
        if pid is not None and pid < 256:
            made[pid] = at
    with open(name, "rb") as file:
        return observations.packed(file.read(), len(answered), made)


def first_word(line):
    """The first word of a line of at most 256 bytes, or nothing."""
    return line.split(" ")[0] if len(line) <= 256 else ""


def class_table():
    """A row for each class: its code, the word of its move, its group or `-`, its sentence."""
    return "".join(
        "%s %s %s %s\n" % (code, "addfile" if code == "f" else word, group or "-", sentence)
        for code, (word, group, sentence) in CLASSES.items()
    )


MOST_LINES = 1000000


def read_line(word):
    """The number of a line, or None."""
    n = remarks.number(word)
    return n if n is not None and 1 <= n <= MOST_LINES else None


def read_page(word):
    """A page's key, as `p1.16` or `s0.2`, or by an address as `1:0x10000`; its numbers as a script has them."""
    by_address = word[:1] not in ("p", "s")
    first, _, second = word.partition(":") if by_address else word[1:].partition(".")
    first, second = remarks.number(first), remarks.number(second)
    if first is None or second is None or (word[:1] != "s" and first > 255):
        return None
    return ("p", first, second // 4096) if by_address else (word[0], first, second)


def form_of(argv):
    """What the words ask for, as a function of the text so far, a list of lines, and of the log; None where they are no form."""
    is_plain = argv[:1] == ["--plain"]
    name, *words = argv[is_plain:] or [""]
    if any(word.startswith("-") for word in words):
        return None
    word = words[0] if len(words) == 1 else ""
    line, value = read_line(word), remarks.number(word)
    if name == "tell" and len(words) <= 2:
        return lambda out, data: do_tell(out, data, words, is_plain)
    if is_plain:
        return None
    if name == "events" and len(words) <= 2:
        return lambda out, data: do_events(out, data, words)
    if name == "counts" and not words:
        return do_counts
    if name == "counts" and words[0] == "csv" and len(words) <= 3:
        return lambda out, data: do_counts_csv(out, data, words[1:])
    if name in ("counts", "state") and line is not None:
        return lambda out, data: do_line(
            out, data, line, use_rows if name == "counts" else state_rows
        )
    if name == "frame" and value is not None:
        return lambda out, data: do_frame(out, data, value)
    if name == "key" and read_page(word):
        return lambda out, data: do_key(out, data, read_page(word))
    if name == "html" and 1 <= len(words) <= 4:
        return lambda out, data: out.append(do_html(data, words[0], words[1:]))
    if name == "faults" and words in ([], ["csv"]):
        return lambda out, data: out.extend(do_faults(data, bool(words)))
    if name == "sums" and not words:
        return lambda out, data: out.extend(do_sums(data))
    return None


USAGE = (
    "usage: mmshow html [SCRIPT [ANSWERS [OBSERVATIONS]]] | tell [SCRIPT [ANSWERS]] | events [SCRIPT [ANSWERS]] | counts [LINE]"
    " | counts csv [SCRIPT [ANSWERS]] | state LINE | frame N | key KEY | faults [csv] | sums\n"
)


def answer(argv, data):
    """The status and the text of these words and this log."""
    form, out, last, status = form_of(argv), [], "", 0
    if not form:
        return 2, USAGE
    try:
        form(out, data)
    except BadLog as bad:
        why = ": " + bad.why if bad.why and argv[0] != "html" else ""
        last, status = "no line %d%s\n" % (bad.line, why), 3
    except BadScript as bad:
        last, status = "script line %d\n" % bad.args[0], 6
    except Missing as what:
        last, status = "no such %s\n" % what, 6
    except BadAnswer as bad:
        last, status = "answer line %d\n" % bad.args[0], 6
    except observations.BadObservation as bad:
        last, status = "observation line %d\n" % bad.args[0], 6
    return status, "".join(line + "\n" for line in out) + last


def main(argv):
    status, text = answer(argv, sys.stdin.buffer.read() if form_of(argv) else b"")
    sys.stdout.buffer.write(text.encode("latin-1"))
    return status


if __name__ == "__main__":
    sys.exit(main(sys.argv[1:]))
