"""Pictures of runs, sweeps and comparisons, all in one style, made by matplotlib.

    from melzudek import pictures
    pictures.curves(rows, by="age").save("sort.svg")
    pictures.pages(one, process=1)

Colours are those of Okabe and Ito, which the colour-blind tell apart; each line has a dash and a
mark of its own too. A picture is drawn the same each time, to the byte.
"""

from __future__ import annotations

import io
import os
from collections.abc import Iterable, Iterator, Mapping, Sequence
from pathlib import Path
from typing import TYPE_CHECKING, Any

from .costs import Costs, spelled
from .errors import Mistake
from .libraries import require
from .observe import Observations, observe
from .page_states import CODES, States, page_states
from .tables import Run

require("matplotlib", "pandas")
import matplotlib  # noqa: E402
import numpy  # noqa: E402
import pandas  # noqa: E402
from matplotlib.backends.backend_agg import FigureCanvasAgg  # noqa: E402
from matplotlib.colors import ListedColormap  # noqa: E402
from matplotlib.figure import Figure  # noqa: E402
from matplotlib.patches import Patch  # noqa: E402
from matplotlib.ticker import FuncFormatter, MaxNLocator, SymmetricalLogLocator  # noqa: E402

if TYPE_CHECKING:
    from .comparison import Comparison

COLOURS = ("#0072b2", "#d55e00", "#009e73", "#cc79a7", "#6b5b00", "#56b4e9", "#404040")
DASHES = ("-", (0, (5, 2)), (0, (1, 1.5)), (0, (6, 2, 1.5, 2)), (0, (3, 1.5)), (0, (9, 3)), "-")
MARKS = ("o", "s", "^", "D", "x", "v", "+")
LISTS = {"active": "#009e73", "standby": "#56b4e9", "modified": "#e69f00", "transition": "#cc79a7"}
LISTS |= {"free": "#bbbbbb", "zeroed": "#e4e4e4"}
STATES = {
    "valid": "#009e73",
    "in memory": "#56b4e9",
    "on disk": "#cc79a7",
    "not touched": "#dddddd",
}
SIDES = {"only one": "#d55e00", "only other": "#0072b2", "both": "#bbbbbb"}
STYLE = {
    **{"figure.dpi": 100, "savefig.dpi": 100, "font.size": 10.5, "font.family": "DejaVu Sans"},
    **{"axes.spines.top": False, "axes.spines.right": False, "axes.grid": True},
    **{"grid.color": "#dddddd", "grid.linewidth": 0.8, "axes.axisbelow": True},
    **{"axes.titlesize": 12, "axes.titleweight": "bold", "axes.titlelocation": "left"},
    **{"lines.linewidth": 2, "lines.markersize": 5.5, "legend.frameon": False},
    **{"svg.hashsalt": "melzudek", "svg.fonttype": "path", "figure.constrained_layout.use": True},
}
WIDTH, HEIGHT = 8.0, 4.4  # inches
ACROSS = 640  # columns of a picture that has a column for each place of a run
LABELS = 14  # names of pages at the left of a picture, at most
WORDS = {
    "frames": "page frames of 4 KiB",
    "hard": "hard faults (pages read from a device)",
    "soft": "soft faults",
    "zero": "demand-zero faults",
    "writes": "pages written out",
    "synchronous": "write-outs inside accesses",
    "repurposed": "standby page frames repurposed",
    "minimum": "minimum of the working sets, in pages",
    "age": "references of a process from one `age` to the next",
    "writer": "references from one page that the writer writes to the next",
}
WORDS |= {f"hard:{pid}": f"hard faults of process {pid}" for pid in range(1, 65)}
WORDS |= {f"minimum:{pid}": f"minimum of the working set of process {pid}" for pid in range(1, 65)}


class Picture:
    """A figure that a notebook shows and that is saved the same each time."""

    def __init__(self, figure: Any) -> None:
        self.figure = figure

    def save(self, path: str | os.PathLike[str]) -> Path:
        """Writes it, as the ending of the name says: .svg, .png, .pdf. Raises Mistake."""
        to = Path(path)
        kind = to.suffix[1:]
        if kind not in ("svg", "png", "pdf"):
            raise Mistake(f"{to} has no ending that says what picture it is: .svg, .png or .pdf")
        try:
            to.write_bytes(self.drawn(kind))
        except OSError as error:
            raise Mistake(f"{to} cannot be written: {error.strerror}") from error
        return to

    def drawn(self, kind: str) -> bytes:
        """The bytes of the picture, without the date."""
        to = io.BytesIO()
        undated = {"svg": {"Date": None}, "pdf": {"CreationDate": None}, "png": {"Software": None}}
        with matplotlib.rc_context(STYLE):
            self.figure.savefig(to, format=kind, metadata=undated[kind])
        return to.getvalue()

    def _repr_png_(self) -> bytes:
        return self.drawn("png")


def inline(picture: Picture) -> str:
    """The picture as a piece of a page."""
    text = picture.drawn("svg").decode("utf-8")
    return text[text.index("<svg") :]


def figure(rows: int = 1, height: float = HEIGHT, ratios: Sequence[float] | None = None) -> Any:
    """A figure with so many axes, one below the other over the same places."""
    made = Figure(figsize=(WIDTH, height))
    FigureCanvasAgg(made)
    grid = {"height_ratios": ratios} if ratios else None
    return made, made.subplots(rows, 1, sharex=True, squeeze=False, gridspec_kw=grid)[:, 0]


def styled(at: int) -> dict[str, Any]:
    """Colour, dash and mark of the line with this number."""
    turn = at % len(COLOURS)
    return {"color": COLOURS[turn], "linestyle": DASHES[turn], "marker": MARKS[turn]}


def whole(value: float, _: object = None) -> str:
    return f"{value:,.0f}"


def counted(axes: Any) -> None:
    """Numbers at the left, from 0 on; where they go over powers of ten, those."""
    low, high = axes.get_ylim()
    if high > 300:
        axes.set_yscale("symlog", linthresh=1)
        axes.yaxis.set_major_locator(SymmetricalLogLocator(base=10, linthresh=1))
    axes.set_ylim(0, high * 1.15 if high > 0 else 1)
    axes.yaxis.set_major_formatter(FuncFormatter(whole))


# ---------------------------------------------------------------- sweeps


def curves(
    rows: Any,
    across: str = "frames",
    up: str | Sequence[str] = "hard",
    by: str | Sequence[str] = (),
    *,
    policies: Sequence[str] = (),
    costs: Costs | None = None,
    title: str = "",
) -> Picture:
    """A line for each column of `up` and each value of the columns `by`, one for each policy.

    `rows` are those of a sweep: a table, or a file's name. With `costs` the height is the effective
    access time. Rows without counts are left out.
    """
    table = sweep_table(rows)
    by = [by] if isinstance(by, str) else list(by)
    if costs:
        table = table.assign(cost=costs.effective(table))
    ups = ["cost"] if costs else [up] if isinstance(up, str) else list(up)
    for name in (across, *by, *policies, *ups):
        if name not in table.columns:
            raise Mistake(f"the rows have no column {name}: {', '.join(table.columns)}")
    with matplotlib.rc_context(STYLE):
        made, (axes,) = figure()
        lines = [*lines_of(table, across, ups, by), *beside_them(table, across, policies)]
        for at, (name, xs, ys) in enumerate(lines):
            axes.plot(xs, ys, label=name, **styled(at))
        axes.set_xlabel(WORDS.get(across, across))
        axes.set_title(title)
        scale(axes, sorted(set(table[across])))
        heights(axes, ups)
        if len(lines) > 1:
            axes.legend()
    return Picture(made)


def heights(axes: Any, ups: Sequence[str]) -> None:
    """What stands at the left: times, or numbers of faults."""
    if ups == ["cost"]:
        axes.set_ylabel("effective access time")
        axes.set_ylim(bottom=0)
        axes.yaxis.set_major_formatter(FuncFormatter(lambda value, _: spelled(value)))
    else:
        axes.set_ylabel(WORDS.get(ups[0], ups[0]) if len(ups) == 1 else "")
        counted(axes)


def sweep_table(rows: Any) -> Any:
    """The rows that have counts."""
    if isinstance(rows, (str, os.PathLike)):
        try:
            rows = pandas.read_csv(rows)
        except (OSError, ValueError) as error:
            raise Mistake(f"{rows} is no table of a sweep: {error}") from error
    table = pandas.DataFrame(rows)
    if "reason" in table.columns:
        table = table[table["reason"].isna() | (table["reason"] == "")]
    if not len(table):
        raise Mistake("there is no row with counts to be drawn")
    return table


Line = tuple[str, list[float], list[float]]  # its name, and its points


def lines_of(table: Any, across: str, ups: Sequence[str], by: Sequence[str]) -> Iterator[Line]:
    """A line for each column and each value of the others, in order."""
    grouper = by[0] if len(by) == 1 else list(by)
    groups = table.groupby(grouper) if by else [((), table)]
    for values, part in groups:
        part = part.sort_values(across)
        several = values if isinstance(values, tuple) else (values,)
        named = [f"{word} {value}" for word, value in zip(by, several)]
        for up in ups:
            words = [*named, WORDS.get(up, up)] if len(ups) > 1 else named
            name = ", ".join(words) or "simulated"
            yield name, part[across].tolist(), part[up].tolist()


def beside_them(table: Any, across: str, policies: Sequence[str]) -> Iterator[Line]:
    """A line for each policy, which is the same for all machines of one size."""
    once = table.drop_duplicates(across).sort_values(across)
    for policy in policies:
        yield policy, once[across].tolist(), once[policy].tolist()


def scale(axes: Any, places: list[Any]) -> None:
    """Machines grow by factors, so numbers above 0 that do are spread by their logarithm."""
    numbers = [it for it in places if isinstance(it, (int, float)) and it > 0]
    if len(numbers) == len(places) > 2 and numbers[-1] >= 3 * numbers[0]:
        axes.set_xscale("log")
        axes.minorticks_off()
    if len(places) <= 16:
        axes.set_xticks(places, [f"{it:,}" if isinstance(it, int) else str(it) for it in places])


# ---------------------------------------------------------------- one run


def lists(run: Run, title: str = "") -> Picture:
    """Page frames by list over the lines of a run, and below them each working set."""
    counts = run.counts
    sets = [name for name in counts.columns if name.startswith("process ")]
    with matplotlib.rc_context(STYLE):
        made, axes = figure(2 if sets else 1, 5.6 if sets else HEIGHT, [3, 2] if sets else None)
        known = [name for name in LISTS if name in counts.columns]
        heights = [counts[name].to_numpy() for name in known]
        colours = [LISTS[name] for name in known]
        axes[0].stackplot(counts["line"], heights, labels=known, colors=colours, step="post")
        axes[0].set_ylabel("page frames")
        axes[0].set_title(title)
        axes[0].margins(0)
        beside(axes[0])
        for at, name in enumerate(sets):
            colour = {"color": styled(at)["color"], "linestyle": styled(at)["linestyle"]}
            heights = counts[name].astype("float64")  # nothing before the process begins
            axes[1].plot(counts["line"], heights, drawstyle="steps-post", label=name, **colour)
        if sets:
            axes[1].set_ylabel("pages")
            axes[1].set_ylim(bottom=0)
            beside(axes[1])
        axes[-1].set_xlabel("line")
    return Picture(made)


def beside(axes: Any, handles: Iterable[Any] | None = None) -> None:
    """A legend at the right of the axes."""
    more = {"handles": list(handles)} if handles is not None else {}
    axes.legend(loc="upper left", bbox_to_anchor=(1.0, 1.02), **more)


def charge(rows: Any, title: str = "") -> Picture:
    """The commit charge against its limit: of observations, or of a table with line, charge, limit.

    A run's `counts` will do, where its script asks for the charge.
    """
    table = charge_table(rows)
    with matplotlib.rc_context(STYLE):
        made, (axes,) = figure()
        line, limit = styled(0), styled(1)
        for name, look in (("charge", line), ("limit", limit)):
            colour = {"color": look["color"], "linestyle": look["linestyle"]}
            axes.plot(table["line"], table[name], drawstyle="steps-post", label=name, **colour)
        axes.fill_between(table["line"], table["charge"], step="post", color=COLOURS[0], alpha=0.15)
        axes.set_ylim(0, float(table["limit"].max()) * 1.12)
        axes.set_xlabel("line")
        axes.set_ylabel("pages")
        axes.xaxis.set_major_locator(MaxNLocator(integer=True))
        axes.set_title(title)
        beside(axes)
    return Picture(made)


def charge_table(rows: Any) -> Any:
    """Line, charge and limit from whatever has them."""
    if isinstance(rows, Run):
        rows = observe(rows.lines)
    if isinstance(rows, Observations):
        found = [(it.line, it.charged, it.limit) for it in rows.charges]
        if found:
            found.append((rows.lines, *found[-1][1:]))
        rows = pandas.DataFrame(found, columns=["line", "charge", "limit"])
    table = pandas.DataFrame(rows)
    for word in ("charge", "limit"):
        table = table.rename(columns={name: word for name in table.columns if word in name})
    if not {"line", "charge", "limit"} <= set(table.columns):
        raise Mistake("the rows have no columns line, charge and limit")
    table = table.dropna(subset=["charge", "limit"])
    if not len(table):
        raise Mistake("no line asks for the charge: `melzudek observe SCRIPT --picture` does")
    return table.astype({"charge": "int64", "limit": "int64"})


def pages(run: Run, process: int = 1, title: str = "") -> Picture:
    """The pages of a process over the lines of a run, each by its state.

    Valid; in memory, which the next touch finds by a soft fault; on disk, by a hard one; not
    touched yet. Pages that nobody committed have no row.
    """
    states = page_states(run.log, ACROSS)
    mine = states.of(process)
    if not len(mine.pages):
        raise Mistake(f"process {process} has no page in this run")
    with matplotlib.rc_context(STYLE):
        made, (axes,) = figure(height=tall(mine))
        colours = ListedColormap(["#ffffff", *(STATES[name] for name in CODES[1:])])
        strip(axes, mine, colours, len(CODES))
        axes.set_title(title)
        beside(axes, [Patch(color=colour, label=name) for name, colour in STATES.items()])
    return Picture(made)


def tall(states: States) -> float:
    """Inches for so many pages."""
    return min(9.0, max(2.6, 1.4 + 0.16 * len(states.pages)))


def strip(axes: Any, states: States, colours: Any, count: int) -> None:
    """A row for each page, a column for each place."""
    height = len(states.pages)
    axes.imshow(
        states.codes,
        cmap=colours,
        vmin=-0.5,
        vmax=count - 0.5,
        aspect="auto",
        interpolation="nearest",
        extent=(1, max(states.last, 2), height - 0.5, -0.5),
    )
    axes.grid(False)
    step = max(1, -(-height // LABELS))
    marked = list(range(0, height, step))
    axes.set_yticks(marked, [name_of(states, at) for at in marked], fontsize=8.5)
    axes.set_xlabel(states.across)
    axes.set_ylabel("page")


def name_of(states: States, at: int) -> str:
    """A page's address, behind its process where there are several."""
    pid, page = states.places[at]
    several = states.places[0][0] != states.places[-1][0]
    return f"{pid}:0x{page * 4096:X}" if several else f"0x{page * 4096:X}"


# ---------------------------------------------------------------- two runs


def comparison(two: Comparison, kinds: Sequence[str] = ("hard",)) -> Picture:
    """Cumulative faults of both runs and their difference; pages that one, the other, both hold."""
    table = two.cumulative(kinds)
    states = held_by(two)
    with matplotlib.rc_context(STYLE):
        height = 5.2 + min(3.6, 0.14 * len(states.pages))
        made, (top, middle, low) = figure(3, height, [3, 1.6, 1 + 0.1 * min(len(states.pages), 30)])
        for at, name in enumerate(("one", "other")):
            colour = list(SIDES.values())[at]
            dash = styled(at)["linestyle"]
            top.step(table.index, table[name], where="post", label=name, color=colour, ls=dash)
        top.set_ylabel(f"{' and '.join(kinds)} faults")
        top.set_ylim(bottom=0)
        beside(top)
        middle.step(table.index, table["difference"], where="post", color=COLOURS[6])
        middle.axhline(0, color="#888888", linewidth=0.8)
        middle.set_ylabel("other - one")
        colours = ListedColormap(["#ffffff", *SIDES.values()])
        strip(low, states, colours, 1 + len(SIDES))
        beside(low, [Patch(color=colour, label=name) for name, colour in SIDES.items()])
    return Picture(made)


def held_by(two: Comparison) -> States:
    """Which run has each page of any process valid: 1 only one, 2 only the other, 3 both."""
    sides = []
    last = max(int(places[-1]) for places in two.positions)
    for it, places in zip(two.runs, two.positions):
        sides.append(page_states(it.log, ACROSS, places, last))
    valid = CODES.index("valid")
    rows = sorted(set(sides[0].places) | set(sides[1].places))
    where = {place: at for at, place in enumerate(rows)}
    codes = numpy.zeros((len(rows), ACROSS), numpy.uint8)
    for weight, side in zip((1, 2), sides):
        for at, place in enumerate(side.places):
            codes[where[place]] += weight * (side.codes[at] == valid).astype(numpy.uint8)
    used = codes.any(axis=1)
    kept = [place for place, is_used in zip(rows, used) if is_used]
    return States(kept, codes[used], last, two.by)


def bars(parts: Mapping[str, Mapping[str, float]], up: str, title: str = "") -> Picture:
    """Bars side by side: for each name of `parts` its numbers by kind."""
    kinds = list(dict.fromkeys(kind for part in parts.values() for kind in part))
    with matplotlib.rc_context(STYLE):
        made, (axes,) = figure()
        width = 0.8 / max(len(kinds), 1)
        for at, kind in enumerate(kinds):
            places = [number + at * width for number in range(len(parts))]
            heights = [part.get(kind, 0) for part in parts.values()]
            drawn = axes.bar(places, heights, width * 0.9, label=kind, color=COLOURS[at])
            axes.bar_label(drawn, fmt="%d", fontsize=9)
        middle = [number + 0.4 - width / 2 for number in range(len(parts))]
        axes.set_xticks(middle, list(parts))
        axes.grid(False, axis="x")
        axes.set_ylabel(up)
        axes.set_title(title)
        beside(axes)
    return Picture(made)
