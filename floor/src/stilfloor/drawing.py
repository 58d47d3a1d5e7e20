"""Pictures of what the program prints, as figures of matplotlib."""

import io
import warnings
from collections import Counter
from collections.abc import Iterable
from dataclasses import dataclass, field
from typing import IO, Any

import matplotlib
import numpy
from matplotlib.figure import Figure
from matplotlib.patches import Patch
from matplotlib.ticker import MaxNLocator

from stilfloor import records
from stilfloor.failmaps import Gathered, name_of
from stilfloor.faults import UNREADABLE, Fault, shown
from stilfloor.names import replacing

# a name with dollars is a name, and no formula
matplotlib.rcParams["text.parse_math"] = False

# colours that a colour-blind reader tells apart (the first seven by Okabe and Ito)
COLOURS = ("#009e73", "#d55e00", "#e69f00", "#0072b2", "#cc79a7", "#56b4e9", "#f0e442", "#444444")
FORMATS = ("png", "svg", "pdf")
MOST_BORDERS = 256
MOST_NAMED = 24


def store(figure: Figure, path: str) -> None:
    """Writes a figure; the file's ending says whether as PNG, SVG or PDF."""
    kind = path.rsplit(".", 1)[-1].lower()
    if kind not in FORMATS:
        raise Fault(UNREADABLE, "a picture's file ends with .png, .svg or .pdf", path)
    out = io.BytesIO()
    _draw_into(figure, out, kind)
    with replacing(path, None) as file:
        file.write(out.getvalue())


def _draw_into(figure: Figure, out: IO, kind: str) -> None:
    """Draws a figure; a character that the font lacks is drawn as a box, which isn't told."""
    with warnings.catch_warnings():
        warnings.filterwarnings("ignore", "Glyph .* missing", UserWarning)
        figure.savefig(out, format=kind, dpi=120)


def box_of(figure: Figure) -> list[float]:
    """Where the first picture of a figure that was drawn lies: its left, top, right and bottom edge as parts of the figure's size."""
    box = figure.axes[0].get_position()
    return [round(edge, 5) for edge in (box.x0, 1 - box.y1, box.x1, 1 - box.y0)]


def svg_of(figure: Figure) -> str:
    """A figure as an SVG element that can stand in a page."""
    out = io.StringIO()
    _draw_into(figure, out, "svg")
    text = out.getvalue()
    return text[text.index("<svg"):]


@dataclass(slots=True)
class LotCounts:
    """The dies of a lot by site, bin, and whether they were tried again."""

    dies: "Counter[tuple[int, int, bool]]" = field(default_factory=Counter)
    passing: int = 0

    def add(self, die: records.Die) -> None:
        """Counts a die."""
        self.dies[die.site, die.bin, len(die.tries) > 1] += 1
        self.passing += die.verdict.kind == "pass"

    @property
    def count(self) -> int:
        """How many dies there are."""
        return sum(self.dies.values())

    @property
    def sites(self) -> list[int]:
        """The sites, rising."""
        return sorted({site for site, _, _ in self.dies})

    @property
    def bins(self) -> list[int]:
        """The bins, rising."""
        return sorted({number for _, number, _ in self.dies})


def colour(number: int) -> str:
    """The colour of a bin."""
    return COLOURS[(number - 1) % len(COLOURS)]


def lot_figure(lot: LotCounts) -> Figure:
    """Bins over sites; dies that were tried again are hatched."""
    figure = Figure(figsize=(max(5.0, 1.5 + 0.55 * len(lot.sites)), 3.6), layout="constrained")
    axes = figure.subplots()
    bottoms = dict.fromkeys(lot.sites, 0)
    for number in lot.bins:
        for again in (False, True):
            heights = [lot.dies[site, number, again] for site in lot.sites]
            if any(heights):
                axes.bar(lot.sites, heights, bottom=list(bottoms.values()), color=colour(number), hatch="///" if again else None,
                         edgecolor="white", width=0.8)
                bottoms = {site: below + height for (site, below), height in zip(bottoms.items(), heights)}
    handles = [Patch(facecolor=colour(number), label=f"bin {number}") for number in lot.bins]
    if any(again for _, _, again in lot.dies):
        handles.append(Patch(facecolor="#cccccc", hatch="///", edgecolor="white", label="tried again"))
    axes.set(xlabel="site", ylabel="dies", xticks=lot.sites, title=f"{lot.passing} of {lot.count} dies pass")
    axes.yaxis.set_major_locator(MaxNLocator(integer=True))
    if handles:
        axes.legend(handles=handles, loc="upper left", bbox_to_anchor=(1, 1), frameon=False)
    return figure


def pareto_on(axes: Any, gathered: Gathered, most: int) -> None:
    """Draws the columns at which most dies fail, as far as that is known."""
    bars, basis = gathered.pareto(most), gathered.ranked()[1]
    names, counts = [name for name, _ in bars][::-1], [count for _, count in bars][::-1]
    axes.barh(range(len(names)), counts, color=COLOURS[1])
    axes.set_yticks(range(len(names)), names)
    axes.set(xlabel="dies that fail there")
    axes.set_title("failing cells and outputs" + (f"\nby {basis}" if basis else ""), fontsize=9 if basis else None)
    axes.xaxis.set_major_locator(MaxNLocator(integer=True))
    axes.tick_params(axis="y", labelsize=8)


def pareto_figure(gathered: Gathered, most: int = 20) -> Figure:
    """The Pareto of failing cells and outputs."""
    bars = gathered.pareto(most)
    figure = Figure(figsize=(6, max(2.0, 0.7 + 0.22 * len(bars))), layout="constrained")
    pareto_on(figure.subplots(), gathered, most)
    return figure


def map_on(figure: Figure, axes: Any, gathered: Gathered, title: str) -> None:
    """Draws a fail map: white where no die fails."""
    cells = gathered.matrix()
    box = (-0.5, cells.shape[1] * gathered.right - 0.5, cells.shape[0] * gathered.down - 0.5, -0.5)
    shown_map = axes.imshow(numpy.ma.masked_equal(cells, 0), aspect="auto", interpolation="nearest", cmap="magma_r", vmin=0,
                            vmax=max(cells.max(), 1), extent=box)
    figure.colorbar(shown_map, ax=axes, label="dies, once for each place" if gathered.is_sum else "dies", ticks=MaxNLocator(integer=True))
    axes.set(xlabel="scan cell or output", ylabel="load" if gathered.axes.by_load else "cycle")
    if gathered.cut.count:
        title += f"\ngrey: behind the last kept fail of {gathered.cut.count} of {gathered.failing} failing dies"
        grey_on(axes, gathered, box)
    axes.set_title(title)
    axes.yaxis.set_major_locator(MaxNLocator(integer=True))
    names_on(axes, gathered)


def names_on(axes: Any, gathered: Gathered) -> None:
    """Writes the names of a map's columns, or those of its chains between their borders where there are more than 64 columns."""
    names, runs = [name_of(key) for key in gathered.axes.columns], gathered.chains()
    for _, begin, _ in runs[1:] if len(names) <= 64 or len(runs) <= MOST_BORDERS else []:
        axes.axvline(begin - 0.5, color=COLOURS[5], linewidth=0.8)
    if len(names) <= 64:
        axes.set_xticks(range(len(names)), names, rotation=90, fontsize=7)
        return
    told = runs[:: -(-len(runs) // MOST_NAMED)]
    axes.set_xticks([(begin + end - 1) / 2 for _, begin, end in told], [shown(chain) if chain else "outputs" for chain, _, _ in told],
                    rotation=90 if len(told) > 6 else 0, fontsize=8)


def grey_on(axes: Any, gathered: Gathered, box: tuple[float, float, float, float]) -> None:
    """Greys the rows behind the last kept fails, the more the more dies are cut off before them."""
    bands = min(gathered.rows(), 1024)
    unknown = gathered.unknown(bands)
    colours = numpy.full((bands, 1, 4), 0.45)
    colours[:, 0, 3] = numpy.where(unknown > 0, 0.15 + 0.55 * unknown, 0)
    axes.imshow(colours, aspect="auto", interpolation="nearest", zorder=0, extent=(*box[:2], gathered.rows() - 0.5, -0.5))
    axes.set_ylim(box[2], box[3])


def trend_figure(lots: list[tuple[int, int, int]]) -> Figure:
    """The yields of lots in their order, each by its dies, those that pass, and those that pass in their first try."""
    figure = Figure(figsize=(max(5.0, 1.5 + 0.4 * len(lots)), 3.2), layout="constrained")
    axes = figure.subplots()
    numbers = range(1, len(lots) + 1)
    for place, label, mark in ((1, "pass", "o"), (2, "pass in their first try", "^")):
        axes.plot(numbers, [100 * lot[place] / max(lot[0], 1) for lot in lots], marker=mark, color=COLOURS[3 if place == 1 else 1], label=label)
    axes.set(xlabel="lot", ylabel="dies, percent", title="yield over lots", ylim=(0, 102))
    axes.xaxis.set_major_locator(MaxNLocator(integer=True))
    axes.grid(alpha=0.3)
    axes.legend(frameon=False)
    return figure


def map_figure(gathered: Gathered, title: str) -> Figure:
    """A fail map alone."""
    figure = Figure(figsize=(10, 4.5), layout="constrained")
    map_on(figure, figure.subplots(), gathered, title)
    return figure


def fails_figure(gathered: Gathered, title: str) -> Figure:
    """A fail map beside the Pareto of its columns."""
    figure = Figure(figsize=(12, 5), layout="constrained")
    left, right = figure.subplots(1, 2, width_ratios=(3, 2))
    map_on(figure, left, gathered, title)
    pareto_on(right, gathered, 20)
    return figure


def grade_figure(faults: Iterable[records.StuckNet], good: int | None, name: str) -> Figure:
    """Coverage over cycles: how many of the stuck-at faults are found up to each cycle, in percent."""
    count = 0
    firsts: Counter[int] = Counter()
    for fault in faults:
        count += 1
        if fault.cycle is not None:
            firsts[fault.cycle] += 1
    cycles, found, total = [0], [0.0], 0
    for cycle in sorted(firsts):
        total += firsts[cycle]
        cycles.append(cycle + 1)
        found.append(100.0 * total / count)
    front = "" if good is None else f"the good die fails from cycle {good} on, so faults are found that aren't there\n"
    figure = Figure(figsize=(7, 4), layout="constrained")
    axes = figure.subplots()
    axes.step(cycles, found, where="post", color=COLOURS[3])
    axes.fill_between(cycles, found, step="post", color=COLOURS[3], alpha=0.2)
    axes.set(xlabel="cycles run", ylabel="stuck-at faults found, percent", ylim=(0, 100), xlim=(0, max(cycles) or 1),
             title=front + f"{shown(name)}: {total} of {count} faults found")
    axes.grid(alpha=0.3)
    return figure
