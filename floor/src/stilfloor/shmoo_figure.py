"""The picture of a shmoo: passing dies over periods and strobes."""

from typing import Any

import numpy
from matplotlib.colors import ListedColormap
from matplotlib.figure import Figure
from matplotlib.patches import Patch

from stilfloor.faults import shown
from stilfloor.shmoo import Cell, Shmoo

NANOSECOND = 10**6
NONE, SOME, ALL, BROKEN = range(4)
COLOURS = ("#d55e00", "#f0e442", "#009e73", "#dddddd")
NAMES = ("no die passes", "some dies pass: how many", "all dies pass", "times out of their cycle, order or range")
MOST_TICKS = 24


def kind_of(cell: Cell) -> int:
    """Which colour a cell has."""
    if cell.broken:
        return BROKEN
    return ALL if cell.passing == cell.dies else SOME if cell.passing else NONE


def shmoo_figure(shmoo: Shmoo, title: str) -> Figure:
    """The picture; a cross stands at the text's own times."""
    rows, columns = len(shmoo.strobes), len(shmoo.periods)
    figure = Figure(figsize=(max(6.5, 2 + 0.3 * columns), max(2.9, 2.2 + 0.3 * rows)), layout="constrained")
    axes = figure.subplots()
    kinds = numpy.array([[kind_of(cell) for cell in row] for row in shmoo.cells])
    axes.imshow(kinds, origin="lower", aspect="auto", cmap=ListedColormap(COLOURS), vmin=0, vmax=len(COLOURS) - 1, interpolation="nearest")
    for row, column in zip(*numpy.nonzero(kinds == SOME)):
        axes.text(column, row, str(shmoo.cells[row][column].passing), ha="center", va="center", fontsize=8)
    _label(axes, "x", shmoo.periods, f"period of the table {shown(shmoo.timing.table)}, ns")
    _label(axes, "y", shmoo.strobes, f"first look of the table {shown(shmoo.timing.looking)}, ns")
    axes.set_xticks(numpy.arange(columns + 1) - 0.5, minor=True)
    axes.set_yticks(numpy.arange(rows + 1) - 0.5, minor=True)
    axes.grid(which="minor", color="white", linewidth=0.8)
    axes.tick_params(which="minor", length=0)
    own = _own(shmoo)
    if own:
        axes.plot(*own, linestyle="", marker="x", color="black", markersize=9, markeredgewidth=2, label="the text's own times")
    figure.suptitle(title, fontsize=9)
    handles: list[Any] = [Patch(facecolor=COLOURS[kind], label=NAMES[kind]) for kind in sorted(set(kinds.flat))]
    axes.legend(handles=[*handles, *axes.get_legend_handles_labels()[0]], loc="upper left", bbox_to_anchor=(1, 1), frameon=False, fontsize=8)
    return figure


def _label(axes: Any, side: str, values: list[int | None], name: str) -> None:
    """Names an axis and its steps."""
    if values == [None]:
        getattr(axes, f"set_{side}ticks")([0], ["as in the text"])
        return
    every = range(0, len(values), -(-len(values) // MOST_TICKS))
    getattr(axes, f"set_{side}ticks")(list(every), [f"{(values[place] or 0) / NANOSECOND:g}" for place in every], **({"rotation": 90} if side == "x" else {}))
    getattr(axes, f"set_{side}label")(name)


def _own(shmoo: Shmoo) -> tuple[float, float] | None:
    """Where the text's own times lie in the picture, if they do."""
    places = []
    for values, own in ((shmoo.periods, shmoo.timing.period), (shmoo.strobes, shmoo.timing.strobe)):
        steps = [value for value in values if value is not None]
        if not steps or own is None:
            places.append(0.0)
            continue
        step = steps[1] - steps[0] if len(steps) > 1 else 1
        place = float((own - steps[0]) / step)
        if not 0 <= place <= len(steps) - 1:
            return None
        places.append(place)
    return places[0], places[1]
