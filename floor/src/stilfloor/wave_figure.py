"""The picture of waves: a line a signal or a bus, looks as marks beside what was seen, cycles and their tables above."""

from typing import Any

from matplotlib.figure import Figure
from matplotlib.lines import Line2D

from stilfloor.faults import shown
from stilfloor.waves import LETTERS, LEVELS, WANTED, Look, Row, Seen, Trace, Waves, rows_of, value_of

NANOSECOND = 1e6
STEP = 1.5
MARKS = {"L": ("v", 0.1), "H": ("^", 0.9), "T": ("D", 0.5), "X": ("x", 0.5)}
MEANINGS = (("L", "low"), ("H", "high"), ("T", "off"), ("X", "no check"))
DRIVEN, PLAIN, HELD, FAILED, UNKNOWN, QUIET = "#0072b2", "#333333", "#009e73", "#d55e00", "#b0a0c0", "#bbbbbb"
LETTER_WIDTH = 0.09


def wave_figure(waves: Waves, title: str, seen: Seen | None = None, is_split: bool = False) -> Figure:
    """The picture; looks are triangles down (low) and up (high), diamonds (off) and crosses (no check), and bars where they are windows."""
    rows, span = rows_of(waves, is_split), max(1, len(waves.starts))
    width, height = min(4 + 0.5 * span, 40), 2.2 + 0.45 * max(1, len(rows))
    figure = Figure(figsize=(width, height), layout="constrained")
    axes = figure.subplots()
    begin = waves.starts[0] if waves.starts else 0
    # (how many nanoseconds a letter takes)
    letter = (waves.end - begin) / NANOSECOND / max(width - 1.5, 1) * LETTER_WIDTH
    for place, row in enumerate(rows):
        if len(row.signals) == 1:
            _draw_signal(axes, waves.traces[row.signals[0]], -STEP * place, (begin, waves.end))
            _draw_looks(axes, row.signals[0], waves.traces[row.signals[0]], -STEP * place, seen)
        else:
            _draw_bus(axes, row, waves, -STEP * place, letter)
            _draw_bus_looks(axes, row, waves, -STEP * place, seen)
    _draw_cycles(axes, waves, letter, -STEP * (len(rows) - 1))
    axes.set_yticks([0.5 - STEP * place for place in range(len(rows))], [shown(row.name) for row in rows])
    axes.set(xlabel="time, ns; values of buses are hexadecimal" if any(len(row.signals) > 1 for row in rows) else "time, ns", title=title,
             xlim=(begin / NANOSECOND, waves.end / NANOSECOND or 1), ylim=(-STEP * (len(rows) - 1) - 0.3, 3.0))
    axes.spines[["top", "right", "left"]].set_visible(False)
    axes.legend(handles=_legend(seen), loc="upper center", bbox_to_anchor=(0.5, -0.5 / (height - 1)), ncols=max(1, int((width - 1) / 1.5)),
                frameon=False, fontsize=8)
    return figure


def _legend(seen: Seen | None) -> list[Line2D]:
    """What marks and colours stand for."""
    marks = [Line2D([], [], linestyle="", marker=MARKS[act][0], color=QUIET if act == "X" else PLAIN, label=meaning) for act, meaning in MEANINGS]
    marks.append(Line2D([], [], color=QUIET, linewidth=6, alpha=0.5, label="driven unknown, or not yet"))
    if seen:
        marks += [Line2D([], [], linestyle="", marker="s", color=colour, label=meaning)
                  for colour, meaning in ((HELD, "held"), (FAILED, "failed: seen"), (UNKNOWN, "not run, or not known"))]
    return marks


def _draw_cycles(axes: Any, waves: Waves, letter: float, bottom: float) -> None:
    """The borders of cycles, their numbers, and their tables where these change."""
    starts = [start / NANOSECOND for start in waves.starts] + [waves.end / NANOSECOND]
    axes.vlines(starts[:-1], bottom - 0.3, 1.2, colors="#dddddd", linewidth=0.6, zorder=0)
    free = starts[0]
    for number, (start, end) in enumerate(zip(starts, starts[1:]), waves.first):
        middle, half = (start + end) / 2, letter * (len(str(number)) + 1) / 2
        if middle - half >= free:
            axes.text(middle, 1.55, str(number), ha="center", va="center", fontsize=8)
            free = middle + half
    begin = 0
    for place in range(1, len(waves.tables) + 1):
        if place == len(waves.tables) or waves.tables[place] != waves.tables[begin]:
            axes.annotate("", (starts[begin], 2.15), (starts[place], 2.15), arrowprops={"arrowstyle": "|-|", "color": QUIET, "shrinkA": 1, "shrinkB": 1})
            name = shown(waves.tables[begin])
            if letter * len(name) < starts[place] - starts[begin] or begin == 0:
                axes.text((starts[begin] + starts[place]) / 2, 2.55, name, ha="center", va="center", fontsize=8, clip_on=True)
            begin = place
    axes.text(-0.005, (1.55 - bottom + 0.3) / (3.3 - bottom), "cycle", transform=axes.transAxes, ha="right", va="center", fontsize=8, color="#666666")
    axes.text(-0.005, (2.55 - bottom + 0.3) / (3.3 - bottom), "table", transform=axes.transAxes, ha="right", va="center", fontsize=8, color="#666666")


def _draw_signal(axes: Any, trace: Trace, base: float, span: tuple[int, int]) -> None:
    """What is driven at a signal; grey where it is unknown, or nothing was driven yet."""
    if not trace.drives:
        return
    times = [at / NANOSECOND for at, _ in trace.drives] + [span[1] / NANOSECOND]
    levels = [base + LEVELS[act] for _, act in trace.drives]
    axes.step(times, [*levels, levels[-1]], where="post", color=DRIVEN, linewidth=1.2)
    unknown = [(begin, end) for begin, end, (_, act) in zip(times, times[1:], trace.drives) if act == "N"]
    if times[0] > span[0] / NANOSECOND:
        unknown.append((span[0] / NANOSECOND, times[0]))
    for begin, end in unknown:
        axes.fill_between([begin, end], base + 0.05, base + 0.95, color=QUIET, alpha=0.5, linewidth=0)


def _colour(seen: Seen | None, look: Look, signal: str) -> str:
    """The colour of a look, by whether it failed."""
    if look.act == "X":
        return QUIET
    if not seen:
        return PLAIN
    found = seen.of(look, signal)
    return HELD if not found else UNKNOWN if found == "?" else FAILED


def _draw_looks(axes: Any, signal: str, trace: Trace, base: float, seen: Seen | None) -> None:
    """The looks at a signal, and what was seen where one failed."""
    groups: dict[tuple[str, str], list[Look]] = {}
    for look in trace.looks:
        groups.setdefault((look.act, _colour(seen, look, signal)), []).append(look)
    for (act, colour), looks in groups.items():
        if act in MARKS:
            mark, level = MARKS[act]
            axes.plot([look.at / NANOSECOND for look in looks], [base + level] * len(looks), linestyle="", marker=mark, color=colour, markersize=5)
        else:
            level = {"l": 0.1, "h": 0.9, "t": 0.5}[act]
            axes.hlines([base + level] * len(looks), [look.at / NANOSECOND for look in looks], [(look.until or look.at) / NANOSECOND for look in looks],
                        colors=colour, linewidth=3)
        for look, found in [(look, seen.of(look, signal)) for look in looks] if colour == FAILED and seen else []:
            axes.text(look.at / NANOSECOND, base + 0.5, f" {found}", color=FAILED, fontsize=8, va="center", fontweight="bold")


def _draw_bus(axes: Any, row: Row, waves: Waves, base: float, letter: float) -> None:
    """What is driven at a bus, as values between the instants at which it changes."""
    traces = [waves.traces[signal] for signal in row.signals]
    times = sorted({at for trace in traces for at, _ in trace.drives})
    if not times:
        return
    begin = waves.starts[0]
    times = times if times[0] == begin else [begin, *times]
    acts = [dict(trace.drives) for trace in traces]
    current, values = ["N"] * len(traces), []
    for at in times:
        current = [found.get(at, act) for found, act in zip(acts, current)]
        values.append("".join(LETTERS[act] for act in current))
    front = 0
    for place in range(1, len(times) + 1):
        if place == len(times) or values[place] != values[front]:
            left, right = times[front] / NANOSECOND, (times[place] if place < len(times) else waves.end) / NANOSECOND
            _draw_value(axes, values[front], base, (left, right), letter)
            front = place


def _draw_value(axes: Any, letters: str, base: float, span: tuple[float, float], letter: float) -> None:
    """A value of a bus as a box, with its text where that has room."""
    left, right = span
    slope = min(letter / 2, (right - left) / 4)
    outline = [(left, base + 0.5), (left + slope, base + 0.95), (right - slope, base + 0.95), (right, base + 0.5), (right - slope, base + 0.05),
               (left + slope, base + 0.05), (left, base + 0.5)]
    axes.plot(*zip(*outline), color=DRIVEN, linewidth=1)
    if "X" in letters:
        axes.fill(*zip(*outline), color=QUIET, alpha=0.5, linewidth=0)
    text = value_of(letters) if set(letters) != {"X"} else "X"
    if letter * (len(text) + 1) < right - left:
        axes.text((left + right) / 2, base + 0.5, text, ha="center", va="center", fontsize=8, clip_on=True)


def _draw_bus_looks(axes: Any, row: Row, waves: Waves, base: float, seen: Seen | None) -> None:
    """The looks at a bus: what is wanted at each instant, and below it what was seen where a bit failed."""
    at: dict[tuple[int, int], dict[str, Look]] = {}
    for signal in row.signals:
        for look in waves.traces[signal].looks:
            at.setdefault((look.at, look.cycle), {})[signal] = look
    crosses = []
    for (time, _), looks in at.items():
        wanted = "".join(WANTED[looks[signal].act] if signal in looks else "-" for signal in row.signals)
        if set(wanted) == {"-"}:
            crosses.append(time / NANOSECOND)
            continue
        colours = {_colour(seen, look, signal) for signal, look in looks.items()}
        colour = next(one for one in (FAILED, UNKNOWN, HELD, PLAIN, QUIET) if one in colours)
        until = max((look.until or time) for look in looks.values())
        axes.plot([time / NANOSECOND, until / NANOSECOND], [base + 0.1] * 2, color=colour, linewidth=3, marker="|" if until == time else "", markersize=6)
        axes.text(time / NANOSECOND, base + 0.65, value_of(wanted), ha="center", va="center", fontsize=8, color=colour)
        if colour == FAILED and seen:
            found = "".join(_bit(seen, looks[signal], signal) if signal in looks else "-" for signal in row.signals)
            axes.text(time / NANOSECOND, base + 0.3, value_of(found), ha="center", va="center", fontsize=8, color=FAILED, fontweight="bold")
    axes.plot(crosses, [base + 0.5] * len(crosses), linestyle="", marker="x", color=QUIET, markersize=5)


def _bit(seen: Seen, look: Look, signal: str) -> str:
    """What was seen of a bit: what was wanted where its look held."""
    found = seen.of(look, signal)
    return WANTED[look.act] if not found else "-" if found == "?" else found
