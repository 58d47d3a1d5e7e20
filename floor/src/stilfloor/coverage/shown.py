"""How coverage is told: lines, tables, and a picture."""

import csv
import io
import json

from matplotlib.figure import Figure

from stilfloor.coverage.count import OPEN, REFUTED, STATES, SURE, UNKNOWN, Coverage
from stilfloor.drawing import COLOURS
from stilfloor.export import guarded
from stilfloor.faults import shown

WORDS = {SURE: "found sure", UNKNOWN: "found by an unknown alone", REFUTED: "refuted", OPEN: "open"}


def _line(title: str, counts: dict[str, int]) -> str:
    total = sum(counts.values())
    parts = ", ".join(f"{counts.get(state, 0):,} {WORDS[state]}" for state in STATES)
    rest = total - counts.get(REFUTED, 0)
    percent = 100.0 * counts.get(SURE, 0) / rest if rest else 100.0
    return f"{title} {total:,}: {parts}; {percent:.2f} percent of those that aren't refuted are found sure"


def lines_of(coverage: Coverage) -> list[str]:
    """The lines that are printed: counts of faults and of classes, and each open fault."""
    lines = [_line("faults", coverage.counts(False)), _line("classes", coverage.counts(True)), *coverage.notes]
    return lines + [f"open {shown(fault.net)} {fault.value}: {fault.why or 'no reason is known'}" for fault in coverage.faults if fault.state == OPEN]


def csv_of(coverage: Coverage) -> str:
    """A row a fault, under a heading."""
    out = io.StringIO()
    rows = csv.writer(out, lineterminator="\n")
    rows.writerow(["net", "value", "class net", "class value", "state", "cycle", "why"])
    for fault in coverage.faults:
        cycle = "" if fault.cycle is None else fault.cycle
        rows.writerow([guarded(fault.net), fault.value, guarded(fault.head[0]), fault.head[1], fault.state, cycle, fault.why])
    return out.getvalue()


def json_of(coverage: Coverage) -> str:
    """The counts, and a list of faults, one a line."""
    counts = {name: {state: coverage.counts(is_collapsed).get(state, 0) for state in STATES} for name, is_collapsed in (("faults", False), ("classes", True))}
    rows = [json.dumps({"net": fault.net, "value": fault.value, "class": list(fault.head), "state": fault.state, "cycle": fault.cycle, "why": fault.why})
            for fault in coverage.faults]
    return json.dumps({"counts": counts})[:-1] + ', "faults": [\n' + ",\n".join(rows) + "\n]}\n"


def figure_of(coverage: Coverage) -> Figure:
    """Coverage over cycles: what is found by each cycle, and what of it is sure."""
    figure = Figure(figsize=(7, 4), layout="constrained")
    axes = figure.subplots()
    last = max((fault.cycle for fault in coverage.faults if fault.cycle is not None), default=0) + 1
    for name, states, colour in (("found", (SURE, UNKNOWN), COLOURS[2]), ("found sure", (SURE,), COLOURS[3])):
        cycles = sorted(fault.cycle for fault in coverage.faults if fault.state in states and fault.cycle is not None)
        times = [0, *(cycle + 1 for cycle in cycles), last]
        percent = [100.0 * number / max(1, len(coverage.faults)) for number in [*range(len(cycles) + 1), len(cycles)]]
        axes.step(times, percent, where="post", color=colour, label=name)
    refuted = 100.0 * coverage.counts(False).get(REFUTED, 0) / max(1, len(coverage.faults))
    axes.axhline(100.0 - refuted, color=COLOURS[7], linewidth=0.8, label="all but refuted ones")
    axes.set(xlabel="cycles run", ylabel="stuck-at faults, percent", ylim=(0, 102), xlim=(0, last), title=shown(coverage.program))
    axes.legend(loc="lower right")
    axes.grid(alpha=0.3)
    return figure
