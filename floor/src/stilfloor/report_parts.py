"""Pieces of a report's page: tables, names that unfold, and what a page is made of."""

import base64
import datetime
import hashlib
import json
import os
from collections.abc import Iterable
from html import escape

import numpy

from stilfloor import __version__, drawing, failmaps
from stilfloor.diagnose import MOST_TOLD, Diagnosis, Ranked
from stilfloor.dictionary import Suspect
from stilfloor.faults import shown
from stilfloor.pairs import MOST_TOLD as MOST_PAIRS

# of how many chains, and outputs, the borders are drawn over a small map at most
MOST_RUNS = 40
# the heading of a table's column, and whether it is a text
Head = tuple[str, bool]


def cell(value: "int | float | str", is_text: bool = False) -> str:
    """A cell of a table; a text is markup already."""
    if is_text:
        return f'<td class="left">{value}</td>'
    return f'<td data-value="{value}">{value}</td>' if isinstance(value, (int, float)) else f"<td>{value}</td>"


def table(heads: Iterable[Head], rows: Iterable[str], name: str = "", kind: str = "sorted") -> str:
    """A table of rows, each its cells, that can be sorted."""
    titles = "".join(f'<th{" class=" + chr(34) + "left" + chr(34) if is_text else ""}>{title}</th>' for title, is_text in heads)
    body = "".join(row if row.startswith("<tr") else f"<tr>{row}</tr>" for row in rows)
    return f'<table class="{kind}"><thead><tr>{titles}</tr></thead><tbody{f" id={chr(34)}{name}{chr(34)}" if name else ""}>{body}</tbody></table>'


def folded(names: list[str], most: int = MOST_TOLD) -> str:
    """Names, of which those behind the first ones unfold."""
    first, rest = [escape(name) for name in names[:most]], [escape(name) for name in names[most:]]
    more = f" <details><summary>and {len(rest)} more</summary>, {', '.join(rest)}</details>" if rest else ""
    return f"<code>{', '.join(first)}{more}</code>"


def members(group: "Iterable[Suspect]") -> str:
    """Suspects by their names."""
    return folded([shown(str(suspect)) for suspect in group])


def told_class(ranked: Ranked) -> str:
    """A class of suspects: the chain that is broken with its nets behind it, or its members."""
    if not ranked.broken:
        return members(ranked.members)
    broken = [member for member in ranked.members if member not in ranked.others]
    others = f", or {members(ranked.others)}" if ranked.others else ""
    nets = f"{len(broken)} stuck {'net' if len(broken) == 1 else 'nets'}"
    return (f"<code>{escape(shown(str(ranked.broken)))}</code> <details><summary>{ranked.broken.value} leaves it: {nets}</summary>"
            f"{members(broken)}</details>{others}")


def told_lines(diagnosis: Diagnosis) -> list[str]:
    """What is found of a die, a line each."""
    found = diagnosis.pairs.pairs if diagnosis.pairs else []
    lines = [f"{members(pair.first)} with {members(pair.second)}" for pair in found[:MOST_PAIRS]]
    if len(found) > MOST_PAIRS:
        lines.append(f"and {len(found) - MOST_PAIRS} lines more of pairs")
    return [*lines, *(escape(shown(line)) for line in diagnosis.chain_lines()),
            *(f"<code>{ranked.score:.3f}</code> {told_class(ranked)}" for ranked in diagnosis.classes)]


def made_of(files: list[tuple[str, str]]) -> str:
    """What a page is made of: its files, each by what it is and its name, with the fronts of their sums, the date and the version."""
    rows = []
    for what, file in files:
        total = ""
        if os.path.isfile(file):
            with open(file, "rb") as stream:
                total = hashlib.file_digest(stream, "sha256").hexdigest()[:16]
        rows.append(f'<td>{what}</td><td class="left"><code>{escape(shown(file))}</code></td><td class="left"><code>{total}</code></td>')
    when = datetime.datetime.now(datetime.timezone.utc).strftime("%Y-%m-%d %H:%M UTC")
    return table([("", True), ("file", True), ("SHA-256 begins", True)], rows, kind="made") + (
        f'<p class="note">Made on {when} by stilfloor {__version__}.</p>')


def spread_over(counts: "dict[int, int]", most: int = 16) -> str:
    """Sites with how many dies each, as `0 (3), 2 (1)`."""
    told = [f"{site} ({count})" for site, count in sorted(counts.items())]
    return ", ".join(told[:most]) + (f" <details><summary>and {len(told) - most} more</summary>, {', '.join(told[most:])}</details>" if told[most:] else "")


def bar(count: int, most: int) -> str:
    """A bar as long as a count is beside the most."""
    return f'<span class="bar" style="width:{8 * count / max(most, 1):.2f}rem"></span>'


def axes_data(gathered: failmaps.Gathered) -> str:
    """The element from which the script reads what columns and rows of maps are."""
    columns = [failmaps.name_of(key) for key in gathered.axes.columns]
    data = {"columns": columns, "rows": gathered.rows(), "row": "load" if gathered.axes.by_load else "cycle",
            "down": -(-gathered.rows() // failmaps.MOST_ROWS) or 1, "right": -(-len(columns) // failmaps.MOST_COLUMNS) or 1}
    return f'<div id="axes" hidden data-axes="{escape(json.dumps(data))}"></div>'


def borders(gathered: failmaps.Gathered) -> str:
    """The rule that draws the borders of chains over each small map."""
    count, runs = len(gathered.axes.columns), gathered.chains()
    ends = [100 * begin / count for _, begin, _ in runs[1:]] if len(runs) <= MOST_RUNS else []
    lines = ", ".join(f"linear-gradient(to right, transparent calc({end:.3f}% - .5px), #56b4e9 calc({end:.3f}% - .5px), #56b4e9 calc({end:.3f}% + .5px), "
                      f"transparent calc({end:.3f}% + .5px))" for end in ends)
    return f"<style>.framed::after {{ background: {lines}; }}</style>" if lines else ""


def whole_map(gathered: failmaps.Gathered) -> str:
    """The map of all fails, with how many dies fail at each place for the script."""
    figure = drawing.map_figure(gathered, "dies that fail at each place")
    picture = drawing.svg_of(figure)
    counts = gathered.matrix()
    grid = {"down": gathered.down, "right": gathered.right, "width": counts.shape[1], "height": counts.shape[0],
            "unit": ", once for each place" if gathered.is_sum else ""}
    dies = base64.b64encode(numpy.minimum(counts, 65535).astype("<u2").tobytes()).decode()
    return (f'<div class="all" id="all" data-box="{escape(json.dumps(drawing.box_of(figure)))}" data-grid="{escape(json.dumps(grid))}" '
            f'data-dies="{dies}">{picture}</div>')
