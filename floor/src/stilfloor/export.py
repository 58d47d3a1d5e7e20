"""Datalogs as tables for other tools. Times are in femtoseconds."""

import csv
import json
from collections.abc import Iterable, Iterator
from dataclasses import fields
from typing import IO, Any

from stilfloor.records import Die, Fail

COLUMNS = {
    "fails": ("site", "die", "try", "cycle", "at", "signal", "want", "seen", "chain", "cell"),
    "tries": ("site", "die", "try", "cycles", "fails", "kept", "verdict", "executive", "batch", "by", "word", "at"),
    "dies": ("site", "die", "bin", "tries", "verdict", "fails"),
}

FAIL = [part.name for part in fields(Fail)]


# what a spreadsheet runs, and the sign that keeps it from doing so
RUN = ("=", "+", "-", "@", "\t", "\r", "'")


def guarded(name: str | None) -> str | None:
    """A name as a spreadsheet takes it for one: with ' in front where it would run it, and where it begins with ' itself."""
    return "'" + name if name and name.startswith(RUN) else name


def rows_of(die: Die, table: str) -> Iterator[tuple[Any, ...]]:
    """The rows of a die in one of the tables."""
    if table == "dies":
        yield (die.site, guarded(die.name), die.bin, len(die.tries), die.verdict.kind, die.tries[-1].fails)
        return
    for attempt in die.tries:
        if table == "tries":
            end = attempt.verdict
            yield (die.site, guarded(die.name), attempt.number, attempt.cycles, attempt.fails, len(attempt.kept), end.kind, end.executive, end.batch,
                   end.by, end.word, end.at)
            continue
        for fail in attempt.kept:
            yield (die.site, guarded(die.name), attempt.number, fail.cycle, fail.at, guarded(fail.signal), fail.want, fail.seen,
                   guarded(fail.chain), guarded(fail.cell))


def write_csv(dies: Iterable[Die], out: IO[str], table: str) -> None:
    """One table, with a heading; what isn't there is empty."""
    writer = csv.writer(out, lineterminator="\n")
    writer.writerow(COLUMNS[table])
    for die in dies:
        writer.writerows(rows_of(die, table))


def plain(die: Die) -> dict[str, Any]:
    """A die as data, with its tries and their fails; what isn't there is left out."""
    tries = []
    for attempt in die.tries:
        end = attempt.verdict
        verdict = {"kind": end.kind, "executive": end.executive, "batch": end.batch, "by": end.by, "word": end.word, "at": end.at}
        fails = [{name: value for name in FAIL if (value := getattr(fail, name)) is not None} for fail in attempt.kept]
        tries.append({"try": attempt.number, "cycles": attempt.cycles, "fails": attempt.fails,
                      "verdict": {name: value for name, value in verdict.items() if value is not None}, "kept": fails})
    return {"site": die.site, "die": die.name, "bin": die.bin, "tries": tries}


def write_json(dies: Iterable[Die], out: IO[str]) -> None:
    """A list of dies, one a line."""
    front = "[\n"
    for die in dies:
        out.write(front + json.dumps(plain(die)))
        front = ",\n"
    out.write("[]\n" if front == "[\n" else "\n]\n")
