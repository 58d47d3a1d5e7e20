"""The plan of a lot, read and judged by itself (docs/formats/plan.md), and what it says of one die."""

import csv
import io
import re
from dataclasses import dataclass, field

from stilfloor.faults import REFUSED, Fault
from stilfloor.plans import MOST_DIES, MOST_FAILS, MOST_KEPT, Plan, read_rows
from stilfloor.sentences import PLAN
from stilfloor.testbench.nets import bytes_of

NAME = r"[\x21-\x7e]{1,255}"
NET = r"[\x20-\x7e]{1,1024}"
NUMBER = r"[0-9]+"
# the form of the five fields behind each kind of row
FORMS = {
    "lot": (NUMBER, NUMBER, NUMBER, "", ""),
    "clock": (NET, "", "", "", ""),
    "bind": (NET, NET, "", "", ""),
    "die": (NUMBER, NAME, NAME, "", ""),
    "fault": (NUMBER, NAME, NET, NUMBER, f"(?:{NUMBER})?"),
    "stop": (NUMBER, NAME, NUMBER, NUMBER, ""),
    "bin": (r"pass|fail|stopped|contact", f"(?:{NUMBER})?", NUMBER, "", ""),
    "skew": (NUMBER, NET, f"-?{NUMBER}", "", ""),
}
# the fields that are numbers, each with its least and its greatest
RANGES = {
    "lot": ((1, 1, 1 << 20), (2, 1, 8), (3, 0, MOST_KEPT)),
    "die": ((1, 0, 63),),
    "fault": ((1, 0, 63), (4, 0, 1), (5, 1, 8)),
    "stop": ((1, 0, 63), (3, 1, 8), (4, 0, 1 << 48)),
    "bin": ((2, 0, 63), (3, 1, 99)),
    "skew": ((1, 0, 63), (3, -(10**12), 10**12)),
}
# the fields that say what a row is about
SUBJECTS = {"lot": (), "clock": (), "bind": (1,), "die": (1, 2), "fault": (1, 2, 3), "stop": (1, 2, 3), "bin": (1, 2), "skew": (1, 2)}
BINS = {"pass": 1, "fail": 2, "stopped": 3, "contact": 4}
MOST_DIGITS = 20


@dataclass(slots=True)
class Die:
    """What a plan says of one die: its site, its name, its netlist's file, its stuck nets (net, value, tries), and the batches before
    which its tries are stopped."""

    site: int
    name: str
    file: str
    faults: list[tuple[str, int, int]] = field(default_factory=list)
    stops: dict[int, int] = field(default_factory=dict)


@dataclass(slots=True)
class Lot:
    """A plan that has no fault of its own: its numbers, its clock, binds (None for a signal that is left free), dies, bins and skews."""

    plan: Plan
    batch: int = 1
    tries: int = 1
    keep: int = 0
    clock: str | None = None
    binds: dict[str, str | None] = field(default_factory=dict)
    dies: dict[tuple[int, str], Die] = field(default_factory=dict)
    bins: dict[tuple[str, int], int] = field(default_factory=dict)
    skews: dict[int, dict[str, int]] = field(default_factory=dict)

    def bin_of(self, ending: str, executive: int = 0) -> int:
        """The bin of a die whose last try ended so."""
        return self.bins.get((ending, executive), BINS[ending])

    def refused(self, kind: str, row: int) -> Fault:
        """The refusal of a row, counted from 1."""
        return Fault(REFUSED, f"{PLAN[kind]} ({kind})", self.plan.file, self.plan.lines[row - 1] if self.plan.lines else 1)


def read_lot(file: str) -> Lot:
    """The plan of a file, or its first refusal in the program's order."""
    text = bytes_of(file).removeprefix(b"\xef\xbb\xbf").decode("latin-1")
    lot = Lot(read_rows(text, file))
    seen: set[tuple[str, ...]] = set()
    for number, row in enumerate(lot.plan.rows, 1):
        subject = _judged(lot, row, number)
        if subject in seen:
            raise lot.refused("Twice", number)
        seen.add(subject)
        _put(lot, row)
    if not lot.plan.rows:
        raise lot.refused("Shape", 1)
    return lot


def _judged(lot: Lot, row: list[str], number: int) -> tuple[str, ...]:
    """What a row is about, behind its form, its ranges and its names."""
    if not _has_form(row) or (row[0] == "lot") != (number == 1):
        raise lot.refused("Shape", number)
    fits = all(row[place] == "" or _is_within(row[place], least, most) for place, least, most in RANGES.get(row[0], ()))
    if not fits or row[0] == "die" and not _fits_die(lot):
        raise lot.refused("OutOfRange", number)
    known = {"fault": lambda: (int(row[1]), row[2]) in lot.dies, "stop": lambda: (int(row[1]), row[2]) in lot.dies,
             "skew": lambda: any(site == int(row[1]) for site, _ in lot.dies)}
    if row[0] in known and not known[row[0]]():
        raise lot.refused("UnknownName", number)
    places = [place for place, _, _ in RANGES.get(row[0], ())]
    return (row[0], *(str(int(row[place])) if place in places and row[place] else row[place] for place in SUBJECTS[row[0]]))


def _has_form(row: list[str]) -> bool:
    """Whether a row has the form of its kind."""
    forms = FORMS.get(row[0])
    if len(row) != 6 or not forms or not all(re.fullmatch(form, text) for form, text in zip(forms, row[1:])):
        return False
    return row[0] != "bin" or (row[2] != "") == (row[1] == "fail")


def _is_within(text: str, least: int, most: int) -> bool:
    return len(text.removeprefix("-")) <= MOST_DIGITS and least <= int(text) <= most


def _fits_die(lot: Lot) -> bool:
    """Whether one more die is within the limits."""
    return len(lot.dies) < MOST_DIES and (len(lot.dies) + 1) * lot.tries * lot.keep <= MOST_FAILS


def _put(lot: Lot, row: list[str]) -> None:
    """Adds what a judged row says."""
    match row:
        case "lot", batch, tries, keep, _, _:
            lot.batch, lot.tries, lot.keep = int(batch), int(tries), int(keep)
        case "clock", signal, _, _, _, _:
            lot.clock = signal
        case "bind", signal, net, _, _, _:
            lot.binds[signal] = None if net == "-" else net
        case "die", site, name, file, _, _:
            lot.dies[int(site), name] = Die(int(site), name, file)
        case "fault", site, name, net, value, tries:
            lot.dies[int(site), name].faults.append((net, int(value), int(tries or lot.tries)))
        case "stop", site, name, number, batch, _:
            lot.dies[int(site), name].stops[int(number)] = int(batch)
        case "bin", ending, executive, number, _, _:
            lot.bins[ending, int(executive or 0)] = int(number)
        case "skew", site, signal, amount, _, _:
            lot.skews.setdefault(int(site), {})[signal] = int(amount)


def choose(lot: Lot, site: int | None, name: str | None) -> Die:
    """The first die of the plan at this site and of this name, where they are given."""
    for die in lot.dies.values():
        if site in (None, die.site) and name in (None, die.name):
            return die
    wanted = (f" `{name}`" if name is not None else "") + (f" at site {site}" if site is not None else "")
    raise Fault(REFUSED, f"the plan has no die{wanted}", lot.plan.file)


def rows_of(lot: Lot, die: Die, netlist: str) -> list[list[str]]:
    """The rows of a plan of this one die, at site 0 and with its netlist in this file: its own, and those that name no site."""
    kept: list[list[str]] = []
    for row in lot.plan.rows:
        if row[0] in ("lot", "clock", "bind", "bin"):
            kept.append(row)
        elif int(row[1]) == die.site and (row[0] == "skew" or row[2] == die.name):
            kept.append([row[0], "0", *([row[2], netlist, "", ""] if row[0] == "die" else row[2:])])
    return kept


def printable(rows: list[list[str]]) -> str:
    """The text of these rows."""
    out = io.StringIO()
    csv.writer(out, lineterminator="\n").writerows(rows)
    return out.getvalue()
