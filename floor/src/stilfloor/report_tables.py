"""The tables of a report: lots, bins, sites, test time, coverage, suspects over dies, and the dies that don't pass."""

from __future__ import annotations

from collections import Counter
from dataclasses import dataclass, field
from html import escape
from typing import TYPE_CHECKING

from stilfloor import drawing, failmaps, plans, records
from stilfloor.belonging import Cycles
from stilfloor.diagnose import Diagnosis, Ranked
from stilfloor.dictionary import nets_of
from stilfloor.faults import REFUSED, Fault, shown
from stilfloor.report_parts import bar, cell, folded, spread_over, table, told_class

if TYPE_CHECKING:
    from stilfloor.report import Page

MOST_SUSPECTS = 40
MOST_COLUMNS = 8
KINDS = ("pass", "fail", "stopped", "contact")


def percent(part: int, whole: int) -> str:
    """A share in percent, or nothing of nothing."""
    return f"{100 * part / whole:.1f}" if whole else "-"


@dataclass(slots=True)
class LotCount:
    """What is counted of a lot."""

    name: str
    dies: int = 0
    passing: int = 0
    first: int = 0
    failing: int = 0
    suspects: Counter[str] = field(default_factory=Counter)

    def add(self, die: records.Die) -> None:
        """Counts a die."""
        self.dies += 1
        self.passing += die.verdict.kind == "pass"
        self.first += die.tries[0].verdict.kind == "pass"


@dataclass(slots=True)
class SiteTable:
    """What is counted of a site."""

    kinds: Counter[str] = field(default_factory=Counter)
    first: int = 0
    again: int = 0

    def add(self, die: records.Die) -> None:
        """Counts a die."""
        self.kinds[die.verdict.kind] += 1
        self.first += die.tries[0].verdict.kind == "pass"
        self.again += len(die.tries) > 1


def summary(page: Page) -> str:
    """The yield, in one sentence or two."""
    count, passing = page.lot.count, page.lot.passing
    first = sum(lot.first for lot in page.lots)
    share = f"{percent(passing, count)} percent" if count else "no dies"
    names = f" <details><summary>(which)</summary>({escape('; '.join(page.recovered))})</details>" if page.recovered else ""
    return (f"<div>Yield: {passing} of {count} dies pass, {share}; in their first try {first} do, {percent(first, count)} percent, and "
            f"{passing - first} when tried again{names}. {page.failing} dies fail, "
            f"and for {page.explained} of them something explains the fails exactly.</div>")


def lots_table(lots: list[LotCount]) -> str:
    """The trend over lots, and the classes that explain most dies of them."""
    heads = [("lot", False), ("datalog", True), ("dies", False), ("fail", False), ("yield, percent", False), ("first try", False), ("most dies", True)]
    rows = []
    for number, lot in enumerate(lots, 1):
        most = lot.suspects.most_common(1)
        told = f"{most[0][1]}: {folded([shown(most[0][0])])}" if most else ""
        rows.append(cell(number) + cell(f"<code>{escape(shown(lot.name))}</code>", True) + cell(lot.dies) + cell(lot.failing)
                    + cell(percent(lot.passing, lot.dies)) + cell(percent(lot.first, lot.dies)) + cell(told, True))
    over: Counter[str] = Counter()
    for lot in lots:
        over.update(lot.suspects)
    trend = [cell(f"<code>{escape(shown(name))}</code>", True) + "".join(cell(lot.suspects[name]) for lot in lots) for name, _ in over.most_common(8)]
    titles = [("class", True), *((f"lot {number}", False) for number in range(1, len(lots) + 1))]
    classes = f"<p>Dies that a class explains, lot by lot:</p>{table(titles, trend)}" if trend else ""
    return (table(heads, rows) + '<div class="figures">' + drawing.svg_of(drawing.trend_figure([(lot.dies, lot.passing, lot.first) for lot in lots]))
            + "</div>" + classes)


def bins_table(lot: drawing.LotCounts) -> str:
    """Bins with their dies."""
    counts: Counter[int] = Counter()
    for (_, number, _), count in lot.dies.items():
        counts[number] += count
    rows = [f'<td data-value="{number}">bin {number}</td>' + cell(count) + cell(percent(count, lot.count)) for number, count in sorted(counts.items())]
    return table([("bin", False), ("dies", False), ("percent", False)], rows)


def sites_table(sites: dict[int, SiteTable]) -> str:
    """Sites with what became of their dies."""
    rows = []
    for site, counts in sorted(sites.items()):
        dies = counts.kinds.total()
        numbers = "".join(cell(number) for number in [dies, *(counts.kinds[kind] for kind in KINDS), counts.again])
        rows.append(f'<td data-value="{site}">site {site}</td>{numbers}' + cell(percent(counts.kinds["pass"], dies)) + cell(percent(counts.first, dies)))
    names = ("site", "dies", *KINDS, "tried again", "yield, percent", "first try")
    return table([(name, False) for name in names], rows, kind="sorted sites")


class Times:
    """How long dies are tested: the cycles of all their tries, and how long these take."""

    def __init__(self, cycles: Cycles | None) -> None:
        self.cycles = cycles
        self.ends: dict[int, int] = {}
        self.dies: list[tuple[int, int]] = []
        self.sites: Counter[int] = Counter()

    def add(self, die: records.Die) -> str:
        """Counts a die; its cycles and how long they take."""
        ran = [attempt.cycles for attempt in die.tries]
        for cycles in ran if self.cycles else []:
            if cycles not in self.ends and self.cycles:
                self.ends[cycles] = self.cycles.begins(cycles)
        time = sum(self.ends.get(cycles, 0) for cycles in ran)
        self.dies.append((sum(ran), time))
        self.sites[die.site] += time
        return f"{sum(ran):,} cycles" + (f", {spelled(time)}" if self.cycles else "")

    def told(self) -> str:
        """The table of cycles and times."""
        if not self.dies:
            return "<p>There is no die.</p>"
        rows = []
        for name, place in (("cycles", 0), ("time", 1)):
            values = sorted(die[place] for die in self.dies)
            if place and not self.cycles:
                continue
            middle = sum(values) / len(values)
            told = [f"{value:,.0f}" if place == 0 else spelled(value) for value in (middle, values[0], values[-1])]
            rows.append(f"<td>{name} a die</td>" + "".join(f"<td>{value}</td>" for value in told))
        site, longest = max(self.sites.items(), key=lambda entry: (entry[1], -entry[0]))
        behind = (f"<p>The dies of site {site} take longest, {spelled(longest)} together.</p>" if self.cycles else
                  "<p>The program has too many steps to say how long its cycles take.</p>")
        return (table([("", True), ("on average", False), ("least", False), ("most", False)], rows, kind="times") + behind
                + '<p class="note">All tries of a die together, each up to its end; what a tester needs between tries and dies isn\'t in it.</p>')


def spelled(time: float) -> str:
    """A time in femtoseconds by the unit that suits it."""
    for unit, size in (("s", 1e15), ("ms", 1e12), ("us", 1e9)):
        if time >= size:
            return f"{time / size:,.3f} {unit}"
    return f"{time / 1e6:,.3f} ns"


def coverage(file: str, plan: plans.Plan) -> str:
    """How many faults a grade has found, and its picture; one of other nets than the plan's first die is refused."""
    nets = set(nets_of(plan.dies[0].netlist))
    with records.grade(file) as grade:
        faults = []
        for fault in grade:
            if fault.net not in nets:
                raise Fault(REFUSED, f"this can't be a grade of the plan {plan.file}: the netlist {plan.dies[0].netlist} of its first die has no net "
                                     f"`{fault.net}`", file, grade.number)
            faults.append(fault)
        if len(faults) != 2 * len(nets):
            raise Fault(REFUSED, f"this can't be a whole grade of the plan {plan.file}: the netlist {plan.dies[0].netlist} of its first die has "
                                 f"{len(nets)} nets, and here are {len(faults)} faults", file, grade.number)
        good, found = grade.good, sum(fault.cycle is not None for fault in faults)
    wrong = "" if good is None else f'<p class="none">The good die fails from cycle {good} on, so faults are found that aren\'t there.</p>'
    return (f"{wrong}<p>{found} of {len(faults)} stuck-at faults are found by the program, {percent(found, len(faults))} percent.</p>"
            f'<div class="figures">{drawing.svg_of(drawing.grade_figure(faults, good, file))}</div>')


@dataclass(slots=True)
class Suspected:
    """The dies that something stands for, by site, and the mark of the first one on the page."""

    first: str
    sites: Counter[int] = field(default_factory=Counter)


class Suspects:
    """The classes that explain dies exactly, and the cells and outputs at which dies fail, over dies and sites."""

    def __init__(self) -> None:
        self.classes: dict[str, tuple[Ranked, Suspected]] = {}
        self.columns: dict[int, Suspected] = {}
        self.pairs = 0

    def add(self, site: int, mark: str, diagnosis: Diagnosis, columns: set[int]) -> None:
        """Counts a failing die."""
        if diagnosis.exact:
            ranked = diagnosis.classes[0]
            self.classes.setdefault(ranked.text(), (ranked, Suspected(mark)))[1].sites[site] += 1
        self.pairs += bool(diagnosis.pairs and diagnosis.pairs.pairs)
        for column in columns:
            self.columns.setdefault(column, Suspected(mark)).sites[site] += 1

    def told(self, failing: int) -> str:
        """The classes by how many dies each explains."""
        ranked = sorted(self.classes.values(), key=lambda entry: (-entry[1].sites.total(), entry[0].name))
        pairs = f" Of {self.pairs} {'die' if self.pairs == 1 else 'dies'} more only pairs of stuck nets have the very fails." if self.pairs else ""
        if not ranked:
            return f"<p>No die is explained by a class.{pairs}</p>"
        most = ranked[0][1].sites.total()
        rows = [cell(one.sites.total()) + cell(percent(one.sites.total(), failing)) + f'<td class="bars">{bar(one.sites.total(), most)}</td>'
                + cell(told_class(each), True) + cell(spread_over(one.sites), True) + f'<td class="link"><a href="#{one.first}">first die</a></td>'
                for each, one in ranked[:MOST_SUSPECTS]]
        more = f"<p>{len(ranked) - MOST_SUSPECTS} classes more explain fewer dies or as few.</p>" if len(ranked) > MOST_SUSPECTS else ""
        heads = [("dies", False), ("percent of failing", False), ("<span class=\"bars\"></span>", True), ("class", True), ("at site (dies)", True), ("", True)]
        return ('<p class="note">Classes that explain dies exactly, by how many dies each explains. Dies in one row fail alike: where they are many, '
                f"and of several sites, look at what they have in common, as the process or the design.{pairs}</p>" + table(heads, rows) + more)

    def few(self, page: Page) -> str:
        """What two dies a site or more have in common, at no more than a quarter of the sites: classes, and behind them cells and outputs."""
        sites = page.sites
        most = max(1, len(sites) // 4)
        if len(sites) < 2:
            return "<p>All dies are of one site.</p>"
        names = [failmaps.name_of(key) for key in page.gathered.axes.columns]
        classes = _few([(one, f"class {told_class(ranked)}") for ranked, one in self.classes.values()], most)
        columns = _few([(one, f"fails at <code>{escape(names[column])}</code>") for column, one in sorted(self.columns.items())], most)
        if not classes + columns:
            return f"<p>Nothing that two dies a site or more have in common stands at {most} of the {len(sites)} sites alone.</p>"
        rows = [cell(one.sites.total()) + cell(what, True)
                + cell(", ".join(f"{site} ({count} of {sites[site].kinds.total()})" for site, count in sorted(one.sites.items())), True)
                + f'<td class="link"><a href="#{one.first}">first die</a></td>' for one, what in [*classes[:MOST_SUSPECTS], *columns[:MOST_COLUMNS]]]
        left = len(classes[MOST_SUSPECTS:]), len(columns[MOST_COLUMNS:])
        more = f"<p>Left out are {left[0]} classes, and {left[1]} cells and outputs, of as many dies or fewer.</p>" if any(left) else ""
        known = " Fails behind the last kept one of a die aren't known, and don't count." if page.gathered.cut.count else ""
        return (f'<p class="note">What two dies a site or more have in common, at {most} of the {len(sites)} sites at most: classes, and behind them cells '
                f"and outputs. Where there are many dies, look at these sites; of few it may be chance.{known}</p>"
                + table([("dies", False), ("what", True), ("site (dies of all there)", True), ("", True)], rows) + more)


def _few(found: list[tuple[Suspected, str]], most: int) -> list[tuple[Suspected, str]]:
    """Those of at most so many sites, and two dies a site or more, by their number of dies."""
    few = [(one, what) for one, what in found if len(one.sites) <= most and one.sites.total() >= 2 * len(one.sites)]
    return sorted(few, key=lambda entry: -entry[0].sites.total())


def dies_table(page: Page) -> str:
    """The dies that don't pass, a row each, with what chooses among them."""
    if not page.rows:
        return ""
    choices = [("site", sorted(page.sites)), ("bin", sorted(page.bins))]
    if page.several:
        choices.insert(0, ("lot", list(range(1, len(page.lots) + 1))))
    selects = "".join(f'<label>{name} <select name="{name}"><option value="">all</option>'
                      + "".join(f'<option value="{value}">{value}</option>' for value in values) + "</select></label>" for name, values in choices)
    known = sorted(page.suspects.classes.values(), key=lambda entry: -entry[1].sites.total())[:MOST_SUSPECTS]
    words = list(dict.fromkeys(shown(str(ranked.broken or ranked.members[0])) for ranked, _ in known))
    options = "".join(f'<option value="{escape(word)}"></option>' for word in words)
    form = (f'<form id="filter" hidden>{selects}<label>suspect <input name="suspect" type="search" list="known" placeholder="a net"></label>'
            f'<datalist id="known">{options}</datalist><span id="count"></span></form>')
    heads = [("die", True), *([("lot", False)] if page.several else []), ("site", False), ("bin", False), ("tries", False), ("fails", False),
             ("what is found", True)]
    return form + table(heads, page.rows, "rows")
