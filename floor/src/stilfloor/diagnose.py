"""Suspects of failing dies: single stuck nets, signals moved at their site, broken scan chains, or pairs of stuck nets that explain their fails."""

import json
from collections.abc import Iterator
from dataclasses import dataclass, field
from functools import cached_property
from typing import Any

from stilfloor import plans, records, saved
from stilfloor.chain_tests import breaking
from stilfloor.chains import Broken, Chains, looks_of
from stilfloor.dictionary import Dictionary, Die, Suspect, dictionary_of
from stilfloor.faults import REFUSED, Fault
from stilfloor.pairs import MOST_TOLD as MOST_PAIRS
from stilfloor.pairs import MOST_TRIED, Found, Pairing, plain

MOST_TOLD = 8


def names(members: "tuple[Suspect, ...] | list[Suspect]") -> str:
    """Suspects as they are told, at most eight of them by name."""
    more = len(members) - MOST_TOLD
    return ", ".join(map(str, members[:MOST_TOLD])) + (f" and {more} more" if more > 0 else "")


@dataclass(slots=True)
class Ranked:
    """A class of suspects that no test of the program tells apart, with its score from 0 to 1.

    Where some of them break a scan chain, which its own loads show, they are told as that; `others` are the rest.
    """

    score: float
    members: list[Suspect]
    broken: Broken | None = None
    others: list[Suspect] = field(default_factory=list)

    @property
    def name(self) -> str:
        """What the class is told by: the chain that is broken, or the names of its members."""
        if not self.broken:
            return names(self.members)
        return str(self.broken) + (f", or {names(self.others)}" if self.others else "")

    def text(self) -> str:
        """The class as it is told, with at most eight of its members by name."""
        count = len(self.members) - len(self.others)
        behind = f" ({self.broken.value} leaves it; {count} stuck {'net' if count == 1 else 'nets'})" if self.broken else ""
        return f"{self.score:.3f} {self.name}{behind}"


@dataclass(slots=True)
class Diagnosis:
    """What is found of a failing die: whether something explains its fails exactly, the best classes, and a sentence about them.

    Where no class does, `chains` are those of which but one value leaves, and `pairs` the pairs of stuck nets that explain it.
    """

    site: int
    die: str
    attempt: int
    fails: int
    exact: bool
    classes: list[Ranked]
    sentence: str
    chains: list[Broken] = field(default_factory=list)
    pairs: Found | None = None

    @property
    def explained(self) -> bool:
        """Whether something explains the fails exactly: a class, or a pair."""
        return self.exact or bool(self.pairs and self.pairs.pairs)

    def lines(self) -> list[str]:
        """What is told of it below its sentence."""
        found = self.pairs.pairs if self.pairs else []
        told = [f"{names(pair.first)} with {names(pair.second)}" for pair in found[: MOST_PAIRS]]
        if len(found) > len(told):
            told.append(f"and {len(found) - len(told)} lines more of pairs")
        return told + self.chain_lines() + [ranked.text() for ranked in self.classes]

    def chain_lines(self) -> list[str]:
        """What is told of chains where nothing explains the die."""
        return [f"{broken}: of the cells before it nothing but {broken.value} leaves the chain" for broken in self.chains]

    def text(self) -> str:
        """The lines that are printed of it."""
        head = f"site {self.site} die {self.die} try {self.attempt} fails {self.fails}: {self.sentence}"
        return "\n".join([head, *(f"  {line}" for line in self.lines())])

    def plain(self) -> dict[str, Any]:
        """The same as data for JSON."""
        classes = [_plain_class(ranked) for ranked in self.classes]
        found = {} if self.pairs is None else {"pairs": [plain(pair) for pair in self.pairs.pairs], "pairs_tried": self.pairs.tried}
        return {"site": self.site, "die": self.die, "try": self.attempt, "fails": self.fails, "explained": self.explained,
                "sentence": self.sentence, "classes": classes, "chains": [_plain_chain(broken) for broken in self.chains], **found}


def _plain_class(ranked: Ranked) -> dict[str, Any]:
    chain = {"chain": _plain_chain(ranked.broken)} if ranked.broken else {}
    return {"score": round(ranked.score, 6), "members": [_plain(member) for member in ranked.members], **chain}


def _plain_chain(broken: Broken) -> dict[str, Any]:
    return {"name": broken.chain, "at_or_before": broken.before, "value": broken.value}


def _plain(suspect: Suspect) -> dict[str, Any]:
    if not suspect.net:
        return {"kind": "none"}
    kind = "moved" if suspect.moved else "stuck"
    return {"kind": kind, "moved" if suspect.moved else "net": suspect.net, "fs" if suspect.moved else "value": suspect.value}


@dataclass(slots=True)
class SiteCount:
    """What is counted of a site: its dies, those that fail, and the ways in which these fail."""

    dies: int = 0
    failing: int = 0
    explained: int = 0
    ways: set[int] = field(default_factory=set)


# whether a class explains a die, the best classes, a sentence, the chains that are broken, and the pairs
Answer = tuple[bool, list[Ranked], str, list[Broken], Found | None]


class Doctor:
    """Diagnoses dies of a lot, with a dictionary for each kind of die that is met.

    For `most_pairs` kinds of fails pairs of stuck nets are tried, `each` of them, where no single one explains them; `left` counts the rest.
    """

    def __init__(self, program: str, plan_file: str, jobs: int = 1, most: int = 3, most_pairs: int = 0, each: int = MOST_TRIED) -> None:
        self.program = program
        self.plan = plans.read_plan(plan_file)
        self.jobs = jobs
        self.most = most
        self.most_pairs = most_pairs
        self.each = each
        self.left = 0
        self.dies = {(die.site, die.name): die for die in self.plan.dies}
        self.netlists = {die.site: die.netlist for die in reversed(self.plan.dies)}
        self.dictionaries: dict[tuple[str, tuple[tuple[str, int], ...]], tuple[Die, Dictionary]] = {}
        self.pairings: dict[int, Pairing] = {}
        self.broken: dict[tuple[int, int, Broken], list[Suspect]] = {}
        self.sites: dict[int, SiteCount] = {}
        self.notes: list[str] = []
        self.answers: dict[int, Answer] = {}
        if self.plan.kept == 0:
            raise Fault(REFUSED, "the plan keeps no fails, so there is nothing to diagnose by: raise the last number of its first row", plan_file, 1)
        if not self.dies:
            raise Fault(REFUSED, "the plan has no die", plan_file, 1)

    @cached_property
    def code(self) -> saved.Code:
        """The code of the program."""
        return saved.code_of(self.program)

    @cached_property
    def chains(self) -> Chains:
        """The scan chains of the program."""
        return Chains(looks_of(self.code))

    def dictionary(self, site: int, name: str) -> Dictionary:
        """The dictionary of a die's kind; a die that the plan doesn't have is taken for one like its first."""
        return self._kind(site, name)[1]

    def _kind(self, site: int, name: str) -> tuple[Die, Dictionary]:
        """A die's kind, and its dictionary."""
        die = self.dies.get((site, name))
        netlist = die.netlist if die else self.netlists.get(site, self.plan.dies[0].netlist)
        skews = tuple(self.plan.skews(site))
        key = (netlist, skews)
        if key not in self.dictionaries:
            kind = Die(self.program, netlist, self.plan, list(skews), self.plan.kept)
            self.dictionaries[key] = kind, dictionary_of(kind, self.jobs)
            self._note_good(self.dictionaries[key][1], site, netlist)
        return self.dictionaries[key]

    def _note_good(self, made: Dictionary, site: int, netlist: str) -> None:
        """Notes where the good die of the program fails, since then fails needn't come of a die."""
        fails = made.fails_of(Suspect())
        if fails:
            at = f" at site {site}, by its skews," if self.plan.skews(site) else ""
            self.notes.append(f"the good die of this program ({netlist}, without a stuck net) fails{at} with {fails} fails: look at the program, "
                              "its netlist and the plan first; what is said of dies is in addition to that")

    def see(self, die: records.Die) -> Diagnosis | None:
        """Counts a die, and diagnoses it by its last try where this one fails."""
        count = self.sites.setdefault(die.site, SiteCount())
        count.dies += 1
        attempt = die.tries[-1]
        if attempt.verdict.kind != "fail":
            return None
        kind, made = self._kind(die.site, die.name)
        way = hash((id(made), attempt.fails, tuple((fail.cycle, fail.signal, fail.seen) for fail in attempt.kept)))
        if way not in self.answers:
            self.answers[way] = self._answer(kind, made, attempt)
        answer = self.answers[way]
        count.failing += 1
        count.explained += answer[0]
        count.ways.add(way)
        return Diagnosis(die.site, die.name, attempt.number, attempt.fails, *answer)

    def _answer(self, kind: Die, made: Dictionary, attempt: records.Try) -> Answer:
        same = made.same(attempt)
        broken = self.chains.broken(attempt)
        if same is not None:
            ranked = self._class(kind, made, same, broken)
            return True, [ranked], _sentence(ranked), [], None
        scores = made.scores(attempt)
        best = sorted((place for place in scores.argsort()[::-1][: self.most + 1] if scores[place] > 0 and made.totals[place]),
                      key=lambda place: (-scores[place], len(made.members[place])))
        classes = [Ranked(min(float(scores[place]), 0.999), made.members[place]) for place in best[: self.most]]
        found = self._pairs(kind, made, attempt)
        return False, classes, _of_none(found, bool(classes)), broken, found

    def _class(self, kind: Die, made: Dictionary, place: int, broken: list[Broken]) -> Ranked:
        """A class that explains a die, told as a broken chain where some of its members break one."""
        ranked = Ranked(1.0, made.members[place])
        for chain in broken if len(broken) == 1 else []:
            key = (id(made), place, chain)
            if key not in self.broken:
                self.broken[key] = breaking(kind, self.code, chain, ranked.members)
            if self.broken[key]:
                ranked.broken, ranked.others = chain, [member for member in ranked.members if member not in self.broken[key]]
        return ranked

    def _pairs(self, kind: Die, made: Dictionary, attempt: records.Try) -> Found | None:
        """The pairs of stuck nets that explain a die; none where it is one too many to try."""
        if self.most_pairs == 0:
            self.left += 1
            return None
        self.most_pairs -= 1
        if id(made) not in self.pairings:
            self.pairings[id(made)] = Pairing(kind, made, self.each)
        return self.pairings[id(made)].find(attempt)

    def site_lines(self) -> Iterator[str]:
        """What is told of sites at which all dies fail alike, while they don't at others."""
        for site, count in sorted(self.sites.items()):
            others = [other for number, other in self.sites.items() if number != site and other.ways & count.ways]
            if count.dies > 1 and count.failing == count.dies and len(count.ways) == 1 and not others:
                yield f"site {site}: all {count.dies} dies fail alike, and at no other site: look at the site before its dies"


def _sentence(ranked: Ranked) -> str:
    members = ranked.members
    stuck = [member for member in members if member.net and not member.moved]
    if any(not member.net for member in members):
        return "a die without a stuck net fails like this at its site"
    if not stuck:
        return "no single stuck net explains it, and a signal moved at its site does"
    if ranked.broken:
        return "a broken scan chain explains it" + (", and so do other suspects" if ranked.others else "")
    if len(stuck) < len(members):
        return "a stuck net explains it, and so does a signal moved at its site"
    return "a stuck net explains it" if len(stuck) == 1 else f"a class of {len(stuck)} stuck nets explains it"


def _of_none(found: Found | None, is_near: bool) -> str:
    """The sentence where no class explains a die."""
    front = "no single stuck net explains it"
    if found and found.count:
        said = f"{found.count} of {found.tried} pairs of stuck nets {'does' if found.count == 1 else 'do'}"
        return f"{front}, and {said}" + ("; then come the nearest classes" if is_near else "")
    tried = f", nor does one of {found.tried} pairs" if found and found.tried else ""
    return front + tried + (", and these come nearest" if is_near else "")


def diagnose(doctor: Doctor, dies: Iterator[records.Die], site: int | None, name: str | None) -> Iterator[Diagnosis]:
    """The diagnoses of a datalog's failing dies, or of those at one site, or of one name."""
    seen = False
    for die in dies:
        if (site is None or die.site == site) and (name is None or die.name == name):
            seen = True
            diagnosis = doctor.see(die)
            if diagnosis:
                yield diagnosis
    if not seen and (site is not None or name is not None):
        raise Fault(REFUSED, "the datalog has no such die")


def as_json(diagnoses: Iterator[Diagnosis]) -> Iterator[str]:
    """A JSON list of diagnoses, piece by piece."""
    front = "["
    for diagnosis in diagnoses:
        yield front + "\n" + json.dumps(diagnosis.plain())
        front = ","
    yield ("[" if front == "[" else "\n") + "]\n"
