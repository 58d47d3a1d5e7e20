"""Pairs of stuck nets: where no single net explains a die, dies with two of them are run, and a pair whose die has the very fails is told."""

import os
import tempfile
from collections.abc import Iterator
from dataclasses import dataclass, field
from itertools import product
from typing import Any

import numpy

from stilfloor import records, tester
from stilfloor.dictionary import Die, Dictionary, Suspect, put_files, rows_of
from stilfloor.plans import MOST_DIES, MOST_FAILS, write_rows

MOST_TRIED = 300
FEW_TRIED = 12
MOST_CLASSES = 1000
MOST_COMBINED = 400
MOST_TOLD = 10
COLUMNS = 1 << 14
Two = tuple[Suspect, Suspect]


@dataclass(slots=True, frozen=True)
class Pair:
    """Two groups of stuck nets: a die with one of each, whichever they are, has the very fails."""

    first: tuple[Suspect, ...]
    second: tuple[Suspect, ...]

    @property
    def count(self) -> int:
        """How many pairs of nets these are."""
        return len(self.first) * len(self.second)


@dataclass(slots=True)
class Found:
    """What was found of a die: the pairs that explain it, how many pairs of nets these are, and how many dies with two nets were run."""

    pairs: list[Pair] = field(default_factory=list)
    tried: int = 0

    @property
    def count(self) -> int:
        """How many pairs of nets explain it."""
        return sum(pair.count for pair in self.pairs)


class Pairing:
    """Looks for pairs in a dictionary, by so many dies each a pair of classes, those first that are likeliest."""

    def __init__(self, die: Die, made: Dictionary, most: int = MOST_TRIED) -> None:
        self.die = die
        self.made = made
        self.most = most
        self.room = tempfile.TemporaryDirectory()
        put_files(die, self.room.name)
        self.stuck = [[member for member in members if member.net and not member.moved] for members in made.members]
        self.usable = numpy.array([bool(stuck) and total > 0 for stuck, total in zip(self.stuck, made.totals)], dtype=bool)
        self.cycles = numpy.array([cycle for cycle, _, _ in made.fails], dtype=numpy.int64)

    def find(self, attempt: records.Try) -> Found:
        """The pairs whose dies have the very fails of a try."""
        near = self._nearest(attempt)
        tried = [two for two in (self._stand_in(first, second) for first, second in near) if two]
        same = [pair for pair, is_same in zip(near, self._run(tried, attempt)) if is_same]
        found = Found(tried=len(tried))
        for first, second in same[:MOST_TOLD]:
            combined = [two for two in product(self.stuck[first], self.stuck[second]) if two[0].net != two[1].net][:MOST_COMBINED]
            found.tried += len(combined)
            explaining = [two for two, is_same in zip(combined, self._run(combined, attempt)) if is_same]
            found.pairs += _grouped(explaining)
        return found

    def _stand_in(self, first: int, second: int) -> Two | None:
        """A member of each of two classes, of different nets."""
        return next((two for two in product(self.stuck[first], self.stuck[second]) if two[0].net != two[1].net), None)

    def _nearest(self, attempt: records.Try) -> list[tuple[int, int]]:
        """The pairs of classes whose fails together are most like those of a try."""
        numbers = [self.made.fails.get((fail.cycle, fail.signal, fail.seen), -1) for fail in attempt.kept]
        last = attempt.kept[-1].cycle if attempt.fails > len(attempt.kept) and attempt.kept else None
        is_own = numpy.zeros(len(self.cycles), dtype=bool)
        is_own[[number for number in numbers if number >= 0]] = True
        is_known = numpy.ones(len(self.cycles), dtype=bool) if last is None else self.cycles <= last
        hits = numpy.array([is_own[kept].sum() if usable else 0 for kept, usable in zip(self.made.kept, self.usable)])
        chosen = [int(place) for place in numpy.argsort(-hits, kind="stable")[:MOST_CLASSES] if hits[place] > 0]
        if not chosen:
            return []
        scores = _together([self.made.kept[place] for place in chosen], is_own, is_known, len(attempt.kept))
        best = numpy.argsort(-scores, axis=None, kind="stable")[: self.most]
        return [(chosen[place // len(chosen)], chosen[place % len(chosen)]) for place in best.tolist() if scores.flat[place] > 0]

    def _run(self, twos: list[Two], attempt: records.Try) -> list[bool]:
        """For each of some pairs of nets whether a die with both has the very fails of a try."""
        same: list[bool] = []
        most = min(MOST_DIES, MOST_FAILS // max(self.die.kept, 1))
        for front in range(0, len(twos), most):
            same += self._lot(twos[front : front + most], attempt)
        return same

    def _lot(self, twos: list[Two], attempt: records.Try) -> list[bool]:
        rows = rows_of(self.die)
        for number, two in enumerate(twos):
            rows.append(["die", "0", f"f{number}", "die.bench"])
            rows += [["fault", "0", f"f{number}", suspect.net, str(suspect.value)] for suspect in two]
        rows += [["skew", "0", signal, str(amount)] for signal, amount in self.die.skews]
        with open(os.path.join(self.room.name, "pairs.csv"), "w", encoding="latin-1") as out:
            out.write(write_rows(rows))
        status, output = tester.run(["lot", "program", "pairs.csv"], self.room.name)
        if status:
            return [False] * len(twos)
        dies = records.Datalog(output.decode("latin-1").splitlines(True))
        return [is_same(made.tries[0], attempt) for made in dies]


def is_same(one: records.Try, other: records.Try) -> bool:
    """Whether two tries print the same lines but for their numbers."""
    return (one.cycles, one.fails, one.kept, one.verdict) == (other.cycles, other.fails, other.kept, other.verdict)


def _together(kept: list[numpy.ndarray], is_own: numpy.ndarray, is_known: numpy.ndarray, size: int) -> numpy.ndarray:
    """For each two of some classes the fails that one of them has in common with a try, as a part of those that one of the three has.

    Fails beyond the try's are told apart by the rest of their numbers alone.
    """
    count = len(kept)
    own = numpy.zeros((count, int(is_own.sum())), dtype=numpy.float32)
    beyond = numpy.zeros((count, COLUMNS), dtype=numpy.float32)
    columns = numpy.cumsum(is_own) - 1
    for row, numbers in enumerate(kept):
        mine = is_own[numbers]
        own[row, columns[numbers[mine]]] = 1
        beyond[row, numbers[~mine & is_known[numbers]] % COLUMNS] = 1
    used = beyond.any(axis=0)
    common, extra = _either(own), _either(beyond[:, used])
    scores = common / (size + extra)
    scores[numpy.tril_indices(count, -1)] = 0
    return scores


def _either(rows: numpy.ndarray) -> numpy.ndarray:
    """For each two rows of zeros and ones how many columns one of them has."""
    sizes = rows.sum(axis=1)
    return sizes[:, None] + sizes[None, :] - rows @ rows.T


def _grouped(twos: list[Two]) -> Iterator[Pair]:
    """Pairs of nets as groups of which each with each is one of them."""
    partners: dict[Suspect, list[Suspect]] = {}
    for first, second in twos:
        partners.setdefault(first, []).append(second)
    alike: dict[tuple[Suspect, ...], list[Suspect]] = {}
    for first, seconds in partners.items():
        alike.setdefault(tuple(seconds), []).append(first)
    for seconds_alike, firsts in alike.items():
        yield Pair(tuple(firsts), seconds_alike)


def plain(pair: Pair) -> dict[str, Any]:
    """A pair as data for JSON."""
    return {name: [{"net": suspect.net, "value": suspect.value} for suspect in group]
            for name, group in (("first", pair.first), ("second", pair.second))}
