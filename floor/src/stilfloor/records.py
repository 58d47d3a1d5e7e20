"""Readers of what the program prints: datalogs, grades and events.

Each reads line by line, so that a text of any length goes in the memory of its largest part: a die with its tries, a cycle with its
moments. Times are in femtoseconds, cycles are counted from 0. A text that isn't of its form raises `Fault` with its file and line.
"""

import re
import sys
from collections.abc import Iterable, Iterator
from contextlib import contextmanager
from dataclasses import dataclass, field
from typing import IO

from stilfloor.faults import UNREADABLE, Fault

WORD = re.compile(r'"[^"]*"|\S+')
WANTS = ("L", "H", "T", "l", "h", "t")
LEVELS = ("0", "1", "X", "Z")
ACTION = re.compile(r'("[^"]*"|\S+?)([=?])(\w)(?: |$)')


@dataclass(slots=True)
class Fail:
    """A look that failed: its cycle in the try, its time, what was wanted and what was seen, and the scan cell if it has one."""

    cycle: int
    at: int
    signal: str
    want: str
    seen: str
    chain: str | None = None
    cell: str | None = None


@dataclass(slots=True)
class Verdict:
    """How a try ended: `kind` is pass, fail, stopped or contact.

    `executive` is that of a fail, `batch` and `by` (plan or desk) and `word` (the desk's number) those of a stop, `at` the time of
    a lost contact.
    """

    kind: str
    executive: int | None = None
    batch: int | None = None
    by: str | None = None
    word: int | None = None
    at: int | None = None

    def __str__(self) -> str:
        parts = (self.kind, self.executive, self.batch, self.by, self.word, self.at)
        return " ".join(str(part) for part in parts if part is not None)


@dataclass(slots=True)
class Try:
    """A try: its number from 1, the cycles that it finished, how many looks failed, and the fails that were kept."""

    number: int
    cycles: int
    fails: int
    kept: list[Fail] = field(default_factory=list)
    verdict: Verdict = field(default_factory=lambda: Verdict("pass"))


@dataclass(slots=True)
class Die:
    """A die at its site, with its tries and its bin."""

    site: int
    name: str
    tries: list[Try] = field(default_factory=list)
    bin: int = 0

    @property
    def verdict(self) -> Verdict:
        """The verdict of the last try, by which the die is binned."""
        return self.tries[-1].verdict


@dataclass(slots=True)
class StuckNet:
    """A stuck-at fault of a grade: the first cycle that finds it, or None."""

    net: str
    value: int
    cycle: int | None


@dataclass(slots=True)
class Moment:
    """An instant of a cycle, with what is driven (D, U, Z, N, P) and looked at (L, H, T, l, h, t, X) there, as pairs of signal and act."""

    at: int
    drives: list[tuple[str, str]]
    looks: list[tuple[str, str]]


@dataclass(slots=True)
class Cycle:
    """A cycle of an executive: its number there, its start, its table, its moments."""

    executive: int
    number: int
    start: int
    table: str
    moments: list[Moment] = field(default_factory=list)


def digits(word: str) -> int:
    """A number as the program prints it: decimal digits, and at most 39 of them, which 128 bits have."""
    if not (word.isascii() and word.isdigit() and len(word) <= 39):
        raise ValueError(word)
    return int(word)


def bare(word: str) -> str:
    """A printed name without its quotes, which stand where it is empty or some of its bytes aren't visible."""
    inner = word[1:-1]
    is_quoted = len(word) > 1 and word[0] == word[-1] == '"' and not (inner and all(0x21 <= ord(byte) <= 0x7E for byte in inner))
    return inner if is_quoted else word


@contextmanager
def opened(path: str) -> Iterator[IO[str]]:
    """The lines of a file, or of standard input for `-`."""
    if path == "-":
        yield sys.stdin
        return
    try:
        with open(path, encoding="latin-1", newline="\n") as lines:
            yield lines
    except BrokenPipeError:
        # (it is of what is written meanwhile)
        raise
    except OSError as error:
        raise Fault(UNREADABLE, f"{error.strerror}", path) from error


class Lines:
    """Lines of a text with their numbers; the readers below are made of it."""

    what = "text"

    def __init__(self, lines: Iterable[str], file: str) -> None:
        self.lines = lines
        self.file = file
        self.number = 0

    def refuse(self, why: str) -> Fault:
        """The fault of the line that was read last."""
        return Fault(UNREADABLE, f"this is no {self.what}: {why}", self.file, self.number)

    def whole(self, line: str) -> str:
        """The line without its line feed; a line that is torn is refused."""
        if not line.endswith("\n"):
            raise self.refuse("the text ends within a line")
        return line[:-1]


class Datalog(Lines):
    """The dies of a datalog one by one, or of several behind one another; `totals` has the printed totals of bins behind the last one.

    `count` is the number of dies so far, and `number` the line of the last one's bin.
    """

    what = "datalog"

    def __init__(self, lines: Iterable[str], file: str = "-") -> None:
        super().__init__(lines, file)
        self.totals: dict[int, int] = {}
        self.count = 0
        self.site: int | None = None
        self.die: Die | None = None
        self.open_try = False

    def __iter__(self) -> Iterator[Die]:
        number = self.number
        kept: list[Fail] = []
        for line in self.lines:
            number += 1
            if line.startswith("fail ") and self.open_try:
                parts = line.split() if '"' not in line else [bare(word) for word in WORD.findall(line)]
                try:
                    kept.append(self._fail(*parts))
                except (ValueError, TypeError):
                    self.number = number
                    raise self.refuse(f"`{line.rstrip()}`") from None
                continue
            self.number = number
            done = self._take(self.whole(line))
            if self.open_try and self.die:
                kept = self.die.tries[-1].kept
            if done:
                yield done
        if self.die:
            raise self.refuse("it ends within a die")

    def _take(self, line: str) -> Die | None:
        """Takes a line that is no fail; the line of a bin ends its die."""
        head, _, rest = line.partition(" ")
        try:
            if head == "site" and not self.die:
                self.site = digits(rest)
            elif head == "die" and not self.die and self.site is not None and rest:
                # (its bytes are visible, so it is printed without quotes, whatever quotes are in it)
                self.die = Die(self.site, rest)
            elif head == "try" and self.die and not self.open_try:
                self.die.tries.append(self._new_try(rest.split(" ")))
                self.open_try = True
            elif head == "verdict" and self.die and self.open_try:
                self.die.tries[-1].verdict = self._verdict(rest.split(" "))
                self.open_try = False
            elif head == "bin" and self.die and self.die.tries and not self.open_try:
                self.die.bin, die, self.die = digits(rest), self.die, None
                self.count += 1
                return die
            elif head == "total" and not self.die:
                bin_number, count = rest.split(" ")
                self.totals[digits(bin_number)] = self.totals.get(digits(bin_number), 0) + digits(count)
            else:
                raise ValueError
        except (ValueError, IndexError):
            raise self.refuse(f"`{line}` can't stand here") from None
        return None

    @staticmethod
    def _fail(_: str, cycle: str, at: str, signal: str, want: str, seen: str, *cell: str) -> Fail:
        if want not in WANTS or seen not in LEVELS or len(cell) not in (0, 2):
            raise ValueError
        return Fail(digits(cycle), digits(at), signal, want, seen, *cell)

    @staticmethod
    def _new_try(parts: list[str]) -> Try:
        number, cycles, count, fails, looks = parts
        if (cycles, fails) != ("cycles", "fails"):
            raise ValueError
        return Try(digits(number), digits(count), digits(looks))

    @staticmethod
    def _verdict(parts: list[str]) -> Verdict:
        kind, *rest = parts
        if kind == "pass" and not rest:
            return Verdict(kind)
        if kind == "fail":
            return Verdict(kind, executive=digits(rest[0]))
        if kind == "stopped":
            return Verdict(kind, batch=digits(rest[0]), by=rest[1], word=digits(rest[2]) if len(rest) > 2 else None)
        if kind == "contact":
            return Verdict(kind, at=digits(rest[0]))
        raise ValueError


class Grade(Lines):
    """The faults of a grade one by one; `good` is the good die's first failing cycle, `count` and `found` the last line's numbers."""

    what = "grade"

    def __init__(self, lines: Iterable[str], file: str = "-") -> None:
        super().__init__(lines, file)
        self.good: int | None = None
        self.count = 0
        self.found = 0

    def __iter__(self) -> Iterator[StuckNet]:
        ended = False
        for number, line in enumerate(self.lines, 1):
            self.number = number
            # (nets are visible bytes, so they are printed without quotes, whatever quotes are in them)
            parts = self.whole(line).split(" ")
            try:
                if number == 1 and parts[0] == "good":
                    self.good = self._cycle(parts[1])
                elif number > 1 and parts[0] == "fault" and not ended:
                    yield StuckNet(parts[1], digits(parts[2]), self._cycle(parts[3]))
                elif number > 1 and parts[0] == "faults" and parts[2] == "found" and not ended:
                    self.count, self.found, ended = digits(parts[1]), digits(parts[3]), True
                else:
                    raise ValueError
            except (ValueError, IndexError):
                raise self.refuse(f"`{line.rstrip()}` can't stand here") from None
        if not ended:
            raise self.refuse("it ends before its last line `faults N found M`")

    @staticmethod
    def _cycle(word: str) -> int | None:
        return None if word == "none" else digits(word)


class Events(Lines):
    """The cycles of a listing of events one by one; `executives` has their names so far, `cycles` and `time` the last line's numbers."""

    what = "listing of events"

    def __init__(self, lines: Iterable[str], file: str = "-") -> None:
        super().__init__(lines, file)
        self.executives: list[str] = []
        self.cycles: int | None = None
        self.time = 0

    def __iter__(self) -> Iterator[Cycle]:
        cycle: Cycle | None = None
        for number, line in enumerate(self.lines, 1):
            self.number = number
            head, _, rest = self.whole(line).partition(" ")
            try:
                if self.cycles is not None:
                    raise ValueError
                if head == "at" and cycle:
                    cycle.moments.append(self._moment(rest))
                    continue
                if cycle:
                    yield cycle
                cycle = self._take(head, rest)
            except (ValueError, IndexError):
                raise self.refuse(f"`{line.rstrip()}` can't stand here") from None
        if self.cycles is None:
            raise self.refuse("it ends before its last line `end CYCLES TIME`")

    def _take(self, head: str, rest: str) -> Cycle | None:
        parts = WORD.findall(rest)
        if head == "exec":
            self.executives.append(bare(parts[1]))
        elif head == "cycle" and self.executives:
            return Cycle(len(self.executives) - 1, digits(parts[0]), digits(parts[1]), bare(parts[2]))
        elif head == "end":
            self.cycles, self.time = digits(parts[0]), digits(parts[1])
        else:
            raise ValueError
        return None

    @staticmethod
    def _moment(rest: str) -> Moment:
        at, _, acts = rest.partition(" ")
        moment = Moment(digits(at), [], [])
        for name, mark, act in ACTION.findall(acts):
            (moment.drives if mark == "=" else moment.looks).append((bare(name), act))
        return moment


@contextmanager
def datalog(path: str) -> Iterator[Datalog]:
    """The datalog in a file, or on standard input for `-`."""
    with opened(path) as lines:
        yield Datalog(lines, path)


@contextmanager
def grade(path: str) -> Iterator[Grade]:
    """The grade in a file, or on standard input for `-`."""
    with opened(path) as lines:
        yield Grade(lines, path)


@contextmanager
def events(path: str) -> Iterator[Events]:
    """The listing of events in a file, or on standard input for `-`."""
    with opened(path) as lines:
        yield Events(lines, path)
