"""A shmoo: a lot for each pair of a period and a strobe, by the text with its times scaled and its looks moved. Times are in femtoseconds."""

import os
import re
import tempfile
from collections.abc import Iterator
from dataclasses import dataclass, field
from fractions import Fraction

from stilfloor import plans, records, tester
from stilfloor.faults import REFUSED, USAGE, Fault
from stilfloor.outline import Statement, Token, outline
from stilfloor.saved import MAGIC
from stilfloor.sentences import refusal

UNITS = {"fs": 1, "ps": 10**3, "ns": 10**6, "us": 10**9, "ms": 10**12, "s": 10**15}
TIME = r"(\d{1,15}(?:\.\d{1,15})?)(fs|ps|ns|us|ms|s)"
RANGE = re.compile(rf"{TIME}\.\.{TIME}/{TIME}", re.ASCII)
PLAIN = re.compile(r"\s*(\d{1,15}(?:\.\d{1,15})?)(fs|ps|ns|us|ms|s)?\s*", re.ASCII)
CHECKS = {"L", "H", "T", "l", "h", "t", "CompareLow", "CompareHigh", "CompareOff", "CompareLowWindow", "CompareHighWindow", "CompareOffWindow"}
LOOKS = CHECKS | {"X", "CompareUnknown"}
# what a move of times can break, which is a place of the picture
BROKEN = re.compile(rb"refused (?:stil|plan) (EventOutside|EventOrder|OutOfRange|SkewOutside) ")
MOST_STEPS = 64
MOST_CELLS = 1024


def steps_of(text: str, option: str) -> list[int]:
    """The times that A..B/STEP stands for."""
    found = RANGE.fullmatch(text)
    wrong = f"{option} is A..B/STEP, each a number with its unit, as 80ns..120ns/5ns, and `{text}` isn't"
    if not found:
        raise Fault(USAGE, wrong)
    first, last, step = (Fraction(found[place]) * UNITS[found[place + 1]] for place in (1, 3, 5))
    if step < 1 or first > last or first.denominator != 1 or step.denominator != 1:
        raise Fault(USAGE, f"{wrong}: A is at most B, STEP is above 0, and all are whole femtoseconds")
    if (last - first) // step >= MOST_STEPS:
        raise Fault(USAGE, f"{option} has at most {MOST_STEPS} steps, and `{text}` has {(last - first) // step + 1}")
    return [int(first + number * step) for number in range(int((last - first) // step) + 1)]


@dataclass(slots=True)
class Time:
    """A time of a text: its token, how long it is, and whether it is one of a look that moves with the strobe."""

    token: Token
    value: Fraction
    is_look: bool = False


@dataclass(slots=True)
class Timing:
    """The times of a text, the table that is first and its period, and the table that is the first with a look and when that is."""

    text: str
    times: list[Time] = field(default_factory=list)
    table: str = ""
    period: Fraction = Fraction(0)
    looking: str = ""
    strobe: Fraction | None = None

    def written(self, period: int | None, strobe: int | None) -> str:
        """The text with all times scaled to a period of its first table, and all looks moved so that the first one is at a strobe."""
        scale = Fraction(period) / self.period if period is not None else Fraction(1)
        move = Fraction(strobe) - self.strobe * scale if strobe is not None and self.strobe is not None else Fraction(0)
        pieces, behind = [], 0
        for time in self.times:
            value = round(time.value * scale + (move if time.is_look else 0))
            # (a time before the cycle's start is no time of a text, so it stands for one that is refused)
            told = f"'{value}fs'" if value >= 0 else "'1000s'"
            pieces += [self.text[behind : time.token.start], told]
            behind = time.token.start + len(time.token.text)
        return "".join([*pieces, self.text[behind:]])


def timing_of(file: str) -> Timing:
    """The times of a text, each of which must be a plain number."""
    text = plans.read_text(file)
    if text.encode("latin-1")[:4] == MAGIC:
        raise Fault(REFUSED, "this is a saved program, and a shmoo needs the text, whose times it changes", file)
    timing = Timing(text)
    for block in outline(text):
        for table in (block.block or []) if block.keyword == "Timing" else []:
            if table.keyword == "WaveformTable":
                _take_table(timing, table, file)
    if not timing.period:
        raise Fault(REFUSED, "the text has no waveform table with a period", file)
    return timing


def _refused(statement: Statement, file: str, why: str) -> Fault:
    return Fault(REFUSED, f"a shmoo needs times that it can change: {why}", file, statement.line)


def _take_table(timing: Timing, table: Statement, file: str) -> None:
    """Takes the times of a table."""
    period = next((part for part in table.block or [] if part.keyword == "Period"), None)
    if period is not None:
        time = _time(period, period.head[-1], file)
        if not timing.period:
            timing.table, timing.period = table.name, time.value
        timing.times.append(time)
    for part in table.block or []:
        for wave in [wave for pin in part.block or [] for wave in pin.block or []] if part.keyword == "Waveforms" else []:
            _take_wave(timing, table.name, wave, file)
    timing.times.sort(key=lambda one: one.token.start)


def _take_wave(timing: Timing, table: str, wave: Statement, file: str) -> None:
    """Takes the times of a waveform; looks that check nothing in front of the first check stay where they are."""
    is_checked = False
    for event in wave.block or []:
        acts = {token.plain for token in event.head[1:] if token.text != "/"}
        if acts & LOOKS and acts - LOOKS:
            raise _refused(event, file, "an event drives by one character and looks by another")
        time = _time(event, event.head[0], file)
        is_checked = is_checked or bool(acts & CHECKS)
        time.is_look = is_checked and acts <= LOOKS
        if acts & CHECKS and (timing.strobe is None or timing.looking == table and time.value < timing.strobe):
            timing.looking, timing.strobe = table, time.value
        timing.times.append(time)


def _time(statement: Statement, token: Token, file: str) -> Time:
    """The time of a token, which must be a number."""
    found = PLAIN.fullmatch(token.plain) if token.kind == "text" else None
    if not found:
        raise _refused(statement, file, f"`{token.text}` is no number with its unit")
    value = Fraction(found[1]) * UNITS[found[2] or "fs"]
    if statement.keyword == "Period" and not value:
        raise _refused(statement, file, "a period is 0")
    return Time(token, value)


@dataclass(slots=True)
class Cell:
    """What a lot with a period and a strobe gave: how many dies there were and how many passed, or what the times break."""

    passing: int = 0
    dies: int = 0
    broken: str = ""


@dataclass(slots=True)
class Shmoo:
    """The cells by strobes, the lowest first, and periods; a list of no number stands for the text's own."""

    timing: Timing
    periods: list[int | None]
    strobes: list[int | None]
    cells: list[list[Cell]] = field(default_factory=list)


def run(program: str, plan: str, periods: list[int], strobes: list[int], chosen: tuple[int | None, str | None]) -> Shmoo:
    """Runs the lots, of which dies at a site or of a name count where one is said."""
    timing = timing_of(program)
    if strobes and timing.strobe is None:
        raise Fault(REFUSED, "the text looks at nothing, so there is no strobe", program)
    if len(periods or [0]) * len(strobes or [0]) > MOST_CELLS:
        raise Fault(USAGE, f"a shmoo has at most {MOST_CELLS} pairs, and here are {len(periods)} times {len(strobes)}")
    shmoo = Shmoo(timing, [*periods] or [None], [*strobes] or [None])
    status, output = tester.run(["lot", program, plan])
    if status:
        raise refusal(output.decode("latin-1"), status, program, plan)
    if not any(True for _ in _chosen(output, chosen)):
        raise Fault(REFUSED, "the plan has no such die", plan)
    with tempfile.TemporaryDirectory() as room:
        file = os.path.join(room, "program.stil")
        for strobe in shmoo.strobes:
            shmoo.cells.append([_cell(timing.written(period, strobe), file, program, plan, chosen) for period in shmoo.periods])
    return shmoo


def _chosen(output: bytes, chosen: tuple[int | None, str | None]) -> Iterator[records.Die]:
    """The dies of a datalog that count."""
    site, name = chosen
    for die in records.Datalog(output.decode("latin-1").splitlines(True)):
        if (site is None or die.site == site) and (name is None or die.name == name):
            yield die


def _cell(text: str, file: str, program: str, plan: str, chosen: tuple[int | None, str | None]) -> Cell:
    """Runs the lot of a text; what its times alone can't break is told of the text that it was made of, which has as many lines."""
    with open(file, "w", encoding="latin-1", newline="") as out:
        out.write(text)
    status, output = tester.run(["lot", file, plan])
    broken = BROKEN.match(output)
    if broken:
        return Cell(broken=broken[1].decode())
    if status:
        fault = refusal(output.decode("latin-1"), status, file, plan)
        raise Fault(fault.status, fault.text, program if fault.file == file else fault.file, fault.line)
    dies = list(_chosen(output, chosen))
    return Cell(sum(die.verdict.kind == "pass" for die in dies), len(dies))
