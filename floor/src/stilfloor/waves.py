"""Waves of a program's events: what is driven, with looks as marks. Times are in femtoseconds, and nanoseconds in the picture."""

import re
from collections.abc import Iterable, Iterator
from dataclasses import dataclass, field

from stilfloor import records, tester
from stilfloor.belonging import Cycles
from stilfloor.faults import REFUSED, Fault, shown
from stilfloor.records import Cycle, Events
from stilfloor.saved import Code, code_of

LEVELS = {"D": 0.0, "U": 1.0, "Z": 0.5, "N": 0.5}
LETTERS = {"D": "0", "U": "1", "Z": "Z", "N": "X"}
WANTED = {"L": "0", "H": "1", "T": "Z", "X": "-", "l": "0", "h": "1", "t": "Z"}
BIT = re.compile(r"(.+)\[(\d{1,6})\]", re.DOTALL)


@dataclass(slots=True)
class Look:
    """A look: its time, its cycle, what it wants, and where it is a window its end."""

    at: int
    cycle: int
    act: str
    until: int | None = None


@dataclass(slots=True)
class Trace:
    """What a signal does: its drives (time, act) and its looks; a drive of the act before another is written as that one."""

    drives: list[tuple[int, str]] = field(default_factory=list)
    looks: list[Look] = field(default_factory=list)
    prior: str = "N"


@dataclass(slots=True)
class Waves:
    """The traces of signals in the order of the text, and the starts of cycles with their numbers and tables, and where the last one ends."""

    traces: dict[str, Trace] = field(default_factory=dict)
    starts: list[int] = field(default_factory=list)
    tables: list[str] = field(default_factory=list)
    first: int = 0
    end: int = 0


@dataclass(slots=True)
class Row:
    """A line of the picture: a signal, or the bits of a bus from the highest down."""

    name: str
    signals: list[str]


def gather(cycles: Iterable[tuple[Cycle, int]], order: Iterable[str], first: int = 0) -> Waves:
    """The waves of cycles, each with its end, from the first one on; what was driven before goes on."""
    waves = Waves({name: Trace() for name in order}, first=first)
    for number, (cycle, end) in enumerate(cycles):
        opened: dict[str, Look] = {}
        for moment in cycle.moments:
            for signal, act in moment.drives:
                _drive(waves.traces.setdefault(signal, Trace()), moment.at, act)
            for signal, act in moment.looks if number >= first else []:
                if signal in opened:
                    opened.pop(signal).until = moment.at
                look = Look(moment.at, number, act)
                waves.traces.setdefault(signal, Trace()).looks.append(look)
                if act in "lht":
                    opened[signal] = look
        for look in opened.values():
            look.until = end
        if number >= first:
            waves.starts.append(cycle.start)
            waves.tables.append(cycle.table)
            waves.end = end
    return waves if not waves.starts else _begun(waves)


def _drive(trace: Trace, at: int, act: str) -> None:
    """Adds a drive."""
    act = trace.prior if act == "P" else act
    trace.prior = act if act in "DU" else trace.prior
    trace.drives.append((at, act))


def _begun(waves: Waves) -> Waves:
    """The waves from the first cycle's start on: of what came before the last drive alone; signals that never act are left out."""
    start = waves.starts[0]
    for trace in waves.traces.values():
        before = [act for at, act in trace.drives if at <= start]
        trace.drives = [(start, act) for act in before[-1:]] + [(at, act) for at, act in trace.drives if at > start]
    waves.traces = {name: trace for name, trace in waves.traces.items() if trace.drives or trace.looks}
    return waves


def rows_of(waves: Waves, is_split: bool = False) -> list[Row]:
    """The lines of a picture: a bus for signals of one name with numbers in a row behind one another, where they aren't to be split."""
    runs: list[list[str]] = []
    for signal in waves.traces:
        bit, last = BIT.fullmatch(signal), BIT.fullmatch(runs[-1][-1]) if runs else None
        is_next = not is_split and bit is not None and last is not None and bit[1] == last[1] and abs(int(bit[2]) - int(last[2])) == 1
        if is_next:
            runs[-1].append(signal)
        else:
            runs.append([signal])
    return [_row(run) for run in runs]


def _row(run: list[str]) -> Row:
    if len(run) == 1:
        return Row(run[0], run)
    bits = [BIT.fullmatch(signal) for signal in run]
    numbers = {signal: int(bit[2]) for signal, bit in zip(run, bits) if bit}
    ordered = sorted(run, key=lambda signal: -numbers[signal])
    base = bits[0][1] if bits[0] else ""
    return Row(f"{base}[{numbers[ordered[0]]}..{numbers[ordered[-1]]}]", ordered)


def value_of(letters: str) -> str:
    """The value of a bus by the letters of its bits: hexadecimal where all are 0 and 1, else bit by bit; `-` where nothing is known or wanted."""
    if set(letters) <= set("01"):
        return f"{int(letters, 2):0{-(-len(letters) // 4)}x}"
    return "-" if set(letters) == {"-"} else letters


def cycles_between(program: str, last: int, code: Code | None = None) -> Iterator[tuple[Cycle, int]]:
    """The cycles of a STIL text up to number `last`, over all its executives, each with its end; times go on from one to the next."""
    code = code or code_of(program)
    periods = {table.name: table.period for table in code.tables}
    offset, executive, ended = 0, 0, 0
    running = tester.open_output(["events", program])
    try:
        for number, cycle in enumerate(Events(running.stdout or [], program)):
            if number > last:
                break
            if cycle.executive != executive:
                executive, offset = cycle.executive, ended
            ended = offset + cycle.start + periods[cycle.table]
            for moment in cycle.moments:
                moment.at += offset
            cycle.start += offset
            yield cycle, ended
    finally:
        running.terminate()
        running.wait()


@dataclass(slots=True)
class Seen:
    """What a die has seen in its last try: the values of looks that failed, by cycle and signal, up to which cycle that is known, and its words."""

    fails: dict[tuple[int, str], str]
    known: int
    words: str

    def of(self, look: Look, signal: str) -> str:
        """What was seen where a look failed, nothing where it held, and ? where that isn't known."""
        if look.cycle >= self.known:
            return self.fails.get((look.cycle, signal), "?")
        return self.fails.get((look.cycle, signal), "")


def seen_in(datalog: str, code: Code, site: int | None, name: str | None) -> Seen:
    """What is seen of a die of a datalog: the first one that fails, else the first, of those at a site or of a name where one is said."""
    cycles, found, ahead = Cycles(code), None, 0
    with records.datalog(datalog) as dies:
        for die in dies:
            if (site is None or die.site == site) and (name is None or die.name == name) and (found is None or not found.tries[-1].fails):
                found, ahead = (die, dies.number) if found is None or die.tries[-1].fails else (found, ahead)
    if found is None:
        raise Fault(REFUSED, "the datalog has no such die", datalog)
    attempt = found.tries[-1]
    for place, fail in enumerate(attempt.kept):
        why = cycles.why_no_look(fail)
        if why:
            raise Fault(REFUSED, f"this can't be of the program: {why}", datalog, ahead - 1 - len(attempt.kept) + place)
    is_cut = attempt.fails > len(attempt.kept)
    known = min(attempt.cycles, attempt.kept[-1].cycle if is_cut and attempt.kept else 0 if is_cut else attempt.cycles)
    fails = {(fail.cycle, fail.signal): fail.seen for fail in attempt.kept}
    return Seen(fails, known, f"site {found.site}, die {shown(found.name)}, try {attempt.number}, {attempt.fails} fails")
