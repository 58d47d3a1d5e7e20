"""Fault dictionaries: how each single stuck net of a die fails, by lots of one die a fault.

A dictionary is kept beside its program by the sum of its files: the program, the netlist, and the plan's rows that count.
"""

import hashlib
import os
import re
import shutil
import subprocess
import sys
import tempfile
from collections.abc import Iterator
from dataclasses import dataclass, field
from zipfile import BadZipFile

import numpy

from stilfloor import plans, records, saved, tester
from stilfloor.faults import REFUSED, Fault, shown
from stilfloor.names import replacing
from stilfloor.sentences import refusal
from stilfloor.skews import Moved, moved_signals

FORM = b"fault dictionary 1"
DRIVEN = re.compile(r"\s*(?:INPUT\s*\(\s*([^\s()]+)\s*\)|([^\s=#]+)\s*=)", re.IGNORECASE)


@dataclass(slots=True, frozen=True)
class Suspect:
    """What may be wrong with a die: a net that is stuck at a value, a signal that is moved by femtoseconds, or nothing."""

    net: str = ""
    value: int = 0
    moved: bool = False

    def __str__(self) -> str:
        if not self.net:
            return "no stuck net"
        return f"{self.net} moved by {self.value} fs" if self.moved else f"{self.net} stuck at {self.value}"


@dataclass(slots=True)
class Die:
    """A kind of die: the program, its netlist, the rows that bind it, the skews of its site, and how many fails of a try are kept."""

    program: str
    netlist: str
    plan: plans.Plan
    skews: list[tuple[str, int]]
    kept: int

    def path(self) -> str:
        """Where its dictionary is kept."""
        total = hashlib.sha256(FORM)
        for file in (self.program, self.netlist):
            total.update(hashlib.sha256(plans.read_text(file).encode("latin-1")).digest())
        total.update(repr((self.plan.binding(), self.skews, self.kept)).encode())
        return f"{self.program}.{total.hexdigest()[:16]}.faults.npz"


@dataclass(slots=True)
class Dictionary:
    """The classes of suspects that fail alike: their members, how many looks fail, and the numbers of the fails that are kept."""

    fails: dict[tuple[int, str, str], int] = field(default_factory=dict)
    members: list[list[Suspect]] = field(default_factory=list)
    totals: list[int] = field(default_factory=list)
    kept: list[numpy.ndarray] = field(default_factory=list)
    found: dict[tuple[int, bytes], int] = field(default_factory=dict)
    postings: "Postings | None" = None

    def add(self, suspect: Suspect, attempt: records.Try) -> None:
        """Puts a suspect into the class of those that fail as this try does."""
        numbers = [self.fails.setdefault((fail.cycle, fail.signal, fail.seen), len(self.fails)) for fail in attempt.kept]
        self.put(suspect, attempt.fails, numpy.array(numbers, dtype=numpy.uint32))

    def put(self, suspect: Suspect, total: int, numbers: numpy.ndarray) -> None:
        """The same by the fails' numbers."""
        key = (total, numbers.tobytes())
        place = self.found.setdefault(key, len(self.members))
        if place == len(self.members):
            self.members.append([])
            self.totals.append(total)
            self.kept.append(numbers)
        self.members[place].append(suspect)

    def fails_of(self, suspect: Suspect) -> int:
        """How many looks fail where a suspect is all that is wrong."""
        return next((total for members, total in zip(self.members, self.totals) if suspect in members), 0)

    def same(self, attempt: records.Try) -> int | None:
        """The class that fails exactly as this try does."""
        numbers = []
        for fail in attempt.kept:
            number = self.fails.get((fail.cycle, fail.signal, fail.seen))
            if number is None:
                return None
            numbers.append(number)
        return self.found.get((attempt.fails, numpy.array(numbers, dtype=numpy.uint32).tobytes()))

    def scores(self, attempt: records.Try) -> numpy.ndarray:
        """For each class the fails that it has in common with the try, as a part of those that one of them has: from 0 to 1.

        Fails that were counted and not kept count as common as far as both have them.
        """
        if self.postings is None:
            self.postings = Postings(self.kept, self.totals, len(self.fails))
        known = [self.fails.get((fail.cycle, fail.signal, fail.seen)) for fail in attempt.kept]
        numbers = numpy.array([number for number in known if number is not None], dtype=numpy.int64)
        return self.postings.scores(numbers, len(attempt.kept), attempt.fails - len(attempt.kept))


class Postings:
    """For each fail the classes that have it."""

    def __init__(self, kept: list[numpy.ndarray], totals: list[int], fails: int) -> None:
        self.sizes = numpy.array([len(numbers) for numbers in kept], dtype=numpy.int64)
        self.rests = numpy.array(totals, dtype=numpy.int64) - self.sizes
        numbers = numpy.concatenate(kept).astype(numpy.int64) if kept else numpy.zeros(0, dtype=numpy.int64)
        order = numpy.argsort(numbers, kind="stable")
        self.classes = numpy.repeat(numpy.arange(len(kept)), self.sizes)[order]
        self.starts = numpy.searchsorted(numbers[order], numpy.arange(fails + 1))

    def scores(self, numbers: numpy.ndarray, size: int, rest: int) -> numpy.ndarray:
        """The scores of a try by the numbers of its kept fails, how many these are, and how many fails weren't kept."""
        parts = [self.classes[self.starts[number] : self.starts[number + 1]] for number in numbers]
        hits = numpy.concatenate(parts) if parts else numpy.zeros(0, dtype=numpy.int64)
        common = numpy.bincount(hits, minlength=len(self.sizes))
        either = self.sizes + size - common + numpy.maximum(self.rests, rest)
        return (common + numpy.minimum(self.rests, rest)) / numpy.maximum(either, 1)


def nets_of(file: str) -> list[str]:
    """The nets of a netlist, by the lines that drive them."""
    found = [DRIVEN.match(line) for line in plans.read_text(file).split("\n")]
    return list(dict.fromkeys(match[1] or match[2] for match in found if match))


def dictionary_of(die: Die, jobs: int) -> Dictionary:
    """The dictionary of a kind of die: the one that is kept, else one that is made, by so many processes, and kept."""
    path = die.path()
    if os.path.exists(path):
        try:
            return _load(path)
        except (OSError, ValueError, KeyError, EOFError, BadZipFile):
            print(f"stilfloor: the dictionary {shown(path)} can't be read, so it is made again", file=sys.stderr)
    made = _make(die, jobs)
    _save(made, path)
    return made


def _load(path: str) -> Dictionary:
    made = Dictionary()
    with numpy.load(path, allow_pickle=False) as stored:
        signals, seen = stored["signals"].tolist(), stored["seen"].tolist()
        rows = zip(stored["cycles"].tolist(), stored["signal"].tolist(), seen)
        made.fails = {(cycle, signals[signal], level): number for number, (cycle, signal, level) in enumerate(rows)}
        kept = numpy.split(stored["kept"], stored["ends"][:-1]) if len(stored["ends"]) else []
        suspects = zip(stored["nets"].tolist(), stored["values"].tolist(), stored["moved"].tolist(), stored["classes"].tolist())
        totals = stored["totals"].tolist()
        for net, value, moved, place in suspects:
            made.put(Suspect(net, value, moved), totals[place], kept[place])
    return made


def _save(made: Dictionary, path: str) -> None:
    """Keeps a dictionary; where nothing can be written, it is made again the next time."""
    signals = {signal: number for number, signal in enumerate(dict.fromkeys(signal for _, signal, _ in made.fails))}
    pairs = [(suspect, place) for place, members in enumerate(made.members) for suspect in members]
    try:
        with replacing(path, None) as out:
            numpy.savez_compressed(
                out,
                signals=numpy.array(list(signals), dtype=str),
                cycles=numpy.array([cycle for cycle, _, _ in made.fails], dtype=numpy.int64),
                signal=numpy.array([signals[signal] for _, signal, _ in made.fails], dtype=numpy.uint32),
                seen=numpy.array([seen for _, _, seen in made.fails], dtype=str),
                totals=numpy.array(made.totals, dtype=numpy.int64),
                ends=numpy.cumsum([len(numbers) for numbers in made.kept]).astype(numpy.int64),
                kept=numpy.concatenate(made.kept) if made.kept else numpy.zeros(0, dtype=numpy.uint32),
                nets=numpy.array([suspect.net for suspect, _ in pairs], dtype=str),
                values=numpy.array([suspect.value for suspect, _ in pairs], dtype=numpy.int64),
                moved=numpy.array([suspect.moved for suspect, _ in pairs], dtype=bool),
                classes=numpy.array([place for _, place in pairs], dtype=numpy.int64),
            )
    except Fault as fault:
        print(f"stilfloor: the dictionary can't be kept at {shown(path)}: {fault.text}", file=sys.stderr)


def _make(die: Die, jobs: int) -> Dictionary:
    """Runs the lots of a dictionary in a folder of their own, and gathers what fails."""
    stuck = [Suspect(net, value) for net in nets_of(die.netlist) for value in (0, 1)]
    moved = moved_signals(saved.code_of(die.program), [signal for signal, _ in die.skews])
    with tempfile.TemporaryDirectory() as room:
        put_files(die, room)
        parts = _stuck_parts(die, [Suspect(), *stuck], room, jobs) + _moved_parts(die, moved, room)
        _run_parts([name for name, _ in parts], room, jobs)
        made = Dictionary()
        for name, suspects in parts:
            for suspect, attempt in zip(suspects, _tries(die, os.path.join(room, name + ".datalog"))):
                made.add(suspect, attempt)
    return made


def put_netlist(die: Die, room: str) -> None:
    """Puts the netlist into a folder."""
    if not os.path.exists(die.netlist):
        raise refusal(f"read fault {die.netlist}", 2, die.program, die.plan.file)
    shutil.copyfile(die.netlist, os.path.join(room, "die.bench"))


def put_files(die: Die, room: str) -> None:
    """Puts the program, compiled where that is short enough, and the netlist into a folder."""
    put_netlist(die, room)
    status, output = tester.run(["save", die.program])
    with open(os.path.join(room, "program"), "wb") as out:
        if status == 0:
            out.write(output)
        else:
            with open(die.program, "rb") as source:
                shutil.copyfileobj(source, out)


def rows_of(die: Die) -> list[list[str]]:
    """The rows in front of those of dies."""
    return [["lot", str(die.plan.batch), "1", str(die.kept)], *die.plan.binding()]


def _stuck_parts(die: Die, suspects: list[Suspect], room: str, jobs: int) -> list[tuple[str, list[Suspect]]]:
    """Plans of one die a suspect at one site, in parts for the processes; each part's name and its suspects."""
    most = min(plans.MOST_DIES, plans.MOST_FAILS // max(die.kept, 1), -(-len(suspects) // max(jobs, 1)))
    parts: list[tuple[str, list[Suspect]]] = []
    for front in range(0, len(suspects), most):
        some = suspects[front : front + most]
        rows = rows_of(die)
        for number, suspect in enumerate(some):
            rows.append(["die", "0", f"f{number}", "die.bench"])
            if suspect.net:
                rows.append(["fault", "0", f"f{number}", suspect.net, str(suspect.value)])
        rows += [["skew", "0", signal, str(amount)] for signal, amount in die.skews]
        parts.append((_put_plan(rows, room, len(parts), "stuck"), some))
    return parts


def _moved_parts(die: Die, moved: list[Moved], room: str) -> list[tuple[str, list[Suspect]]]:
    """Plans of a good die at each site, with one signal more that is moved there."""
    parts: list[tuple[str, list[Suspect]]] = []
    for front in range(0, len(moved), 16):
        some = moved[front : front + 16]
        rows = rows_of(die) + [["die", str(site), "good", "die.bench"] for site in range(len(some))]
        for site, (signal, amount) in enumerate(some):
            rows += [["skew", str(site), name, str(known)] for name, known in [*die.skews, (signal, amount)]]
        parts.append((_put_plan(rows, room, len(parts), "moved"), [Suspect(signal, amount, True) for signal, amount in some]))
    return parts


def _put_plan(rows: list[list[str]], room: str, number: int, kind: str) -> str:
    name = f"{kind}-{number}"
    with open(os.path.join(room, name + ".csv"), "w", encoding="latin-1") as out:
        out.write(plans.write_rows(rows))
    return name


def has_parallel() -> bool:
    """Whether GNU parallel is there, and not another program of that name."""
    if not shutil.which("parallel"):
        return False
    return "GNU parallel" in subprocess.run(["parallel", "--version"], capture_output=True, text=True, check=False).stdout


def _run_parts(names: list[str], room: str, jobs: int) -> None:
    """Runs the lots of the parts, by GNU parallel where it is there and there are several."""
    program = tester.find_program()
    if len(names) > 1 and jobs > 1 and has_parallel():
        # (the program's name is a value: it stands in no template, where parallel would run what it says)
        script = '"$1" lot program "$2.csv" > "$2.datalog"'
        words = ["parallel", "--will-cite", "-j", str(jobs), "--null", "sh", "-c", f"'{script}'", "sh", "{1}", "{2}", ":::", program]
        if sys.stderr.isatty():
            words.insert(2, "--bar")
        # (without a home and a path it finds no `echo`, and keeps what it knows of the machine where others read it)
        subprocess.run([*words, ":::", *names], cwd=room, stdout=subprocess.DEVNULL, check=False,
                       env={"HOME": room, "PATH": os.defpath, **os.environ})
        return
    for number, name in enumerate(names, 1):
        with open(os.path.join(room, name + ".datalog"), "wb") as out:
            subprocess.run([program, "lot", "program", name + ".csv"], cwd=room, stdout=out, check=False)
        if sys.stderr.isatty():
            done = 40 * number // len(names)
            end = "\n" if number == len(names) else ""
            print(f"\r[{'#' * done}{' ' * (40 - done)}] {number} of {len(names)} lots", end=end, file=sys.stderr, flush=True)


def _tries(die: Die, path: str) -> Iterator[records.Try]:
    """The tries of a part, die by die; what refuses the lot is told of the files that were given."""
    with open(path, encoding="latin-1") as lines:
        first = lines.readline()
        # (a refusal may go on behind a line feed in a name)
        first += "" if first.startswith("site ") else lines.read()
    if first and not first.startswith("site "):
        fault = refusal(first, 1, die.program, die.plan.file)
        if fault.file == "die.bench":
            fault.file = die.netlist
        raise Fault(fault.status, fault.text, fault.file, 0 if fault.file == die.plan.file else fault.line)
    if not first:
        raise Fault(REFUSED, "a lot of the dictionary ended without a datalog; is there memory enough?", die.program)
    with records.datalog(path) as dies:
        for made in dies:
            yield made.tries[0]
