"""How long a lot or a grade will take, by running a little of it: the first cycles of a die, some of the faults.

Counted are seconds of a processor, so that other work on the machine doesn't count. What it takes in all is as many times that as there
are cycles and tries, or faults; it is spread over the processors as far as there are sites, or faults.
"""

import os
import shutil
import subprocess
import tempfile
from collections.abc import Sequence
from dataclasses import dataclass, field

from stilfloor import plans, saved, tester
from stilfloor.faults import REFUSED, TOOL, Fault
from stilfloor.sentences import refusal

# how many seconds of a processor a sample should take, and all samples of a grade together
ENOUGH, ALL = 1.0, 6.0
MOST_PARTS, MOST_SAMPLES = 4096, 64
# so many faults are tried at once, so a sample has as many: fewer cost as much, and a few more twice as much
BESIDE = 64


@dataclass(slots=True)
class Work:
    """Some work: seconds before it begins, seconds of all its parts together, and of the longest part that can't be cut."""

    begins: float = 0.0
    all: float = 0.0
    longest: float = 0.0

    def on(self, processors: int) -> float:
        """How long it takes on so many processors that do nothing else."""
        return self.begins + max(self.longest, self.all / max(1, processors))


@dataclass(slots=True)
class Numbers:
    """What a program and a plan come to: cycles of a try, dies, tries, sites, and gates of each netlist."""

    cycles: int
    dies: int = 0
    tries: int = 0
    sites: int = 0
    gates: dict[str, int] = field(default_factory=dict)


def spent(words: Sequence[str], plan: str = "") -> tuple[float, bytes]:
    """The seconds of a processor that a program takes, and what it prints; what it refuses is raised, and told of this plan."""
    with subprocess.Popen(list(words), stdout=subprocess.PIPE, stdin=subprocess.DEVNULL) as run:
        assert run.stdout
        output = run.stdout.read()
        _, status, usage = os.wait4(run.pid, 0)
        run.returncode = os.waitstatus_to_exitcode(status)
    if run.returncode:
        fault = refusal(output.decode("latin-1"), run.returncode, words[2], plan)
        raise Fault(fault.status, fault.text, fault.file, fault.line if fault.file != plan else 0)
    return usage.ru_utime + usage.ru_stime, output


def find_lots() -> str:
    """The program `lots`: that of the variable LOTS, else the one beside `stil`, else the one on the path."""
    stil = tester.find_program()
    beside = os.path.join(os.path.dirname(stil), os.path.basename(stil).replace("stil", "lots", 1))
    found = shutil.which(os.environ.get("LOTS") or beside) or shutil.which("lots")
    if not found:
        raise Fault(TOOL, "the program `lots` isn't there: put it on the path, or name it by the variable LOTS")
    return found


def numbers_of(program: str, plan: plans.Plan) -> Numbers:
    """The numbers of a program and a plan."""
    code = saved.code_of(program)
    numbers = Numbers(sum(executive.cycles for executive in code.executives))
    failing = {(row[1], row[2]) for row in plan.rows if row[0] == "fault"}
    for die in plan.dies:
        numbers.dies += 1
        numbers.tries += tries_of(plan, die, failing)
        if die.netlist not in numbers.gates:
            numbers.gates[die.netlist] = sum("=" in line for line in plans.read_text(die.netlist).splitlines() if not line.startswith("#"))
    numbers.sites = len({die.site for die in plan.dies})
    if not numbers.dies:
        raise Fault(REFUSED, "the plan has no die; add a row `die,0,NAME,FILE,,`", plan.file)
    return numbers


def tries_of(plan: plans.Plan, die: plans.PlannedDie, failing: set[tuple[str, str]]) -> int:
    """How often a die is tried: one with a stuck net as often as the plan allows, since it may fail each time."""
    return int(plan.rows[0][2]) if (str(die.site), die.name) in failing else 1


@dataclass
class Sampler:
    """Runs a little of a lot or of a grade of a program, which lies in a folder as it is saved."""

    program: str
    plan: plans.Plan
    room: str

    def die(self, netlist: str, cycles: int) -> tuple[float, float]:
        """The seconds before the first cycle of a die of this netlist, and those of each cycle."""
        batch = min(self.plan.batch, 256)
        begins = self._stopped(netlist, batch, 0)
        batches = 1
        while True:
            took = max(self._stopped(netlist, batch, batches) - begins, 1e-9)
            if took >= ENOUGH or batches * batch >= cycles:
                return begins, took / max(1, min(batches * batch, cycles))
            batches = batches * 8 if took < ENOUGH / 16 else batches * 2

    def _stopped(self, netlist: str, batch: int, batches: int) -> float:
        """The seconds of a lot of one die that is stopped before a batch."""
        rows = [["lot", str(batch), "1", "0"], *self.plan.binding(), ["die", "0", "d", netlist], ["stop", "0", "d", "1", str(batches)]]
        path = os.path.join(self.room, "sample.csv")
        with open(path, "w", encoding="latin-1") as out:
            out.write(plans.write_rows(rows))
        return spent([tester.find_program(), "lot", self.program, path], self.plan.file)[0]

    def faults(self, begins: float) -> tuple[int, float]:
        """How many faults the first die has, and the seconds of all of them together."""
        lots, count = find_lots(), 2 * self._nets()
        # (each worker tries faults of its own, however few they are)
        parts = max(1, min(MOST_PARTS, count, max(-(-count // BESIDE), len(os.sched_getaffinity(0)))))
        took = self._part(lots, parts // 2 + 1, parts) - begins
        while took < ENOUGH / 16 and parts > MOST_SAMPLES:
            parts = parts // 8
            took = self._part(lots, parts // 2 + 1, parts) - begins
        some = self._others(lots, parts, begins, took)
        return count, max(0.0, sum(some) / len(some)) * parts

    def _others(self, lots: str, parts: int, begins: float, took: float) -> list[float]:
        """The seconds of parts that are spread over the grade, up to some seconds together."""
        some = [took]
        # (each next one lies in the middle of the widest gap, as a fraction in binary with its digits turned round)
        for number in range(1, min(parts, MOST_SAMPLES)):
            if sum(some) >= ALL:
                break
            place = sum((number >> digit & 1) / (2 << digit) for digit in range(8))
            some.append(self._part(lots, int(place * parts) + 1, parts) - begins)
        return some

    def _nets(self) -> int:
        """How many nets the first die has: inputs and drivers."""
        lines = plans.read_text(self.plan.dies[0].netlist).splitlines()
        return sum(1 for line in lines if line.strip()[:6].upper().startswith("INPUT") or "=" in line and not line.lstrip().startswith("#"))

    def _part(self, lots: str, number: int, parts: int) -> float:
        return spent([lots, "grade", self.program, self.plan.file, str(number), str(parts)], self.plan.file)[0]


def estimate(program: str, file: str, is_grade: bool) -> tuple[Numbers, int, Work]:
    """The numbers of a lot or a grade, the faults of a grade, and the work that it will be."""
    plan = plans.read_plan(file)
    numbers = numbers_of(program, plan)
    with tempfile.TemporaryDirectory(prefix="stilfloor-") as room:
        path = os.path.join(room, "program.saved")
        data = saved.bytes_of(program)
        with open(path, "wb") as out:
            out.write(data)
        reads = _reads(program, data)
        sampler = Sampler(path, plan, room)
        costs = {netlist: sampler.die(netlist, numbers.cycles) for netlist in numbers.gates}
        if is_grade:
            begins, cycle = costs[plan.dies[0].netlist]
            count, seconds = sampler.faults(begins)
            return numbers, count, Work(reads + begins, seconds, cycle * numbers.cycles)
    work = _lot(plan, numbers, costs)
    return numbers, 0, Work(reads + work.begins, work.all, work.longest)


def _reads(program: str, data: bytes) -> float:
    """The seconds of reading and compiling a program, where it is a text: its saved form, which samples run, is read at once."""
    with open(program, "rb") as stream:
        is_saved = stream.read(len(saved.MAGIC)) == data[:len(saved.MAGIC)]
    return 0.0 if is_saved else spent([tester.find_program(), "check", program])[0]


def _lot(plan: plans.Plan, numbers: Numbers, costs: dict[str, tuple[float, float]]) -> Work:
    """The work of a lot whose netlists have these costs; a site's dies run one after another."""
    failing = {(row[1], row[2]) for row in plan.rows if row[0] == "fault"}
    sites: dict[int, float] = {}
    for die in plan.dies:
        _, cycle = costs[die.netlist]
        sites[die.site] = sites.get(die.site, 0.0) + tries_of(plan, die, failing) * cycle * numbers.cycles
    return Work(max(begins for begins, _ in costs.values()), sum(sites.values()), max(sites.values()))


def said(seconds: float) -> str:
    """Seconds as people say them, no finer than they are known."""
    for unit, name in ((3600.0, "hours"), (60.0, "minutes")):
        if seconds >= 2 * unit:
            return f"{seconds / unit:.{1 if seconds < 10 * unit else 0}f} {name}"
    return f"{seconds:.{2 if seconds < 1 else 1 if seconds < 10 else 0}f} seconds"


def tell(program: str, file: str, is_grade: bool, processors: int) -> list[str]:
    """The lines that say how long a lot or a grade will take."""
    numbers, faults, work = estimate(program, file, is_grade)
    gates = ", ".join(f"{count:,}" for count in numbers.gates.values())
    lines = [f"gates {gates}; cycles of a try {numbers.cycles:,}; dies {numbers.dies:,} at {numbers.sites} sites, at most {numbers.tries:,} tries"]
    lines.append(f"{'grade' if is_grade else 'lot'}: {said(work.begins + work.all)} of a processor"
                 + (f" for {faults:,} faults" if is_grade else "") + f", {said(work.on(processors))} on {processors} processors")
    if is_grade and work.on(processors) >= 20:
        lines.append("farm/grade runs it in parts, says how far it is, and goes on after an end")
    elif work.on(processors) >= 20:
        lines.append("farm/lot runs it in parts, says how far it is, and goes on after an end")
    return lines
