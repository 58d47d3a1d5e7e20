"""Counts the faults of a program's grade: what is found for sure, what by an unknown level alone, what is refuted and what is open."""

import os
import shutil
from collections import Counter
from dataclasses import dataclass, field

from stilfloor import plans, records, saved
from stilfloor.atpg.circuit import Circuit, Classes, Stuck, circuit_of
from stilfloor.atpg.lots import Floor, graded
from stilfloor.atpg.refute import why_not_refuted
from stilfloor.coverage.seen import Seer
from stilfloor.faults import REFUSED, Fault
from stilfloor.sentences import refusal

SURE, UNKNOWN, REFUTED, OPEN = "sure", "unknown", "refuted", "open"
STATES = (SURE, UNKNOWN, REFUTED, OPEN)
# so many open nets are looked at for a reason
MOST_ASKED = 256
LEVELS = {"D": 0, "U": 1}


@dataclass(slots=True)
class Counted:
    """A fault: its net and value, the fault that stands for its class, its state, the cycle that finds it, and why it is open."""

    net: str
    value: int
    head: Stuck
    state: str
    cycle: int | None
    why: str = ""


@dataclass(slots=True)
class Coverage:
    """All faults, in the grade's order, and what is said beside them."""

    program: str
    faults: list[Counted] = field(default_factory=list)
    notes: list[str] = field(default_factory=list)

    def counts(self, is_collapsed: bool) -> Counter[str]:
        """How many faults have each state; of each class one, where it is collapsed."""
        some = {fault.head: fault for fault in reversed(self.faults)}.values() if is_collapsed else self.faults
        return Counter(fault.state for fault in some)


def held_nets(code: saved.Code, circuit: Circuit, plan: plans.Plan) -> dict[str, int]:
    """The inputs that no wave of the program drives otherwise than to one level."""
    binds = {row[1]: row[2] for row in plan.rows if row[0] == "bind"}
    acts: dict[str, set[str]] = {}
    for table in code.tables:
        for (signal, _), events in table.waves.items():
            acts.setdefault(binds.get(code.signals[signal][1], code.signals[signal][1]), set()).update(act for _, act in events)
    return {net: LEVELS[next(iter(some))] for net, some in acts.items() if net in circuit.netlist.inputs and some in ({"D"}, {"U"})}


class Counting:
    """Counts the faults of a program and the first die of a plan, in a folder of its own."""

    def __init__(self, program: str, plan_file: str, room: str, seconds: int) -> None:
        self.program = program
        self.plan = plans.read_plan(plan_file)
        if not self.plan.dies:
            raise Fault(REFUSED, "the plan has no die; add a row `die,0,NAME,FILE,,`", plan_file)
        self.bench = self.plan.dies[0].netlist
        if not os.path.exists(self.bench):
            raise refusal(f"read fault {self.bench}", 2, program)
        self.room = room
        self.seconds = seconds
        self.code = saved.code_of(program)
        self.circuit = circuit_of(self.bench)
        self.floor = Floor(self.plan, self.bench, room, self.plan.skews(self.plan.dies[0].site))
        with open(os.path.join(room, "program"), "wb") as out:
            out.write(saved.bytes_of(program))

    def count(self, grade_file: str | None) -> Coverage:
        """The coverage, by a grade that is there or that is made."""
        good, cycles = self._grade(grade_file)
        if good is not None:
            raise Fault(REFUSED, f"the good die fails in cycle {good}, so faults are found that aren't there, and nothing is counted: its program, netlist "
                        "and plan aren't of each other", grade_file or self.program)
        made = Coverage(self.program)
        found = [fault for fault, cycle in cycles.items() if cycle is not None]
        how = self.floor.told_apart(found)
        classes = Classes(self.circuit)
        for (net, value), cycle in cycles.items():
            state = OPEN if cycle is None else SURE if how[net, value] else UNKNOWN
            made.faults.append(Counted(net, value, classes.of((net, value)), state, cycle))
        self._refute(made)
        self._reasons(made)
        return made

    def _grade(self, file: str | None) -> tuple[int | None, dict[Stuck, int | None]]:
        if file is None:
            return graded(self.floor)
        with records.grade(file) as grade:
            cycles = {(fault.net, fault.value): fault.cycle for fault in grade}
        if set(cycles) != set(self.circuit.faults):
            raise Fault(REFUSED, f"this grade is of other nets than those of {self.bench}", file)
        return grade.good, cycles

    def _refute(self, made: Coverage) -> None:
        """Proves of faults that aren't found that nothing shows them, once a class."""
        left = [fault for fault in made.faults if fault.state == OPEN]
        if left and not shutil.which("cadical"):
            made.notes.append("no fault is refuted, as cadical isn't there")
            return
        held = held_nets(self.code, self.circuit, self.plan)
        known: dict[Stuck, str] = {}
        for fault in left:
            if fault.head not in known:
                known[fault.head] = why_not_refuted(self.circuit, held, fault.head, self.seconds, self.room)
            if not known[fault.head]:
                fault.state = REFUTED

    def _reasons(self, made: Coverage) -> None:
        """Says of open faults why, as far as the good die shows it."""
        left = [fault for fault in made.faults if fault.state == OPEN]
        nets = list(dict.fromkeys(fault.net for fault in left))
        if not nets:
            return
        seer = Seer(self.program, self.plan, self.circuit, self.bench, self.room)
        shown = {net: seer.shown(net) for net in nets[:MOST_ASKED] if not seer.why}
        for fault in left:
            net = shown.get(fault.net)
            if net is None or seer.why:
                fault.why = seer.why or f"not asked, as {MOST_ASKED} nets before it are"
                continue
            cycle = net.zero if fault.value else net.one
            wanted = 1 - fault.value
            if cycle is not None:
                fault.why = f"set and never seen: the net is {wanted} in cycle {cycle}, and no look shows it"
            elif net.zero is None and net.one is None:
                fault.why = "never set: the net is unknown wherever it is looked at"
            else:
                fault.why = f"never set: the net is {wanted} nowhere where it is looked at"
