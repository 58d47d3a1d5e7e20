"""Lots of dies with one stuck net each: which of them a program finds, and where first. The program `stil` alone says so."""

import os
import shutil
from dataclasses import dataclass

from stilfloor import learn, plans, records, tester
from stilfloor.atpg.circuit import Stuck
from stilfloor.atpg.setting import Load, Setting
from stilfloor.faults import Fault
from stilfloor.sentences import refusal

SITES = 8
# so many fails of a die are looked through for one that is sure
KEPT = 32


@dataclass(slots=True)
class Found:
    """How a stuck net is found: the first cycle that fails, and whether a fail shows a level that is known."""

    cycle: int
    is_sure: bool


class Floor:
    """Runs programs on dies of one netlist, in a folder of their own."""

    def __init__(self, plan: plans.Plan, bench: str, room: str, skews: list[tuple[str, int]] | None = None) -> None:
        self.plan = plan
        self.skews = skews or []
        self.bench = bench
        self.room = room
        self.runs = 0
        shutil.copyfile(bench, os.path.join(room, "die.bench"))

    def learnt(self, text: str) -> str:
        """A text with the values that the good die shows."""
        paths = [os.path.join(self.room, name) for name in ("new.stil", "good.csv")]
        netlist = os.path.join(self.room, "die.bench")
        rows = [["lot", str(self.plan.batch), "1", "1"], *self.plan.binding(), ["die", "0", "good", netlist]]
        for path, written in zip(paths, (text, plans.write_rows(rows))):
            with open(path, "w", encoding="latin-1", newline="") as out:
                out.write(written)
        try:
            return learn.learn(*paths).text
        except Fault as fault:
            # (it is of the loads, whose text no one has seen)
            raise Fault(fault.status, fault.text, self.plan.file) from fault

    def found(self, program: str, faults: list[Stuck]) -> dict[Stuck, Found]:
        """The stuck nets that a program finds."""
        self.save(program)
        return self.run(faults, KEPT)

    def run(self, faults: list[Stuck], kept: int) -> dict[Stuck, Found]:
        """The stuck nets that the program in the folder finds, so many fails of each looked through."""
        found: dict[Stuck, Found] = {}
        most = min(plans.MOST_DIES, plans.MOST_FAILS // kept)
        for front in range(0, len(faults), most):
            found.update(self._lot(faults[front : front + most], kept))
        return found

    def told_apart(self, faults: list[Stuck]) -> dict[Stuck, bool]:
        """Whether the program in the folder finds each of these stuck nets by a level that is known."""
        found = self.run(faults, KEPT)
        again = [fault for fault in faults if not (fault in found and found[fault].is_sure)]
        if again:
            found.update(self.run(again, plans.MOST_KEPT))
        return {fault: fault in found and found[fault].is_sure for fault in faults}

    def save(self, program: str) -> None:
        """Puts a text into the folder, compiled."""
        path = os.path.join(self.room, "text.stil")
        with open(path, "w", encoding="latin-1", newline="") as out:
            out.write(program)
        status, output = tester.run(["save", path])
        if status:
            raise refusal(output.decode("latin-1"), status, path)
        with open(os.path.join(self.room, "program"), "wb") as saved:
            saved.write(output)

    def _lot(self, faults: list[Stuck], kept: int) -> dict[Stuck, Found]:
        rows = [["lot", str(self.plan.batch), "1", str(kept)], *self.plan.binding()]
        for number, (net, value) in enumerate(faults):
            site = str(number % SITES)
            rows += [["die", site, f"f{number}", "die.bench"], ["fault", site, f"f{number}", net, str(value)]]
        for number in range(min(SITES, len(faults))):
            rows += [["skew", str(number), signal, str(amount)] for signal, amount in self.skews]
        with open(os.path.join(self.room, "lot.csv"), "w", encoding="latin-1") as out:
            out.write(plans.write_rows(rows))
        status, output = tester.run(["lot", "program", "lot.csv"], self.room)
        self.runs += 1
        if status:
            fault = refusal(output.decode("latin-1"), status, "program", self.plan.file)
            raise Fault(fault.status, fault.text, self.plan.file)
        found = {}
        for die in records.Datalog(output.decode("latin-1").splitlines(keepends=True)):
            attempt = die.tries[0]
            if attempt.fails:
                sure = [fail.cycle for fail in attempt.kept if fail.seen in "01"]
                found[faults[int(die.name[1:])]] = Found(sure[0] if sure else attempt.kept[0].cycle, bool(sure))
        return found


def grade_of(floor: Floor, program: str) -> tuple[int | None, dict[Stuck, int | None]]:
    """The grade of a program: the first cycle that fails on the good die, and that of each stuck net."""
    floor.save(program)
    return graded(floor)


def graded(floor: Floor) -> tuple[int | None, dict[Stuck, int | None]]:
    """The same of the program in the folder."""
    rows = [["lot", str(floor.plan.batch), "1", "1"], *floor.plan.binding(), ["die", "0", "good", "die.bench"]]
    rows += [["skew", "0", signal, str(amount)] for signal, amount in floor.skews]
    with open(os.path.join(floor.room, "grade.csv"), "w", encoding="latin-1") as out:
        out.write(plans.write_rows(rows))
    status, output = tester.run(["grade", "program", "grade.csv"], floor.room)
    if status:
        raise refusal(output.decode("latin-1"), status, "program", floor.plan.file)
    grade = records.Grade(output.decode("latin-1").splitlines(keepends=True), "grade")
    cycles = {(fault.net, fault.value): fault.cycle for fault in grade}
    return grade.good, cycles


def starts_of(setting: Setting, loads: list[Load], has_test: bool) -> list[int]:
    """The first cycle of each load, and last that of the end; each load has one shift and one capture."""
    long = max(chain.length for chain in setting.chains)
    first = long if has_test else 0
    return [first + number * (long + 1) for number in range(len(loads) + 1)]
