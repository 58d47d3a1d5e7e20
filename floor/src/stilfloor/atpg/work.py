"""The work of making a scan test: a chain test, random loads while they find something, and a load by SAT for each fault that is left."""

import hashlib
import json
import os
import random
import sys
import time
from dataclasses import dataclass, field
from typing import Any

from stilfloor import plans
from stilfloor.atpg.circuit import Classes, Stuck
from stilfloor.atpg.lots import Floor, grade_of, starts_of
from stilfloor.atpg.miter import Case, Miter
from stilfloor.atpg.refute import why_not_refuted
from stilfloor.atpg.setting import Load, Setting
from stilfloor.atpg.solver import solve
from stilfloor.faults import REFUSED, UNREADABLE, Fault
from stilfloor.names import replacing

BATCH = 8
# so many other faults are asked for in a load that is made for one, and so often a fault gets a load that doesn't find it
MORE, AGAIN = 12, 3
OPEN = {
    "time": "no answer in the time that a question has",
    "proof": "nothing shows it, by a proof that couldn't be checked",
    "unknown": "a load would have to know a level that is unknown: a flip-flop outside the chains, or an input that nothing drives",
    "sequential": "no load and one capture show it, though some values of inputs and flip-flops do: it wants several cycles, or another capture",
    "shift": "it disturbs the shift: loads that should show it don't",
    "loads": "there were no loads left for it",
}


@dataclass(slots=True)
class Wish:
    """What is asked for: at most so many loads, a seed, whether loads are made few, seconds a question, and where the test goes."""

    out: str
    most: int | None = None
    seed: int = 1
    is_compact: bool = False
    seconds: int = 10
    is_resumed: bool = False


@dataclass(slots=True)
class Done:
    """What has come of it: the loads, and of each class of faults `found`, `refuted` or why it is open."""

    loads: list[Load] = field(default_factory=list)
    verdicts: dict[Stuck, str] = field(default_factory=dict)
    is_random_done: bool = False

    def plain(self, total: str) -> dict[str, Any]:
        """The same as data, with the sum of what it is of."""
        return {"of": total, "random": self.is_random_done, "loads": [[*load.scan, load.inputs, load.sides] for load in self.loads],
                "verdicts": [[net, value, verdict] for (net, value), verdict in self.verdicts.items()]}


class Work:
    """Makes the test of a setting."""

    def __init__(self, setting: Setting, wish: Wish, room: str) -> None:
        self.setting = setting
        self.wish = wish
        self.room = room
        self.floor = Floor(setting.plan, setting.bench, room)
        self.classes = Classes(setting.circuit)
        self.faults = setting.circuit.faults
        self.heads = list(dict.fromkeys(map(self.classes.of, self.faults)))
        self.bits = random.Random(wish.seed)
        self.done = Done()
        self.began = self.kept_at = time.monotonic()
        self.case = self._capture()

    def _capture(self) -> Case:
        setting = self.setting
        cells = [net for chain in setting.chains for net, _ in chain.cells]
        gates = setting.circuit.netlist.gates
        looks = dict.fromkeys([*(net for _, net in setting.outputs), *(gates[net][1][0] for net in cells)])
        return Case(setting.levels, {*(net for _, net in [*setting.inputs, *setting.sides]), *cells}, list(looks))

    def run(self) -> str:
        """The test's text."""
        if self.wish.is_resumed:
            self._resume()
        if not self.done.is_random_done:
            self._credit([], True)
            self._random()
        for fault in self.heads:
            if fault not in self.done.verdicts:
                self._target(fault)
        if self.wish.is_compact:
            self._compact()
        text = self._finish()
        self._bar(True)
        return text

    def open_faults(self) -> list[Stuck]:
        """The classes of which nothing is known yet."""
        return [fault for fault in self.heads if fault not in self.done.verdicts]

    def _is_full(self) -> bool:
        return self.wish.most is not None and len(self.done.loads) >= self.wish.most

    def _credit(self, loads: list[Load], has_test: bool = False) -> set[Stuck]:
        """Runs loads against all open faults, keeps those that find one first, and answers what is found."""
        text = self.floor.learnt(self.setting.text(loads, has_test))
        found = {fault: how for fault, how in self.floor.found(text, self.open_faults()).items() if how.is_sure}
        long = max(chain.length for chain in self.setting.chains)
        first = starts_of(self.setting, loads, has_test)[0] + long
        finders = {(how.cycle - first) // (long + 1) for how in found.values()}
        self.done.loads += [load for number, load in enumerate(loads) if number in finders]
        self.done.verdicts.update(dict.fromkeys(found, "found"))
        self._keep()
        return set(found)

    def _filled(self) -> str:
        return "".join(self.bits.choice("01") for _ in range(self.setting.size))

    def _random(self) -> None:
        """Random loads while they find something."""
        found = True
        while found and self.open_faults() and not self._is_full():
            count = BATCH if self.wish.most is None else min(BATCH, self.wish.most - len(self.done.loads))
            found = bool(self._credit([self.setting.load_of({}, self._filled()) for _ in range(count)]))
            self._bar()
        self.done.is_random_done = True

    def _target(self, fault: Stuck) -> None:
        """Makes a load for a fault, or says why there is none."""
        for _ in range(AGAIN):
            if self._is_full():
                self.done.verdicts[fault] = OPEN["loads"]
                return
            miter = Miter(self.setting.circuit, self.case, fault)
            answer = solve(miter.text(), self.wish.seconds)
            if answer.model is None:
                self.done.verdicts[fault] = self._verdict(fault) if answer.is_refuted else OPEN["time"]
                self._bar()
                return
            cube = miter.cube(answer.model)
            if self.wish.is_compact:
                cube = self._merged(cube, fault)
            found = self._credit([self.setting.load_of(cube, self._filled())])
            self._bar()
            if fault in found:
                return
        self.done.verdicts[fault] = OPEN["shift"]

    def _merged(self, cube: dict[str, int], fault: Stuck) -> dict[str, int]:
        """The values of a load that shows further faults where that doesn't contradict those that it has."""
        for other in [other for other in self.open_faults() if other != fault][:MORE]:
            miter = Miter(self.setting.circuit, self.case, other)
            answer = solve(miter.text(cube), self.wish.seconds)
            if answer.model is not None:
                cube = {**cube, **miter.cube(answer.model)}
        return cube

    def _verdict(self, fault: Stuck) -> str:
        """Of a fault that no load and capture show: whether nothing at all shows it."""
        why = why_not_refuted(self.setting.circuit, self.setting.held, fault, self.wish.seconds, self.room)
        if why != "solved":
            return OPEN[why] if why else "refuted"
        known = {**dict.fromkeys(self.setting.circuit.netlist.registers, 0), **dict.fromkeys(self.setting.circuit.netlist.inputs, 0)}
        freed = Case(self.case.known, self.case.free | {net for net in known if net not in self.case.known}, self.case.looks)
        answer = solve(Miter(self.setting.circuit, freed, fault).text(), self.wish.seconds)
        return OPEN["sequential" if answer.model is None else "unknown"]

    def _compact(self) -> None:
        """Drops loads that find nothing which a later one or the chain test doesn't find, from the last to the first."""
        loads, verdicts = self.done.loads, self.done.verdicts
        self.done.loads, self.done.verdicts = [], {fault: verdict for fault, verdict in verdicts.items() if verdict != "found"}
        self._credit([], True)
        backward = loads[::-1]
        for front in range(0, len(backward), BATCH):
            self._credit(backward[front : front + BATCH])
        self.done.loads.reverse()
        for fault in self.open_faults():
            self.done.verdicts[fault] = verdicts[fault]

    def _finish(self) -> str:
        """The whole test with its values; what it doesn't find by the grade gets another load."""
        for number in range(AGAIN):
            text = self.floor.learnt(self.setting.text(self.done.loads, True))
            good, cycles = grade_of(self.floor, text)
            if good is not None:
                raise Fault(REFUSED, f"the good die fails in cycle {good} of what was learnt from it: is something of it never settled?", self.setting.program)
            lost = [fault for fault in self.faults if cycles.get(fault) is None and self.done.verdicts[self.classes.of(fault)] == "found"]
            kept = {self.classes.of(fault) for fault in self.faults if cycles.get(fault) is not None}
            self.done.verdicts.update(dict.fromkeys(kept, "found"))
            if not lost:
                break
            for head in {self.classes.of(fault): None for fault in lost}:
                del self.done.verdicts[head]
                if number + 1 < AGAIN:
                    self._target(head)
                else:
                    self.done.verdicts[head] = OPEN["shift"]
        return text

    def _path(self) -> str:
        return self.wish.out + ".work"

    def _sum(self) -> str:
        """The sum of all that the work is of."""
        texts = [plans.read_text(file) for file in (self.setting.bench, self.setting.program)]
        total = hashlib.sha256("\0".join([*texts, repr(self.setting.plan.binding()), str(self.wish.seed)]).encode("latin-1"))
        return total.hexdigest()

    def _keep(self) -> None:
        """Keeps what is done so far, at most once in two seconds."""
        if time.monotonic() - self.kept_at > 2:
            with replacing(self._path()) as out:
                json.dump(self.done.plain(self._sum()), out)
            self.kept_at = time.monotonic()

    def _resume(self) -> None:
        """Goes on where an earlier run ended."""
        if not os.path.exists(self._path()):
            raise Fault(UNREADABLE, "there is no work to go on with: leave --resume out", self._path())
        try:
            with open(self._path(), encoding="utf-8") as stream:
                kept = json.load(stream)
            is_same = kept["of"] == self._sum()
            self.done = Done([Load(row[:-2], row[-2], row[-1]) for row in kept["loads"]], {(net, value): said for net, value, said in kept["verdicts"]},
                             bool(kept["random"]))
        except (OSError, ValueError, KeyError, TypeError, IndexError) as error:
            raise Fault(UNREADABLE, f"this is no kept work: {error}", self._path()) from error
        if not is_same:
            raise Fault(REFUSED, "this work is of another netlist, text, plan or seed: leave --resume out", self._path())
        # (other random numbers than those that the first run had)
        self.bits = random.Random(f"{self.wish.seed} {len(self.done.loads)}")

    def forget(self) -> None:
        """Takes the kept work away, as the test is written."""
        if os.path.exists(self._path()):
            os.unlink(self._path())

    def counts(self) -> dict[str, int]:
        """How many faults are found, refuted and open."""
        counts = {"found": 0, "refuted": 0, "open": 0}
        for fault in self.faults:
            verdict = self.done.verdicts.get(self.classes.of(fault), "open")
            counts[verdict if verdict in counts else "open"] += 1
        return counts

    def _bar(self, is_last: bool = False) -> None:
        """Draws a bar on a terminal."""
        if sys.stderr.isatty():
            counts = self.counts()
            done = 40 * (len(self.faults) - counts["open"]) // max(1, len(self.faults))
            print(f"\r[{'#' * done}{' ' * (40 - done)}] {counts['found']:,} of {len(self.faults):,} faults, {len(self.done.loads)} loads, "
                  f"{time.monotonic() - self.began:.0f} s ", end="\n" if is_last else "", file=sys.stderr, flush=True)
