"""Runs of dies in the simulator beside the program, and what is counted of them."""

import contextlib
import os
import random
import re
import tempfile
from collections import Counter
from collections.abc import Iterable
from dataclasses import dataclass, field

from stilfloor.faults import Fault
from stilfloor.learn import learn
from stilfloor.testbench import beside, make, simulator
from stilfloor.witness.features import features_of
from stilfloor.witness.nets import random_net
from stilfloor.witness.plans import random_plan
from stilfloor.witness.texts import Writer

# how many of the random programs learn their looks from a good die, and how many of these have nets that are stuck in a first try alone
LEARNS, HEALS = 0.55, 0.35
# how many of the looks that were learnt become windows
WINDOWS = 0.25


@dataclass(slots=True)
class Found:
    """What came of a die: its name, its features, how many looks failed, and what is wrong, if anything; or that it is refused."""

    name: str
    features: set[str] = field(default_factory=set)
    fails: int = 0
    is_refused: bool = False
    trouble: str = ""

    def __str__(self) -> str:
        what = self.trouble or ("refused by both" if self.is_refused else f"agree, {self.fails} fails")
        return f"{self.name}: {what}"


@dataclass(slots=True)
class Tally:
    """How many dies were run, how many of each feature, how many lots or dies were refused by both, and what differs."""

    dies: int = 0
    refused: int = 0
    features: Counter[str] = field(default_factory=Counter)
    differing: list[Found] = field(default_factory=list)

    def add(self, found: Found) -> None:
        """One more die."""
        self.dies += not found.is_refused
        self.refused += found.is_refused
        self.features.update(found.features)
        if found.trouble:
            self.differing.append(found)

    def lines(self) -> Iterable[str]:
        """What is said at the end."""
        yield from (str(found) for found in self.differing)
        refused = f"; {self.refused} refused" if self.refused else ""
        yield f"{self.dies} dies, {self.features['fails']} fail, {len(self.differing)} differ{refused}"
        if self.features:
            yield "dies with " + ", ".join(f"{name} {count}" for name, count in sorted(self.features.items()) if name != "fails")


def run_die(name: str, wish: make.Wish, room: str) -> Found:
    """A die in the simulator, and where the program prints something else of it."""
    job = make.job_of(wish)
    make.write(job, room)
    lines = simulator.simulate(room, [make.BENCH, make.DIE], [], [])
    difference = beside.difference(lines, beside.lot_lines(wish.program, job))
    return Found(name, features_of(job, lines), beside.fails_of(lines), False, str(difference or ""))


def write_random(seed: int, room: str) -> make.Wish:
    """A random netlist, text and plan in a folder."""
    chance = random.Random(seed)
    net = random_net(chance)
    learns = chance.random() < LEARNS
    program = Writer(net, chance, learns).write()
    wish = make.Wish(os.path.join(room, "p.stil"), os.path.join(room, "plan.csv"))
    bench = os.path.join(room, "n.bench")
    plan = random_plan(net, program, bench, chance, learns and chance.random() < HEALS)
    for path, text in ((bench, net.text(chance)), (wish.program, program.text), (wish.plan, plan)):
        _put(path, text)
    if learns:
        with contextlib.suppress(Fault):
            _put(wish.program, _with_windows(learn(wish.program, wish.plan).text, chance))
    return wish


def _with_windows(text: str, chance: random.Random) -> str:
    """The text with some of its looks as windows, which mostly are right as long as nothing moves."""
    head, mark, patterns = text.partition("Pattern p0")
    return head + mark + re.sub("(?<==)[LH](?=;)", lambda found: found[0].lower() if chance.random() < WINDOWS else found[0], patterns)


def _put(path: str, text: str) -> None:
    with open(path, "w", encoding="latin-1", newline="") as out:
        out.write(text)


def run_seed(seed: int) -> list[Found]:
    """A random die; one that can't be run is told, too."""
    with tempfile.TemporaryDirectory() as room:
        try:
            return [run_die(f"seed {seed}", write_random(seed, room), os.path.join(room, "bench"))]
        except Fault as fault:
            return [Found(f"seed {seed}", trouble=fault.told())]
