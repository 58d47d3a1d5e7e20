"""Whether some values of inputs and flip-flops show a stuck net, as clauses: the good circuit beside the bad one.

A level is a pair of literals: that it is 1, and that it is 0; an unknown level is neither. Where nothing unknown comes in, the two are
opposites, and cost one variable.
"""

from collections.abc import Iterable
from dataclasses import dataclass, field

from stilfloor.atpg.circuit import Circuit, Stuck

Pair = tuple[int, int]
TRUE = 1
ONE, ZERO, UNKNOWN = (TRUE, -TRUE), (-TRUE, TRUE), (-TRUE, -TRUE)


@dataclass(slots=True)
class Case:
    """What is given: the values of nets that are known (inputs, flip-flops), those that may be chosen, and where one looks.

    Any other input or flip-flop is unknown.
    """

    known: dict[str, int]
    free: set[str]
    looks: list[str]


@dataclass(slots=True)
class Clauses:
    """Clauses over variables from 1 on, of which 1 is true; a gate that is asked for again is the one that is there."""

    rows: list[list[int]] = field(default_factory=lambda: [[TRUE]])
    count: int = 1
    made: dict[tuple[str, tuple[int, ...]], int] = field(default_factory=dict)

    def fresh(self) -> int:
        """A new variable."""
        self.count += 1
        return self.count

    def both(self, literals: Iterable[int]) -> int:
        """A literal that is true where all of these are."""
        some = set(literals) - {TRUE}
        if -TRUE in some or any(-part in some for part in some):
            return -TRUE
        parts = sorted(some)
        if len(parts) < 2:
            return parts[0] if parts else TRUE
        key = ("and", tuple(parts))
        if key not in self.made:
            self.made[key] = out = self.fresh()
            self.rows += [[-out, part] for part in parts]
            self.rows.append([out, *(-part for part in parts)])
        return self.made[key]

    def some(self, literals: Iterable[int]) -> int:
        """A literal that is true where one of these is."""
        return -self.both([-literal for literal in literals])

    def unlike(self, first: int, second: int) -> int:
        """A literal that is true where one of two is and the other isn't."""
        sign = (-1 if first < 0 else 1) * (-1 if second < 0 else 1)
        first, second = sorted((abs(first), abs(second)))
        if first == second:
            return -TRUE * sign
        if first == TRUE:
            return -second * sign
        key = ("xor", (first, second))
        if key not in self.made:
            self.made[key] = out = self.fresh()
            self.rows += [[-out, first, second], [-out, -first, -second], [out, -first, second], [out, first, -second]]
        return self.made[key] * sign

    def text(self) -> str:
        """The clauses as solvers read them."""
        return f"p cnf {self.count} {len(self.rows)}\n" + "".join(" ".join(map(str, row)) + " 0\n" for row in self.rows)


class Miter:
    """A good circuit beside one with a stuck net, in a case."""

    def __init__(self, circuit: Circuit, case: Case, fault: Stuck) -> None:
        self.circuit = circuit
        self.case = case
        self.fault = fault
        self.clauses = Clauses()
        self.good: dict[str, Pair] = {}
        self.bad: dict[str, Pair] = {}
        self.variables: dict[str, int] = {}
        changed = circuit.behind(fault[0])
        self.looks = [net for net in case.looks if net in changed]
        needed = circuit.before([*self.looks, fault[0]])
        for net in circuit.nets:
            if net in needed and (net in circuit.netlist.inputs or circuit.netlist.gates[net][0] == "DFF"):
                self.good[net] = self._start(net)
        self.bad[fault[0]] = ONE if fault[1] else ZERO
        for net in circuit.order:
            if net in needed:
                self.good[net] = self._gate(net, self.good, self.good)
                if net in changed and net != fault[0]:
                    self.bad[net] = self._gate(net, self.bad, self.good)
        self.seen = {net: self._seen(net) for net in self.looks}
        self.clauses.rows.append([self.clauses.some(self.seen.values())])

    def _start(self, net: str) -> Pair:
        if net in self.case.free:
            self.variables[net] = self.clauses.fresh()
            return self.variables[net], -self.variables[net]
        return {0: ZERO, 1: ONE}.get(self.case.known.get(net, 2), UNKNOWN)

    def _gate(self, net: str, own: dict[str, Pair], others: dict[str, Pair]) -> Pair:
        kind, inputs = self.circuit.netlist.gates[net]
        pairs = [own.get(used) or others[used] for used in inputs]
        if kind in ("AND", "NAND"):
            pair = self.clauses.both(one for one, _ in pairs), self.clauses.some(zero for _, zero in pairs)
        elif kind in ("OR", "NOR"):
            pair = self.clauses.some(one for one, _ in pairs), self.clauses.both(zero for _, zero in pairs)
        else:
            pair = pairs[0]
            for other in pairs[1:]:
                pair = self._unlike(pair, other)
        return (pair[1], pair[0]) if kind in ("NAND", "NOR", "XNOR", "NOT") else pair

    def _unlike(self, first: Pair, second: Pair) -> Pair:
        if first[0] == -first[1] and second[0] == -second[1]:
            out = self.clauses.unlike(first[0], second[0])
            return out, -out
        (one, zero), (other_one, other_zero) = first, second
        both, some = self.clauses.both, self.clauses.some
        return some([both([one, other_zero]), both([zero, other_one])]), some([both([one, other_one]), both([zero, other_zero])])

    def _seen(self, net: str) -> int:
        """A literal that is true where a look tells the circuits apart for sure."""
        good, bad = self.good[net], self.bad[net]
        return self.clauses.some([self.clauses.both([good[0], bad[1]]), self.clauses.both([good[1], bad[0]])])

    def text(self, fixed: dict[str, int] | None = None) -> str:
        """The clauses, with some values fixed."""
        some = [(self.variables[net], value) for net, value in (fixed or {}).items() if net in self.variables]
        rows = self.clauses.rows
        self.clauses.rows = rows + [[variable if value else -variable] for variable, value in some]
        text = self.clauses.text()
        self.clauses.rows = rows
        return text

    def cube(self, model: set[int]) -> dict[str, int]:
        """Values of few inputs and flip-flops that suffice, taken from a solution: back from one look along what settles each gate."""
        look = next(net for net, literal in self.seen.items() if self._holds(literal, model))
        cube: dict[str, int] = {}
        done: set[tuple[bool, str]] = set()
        waiting = [(False, look), (True, look)]
        while waiting:
            is_bad, net = waiting.pop()
            is_bad = is_bad and net in self.bad
            if (is_bad, net) in done or is_bad and net == self.fault[0]:
                continue
            done.add((is_bad, net))
            if net in self.variables:
                cube[net] = int(self.variables[net] in model)
            elif net in self.circuit.netlist.gates and self.circuit.netlist.gates[net][0] != "DFF":
                waiting += [(is_bad, used) for used in self._settling(net, is_bad, model, done)]
        return cube

    def _settling(self, net: str, is_bad: bool, model: set[int], done: set[tuple[bool, str]]) -> list[str]:
        """The inputs of a gate that settle it in a solution."""
        kind, inputs = self.circuit.netlist.gates[net]
        if kind not in ("AND", "NAND", "OR", "NOR"):
            return inputs
        place = 1 if kind in ("AND", "NAND") else 0
        pairs = {used: (self.bad.get(used) if is_bad else None) or self.good[used] for used in inputs}
        settles = [used for used, pair in pairs.items() if self._holds(pair[place], model)]
        known = [used for used in settles if (is_bad, used) in done or used in self.variables]
        return (known or settles)[:1] or inputs

    @staticmethod
    def _holds(literal: int, model: set[int]) -> bool:
        return literal in model or literal == TRUE
