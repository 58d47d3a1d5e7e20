"""A netlist as a circuit: its nets in an order in which each comes behind those that it reads, who reads them, and its stuck faults."""

from collections.abc import Iterable
from dataclasses import dataclass, field

from stilfloor.testbench.nets import Netlist, read_netlist

# a net, and the value at which it is stuck
Stuck = tuple[str, int]
# the input value that settles a gate, and what the gate shows then
SETTLES = {"AND": (0, 0), "NAND": (0, 1), "OR": (1, 1), "NOR": (1, 0)}
SINGLE = {"NOT": 1, "BUF": 0, "BUFF": 0}


@dataclass(slots=True)
class Circuit:
    """A circuit: its netlist, the nets of its gates in order, and the nets that read each net."""

    netlist: Netlist
    order: list[str] = field(default_factory=list)
    readers: dict[str, list[str]] = field(default_factory=dict)

    @property
    def nets(self) -> list[str]:
        """All nets."""
        return [*self.netlist.inputs, *self.netlist.gates]

    @property
    def faults(self) -> list[Stuck]:
        """Each net stuck at 0 and at 1."""
        return [(net, value) for net in self.nets for value in (0, 1)]

    def behind(self, net: str) -> set[str]:
        """The nets that hang on a net within a cycle, itself too."""
        found, waiting = {net}, [net]
        while waiting:
            for reader in self.readers.get(waiting.pop(), []):
                if reader not in found and self.netlist.gates[reader][0] != "DFF":
                    found.add(reader)
                    waiting.append(reader)
        return found

    def before(self, nets: Iterable[str]) -> set[str]:
        """The nets on which nets hang within a cycle, themselves too."""
        found, waiting = set(nets), list(nets)
        while waiting:
            kind, inputs = self.netlist.gates.get(waiting.pop(), ("", []))
            fresh = [net for net in inputs if net not in found] if kind != "DFF" else []
            found.update(fresh)
            waiting += fresh
        return found


def circuit_of(file: str) -> Circuit:
    """The circuit of a netlist."""
    return made(read_netlist(file))


def made(netlist: Netlist) -> Circuit:
    """The circuit of a netlist that is read."""
    circuit = Circuit(netlist)
    waiting = {net: len(inputs) for net, (kind, inputs) in netlist.gates.items() if kind != "DFF"}
    for net, (_, inputs) in netlist.gates.items():
        for used in inputs:
            circuit.readers.setdefault(used, []).append(net)
    ready = [*netlist.inputs, *netlist.registers]
    while ready:
        for reader in circuit.readers.get(ready.pop(), []):
            if reader in waiting:
                waiting[reader] -= 1
                if not waiting[reader]:
                    ready.append(reader)
                    circuit.order.append(reader)
    return circuit


class Classes:
    """Faults that no test tells apart, by rules within a gate: a stuck input that settles its gate is as its output stuck.

    The input's net must have that one reader, and be no output, else the two are told apart elsewhere.
    """

    def __init__(self, circuit: Circuit) -> None:
        self.above: dict[Stuck, Stuck] = {}
        outputs = circuit.netlist.outputs
        for net, (kind, inputs) in circuit.netlist.gates.items():
            alone = [used for used in inputs if len(circuit.readers[used]) == 1 and used not in outputs]
            for used in alone:
                for value, shows in self._rules(kind, len(inputs)):
                    self.above[self.of((used, value))] = self.of((net, shows))

    @staticmethod
    def _rules(kind: str, count: int) -> list[tuple[int, int]]:
        if kind in SINGLE:
            return [(value, value ^ SINGLE[kind]) for value in (0, 1)]
        if kind in SETTLES and count == 1:
            return [(value, value ^ (kind in ("NAND", "NOR"))) for value in (0, 1)]
        return [SETTLES[kind]] if kind in SETTLES else []

    def of(self, fault: Stuck) -> Stuck:
        """The fault that stands for a fault's class."""
        while fault in self.above:
            fault = self.above[fault]
        return fault
