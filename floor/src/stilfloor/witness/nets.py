"""Random netlists in the bench form, with scan chains."""

import random
from dataclasses import dataclass, field

from stilfloor.benches import Gate

WIDE = ("AND", "NAND", "OR", "NOR", "XOR", "XNOR")
SINGLE = ("NOT", "BUF", "BUFF")
MOST_GATES = 200
MARKS = ("", "G", "n_", "N[", "x.", "$", "a'b", "q\"", "^", "\\", "`n", "//")


@dataclass(slots=True)
class Net:
    """A netlist: its inputs, outputs and gates, its chains as lists of cells, and what drives scan: enable, ends, and the reset."""

    inputs: list[str] = field(default_factory=list)
    outputs: list[str] = field(default_factory=list)
    gates: list[Gate] = field(default_factory=list)
    chains: list[list[str]] = field(default_factory=list)
    scan_ins: list[str] = field(default_factory=list)
    enable: str = ""
    reset: str = ""

    def text(self, chance: random.Random) -> str:
        """The netlist's text, whose lines stand in any order with comments and blanks."""
        lines = [f"INPUT({net})" for net in self.inputs] + [f"OUTPUT({net})" for net in self.outputs] + [str(gate) for gate in self.gates]
        chance.shuffle(lines)
        return "\n".join(chance.choice(("", "", "", " ", "\t")) + line + chance.choice(("", "", " ", " # x", "\r")) for line in lines) + "\n"

    @property
    def nets(self) -> list[str]:
        """All nets."""
        return self.inputs + [gate.net for gate in self.gates]


class Namer:
    """Names of nets of one kind of spelling."""

    def __init__(self, chance: random.Random) -> None:
        self.mark = chance.choice(MARKS)
        self.count = 0

    def new(self) -> str:
        """The next name."""
        self.count += 1
        return f"{self.mark}{self.count}" + ("]" if self.mark.endswith("[") else "")


def random_net(chance: random.Random) -> Net:
    """A netlist with up to 200 gates and two chains."""
    names = Namer(chance)
    net = Net([names.new() for _ in range(chance.randint(1, 8))])
    cells = [names.new() for _ in range(chance.choice((0, 1, 2, 3, 5, 8, 13)))]
    if chance.random() < 0.7 and cells:
        net.reset = names.new()
        net.inputs.append(net.reset)
    known = net.inputs + cells
    for _ in range(chance.choice((0, 2, 5, 12, 30, 60, MOST_GATES - 5 * len(cells) - 1))):
        net.gates.append(_random_gate(names.new(), known[-40:] + net.inputs, chance))
        known.append(net.gates[-1].net)
    _put_registers(net, cells, known, names, chance)
    shown = [chance.choice(net.nets) for _ in range(chance.randint(1, 7))] + [chance.choice(net.inputs) for _ in range(chance.randint(0, 2))]
    net.outputs = list(dict.fromkeys(shown))
    net.outputs += [chain[-1] for chain in net.chains if chain[-1] not in net.outputs]
    return net


def _random_gate(name: str, known: list[str], chance: random.Random) -> Gate:
    kind = chance.choice(WIDE + SINGLE)
    count = 1 if kind in SINGLE else chance.choice((1, 2, 2, 2, 3, 3, 5, 9))
    spelled = chance.choice((kind, kind, kind.lower(), kind.title()))
    return Gate(name, spelled, [chance.choice(known) for _ in range(count)])


def _put_registers(net: Net, cells: list[str], known: list[str], names: Namer, chance: random.Random) -> None:
    """The flip-flops, behind a reset where there is one, and behind a choice of scan data where there are chains."""
    sources = [chance.choice(known) for _ in cells]
    if net.reset:
        resets = [Gate(names.new(), "AND", [source, net.reset]) for source in sources]
        net.gates += resets
        sources = [gate.net for gate in resets]
    count = chance.choice((0, 1, 2)) if len(cells) >= 2 else 0
    if count:
        net.enable = names.new()
        mission = Gate(names.new(), "NOT", [net.enable])
        net.inputs.append(net.enable)
        net.gates.append(mission)
        cut = chance.randint(1, len(cells) - 1)
        net.chains = [cells[:cut], cells[cut:]] if count == 2 else [cells[:cut]]
        sources = _put_chains(net, dict(zip(cells, sources)), mission.net, names)
    net.gates += [Gate(cell, "DFF", [source]) for cell, source in zip(cells, sources)]


def _put_chains(net: Net, sources: dict[str, str], mission: str, names: Namer) -> list[str]:
    """A choice in front of each cell of the chains; what each flip-flop reads then."""
    for chain in net.chains:
        before = names.new()
        net.inputs.append(before)
        net.scan_ins.append(before)
        for cell in chain:
            kept, shifted, chosen = names.new(), names.new(), names.new()
            net.gates += [Gate(kept, "AND", [mission, sources[cell]]), Gate(shifted, "AND", [net.enable, before]),
                          Gate(chosen, "OR", [kept, shifted])]
            sources[cell] = chosen
            before = cell
    return list(sources.values())
