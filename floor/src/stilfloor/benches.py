"""Netlists in the bench form, made of a design's gates, with scan chains where they are asked for."""

import re
from dataclasses import dataclass, field

from stilfloor.faults import REFUSED, Fault
from stilfloor.names import remark
from stilfloor.verilog import Bit, Design, Module, bit_names, indexed

GATES = {
    "$_AND_": "AND", "$_NAND_": "NAND", "$_OR_": "OR", "$_NOR_": "NOR", "$_XOR_": "XOR", "$_XNOR_": "XNOR", "$_NOT_": "NOT",
    "$_BUF_": "BUFF",
}


@dataclass(slots=True)
class Gate:
    """A gate line: its net, its kind, the nets that it reads, and the pins at which it does, where a cell has names for them."""

    net: str
    kind: str
    inputs: list[str]
    labels: list[str] = field(default_factory=list)

    def __str__(self) -> str:
        return f"{self.net} = {self.kind}({', '.join(self.inputs)})"


@dataclass(slots=True)
class ScanChain:
    """A scan chain: its signals, and its cells from scan-in to scan-out; the last one's net is where it ends."""

    name: str
    scan_in: str
    scan_out: str
    cells: list[str]


@dataclass(slots=True)
class Bench:
    """A netlist: its clock, inputs, ties and held ones (inputs with their constant value), outputs, gates and chains, and notes on it."""

    name: str
    clock: str | None = None
    inputs: list[str] = field(default_factory=list)
    ties: dict[str, str] = field(default_factory=dict)
    held: dict[str, str] = field(default_factory=dict)
    outputs: list[str] = field(default_factory=list)
    gates: list[Gate] = field(default_factory=list)
    chains: list[ScanChain] = field(default_factory=list)
    enable: str = ""
    notes: list[str] = field(default_factory=list)
    # the net of each bit of the design's ports
    ports: dict[str, str] = field(default_factory=dict)
    # what is said of it beside its text
    told: list[str] = field(default_factory=list)

    @property
    def constants(self) -> dict[str, str]:
        """The inputs that a test drives to one value."""
        return {**self.ties, **self.held}

    def text(self, source: str) -> str:
        """The netlist's text; `source` says in its first line from what it is made."""
        extra = [self.enable] if self.enable else []
        inputs = [*self.inputs, *self.constants, *extra, *(chain.scan_in for chain in self.chains)]
        if self.clock and any(self.clock in gate.inputs for gate in self.gates):
            inputs.insert(0, self.clock)
        ends = [chain.cells[-1] for chain in self.chains]
        outputs = [*self.outputs, *(end for end in dict.fromkeys(ends) if end not in self.outputs)]
        lines = [f"# {remark(self.name)}, made from {source}"]
        lines += [f"# {net} is held at {value}: the netlist is that of a test that never drives it otherwise" for net, value in self.held.items()]
        lines += [f"# {remark(note)}" for note in self.notes]
        lines += [f"INPUT({net})" for net in inputs] + [f"OUTPUT({net})" for net in outputs]
        return "\n".join([*lines, *map(str, self.gates)]) + "\n"


class Names:
    """Names of nets as the bench form has them, each given once."""

    def __init__(self) -> None:
        self.taken: set[str] = set()
        self.numbers: dict[str, int] = {}

    def new(self, wish: str) -> str:
        """The wished name where it is free and can stand, else one like it."""
        plain = re.sub(r"[^\x21-\x7e]|[(),=#\"']", "_", wish)[:1000] or "_"
        name = plain
        while name in self.taken:
            self.numbers[plain] = self.numbers.get(plain, 0) + 1
            name = f"{plain}_{self.numbers[plain]}"
        self.taken.add(name)
        return name


class Maker:
    """Makes a netlist of a design: first the ports get their names, then the other nets, and then the gates are written."""

    def __init__(self, design: Design, file: str) -> None:
        self.module = design.module
        self.file = file
        self.names = Names()
        self.nets: dict[Bit, str] = {}
        self.bench = Bench(design.name)
        self.clock = design.clock
        self.held = design.held
        self.resets = design.resets
        self.wishes = bit_names(design.module)

    def make(self) -> Bench:
        """The netlist."""
        outputs = self._ports()
        for cell in self.module["cells"].values():
            for bit in cell["connections"]["Y" if "Y" in cell["connections"] else "Q"]:
                if bit not in self.nets:
                    wish = self.wishes.get(bit, "n")
                    self.nets[bit] = self.names.new("n" if wish.startswith("$") else wish)
        for cell in sorted(self.module["cells"].values(), key=lambda cell: cell["type"] != "$_DFF_P_"):
            self.bench.gates.append(self._gate(cell))
        for name, bit in outputs:
            if self.nets.get(bit) != name:
                self.bench.gates.append(Gate(name, "BUFF", [self._net(bit)]))
        return self.bench

    def _ports(self) -> list[tuple[str, Bit]]:
        """Names the bits of ports; those of outputs with their names."""
        outputs: list[tuple[str, Bit]] = []
        for title, port in sorted(self.module["ports"].items(), key=lambda entry: entry[1]["direction"]):
            for place, bit in enumerate(port["bits"]):
                wish = indexed(title, port, place)
                name = self.names.new(wish)
                self.bench.ports[wish] = name
                if port["direction"] == "input":
                    self.nets[bit] = name
                    if wish == self.clock:
                        self.bench.clock = name
                    elif wish in self.held:
                        self.bench.held[name] = self.held[wish]
                    else:
                        self.bench.inputs.append(name)
                else:
                    self.bench.outputs.append(name)
                    outputs.append((name, bit))
                    if isinstance(bit, int):
                        self.nets.setdefault(bit, name)
        return outputs

    def _net(self, bit: Bit) -> str:
        """The net of a bit; a constant's is a tie."""
        if bit in ("0", "1"):
            for name, value in self.bench.ties.items():
                if value == bit:
                    return name
            name = self.names.new(f"tie{bit}")
            self.bench.ties[name] = str(bit)
            return name
        if bit not in self.nets or isinstance(bit, str):
            known = self.wishes.get(bit, str(bit))
            text = f"nothing drives `{known}`" if isinstance(bit, int) else f"a constant `{bit}` is left in the design"
            raise Fault(REFUSED, f"{text}: a bench die's nets are driven to 0 or 1", self.file)
        return self.nets[bit]

    def _gate(self, cell: Module) -> Gate:
        """The gate line of a cell."""
        kind, ends = cell["type"], cell["connections"]
        if kind == "$_DFF_P_":
            return Gate(self._net(ends["Q"][0]), "DFF", [self._net(ends["D"][0])])
        if kind not in GATES:
            raise Fault(REFUSED, f"the cell `{kind}` can't be in a bench die", self.file)
        return Gate(self._net(ends["Y"][0]), GATES[kind], [self._net(ends[end][0]) for end in "AB" if end in ends])


def natural(name: str) -> list[tuple[int, str]]:
    """A key by which `q[2]` comes before `q[10]`."""
    return [(int(part), "") if part.isdigit() else (-1, part) for part in re.split(r"(\d+)", name)]


def make_bench(maker: Maker, chains: int, has_pins: bool = False) -> Bench:
    """The netlist of a design, with so many scan chains; with pins, each pin at a net with several readers has a net of its own."""
    bench = maker.make()
    if chains:
        _add_chains(bench, maker.names, chains, maker.file)
    if has_pins:
        _add_pins(bench, maker.names)
    return bench


def _add_pins(bench: Bench, names: Names) -> None:
    """Puts a buffer in front of each pin that isn't the only reader of its net; the buffer's net has the pin's name."""
    readers: dict[str, set[str]] = {net: {""} for net in bench.outputs}
    for chain in bench.chains:
        readers.setdefault(chain.cells[-1], set()).add("")
    for gate in bench.gates:
        gate.labels = gate.labels or [f"{gate.net}/{_letter(gate, place)}" for place in range(len(gate.inputs))]
        for net, label in zip(gate.inputs, gate.labels):
            readers.setdefault(net, set()).add(label or f" {gate.net}")
    made: dict[str, str] = {}
    for gate in list(bench.gates):
        for place, (net, label) in enumerate(zip(gate.inputs, gate.labels)):
            if label and len(readers[net]) > 1:
                if label not in made:
                    made[label] = names.new(label)
                    bench.gates.append(Gate(made[label], "BUFF", [net]))
                gate.inputs[place] = made[label]


def _letter(gate: Gate, place: int) -> str:
    """The name of a gate's pin."""
    return "D" if gate.kind == "DFF" else "ABCDEFGHIJKLMNOPQRSTUVWXYZ"[place : place + 1] or f"in{place}"


def _add_chains(bench: Bench, names: Names, count: int, file: str) -> None:
    """Puts the flip-flops into chains that are as even as can be, the longer ones first, each with a choice of scan data in front."""
    registers = sorted((gate for gate in bench.gates if gate.kind == "DFF"), key=lambda gate: natural(gate.net))
    if count > len(registers):
        raise Fault(REFUSED, f"{count} scan chains are asked for, and the design has {len(registers)} flip-flops", file)
    bench.enable = names.new("SE")
    mission = names.new(f"not_{bench.enable}")
    bench.gates.append(Gate(mission, "NOT", [bench.enable]))
    front = 0
    for number in range(count):
        length = (len(registers) - number + count - 1) // count
        some = registers[front : front + length]
        front += length
        chain = ScanChain(f"c{number + 1}", names.new(f"SI{number + 1}"), names.new(f"SO{number + 1}"), [gate.net for gate in some])
        before = chain.scan_in
        for gate in some:
            _put_choice(bench, names, gate, mission, before)
            before = gate.net
        bench.chains.append(chain)


def _put_choice(bench: Bench, names: Names, register: Gate, mission: str, before: str) -> None:
    """Lets a flip-flop take the net before it in its chain where the scan enable is 1."""
    kept, shifted, choice = (names.new(f"{register.net}_{part}") for part in ("mission", "shift", "next"))
    bench.gates.append(Gate(kept, "AND", [mission, register.inputs[0]], ["" if not register.labels else f"{kept}/A", *register.labels]))
    bench.gates.append(Gate(shifted, "AND", [bench.enable, before]))
    bench.gates.append(Gate(choice, "OR", [kept, shifted]))
    register.inputs, register.labels = [choice], []
