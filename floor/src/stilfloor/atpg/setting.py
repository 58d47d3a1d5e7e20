"""What a scan test of a netlist may do: chains with their cells' nets, inputs and their levels, and looks, by the netlist's own STIL text."""

from dataclasses import dataclass, field

from stilfloor import plans, saved
from stilfloor.atpg.circuit import Circuit, circuit_of
from stilfloor.declared import Block, blocks_of
from stilfloor.faults import REFUSED, Fault
from stilfloor.holds import Value, settled
from stilfloor.looks import compiled
from stilfloor.outline import every, outline, tokens
from stilfloor.scans import Groups

LEVELS = {"D": 0, "U": 1}


@dataclass(slots=True)
class Load:
    """A load of all chains, character by character as it is shifted in, and what the inputs and the scan-ins have in the capture behind it."""

    scan: list[str]
    inputs: str
    sides: str = ""


@dataclass(slots=True)
class Chain:
    """A scan chain: its signals, and of each cell from scan-in to scan-out its net and whether it holds the opposite of what is shifted."""

    name: str
    scan_in: str
    scan_out: str
    length: int
    cells: list[tuple[str, int]] = field(default_factory=list)


@dataclass(slots=True)
class Setting:
    """The netlist's circuit, its STIL text around the loads, the plan, the chains, the capture's inputs and outputs, and nets' levels.

    `inputs` and `outputs` are signals with their nets, `levels` those of nets that the capture drives to one value, `held` those of nets
    that no vector can drive otherwise; `sides` are the scan-ins that a C in front of the capture sets.
    """

    circuit: Circuit
    bench: str
    program: str
    plan: plans.Plan
    front: str
    back: str
    chains: list[Chain]
    inputs: list[tuple[str, str]]
    outputs: list[tuple[str, str]]
    levels: dict[str, int] = field(default_factory=dict)
    held: dict[str, int] = field(default_factory=dict)
    sides: list[tuple[str, str]] = field(default_factory=list)

    def text(self, loads: list[Load], has_test: bool = False) -> str:
        """The STIL text with these loads, whose looks are L; with a chain test in front."""
        lines = []
        before = ""
        if has_test:
            lines.append(f'  "chain test": Call "load_unload" {{{self._ins([waves(chain.length) for chain in self.chains])} }}')
            before = self._outs()
        for number, load in enumerate(loads):
            data = (f' "_pi"={load.inputs};' if self.inputs else "") + (f' "_po"={"L" * len(self.outputs)};' if self.outputs else "")
            lines.append(f'  "pattern {number}": Call "load_unload" {{{self._ins(load.scan)}{before} }}')
            sides = "".join(f' "{signal}"={value};' for (signal, _), value in zip(self.sides, load.sides))
            lines += ([f"  C {{{sides} }}"] if sides else []) + [f'  Call "capture" {{{data} }}']
            before = self._outs()
        lines.append(f'  "end": Call "load_unload" {{{self._ins(["0" * chain.length for chain in self.chains])}{before} }}')
        return self.front + "\n".join(lines) + "\n" + self.back

    def _ins(self, data: list[str]) -> str:
        return "".join(f' "{chain.scan_in}"={some};' for chain, some in zip(self.chains, data))

    def _outs(self) -> str:
        return "".join(f' "{chain.scan_out}"={"L" * chain.length};' for chain in self.chains)

    def load_of(self, values: dict[str, int], filled: str) -> Load:
        """The load that gives nets these values; where none is wanted, the next character of `filled` counts."""
        rest = iter(filled)
        scan = ["".join(str(values[net] ^ turns) if net in values else next(rest) for net, turns in reversed(chain.cells)) for chain in self.chains]
        inputs, sides = ("".join(str(values[net]) if net in values else next(rest) for _, net in some) for some in (self.inputs, self.sides))
        return Load(scan, inputs, sides)

    @property
    def size(self) -> int:
        """How many characters a load has."""
        return len(self.inputs) + len(self.sides) + sum(chain.length for chain in self.chains)


def waves(length: int) -> str:
    """The data of a chain test: 0011 again and again, so that each cell passes each change on."""
    return ("0011" * (length // 4 + 1))[:length]


def setting_of(bench: str, plan_file: str, program: str) -> Setting:
    """What a scan test may do, by the netlist's STIL text."""
    text = plans.read_text(program)
    if text.encode("latin-1")[:4] == saved.MAGIC:
        raise Fault(REFUSED, "this is a saved program: a scan test is made of the netlist's STIL text", program)
    code = compiled(text, program)
    chains = _chains(text, code, program)
    front, back = _around(text, program)
    plan = plans.read_plan(plan_file)
    binds = {row[1]: row[2] for row in plan.rows if row[0] == "bind"}
    groups = Groups(outline(text)).members
    inputs, outputs = ([(signal, binds.get(signal, signal)) for signal in (name.strip('"') for name in groups.get(group, []))] for group in ("_pi", "_po"))
    names = {name for _, name in code.signals}
    strange = next((signal for signal, _ in [*inputs, *outputs] if signal not in names), None)
    if strange is not None:
        raise Fault(REFUSED, f"the groups `_pi` and `_po` name signals one by one, and `{strange}` is none", program)
    setting = Setting(circuit_of(bench), bench, program, plan, front, back, chains, inputs, outputs)
    _Probe(setting, program, binds).look()
    return setting


def _chains(text: str, code: saved.Code, program: str) -> list[Chain]:
    """The chains that the text names."""
    if len(code.executives) != 1 or not code.executives[0].chains:
        raise Fault(REFUSED, "this text has no scan chains, or several executives: make the netlist by `netlist --scan N`", program)
    enters = {}
    for chain in every(outline(text)):
        if chain.keyword == "ScanChain":
            enters.update({chain.name: part.name for part in chain.block or [] if part.keyword == "ScanIn"})
    lost = next((chain.name for chain in code.executives[0].chains if chain.name not in enters), None)
    if lost is not None:
        raise Fault(REFUSED, f"the chain `{lost}` has no ScanIn, so nothing can be loaded", program)
    return [Chain(chain.name, enters[chain.name], code.signals[chain.out][1], chain.length) for chain in code.executives[0].chains]


def _around(text: str, program: str) -> tuple[str, str]:
    """What stands around the loads: all up to the Pattern's first Call, and all from its end on."""
    bodies = {body.keyword for block in outline(text) if block.keyword == "Procedures" for body in block.block or []}
    patterns = [block for block in blocks_of(text) if block.keyword == "Pattern"]
    if len(patterns) != 1 or not {"load_unload", "capture"} <= bodies:
        raise Fault(REFUSED, "this text isn't of the form that `netlist --scan N` writes: one Pattern, with the procedures `load_unload` and `capture`",
                    program)
    return text[: _first_call(text, patterns[0])].rstrip() + "\n", text[patterns[0].closed :]


def _first_call(text: str, pattern: Block) -> int:
    """The place of a pattern's first Call, with its label, or of its end."""
    inside = list(tokens(text[pattern.opened + 1 : pattern.closed]))
    for number, token in enumerate(inside):
        if token.text == "Call":
            first = inside[number - 2] if number > 1 and inside[number - 1].text == ":" else token
            return pattern.opened + 1 + first.start
    return pattern.closed


class _Probe:
    """Compiles a text with one load, and reads of the program what is driven as it shifts and as it captures."""

    def __init__(self, setting: Setting, program: str, binds: dict[str, str]) -> None:
        self.setting = setting
        self.program = program
        self.binds = binds
        setting.sides = [(chain.scan_in, binds.get(chain.scan_in, chain.scan_in)) for chain in setting.chains]
        loads = [Load([bit * chain.length for chain in setting.chains], bit * len(setting.inputs), bit * len(setting.sides)) for bit in "01"]
        self.code, self.other = (compiled(setting.text([load]), program) for load in loads)
        self.shift, self.capture = self._steps(self.code)

    def _steps(self, code: saved.Code) -> tuple[saved.Step, saved.Step]:
        """The first step of a load, and the one behind it, which captures."""
        steps = list(saved.steps(code.executives[0]))
        first = next((number for number, step in enumerate(steps) if step.mark), len(steps))
        behind = next((number for number in range(first, len(steps)) if not steps[number].mark), len(steps))
        if behind >= len(steps):
            raise Fault(REFUSED, "a load and a capture of this text don't make a shift and a cycle behind it", self.program)
        return steps[first], steps[behind]

    def _level(self, step: saved.Step, signal: int, at: int) -> int | None:
        """The level that a signal is driven to at a time of a cycle."""
        return self._level_in(self.code, step, signal, at)

    @staticmethod
    def _level_in(code: saved.Code, step: saved.Step, signal: int, at: int) -> int | None:
        letter = chr(code.rows[step.row][signal])
        events = code.tables[step.table].waves.get((signal, letter), [])
        acts = [act for time, act in events if time <= at and act in "DUZN"]
        return LEVELS.get(acts[-1]) if acts else None

    def _rise(self, step: saved.Step) -> int:
        """The time of a cycle's rising clock."""
        names = [name for _, name in self.code.signals]
        clock = names.index(self.setting.plan.clock) if self.setting.plan.clock in names else -1
        letter = chr(self.code.rows[step.row][clock])
        events = self.code.tables[step.table].waves.get((clock, letter), []) if clock >= 0 else []
        rises = [time for time, act in events if act == "U"]
        if len(rises) != 1:
            raise Fault(REFUSED, "the plan's clock doesn't rise once in the shift and in the capture", self.program)
        return rises[0]

    def look(self) -> None:
        """Puts chains' cells, levels and held nets into the setting."""
        setting, netlist = self.setting, self.setting.circuit.netlist
        names = [name for _, name in self.code.signals]
        chosen = {signal for signal, _ in setting.inputs} | {chain.scan_in for chain in setting.chains}
        shifting: dict[str, int] = {}
        rise, shift_rise = self._rise(self.capture), self._rise(self.shift)
        for number, (direction, name) in enumerate(self.code.signals):
            net = self.binds.get(name, name)
            if direction != "In" or net not in netlist.inputs or name == setting.plan.clock:
                continue
            self._hold(number, net)
            level, shifts = self._level(self.capture, number, rise), self._level(self.shift, number, shift_rise)
            if name not in chosen and level is not None:
                setting.levels[net] = level
            if name not in chosen and shifts is not None:
                shifting[net] = shifts
        for chain in setting.chains:
            self._trace(chain, Settled(setting.circuit, {net: str(level) for net, level in shifting.items()}))
            self._judge_side(chain, names.index(chain.scan_in), rise)
        self._judge_looks(rise)

    def _judge_side(self, chain: Chain, signal: int, rise: int) -> None:
        """A scan-in that a C in front of the capture sets may be chosen; another one has the level that it has."""
        behind = self._steps(self.other)[1]
        net = self.binds.get(chain.scan_in, chain.scan_in)
        levels = self._level(self.capture, signal, rise), self._level_in(self.other, behind, signal, rise)
        if levels != (0, 1):
            self.setting.sides.remove((chain.scan_in, net))
        if levels[0] is not None and levels[0] == levels[1]:
            self.setting.levels[net] = levels[0]

    def _hold(self, signal: int, net: str) -> None:
        """A net that each wave of its signal drives to one level alone is held."""
        acts = {act for table in self.code.tables for (number, _), events in table.waves.items() if number == signal for _, act in events}
        if acts in ({"D"}, {"U"}):
            self.setting.held[net] = LEVELS[acts.pop()]

    def _judge_looks(self, rise: int) -> None:
        """Outputs are looked at before the clock rises."""
        names = {name: number for number, (_, name) in enumerate(self.code.signals)}
        for name, _ in self.setting.outputs:
            letter = chr(self.code.rows[self.capture.row][names[name]])
            events = self.code.tables[self.capture.table].waves.get((names[name], letter), [])
            if any(act in "LHTlht" and time > rise for time, act in events):
                raise Fault(REFUSED, f"the capture looks at `{name}` behind the clock's rise, and loads are made for looks before it", self.program)

    def _trace(self, chain: Chain, settled_by: "Settled") -> None:
        """Goes back from a chain's end through its cells while it shifts."""
        net, turns = settled_by.source(self.binds.get(chain.scan_out, chain.scan_out))
        found: list[tuple[str, int]] = []
        gates = self.setting.circuit.netlist.gates
        while net in gates and len(found) <= chain.length:
            found.append((net, turns))
            net, more = settled_by.source(gates[net][1][0])
            turns ^= more
        if net != self.binds.get(chain.scan_in, chain.scan_in) or len(found) != chain.length:
            text = f"the chain `{chain.name}` can't be followed from its end to `{chain.scan_in}` through {chain.length} flip-flops while it shifts"
            raise Fault(REFUSED, text, self.program)
        # (a cell holds what is shifted in, turned as often as between the scan-in and it)
        chain.cells = [(cell, turns ^ seen) for cell, seen in reversed(found)]


class Settled:
    """The levels that nets have while a chain shifts, as far as the levels of some inputs settle them."""

    def __init__(self, circuit: Circuit, levels: dict[str, str]) -> None:
        self.gates = circuit.netlist.gates
        self.levels: dict[str, Value] = dict(levels)
        for net in circuit.order:
            kind, inputs = self.gates[net]
            self.levels[net] = settled({"BUF": "AND", "BUFF": "AND"}.get(kind, kind), [self.levels.get(used) for used in inputs])

    def source(self, net: str) -> tuple[str, int]:
        """The flip-flop or input whose level a net shows, and whether it is turned; nothing where it is no single one."""
        turns = 0
        while net in self.gates and self.gates[net][0] != "DFF":
            kind, inputs = self.gates[net]
            open_ones = [used for used in inputs if self.levels.get(used) is None]
            if len(open_ones) != 1:
                return "", 0
            turns ^= kind in ("NOT", "NAND", "NOR", "XNOR")
            if kind in ("XOR", "XNOR"):
                turns ^= sum(self.levels[used] == "1" for used in inputs) % 2
            net = open_ones[0]
        return net, turns
