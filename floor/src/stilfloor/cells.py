"""A netlist in cells as it is written: each net keeps its name, and a cell becomes the gates of its function."""

from collections import Counter
from typing import Any

from stilfloor.benches import Bench, Gate, Maker
from stilfloor.faults import REFUSED, Fault, Faults
from stilfloor.holds import Bit, Value, settled
from stilfloor.liberty import STATE, Cell, Register, Tree, leaves, needed
from stilfloor.verilog import Design, place_of


class CellMaker(Maker):
    """Makes a netlist of a design whose cells are those of a library."""

    def __init__(self, design: Design, file: str) -> None:
        super().__init__(design, file)
        self.cells: dict[str, Cell] = {}
        self.drivers: dict[Bit, tuple[str, str]] = {}
        self.faults: list[Fault] = []
        self.known: dict[Bit, Value] = {"0": "0", "1": "1", **{bit: design.held[name] for bit, name in self.wishes.items() if name in design.held}}
        self._look_up(design.library)
        self._stop()
        self.roots = {name: self._root(name) for name, cell in self.cells.items() if cell.register}
        self._stop()
        self._judge()
        self.clocking = self._clocking()

    def _stop(self) -> None:
        if self.faults:
            raise Faults(self.faults)

    def _look_up(self, library: dict[str, Cell]) -> None:
        """The cell of each instance, and which output drives which bit."""
        for name, part in self.module["cells"].items():
            try:
                cell = needed(library, part["type"], name, place_of(part["attributes"], self.file))
            except Fault as fault:
                self.faults.append(fault)
                continue
            self.cells[name] = cell
            for pin in cell.outputs:
                for bit in part["connections"].get(pin, []):
                    self.drivers[bit] = name, pin

    def _bit(self, instance: str, pin: str) -> Bit:
        bits = self.module["cells"][instance]["connections"].get(pin, [])
        return bits[0] if bits else "x"

    def _refuse(self, instance: str, text: str) -> None:
        self.faults.append(Fault(REFUSED, text, *place_of(self.module["cells"][instance]["attributes"], self.file)))

    def _told(self, bit: Bit) -> str:
        return self.wishes.get(bit, str(bit))

    def _root(self, instance: str) -> tuple[Bit, bool]:
        """The bit at which a flip-flop's clock begins, behind its buffers, and whether the flip-flop takes that one's rising edge."""
        register = self.cells[instance].register
        assert register
        tree, at, rises = register.clock, instance, register.rises
        for _ in range(len(self.cells) + 1):
            if isinstance(tree, tuple) and tree[0] == "NOT":
                tree, rises = tree[1], not rises
            if not isinstance(tree, str):
                break
            bit = self._bit(at, tree)
            driver = self.drivers.get(bit)
            if driver is None:
                return bit, rises
            at, tree = driver[0], self.cells[driver[0]].outputs[driver[1]]
        self._refuse(instance, f"the clock of the flip-flop `{instance}` is made inside: a bench die's clock is an input")
        return "x", True

    def _judge(self) -> None:
        """Refuses further clocks, falling edges, and asynchronous ends that aren't held idle."""
        counts = Counter(bit for bit, _ in self.roots.values())
        first = counts.most_common(1)[0][0] if counts else None
        inputs = {bit for port in self.module["ports"].values() if port["direction"] == "input" for bit in port["bits"]}
        for instance, (bit, rises) in self.roots.items():
            if bit != first:
                text = f"the flip-flop `{instance}` has a second clock `{self._told(bit)}` beside `{self._told(first or 0)}`: a bench die has one"
                self._refuse(instance, text)
            elif bit not in inputs:
                self._refuse(instance, f"nothing drives the clock of the flip-flop `{instance}`: a bench die's clock is an input")
            elif not rises:
                text = f"the flip-flop `{instance}` takes the falling edge of `{self._told(bit)}`"
                self._refuse(instance, text + ": a bench die's flip-flops take the rising edge")
            self._judge_ends(instance)
        self.clock = self.wishes.get(first) if first is not None else None
        if self.clock is not None and self.clock in self.held:
            self.faults.append(Fault(REFUSED, f"`{self.clock}` is the clock, so it can't be held", self.file))
        self._stop()

    def _judge_ends(self, instance: str) -> None:
        register = self.cells[instance].register
        assert register
        for tree, _ in register.ends:
            value = self._settled(instance, tree)
            if value != "0":
                ends = ", ".join(f"`{self._told(self._bit(instance, pin))}`" for pin in dict.fromkeys(leaves(tree)) if pin != STATE)
                text = f"the flip-flop `{instance}` has an asynchronous set or reset by {ends}: a bench die's flip-flops change at the clock alone; "
                held = "it is held where it acts: hold it at its idle value" if value else "--hold NET=0 or NET=1 says that a test holds it idle"
                self._refuse(instance, text + held)

    def _settled(self, instance: str, tree: Tree, depth: int = 0) -> Value:
        """The value of an expression at an instance, where held inputs settle it."""
        if isinstance(tree, str):
            return None if tree == STATE else self._value(self._bit(instance, tree), depth)
        if tree[0] in ("0", "1"):
            return str(tree[0])
        return settled(tree[0], [self._settled(instance, part, depth) for part in tree[1:]])

    def _value(self, bit: Bit, depth: int) -> Value:
        if bit not in self.known and bit in self.drivers and depth < 200:
            instance, pin = self.drivers[bit]
            self.known[bit] = self._settled(instance, self.cells[instance].outputs[pin], depth + 1)
        return self.known.get(bit)

    def _clocking(self) -> set[str]:
        """The cells of the clock's tree: buffers and inverters that only flip-flops' clocks read, or such cells."""
        readers: dict[Bit, list[tuple[str, str]]] = {}
        ports = {bit for port in self.module["ports"].values() if port["direction"] == "output" for bit in port["bits"]}
        for name, cell in self.cells.items():
            for pin in cell.inputs:
                readers.setdefault(self._bit(name, pin), []).append((name, pin))
        found: set[str] = set()
        waiting = list({self.drivers[bit][0] for bit in map(self._clock_bit, self.roots) if bit in self.drivers})
        while waiting:
            name = waiting.pop()
            bits = [self._bit(name, pin) for pin in self.cells[name].outputs]
            if name not in found and all(bit not in ports and all(self._clocks(*reader, found) for reader in readers.get(bit, [])) for bit in bits):
                found.add(name)
                waiting += [self.drivers[bit][0] for bit in (self._bit(name, pin) for pin in self.cells[name].inputs) if bit in self.drivers]
        return found

    def _clock_bit(self, instance: str) -> Bit:
        register = self.cells[instance].register
        assert register
        return self._bit(instance, leaves(register.clock)[0])

    def _clocks(self, instance: str, pin: str, found: set[str]) -> bool:
        register = self.cells[instance].register
        return instance in found or register is not None and leaves(register.clock) == [pin] and pin not in leaves(register.next)

    def make(self) -> Bench:
        """The netlist."""
        outputs = self._ports()
        made = [name for name in self.cells if name not in self.clocking]
        for name in made:
            self._name_outputs(name)
        for name in sorted(made, key=lambda name: not self.cells[name].register):
            self._add_cell(name)
        for title, bit in outputs:
            if self.nets.get(bit) != title:
                self.bench.gates.append(Gate(title, "BUFF", [self._net(bit)]))
        self.bench.notes += [f"{shown} is another name of {self.nets[bit]}" for shown, bit in self._aliases()]
        if self.clocking:
            self.bench.notes.append(f"of the clock's tree these cells are left out: {', '.join(sorted(self.clocking))}")
        return self.bench

    def _aliases(self) -> list[tuple[str, Bit]]:
        """Further names that the design has for nets."""
        from stilfloor.verilog import indexed

        nets = [(name, net) for name, net in self.module["netnames"].items() if not net["hide_name"]]
        pairs = [(indexed(name, net, place), bit) for name, net in nets for place, bit in enumerate(net["bits"])]
        return [(name, bit) for name, bit in pairs if bit in self.nets and self.nets[bit] != name and name not in self.names.taken]

    def _name_outputs(self, instance: str) -> None:
        for pin in self.cells[instance].outputs:
            for bit in self.module["cells"][instance]["connections"].get(pin, []):
                if bit not in self.nets:
                    wish = self.wishes.get(bit, "n")
                    self.nets[bit] = self.names.new(f"{self._title(instance)}/{pin}" if wish.startswith("$") else wish)

    def _title(self, instance: str) -> str:
        """The name of an instance; one that only yosys named is named by what it drives."""
        if not instance.startswith("$"):
            return instance
        outputs = [self.nets.get(self._bit(instance, pin), "n") for pin in self.cells[instance].outputs]
        return outputs[0]

    def _add_cell(self, instance: str) -> None:
        """The gates of a cell; the flip-flop has the name of the net that shows what it holds, where one alone does."""
        cell = self.cells[instance]
        used = {pin: self.nets[bit] for pin in cell.outputs if (bit := self._bit(instance, pin)) in self.nets}
        held = ""
        if cell.register:
            plain = [pin for pin in used if cell.outputs[pin] == STATE]
            held = used.pop(plain[0]) if len(plain) == 1 and len(used) == 1 else self.names.new(f"{self._title(instance)}/state")
            self._register(instance, cell.register, held)
        for pin, net in used.items():
            self._emit(instance, cell.outputs[pin], net, f"{self._title(instance)}/{pin}", held)

    def _register(self, instance: str, register: Register, held: str) -> None:
        # (the flip-flops stand in front, each with what it reads)
        gate = Gate(held, "DFF", [])
        self.bench.gates.append(gate)
        net, label = self._leaf(instance, register.next, f"{self._title(instance)}/next", held)
        gate.inputs, gate.labels = [net], [label]
        for tree, given in register.ends:
            self.resets[held] = given if held not in self.resets and len(register.ends) == 1 else ""

    def _leaf(self, instance: str, tree: Tree, name: str, held: str) -> tuple[str, str]:
        """The net of an expression, with the pin that reads it; where it is none, its gates are made."""
        if tree == STATE:
            return held, ""
        if isinstance(tree, str):
            bit = self._bit(instance, tree)
            if bit not in self.nets and bit not in ("0", "1"):
                raise Fault(REFUSED, f"nothing drives the pin `{tree}` of `{self._title(instance)}`: a bench die's nets are driven to 0 or 1",
                            *place_of(self.module["cells"][instance]["attributes"], self.file))
            return self._net(bit), f"{self._title(instance)}/{tree}"
        if tree[0] in ("0", "1"):
            return self._net(tree[0]), ""
        net = self.names.new(name)
        self._emit(instance, tree, net, name, held)
        return net, ""

    def _emit(self, instance: str, tree: Tree, net: str, name: str, held: str) -> None:
        """The gates of an expression, whose last one drives a net."""
        kind: Any = "BUFF"
        parts: list[Tree] = [tree]
        if isinstance(tree, tuple) and tree[0] not in ("0", "1"):
            kind, parts = tree[0], list(tree[1:])
        gate = Gate(net, kind, [])
        self.bench.gates.append(gate)
        for number, part in enumerate(parts, 1):
            read, label = self._leaf(instance, part, f"{name}.{number}", held)
            gate.inputs.append(read)
            gate.labels.append(label)
