"""Cells of a Liberty file: their functions, as yosys reads them, as expressions over their pins."""

import re
from dataclasses import dataclass, field
from typing import Any

from stilfloor.faults import REFUSED, Fault

# an expression: the name of a pin, or a kind of gate with expressions; STATE is what the cell's flip-flop holds
Tree = str | tuple[Any, ...]
STATE = " held"
KINDS = {"$_AND_": "AND", "$_OR_": "OR", "$_XOR_": "XOR", "$_NAND_": "NAND", "$_NOR_": "NOR", "$_XNOR_": "XNOR"}
TURNED = {"AND": "NAND", "NAND": "AND", "OR": "NOR", "NOR": "OR", "XOR": "XNOR", "XNOR": "XOR", "0": "1", "1": "0"}
FLOP = re.compile(r"\$_DFF_([NP])_|\$_DFF_([NP])([NP])([01])_|\$_DFFSR_([NP])([NP])([NP])_")
TOKEN = re.compile(r'/\*.*?\*/|"(?:[^"\\]|\\.)*"|[{}]|\bcell\s*\(\s*("?)([^")]*)\1\s*\)\s*(?=\{)|\bthree_state\b', re.DOTALL)
MOST_DEEP = 200


@dataclass(slots=True)
class Register:
    """The flip-flop of a cell: its clock and next state, whether it takes the rising edge, and its asynchronous ends with what they give."""

    clock: Tree
    next: Tree
    rises: bool
    ends: list[tuple[Tree, str]] = field(default_factory=list)


@dataclass(slots=True)
class Cell:
    """A cell: its pins, the functions of its outputs, its flip-flop if it has one, and why it can't be in a bench die, if it can't."""

    name: str
    inputs: list[str] = field(default_factory=list)
    outputs: dict[str, Tree] = field(default_factory=dict)
    register: Register | None = None
    why: str = ""


def turned(tree: Tree) -> Tree:
    """The opposite of an expression."""
    if isinstance(tree, tuple) and tree[0] == "NOT":
        inner: Tree = tree[1]
        return inner
    if isinstance(tree, tuple) and tree[0] in TURNED:
        return (TURNED[tree[0]], *tree[1:])
    return ("NOT", tree)


def joined(kind: str, parts: list[Tree]) -> Tree:
    """A gate of expressions, those of its own kind taken apart."""
    base = kind if kind in ("AND", "OR", "XOR") else TURNED[kind]
    flat: list[Tree] = []
    for part in parts:
        flat += part[1:] if isinstance(part, tuple) and part[0] == base else [part]
    return (kind, *flat)


def leaves(tree: Tree) -> list[str]:
    """The pins that an expression reads."""
    return [tree] if isinstance(tree, str) else [leaf for part in tree[1:] for leaf in leaves(part)]


class _Reader:
    """Reads the module that yosys made of a cell."""

    def __init__(self, name: str, module: dict[str, Any]) -> None:
        self.cell = Cell(name)
        self.pins: dict[Any, str] = {}
        self.drivers: dict[Any, dict[str, Any]] = {}
        self.module = module

    def read(self) -> Cell:
        """The cell."""
        ports = self.module["ports"]
        for title, port in ports.items():
            if port["direction"] == "input":
                self.cell.inputs.append(title)
                self.pins[port["bits"][0]] = title
        for part in self.module["cells"].values():
            wires = part["connections"]
            self.drivers[wires.get("Y", wires.get("Q", [None]))[0]] = part
        try:
            self._registers()
            self.cell.outputs = {title: self._tree(port["bits"][0], 0) for title, port in ports.items() if port["direction"] == "output"}
        except ValueError as error:
            self.cell.why = str(error)
        if any(len(port["bits"]) != 1 or port["direction"] == "inout" for port in ports.values()):
            self.cell.why = "has a bus or an inout"
        return self.cell

    def _registers(self) -> None:
        flops = [part for part in self.module["cells"].values() if FLOP.fullmatch(part["type"])]
        if len(flops) > 1:
            raise ValueError("has several flip-flops")
        if flops:
            wires, found = flops[0]["connections"], FLOP.fullmatch(flops[0]["type"])
            assert found
            self.pins[wires["Q"][0]] = STATE
            self.cell.register = Register(self._tree(wires["C"][0], 0), self._tree(wires["D"][0], 0), "P" in (found[1], found[2], found[5]))
            for end, polarity, given in (("R", found[3] or found[7], found[4] or "0"), ("S", found[6], "1")):
                if end in wires:
                    tree = self._tree(wires[end][0], 0)
                    self.cell.register.ends.append((tree if polarity == "P" else turned(tree), given))

    def _tree(self, bit: Any, depth: int) -> Tree:
        """The expression of a bit."""
        if bit in self.pins:
            return self.pins[bit]
        if bit in ("0", "1"):
            return (bit,)
        part = self.drivers.get(bit)
        if part is None or depth > MOST_DEEP:
            raise ValueError("has no function for an output")
        kind, wires = part["type"], part["connections"]
        below = [self._tree(wires[end][0], depth + 1) for end in "ABS" if end in wires]
        if kind == "$_NOT_":
            return turned(below[0])
        if kind == "$_BUF_":
            return below[0]
        if kind in KINDS:
            return joined(KINDS[kind], below)
        if kind == "$_MUX_":
            return joined("OR", [joined("AND", [turned(below[2]), below[0]]), joined("AND", [below[2], below[1]])])
        raise ValueError("is a latch" if "LATCH" in kind else f"has the part `{kind}`")


def library_of(modules: dict[str, dict[str, Any]], text: str) -> dict[str, Cell]:
    """The cells of a Liberty file, of which yosys made modules; a cell with an output that can be off can't be in a bench die."""
    cells = {name.removeprefix("\\"): _Reader(name, module).read() for name, module in modules.items()}
    for name in tristates(text):
        cells.setdefault(name, Cell(name)).why = "has an output that can be off (three_state)"
    return cells


def tristates(text: str) -> set[str]:
    """The cells of a Liberty text with a `three_state`, which yosys leaves out."""
    found: set[str] = set()
    depth, name, outside = 0, "", 0
    for token in TOKEN.finditer(text):
        if token[0] in "{}":
            depth += 1 if token[0] == "{" else -1
            name = "" if depth <= outside else name
        elif token[2] is not None:
            name, outside = token[2].strip(), depth
        elif token[0] == "three_state" and name:
            found.add(name)
    return found


def builtin() -> dict[str, Cell]:
    """The simple gates of yosys as cells, for what a netlist in cells writes as an expression."""
    cells = {kind: Cell(kind, ["A", "B"], {"Y": (gate, "A", "B")}) for kind, gate in KINDS.items()}
    cells["$_NOT_"] = Cell("$_NOT_", ["A"], {"Y": ("NOT", "A")})
    cells["$_BUF_"] = Cell("$_BUF_", ["A"], {"Y": "A"})
    chosen = joined("OR", [("AND", ("NOT", "S"), "A"), ("AND", "S", "B")])
    cells["$_MUX_"] = Cell("$_MUX_", ["A", "B", "S"], {"Y": chosen})
    cells["$_DFF_P_"] = Cell("$_DFF_P_", ["C", "D"], {"Q": STATE}, Register("C", "D", True))
    cells["$_DFF_N_"] = Cell("$_DFF_N_", ["C", "D"], {"Q": STATE}, Register("C", "D", False))
    return cells


def needed(cells: dict[str, Cell], kind: str, instance: str, place: tuple[str, int]) -> Cell:
    """The cell of an instance; where it can't be in a bench die it is refused."""
    cell = cells.get(kind)
    why = cell.why if cell else "can't be in a bench die" if kind.startswith("$") else "has no function in the Liberty file"
    if cell is None or why:
        raise Fault(REFUSED, f"the cell `{kind}` of `{instance}` {why}", *place)
    return cell
