"""Inputs that a test holds, and what follows of them: which asynchronous sets and resets rest, so that their flip-flops are plain ones."""

import re
from collections.abc import Callable, Iterable
from dataclasses import dataclass
from typing import Any

from stilfloor.faults import USAGE, Fault

Bit = int | str
Module = dict[str, Any]
# a value that is known, or none
Value = str | None

HOLD = re.compile(r"(.+)=([01])", re.DOTALL)
FINE = re.compile(r"\$_DFF_([NP])([NP])([01])_|\$_DFFSR_([NP])([NP])([NP])_")
# the ports of an asynchronous set, reset or load, and what each makes of its register
ENDS = {"ARST": "resets", "ALOAD": "loads", "CLR": "clears", "SET": "sets", "R": "resets", "S": "sets"}
BASIC = {"$and": "AND", "$or": "OR", "$xor": "XOR", "$xnor": "XNOR", "$_AND_": "AND", "$_NAND_": "NAND", "$_OR_": "OR", "$_NOR_": "NOR",
         "$_XOR_": "XOR", "$_XNOR_": "XNOR"}
REDUCED = {"$reduce_and": "AND", "$reduce_or": "OR", "$reduce_bool": "OR", "$reduce_xor": "XOR", "$reduce_xnor": "XNOR"}


def holds_of(words: Iterable[str]) -> dict[str, str]:
    """The inputs that are held, by words like `rst=0`."""
    held: dict[str, str] = {}
    for word in words:
        found = HOLD.fullmatch(word)
        if not found:
            raise Fault(USAGE, f"`{word}` is none of NET=0 and NET=1, as --hold wants it")
        if held.setdefault(found[1], found[2]) != found[2]:
            raise Fault(USAGE, f"--hold names `{found[1]}` at 0 and at 1")
    return held


def settled(kind: str, values: list[Value]) -> Value:
    """What a gate shows where some of its inputs are known."""
    if kind in ("NAND", "NOR", "XNOR", "NOT"):
        value = settled({"NAND": "AND", "NOR": "OR", "XNOR": "XOR", "NOT": "AND"}[kind], values)
        return None if value is None else "10"[int(value)]
    if kind in ("AND", "OR"):
        ends = "0" if kind == "AND" else "1"
        if ends in values:
            return ends
        return None if None in values else "10"[int(ends)]
    return None if None in values else str(sum(map(int, filter(None, values))) % 2)


class Constants:
    """The values of bits that held inputs settle, whatever the others are."""

    def __init__(self, module: Module, held: dict[Bit, str]) -> None:
        self.known: dict[Bit, Value] = {"0": "0", "1": "1", **held}
        self.drivers: dict[Bit, tuple[Module, int]] = {}
        for cell in module["cells"].values():
            for place, bit in enumerate(cell["connections"].get("Y", [])):
                self.drivers[bit] = cell, place

    def value(self, bit: Bit, depth: int = 0) -> Value:
        """The value of a bit, if it is settled."""
        if bit not in self.known and bit in self.drivers and depth < 200:
            self.known[bit] = None
            self.known[bit] = self._of_cell(*self.drivers[bit], depth + 1)
        return self.known.get(bit)

    def _of_cell(self, cell: Module, place: int, depth: int) -> Value:
        kind, ends = cell["type"], cell["connections"]

        def one(end: str) -> Value:
            return self.value(ends[end][place] if place < len(ends[end]) else "0", depth)

        def each(end: str) -> list[Value]:
            return [self.value(bit, depth) for bit in ends[end]]

        if kind in BASIC:
            return settled(BASIC[kind], [one("A"), one("B")])
        if kind in ("$not", "$_NOT_", "$pos", "$_BUF_"):
            return settled("NOT" if "N" in kind.upper() else "AND", [one("A")])
        if place:
            return "0" if kind in REDUCED or kind.startswith("$logic_") else None
        if kind in REDUCED:
            return settled(REDUCED[kind], each("A"))
        if kind == "$logic_not":
            return settled("NOR", each("A"))
        if kind in ("$logic_and", "$logic_or"):
            return settled("AND" if kind == "$logic_and" else "OR", [settled("OR", each("A")), settled("OR", each("B"))])
        return None


@dataclass(slots=True)
class End:
    """An asynchronous end of a flip-flop: its bit, the value at which it acts, what it does then, and the values that it gives."""

    bit: Bit
    acts: str
    does: str
    given: str


def ends_of(cell: Module) -> list[End]:
    """The asynchronous ends of a flip-flop."""
    kind, wires = cell["type"], cell["connections"]
    fine = FINE.fullmatch(kind)
    if fine and fine[2]:
        return [End(wires["R"][0], _acts(fine[2]), "resets", fine[3])]
    if fine:
        return [End(wires["S"][0], _acts(fine[5]), "sets", "1"), End(wires["R"][0], _acts(fine[6]), "resets", "0")]
    found = []
    for end in ("ARST", "ALOAD", "CLR", "SET"):
        if end in wires and f"{end}_POLARITY" in cell["parameters"]:
            acts = str(int(cell["parameters"][f"{end}_POLARITY"], 2))
            given = {"CLR": "0", "SET": "1", "ARST": str(cell["parameters"].get("ARST_VALUE", ""))}.get(end, "")
            found += [End(bit, acts, ENDS[end], given) for bit in wires[end]]
    return found


def _acts(polarity: str) -> str:
    return "1" if polarity == "P" else "0"


def why_not_idle(cell: Module, register: str, constants: Constants, told: Callable[[Bit], str]) -> str:
    """Why a flip-flop with asynchronous ends can't be a plain one: an end that isn't held, or that is held where it acts."""
    for end in ends_of(cell):
        value = constants.value(end.bit)
        if value == end.acts:
            return f"the register `{register}` is held where its asynchronous end `{told(end.bit)}` {end.does} it: hold that at its idle value"
        if value is None:
            name, idle = told(end.bit), "10"[int(end.acts)]
            held = "--hold NET=0 or NET=1 says it of the input that drives it" if end.bit in constants.drivers else f"--hold {name}={idle} says so"
            return (f"the register `{register}` has an asynchronous set or reset: a bench die's flip-flops change at the clock alone; where a test "
                    f"holds `{name}` at {idle}, {held}")
    return ""


def made_plain(cell: Module) -> None:
    """Makes a plain flip-flop of one whose asynchronous ends are idle."""
    kind, wires = cell["type"], cell["connections"]
    fine = FINE.fullmatch(kind)
    cell["type"] = f"$_DFF_{fine[1] or fine[4]}_" if fine else "$dffe" if kind.endswith("e") else "$dff"
    for end in ENDS:
        if end in wires and not (end in "RS" and not fine):
            del wires[end]
            cell["port_directions"].pop(end, None)
    for name in ("ARST_POLARITY", "ARST_VALUE", "ALOAD_POLARITY", "CLR_POLARITY", "SET_POLARITY"):
        cell["parameters"].pop(name, None)
    wires.pop("AD", None)
    cell["port_directions"].pop("AD", None)


def reset_values(cell: Module) -> dict[Bit, str]:
    """The values that the bits of a register have behind its asynchronous reset, as far as one is told."""
    ends = [end for end in ends_of(cell) if end.does in ("resets", "sets", "clears") and set(end.given) <= set("01") and end.given]
    if len({end.bit for end in ends}) != 1 or any(end.does == "loads" for end in ends_of(cell)):
        return {}
    bits = cell["connections"]["Q"]
    given = ends[0].given
    values = given * len(bits) if len(given) == 1 else given[::-1]
    return dict(zip(bits, values))
