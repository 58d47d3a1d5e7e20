"""Stuck nets that nothing can show: no values of inputs and flip-flops, by a proof that is checked."""

from stilfloor.atpg.circuit import Circuit, Stuck
from stilfloor.atpg.miter import Case, Miter
from stilfloor.atpg.solver import refuted


def everything(circuit: Circuit, held: dict[str, int]) -> Case:
    """The case in which all inputs but held ones and all flip-flops may have any value, and all outputs and next states are looked at."""
    netlist = circuit.netlist
    free = {net for net in [*netlist.inputs, *netlist.registers] if net not in held}
    looks = dict.fromkeys([*netlist.outputs, *(netlist.gates[net][1][0] for net in netlist.registers)])
    return Case(held, free, list(looks))


def why_not_refuted(circuit: Circuit, held: dict[str, int], fault: Stuck, seconds: int, room: str) -> str:
    """Nothing where a proof shows that the stuck net changes nothing; else `solved`, `time`, or `proof` where the proof doesn't hold."""
    return refuted(Miter(circuit, everything(circuit, held), fault).text(), seconds, room)
