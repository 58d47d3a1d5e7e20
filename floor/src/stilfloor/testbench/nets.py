"""Netlists in the bench form, read and judged by themselves (docs/formats/netlist.md)."""

import re
from dataclasses import dataclass, field

from stilfloor.faults import REFUSED, UNREADABLE, Fault
from stilfloor.sentences import NET, line_of_net

MOST_BYTES = 1 << 24
MOST_NETS = 1 << 16
MOST_INPUTS = 1024
SINGLE = ("NOT", "BUF", "BUFF", "DFF")
KINDS = (*SINGLE, "AND", "NAND", "OR", "NOR", "XOR", "XNOR")
NAME = r"[\x21\x22\x24-\x27\x2a\x2b\x2d-\x3c\x3e-\x7e]{1,1024}"
WHOLE_NAME = re.compile(NAME)
PORT = re.compile(rf"[ \t]*(INPUT|OUTPUT)[ \t]*\([ \t]*({NAME})[ \t]*\)[ \t]*", re.IGNORECASE)
GATE = re.compile(rf"[ \t]*({NAME})[ \t]*=[ \t]*({'|'.join(KINDS)})[ \t]*\(([^()=#]*)\)[ \t]*", re.IGNORECASE)


@dataclass(slots=True)
class Netlist:
    """A netlist: its inputs in order, its outputs, and of each other net the gate or flip-flop that drives it with what that reads."""

    inputs: dict[str, None] = field(default_factory=dict)
    outputs: dict[str, None] = field(default_factory=dict)
    gates: dict[str, tuple[str, list[str]]] = field(default_factory=dict)

    def __contains__(self, net: str) -> bool:
        return net in self.inputs or net in self.gates

    @property
    def registers(self) -> list[str]:
        """The flip-flops."""
        return [net for net, (kind, _) in self.gates.items() if kind == "DFF"]


def bytes_of(file: str) -> bytes:
    """The bytes of a file that the program would read, too."""
    try:
        with open(file, "rb") as stream:
            data = stream.read(MOST_BYTES + 1)
    except OSError as error:
        raise Fault(UNREADABLE, f"{error.strerror}", file) from error
    if len(data) > MOST_BYTES:
        raise Fault(REFUSED, "this has more than 16,777,216 bytes, which is the limit; split it", file)
    return data


def read_netlist(file: str) -> Netlist:
    """The netlist of a file, or the first refusal in the program's order."""
    lines = _lines(bytes_of(file).decode("latin-1"), file)
    named = {net for _, net, inputs in lines for net in (net, *inputs)}
    if len(named) > MOST_NETS:
        raise _refused(file, "OutOfRange", "-")
    _check_inputs(lines, file)
    netlist = _put_together(lines, file)
    _check_drivers(lines, netlist, file)
    _check_loops(netlist, file)
    return netlist


def _refused(file: str, kind: str, argument: str) -> Fault:
    """The refusal of a netlist, at the line that it is about."""
    line = int(argument) if kind == "Line" else line_of_net(file, kind, argument)
    return Fault(REFUSED, f"{NET[kind].format(argument, argument)} ({kind})", file, line)


def _lines(text: str, file: str) -> list[tuple[str, str, list[str]]]:
    """What each line that isn't empty says: its keyword, its net, and the nets that it reads."""
    found = []
    raws = text.split("\n")
    for number, raw in enumerate(raws, 1):
        if raw.endswith("\r") and number < len(raws):
            raw = raw[:-1]
        raw = raw.partition("#")[0]
        said = _said(raw)
        if said:
            found.append(said)
        elif raw.strip(" \t"):
            raise _refused(file, "Line", str(number))
    return found


def _said(line: str) -> tuple[str, str, list[str]] | None:
    """What a line says, if it has a form."""
    port = PORT.fullmatch(line)
    if port:
        return port[1].upper(), port[2], []
    gate = GATE.fullmatch(line)
    if not gate:
        return None
    inputs = [part.strip(" \t") for part in gate[3].split(",")]
    return (gate[2].upper(), gate[1], inputs) if all(map(WHOLE_NAME.fullmatch, inputs)) else None


def _check_inputs(lines: list[tuple[str, str, list[str]]], file: str) -> None:
    """Each gate takes as many nets as its kind can."""
    for kind, net, inputs in lines:
        if inputs and (len(inputs) != 1 if kind in SINGLE else len(inputs) > MOST_INPUTS):
            raise _refused(file, "Arity", net)


def _put_together(lines: list[tuple[str, str, list[str]]], file: str) -> Netlist:
    """The netlist of lines; no net is driven twice."""
    netlist = Netlist()
    for kind, net, inputs in lines:
        if kind == "OUTPUT":
            netlist.outputs[net] = None
        elif net in netlist:
            raise _refused(file, "Twice", net)
        elif kind == "INPUT":
            netlist.inputs[net] = None
        else:
            netlist.gates[net] = kind, inputs
    return netlist


def _check_drivers(lines: list[tuple[str, str, list[str]]], netlist: Netlist, file: str) -> None:
    """Each net that is used is driven."""
    for _, net, inputs in lines:
        for used in inputs or [net]:
            if used not in netlist:
                raise _refused(file, "Missing", used)


def _check_loops(netlist: Netlist, file: str) -> None:
    """No gate's net lies on a loop of gates or behind one."""
    readers: dict[str, list[str]] = {}
    waiting: dict[str, int] = {}
    for net, (kind, inputs) in netlist.gates.items():
        if kind != "DFF":
            waiting[net] = len(inputs)
            for used in inputs:
                readers.setdefault(used, []).append(net)
    ready = [*netlist.inputs, *netlist.registers]
    while ready:
        for reader in readers.get(ready.pop(), ()):
            waiting[reader] -= 1
            if not waiting[reader]:
                ready.append(reader)
    left = next((net for net, count in waiting.items() if count), None)
    if left is not None:
        raise _refused(file, "Loop", left)
