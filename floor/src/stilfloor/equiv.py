"""A netlist proved to be the Verilog as yosys reads it, by its `equiv` passes: outputs, and registers by their names."""

import os
import re

from stilfloor.benches import Bench, Gate
from stilfloor.compared import Sources
from stilfloor.faults import REFUSED, Fault
from stilfloor.names import IDENTIFIER, plain_room
from stilfloor.testbench.names import HARMLESS
from stilfloor.verilog import Sources as Linked
from stilfloor.verilog import run_yosys

STATUS = re.compile(r"Found (\d+) \$equiv cells in .*:\n\s*Of those cells (\d+) are proven and (\d+) are unproven")
PORT = re.compile(r"(.*)\[(\d+)\]")
OPERATORS = {"AND": "&", "NAND": "&", "OR": "|", "NOR": "|", "XOR": "^", "XNOR": "^"}
GOLD = "{first}{reads}; read_verilog {room}/gold.v; hierarchy -check -top stilfloor_gold; proc; flatten; memory -nomap; memory_map; opt; dffunmap; opt"
GATE = "design -stash gold; read_verilog {room}/gate.v; hierarchy -top stilfloor_gate; proc; opt_clean; design -stash gate"
BOTH = ("design -copy-from gold -as gold stilfloor_gold; design -copy-from gate -as gate stilfloor_gate; splitnets gold gate; "
        "equiv_make gold gate both; hierarchy -top both; opt_clean; equiv_simple; equiv_induct; tee -o {room}/status equiv_status")


def prove(bench: Bench, sources: Sources, liberty: str | None) -> str:
    """What is said of the proof; a netlist that isn't proved is refused."""
    names = [sources.top, *bench.ports, *(gate.net for gate in bench.gates)]
    if not IDENTIFIER.fullmatch(sources.top) or any(HARMLESS.search(name) for name in names if name != sources.top and "/" not in name):
        raise Fault(REFUSED, "a name of this design can't be told to yosys' equiv: leave --equiv out", sources.files[0])
    with plain_room() as room:
        linked = Linked(room, sources.files, liberty)
        linked.link()
        for name, text in (("gold.v", _gold(bench, sources)), ("gate.v", _gate(bench))):
            with open(os.path.join(room, name), "w", encoding="latin-1") as out:
                out.write(text)
        first = f"read_liberty -ignore_miss_func {room}/l.lib; " if liberty else ""
        complaints = run_yosys([GOLD.format(first=first, reads="; ".join(linked.reads), room=room), GATE.format(room=room), BOTH.format(room=room)])
        path = os.path.join(room, "status")
        said = ""
        if os.path.exists(path):
            with open(path, encoding="latin-1") as stream:
                said = stream.read()
        found = STATUS.search(said)
        if not found:
            raise Fault(REFUSED, "yosys' equiv ended without an answer, so leave --equiv out: " + linked.given(complaints).strip()[-200:], sources.files[0])
    if int(found[3]):
        raise Fault(REFUSED, f"yosys' equiv leaves {found[3]} of {found[1]} points unproved that both have by name: the netlist may be another circuit, or "
                    "too far from the Verilog for a proof", sources.files[0])
    return f"yosys' equiv proves that it is the Verilog as yosys reads it, at {found[1]} points that both have by name, all outputs among them"


def _ends(bench: Bench) -> tuple[list[str], list[str]]:
    """The bits of the design's inputs, the clock too, and of its outputs."""
    outputs = set(bench.outputs)
    return [wish for wish, net in bench.ports.items() if net not in outputs], [wish for wish, net in bench.ports.items() if net in outputs]


def _head(bench: Bench, name: str) -> list[str]:
    inputs, outputs = _ends(bench)
    ports = [f"input i{number}" for number in range(len(inputs))] + [f"output o{number}" for number in range(len(outputs))]
    return [f"module {name}({', '.join(ports)});"]


def _gold(bench: Bench, sources: Sources) -> str:
    """The design within a module with a port a bit, and its held inputs at their values."""
    inputs, outputs = _ends(bench)
    wires: dict[str, dict[int, str]] = {}
    for letter, wishes in (("i", inputs), ("o", outputs)):
        for number, wish in enumerate(wishes):
            found = PORT.fullmatch(wish)
            value = f"1'b{bench.held[bench.ports[wish]]}" if bench.ports[wish] in bench.held else f"{letter}{number}"
            wires.setdefault(found[1] if found else wish, {})[int(found[2]) if found else 0] = value
    joined = ", ".join(f".{name}({{{', '.join(bits[place] for place in sorted(bits, reverse=True))}}})" for name, bits in wires.items())
    return "\n".join([*_head(bench, "stilfloor_gold"), f"    {sources.top} u({joined});", "endmodule", ""])


def _gate(bench: Bench) -> str:
    """The netlist as Verilog, its scan chains at rest; registers have the names that they have within `u` of the other module."""
    inputs, outputs = _ends(bench)
    lines = _head(bench, "stilfloor_gate")
    values = {**bench.held, **bench.ties, bench.enable: "0", **{chain.scan_in: "0" for chain in bench.chains}}
    registers = {gate.net for gate in bench.gates if gate.kind == "DFF"}

    def named(net: str) -> str:
        return f"\\{'u.' if net in registers else 'n.'}{net} "

    known = {bench.ports[wish]: f"i{number}" for number, wish in enumerate(inputs)}
    for net in [*known, *(net for net in values if net and net not in known)]:
        lines.append(f"    wire {named(net)}= " + (f"1'b{values[net]};" if net in values else f"{known[net]};"))
    for gate in bench.gates:
        lines.append(f"    {'reg' if gate.kind == 'DFF' else 'wire'} {named(gate.net)};")
    for gate in bench.gates:
        lines.append(_line(gate, [named(net) for net in gate.inputs], named(gate.net), named(bench.clock or "")))
    lines += [f"    assign o{number} = {named(bench.ports[wish])};" for number, wish in enumerate(outputs)]
    return "\n".join([*lines, "endmodule", ""])


def _line(gate: Gate, inputs: list[str], net: str, clock: str) -> str:
    """A gate as a line of Verilog."""
    if gate.kind == "DFF":
        return f"    always @(posedge {clock}) {net}<= {inputs[0]};"
    sign = "~" if gate.kind in ("NAND", "NOR", "XNOR", "NOT") else ""
    return f"    assign {net}= {sign}({f' {OPERATORS.get(gate.kind, chr(38))} '.join(inputs)});"
