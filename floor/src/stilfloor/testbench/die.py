"""A die as Verilog: its netlist with the nets that the plan says are stuck, so that its levels are those of the definition."""

from collections.abc import Iterator
from dataclasses import dataclass, field

from stilfloor.testbench.lots import Die
from stilfloor.testbench.names import Names, harmless
from stilfloor.testbench.nets import Netlist

PRIMITIVES = {"AND": "and", "NAND": "nand", "OR": "or", "NOR": "nor", "XOR": "xor", "XNOR": "xnor", "NOT": "not", "BUF": "buf", "BUFF": "buf"}
# a gate of one net is one of these
ALONE = {"AND": "buf", "OR": "buf", "XOR": "buf", "NAND": "not", "NOR": "not", "XNOR": "not"}
OWN = ("die", "ck", "fresh", "was", "active")

HEAD = """// The die: a netlist with the nets that are stuck. Gates have no delay and read off (z) as unknown (x).

`resetall
`timescale 1fs / 1fs

module die({ports});
    input ck;       // the clock of all flip-flops
    input fresh;    // 1 while the die is loaded: all flip-flops and the clock are unknown
    input [{most}:0] active;    // which of the stuck nets are stuck in this try
{inputs}"""

EDGE = """
    // from 0 to 1 each flip-flop takes its net's level of before; from 0 to unknown and from unknown to 1 it does perhaps, so it keeps
    // what it holds where that is this level, and is unknown else; off counts as unknown
    reg was;
    always @(ck or fresh)
        if (fresh) begin
            was = 1'bx;
{fresh}        end else begin
            case ({{was, ck}})
                2'b01: begin
{takes}                end
                2'b0x, 2'b0z, 2'bx1: begin
{doubts}                end
            endcase
            was = (ck === 1'bz) ? 1'bx : ck;
        end
endmodule
"""


@dataclass(slots=True)
class Written:
    """A die's text, and the identifier of each of its nets."""

    text: str
    nets: dict[str, str]
    inputs: dict[str, str] = field(default_factory=dict)


def write_die(netlist: Netlist, die: Die) -> Written:
    """The module `die`."""
    names = Names(OWN)
    nets = {net: names.new(net) for net in [*netlist.inputs, *netlist.gates]}
    stuck = {net: (number, value) for number, (net, value, _) in enumerate(die.faults)}
    sources = {net: names.new(f"{net}.own") if net in stuck else name for net, name in nets.items()}
    inputs = {net: sources[net] for net in netlist.inputs}
    text = HEAD.format(ports=", ".join(["ck", "fresh", "active", *inputs.values()]), most=max(len(stuck) - 1, 0),
                       inputs="".join(f"    input {name};\n" for name in inputs.values()))
    pieces = [text, *_registers(netlist, sources), *_stuck(stuck, nets, sources), *_gates(netlist, nets, sources), _edges(netlist, nets, sources)]
    return Written("".join(pieces), nets, inputs)


def _registers(netlist: Netlist, sources: dict[str, str]) -> Iterator[str]:
    yield "\n    // flip-flops, by what they hold\n"
    for net in netlist.registers:
        yield f"    reg {sources[net]};\n"


def _stuck(stuck: dict[str, tuple[int, int]], nets: dict[str, str], sources: dict[str, str]) -> Iterator[str]:
    yield "\n    // nets that are stuck\n"
    for net, (number, value) in stuck.items():
        yield f"    wire {nets[net]} = active[{number}] ? 1'b{value} : {sources[net]};\n"


def _gates(netlist: Netlist, nets: dict[str, str], sources: dict[str, str]) -> Iterator[str]:
    yield "\n    // gates\n"
    for net, (kind, inputs) in netlist.gates.items():
        if kind != "DFF":
            yield f"    wire {sources[net]};\n"
    for net, (kind, inputs) in netlist.gates.items():
        if kind != "DFF":
            primitive = ALONE.get(kind, PRIMITIVES[kind]) if len(inputs) == 1 else PRIMITIVES[kind]
            yield f"    {primitive} ({', '.join([sources[net], *(nets[used] for used in inputs)])});\n"


def _edges(netlist: Netlist, nets: dict[str, str], sources: dict[str, str]) -> str:
    """What the flip-flops do at the clock's edges."""
    fresh, takes, doubts = [], [], []
    for net in netlist.registers:
        read = netlist.gates[net][1][0]
        level, kept = nets[read], sources[net]
        fresh.append(f"            {kept} <= 1'bx;\n")
        takes.append(f"                    {kept} <= " + (f"({level} === 1'bz) ? 1'bx : {level};\n" if read in netlist.inputs else f"{level};\n"))
        doubts.append(f"                    if ({kept} !== {level}) {kept} <= 1'bx;\n")
    return EDGE.format(fresh="".join(fresh), takes="".join(takes), doubts="".join(doubts))


def describe(die: Die) -> str:
    """A die in a comment."""
    return f"the die {harmless(die.name)} at site {die.site}"
