"""A netlist beside the Verilog that it is made of, as it was given: random vectors by iverilog, through both at once."""

import os
import random
import re
import shutil
import subprocess
import tempfile
from dataclasses import dataclass, field

from stilfloor.benches import Bench
from stilfloor.faults import REFUSED, TOOL, Fault, Faults
from stilfloor.testbench import simulator
from stilfloor.testbench.die import Written, write_die
from stilfloor.testbench.lots import Die
from stilfloor.testbench.names import HARMLESS, escaped
from stilfloor.testbench.nets import read_netlist
from stilfloor.testbench.ports import Design as Ports

VECTORS = 200
BLOCK = 20
# what an input is likely to be within a block of vectors
LIKELY = (0.04, 0.25, 0.5, 0.5, 0.75, 0.96)
MOST_TIME = 300
TOLD = re.compile(r"vector (\d+) place (\d+) given (.) netlist (.)")
COUNTS = re.compile(r"values (\d+) known (\d+) unlike (\d+)")

BENCH = """`timescale 1ns / 1ps
module stilfloor_compared;
    reg [{last}:0] vectors [0:{most}];
    reg [{last}:0] in;
    reg held, ck, fresh;
    integer number, place, values, known, unlike;
{wires}
    {top} dut({ports});
    stilfloor_die die({pins});
    wire [{outs}:0] given = {{{given}}};
    wire [{outs}:0] netlist = {{{netlist}}};
    initial begin
        $readmemb("vectors", vectors);
        values = 0; known = 0; unlike = 0; ck = 0; held = 1; fresh = 1; in = vectors[0]; #10 fresh = 0;
{begins}        for (number = 0; number <= {most}; number = number + 1) begin
            in = vectors[number];
            #40 for (place = 0; place <= {outs}; place = place + 1) begin
                values = values + 1;
                if ((netlist[place] ^ given[place]) !== 1'bx) begin
                    known = known + 1;
                    if (netlist[place] !== given[place]) begin
                        unlike = unlike + 1;
                        if (unlike <= 4) $display("vector %0d place %0d given %b netlist %b", number, place, given[place], netlist[place]);
                    end
                end
            end
            #5 ck = 1; #10 ck = 0; #45;
        end
        $display("values %0d known %0d unlike %0d", values, known, unlike);
        $finish;
    end
endmodule
"""


@dataclass(slots=True)
class Sources:
    """The Verilog as it was given: its top module, its files, its libraries, and the cells by their functions where it has no library."""

    top: str
    files: list[str]
    libraries: list[str] = field(default_factory=list)
    cells: str = ""
    resets: dict[str, str] = field(default_factory=dict)
    seed: int = 1


def compare(bench: Bench, sources: Sources) -> str:
    """Simulates both, and answers what is to be said of it; where they differ, or can't be compared, that is refused."""
    if not (shutil.which("iverilog") and shutil.which("vvp")):
        return "nothing was compared with the Verilog, as iverilog isn't there"
    if not sources.top or HARMLESS.search(sources.top):
        return "nothing was compared with the Verilog, as the top module's name can't be told to iverilog"
    if not bench.outputs:
        return "nothing was compared with the Verilog, as the design has no output"
    with tempfile.TemporaryDirectory() as room:
        libraries = list(sources.libraries)
        if sources.cells and not libraries:
            libraries.append(os.path.join(room, "cells.v"))
            with open(libraries[0], "w", encoding="latin-1") as out:
                out.write(sources.cells)
        try:
            printed = _simulated(bench, sources, libraries, room)
        except Fault as fault:
            faults = fault.faults if isinstance(fault, Faults) else [fault]
            for told in faults:
                told.text += "; so the netlist can't be compared with the Verilog, and --unchecked writes it uncompared"
            raise
    return _judged(bench, sources, printed)


def _simulated(bench: Bench, sources: Sources, libraries: list[str], room: str) -> str:
    """What the simulation prints."""
    ports = simulator.design_of(sources.top, sources.files, libraries)
    path = os.path.join(room, "n.bench")
    with open(path, "w", encoding="latin-1") as out:
        out.write(bench.text("it"))
    die = write_die(read_netlist(path), Die(0, "d", path))
    texts = {"vectors": vectors(bench, sources.seed), "die.v": die.text.replace("module die(", "module stilfloor_die(", 1),
             "bench.v": Writer(bench, sources, ports, die).text()}
    with tempfile.TemporaryDirectory() as place:
        linked = simulator.link(sources.files, libraries, place)
        for name, text in texts.items():
            with open(os.path.join(place, name), "w", encoding="latin-1") as out:
                out.write(text)
        simulator.compile_in(linked, ["bench.v", "die.v"], "sim", "stilfloor_compared")
        try:
            done = subprocess.run(["vvp", "-n", "sim"], cwd=place, stdin=subprocess.DEVNULL, capture_output=True, check=False, timeout=MOST_TIME)
        except subprocess.TimeoutExpired as late:
            raise Fault(TOOL, f"its simulation took more than {MOST_TIME} seconds", sources.files[0]) from late
    return done.stdout.decode("latin-1")


def vectors(bench: Bench, seed: int) -> str:
    """Random values of the inputs, a line each: in each block an input is likely to be 0, or 1, or neither, so that resets are let go."""
    bits = random.Random(seed)
    lines = []
    for number in range(VECTORS):
        if number % BLOCK == 0:
            likely = [bits.choice(LIKELY) for _ in bench.inputs]
        lines.append("".join("01"[bits.random() < chance] for chance in likely) or "0")
    return "\n".join(lines) + "\n"


class Writer:
    """Writes the module in which both stand."""

    def __init__(self, bench: Bench, sources: Sources, ports: Ports, die: Written) -> None:
        self.bench = bench
        self.sources = sources
        self.ports = ports
        self.die = die
        self.places = {net: len(bench.inputs) - 1 - place for place, net in enumerate(bench.inputs)}
        self.outputs = [(wish, net) for wish, net in bench.ports.items() if net in set(bench.outputs)]

    def text(self) -> str:
        """Its text."""
        wires = [f"    wire [{port.first}:{port.last}] p{number};" for number, port in enumerate(self.ports.ports)]
        wires += [f"    assign {self._pin(wish)} = {self._value(net, True)};" for wish, net in self.bench.ports.items() if net not in self.bench.outputs]
        named = ", ".join(f".{escaped(port.name)}(p{number})" for number, port in enumerate(self.ports.ports))
        pins = ", ".join(["ck", "fresh", "1'b0", *(self._value(net, False) for net in self.die.inputs)])
        registers = {gate.net for gate in self.bench.gates if gate.kind == "DFF"}
        known = {net: value for net, value in self.sources.resets.items() if net in registers and value in ("0", "1")}
        begins = "".join(f"        die.{self.die.nets[net]}= 1'b{value};\n" for net, value in known.items())
        if begins:
            begins = f"        held = 0; #50 held = 1; #50;\n{begins}"
        return BENCH.format(
            last=max(len(self.bench.inputs) - 1, 0), most=VECTORS - 1, outs=len(self.outputs) - 1, top=escaped(self.sources.top), ports=named,
            pins=pins, wires="\n".join(wires), begins=begins, given=", ".join(self._pin(wish) for wish, _ in reversed(self.outputs)),
            netlist=", ".join(f"die.{self.die.nets[net]}" for _, net in reversed(self.outputs)))

    def _pin(self, wish: str) -> str:
        """The wire of a bit of the design's ports."""
        pin = self.ports.pins.get(wish)
        if pin is None:
            raise Fault(REFUSED, f"iverilog knows no port `{wish}` of `{self.sources.top}`", self.sources.files[0])
        number = next(number for number, port in enumerate(self.ports.ports) if port is pin.port)
        return f"p{number}[{pin.index}]"

    def _value(self, net: str, is_given: bool) -> str:
        """What drives an input; a held one of the design acts at first, so that its registers are reset."""
        if net == self.bench.clock:
            return "ck"
        if net in self.bench.held:
            return ("held" if self.bench.held[net] == "1" else "~held") if is_given else f"1'b{self.bench.held[net]}"
        if net in self.places:
            return f"in[{self.places[net]}]"
        return f"1'b{self.bench.ties.get(net, '0')}"


def _judged(bench: Bench, sources: Sources, printed: str) -> str:
    """What is said of a simulation; a difference is refused."""
    counts = COUNTS.search(printed)
    if not counts:
        raise Fault(TOOL, "the simulation beside the Verilog ended early: " + " ".join(printed.split())[-200:], sources.files[0])
    values, known, unlike = map(int, counts.groups())
    if unlike:
        first = TOLD.search(printed)
        assert first
        outputs = [wish for wish, net in bench.ports.items() if net in set(bench.outputs)]
        raise Fault(REFUSED, f"the netlist is another circuit than the Verilog: in vector {first[1]} of {VECTORS} random ones the Verilog shows "
                    f"{outputs[int(first[2])]}={first[3]} and the netlist {first[4]}, by iverilog; {unlike:,} of {known:,} known values differ; "
                    "look for what yosys reads otherwise, as arrays of packed structs; --unchecked writes it all the same", sources.files[0])
    by = "" if sources.libraries else ", its cells by their Liberty functions" if sources.cells else ""
    if not known:
        return f"nothing could be compared with the Verilog{by}: in {VECTORS} random vectors no output of the netlist was ever known"
    return f"{VECTORS} random vectors agree with the Verilog{by}, by iverilog: {known:,} of {values:,} values of outputs were known"
