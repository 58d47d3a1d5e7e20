"""Verilog by yosys: what a bench die can't be is refused by name, and the rest becomes gates."""

import json
import os
import re
import shutil
import subprocess
from collections import Counter
from dataclasses import dataclass, field
from typing import Any

from stilfloor.faults import REFUSED, TOOL, UNREADABLE, USAGE, Fault, Faults
from stilfloor.holds import FINE, Bit, Constants, Module, made_plain, reset_values, why_not_idle
from stilfloor.liberty import Cell, builtin, library_of
from stilfloor.names import IDENTIFIER, PLAIN, plain_room
from stilfloor.tops import chosen_top, modules_of

READ = "hierarchy -check {top}; {cells}proc -noopt; flatten; tribuf; memory -nomap; memory_map; write_json {early}"
READ_CELLS = "hierarchy -check {top}; proc -noopt; flatten; tribuf; simplemap; write_json {early}"
MAP = "synth -flatten -nofsm -run begin:; dfflegalize -cell $_DFF_P_ x; abc -g AND,NAND,OR,NOR,XOR,XNOR; opt_clean; write_json {late}"

LATCHES = {"$dlatch", "$adlatch", "$dlatchsr", "$sr"}
FINE_LATCH = re.compile(r"\$_(DLATCH|DLATCHSR|SR)_\w+_")
ASYNCHRONOUS = {"$adff", "$adffe", "$aldff", "$aldffe", "$dffsr", "$dffsre", "$adlatch", "$dlatchsr"}
CLOCKED = {"$dff", "$dffe", "$sdff", "$sdffe", "$sdffce"} | ASYNCHRONOUS - LATCHES


@dataclass(slots=True)
class Design:
    """A design that a bench die can be: its module of simple gates, its name, and the bit of its clock if it has one."""

    name: str
    module: Module
    clock: str | None
    held: dict[str, str] = field(default_factory=dict)
    resets: dict[str, str] = field(default_factory=dict)
    library: dict[str, Cell] = field(default_factory=dict)
    cells: str = ""
    notes: list[str] = field(default_factory=list)


@dataclass(slots=True)
class Given:
    """What a design is read from: files, its top module if it is named, a Liberty file, whether its cells stay, and held inputs."""

    files: list[str]
    top: str | None = None
    liberty: str | None = None
    as_written: bool = False
    held: dict[str, str] = field(default_factory=dict)


@dataclass(slots=True)
class Sources:
    """Verilog files by links in a folder with a plain name, which is all that a script says of them.

    The link to a file's folder lets it include what lies beside it.
    """

    room: str
    files: list[str]
    liberty: str | None = None
    reads: list[str] = field(default_factory=list)

    def link(self) -> None:
        """Makes the links, and the commands that read them."""
        if self.liberty:
            os.symlink(os.path.abspath(self.liberty), f"{self.room}/l.lib")
        for number, file in enumerate(self.files):
            folder, name = os.path.split(file)
            os.symlink(os.path.abspath(folder or "."), f"{self.room}/d{number}")
            kind = "-sv " if name.endswith(".sv") else ""
            if PLAIN.fullmatch(name):
                self.reads.append(f"read_verilog {kind}{self.room}/d{number}/{name}")
                continue
            os.symlink(os.path.abspath(file), f"{self.room}/f{number}.v")
            self.reads.append(f"read_verilog {kind}-I {self.room}/d{number} {self.room}/f{number}.v")

    def given(self, text: str) -> str:
        """A text in which the links are the names that were given."""
        if self.liberty:
            text = text.replace(f"{self.room}/l.lib", self.liberty)
        text = re.sub(rf"{self.room}/f(\d+)\.v\b", lambda found: self.files[int(found[1])], text)
        return re.sub(rf"{self.room}/d(\d+)/", lambda found: os.path.join(os.path.dirname(self.files[int(found[1])]), ""), text)


def read_design(given: Given) -> Design:
    """The design of Verilog files; its top names the module where there are several that none uses."""
    if given.top is not None and not IDENTIFIER.fullmatch(given.top):
        raise Fault(USAGE, f"`{given.top}` is no identifier, and the top module has one")
    for file in [*given.files, *([given.liberty] if given.liberty else [])]:
        if not os.access(file, os.R_OK) or os.path.isdir(file):
            raise Fault(UNREADABLE, "the file can't be read", file)
    if not shutil.which("yosys"):
        raise Fault(TOOL, "yosys isn't there, and a netlist needs it: `apt-get install yosys`")
    with plain_room() as room:
        sources = Sources(room, given.files, given.liberty)
        sources.link()
        try:
            return Reading(sources, given).design()
        except Fault as fault:
            for told in fault.faults if isinstance(fault, Faults) else [fault]:
                told.file, told.text = sources.given(told.file), sources.given(told.text)
            raise


class Reading:
    """Reads a design by yosys."""

    def __init__(self, sources: Sources, given: Given) -> None:
        self.sources = sources
        self.given = given
        self.early, self.late, self.all = (f"{sources.room}/{name}" for name in ("early.json", "late.json", "all.il"))
        self.notes: list[str] = []
        self.library: dict[str, Cell] = {}
        self.cells = ""

    def design(self) -> Design:
        """The design."""
        self._read_library()
        complaints = self._read(self.given.top)
        if self.given.top is None and os.path.exists(self.all):
            chosen = chosen_top(self.all, self.given.files[0])
            if chosen:
                self.notes.append(f"the module `{chosen}` is the top: what is above it has no ports, as a test bench")
                complaints = self._read(chosen)
        if not os.path.exists(self.early):
            raise _complaint(complaints, self.sources.files[0])
        self._judge_library()
        name, module = _module(self.early)
        judged = judge(module, self.sources.files[0], self.given.held, name)
        if not module["ports"] and not module["cells"]:
            raise Fault(REFUSED, f"the module `{name}` has no ports and no gates: name the top module by --top", self.sources.files[0])
        if self.given.as_written:
            clock = None
            for cell in module["cells"].values():
                cell["attributes"]["src"] = self.sources.given(cell["attributes"].get("src", ""))
        else:
            clock, module = judged.clock, self._mapped(judged, complaints)
        return Design(name, module, clock, self.given.held, judged.resets, self.library, self.cells, self.notes)

    def _read_library(self) -> None:
        """The cells of the Liberty file, and their Verilog by their functions."""
        if self.given.as_written:
            self.library = builtin()
        if not self.given.liberty:
            return
        path = f"{self.sources.room}/l"
        complaints = run_yosys([f"read_liberty -ignore_miss_func {path}.lib", f"write_json {path}.json", f"write_verilog -noattr {path}.v"])
        if not os.path.exists(f"{path}.json"):
            raise _complaint(complaints, self.given.liberty)
        with open(f"{path}.json", encoding="utf-8", errors="replace") as stream, open(self.given.liberty, encoding="latin-1") as text:
            self.library |= library_of(json.load(stream, strict=False)["modules"], text.read())
        with open(f"{path}.v", encoding="latin-1") as cells:
            self.cells = cells.read()

    def _judge_library(self) -> None:
        """Refuses cells of the library that can't be in a bench die, where yosys takes their functions for the whole of them."""
        modules = modules_of(self.all) if self.given.liberty and not self.given.as_written else {}
        boxes = {name for name, seen in modules.items() if seen.is_box}
        faults = []
        for seen in modules.values():
            for kind, instance in seen.cells.items():
                why = self.library[kind].why if kind in self.library else "has no function in the Liberty file" if kind in boxes else ""
                if why and why != "is a latch":
                    faults.append(Fault(REFUSED, f"the cell `{kind}` of `{instance}` {why}", self.given.files[0]))
        if faults:
            raise Faults(faults)

    def _read(self, top: str | None) -> str:
        """Lets yosys read the design with this top, and map it where nothing asks for it as it is written; its complaints."""
        first, again = [], ""
        if self.given.liberty:
            first = [f"read_liberty -lib -ignore_miss_func {self.sources.room}/l.lib"]
            again = f"read_liberty -overwrite -ignore_miss_func {self.sources.room}/l.lib; "
        if os.path.exists(self.early):
            os.unlink(self.early)
        form = READ_CELLS if self.given.as_written else READ
        words = form.format(top=f"-top {top}" if top else "-auto-top", early=self.early, cells=again)
        maps = [] if self.given.as_written or self.given.held else [MAP.format(late=self.late)]
        return run_yosys([*first, *self.sources.reads, f"write_rtlil {self.all}", words, *maps])

    def _mapped(self, judged: "Judged", complaints: str) -> Module:
        """The design as simple gates."""
        if self.given.held:
            with open(self.early, encoding="utf-8", errors="surrogateescape") as stream:
                modules = json.load(stream, strict=False)
            _rest(modules["modules"], judged)
            with open(self.early, "w", encoding="utf-8", errors="surrogateescape") as out:
                json.dump(modules, out, ensure_ascii=False)
            complaints = run_yosys([f"read_json {self.early}", MAP.format(late=self.late)])
        if not os.path.exists(self.late):
            raise _complaint(complaints, self.sources.files[0])
        return _module(self.late)[1]


def _rest(modules: dict[str, Module], judged: "Judged") -> None:
    """Makes plain flip-flops of those whose asynchronous ends rest, in the design that yosys reads again."""
    for module in modules.values():
        for title, cell in module["cells"].items():
            if title in judged.resting:
                made_plain(cell)


def run_yosys(commands: list[str]) -> str:
    """Runs yosys, which writes the design before and after it is mapped; what it complained of."""
    done = subprocess.run(["yosys", "-q", "-p", "; ".join(commands)], capture_output=True, text=True, errors="replace", check=False)
    return done.stdout + done.stderr


def _complaint(complaints: str, file: str) -> Fault:
    """What yosys refused, at its file and line."""
    for line in complaints.split("\n"):
        found = re.match(r"(?:(.+?):(\d+): )?ERROR: (.*)", line)
        if found:
            return Fault(REFUSED, f"yosys: {found[3]}", found[1] or file, int(found[2] or 0))
    return Fault(TOOL, "yosys ended without a design: " + complaints.strip()[-200:], file)


def _module(path: str) -> tuple[str, Module]:
    """The top module of a design that yosys wrote."""
    with open(path, encoding="utf-8", errors="replace") as stream:
        modules: dict[str, Module] = json.load(stream, strict=False)["modules"]
    tops = [name for name, module in modules.items() if int(module["attributes"].get("top", "0"), 2)]
    name = tops[0] if tops else next(iter(modules))
    # (yosys leaves the backslash of an escaped name before a dollar, a digit and another backslash)
    return name.removeprefix("\\"), modules[name]


def place_of(attributes: dict[str, str], file: str) -> tuple[str, int]:
    """The file and line from which yosys says that a part comes."""
    source = attributes.get("src", "").split("|")[-1]
    found = re.match(r"(.+):(\d+)\.\d+", source)
    return (found[1], int(found[2])) if found else (file, 0)


def bit_names(module: Module) -> dict[Bit, str]:
    """A name for each bit: that of a port, else the shortest one that the design gives it, with its index where it has several bits."""
    names: dict[Bit, str] = {}
    nets = [(name in module["ports"], not net["hide_name"], -len(name), name, net) for name, net in module["netnames"].items()]
    for *_, name, net in sorted(nets, key=lambda entry: entry[:4]):
        for place, bit in enumerate(net["bits"]):
            names[bit] = indexed(name, net, place)
    return names


def indexed(name: str, net: Module, place: int) -> str:
    """The name of one bit of a net or port."""
    width = len(net["bits"])
    if width == 1 and not net.get("offset"):
        return name
    return f"{name}[{net.get('offset', 0) + (width - 1 - place if net.get('upto') else place)}]"


@dataclass(slots=True)
class Judged:
    """What is found of a design: its clock's bit, the flip-flops whose asynchronous ends rest, and what these give by name."""

    clock: str | None = None
    resting: set[str] = field(default_factory=set)
    resets: dict[str, str] = field(default_factory=dict)


class Judge:
    """Judges a design: what a bench die can't be is gathered, to be refused at once."""

    def __init__(self, module: Module, file: str, held: dict[str, str], top: str) -> None:
        self.module = module
        self.file = file
        self.held = held
        self.top = top
        self.names = bit_names(module)
        self.faults: list[Fault] = []
        self.judged = Judged()

    def refuse(self, text: str, attributes: dict[str, str]) -> None:
        """Takes down a refusal."""
        self.faults.append(Fault(REFUSED, text, *place_of(attributes, self.file)))

    def judge(self) -> Judged:
        """What is found, or all refusals."""
        self._ports()
        self._holds()
        self._cells()
        for name in undriven(self.module, self.names):
            self.refuse(f"nothing drives `{name}`: a bench die's nets are driven to 0 or 1", _attributes(self.module, name))
        self.judged.clock = _judge_clocks(self.module, self.names, self.refuse)
        if self.judged.clock in self.held:
            self.faults.append(Fault(REFUSED, f"`{self.judged.clock}` is the clock, so it can't be held", self.file))
        if self.faults:
            raise Faults(self.faults)
        return self.judged

    def _ports(self) -> None:
        for name, port in self.module["ports"].items():
            if port["direction"] == "inout":
                self.refuse(f"the port `{name}` is an inout, which would be a tristate: a bench die has inputs and outputs",
                            self.module["netnames"].get(name, {}).get("attributes", {}))
        for name, net in self.module["netnames"].items():
            value = net["attributes"].get("init", "")
            if set(value) - {"x"}:
                self.refuse(f"`{name}` has the initial value {value}: a bench die's flip-flops are unknown at first", net["attributes"])

    def _holds(self) -> None:
        inputs = {indexed(title, port, place) for title, port in self.module["ports"].items() if port["direction"] == "input"
                  for place in range(len(port["bits"]))}
        for name in self.held:
            if name not in inputs:
                self.faults.append(Fault(REFUSED, f"--hold names `{name}`, which is no input of `{self.top}`", self.file))

    def _cells(self) -> None:
        constants = Constants(self.module, {bit: self.held[name] for bit, name in self.names.items() if name in self.held})
        for title, cell in self.module["cells"].items():
            why = _judge_cell(cell, self.names)
            if not why and _is_asynchronous(cell["type"]):
                why = why_not_idle(cell, _register(cell, self.names), constants, lambda bit: self.names.get(bit, str(bit)))
                self.judged.resting.add(title)
                self.judged.resets |= {self.names.get(bit, ""): value for bit, value in reset_values(cell).items()}
            if why:
                self.refuse(why, cell["attributes"])


def _is_asynchronous(kind: str) -> bool:
    """Whether a cell is a flip-flop with an asynchronous set, reset or load."""
    return kind in ASYNCHRONOUS - LATCHES or FINE.fullmatch(kind) is not None


def judge(module: Module, file: str, held: dict[str, str], top: str) -> Judged:
    """What is found of a design; what a bench die can't be is refused, all of it at once."""
    return Judge(module, file, held, top).judge()


def undriven(module: Module, names: dict[Bit, str]) -> list[str]:
    """The nets that something reads and nothing drives, where no initial value is told of them."""
    driven = {bit for port in module["ports"].values() if port["direction"] != "output" for bit in port["bits"]}
    read = {bit: None for port in module["ports"].values() if port["direction"] == "output" for bit in port["bits"]}
    for cell in module["cells"].values():
        for end, bits in cell["connections"].items():
            if cell["port_directions"].get(end) == "output":
                driven.update(bits)
            else:
                read.update(dict.fromkeys(bits))
    started = {bit for net in module["netnames"].values() if "init" in net["attributes"] for bit in net["bits"]}
    return list(dict.fromkeys(names.get(bit, str(bit)) for bit in read if isinstance(bit, int) and bit not in driven | started))


def _attributes(module: Module, bit_name: str) -> dict[str, str]:
    """What yosys says of the net of a bit."""
    net = module["netnames"].get(bit_name) or module["netnames"].get(re.sub(r"\[\d+\]$", "", bit_name)) or {}
    attributes: dict[str, str] = net.get("attributes", {})
    return attributes


def _register(cell: Module, names: dict[Bit, str]) -> str:
    """The name of the register that a flip-flop or latch holds."""
    bits = cell["connections"].get("Q") or cell["connections"].get("Y") or []
    name = names.get(bits[0], "?") if bits else "?"
    return re.sub(r"\[\d+\]$", "", name) if len(bits) > 1 else name


def _judge_cell(cell: Module, names: dict[Bit, str]) -> str:
    """Why a cell can't be in a bench die, if it can't."""
    kind = cell["type"]
    register = _register(cell, names)
    if kind in LATCHES or FINE_LATCH.fullmatch(kind):
        return f"`{register}` is a latch: write its value in every branch, or take it at a clock's edge"
    if kind in ("$tribuf", "$_TBUF_") or any(bit == "z" for bits in cell["connections"].values() for bit in bits):
        return f"`{register}` is driven by a tristate: a bench die's nets have one driver each"
    if kind in ("$ff", "$anyconst", "$anyseq", "$allconst", "$allseq", "$initstate"):
        return f"the cell `{kind}` can't be in a bench die"
    return ""


_FLOP = re.compile(r"\$_DFF(?:SR)?_([NP])\w*_")


def _clock_of(cell: Module) -> tuple[Bit, bool]:
    """The clock's bit of a flip-flop, and whether it takes the rising edge."""
    fine = _FLOP.match(cell["type"])
    if fine:
        return cell["connections"]["C"][0], fine[1] == "P"
    return cell["connections"]["CLK"][0], int(cell["parameters"]["CLK_POLARITY"], 2) == 1


def _judge_clocks(module: Module, names: dict[Bit, str], refuse: Any) -> str | None:
    """The one clock of all registers; a second one, a falling edge and a clock that is made inside are refused."""
    inputs = {bit for port in module["ports"].values() if port["direction"] == "input" for bit in port["bits"]}
    registers = [cell for cell in module["cells"].values() if cell["type"] in CLOCKED or _FLOP.match(cell["type"])]
    clocks = Counter(_clock_of(cell)[0] for cell in registers)
    if not clocks:
        return None
    first = clocks.most_common(1)[0][0]
    for cell in registers:
        (clock, rises), register = _clock_of(cell), _register(cell, names)
        if clock != first:
            text = f"the register `{register}` has a second clock `{names.get(clock, clock)}` beside `{names.get(first, first)}`"
            refuse(text + ": a bench die has one", cell["attributes"])
        elif not rises:
            text = f"the register `{register}` takes the falling edge of `{names.get(clock, clock)}`"
            refuse(text + ": a bench die's flip-flops take the rising edge", cell["attributes"])
        elif clock not in inputs:
            text = f"the clock `{names.get(clock, clock)}` of the register `{register}` is made inside: a bench die's clock is an input"
            refuse(text, cell["attributes"])
    return names.get(first)
