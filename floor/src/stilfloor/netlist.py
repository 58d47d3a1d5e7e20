"""A netlist of Verilog, with a STIL text and a plan to begin with."""

import os
import random
import tempfile
from dataclasses import dataclass, field

from stilfloor import tester
from stilfloor.benches import Bench, Maker, make_bench
from stilfloor.cells import CellMaker
from stilfloor.compared import Sources, compare
from stilfloor.equiv import prove
from stilfloor.faults import REFUSED, UNREADABLE, Fault
from stilfloor.names import remark, replacing
from stilfloor.plans import MOST_KEPT, write_rows
from stilfloor.sentences import refusal
from stilfloor.verilog import Design, Given, read_design

TABLE = "_default_WFT_"


@dataclass(slots=True)
class Start:
    """What is asked for: the modules' files, the top module, the number of chains and of random vectors, and their seed; a Liberty file,
    whether cells stay as they are written, whether pins get nets, held inputs, the cells' Verilog, and whether it is held against the Verilog."""

    files: list[str]
    top: str | None = None
    chains: int = 0
    vectors: int = 16
    seed: int = 1
    liberty: str | None = None
    as_written: bool = False
    has_pins: bool = False
    held: dict[str, str] = field(default_factory=dict)
    libraries: list[str] = field(default_factory=list)
    is_compared: bool = True
    is_proved: bool = False


def make(start: Start, folder: str, force: bool = False) -> tuple[Bench, list[str]]:
    """Writes TOP.bench, TOP.stil and TOP.csv into the folder; the netlist, and the files' names."""
    design = read_design(Given(start.files, start.top, start.liberty, start.as_written, start.held))
    if "/" in design.name:
        raise Fault(REFUSED, f"the module `{design.name}` can't name files, as it has a slash: rename it", start.files[0])
    maker = CellMaker(design, start.files[0]) if start.as_written else Maker(design, start.files[0])
    bench = make_bench(maker, start.chains, start.has_pins)
    paths = [_path(folder, bench.name + end) for end in (".bench", ".stil", ".csv")]
    if any(not 0x21 <= ord(character) <= 0x7E for character in paths[0]) or len(paths[0]) > 255:
        raise Fault(REFUSED, "a plan can't name this file, which has blanks or is too long: choose another folder", paths[0])
    taken = [path for path in paths if os.path.lexists(path)]
    if taken and not force:
        raise Fault(UNREADABLE, "this file is there already; --force writes over it", taken[0])
    source = remark(" ".join(start.files))
    texts = [bench.text(source), stil_text(bench, source, start), plan_text(bench, paths[0], start)]
    _try_out(bench, [*texts[:2], plan_text(bench, "n.bench", start)], start.files[0])
    bench.told = [*design.notes, *_compared(bench, design, maker, start)]
    try:
        os.makedirs(folder, exist_ok=True)
    except OSError as error:
        raise Fault(UNREADABLE, f"{error.strerror}", folder) from error
    for path, text in zip(paths, texts):
        with replacing(path, "latin-1") as out:
            out.write(text)
    return bench, paths


def _compared(bench: Bench, design: Design, maker: Maker, start: Start) -> list[str]:
    """What is said of the netlist beside the Verilog as it was given."""
    if not start.is_compared:
        return ["nothing was compared with the Verilog, as --unchecked says"]
    sources = Sources(design.name, start.files, start.libraries, design.cells, maker.resets, start.seed)
    told = [compare(bench, sources)]
    return told + ([prove(bench, sources, start.liberty)] if start.is_proved else [])


def _path(folder: str, name: str) -> str:
    """The path of a file, which no command takes for an option."""
    path = os.path.normpath(os.path.join(folder, name))
    return os.path.join(".", path) if path.startswith("-") else path


def _try_out(bench: Bench, texts: list[str], file: str) -> None:
    """Lets the program read what is to be written, and refuses what it refuses."""
    with tempfile.TemporaryDirectory() as room:
        for name, text in zip(("n.bench", "p.stil", "p.csv"), texts):
            with open(os.path.join(room, name), "w", encoding="latin-1") as out:
                out.write(text)
        status, output = tester.run(["lot", "p.stil", "p.csv"], room)
    if status:
        fault = refusal(output.decode("latin-1"), status, file, file)
        raise Fault(fault.status, f"the netlist of `{bench.name}` is refused: {fault.text}", file)


def quoted(names: list[str]) -> str:
    """A group's text of these signals, in lines of at most eight."""
    parts = [f'"{name}"' for name in names]
    lines = [" + ".join(parts[front : front + 8]) for front in range(0, len(parts), 8)]
    return "'" + " +\n    ".join(lines) + "'"


def stil_text(bench: Bench, source: str, start: Start) -> str:
    """A STIL text to begin with: signals, one timing, the procedures of its chains, and a pattern of random vectors whose looks are L."""
    parts = ['STIL 1.0 { Design 2005; }', f'Header {{ Title "{remark(bench.name)}, made from {source}"; }}']
    parts += [_signals(bench), _structures(bench), _timing(bench)]
    if bench.chains:
        parts.append(_procedures(bench))
    parts += ['PatternBurst "_burst_" { PatList { "_pattern_"; } }', 'PatternExec { PatternBurst "_burst_"; }', _pattern(bench, start)]
    return "\n".join(part for part in parts if part) + "\n"


def _signals(bench: Bench) -> str:
    lines = [f'  "{bench.clock}" In;'] if bench.clock else []
    lines += [f'  "{name}" In;' for name in [*bench.inputs, *bench.constants, *([bench.enable] if bench.enable else [])]]
    lines += [f'  "{chain.scan_in}" In {{ ScanIn; }}' for chain in bench.chains]
    lines += [f'  "{name}" Out;' for name in bench.outputs]
    lines += [f'  "{chain.scan_out}" Out {{ ScanOut; }}' for chain in bench.chains]
    groups = {"_pi": bench.inputs, "_po": bench.outputs, "_so": [chain.scan_out for chain in bench.chains]}
    texts = [f'  "{name}" = {quoted(members)};' for name, members in groups.items() if members]
    return "\n".join(["Signals {", *lines, "}", "SignalGroups {", *texts, "}"])


def _structures(bench: Bench) -> str:
    if not bench.chains:
        return ""
    lines = ["ScanStructures {"]
    for chain in bench.chains:
        lines.append(f'  ScanChain "{chain.name}" {{')
        lines.append(f'    ScanLength {len(chain.cells)}; ScanIn "{chain.scan_in}"; ScanOut "{chain.scan_out}"; ScanInversion 0;')
        lines.append("    ScanCells " + " ".join(f'"{cell}"' for cell in chain.cells) + f'; ScanMasterClock "{bench.clock}";')
        lines.append("  }")
    return "\n".join([*lines, "}"])


def _timing(bench: Bench) -> str:
    lines = ["Timing {", f'  WaveformTable "{TABLE}" {{', "    Period '100ns';", "    Waveforms {"]
    if bench.clock:
        lines.append(f"      \"{bench.clock}\" {{ 0 {{ '0ns' D; }} P {{ '0ns' D; '45ns' U; '55ns' D; }} }}")
    if bench.inputs:
        lines.append("      \"_pi\" { 01N { '0ns' D/U/N; } }")
    for name in [*([bench.enable] if bench.enable else []), *(chain.scan_in for chain in bench.chains)]:
        lines.append(f"      \"{name}\" {{ 01N {{ '0ns' D/U/N; }} }}")
    lines += [f"      \"{name}\" {{ {value} {{ '0ns' {'DU'[int(value)]}; }} }}" for name, value in bench.constants.items()]
    lines += [f"      \"{name}\" {{ LHTX {{ '40ns' L/H/T/X; }} }}"
              for name, some in (("_po", bench.outputs), ("_so", bench.chains)) if some]
    return "\n".join([*lines, "    }", "  }", "}"])


def _procedures(bench: Bench) -> str:
    ends = "".join(f' "{chain.scan_in}"=#; "{chain.scan_out}"=#;' for chain in bench.chains)
    po = '"_po"=X; ' if bench.outputs else ""
    free = po.replace("=X", "=" + repeated("X", len(bench.outputs)))
    off = f'"_so"={repeated("X", len(bench.chains))};'
    data = ('"_pi"=#; ' if bench.inputs else "") + ('"_po"=#; ' if bench.outputs else "")
    return "\n".join([
        "Procedures {", '  "load_unload" {', f'    W "{TABLE}";',
        f'    C {{ {free}{off} "{bench.clock}"=0; "{bench.enable}"=1; }}',
        f'    Shift {{ V {{ "{bench.clock}"=P;{ends} }} }}', "  }",
        '  "capture" {', f'    W "{TABLE}";', f'    V {{ "{bench.clock}"=P; "{bench.enable}"=0; {data}}}', "  }", "}"])


def repeated(letter: str, count: int) -> str:
    """Data of so many equal characters."""
    return f"\\r{count} {letter} " if count > 1 else letter


def _pattern(bench: Bench, start: Start) -> str:
    bits = random.Random(start.seed)
    first = "".join(f' "{name}"={value};' for name, value in bench.constants.items())
    if bench.clock:
        first = f' "{bench.clock}"={"0" if bench.chains else "P"};' + first
    if bench.chains:
        first += "".join(f' "{name}"=0;' for name in [bench.enable, *(chain.scan_in for chain in bench.chains)])
        first += f' "_so"={repeated("X", len(bench.chains))};'
    lines = ['Pattern "_pattern_" {', f'  W "{TABLE}";'] + ([f"  C {{{first} }}"] if first else [])
    for number in range(start.vectors):
        data = f' "_pi"={_random(bits, len(bench.inputs))};' if bench.inputs else ""
        data += f' "_po"={"L" * len(bench.outputs)};' if bench.outputs else ""
        if bench.chains:
            lines.append(_load(bench, bits, number))
            lines.append(f'  Call "capture" {{{data} }}')
        else:
            lines.append(f"  V {{{data} }}")
    if bench.chains and start.vectors:
        lines.append(_load(bench, bits, start.vectors))
    return "\n".join([*lines, "}"])


def _random(bits: random.Random, count: int) -> str:
    return "".join(bits.choice("01") for _ in range(count))


def _load(bench: Bench, bits: random.Random, number: int) -> str:
    """A load of all chains with random data, which also unloads what was captured before, where something was."""
    data = "".join(f' "{chain.scan_in}"={_random(bits, len(chain.cells))};' for chain in bench.chains)
    if number:
        data += "".join(f' "{chain.scan_out}"={"L" * len(chain.cells)};' for chain in bench.chains)
    return f'  "pattern {number}": Call "load_unload" {{{data} }}'


def plan_text(bench: Bench, file: str, start: Start) -> str:
    """A plan to begin with: one good die at site 0, and as many kept fails as there are looks, so that no die's fails are cut off."""
    looks = start.vectors * (len(bench.outputs) + sum(len(chain.cells) for chain in bench.chains))
    rows = [["lot", "256", "1", str(min(max(looks, 1), MOST_KEPT))]]
    if bench.clock:
        rows.append(["clock", bench.clock])
    rows += [["bind", chain.scan_out, chain.cells[-1]] for chain in bench.chains]
    return write_rows([*rows, ["die", "0", "good", file]])
