"""Icarus Verilog: it says which ports a design has, compiles testbenches and runs them."""

import os
import re
import shutil
import subprocess
import tempfile
from dataclasses import dataclass

from stilfloor.faults import REFUSED, TOOL, UNREADABLE, Fault, Faults
from stilfloor.testbench.names import HARMLESS, escaped
from stilfloor.testbench.ports import Design, read_design

PROBE = "probe.v"
# (no design has a module of this name, and some have one of the name `testbench`)
PROBED = "stilfloor_probe"
RUN, LOG = "testbench.vvp", "testbench.log"
MADE = (RUN, LOG)
# so much of what a simulation says is told where it ends too early
MOST_TOLD = 300
COMPLAINT = re.compile(r"(?:\./)?([\w./]+):(\d+): (?!warning)(?:error: |sorry: )?(.*)")
# a design without a timescale of its own has this one
TIMESCALE = "`timescale 1ns / 1ps\n"


@dataclass(slots=True)
class Sources:
    """The files of a design under plain names in a folder, with the names that they have in truth."""

    room: str
    words: list[str]
    names: dict[str, str]
    has_system: bool


def check_tools() -> None:
    """Says where the simulator is missing."""
    for name in ("iverilog", "vvp"):
        if not shutil.which(name):
            raise Fault(TOOL, f"{name} isn't there, and this needs it: `apt-get install iverilog`")


def link(files: list[str], libraries: list[str], room: str) -> Sources:
    """Links to the files of a design, in a folder of their own; so no name of a file is read by another program."""
    with open(os.path.join(room, "timescale.v"), "w", encoding="ascii") as out:
        out.write(TIMESCALE)
    sources = Sources(room, [], {}, False)
    for number, file in enumerate([*files, *libraries]):
        if not os.access(file, os.R_OK) or os.path.isdir(file):
            raise Fault(UNREADABLE, "the file can't be read", file)
        is_system = file.endswith(".sv")
        name, folder = f"file{number}{'.sv' if is_system else '.v'}", f"folder{number}"
        os.symlink(os.path.abspath(file), os.path.join(room, name))
        os.symlink(os.path.dirname(os.path.abspath(file)), os.path.join(room, folder))
        sources.names[name] = file
        sources.names[folder] = os.path.dirname(file) or "."
        sources.has_system |= is_system
        sources.words += ["-I", folder, *([] if number < len(files) else ["-l"]), name]
    return sources


def compile_in(sources: Sources, first: list[str], out: str, top: str = "testbench") -> None:
    """Compiles what stands in a folder: these files behind the design's, with this module at the top."""
    check_tools()
    words = ["iverilog", "-g2012" if sources.has_system else "-g2005", "-o", out, "-s", top]
    done = subprocess.run([*words, "timescale.v", *sources.words, *first], cwd=sources.room, capture_output=True, check=False)
    if done.returncode:
        raise _complaints(done.stderr.decode("utf-8", "replace") + done.stdout.decode("utf-8", "replace"), sources)


def _complaints(text: str, sources: Sources) -> Fault:
    """What the simulator refused, at its files and lines."""
    faults = []
    for line in text.splitlines():
        found = COMPLAINT.match(line)
        if found:
            faults.append(_complaint(_named(found[1], sources), int(found[2]), found[3], sources))
    if not faults:
        return Fault(TOOL, "iverilog ended without a simulation: " + " ".join(text.split())[-300:])
    return Faults(faults[:20])


def _complaint(file: str, line: int, said: str, sources: Sources) -> Fault:
    """One complaint; what is said of the file that asks for the module is about that module."""
    if file == PROBE:
        top = said.rpartition(" ")[2]
        return Fault(REFUSED, f"there is no module `{top}` in these files" if said.startswith("Unknown module") else f"iverilog: {said}",
                     next(iter(sources.names.values()), ""))
    return Fault(REFUSED, f"iverilog: {said}", file, line)


def _named(path: str, sources: Sources) -> str:
    """A file's own name."""
    head, _, rest = path.partition("/")
    return os.path.join(sources.names[head], rest) if rest and head in sources.names else sources.names.get(path, path)


def design_of(top: str, files: list[str], libraries: list[str]) -> Design:
    """The ports of one's own design."""
    if not top or HARMLESS.search(top):
        raise Fault(REFUSED, f"`{top}` can't be the name of a module here: it may have letters, digits and _$.:<>[]+-")
    with tempfile.TemporaryDirectory() as room:
        sources = link(files, libraries, room)
        with open(os.path.join(room, PROBE), "w", encoding="ascii") as out:
            out.write(f"module {PROBED};\n    {escaped(top)} dut();\nendmodule\n")
        compile_in(sources, [PROBE], "probe", PROBED)
        with open(os.path.join(room, "probe"), encoding="latin-1") as code:
            return read_design(code.read(), top)


def simulate(folder: str, wanted: list[str], files: list[str], libraries: list[str]) -> list[str]:
    """Compiles and runs the testbench of a folder; the lines that it printed, without their line feeds."""
    with tempfile.TemporaryDirectory() as room:
        sources = link(files, libraries, room)
        for name in wanted:
            os.symlink(os.path.abspath(os.path.join(folder, name)), os.path.join(room, name))
        compile_in(sources, wanted, "out")
        shutil.copy(os.path.join(room, "out"), os.path.join(folder, RUN))
    log = os.path.join(folder, LOG)
    if os.path.lexists(log):
        os.unlink(log)
    with tempfile.TemporaryFile() as output:
        done = subprocess.run(["vvp", "-n", RUN], cwd=folder, stdin=subprocess.DEVNULL, stdout=output, stderr=subprocess.STDOUT, check=False)
        output.seek(-min(output.tell(), MOST_TOLD), os.SEEK_END)
        said = output.read().decode("utf-8", "replace")
    lines = _log_lines(log)
    if done.returncode or not lines or not lines[-1].startswith("bin "):
        raise Fault(TOOL, "the simulation ended before the test did: " + " ".join(said.split()), os.path.join(folder, RUN))
    return lines


def _log_lines(path: str) -> list[str]:
    """The lines that a testbench left."""
    if not os.path.exists(path):
        return []
    with open(path, encoding="latin-1", newline="\n") as lines:
        return lines.read().split("\n")[:-1]
