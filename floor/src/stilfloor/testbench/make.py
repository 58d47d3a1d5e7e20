"""Writes a testbench of a program, a plan and a die of it, or one's own design, into a folder."""

import contextlib
import os
from collections.abc import Iterable, Iterator
from dataclasses import dataclass, field

from stilfloor import saved
from stilfloor.faults import REFUSED, UNREADABLE, Fault
from stilfloor.names import replacing
from stilfloor.testbench import memory, simulator
from stilfloor.testbench.bench import MARK, Job, write_bench
from stilfloor.testbench.binding import Binding, bind_netlist, bind_ports, check_rows
from stilfloor.testbench.codes import code_of
from stilfloor.testbench.die import write_die
from stilfloor.testbench.lots import Die, Lot, choose, read_lot
from stilfloor.testbench.nets import read_netlist
from stilfloor.testbench.waves import FILE, Line, Waves

BENCH, DIE = "testbench.v", "die.v"
# what a run leaves beside them
OF_RUNS = (*simulator.MADE, FILE)
MOST_TIME = 1 << 64


@dataclass(slots=True)
class Wish:
    """What is asked for: a program, a plan, which die of it, one's own design with its files and libraries, waves and further nets."""

    program: str
    plan: str
    site: int | None = None
    die: str | None = None
    top: str | None = None
    files: list[str] = field(default_factory=list)
    libraries: list[str] = field(default_factory=list)
    waves: bool = False
    nets: list[str] = field(default_factory=list)


def job_of(wish: Wish) -> Job:
    """What the testbench is made of; what can't be is refused."""
    code = code_of(wish.program)
    lot = read_lot(wish.plan)
    if wish.top is not None:
        die = _die_for_design(lot, wish)
        design = simulator.design_of(wish.top, wish.files, wish.libraries)
        check_rows(code, lot, None, None)
        job = Job(code, lot, die, bind_ports(code, lot, design), _skews(code, lot, die), design=design)
    else:
        die = choose(lot, wish.site, wish.die)
        netlist = read_netlist(die.file)
        check_rows(code, lot, die, netlist)
        job = Job(code, lot, die, bind_netlist(code, lot, netlist), _skews(code, lot, die), write_die(netlist, die))
    _check_time(job, wish.program)
    if wish.waves:
        job.waves = _waves(job, wish.nets)
    return job


def _die_for_design(lot: Lot, wish: Wish) -> Die:
    """The die in whose place a design stands; a plan may have none."""
    if lot.dies:
        return choose(lot, wish.site, wish.die)
    return Die(wish.site or 0, wish.die or wish.top or "", "")


def _skews(code: saved.Code, lot: Lot, die: Die) -> list[int]:
    moved = lot.skews.get(die.site, {})
    return [moved.get(name, 0) for _, name in code.signals]


def _check_time(job: Job, program: str) -> None:
    """Refuses what may last longer than the simulator's time counts."""
    longest = sum(_longest(executive, job.code) for executive in job.code.executives)
    period = max((table.period for table in job.code.tables), default=0)
    total = 0
    for attempt in range(1, job.tries + 1):
        stop = None if job.design else job.die.stops.get(attempt)
        total += longest if stop is None else min(longest, stop * job.lot.batch * period)
    if total >= MOST_TIME:
        raise Fault(REFUSED, f"the test may last {total} fs in its {job.tries} tries, and Verilog's time ends at {MOST_TIME} fs, which is five hours", program)


def _longest(executive: saved.Executive, code: saved.Code) -> int:
    """How long an executive lasts."""
    opened: list[tuple[int, int]] = []
    time = 0
    for kind, table, _, _, times in executive.instructions:
        if kind == 1:
            time += times * code.tables[table].period
        elif kind == 2:
            opened.append((time, times))
            time = 0
        elif kind == 3:
            before, passes = opened.pop()
            time = before + passes * time
    return time


def _waves(job: Job, nets: list[str]) -> Waves:
    """The lines of the waves: all signals that have a net, and the nets that are asked for."""
    looked = {signal for table in job.code.tables for (signal, _), events in table.waves.items() if any(act in "LHTlht" for _, act in events)}
    lines = []
    for signal, (_, name) in enumerate(job.code.signals):
        if job.binding.seen >> signal & 1:
            drive = "ck" if signal == job.binding.clock else f"drive_{signal}" if job.binding.driven >> signal & 1 else ""
            lines.append(Line(signal, name, drive, signal in looked))
    return Waves(lines, [_net(job, net) for net in nets])


def _net(job: Job, net: str) -> str:
    """A net that is asked for, by its hierarchical name."""
    if job.written is not None:
        if net not in job.written.nets:
            raise Fault(REFUSED, f"the netlist has no net `{net}`", job.die.file)
        return f"die.{job.written.nets[net]}"
    assert job.design is not None
    parts = net.split(".")
    if not all(part and part.isascii() and part.replace("$", "_").isidentifier() for part in parts):
        raise Fault(REFUSED, f"`{net}` is no net of `{job.design.top}`: write its hierarchical name, as core.state")
    return ".".join(["dut", *(f"\\{part} " for part in parts)])


def write(job: Job, folder: str) -> list[str]:
    """Writes the files of a testbench; their names."""
    texts: dict[str, Iterable[bytes]] = {
        BENCH: _encoded(write_bench(job)), memory.ROWS: memory.row_words(job.code, job.letters), memory.STEPS: memory.step_words(job.steps),
        memory.TEXTS: memory.heap_words(job.texts), memory.PLACES: memory.place_words(job.texts), memory.CHAINS: memory.chain_words(job.texts)}
    if job.written is not None:
        texts[DIE] = _encoded(iter([job.written.text]))
    try:
        os.makedirs(folder, exist_ok=True)
        _check_folder(folder, [*texts, *OF_RUNS])
        for name in (*OF_RUNS, DIE):
            with contextlib.suppress(FileNotFoundError):
                os.unlink(os.path.join(folder, name))
        for name, pieces in texts.items():
            with replacing(os.path.join(folder, name), None) as out:
                out.writelines(pieces)
    except OSError as error:
        raise Fault(UNREADABLE, f"{error.strerror}", str(error.filename or folder)) from error
    return [os.path.join(folder, name) for name in texts]


def _encoded(pieces: Iterator[str]) -> Iterator[bytes]:
    return (piece.encode("latin-1") for piece in pieces)


def _check_folder(folder: str, names: list[str]) -> None:
    """Writes over no file that isn't a testbench's."""
    path = os.path.join(folder, BENCH)
    if os.path.isfile(path):
        with open(path, encoding="latin-1") as stream:
            if stream.read(len(MARK)) == MARK:
                return
    taken = next((name for name in names if os.path.lexists(os.path.join(folder, name))), None)
    if taken is not None:
        raise Fault(UNREADABLE, "this file is there already, and no testbench of this word lies beside it: choose another folder",
                    os.path.join(folder, taken))


__all__ = ["Binding", "Wish", "job_of", "write"]
