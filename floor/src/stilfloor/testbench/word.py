"""The word `testbench`: what it makes, and what it says of a run."""

from dataclasses import dataclass, field

from stilfloor.faults import REFUSED, shown
from stilfloor.testbench import beside, make, simulator
from stilfloor.testbench.bench import Job
from stilfloor.testbench.waves import FILE


@dataclass(slots=True)
class Answer:
    """The lines that are printed, the exit status, and what is told beside them."""

    lines: list[str]
    status: int = 0
    notes: list[str] = field(default_factory=list)


def answer(wish: make.Wish, folder: str, is_run: bool) -> Answer:
    """Makes the testbench, and runs it where that is asked for, as waves do."""
    if is_run or wish.waves:
        simulator.check_tools()
    job = make.job_of(wish)
    paths = make.write(job, folder)
    if not is_run and not wish.waves:
        return Answer(paths, 0, _notes(job))
    lines = simulator.simulate(folder, [make.BENCH, *([make.DIE] if job.written else [])], wish.files, wish.libraries)
    told = _of_design(job, lines) if job.design else _of_die(wish, job, lines)
    if wish.waves:
        told.lines.append(f"{folder}/{FILE}")
    told.notes = _notes(job)
    return told


def _notes(job: Job) -> list[str]:
    """What a design lacks."""
    file = shown(job.lot.plan.file)
    return [f"{file}:1:1: warning: the design has no port `{shown(name)}`, so what drives it is left out" for name in job.binding.lacking]


def _of_design(job: Job, lines: list[str]) -> Answer:
    """The fails of one's own design."""
    fails = beside.fails_of(lines)
    told = [line for line in lines if line.startswith("fail ")]
    kept = f", of which the first {len(told)} are told" if len(told) != fails else ""
    verdict = next(line for line in reversed(lines) if line.startswith("verdict "))
    assert job.design is not None
    return Answer([*told, f"{job.design.top}: {fails} fails{kept}, {verdict}"], REFUSED if fails else 0)


def _of_die(wish: make.Wish, job: Job, lines: list[str]) -> Answer:
    """Whether the program prints of the die what the simulator prints of it."""
    found = beside.difference(lines, beside.lot_lines(wish.program, job))
    if found is None:
        return Answer([f"agree, {beside.fails_of(lines)} fails"])
    ended = "(no more lines)"
    return Answer([f"differ at line {found.line} of the die", f"testbench: {found.simulated or ended}", f"stil lot:  {found.printed or ended}"], REFUSED)
