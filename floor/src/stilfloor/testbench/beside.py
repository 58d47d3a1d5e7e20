"""Beside `stil lot`: the lines of a die as the simulator prints them, and as the program does."""

import os
import tempfile
from dataclasses import dataclass

from stilfloor import tester
from stilfloor.faults import Fault
from stilfloor.plans import read_text
from stilfloor.sentences import refusal
from stilfloor.testbench.bench import Job
from stilfloor.testbench.lots import printable, rows_of


@dataclass(slots=True)
class Difference:
    """The first line at which two texts differ, counted from 1, with both sides; a side that has ended has none."""

    line: int
    simulated: str | None
    printed: str | None

    def __str__(self) -> str:
        sides = (f"`{side}`" if side is not None else "no more" for side in (self.simulated, self.printed))
        return f"differ at line {self.line} of the die: testbench {next(sides)}, stil lot {next(sides)}"


def lot_lines(program: str, job: Job) -> list[str]:
    """The lines that `stil lot` prints of the die, from its name to its bin, by a plan that has its rows and no other die's."""
    with tempfile.TemporaryDirectory() as room:
        with open(program, "rb") as source, open(os.path.join(room, "program"), "wb") as out:
            out.write(source.read())
        for name, text in (("n.bench", read_text(job.die.file)), ("plan.csv", printable(rows_of(job.lot, job.die, "n.bench")))):
            with open(os.path.join(room, name), "w", encoding="latin-1", newline="") as text_out:
                text_out.write(text)
        status, output = tester.run(["lot", "program", "plan.csv"], room)
        if status:
            raise _refused(output.decode("latin-1"), status, program, job)
    lines = output.decode("latin-1").split("\n")
    return lines[1 : next(place for place, line in enumerate(lines) if line.startswith("bin ")) + 1]


def _refused(output: str, status: int, program: str, job: Job) -> Fault:
    """The refusal of a lot under the names that its files have in truth."""
    fault = refusal(output, status, program, job.lot.plan.file)
    if fault.file == "n.bench":
        fault.file = job.die.file
    return fault


def difference(simulated: list[str], printed: list[str]) -> Difference | None:
    """The first line that differs."""
    for number in range(max(len(simulated), len(printed))):
        left, right = (lines[number] if number < len(lines) else None for lines in (simulated, printed))
        if left != right:
            return Difference(number + 1, left, right)
    return None


def fails_of(lines: list[str]) -> int:
    """How many looks failed in all tries."""
    return sum(int(line.rpartition(" ")[2]) for line in lines if line.startswith("try "))


__all__ = ["Difference", "difference", "fails_of", "lot_lines"]
