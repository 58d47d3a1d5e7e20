"""Waves of a testbench: drives, what signals show, what is wanted of them, and a line of fails."""

from collections.abc import Iterator
from dataclasses import dataclass, field

from stilfloor.testbench.names import Names

FILE = "waves.vcd"


@dataclass(slots=True)
class Line:
    """A signal in the waves: its number and name, what drives it if something does, and whether it is looked at."""

    signal: int
    name: str
    drive: str
    is_looked_at: bool


@dataclass(slots=True)
class Waves:
    """The signals of a program that have nets, and the hierarchical names of further nets."""

    lines: list[Line]
    nets: list[str] = field(default_factory=list)

    def state(self) -> Iterator[str]:
        """What is kept for the waves alone."""
        yield "\n    // ---- for the waves: what is wanted (00 low, 01 high, 10 nothing, 11 off), and whether a look has just failed\n"
        yield "    reg [SIGNALS-1:0] want_value, want_vague;\n    reg failing;\n    reg [63:0] fails_then;\n    waves waves();\n"

    def around(self, wants: list[tuple[str, str, str]]) -> tuple[str, str]:
        """What stands before a moment is judged, and behind that."""
        low, high, off = (" | ".join(names) for names in zip(*wants))
        before = f"            want_value = {high} | {off};\n            want_vague = ~({low} | {high});\n            fails_then = fails;\n"
        return before, "            failing = fails != fails_then;\n"

    def begin(self) -> str:
        """What begins the file."""
        lines = [f'$dumpfile("{FILE}");', "$dumpvars(0, waves);", *(f"$dumpvars(0, {net});" for net in self.nets)]
        return "".join(f"            {line}\n" for line in lines)

    def module(self) -> Iterator[str]:
        """The module `waves`, whose lines are those of the file."""
        names = Names(["testbench", "waves", "fail", "fails", "cycle"])
        yield "\n// the lines of the waves: each signal as it is driven or seen, what is wanted of it, and the fails\nmodule waves;\n"
        for line in self.lines:
            seen, drive = f"testbench.seen[{line.signal}]", f"testbench.{line.drive}"
            levels = {"": seen if line.is_looked_at or not line.drive else drive}
            if line.is_looked_at:
                levels |= {".drive": drive} if line.drive else {}
                wants = (f"testbench.want_{what}[{line.signal}]" for what in ("vague", "value", "value"))
                levels[".want"] = f"{next(wants)} ? ({next(wants)} ? 1'bz : 1'bx) : {next(wants)}"
            yield "".join(f"    wire {names.new(line.name + end)} = {level};\n" for end, level in levels.items())
        yield "    wire fail = testbench.failing;\n    wire [63:0] fails = testbench.fails;\n    wire [63:0] cycle = testbench.cycles;\n"
        yield "endmodule\n"
