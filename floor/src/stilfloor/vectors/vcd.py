"""A value change dump as cycles: inputs as they are driven in each cycle, outputs as they are at the strobe."""

from bisect import bisect_right
from collections.abc import Iterator
from dataclasses import dataclass, field

from stilfloor.faults import REFUSED, UNREADABLE, Fault
from stilfloor.plans import read_text
from stilfloor.testbench.nets import read_netlist
from stilfloor.vectors.text import UNITS, Vectors, told_time

DRIVEN = {"0": "0", "1": "1", "x": "N", "z": "Z"}
LOOKED = {"0": "L", "1": "H", "x": "X", "z": "T"}
# what a dump of `testbench --waves` has beside the signals
OURS = ("cycle", "fail", "fails")


@dataclass(slots=True)
class Wish:
    """What is asked for: the clock, times in femtoseconds or none, which names are inputs and outputs, a netlist that says so, and a scope."""

    clock: str
    period: int | None = None
    strobe: int | None = None
    inputs: list[str] = field(default_factory=list)
    outputs: list[str] = field(default_factory=list)
    netlist: str | None = None
    scope: str | None = None


@dataclass(slots=True)
class Line:
    """One bit of a variable: its scope, its name, its kind, and its changes as times and levels."""

    scope: str
    name: str
    kind: str
    times: list[int] = field(default_factory=list)
    levels: list[str] = field(default_factory=list)

    def put(self, time: int, level: str) -> None:
        """Takes a change; of several at one time the last one counts."""
        if self.times and self.times[-1] == time:
            self.levels[-1] = level
        elif not self.levels or self.levels[-1] != level:
            self.times.append(time)
            self.levels.append(level)

    def at(self, time: int) -> str:
        """The level at a time, with what changes then."""
        place = bisect_right(self.times, time)
        return self.levels[place - 1] if place else "x"


class Dump:
    """A dump that is read: its lines, and its last time, in femtoseconds."""

    def __init__(self, file: str) -> None:
        self.file = file
        self.lines: list[Line] = []
        self.bits: dict[str, list[list[Line]]] = {}
        self.scopes: list[str] = []
        self.unit = 10**6
        self.end = 0
        words = self._words(read_text(file))
        for number, word in words:
            if word.startswith("$"):
                self._command(word, words, number)
            else:
                self._change(word, words, number)
        if not self.lines:
            raise Fault(UNREADABLE, "this is no value change dump: it declares no variable", file)

    @staticmethod
    def _words(text: str) -> Iterator[tuple[int, str]]:
        for number, line in enumerate(text.split("\n"), 1):
            for word in line.split():
                yield number, word

    def _refuse(self, number: int, why: str) -> Fault:
        return Fault(UNREADABLE, why, self.file, number)

    def _command(self, word: str, words: Iterator[tuple[int, str]], number: int) -> None:
        """A keyword, with all up to its end; those around changes have none of their own."""
        if word in ("$dumpvars", "$dumpall", "$dumpon", "$dumpoff", "$end"):
            return
        inside = []
        for _, each in words:
            if each == "$end":
                break
            inside.append(each)
        else:
            raise self._refuse(number, f"{word} has no $end")
        if word == "$scope" and len(inside) > 1:
            self.scopes.append(inside[1])
        elif word == "$upscope" and self.scopes:
            self.scopes.pop()
        elif word == "$timescale":
            self._timescale("".join(inside), number)
        elif word == "$var":
            self._variable(inside, number)

    def _timescale(self, said: str, number: int) -> None:
        digits = said.rstrip("fpnumsFPNUMS")
        if digits not in ("1", "10", "100") or said[len(digits) :] not in UNITS:
            raise self._refuse(number, f"`{said}` is no timescale")
        self.unit = int(digits) * UNITS[said[len(digits) :]]

    def _variable(self, said: list[str], number: int) -> None:
        """A variable, a line for each of its bits, the highest first."""
        if len(said) < 4 or not said[1].isdigit() or not 0 < int(said[1][:8]) <= 1 << 16:
            raise self._refuse(number, "this $var isn't of the form KIND WIDTH CODE NAME")
        width, code, name, more = int(said[1]), said[2], said[3].removeprefix("\\"), "".join(said[4:])
        first, _, last = more.strip("[]").partition(":")
        bits = [name + (more if more and ":" not in more else "")]
        if width > 1:
            ends = (int(first), int(last)) if first.lstrip("-").isdigit() and last.lstrip("-").isdigit() else (width - 1, 0)
            step = -1 if ends[0] >= ends[1] else 1
            bits = [f"{name}[{index}]" for index in range(ends[0], ends[1] + step, step)]
        if len(bits) != width:
            raise self._refuse(number, f"`{name}` has {width} bits and the range {more}")
        made = [Line(".".join(self.scopes), bit, said[0]) for bit in bits]
        self.lines += made
        self.bits.setdefault(code, []).append(made)

    def _change(self, word: str, words: Iterator[tuple[int, str]], number: int) -> None:
        letter = word[0].lower()
        if letter == "#":
            if not word[1:].isdigit() or len(word) > 24 or int(word[1:]) * self.unit < self.end:
                raise self._refuse(number, f"`{word}` is no time, or one that is over")
            self.end = int(word[1:]) * self.unit
        elif letter in "01xz":
            self._put(word[1:], letter, number)
        elif letter in "br":
            code = next(words, (number, ""))[1]
            # (a real number is no level)
            self._put(code, word[1:].lower() if letter == "b" else "", number)
        else:
            raise self._refuse(number, f"`{word}` is no change of a value")

    def _put(self, code: str, value: str, number: int) -> None:
        if code not in self.bits:
            raise self._refuse(number, f"the code `{code}` is of no variable")
        if value.strip("01xz"):
            raise self._refuse(number, f"`{value}` has other levels than 0, 1, x and z")
        for line in self.bits[code]:
            # (a short value is filled up by 0, or by its x or z)
            filled = value.rjust(len(line), value[:1] if value[:1] in "xz" else "0") if value else "x" * len(line)
            for bit, level in zip(line, filled[-len(line) :]):
                bit.put(self.end, level)


class Reading:
    """Makes cycles of a dump."""

    def __init__(self, file: str, wish: Wish) -> None:
        self.file = file
        self.wish = wish
        self.dump = Dump(file)
        self.names = self._scope()

    def _scope(self) -> dict[str, Line]:
        """The lines of the scope that has the clock: the outermost one, or the one that is named."""
        some = [line for line in self.dump.lines if self.wish.scope is None or line.scope == self.wish.scope]
        clocks = [line for line in some if line.name == self.wish.clock]
        if not clocks:
            where = f" in the scope `{self.wish.scope}`" if self.wish.scope is not None else ""
            raise Fault(REFUSED, f"the dump has no signal `{self.wish.clock}` of one bit{where}, which --clock names", self.file)
        scope = min((line.scope for line in clocks), key=lambda name: name.count("."))
        return {line.name: line for line in some if line.scope == scope}

    def vectors(self) -> Vectors:
        """The cycles."""
        clock = self.names[self.wish.clock]
        inputs, outputs = self._directions()
        rises = [time for time, level in zip(clock.times, clock.levels) if level == "1" and time]
        period = self.wish.period or self._period(rises)
        rise = self._one_time(clock, "1", period) if rises else period // 2
        fall = self._one_time(clock, "0", period) if rises and any(level == "0" and time for time, level in zip(clock.times, clock.levels)) else None
        made = Vectors(self.file, period, self.wish.clock, rise, self._fall(rise, fall, period))
        made.inputs = {name: self._changes(self.names[name], period) for name in inputs}
        made.outputs = outputs
        made.strobe = self._strobe(made) if self.wish.strobe is None else self.wish.strobe
        for start in range(0, max(self.dump.end, 1), period):
            made.rows.append(self._row(made, start))
        return made

    @staticmethod
    def _fall(rise: int, fall: int | None, period: int) -> int:
        return fall if fall is not None else (rise + period) // 2 if rise else period // 2

    def _period(self, rises: list[int]) -> int:
        """The distance of the clock's rises."""
        gaps = [later - earlier for earlier, later in zip(rises, rises[1:])]
        if not gaps:
            raise Fault(REFUSED, f"`{self.wish.clock}` doesn't rise twice, so --period has to say how long a cycle is", self.file)
        other = next((number for number, gap in enumerate(gaps) if gap % min(gaps)), None)
        if other is not None:
            text = f"`{self.wish.clock}` rises at {told_time(rises[other])} and at {told_time(rises[other + 1])}, which aren't whole cycles of "
            raise Fault(REFUSED, text + f"{told_time(min(gaps))} apart: --period says how long a cycle is", self.file)
        return min(gaps)

    def _one_time(self, line: Line, level: str, period: int) -> int:
        """The time of a cycle at which a clock changes to a level."""
        times = [time for time, each in zip(line.times, line.levels) if each == level and time]
        other = next((time for time in times if time % period != times[0] % period), None)
        if other is not None:
            raise Fault(REFUSED, f"the clock `{line.name}` changes to {level} at {told_time(times[0])} and at {told_time(other)}, which are two times of a "
                        f"cycle of {told_time(period)}", self.file)
        return times[0] % period

    def _changes(self, line: Line, period: int) -> int:
        """The time of a cycle at which an input changes."""
        times = line.times[1:] if line.times[:1] == [0] else line.times
        other = next((time for time in times if time % period != times[0] % period), None)
        if other is not None:
            raise Fault(REFUSED, f"the input `{line.name}` changes at {told_time(times[0])} and at {told_time(other)}, which are two times of a cycle of "
                        f"{told_time(period)}", self.file)
        return times[0] % period if times else 0

    def _strobe(self, made: Vectors) -> int:
        """Between what comes last before the clock's rise and that; where the rise begins a cycle, before the cycle's end."""
        times = [0, *made.inputs.values(), made.fall]
        if made.rise:
            return (max(time for time in times if time < made.rise) + made.rise) // 2
        return (max(times) + made.period) // 2

    def _row(self, made: Vectors, start: int) -> tuple[str, str, str]:
        clock = self.names[made.clock]
        place = bisect_right(clock.times, start + made.rise) - 1
        is_pulsed = place >= 0 and clock.times[place] == start + made.rise and clock.levels[place] == "1"
        if is_pulsed and made.rise < made.fall and start + made.fall <= self.dump.end and clock.at(start + made.fall) != "0":
            raise Fault(REFUSED, f"the clock `{clock.name}` rises at {told_time(start + made.rise)} and doesn't fall in that cycle", self.file)
        letter = "P" if is_pulsed else "1" if clock.at(start) == "1" else "0"
        drives = "".join(DRIVEN[self.names[name].at(start + time)] for name, time in made.inputs.items())
        return letter, drives, "".join(LOOKED[self.names[name].at(start + made.strobe)] for name in made.outputs)

    def _directions(self) -> tuple[list[str], list[str]]:
        """The names of inputs and outputs: as they are named, by a netlist, by a dump of `testbench --waves`, or by reg and wire."""
        wish, names = self.wish, [name for name in self.names if name != self.wish.clock]
        if wish.inputs or wish.outputs:
            inputs, outputs = self._spelled(wish.inputs), self._spelled(wish.outputs)
        elif wish.netlist:
            netlist = read_netlist(wish.netlist)
            inputs, outputs = [name for name in netlist.inputs if name in names], [name for name in netlist.outputs if name in names]
        elif any(f"{name}.want" in self.names for name in names):
            both = next((name for name in names if f"{name}.drive" in self.names), None)
            if both is not None:
                raise Fault(REFUSED, f"`{both}` is driven and looked at: name what is to be driven by --in, and what is to be looked at by --out", self.file)
            outputs = [name for name in names if f"{name}.want" in self.names]
            plain = [name for name in names if not name.endswith(".want") and name.split("[")[0] not in OURS]
            inputs = [name for name in plain if name not in outputs]
        else:
            inputs = [name for name in names if self.names[name].kind == "reg"]
            outputs = [name for name in names if self.names[name].kind == "wire"]
        if not inputs and not outputs:
            raise Fault(REFUSED, "no signal beside the clock is an input or an output: name them by --in and --out, or by --netlist", self.file)
        return inputs, outputs

    def _spelled(self, names: list[str]) -> list[str]:
        """The bits of names."""
        found = []
        for name in names:
            bits = [each for each in self.names if each == name or each.startswith(f"{name}[")]
            if not bits:
                raise Fault(REFUSED, f"the dump has no signal `{name}` beside the clock", self.file)
            found += bits
        return found
