"""Random STIL texts for a netlist: tables with all acts, vectors, loops, macros, procedures, shifts and several executives."""

import random
from collections.abc import Iterator
from dataclasses import dataclass, field

from stilfloor.witness.nets import Net

PERIODS = (10**8, 4 * 10**7, 33000001, 10**9, 25)
FIELDS = 12
# by what a signal does: its characters, each with how many events of which acts; `*` stands for any look
DATA = {"0": "D", "1": "U", "N": "N", "Z": "Z", "P": "P", "r": "DU", "f": "UD", "e": "", "y": "UPD", "z": "ZP"}
CLOCK = {"0": "D", "1": "U", "P": "DU", "R": "DUD", "n": "DNU", "o": "DZ", "q": "UN", "x": "NU", "y": "PDU", "z": "UDUD",
         "c": "ZT", "d": "NT", "h": "DUH"}
LOOKS = {"L": "L", "H": "H", "T": "T", "X": "X", "l": "lX", "h": "hX", "t": "tX", "w": "h", "v": "l", "u": "*", "s": "**", "m": "****"}


@dataclass(slots=True)
class Signal:
    """A signal: its name as STIL writes it, its direction, what it does, and the net that its bind row names."""

    name: str
    direction: str
    letters: str
    net: str | None = None

    @property
    def bare(self) -> str:
        """Its name without quotes."""
        return self.name.strip('"')


@dataclass(slots=True)
class Program:
    """A random program: its signals, text, the clock, and by how much each signal can be moved."""

    signals: list[Signal] = field(default_factory=list)
    text: str = ""
    clock: Signal | None = None
    rooms: dict[str, tuple[int, int]] = field(default_factory=dict)
    executives: int = 1

    @property
    def movable(self) -> list[Signal]:
        """The signals whose events can be moved."""
        return [signal for signal in self.signals if self.rooms.get(signal.name, (0, 0)) != (0, 0)]


class Writer:
    """Writes a program for a netlist; one that is to learn has its looks in the vectors of patterns, outside loops, all as L."""

    def __init__(self, net: Net, chance: random.Random, learns: bool) -> None:
        self.net = net
        self.chance = chance
        self.learns = learns
        self.program = Program()
        self.scan: list[Signal] = []
        self.ends: list[Signal] = []
        self.enable: Signal | None = None
        self.shy = chance.random() < 0.5
        self.steady = chance.choice((0.9, 0.9, 0.5))

    def write(self) -> Program:
        """The program."""
        self._choose_signals()
        program, chance = self.program, self.chance
        program.executives = chance.choice((1, 1, 2, 2, 3))
        timings = [self._timing(f"t{number}") for number in range(chance.choice((1, 1, 2)))]
        parts = ["STIL 1.0;", "Signals {", *(f"{signal.name} {signal.direction};" for signal in program.signals), "}", *self._chains(), *timings]
        parts += self._bodies()
        for number in range(program.executives):
            parts.append(f"Pattern p{number} {{\nW {self._table()};\n{self._first()}\n{self._body(4 + 4 * (number == 0), number)}}}")
            parts.append(f"PatternBurst b{number} {{ PatList {{ p{number}; }} }}")
            parts.append(f"PatternExec {{ Timing t{chance.randrange(len(timings))}; PatternBurst b{number}; }}")
        program.text = "\n".join(parts) + "\n"
        return program

    def _add(self, wish: str, direction: str, letters: str, net: str | None) -> Signal:
        name = f'"{wish}"' if net == wish and self.chance.random() < 0.5 and '"' not in wish else f's{len(self.program.signals)}'
        if self.chance.random() < 0.3 and name.startswith("s"):
            name = f'"{self.chance.choice(("b[%d]", "pin %d", "x%%%d"))}"' % len(self.program.signals)
        if name in [signal.name for signal in self.program.signals]:
            name = f"other{len(self.program.signals)}"
        signal = Signal(name, direction, letters, net)
        self.program.signals.append(signal)
        return signal

    def _choose_signals(self) -> None:
        """Signals for the clock, inputs, outputs, and some that are free."""
        net, chance = self.net, self.chance
        if chance.random() < 0.9:
            own = chance.choice([*net.inputs, None, None, None, None])
            taken = own if own not in (net.enable, net.reset, *net.scan_ins) else None
            self.program.clock = self._add("ck", chance.choice(("In", "In", "InOut", "Out", "Pseudo")), "clock", taken)
        clocked = self.program.clock.net if self.program.clock else None
        for name in net.inputs:
            if name != clocked and (chance.random() < 0.95 or name in (net.enable, *net.scan_ins)):
                signal = self._add(name, chance.choice(("In", "In", "In", "InOut")), "data" if chance.random() < 0.8 else "both", name)
                self.enable = signal if name == net.enable else self.enable
                self.scan += [signal] if name in net.scan_ins else []
        ends = {chain[-1] for chain in net.chains}
        for name in net.outputs:
            direction = "Out" if name in net.inputs else chance.choice(("Out", "Out", "InOut"))
            signal = self._add(name, direction, "looks", name)
            self.ends += [signal] if name in ends and len(self.ends) < len(net.chains) else []
        for _ in range(chance.choice((0, 0, 1, 2))):
            self._add("free", chance.choice(("Supply", "Pseudo", "In", "Out")), "data", None)

    def _chains(self) -> list[str]:
        """The scan structures; each chain ends at the signal of its last cell."""
        if not self.net.chains:
            return []
        lines = ["ScanStructures {"]
        for number, chain in enumerate(self.net.chains):
            end = next((signal for signal in self.program.signals if signal.net == chain[-1] and signal.letters == "looks"), None)
            if end is not None:
                cells = " ".join(f'"c {number}.{place}"' if place % 5 == 4 else f"f{number}_{place}" for place in range(len(chain)))
                length = len(chain) + self.chance.choice((0, 0, 0, 0, 1))
                lines.append(f"ScanChain c{number} {{ ScanLength {length}; ScanOut {end.name}; ScanCells {cells}; }}")
        return [*lines, "}"]

    def _letters(self, signal: Signal) -> dict[str, str]:
        return {"clock": CLOCK, "data": DATA, "looks": LOOKS, "both": {**DATA, "L": "L", "H": "H", "w": "h*"}}[signal.letters]

    def _timing(self, name: str) -> str:
        """A Timing with two tables; its events stand at few instants, so that many fall together."""
        tables = []
        for number in range(2):
            period = self.chance.choice(PERIODS)
            waves = [line for signal in self.program.signals for line in self._waves(signal, period)]
            tables.append(f"WaveformTable w{number} {{ Period '{period}'; Waveforms {{\n" + "\n".join(waves) + "\n} }")
        return f"Timing {name} {{\n" + "\n".join(tables) + "\n}"

    def _waves(self, signal: Signal, period: int) -> Iterator[str]:
        """The waveforms of a signal; what it is to learn is looked at at one time, whatever it is."""
        shared = self._times(1, period)
        for letter, acts in self._letters(signal).items():
            times = shared if self.learns and letter in "LHTX" else self._times(len(acts), period)
            yield f"{signal.name} {{ {self._wave(signal, letter, acts, times, period)} }}"

    def _times(self, count: int, period: int) -> list[int]:
        fields = (0, 0, 0, 1, 2, 3, 4, 4, 6, 8, FIELDS - 1)
        return sorted(self.chance.choice(fields) * (period // FIELDS) + self.chance.choice((0, 0, 0, 0, 1)) for _ in range(count))

    def _wave(self, signal: Signal, letter: str, acts: str, times: list[int], period: int) -> str:
        chosen = [self.chance.choice("LHTXlht") if act == "*" else act for act in acts]
        for time in times:
            least, most = self.program.rooms.get(signal.name, (-(10**12), 10**12))
            self.program.rooms[signal.name] = max(least, -time), min(most, period - 1 - time)
        return f"{letter} {{ {' '.join(f'{chr(39)}{time}{chr(39)} {act};' for time, act in zip(times, chosen))} }}"

    def _table(self) -> str:
        return f"w{self.chance.randrange(2)}"

    def _first(self) -> str:
        """The characters of all signals, and then some vectors in reset."""
        some = "".join(f" {signal.name}={self._letter(signal, True)};" for signal in self.program.signals)
        reset = next((signal for signal in self.program.signals if signal.net == self.net.reset and signal.letters in ("data", "both")), None)
        clock = self.program.clock
        if not self.net.reset or reset is None or clock is None:
            return f"C {{{some} }}"
        return f"C {{{some} }} V {{ {reset.name}=0; {clock.name}=R; }} V {{ {clock.name}=R; }} C {{ {reset.name}=1; }}"

    def _letter(self, signal: Signal, is_quiet: bool = False) -> str:
        """A character of a signal: a quiet one checks nothing."""
        if signal.letters == "looks":
            return "X" if is_quiet or self.chance.random() < 0.6 else "L" if self.learns else self.chance.choice("LHLHLHTlhtwvusm")
        if signal.letters == "clock":
            return "R" if self.chance.random() < self.steady else self.chance.choice(self.chance.choice(("noqxc", list(CLOCK))))
        kind = self.chance.random()
        if kind < 0.85:
            return self.chance.choice("01" if kind < 0.55 else "rf")
        looks = "LHw" if signal.letters == "both" and not is_quiet and not self.learns else ""
        return self.chance.choice("PPPyyzNZe" + looks)

    def _vector(self, is_quiet: bool) -> str:
        chosen = [signal for signal in self.program.signals if self.chance.random() < 0.6 or self.learns and signal.letters == "looks"]
        return "V {" + "".join(f" {signal.name}={self._letter(signal, is_quiet)};" for signal in chosen) + " }"

    def _body(self, size: int, number: int, depth: int = 0) -> str:
        """Statements; where executives follow, an early one is quiet so that they are reached."""
        is_quiet = self.shy and number + 1 < self.program.executives or self.learns and depth > 0
        lines = []
        for _ in range(self.chance.randint(1, size)):
            kind = self.chance.random()
            if kind < 0.15 and depth < 3:
                lines.append(f"Loop {self.chance.choice((1, 2, 3, 7))} {{\n{self._body(3, number, depth + 1)}}}")
            elif kind < 0.25:
                lines.append(f"W {self._table()};")
            elif kind < 0.35:
                lines.append(self.chance.choice(("Macro m;", "Call q;")))
            elif kind < 0.5 and self.scan and self.ends and self.program.clock:
                lines.append(self._load(is_quiet))
            else:
                lines.append(self._vector(is_quiet))
        return "\n".join([*lines, self._vector(is_quiet)]) + "\n"

    def _load(self, is_quiet: bool) -> str:
        """A load of the chains, whose data may have any lengths."""
        parts = [f"{signal.name}={self._some('01', 6)};" for signal in self.scan if self.chance.random() < 0.9]
        looks = "X" if is_quiet else "LLX" if self.learns else "LHXLHTl"
        parts += [f"{signal.name}={self._some(looks, 6)};" for signal in self.ends if self.chance.random() < 0.9]
        return "Call load { " + " ".join(parts) + " }"

    def _some(self, letters: str, most: int) -> str:
        return "".join(self.chance.choice(letters) for _ in range(self.chance.randint(1, most)))

    def _bodies(self) -> list[str]:
        """A macro, a procedure, and the load of the chains."""
        macro, procedure = (f"{name} {{ W {self._table()}; {self._vector(True)} Loop 2 {{ {self._vector(True)} }} }}" for name in "mq")
        parts = [f"MacroDefs {{ {macro} }}"]
        load = ""
        if self.scan and self.ends and self.program.clock and self.enable:
            ends = " ".join(f"{signal.name}=#;" for signal in [*self.scan, *self.ends])
            quiet = "".join(f" {signal.name}=X;" for signal in self.program.signals if self.learns and signal.letters == "looks")
            first = f"C {{ {self.enable.name}=1; {self.program.clock.name}=R;{quiet} }}"
            load = f"load {{ {first} Shift {{ V {{ {ends} }} }} C {{ {self.enable.name}=0; }} }}"
        elif self.scan:
            self.scan = []
        return [*parts, f"Procedures {{ {procedure}\n{load} }}"]
