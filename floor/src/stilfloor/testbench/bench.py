"""The testbench of a program: it drives a die, or one's own design, and looks at it as the program says, and prints the lines of a datalog."""

from collections.abc import Iterable, Iterator
from dataclasses import dataclass, field

from stilfloor.plans import MOST_KEPT
from stilfloor.saved import Code
from stilfloor.testbench import engine, memory
from stilfloor.testbench.binding import Binding
from stilfloor.testbench.die import Written, describe
from stilfloor.testbench.lots import Die, Lot
from stilfloor.testbench.moments import EDGES, PUSHES, WINDOWS, Instant, Masks, instants_of
from stilfloor.testbench.names import constant, escaped, harmless
from stilfloor.testbench.ports import Design, Port
from stilfloor.testbench.waves import Waves

MARK = "// made by stilfloor testbench"
HEAD = MARK + """: {what}.
// It reads the files testbench.* beside it: run it in their folder.
//     iverilog -s testbench -o testbench.vvp testbench.v {files}
//     vvp -n testbench.vvp

`resetall
`timescale 1fs / 1fs

module testbench;
"""
# masks with so few signals are written signal by signal where there are many signals
FEW = 2
MANY = 64


@dataclass(slots=True)
class Job:
    """What a testbench is made of: a program, a plan with a die of it, and how signals are bound; `die` is its text, `design` one's own."""

    code: Code
    lot: Lot
    die: Die
    binding: Binding
    skews: list[int]
    written: Written | None = None
    design: Design | None = None
    waves: Waves | None = None
    letters: memory.Letters = field(init=False)
    steps: memory.Steps = field(init=False)
    texts: memory.Texts = field(init=False)

    def __post_init__(self) -> None:
        self.letters = memory.letters_of(self.code)
        self.steps = memory.steps_of(self.code)
        self.texts = memory.texts_of(self.code, self.die.name)

    @property
    def width(self) -> int:
        """How many bits signals have."""
        return max(1, len(self.code.signals))

    @property
    def tables(self) -> list[int]:
        """The tables that some step has."""
        return sorted({int(number) for number in self.steps.fields[self.steps.fields[:, 0] == 0, 1]})

    @property
    def tries(self) -> int:
        """How many tries there are; one's own design, which can't be loaded anew, has one."""
        return 1 if self.design else self.lot.tries


def write_bench(job: Job) -> Iterator[str]:
    """The module `testbench`."""
    instants = {number: instants_of(job.code.tables[number], job.skews, job.binding.driven, job.binding.seen) for number in job.tables}
    everywhere = [instant for some in instants.values() for instant in some.values()]
    layers = max([1, *(len(instant.edges) for instant in everywhere)])
    watches = job.waves is not None or any(instant.windows for instant in everywhere)
    yield _head(job)
    yield engine.SIZES.format(sizes="\n".join(f"    parameter {name} = {number};" for name, number in _sizes(job)))
    widths = dict(zip(("kind", "table", "row", "mark", "times"), (width - 1 for width in job.steps.widths)))
    yield engine.STATE.format(**widths, planes=_planes(job), layers=", ".join(_layer_names(layers)))
    yield from _pins(job)
    yield from job.waves.state() if job.waves else ()
    yield engine.DRIVES.format(clock=_clock(job))
    yield engine.SETTLE_DESIGN if job.design else engine.SETTLE_DIE
    yield _looks(job, layers)
    yield from _tables(job, instants, watches)
    yield _run(job, layers)
    yield _lines(job)
    yield from job.waves.module() if job.waves else ()


def _head(job: Job) -> str:
    if job.design:
        return HEAD.format(what=f"a program on the design {harmless(job.design.top)}", files="and the design's files")
    return HEAD.format(what=f"a program on {describe(job.die)}", files="die.v")


def _sizes(job: Job) -> list[tuple[str, int]]:
    """The numbers that the testbench has by name."""
    keep = MOST_KEPT if job.design else job.lot.keep
    return [("SIGNALS", job.width), ("PLANES", job.letters.planes), ("ROWS", max(1, len(job.code.rows))), ("STEP", sum(job.steps.widths)),
            ("STEPS", len(job.steps.fields)), ("TEXTS", max(1, len(job.texts.heap))), ("PLACES", len(job.texts.places)),
            ("CHAINS", max(1, len(job.texts.chains))), ("KEEP", keep), ("KEPT", max(1, keep)), ("EXECUTIVES", len(job.code.executives)),
            ("BATCH", job.lot.batch), ("TRIES", job.tries), ("DIE", len(job.code.signals))]


def _planes(job: Job) -> str:
    return ", ".join(f"plane_{plane}" for plane in reversed(range(job.letters.planes)))


def _layer_names(layers: int) -> list[str]:
    return [f"{what}_{layer}" for layer in range(layers) for what in EDGES.values()]


def _pins(job: Job) -> Iterator[str]:
    """What drives the signals, what stands in the die's place, and what the signals show."""
    yield "\n    // ---- the die, or what stands in its place\n"
    for signal, bind in enumerate(job.binding.binds):
        if bind and bind.drives:
            level = f"vague[{signal}] ? (value[{signal}] ? 1'bz : 1'bx) : value[{signal}]"
            if signal == job.binding.clock and job.design:
                level = "ck"
            yield f"    wire drive_{signal} = {level};    // {harmless(job.code.signals[signal][1])}\n"
    yield from _ports(job, job.design) if job.design else _die(job)
    numbers = {port.name: number for number, port in enumerate(_connected(job))}
    shown = [_shown(job, signal, numbers) for signal in reversed(range(job.width))]
    yield "    assign seen = {\n        " + ",\n        ".join(shown) + "};\n"


def _drivers(job: Job) -> dict[str, int]:
    """The signal that drives each net."""
    return {bind.net: signal for signal, bind in enumerate(job.binding.binds) if bind and bind.drives}


def _die(job: Job) -> Iterator[str]:
    written = job.written
    assert written is not None
    yield f"    reg [{max(len(job.die.faults) - 1, 0)}:0] active;\n    reg fresh;\n"
    drivers = _drivers(job)
    wires = [f".{port}({f'drive_{drivers[net]}' if net in drivers else one_bit_unknown()})" for net, port in written.inputs.items()]
    yield "    die die(.ck(ck), .fresh(fresh), .active(active)" + "".join(f",\n        {wire}" for wire in wires) + ");\n"


def one_bit_unknown() -> str:
    """What an input shows that no signal drives."""
    return "1'bx"


def _ports(job: Job, design: Design) -> Iterator[str]:
    """The ports of one's own design that some signal has; the others are left open."""
    connected = _connected(job)
    for number, port in enumerate(connected):
        yield f"    wire [{port.first}:{port.last}] port_{number};    // {harmless(port.name)}\n"
    numbers = {port.name: number for number, port in enumerate(connected)}
    for net, signal in _drivers(job).items():
        pin = design.pins[net]
        yield f"    assign port_{numbers[pin.port.name]}[{pin.index}] = drive_{signal};\n"
    wires = ", ".join(f".{escaped(port.name)}(port_{number})" for number, port in enumerate(connected))
    yield f"    {escaped(design.top)} dut({wires});\n"


def _connected(job: Job) -> list[Port]:
    """The ports of one's own design that some signal has, in their order."""
    design = job.design
    if design is None:
        return []
    used = {design.pins[bind.net].port.name for bind in job.binding.binds if bind}
    return [port for port in design.ports if port.name in used]


def _shown(job: Job, signal: int, numbers: dict[str, int]) -> str:
    """Where a signal's level is seen; a design's ports have numbers."""
    bind = job.binding.binds[signal] if job.code.signals else None
    if bind is None:
        return "ck" if signal == job.binding.clock else one_bit_unknown()
    if job.design is None:
        assert job.written is not None
        return f"die.{job.written.nets[bind.net]}"
    pin = job.design.pins[bind.net]
    return f"port_{numbers[pin.port.name]}[{pin.index}]"


def _clock(job: Job) -> str:
    """How a moment drives the clock."""
    clock = job.binding.clock
    if clock is None:
        return ""
    level = f"ck = next_vague[{clock}] ? (next_value[{clock}] ? 1'bz : 1'bx) : next_value[{clock}];"
    lines = [level] if job.design is None else [f"if (next_value[{clock}] != value[{clock}] || next_vague[{clock}] != vague[{clock}]) begin",
                                                "    " + level, "    settle;", "end"]
    return "".join(f"                {line}\n" for line in lines)


def _looks(job: Job, layers: int) -> str:
    wants = [(f"low_{layer}", f"high_{layer}", f"off_{layer}") for layer in range(layers)] + [("low_open", "high_open", "off_open")]
    suspects = "\n                | ".join(f"((seen ^ {high}) & ({low} | {high})) | {off}" for low, high, off in wants)
    clear = "            " + " ".join(f"{name} = 0;" for name in _layer_names(layers)) + "\n"
    before, behind = job.waves.around(wants) if job.waves else ("", "")
    return engine.LOOKS.format(suspects=suspects, edges="".join(engine.EDGES.format(n=layer) for layer in range(layers)), clear=clear,
                               before=before, behind=behind)


def _tables(job: Job, instants: dict[int, dict[int, Instant]], watches: bool) -> Iterator[str]:
    """A task for each table, which plays one cycle of it, and the one that chooses among them."""
    used = sorted({letter for some in instants.values() for instant in some.values() for letter in instant.events})
    if used:
        yield "\n    // ---- waveform tables\n    reg [SIGNALS-1:0] " + ", ".join(f"is_{letter}" for letter in used) + ";\n"
    for number, some in instants.items():
        yield from _table(job, number, some, watches)
    cases = "".join(f"                {number}: table_{number};\n" for number in instants)
    yield engine.CYCLE.format(planes=_planes(job), tables=cases + "                default: ;\n")


def _table(job: Job, number: int, instants: dict[int, Instant], watches: bool) -> Iterator[str]:
    """The task of a table: which signals have which character, and then instant by instant."""
    table = job.code.tables[number]
    yield f"    // {harmless(table.name)}: {table.period} fs\n    task table_{number};\n        begin\n"
    letters = sorted({letter for instant in instants.values() for letter in instant.events if letter in job.letters.numbers})
    if letters:
        yield "            if (is_new) begin\n" + "".join(_chosen(job, letter) for letter in letters) + "            end\n"
    before = 0
    for time, instant in instants.items():
        lines = list(_instant(job, instant, watches))
        if lines:
            yield f"            #(64'd{time - before});\n" if time > before else ""
            yield "".join(f"            {line}\n" for line in lines)
            before = time
    yield f"            #(64'd{table.period - before});\n        end\n    endtask\n\n"


def _chosen(job: Job, letter: str) -> str:
    """Which signals have a character: those whose planes have the bits of its number."""
    number = job.letters.numbers[letter]
    parts = [f"plane_{plane}" if number >> plane & 1 else f"~plane_{plane}" for plane in range(job.letters.planes)]
    return f"                is_{letter} = {' & '.join(parts)};\n"


def _instant(job: Job, instant: Instant, watches: bool) -> Iterator[str]:
    """The statements of an instant."""
    pushes = [line for what in PUSHES.values() for line in _gathered(job, what, instant.pushes.get(what, {}))]
    yield from [*pushes, "drive;"] if pushes else []
    looks = [line for layer, some in enumerate(instant.edges) for what, masks in some.items() for line in _gathered(job, f"{what}_{layer}", masks)]
    looks += _gathered(job, "looked", instant.looked)
    looks += [line for what in WINDOWS.values() for line in _gathered(job, f"{what}_window", instant.windows.get(what, {}))]
    yield from looks
    some = _alternatives(job, instant.events)
    if watches and some:
        yield f"if (({some}) != 0) look;"
    elif looks:
        yield "look;"


def _alternatives(job: Job, masks: Masks) -> str:
    """The signals that have these characters."""
    return " | ".join(f"(is_{letter} & {constant(mask, job.width)})" for letter, mask in masks.items() if letter in job.letters.numbers)


def _gathered(job: Job, what: str, masks: Masks) -> Iterable[str]:
    """Statements that set the bits of these signals where they have these characters."""
    known = {letter: mask for letter, mask in masks.items() if letter in job.letters.numbers}
    if not known:
        return []
    together = 0
    for mask in known.values():
        together |= mask
    if job.width <= MANY or together.bit_count() > FEW:
        return [f"{what} = {_alternatives(job, known)};"]
    bits = [bit for bit in (together.bit_length() - 1, (together & -together).bit_length() - 1)]
    return [f"{what}[{bit}] = {' | '.join(f'is_{letter}[{bit}]' for letter, mask in known.items() if mask >> bit & 1)};" for bit in sorted(set(bits))]


def _run(job: Job, layers: int) -> str:
    """How tries run: what stops and loads them, and where executives begin."""
    stops = "" if job.design else "".join(f"                3'd{number - 1}: begin has_stop = 1; stop_batch = 64'd{batch}; end\n"
                                          for number, batch in sorted(job.die.stops.items()))
    starts = "".join(f"                    {executive}: at = {start};\n" for executive, start in enumerate(job.steps.starts))
    return engine.RUN.format(layers=" ".join(f"{name} = 0;" for name in _layer_names(layers)), stops=stops, starts=starts, load=_load(job))


def _load(job: Job) -> str:
    """How the die is loaded for a try: unknown, with the nets that are stuck in it."""
    if job.design:
        free = sum(1 << signal for signal, bind in enumerate(job.binding.binds) if bind and bind.both)
        lines = ["ck = 1'bx;", f"value = {constant(free, job.width)};", "vague = ~0;", "settle;"]
    else:
        lines = [f"active[{number}] = attempt < {tries};" for number, (_, _, tries) in enumerate(job.die.faults)] or ["active = 0;"]
        lines += ["ck = 1'bx;", "value = 0;", "vague = ~0;", "fresh = 1;", "settle;", "fresh = 0;", "settle;"]
    return "".join(f"            {line}\n" for line in lines)


def _lines(job: Job) -> str:
    lot = job.lot
    failed = "".join(f"                {executive}: $fdisplay(log, \"bin {number}\");\n"
                     for (ending, executive), number in sorted(lot.bins.items()) if ending == "fail")
    return engine.LINES.format(passed=lot.bin_of("pass"), other=2, stopped=lot.bin_of("stopped"), failed=failed,
                               waves=job.waves.begin() if job.waves else "")
