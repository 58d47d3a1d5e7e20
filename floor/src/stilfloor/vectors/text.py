"""A STIL text of cycles: one waveform table, one pattern, a V each cycle in which something changes."""

import re
from collections.abc import Iterator
from dataclasses import dataclass, field

from stilfloor.faults import REFUSED, USAGE, Fault
from stilfloor.names import remark
from stilfloor.netlist import quoted

UNITS = {"fs": 1, "ps": 10**3, "ns": 10**6, "us": 10**9, "ms": 10**12, "s": 10**15}
TIME = re.compile(r"([0-9]{1,15})(?:\.([0-9]{1,15}))?\s*(fs|ps|ns|us|ms|s)")
PULSED = {"0": "D", "1": "U"}


@dataclass(slots=True)
class Vectors:
    """Cycles: the clock with its rise and fall in a cycle, inputs with the time at which each changes, outputs, when these are looked at,
    and rows with a character for the clock (P, 0 or 1), for each input (01NZ) and for each output (LHTX)."""

    source: str
    period: int
    clock: str
    rise: int
    fall: int
    inputs: dict[str, int] = field(default_factory=dict)
    outputs: list[str] = field(default_factory=list)
    strobe: int = 0
    rows: list[tuple[str, str, str]] = field(default_factory=list)


def time_of(word: str, option: str) -> int:
    """The femtoseconds of a time like `100ns`."""
    found = TIME.fullmatch(word)
    if not found:
        raise Fault(USAGE, f"{option} wants a time like 100ns, and `{word}` is none")
    unit = UNITS[found[3]]
    part = int(found[2] or "0") * unit
    if part % 10 ** len(found[2] or ""):
        raise Fault(USAGE, f"{option} wants whole femtoseconds, and `{word}` isn't any number of them")
    return int(found[1]) * unit + part // 10 ** len(found[2] or "")


def told_time(time: int) -> str:
    """A time in the largest unit of which it is a multiple."""
    unit = next(name for name in reversed(UNITS) if time % UNITS[name] == 0)
    return f"{time // UNITS[unit]}{unit}" if time else "0ns"


def judge(vectors: Vectors) -> None:
    """Refuses what no text can say."""
    for name in [vectors.clock, *vectors.inputs, *vectors.outputs]:
        if not re.fullmatch(r"[\x20\x21\x23-\x7e]{1,1024}", name):
            raise Fault(REFUSED, f"`{name}` can't be the name of a signal in a STIL text", vectors.source)
    names = [vectors.clock, *vectors.inputs, *vectors.outputs]
    twice = next((name for name in names if names.count(name) > 1), None)
    if twice is not None:
        raise Fault(REFUSED, f"`{twice}` stands twice", vectors.source)
    for name, time in (("rise of the clock", vectors.rise), ("fall of the clock", vectors.fall), ("strobe", vectors.strobe)):
        if not 0 <= time < vectors.period:
            raise Fault(REFUSED, f"the {name} at {told_time(time)} lies outside the period of {told_time(vectors.period)}", vectors.source)
    if not vectors.rows:
        raise Fault(REFUSED, "there is no cycle", vectors.source)


def text_of(vectors: Vectors) -> Iterator[str]:
    """The text, piece by piece."""
    judge(vectors)
    yield f'STIL 1.0 {{ Design 2005; }}\nHeader {{ Title "made from {remark(vectors.source)}"; }}\nSignals {{\n  "{vectors.clock}" In;\n'
    yield from (f'  "{name}" In;\n' for name in vectors.inputs)
    yield from (f'  "{name}" Out;\n' for name in vectors.outputs)
    groups = {"_pi": list(vectors.inputs), "_po": vectors.outputs}
    yield "}\nSignalGroups {\n" + "".join(f'  "{name}" = {quoted(members)};\n' for name, members in groups.items() if members) + "}\n"
    yield f'Timing {{\n  WaveformTable "_table_" {{\n    Period \'{told_time(vectors.period)}\';\n    Waveforms {{\n'
    yield f'      "{vectors.clock}" {{ 01 {{ \'0ns\' D/U; }} P {{ {_pulse(vectors)} }} }}\n'
    yield from (f'      "{name}" {{ 01NZ {{ \'{told_time(time)}\' D/U/N/Z; }} }}\n' for name, time in vectors.inputs.items())
    if vectors.outputs:
        yield f'      "_po" {{ LHTX {{ \'{told_time(vectors.strobe)}\' L/H/T/X; }} }}\n'
    yield '    }\n  }\n}\nPatternBurst "_burst_" { PatList { "_pattern_"; } }\nPatternExec { PatternBurst "_burst_"; }\n'
    yield 'Pattern "_pattern_" {\n  W "_table_";\n'
    yield from _cycles(vectors)
    yield "}\n"


def _pulse(vectors: Vectors) -> str:
    """The events of a cycle with a pulse: the level before it, where it begins the cycle otherwise, and its two edges."""
    edges = sorted([(vectors.rise, "U"), (vectors.fall, "D")])
    if edges[0][0]:
        edges.insert(0, (0, "D" if edges[0][1] == "U" else "U"))
    return " ".join(f"'{told_time(time)}' {act};" for time, act in edges)


def _cycles(vectors: Vectors) -> Iterator[str]:
    """A V each cycle, with what isn't as in the one before."""
    before = ("", "", "")
    for row in vectors.rows:
        parts = [f' {name}={some};' for name, some, was in zip((f'"{vectors.clock}"', '"_pi"', '"_po"'), row, before) if some and some != was]
        yield f"  V {{{''.join(parts)} }}\n"
        before = row
