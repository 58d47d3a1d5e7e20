"""How long `fit` takes for texts of 10 MB as three tools and a vector translator write them, and how much memory.

Usage: measure_fit.py [BYTES]. It prints a line a kind: seconds, seconds of the processor, and MiB.
"""

import os
import pathlib
import random
import subprocess
import sys
import tempfile
import time
from collections.abc import Callable

HERE = pathlib.Path(__file__).resolve().parent
TEXTS = HERE / "data" / "fit"
HEX = """STIL 1.0;
Signals { a[7..0] In; b[0..5] In; ck In; y[0..7] Out; }
SignalGroups { as = 'a[7..0]' { Base Hex 01; } bs = 'b[0..5]' { Base Hex 01; Alignment LSB; } ys = 'y[0..7]' { Base Hex LH; } }
Timing { WaveformTable w { Period '1e-7s'; Waveforms { 'as + bs' { 01 { '0ns' D/U; } } ck { P { '0ns' D; '50ns' U; } }
ys { LHX { '40ns' L/H/X; } } } } }
PatternBurst burst { Termination none; PatList { p; } }
PatternExec { PatternBurst burst; }
Pattern p { TimeUnit '1ns'; W w;
"""
Piece = Callable[[random.Random, int], str]


def tetramax(dice: random.Random, number: int) -> str:
    """A load and a capture of TetraMAX."""
    data, look = "".join(dice.choices("01", k=200)), "".join(dice.choices("HL", k=200))
    point = "IDDQTestPoint;\n   " if number % 10 == 0 else ""
    return (f'"pattern {number}": Call "load_unload" {{\n      "SO"={look};\n      "SI"={data}; }}\n   Call "multiclock_capture" {{\n'
            f'      "_pi"=P\\r3 0 100; "_po"=HX; }}\n   {point}')


def tessent(dice: random.Random, number: int) -> str:
    """A load and a capture of Tessent."""
    data = "".join(dice.choices("01", k=3))
    return (f'  Ann {{* Pattern:{number} *}}\n  X "pattern:{number}";\n  Call grp1_load_unload {{\n    SI={data}; SO=HLH;\n  }}\n'
            "  F { SE=0; }\n  V { CK=P; G0=0; G1=0; G2=0; G3=1; G17=\\l H; SO=X; }\n")


def modus(dice: random.Random, number: int) -> str:
    """A load and a capture of Modus."""
    data = "".join(dice.choices("01", k=3))
    return (f'  "1.1.1.2.{number}.1": Macro "Scan_Load" {{ "SI"={data}; "SO"=XXX; }}\n'
            f'  "1.1.1.2.{number}.2": V {{ ALLPIS=010\\r3 1 ; ALLPOS=-X; }}\n  "1.1.1.2.{number}.3": V {{ ALLPIS=\\r2 01 11; "Z0"=H; }}\n')


def translator(dice: random.Random, number: int) -> str:
    """A vector of a translator."""
    return f"V {{ as=\\h {dice.randrange(256):02X}; bs=\\h {dice.randrange(64):02X}; ck=P; ys=\\h {dice.randrange(256):02X}; }}\n"


def heads() -> dict[str, tuple[str, Piece]]:
    """What each kind of text begins with, and a piece of it."""
    first = (TEXTS / "s27" / "2-tetramax-compressed.stil").read_text().partition('"pattern 0"')[0]
    first = first.replace("ScanLength 3", "ScanLength 200").replace('ScanCells "s27.DFF_0.SD" "s27.DFF_1.SD" "s27.DFF_2.SD" ;', "")
    second = (TEXTS / "s27" / "3-tessent.stil").read_text().partition("  Ann {* Pattern:0 Vector:0")[0]
    third = (TEXTS / "tools" / "modus.before.stil").read_text().partition('  "1.1.1.2.1.1"')[0]
    third = third.replace("  ParallelPatList { x; }\n", "").replace("'1.5'", "'1.5ns'").replace("'3'", "'3ns'")
    return {"tetramax": (first, tetramax), "tessent": (second, tessent), "modus": (third, modus), "translator": (HEX, translator)}


def text_of(kind: str, size: int) -> str:
    """A text of a kind, of at least so many bytes."""
    head, piece = heads()[kind]
    dice, parts, length, number = random.Random(7), [head], len(head), 0
    while length < size:
        parts.append(piece(dice, number))
        length += len(parts[-1])
        number += 1
    return "".join([*parts, "}\n"])


def measure(kind: str, size: int, folder: str) -> tuple[int, float, float, float]:
    """The status of `fit` for a text, its seconds, its processor's seconds, and its MiB."""
    path = os.path.join(folder, "big.stil")
    with open(path, "w", encoding="latin-1") as out:
        out.write(text_of(kind, size))
    begun = time.monotonic()
    with open(os.path.join(folder, "told"), "wb") as told:
        words = [str(HERE.parent / "stilfloor"), "fit", path, "-o", os.path.join(folder, "fitted.stil")]
        _, status, used = os.wait4(subprocess.Popen(words, stderr=told).pid, 0)
    return os.waitstatus_to_exitcode(status), time.monotonic() - begun, used.ru_utime + used.ru_stime, used.ru_maxrss / 1024


def main() -> None:
    """Measures each kind."""
    size = int(sys.argv[1]) if len(sys.argv) > 1 else 10_000_000
    for kind in heads():
        with tempfile.TemporaryDirectory() as folder:
            status, seconds, processor, memory = measure(kind, size, folder)
        print(f"{kind}: status {status}, {seconds:.1f} s, {processor:.1f} s of the processor, {memory:.0f} MiB")


if __name__ == "__main__":
    main()
