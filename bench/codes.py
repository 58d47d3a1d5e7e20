#!/usr/bin/env python3
"""Measures the compilation of texts through the crate front_cases: flat vectors, scan, nested loops, many tables, and loops round
many assignments. Beside each stands what the text takes up to its flat trees, which is the same text that is not compiled.

Usage: bench/codes.py [PROGRAM]"""
import os, subprocess, sys, tempfile

program = sys.argv[1] if len(sys.argv) > 1 else os.path.join(os.path.dirname(__file__), "../crates/front_cases/out/front_cases")
tail = "PatternExec { Timing t; PatternBurst x; }\nPatternBurst x { PatList { p; } }\n"


def tables(signals, count=1):
    """So many tables of two characters a signal."""
    waves = f"Waveforms {{ s[0..{signals - 1}] {{ 01 {{ '0ns' D/U; }} }} }}"
    each = "".join(f"WaveformTable w{k} {{ Period '{k + 1}ns'; {waves} }}\n" for k in range(count))
    return f"Signals {{ s[0..{signals - 1}] In; }}\nTiming t {{\n{each}}}\n"


def flat(signals, vectors):
    """Vectors that each set two of so many signals, and go through many rows."""
    lines = "".join(f"V {{ s[{k % signals}]={k // signals & 1}; s[{(k * 7 + 1) % signals}]={k // 3 & 1}; }}\n" for k in range(vectors))
    first = f"W w0;\nC {{ s[0..{signals - 1}] = \\r{signals} 0; }}\n"
    return tables(signals), "", first + lines, vectors


def scan(chains, length, calls):
    """Calls of a Shift of so many chains over so many characters."""
    takes = " ".join(f"s[{k}] = #;" for k in range(chains))
    given = " ".join(f"s[{k}] = {'01' * (length // 2)};" for k in range(chains))
    front = f"Procedures {{ m {{ Shift {{ V {{ {takes} }} }} }} }}\n"
    return tables(chains), front, "W w0;\n" + f"Call m {{ {given} }}\n" * calls, calls * length


def nested(levels, assignments):
    """So many loops round many assignments, one procedure a loop."""
    body = "V { " + "s[0..99] = " + "01" * 50 + "; } "
    calls = " ".join(f"q{k} {{ Loop 2 {{ Call q{k - 1}; }} }}" for k in range(1, levels + 1))
    front = f"Procedures {{ q0 {{ {body * (assignments // 100)} }} {calls} }}\n"
    return tables(100), front, f"W w0;\nCall q{levels};\n", (assignments // 100) << levels


def many_tables():
    """64 tables of 1,024 signals, and a vector in each."""
    return tables(1024, 64), "", "C { s[0..1023] = \\r1024 0; }\n" + "".join(f"W w{k};\nV {{ }}\n" for k in range(64)), 64


def measured(text, wanted):
    """The processor time in seconds, the memory in MiB, and what the program said."""
    with tempfile.TemporaryDirectory() as folder:
        path = os.path.join(folder, "text.txt")
        with open(path, "w") as file:
            file.write(f"\n== measured | {wanted}\nSTIL 1.0;\n{text}{tail}")
        child = subprocess.Popen([program, path], stdout=subprocess.PIPE)
        said = child.stdout.read().decode()
        _, _, usage = os.wait4(child.pid, 0)
    answer = said.split("`")[1] if "`" in said else "fine"
    return usage.ru_utime + usage.ru_stime, usage.ru_maxrss >> 10, answer


for name, (front, bodies, statements, cycles) in {
    "10^5 vectors of 200": flat(200, 100_000),
    "10^6 vectors of 8": flat(8, 1_000_000),
    "scan of 16 chains": scan(16, 10_000, 10),
    "10 loops round 2^16": nested(10, 65_536),
    "14 loops round 2^16": nested(14, 65_536),
    "64 tables of 1,024": many_tables(),
}.items():
    text = f"{front}{bodies}Pattern p {{\n{statements}}}\n"
    code, trees = measured(text, "code ?"), measured(text, "fine")
    print(f"{name:>20} {code[0]:6.2f} s {code[1]:>5} MiB, executives, cycles and rows {code[2]}; up to its trees {trees[0]:6.2f} s {trees[1]:>5} MiB")
