#!/usr/bin/env python3
"""Measures the flat trees of patterns through the crate front_cases: texts that walk and assign about as much as a text may,
long scan data, data in long runs, and 16 MiB of vectors. Beside each stands what reading the text alone takes, which is the
same text with a Stop in front of the pattern's statements.

Usage: bench/patterns.py [PROGRAM]"""
import os, subprocess, sys, tempfile

program = sys.argv[1] if len(sys.argv) > 1 else os.path.join(os.path.dirname(__file__), "../crates/front_cases/out/front_cases")
tail = "PatternExec { PatternBurst x; }\nPatternBurst x { PatList { p; } }\n"


def doubled():
    """A procedure that assigns 1,000 signals, called by one that calls it twice, and so on: 65,732,607 walked and assigned."""
    levels = " ".join(f"m{k} {{ Call m{k - 1}; Call m{k - 1}; }}" for k in range(1, 17))
    signals = "Signals { s[1..1000] In; }\n"
    return signals + "Procedures { m0 { V { s[1..1000] = \\r1000 0; } } " + levels + " }\n", "Call m16;\n"


def shifted(signals, length):
    """A Shift of so many signals over so many characters each."""
    names = [f"s{k}" for k in range(signals)]
    takes = " ".join(f"{name} = #;" for name in names)
    given = " ".join(f"{name} = {'01' * (length // 2)};" for name in names)
    declared = " ".join(f"{name} In;" for name in names)
    return f"Signals {{ {declared} }}\nProcedures {{ m {{ Shift {{ V {{ {takes} }} }} }} }}\n", f"Call m {{ {given} }}\n"


def runs():
    """An argument of 1,024 signals with 1,048,576 characters each, which nothing takes."""
    return "Signals { s[1..1024] In; }\nProcedures { m { V { s[1] = #; } } }\n", "Call m { s[1..1024] = " + "\\r1048576 0 " * 1024 + "; }\n"


def vectors():
    """Vectors with two assignments each."""
    return "Signals { a In; b In; }\n", "V { a=0; b=1; }\n" * (16 * 1024 * 1024 // 16 - 512)


def measured(text):
    """The processor time in seconds, the memory in MiB, and whether the text is answered as it should be."""
    with tempfile.TemporaryDirectory() as folder:
        path = os.path.join(folder, "text.txt")
        with open(path, "w") as file:
            file.write(f"\n== measured | fine\nSTIL 1.0;\n{text}{tail}")
        child = subprocess.Popen([program, path], stdout=subprocess.PIPE)
        fine = child.stdout.read().endswith(b" 0 answered otherwise\n")
        _, _, usage = os.wait4(child.pid, 0)
    return usage.ru_utime + usage.ru_stime, usage.ru_maxrss >> 10, "fine" if fine else "answered otherwise"


for name, (front, statements) in {
    "2^26 walked": doubled(),
    "10^6 passes": shifted(1, 1_000_000),
    "10^5 passes of 16": shifted(16, 100_000),
    "runs of 2^20": runs(),
    "vectors": vectors(),
}.items():
    whole = measured(f"{front}Pattern p {{\n{statements}}}\n")
    read = measured(f"{front}Pattern p {{ Stop;\n{statements}}}\n")
    print(f"{name:>18} {whole[0]:6.2f} s {whole[1]:>5} MiB {whole[2]}, of which reading {read[0]:6.2f} s {read[1]:>5} MiB")
