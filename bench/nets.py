#!/usr/bin/env python3
"""Measures the processor time of reading made netlists by the word nets of the crate measure: chains of gates with three inputs, written last gate first.

Usage: bench/nets.py [PROGRAM]"""
import os, subprocess, sys, tempfile

program = sys.argv[1] if len(sys.argv) > 1 else os.path.join(os.path.dirname(__file__), "../crates/measure/out/measure")

for gates in (15_000, 30_000, 60_000):
    lines = ["INPUT(i0)", "INPUT(i1)", f"OUTPUT(g{gates - 1})"]
    for n in range(gates - 1, -1, -1):
        before = f"g{n - 1}" if n else "i0"
        lines.append(f"g{n} = NAND({before}, i1, {'g' + str(n // 2) if n > 1 else 'i0'})")
    with tempfile.NamedTemporaryFile("w", suffix=".bench") as file:
        file.write("\n".join(lines) + "\n")
        file.flush()
        child = subprocess.Popen([program, "nets", file.name], stdout=subprocess.PIPE)
        printed = child.stdout.read().decode().strip()
        _, _, usage = os.wait4(child.pid, 0)
        print(f"{gates:>6} gates {usage.ru_utime:6.3f} s {usage.ru_maxrss >> 10:>4} MiB: {printed}")
