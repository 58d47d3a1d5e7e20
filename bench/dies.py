#!/usr/bin/env python3
"""Measures the processor time of moments on a die of 20,000 gates by the word dies of the crate measure: of those that reach each gate, and of
those that change nothing.

Usage: bench/dies.py [PROGRAM]"""
import os, subprocess, sys

program = sys.argv[1] if len(sys.argv) > 1 else os.path.join(os.path.dirname(__file__), "../crates/measure/out/measure")
gates = 20_000


def measured(moments, *words):
    child = subprocess.Popen([program, "dies", str(gates), str(moments), *words], stdout=subprocess.PIPE)
    printed = child.stdout.read().decode().split()
    _, _, usage = os.wait4(child.pid, 0)
    return usage.ru_utime + usage.ru_stime, int(printed[0])


once, few = measured(1)
often, many = measured(2_001)
print(f"{(many - few) / (often - once) / 1e6:.1f} million evaluations a second, {(often - once) / 2_000 * 1e6:.0f} us a moment that reaches {gates} gates")
once, few = measured(1, "still")
often, many = measured(1_000_001, "still")
print(f"{(often - once) * 1:.3f} us a moment that changes nothing ({many - few} evaluations)")
