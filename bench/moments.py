#!/usr/bin/env python3
"""Measures the processor time of the moments of a full cycle (1,024 signals of 16 events each) by the word moments of the crate measure: where
they are made, and where they are lent from among 64 that are held. Each time is the least of several runs.

Usage: bench/moments.py [PROGRAM]"""
import os, subprocess, sys

program = sys.argv[1] if len(sys.argv) > 1 else os.path.join(os.path.dirname(__file__), "../crates/measure/out/measure")
cycles, lent = 51, 100_000_000
runs = 5


def measured(*words):
    child = subprocess.Popen([program, "moments", *map(str, words)], stdout=subprocess.PIPE)
    printed = child.stdout.read().decode().strip()
    _, _, usage = os.wait4(child.pid, 0)
    return usage.ru_utime + usage.ru_stime, usage.ru_maxrss >> 10, printed


def least(*words):
    return min(measured(*words) for _ in range(runs))


once, _, _ = least(1)
often, memory, printed = least(cycles)
print(f"{printed} a cycle, {(often - once) / (cycles - 1) * 1000:.2f} ms a cycle, {memory} MiB")
once, _, _ = least("held", 64)
often, _, _ = least("held", 64 + lent)
print(f"{(often - once) / lent * 1e9:.1f} ns where they are held")
