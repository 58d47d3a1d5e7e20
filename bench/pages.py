#!/usr/bin/env python3
"""Measures the processor time of compiled code by the word pages of the crate measure: cycles of a walk and of a cursor over two loops, the same
over a loop of three pages with 1, 2 and 64 frames, and the saving and the loading, in version 1 and in version 2, of a program of a million
instructions, 16 MB, and of one of 4,096 rows of 200 signals. Each time is the least of several runs.

Usage: bench/pages.py [PROGRAM]"""
import os, subprocess, sys

program = sys.argv[1] if len(sys.argv) > 1 else os.path.join(os.path.dirname(__file__), "../crates/measure/out/measure")
runs = 5


def measured(*words):
    child = subprocess.Popen([program, "pages", *map(str, words)], stdout=subprocess.PIPE)
    printed = int(child.stdout.read())
    _, _, usage = os.wait4(child.pid, 0)
    return usage.ru_utime + usage.ru_stime, printed


def least(*words):
    return min(measured(*words) for _ in range(runs))


def rate(what, few, many):
    once, less = least(what, few)
    often, more = least(what, many)
    return (more - less) / (often - once) / 1e6


def shown(what):
    times = 1
    while measured(what, 1 + times)[0] - measured(what, 1)[0] < 0.3 and times < 10_000:
        times *= 4
    once, less = least(what, 1)
    often, more = least(what, 1 + times)
    return f"{(often - once) / times * 1e3:.2f} ms, {(more - less) / (often - once) / 1e6:.1f} MB/s"


print(f"{rate('walk', 1, 50_000_001):.1f} million cycles a second walked, {rate('cursor', 1, 50_000_001):.1f} by a cursor")
print(f"{rate('far', 1, 20_000_001):.1f} walked over three pages, by a cursor", end="")
print("".join(f" {rate(f'far{frames}', 1, 20_000_001):.1f} with {frames} frames" for frames in (1, 2, 64)))
for name, rows in ("a million instructions", ""), ("4,096 rows", "_rows"):
    for version, old in (1, "_old"), (2, ""):
        size = measured(f"save{rows}{old}", 1)[1]
        print(f"{name}, version {version}: {size:,} bytes, saved in {shown(f'save{rows}{old}')},", end="")
        print(f" loaded in {shown(f'load{rows}{old}')}")
