#!/usr/bin/env python3
"""Measures the time and the memory of signals and groups by the word groups of the crate measure: 1,024 signals, and groups that
name each other in a chain, each of all signals.

Usage: bench/groups.py [PROGRAM]"""
import os, subprocess, sys

program = sys.argv[1] if len(sys.argv) > 1 else os.path.join(os.path.dirname(__file__), "../crates/measure/out/measure")

for way in ("up", "down"):
    for groups in (1_024, 2_048, 4_096):
        child = subprocess.Popen([program, "groups", way, str(groups), "timed"], stdout=subprocess.PIPE)
        printed = " in ".join(child.stdout.read().decode().split("\n")).strip(" in")
        _, _, usage = os.wait4(child.pid, 0)
        print(f"{way:>4} {groups:>5} groups {usage.ru_utime + usage.ru_stime:6.3f} s {usage.ru_maxrss >> 10:>4} MiB: {printed}")
