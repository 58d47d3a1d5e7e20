#!/usr/bin/env python3
"""Measures the calls of the board for live stops by the word board of the crate measure: an ask, a look and a poll of one thread, and the
same while sixteen sites poll in threads of their own (there the poll's time is that of the sixteen threads' polls beside each
other).

Usage: bench/board.py [PROGRAM]"""
import os, subprocess, sys

program = sys.argv[1] if len(sys.argv) > 1 else os.path.join(os.path.dirname(__file__), "../crates/measure/out/measure")
times = 10_000_000

printed = subprocess.run([program, "board", str(times), "time"], stdout=subprocess.PIPE, check=True).stdout.decode()
for line in printed.splitlines():
    threads, ask, look, poll = map(int, line.split())
    print(f"{threads} polling: {ask / 10} ns an ask, {look / 10} ns a look, {poll / 10} ns a poll")
