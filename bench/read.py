#!/usr/bin/env python3
"""Times the reading of tokens and statements through the program, and prints its peak memory.

Each text has statements of two tokens up to a stray closing brace, so that it is read to its end and then refused.
Usage: bench/read.py [PROGRAM]"""
import os, subprocess, sys, tempfile, time

program = sys.argv[1] if len(sys.argv) > 1 else os.path.join(os.path.dirname(__file__), "../crates/stil/out/stil")


def run(path):
    start = time.time()
    child = subprocess.Popen([program, "cycles", path], stdout=subprocess.DEVNULL)
    _, _, usage = os.wait4(child.pid, 0)
    return time.time() - start, usage.ru_maxrss * 1024


for size in (4 << 20, 8 << 20, 16 << 20):
    line = b"clock 1;\n"
    text = line * ((size - 2) // len(line)) + b"}\n"
    tokens = 3 * ((size - 2) // len(line)) + 1
    with tempfile.NamedTemporaryFile(suffix=".stil") as file:
        file.write(text)
        file.flush()
        seconds, peak = run(file.name)
    beside = (peak - len(text)) / tokens
    print(f"{len(text):>10} bytes {tokens:>9} tokens {seconds:6.2f} s {peak >> 20:>5} MiB, {beside:.0f} bytes a token beside the text")
