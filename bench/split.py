#!/usr/bin/env python3
"""Measures what the pool of pages and the lock of the book take of a lot's run, in instructions: runs a drill under valgrind's
callgrind, which counts those of each function with all that it calls, and prints their shares of the run.

Usage: bench/split.py [PROGRAM] [N]; without a program it is crates/stil/out/stil, and N is 120. A part that the compiler put
into its caller shows as nothing; what polls and asks are is so."""
import os, re, subprocess, sys, tempfile

here = os.path.dirname(os.path.abspath(__file__))
program = os.path.abspath(sys.argv[1]) if len(sys.argv) > 1 else os.path.join(here, "../crates/stil/out/stil")
number = sys.argv[2] if len(sys.argv) > 2 else "120"
parts = {
    "run": r"stil_tool::floor::test\b",
    "pool of pages": r"pattern_mem::memory::PoolPass::fetch\b",
    "book": r"lot_book::\S*::file\b",
    "board": r"stop_board::\S*::(poll|finish|ask|finished)\b",
}

with tempfile.TemporaryDirectory() as folder:
    counts = os.path.join(folder, "counts")
    words = ["valgrind", "--tool=callgrind", f"--callgrind-out-file={counts}", program, "drill", number]
    subprocess.run(words, check=True, stdout=subprocess.DEVNULL, stderr=subprocess.DEVNULL)
    words = ["callgrind_annotate", "--inclusive=yes", "--threshold=100", counts]
    lines = subprocess.run(words, check=True, capture_output=True, text=True).stdout.splitlines()

found = dict.fromkeys(parts, 0)
for line in lines:
    count = re.match(r"\s*([\d,]+) \(", line)
    for part, name in parts.items():
        if count and re.search(name, line):
            found[part] += int(count[1].replace(",", ""))
for part in parts:
    print(f"{part:>14} {found[part] / 1e6:10.2f} million instructions {100 * found[part] / max(found['run'], 1):8.3f} %")
