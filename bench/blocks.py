#!/usr/bin/env python3
"""Measures the reading of blocks through the crate front_cases: for each kind of block a text of 16 MiB, and beside it the
same text inside UserFunctions, whose statements nothing reads, so that what tokens and statements take stands apart.

Usage: bench/blocks.py [PROGRAM]"""
import os, subprocess, sys, tempfile

program = sys.argv[1] if len(sys.argv) > 1 else os.path.join(os.path.dirname(__file__), "../crates/front_cases/out/front_cases")
most = 16 * 1024 * 1024 - 4096
tail = "Pattern p { }\nPatternBurst b { PatList { p; } }\nPatternExec { PatternBurst b; }\n"

# what stands before, one line of the block by its number, and what stands behind
kinds = {
    "signals": ("Signals {\n", lambda i: f"s{i}[0..3] In;\n", "}\n"),
    "groups": ("SignalGroups {\n", lambda i: f"g{i}='a+b+c';\n", "}\n"),
    "variables": ("Spec { Category c {\n", lambda i: f"v{i}='10ns+2ns';\n", "} }\n"),
    "categories": ("Spec {\n", lambda i: f"Category c{i} {{ x='1ns'; }}\n", "}\n"),
    "selectors": ("", lambda i: f"Selector s{i} {{ x Max; }}\n", ""),
    "waveforms": ("Timing t { WaveformTable w { Period '100ns'; Waveforms {\n", lambda i: "a { 01 { '0ns' D/U; '50ns' D; } }\n", "} } }\n"),
    "macros": ("MacroDefs {\n", lambda i: f"m{i} {{ V {{ a=0; }} }}\n", "}\n"),
    "patterns": ("", lambda i: f"Pattern p{i} {{ V {{ a=0; }} }}\n", ""),
    "vectors": ("Pattern q {\n", lambda i: "V { a=0; b=1; }\n", "}\n"),
    "bursts": ("", lambda i: f"PatternBurst b{i} {{ PatList {{ p; }} }}\n", ""),
    "words": ("Foo\n", lambda i: f"w{i}\n", ";\n"),
}


def body(kind):
    """A block of many lines."""
    front, line, back = kinds[kind]
    lines, size = [], 0
    while size < most:
        lines.append(line(len(lines)))
        size += len(lines[-1])
    return front + "".join(lines[:-1]) + back


def measured(text):
    """The processor time in seconds, and the memory in MiB, of reading a text."""
    with tempfile.TemporaryDirectory() as folder:
        path = os.path.join(folder, "text.txt")
        with open(path, "w") as file:
            file.write(f"\n== measured | fine\nSTIL 1.0;\n{text}{tail}")
        child = subprocess.Popen([program, path], stdout=subprocess.DEVNULL)
        _, _, usage = os.wait4(child.pid, 0)
    return usage.ru_utime + usage.ru_stime, usage.ru_maxrss >> 10


for kind in kinds:
    text = body(kind)
    skipped = measured(f"UserFunctions {{\n{text}}}\n")
    read = measured(text.replace("Foo", "UserKeywords") if kind == "words" else text)
    print(f"{kind:>10} {read[0]:6.2f} s {read[1]:>4} MiB, of which tokens and statements {skipped[0]:6.2f} s {skipped[1]:>4} MiB")
