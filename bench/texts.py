#!/usr/bin/env python3
"""Measures the commands on whole texts through the program: `check` of 16 MiB of vectors, `cycles` and `events` of 65,536 vectors of
200 signals, and `check` of texts of 16 MiB that are full of one construct each. Prints processor time, wall time and the most memory.

Usage: bench/texts.py [PROGRAM] [KIND ..]; without a program it is ./stil, which asks for large pages of memory."""
import os, subprocess, sys, tempfile, time

here = os.path.dirname(os.path.abspath(__file__))
program = os.path.abspath(sys.argv[1]) if len(sys.argv) > 1 else os.path.join(here, "../stil")
most = 16 * 1024 * 1024 - 8192
table = "Timing t { WaveformTable w { Period '100ns'; Waveforms { all { 01 { '0ns' D/U; } } } } }\n"
start = "Signals { s[0..199] In; }\nSignalGroups { all = 's[0..199]'; }\n" + table
tail = "PatternBurst b { PatList { p; } }\nPatternExec { Timing t; PatternBurst b; }\n"


def filled(front, line, back):
    """Lines by their numbers, as many as there is room for, between a front and a back."""
    lines, size = [front], len(front) + len(back) + len(start) + len(tail) + 16
    while True:
        text = line(len(lines) - 1)
        if size + len(text) > most:
            return "".join(lines) + back
        lines.append(text)
        size += len(text)


def vectors(count):
    """Vectors of 200 signals that each set two of them."""
    body = "".join(f"V {{ s[{k % 200}]={k // 200 & 1}; s[{(k * 7 + 1) % 200}]={k // 3 & 1}; }}\n" for k in range(count))
    return f"Pattern p {{ W w; C {{ all=\\r200 0; }}\n{body}}}\n"


pattern = "Pattern p { W w; V { all=\\r200 0; } }\n"
kinds = {
    "vectors": lambda: filled("Pattern p { W w;\n", lambda i: f"V {{ s[{i % 200}]=1; }}\n", "}\n"),
    "wide vectors": lambda: filled("Pattern p { W w;\n", lambda i: "V { all=" + "01" * 100 + "; }\n", "}\n"),
    "loops": lambda: filled("Pattern p { W w;\n", lambda i: f"Loop {i + 1} {{ V {{ s[{i % 200}]=1; }} }}\n", "}\n"),
    "calls": lambda: filled("Procedures { m { W w; V { s[0]=#; } } }\nPattern p { W w;\n", lambda i: "Call m { s[0]=01; }\n", "}\n"),
    "macros": lambda: filled("MacroDefs {\n", lambda i: f"m{i} {{ V {{ s[0]=0; }} }}\n", "}\n" + pattern),
    "signals": lambda: filled("Signals {\n", lambda i: f"x{i} In;\n", "}\n" + pattern),
    "groups": lambda: filled("SignalGroups {\n", lambda i: f"g{i}='s[0]+s[1]-s[0]';\n", "}\n" + pattern),
    "variables": lambda: filled("Spec { Category c {\n", lambda i: f"v{i}='10ns+2ns';\n", "} }\n" + pattern),
    "selectors": lambda: filled("", lambda i: f"Selector z{i} {{ x Max; }}\n", pattern),
    "waveforms": lambda: filled("Timing u { WaveformTable w { Period '100ns'; Waveforms {\n", lambda i: "s[0] { 01 { '0ns' D/U; '50ns' D; } }\n", "} } }\n" + pattern),
    "patterns": lambda: filled("", lambda i: f"Pattern p{i} {{ V {{ s[0]=0; }} }}\n", pattern),
    "bursts": lambda: filled("", lambda i: f"PatternBurst b{i} {{ PatList {{ p; }} }}\n", pattern),
    "comments": lambda: filled("", lambda i: f"/* {i} */ // {i}\n", pattern),
    "annotations": lambda: filled("", lambda i: f"Ann {{* {i} *}}\n", pattern),
    "words": lambda: filled("UserKeywords\n", lambda i: f"word{i}\n", ";\n" + pattern),
}


def measured(command, body):
    """Processor and wall time in seconds, memory in MiB, the size of the text, and the first line."""
    with tempfile.TemporaryDirectory() as folder:
        path = os.path.join(folder, "p.stil")
        with open(path, "w") as file:
            file.write(f"STIL 1.0;\n{start}{body}{tail}")
        out = os.path.join(folder, "out")
        begun = time.time()
        with open(out, "wb") as sink:
            child = subprocess.Popen([program, command, path], stdout=sink)
            _, _, usage = os.wait4(child.pid, 0)
        wall = time.time() - begun
        with open(out, "rb") as said:
            first = said.readline(120).decode(errors="replace").strip()
        return usage.ru_utime + usage.ru_stime, wall, usage.ru_maxrss >> 10, os.path.getsize(path) / 1e6, first


def told(name, command, body):
    cpu, wall, memory, size, first = measured(command, body)
    print(f"{name:>24}  {cpu:6.2f} s  {wall:6.2f} s wall  {memory:5} MiB  {size:5.1f} MB  {size / cpu:6.1f} MB/s  {first}", flush=True)


wanted = sys.argv[2:]
if not wanted or "listing" in wanted:
    body = vectors(65_535)
    for command in ("check", "cycles", "events", "save", "flat"):
        told(f"{command} of 65,535 vectors", command, body)
for name, make in kinds.items():
    if not wanted or name in wanted:
        told(f"check of {name}", "check", make())
