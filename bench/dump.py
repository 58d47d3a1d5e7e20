#!/usr/bin/env python3
"""Measures dumps: how much longer the dump of a try takes than a lot of that try, and how much memory, at the most drives that a dump
may have and at a quarter of them; how long a try with more drives takes until it is refused; and how long a dump takes to be read back by
the word dumps of the crate measure, where that is built.

Usage: bench/dump.py [PROGRAM]; without a program it is ./stil."""
import os, subprocess, sys, tempfile

program = sys.argv[1] if len(sys.argv) > 1 else os.path.join(os.path.dirname(__file__), "../stil")
program = os.path.abspath(program)
reader = os.path.abspath(os.path.join(os.path.dirname(__file__), "../crates/measure/out/measure"))
signals = 64


def text(cycles):
    """All signals are driven up and down again in turn, in as many cycles."""
    names = [f"a{k}" for k in range(signals)]
    yield "STIL 1.0;\nSignals { " + " ".join(f"{name} In;" for name in names) + " y Out; }\n"
    yield f"SignalGroups {{ I = '{' + '.join(names)}'; }}\n"
    yield "Timing { WaveformTable w { Period '100ns'; Waveforms { I { 01 { '0ns' D/U; } } y { X { '40ns' X; } } } } }\n"
    yield f"Pattern p {{ W w; V {{ y=X; I=\\r{signals} 0 ; }} Loop {cycles // 2} {{ V {{ I=\\r{signals} 1 ; }} V {{ I=\\r{signals} 0 ; }} }} }}\n"
    yield "PatternBurst b { PatList { p; } }\nPatternExec { PatternBurst b; }\n"


def write(folder, cycles):
    net = "".join(f"INPUT(a{k})\n" for k in range(signals)) + "OUTPUT(y)\ny = AND(a0, a1)\n"
    for name, content in {"p.stil": "".join(text(cycles)), "n.bench": net, "p.csv": "lot,256,1,8,,\ndie,0,d,n.bench,,\n"}.items():
        with open(os.path.join(folder, name), "w") as file:
            file.write(content)


def once(folder, *words, tool=program, into="printed"):
    """The seconds of processor time that a command takes, its memory in MiB, how many bytes it prints, and its status."""
    with open(os.path.join(folder, into), "wb") as printed:
        child = subprocess.Popen([tool, *words], cwd=folder, stdout=printed)
        _, status, usage = os.wait4(child.pid, 0)
    size = os.path.getsize(os.path.join(folder, into))
    return usage.ru_utime + usage.ru_stime, usage.ru_maxrss / 1024, size, os.waitstatus_to_exitcode(status)


with tempfile.TemporaryDirectory() as folder:
    most = 4_194_304 // signals
    for cycles in (most // 4 - 2, most - 2, most, 100 * most):
        write(folder, cycles)
        lot = once(folder, "lot", "p.stil", "p.csv") if cycles <= most else None
        dump = once(folder, "dump", "p.stil", "p.csv", "0")
        over = f", {dump[0] - lot[0]:.2f} s over the lot" if lot else ""
        print(f"{cycles + 1} cycles, {(cycles + 1) * signals} drives: status {dump[3]}, {dump[0]:.2f} s{over}, {dump[1]:.0f} MiB, "
              f"{dump[2] / 1e6:.1f} MB")
        if dump[3] == 0 and os.path.exists(reader):
            back = once(folder, "dumps", "printed", tool=reader, into="told")
            print(f"read back in {back[0]:.2f} s, {dump[2] / back[0] / 1e6:.0f} MB/s, {back[1]:.0f} MiB")
