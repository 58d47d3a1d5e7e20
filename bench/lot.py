#!/usr/bin/env python3
"""Measures a lot of one die: 60,000 vectors on 200 flip-flops in a row, from text to datalog. The time of reading is what a lot
whose plan is refused takes longer than one whose text is missing, the time of compiling is what a lot takes longer whose netlist
lacks a signal, and the rest is that of the run. Each is the least processor time of twenty runs, the program's own and the
kernel's together.

Usage: bench/lot.py [PROGRAM]; without a program it is ./stil, which asks for large pages of memory."""
import os, subprocess, sys, tempfile

program = sys.argv[1] if len(sys.argv) > 1 else os.path.join(os.path.dirname(__file__), "../stil")
program = os.path.abspath(program)
vectors, stages = 60_000, 200


def data(i):
    return 1 if (i * i + stages) % 7 < 3 else 0


def text():
    yield "STIL 1.0;\nSignals { d In; ck In; q Out; }\nTiming { WaveformTable w { Period '100ns'; Waveforms {\n"
    yield "d { 01 { '0ns' D/U; } }\nck { P { '0ns' D; '50ns' U; } }\nq { LHX { '40ns' L/H/X; } }\n} } }\nPattern p { W w;\n"
    for i in range(vectors):
        wanted = "X" if i < stages else "LH"[data(i - stages)]
        yield f"V {{ d={data(i)}; ck=P; q={wanted}; }}\n"
    yield "}\nPatternBurst b { PatList { p; } }\nPatternExec { PatternBurst b; }\n"


def netlist(last):
    yield f"INPUT(d)\nOUTPUT({last})\n"
    before = "d"
    for k in range(1, stages + 1):
        net = last if k == stages else f"f{k}"
        yield f"{net} = DFF({before})\n"
        before = net


def once(*words):
    child = subprocess.Popen([program, *words], stdout=subprocess.PIPE)
    printed = child.stdout.read().decode()
    _, _, usage = os.wait4(child.pid, 0)
    return usage.ru_utime + usage.ru_stime, usage.ru_maxrss / 1024, printed


def measured(*words):
    return min((once(*words) for _ in range(20)), key=lambda run: run[0])


with tempfile.TemporaryDirectory() as folder:
    os.chdir(folder)
    for name, lines in (
        ("p.stil", text()),
        ("q.bench", netlist("q")),
        ("y.bench", netlist("y")),
        ("lot.csv", ["lot,256,1,8,,\nclock,ck,,,,\ndie,0,d0,q.bench,,\n"]),
        ("unbound.csv", ["lot,256,1,8,,\nclock,ck,,,,\ndie,0,d0,y.bench,,\n"]),
        ("refused.csv", ["dice,,,,,\n"]),
    ):
        with open(name, "w") as file:
            file.writelines(lines)
    size = os.path.getsize("p.stil")
    started, _, _ = measured("lot", "missing.stil", "refused.csv")
    read, read_memory, _ = measured("lot", "p.stil", "refused.csv")
    compiled, _, _ = measured("lot", "p.stil", "unbound.csv")
    ran, memory, printed = measured("lot", "p.stil", "lot.csv")
    print(printed, end="")
    reading = read - started
    print(f"reading {reading:.4f} s ({size / reading / 1e6:.0f} MB/s), {read_memory:.0f} MiB")
    print(f"compiling {compiled - read:.4f} s")
    run = ran - compiled
    print(f"running {run:.4f} s, peak memory {memory:.0f} MiB")
    print(f"{vectors * stages / run / 1e6:.1f} million flip-flops clocked a second")
