#!/usr/bin/env python3
"""Measures the grade of netlists without flip-flops, gates of two inputs in random places.

Prints how long a grade takes on one processor and on all that there are (the least of three runs each), and how much memory it takes
at most for netlists of 16,384 and of 65,536 nets, which is seen in its first seconds: a worker lays its die once.

Usage: bench/grade.py [PROGRAM]; without a program it is ./stil."""
import os, random, signal, subprocess, sys, tempfile, time

program = sys.argv[1] if len(sys.argv) > 1 else os.path.join(os.path.dirname(__file__), "../stil")
program = os.path.abspath(program)
inputs, outputs = 64, 64


def gates(count):
    """A random gate for each of so many nets, of two nets before it."""
    names = [f"i{k}" for k in range(inputs)]
    for k in range(count):
        one, other = random.sample(names[-1000:], 2)
        yield f"g{k} = {random.choice(['AND', 'NAND', 'OR', 'NOR', 'XOR'])}({one}, {other})\n"
        names.append(f"g{k}")


def netlist(nets):
    count = nets - inputs
    ports = [f"INPUT(i{k})\n" for k in range(inputs)] + [f"OUTPUT(g{k})\n" for k in range(count - outputs, count)]
    return "".join(ports) + "".join(gates(count))


def text(nets, vectors):
    """Vectors that drive all inputs and look for nothing, so that each fault is tried through all of them."""
    drives = [f"i{k}" for k in range(inputs)]
    looks = [f"g{k}" for k in range(nets - inputs - outputs, nets - inputs)]
    yield "STIL 1.0;\nSignals { " + " ".join(f"{name} In;" for name in drives) + " ".join(f" {name} Out;" for name in looks) + " }\n"
    yield f"SignalGroups {{ I = '{' + '.join(drives)}'; O = '{' + '.join(looks)}'; }}\n"
    yield "Timing { WaveformTable w { Period '100ns'; Waveforms { I { 01 { '0ns' D/U; } } O { LHX { '40ns' L/H/X; } } } } }\n"
    yield "Pattern p { W w; V { O=\\r%d X ; }\n" % outputs
    for _ in range(vectors):
        yield "V { I=" + "".join(random.choice("01") for _ in drives) + "; }\n"
    yield "}\nPatternBurst b { PatList { p; } }\nPatternExec { PatternBurst b; }\n"


def write(folder, nets, vectors):
    random.seed(nets)
    files = {"net.bench": netlist(nets), "p.stil": "".join(text(nets, vectors)), "p.csv": "lot,256,1,8,,\ndie,0,d,net.bench,,\n"}
    for name, content in files.items():
        with open(os.path.join(folder, name), "w") as file:
            file.write(content)


def took(folder, processors):
    """How long a grade takes on these processors."""
    begun = time.monotonic()
    words = [program, "grade", "p.stil", "p.csv"]
    ran = subprocess.run(words, cwd=folder, stdout=subprocess.DEVNULL, preexec_fn=lambda: os.sched_setaffinity(0, processors))
    assert ran.returncode == 0
    return time.monotonic() - begun


def memory(folder, seconds):
    """How many MiB a grade takes at most in its first seconds."""
    child = subprocess.Popen([program, "grade", "p.stil", "p.csv"], cwd=folder, stdout=subprocess.DEVNULL)
    time.sleep(seconds)
    os.kill(child.pid, signal.SIGKILL)
    _, _, usage = os.wait4(child.pid, 0)
    return usage.ru_maxrss / 1024


with tempfile.TemporaryDirectory() as folder:
    write(folder, 2048, 20)
    every = os.sched_getaffinity(0)
    one = min(took(folder, {min(every)}) for _ in range(3))
    all_of_them = min(took(folder, every) for _ in range(3))
    print(f"4096 faults of 2048 nets, 21 cycles: {one:.2f} s on one processor, {all_of_them:.2f} s on {len(every)}: "
          f"{one / all_of_them:.1f} times faster")
    for nets in (16384, 65536):
        write(folder, nets, 1)
        print(f"{2 * nets} faults of {nets} nets: {memory(folder, 10):.0f} MiB")
