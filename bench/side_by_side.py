#!/usr/bin/env python3
"""Measures the program beside the yardstick, a plain simulator of the same dies, and prints for each row of work what it takes, what it
took before and the aim. The commands of a row run in turn, so many times, and of each the least processor time counts, its own and the
kernel's together. What a vector or a cycle takes is the difference of two lots of unequal length.

Usage: bench/side_by_side.py [YARDSTICK] [--inputs DIR] [--program PATH] [--times N] [--only WORD] [--instructions] [--grade] [--table]

YARDSTICK is the simulator's program, or the folder of its sources, which is then built; without it the program is measured alone. DIR is
the folder with gen_scan.py, which makes the scan tests by verilator or iverilog; without the word it is the first folder above the
simulator's program, or its folder of sources, that has that file. Scan tests are kept in the folder for temporary files. A row whose
inputs can't be made is said to be left out. PATH is the program, else what tools/program prints, else the one in release/.

--times N runs each command so many times, 5 without it; --only WORD takes the rows with that word in their name; --instructions counts
instructions too, by valgrind's callgrind; --grade takes the grade of the scan test, once, which takes minutes; --table prints a table in
Markdown. The program runs with the settings of the C library that ./stil makes, but where GLIBC_TUNABLES is set."""
import argparse, hashlib, os, random, re, shutil, subprocess, tempfile
from collections import namedtuple
from pathlib import Path

top = Path(__file__).resolve().parent.parent
netlist = "circuit.bench"
lot = ("lot", "circuit.stil", "plan.csv")
tail = "}\nPatternBurst b { PatList { p; } }\nPatternExec { PatternBurst b; }\n"
# the words of a tool in a folder, its status, and, where the cost is what they take longer than other words, these; over so many
Probe = namedtuple("Probe", "tool folder words status less over", defaults=(0, None, 1))
Cost = namedtuple("Cost", "seconds memory instructions")


class LeftOut(Exception):
    """Why a row isn't measured."""


def write(path, lines):
    """Writes line by line: a child's peak of memory begins with that of this program, which so stays small."""
    path.parent.mkdir(parents=True, exist_ok=True)
    with open(path, "w") as file:
        file.writelines(lines)


def letters(draw, width, kinds):
    """So many random letters."""
    return "".join(draw.choices(kinds, k=width))


def framed(width, vectors):
    """A text of vectors over a clock, so many inputs and as many outputs."""
    inputs, outputs = [f"i{k}" for k in range(width)], [f"o{k}" for k in range(width)]
    yield "STIL 1.0;\nSignals { ck In; " + " ".join([f"{name} In;" for name in inputs] + [f"{name} Out;" for name in outputs]) + " }\n"
    yield f"SignalGroups {{ pi = '{' + '.join(inputs)}'; po = '{' + '.join(outputs)}'; }}\n"
    yield "Timing { WaveformTable w { Period '100ns'; Waveforms {\npi { 01 { '0ns' D/U; } }\nck { P { '0ns' D; '50ns' U; } }\n"
    yield "po { LHX { '40ns' L/H/X; } }\n} } }\nPattern p { W w;\n"
    yield from vectors
    yield tail


def buffers(folder, width):
    """A netlist of so many inputs, each with a buffer to its output, and a plan."""
    write(folder / netlist, (f"INPUT(i{k})\nOUTPUT(o{k})\no{k} = BUFF(i{k})\n" for k in range(width)))
    write(folder / "plan.csv", [f"lot,256,1,16,,\nclock,ck,,,,\ndie,0,d0,{netlist},,\n"])


def plain_vectors(size):
    """Vectors of 20 random inputs and 20 looks, up to a size."""
    draw, left = random.Random(3), size - 1200
    while left > 0:
        line = f"V {{ pi={letters(draw, 20, '01')}; po={letters(draw, 20, 'LHX')}; ck=P; }}\n"
        left -= len(line)
        yield line


def toggles(width, count):
    """Vectors in which one input and the look at its buffer change, and all others are driven and looked at as before."""
    yield f"V {{ pi=\\r{width} 0; po=\\r{width} L; ck=P; }}\n"
    for k in range(count):
        yield f"V {{ i{k % width}={1 - k // width % 2}; o{k % width}={'HL'[k // width % 2]}; }}\n"


shifts = """STIL 1.0;
Signals { ck In; se In; si In { ScanIn; } a In; b In; y Out; so Out { ScanOut; } } SignalGroups { pi = 'a + b'; }
ScanStructures { ScanChain c { ScanLength 100; ScanIn si; ScanOut so; } }
Timing { WaveformTable w { Period '100ns'; Waveforms { ck { 0 { '0ns' D; } P { '0ns' D; '50ns' U; } } se { 01 { '0ns' D/U; } }
si { 01 { '0ns' D/U; } } pi { 01 { '0ns' D/U; } } y { LHX { '40ns' L/H/X; } } so { LHX { '40ns' L/H/X; } } } } }
Procedures { load { W w; C { se=1; ck=P; y=X; pi=00; si=0; so=X; } Shift { V { si=#; so=#; ck=P; } } V { se=0; ck=0; } } }
MacroDefs { idle { W w; Loop 3 { V { pi=00; ck=P; } } } two { W w; V { pi=#; ck=P; } V { pi=11; ck=0; y=#; } } }
Pattern p { W w; V { ck=0; se=0; si=0; pi=00; y=X; so=X; }
"""


def scan_calls(size):
    """Calls with shifts of 100 letters, macros and loops, up to a size."""
    draw, left = random.Random(4), size - 1500
    yield shifts
    while left > 0:
        text = (f"Call load {{ si={letters(draw, 100, '01')}; so={letters(draw, 100, 'LHX')}; }}\n"
                f"Macro two {{ pi={letters(draw, 2, '01')}; y={letters(draw, 1, 'LHX')}; }}\nMacro idle;\n"
                f"Loop {draw.randrange(2, 50)} {{ V {{ pi={letters(draw, 2, '01')}; ck=P; }} }}\n")
        left -= len(text)
        yield text
    yield tail


def program(named):
    """The program that is measured."""
    if named:
        return Path(named).resolve()
    told = subprocess.run([top / "tools/program"], capture_output=True, text=True).stdout.strip()
    return top / (told or "release/stil-x86_64-linux-gnu")


def built(sources, folder):
    """The yardstick's program, built of a copy of its sources."""
    (folder / "src").mkdir(parents=True)
    for name in ("Cargo.toml", "src/main.rs"):
        shutil.copyfile(sources / name, folder / name)
    settings = {**os.environ, "CARGO_TARGET_DIR": str(folder / "target")}
    subprocess.run(["cargo", "build", "--release", "--quiet"], cwd=folder, env=settings, check=True)
    return folder / "target/release/baseline"


class Bench:
    """The tools, and the probes of each row, whose inputs they make."""

    def __init__(self, words, folder):
        self.folder, self.times = folder, max(1, words.times)
        heap = re.search(r"heap=(\S+)", (top / "tools/launch").read_text())[1]
        self.tools = {"program": (program(words.program), {"GLIBC_TUNABLES": f"glibc.malloc.hugetlb=1:{heap}", **os.environ})}
        places = [Path(words.inputs).resolve()] if words.inputs else []
        if words.yardstick:
            yardstick = Path(words.yardstick).resolve()
            self.tools["yardstick"] = built(yardstick, folder / "yardstick") if yardstick.is_dir() else yardstick, None
            places += [yardstick, *yardstick.parents]
        self.generator = next((place / "gen_scan.py" for place in places if (place / "gen_scan.py").is_file()), None)
        self.counts = words.instructions and shutil.which("valgrind")

    def beside(self, folder, words, others):
        """Words of the program, and of the yardstick where there is one."""
        yardstick = {"other": Probe("yardstick", folder, others)} if "yardstick" in self.tools else {}
        return {"program": Probe("program", folder, words), **yardstick}

    def scan_test(self, size, *options):
        """The folder of a scan test, which is made once and kept."""
        simulator = next(filter(shutil.which, ("verilator", "iverilog")), None)
        if not self.generator or not simulator:
            raise LeftOut("there is no verilator or iverilog" if self.generator else "there is no gen_scan.py")
        key = hashlib.sha256(self.generator.read_bytes() + " ".join(options).encode()).hexdigest()[:12]
        kept, made = Path(tempfile.gettempdir()) / f"side_by_side.{size}.{key}", self.folder / size
        if not kept.is_dir():
            words = ["python3", "-B", self.generator, size, *options, "--sim", simulator, "--dir", made]
            subprocess.run(words, stdout=subprocess.DEVNULL, cwd=self.folder, check=True)
            shutil.move(made, kept)
        return kept

    def scan(self):
        return self.beside(self.scan_test("medium", "--seed", "77"), lot, ("lot", "."))

    def grade(self):
        return self.beside(self.scan_test("medium", "--seed", "77"), ("grade", *lot[1:]), ("grade", ".", "1", "4"))

    def large(self):
        """The die is named here: the generator would simulate it a second time, for minutes."""
        folder = self.scan_test("large", "--dies", "0")
        write(folder / "die.csv", [(folder / "plan.csv").read_text(), f"die,0,d0,{netlist},,\n"])
        write(folder / "dies.txt", ["d0 - -\n"])
        return self.beside(folder, (*lot[:2], "die.csv"), ("lot", "."))

    def drill(self):
        return self.beside(self.folder, ("drill", "200"), ("drill", "200"))

    def wide(self):
        draw, folder, width = random.Random(1), self.folder / "wide", 500
        vectors = [letters(draw, width, "01") for _ in range(2000)]
        vectors = [(word, word.translate({ord("0"): "L", ord("1"): "H"})) for word in vectors]
        heads = ["c -", *(f"i i{k}" for k in range(width)), *(f"o o{k}" for k in range(width))]
        write(folder / lot[1], framed(width, (f"V {{ pi={drives}; po={looks}; ck=P; }}\n" for drives, looks in vectors)))
        write(folder / "cycles.txt", [" ".join(heads) + "\n", *(f"P{drives}{looks}\n" for drives, looks in vectors)])
        write(folder / "dies.txt", ["d0 - -\n"])
        buffers(folder, width)
        return self.beside(folder, lot, ("lot", "."))

    def plain(self):
        path = self.folder / "plain.stil"
        write(path, framed(20, plain_vectors(1 << 24)))
        return {"program": Probe("program", self.folder, ("check", path.name), over=path.stat().st_size)}

    def macros(self):
        write(self.folder / "macros.stil", scan_calls(1 << 23))
        return {"program": Probe("program", self.folder, ("check", "macros.stil"))}

    def load(self):
        """The plan is refused when it is bound to what was loaded, so that no die is run."""
        folder = self.folder / "load"
        buffers(folder, 1)
        write(folder / lot[1], framed(20, plain_vectors(1 << 24)))
        with open(folder / "saved", "wb") as saved:
            subprocess.run([self.tools["program"][0], "save", lot[1]], cwd=folder, stdout=saved, check=True)
        return {"program": Probe("program", folder, ("lot", "saved", "plan.csv"), 6)}

    def longer(self, folder, few, many, text):
        """What a lot takes for more of a text."""
        for count in (few, many):
            write(folder / f"{count}.stil", text(count))
        return Probe("program", folder, ("lot", f"{many}.stil", lot[2]), 0, ("lot", f"{few}.stil", lot[2]), many - few)

    def toggled(self, width):
        folder = self.folder / f"toggled{width}"
        buffers(folder, width)
        return self.longer(folder, 1000, 5000, lambda count: framed(width, toggles(width, count)))

    def vector(self):
        return {"program": self.toggled(500), "other": self.toggled(125)}

    def quiet(self):
        """Each flip-flop keeps its state, 0 by the first cycle, while i0 is 1."""
        folder = self.folder / "quiet"
        buffers(folder, 1)
        states = (f"f{k} = DFF(h{k})\nh{k} = AND(f{k}, i0)\n" for k in range(3276))
        write(folder / netlist, ["INPUT(i0)\nOUTPUT(o0)\no0 = BUFF(f0)\n", *states])
        body = "V {{ i0=0; ck=P; o0=X; }} Loop {} {{ V {{ i0=1; }} }} V {{ o0=L; }}\n".format
        return {"program": self.longer(folder, 1000, 21000, lambda cycles: framed(1, [body(cycles)]))}

    def once(self, probe, words):
        """The processor time and the peak of memory of one run."""
        path, settings = self.tools[probe.tool]
        child = subprocess.Popen([path, *words], cwd=probe.folder, env=settings, stdout=subprocess.DEVNULL, stderr=subprocess.DEVNULL)
        _, ended, usage = os.wait4(child.pid, 0)
        if os.waitstatus_to_exitcode(ended) != probe.status:
            raise LeftOut(f"the {probe.tool} with {' '.join(words)} ends with status {os.waitstatus_to_exitcode(ended)}")
        return usage.ru_utime + usage.ru_stime, usage.ru_maxrss * 1024

    def counted(self, probe, words):
        """The instructions of one run."""
        path, settings = self.tools[probe.tool]
        command = ["valgrind", "--tool=callgrind", "--callgrind-out-file=/dev/null", path, *words]
        said = subprocess.run(command, cwd=probe.folder, env=settings, capture_output=True).stderr
        return int(re.search(rb"Collected : (\d+)", said)[1])

    def costs(self, probes, long):
        """What each probe costs."""
        commands = [(name, words) for name, probe in probes.items() for words in (probe.words, probe.less) if words]
        rounds = [[self.once(probes[name], words) for name, words in commands] for _ in range(1 if long else self.times)]
        found = dict.fromkeys(probes, Cost(0, 0, 0))
        for (name, words), runs in zip(commands, zip(*rounds)):
            probe, before = probes[name], found[name]
            share = (1 if words is probe.words else -1) / probe.over
            count = self.counted(probe, words) if self.counts and not long else 0
            spent, memory = map(min, zip(*runs))
            found[name] = Cost(before.seconds + share * spent, max(before.memory, share * memory), before.instructions + share * count)
        return found


def beside(costs, field):
    """How many times that of the other the program's cost is, where there is another."""
    mine, other = (getattr(costs.get(name), field, 0) for name in ("program", "other"))
    return f" ({mine / other:.2f} times)" if other else ""


seconds = lambda cost: f"{cost.seconds:.3f} s"
micros = lambda cost: f"{cost.seconds * 1e6:.1f} us"
pace = lambda cost: f"{1e-6 / cost.seconds:.1f} MB/s, {cost.memory:.0f} bytes a byte"
# name, work, what it was, the aim, the probes, and how the program's cost is shown
rows = [
    ("scan", "scan test of 2,301 gates, 8 dies", "1.06 times", "0.5 times", Bench.scan, seconds),
    ("large", "23,001 gates, 22,020 cycles, a die", "1.5 times", "0.4 times", Bench.large, seconds),
    ("grade", "grade of the first, 4,850 faults", "-", "0.5 times", Bench.grade, seconds),
    ("drill", "drill 200, its text made, read and compiled too", "1.4 times", "0.9 times", Bench.drill, seconds),
    ("wide", "500 inputs and 500 outputs through buffers, 2,000 vectors", "25 times", "4 times", Bench.wide, seconds),
    ("plain", "check of 16 MiB of plain vectors", "10 MB/s, 47 bytes a byte", "25 MB/s, 12 bytes a byte", Bench.plain, pace),
    ("macros", "check of 8 MiB of calls, shifts and macros", "2.7 s", "1.2 s", Bench.macros, seconds),
    ("load", "load of 15.7 MB of distinct rows", "0.18 s", "0.1 s", Bench.load, seconds),
    ("vector", "a vector of 1,001 signals, one input toggles; beside 251", "270 us", "20 us, at most 4 times", Bench.vector, micros),
    ("quiet", "a cycle in which nothing changes, 3,276 flip-flops", "31 us", "3 us", Bench.quiet, micros),
]


words = argparse.ArgumentParser(description=__doc__, formatter_class=argparse.RawDescriptionHelpFormatter)
words.add_argument("yardstick", nargs="?")
words.add_argument("--times", type=int, default=5)
words.add_argument("--only", default="")
for name in ("--inputs", "--program"):
    words.add_argument(name)
for name in ("--instructions", "--grade", "--table"):
    words.add_argument(name, action="store_true")
words = words.parse_args()
line = "| {} | {} | {} | {} | {} | {} |" if words.table else "{:6} {:57} {:28} {:28} before {:24} aim {}"
if words.table:
    print(line.format("Row", "Work", "Now", "Instructions", "Before", "Aim") + "\n" + "|---" * 6 + "|")
if words.instructions and not shutil.which("valgrind"):
    print("Instructions are left out: there is no valgrind.")
with tempfile.TemporaryDirectory() as made:
    bench = Bench(words, Path(made))
    for name, work, before, aim, probes, shown in rows:
        if words.only in name and (words.grade or name != "grade"):
            try:
                costs = bench.costs(probes(bench), name == "grade")
                now = shown(costs["program"]) + beside(costs, "seconds")
                count = f"{costs['program'].instructions:,.0f}" + beside(costs, "instructions")
            except LeftOut as reason:
                now, count = f"left out: {reason}", "-"
            print(line.format(name, work, now, count if words.instructions else "-", before, aim), flush=True)
