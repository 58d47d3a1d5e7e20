"""Testbenches: beside the program on examples, of one's own design, in waves, and what can't be made."""

import os
import pathlib
import shutil
import subprocess
from collections.abc import Sequence

import pytest

from conftest import DATA, EXAMPLES, Lot, needs_iverilog, needs_yosys
from stilfloor import learn, netlist, tester
from stilfloor.cli import main
from stilfloor.testbench import beside, make, simulator

SCAN = [str(EXAMPLES / "s27scan" / "s27scan.stil"), str(EXAMPLES / "s27scan" / "lot.csv")]
LONG = """STIL 1.0; Signals {{ A In; Y Out; }}
Timing {{ WaveformTable w {{ Period '{period}'; Waveforms {{ A {{ 01 {{ '0ns' D/U; }} }} Y {{ LHX {{ '40ns' L/H/X; }} }} }} }} }}
Pattern p {{ W w; Loop {passes} {{ V {{ A=0; Y=H; }} }} V {{ A=1; Y=H; }} }}
PatternBurst b {{ PatList {{ p; }} }}
PatternExec {{ PatternBurst b; }}
"""
INVERTER = "INPUT(A)\nOUTPUT(Y)\nY = NOT(A)\n"


def die_lines(datalog: str, name: str) -> list[str]:
    """The lines of the die of this name in a datalog."""
    lines = datalog.split("\n")
    first = lines.index(f"die {name}")
    return lines[first : next(place for place in range(first, len(lines)) if lines[place].startswith("bin ")) + 1]


@pytest.fixture(autouse=True)
def _in_the_checkout(monkeypatch: pytest.MonkeyPatch) -> None:
    """The plans of the examples name their netlists from there."""
    monkeypatch.chdir(EXAMPLES.parent)


@needs_iverilog
def test_a_simulation_prints_the_lines_of_the_die(tmp_path: pathlib.Path) -> None:
    assert main(["testbench", *SCAN, "--site", "2", "--die", "c", "-o", str(tmp_path)]) == 0
    subprocess.run(["iverilog", "-g2001", "-s", "testbench", "-o", "sim", "testbench.v", "die.v"], cwd=tmp_path, check=True)
    shown = subprocess.run(["vvp", "-n", "sim"], cwd=tmp_path, check=True, capture_output=True, text=True).stdout
    assert shown.split("\n")[:-1] == die_lines(tester.run(["lot", *SCAN])[1].decode(), "c")
    assert "fail 5 540000000 SO H 0 c1 f6\n" in shown
    elsewhere = subprocess.run(["vvp", "-n", str(tmp_path / "sim")], cwd=tmp_path.parent, capture_output=True, text=True, check=False, timeout=60).stdout
    assert elsewhere.endswith("run this in the folder in which its files testbench.* lie\n")


@needs_iverilog
def test_a_run_says_that_both_agree(tmp_path: pathlib.Path, capsys: pytest.CaptureFixture[str]) -> None:
    assert main(["testbench", *SCAN, "--die", "c", "--run", "-o", str(tmp_path)]) == 0
    assert capsys.readouterr().out == "agree, 2 fails\n"


@needs_iverilog
def test_a_run_tells_the_first_line_that_differs(tmp_path: pathlib.Path, monkeypatch: pytest.MonkeyPatch, capsys: pytest.CaptureFixture[str]) -> None:
    printed = beside.lot_lines

    def other(program: str, job: make.Job) -> list[str]:
        return [line.replace("340000000", "350000000") for line in printed(program, job)]

    monkeypatch.setattr(beside, "lot_lines", other)
    assert main(["testbench", *SCAN, "--die", "c", "--run", "-o", str(tmp_path)]) == 1
    told = capsys.readouterr().out.split("\n")
    assert told[:3] == ["differ at line 3 of the die", "testbench: fail 3 340000000 G17 L 1", "stil lot:  fail 3 350000000 G17 L 1"]


def test_it_is_made_of_the_saved_program_alone(tmp_path: pathlib.Path, monkeypatch: pytest.MonkeyPatch) -> None:
    calls: list[list[str]] = []
    run = tester.run

    def noted(words: Sequence[str], folder: str | None = None) -> tuple[int, bytes]:
        calls.append(list(words))
        return run(words, folder)

    monkeypatch.setattr(tester, "run", noted)
    assert main(["testbench", *SCAN, "-o", str(tmp_path / "one")]) == 0
    assert [call[0] for call in calls] == ["save"]
    (tmp_path / "saved").write_bytes(run(["save", SCAN[0]])[1])
    assert main(["testbench", str(tmp_path / "saved"), SCAN[1], "-o", str(tmp_path / "two")]) == 0
    # (whether what was saved is a program is asked by a plan without rows, which runs no die)
    assert calls[1:] == [["lot", str(tmp_path / "saved"), os.devnull]]
    names = sorted(path.name for path in (tmp_path / "one").iterdir())
    assert names == sorted(path.name for path in (tmp_path / "two").iterdir())
    assert all((tmp_path / "one" / name).read_bytes() == (tmp_path / "two" / name).read_bytes() for name in names)


def inverter(path: pathlib.Path, text: str, plan: str = "lot,256,1,8,,\ndie,0,d0,{net},,\n") -> list[str]:
    """A program, and a plan of an inverter."""
    (path / "n.bench").write_text(INVERTER)
    (path / "p.stil").write_text(text)
    (path / "plan.csv").write_text(plan.format(net=path / "n.bench"))
    return [str(path / "p.stil"), str(path / "plan.csv")]


def test_loops_stay_loops(tmp_path: pathlib.Path) -> None:
    words = inverter(tmp_path, LONG.format(period="100ns", passes=10**9))
    assert main(["testbench", *words, "-o", str(tmp_path / "out")]) == 0
    assert sum(path.stat().st_size for path in (tmp_path / "out").iterdir()) < 20000
    assert len((tmp_path / "out" / "testbench.steps").read_text().split()) < 8


@needs_iverilog
def test_a_stop_ends_a_long_loop(tmp_path: pathlib.Path, capsys: pytest.CaptureFixture[str]) -> None:
    plan = "lot,256,1,8,,\ndie,0,d0,{net},,\nstop,0,d0,1,2,\n"
    words = inverter(tmp_path, LONG.format(period="100ns", passes=10**9), plan)
    assert main(["testbench", *words, "--run", "-o", str(tmp_path / "out")]) == 0
    assert capsys.readouterr().out == "agree, 0 fails\n"
    assert "verdict stopped 2 plan" in (tmp_path / "out" / "testbench.log").read_text()


def test_a_test_beyond_the_time_of_verilog_is_refused(tmp_path: pathlib.Path, capsys: pytest.CaptureFixture[str]) -> None:
    words = inverter(tmp_path, LONG.format(period="1ms", passes=18446743))
    assert main(["testbench", *words, "-o", str(tmp_path / "out")]) == 0
    capsys.readouterr()
    words = inverter(tmp_path, LONG.format(period="1ms", passes=18446744))
    assert main(["testbench", *words, "-o", str(tmp_path / "more")]) == 1
    assert "18446745000000000000 fs" in capsys.readouterr().err and not (tmp_path / "more").exists()


@needs_iverilog
def test_waves_have_what_is_wanted_and_the_fails(tmp_path: pathlib.Path, capsys: pytest.CaptureFixture[str]) -> None:
    assert main(["testbench", *SCAN, "--die", "c", "--waves", "--net", "G9", "-o", str(tmp_path)]) == 0
    assert capsys.readouterr().out == f"agree, 2 fails\n{tmp_path}/waves.vcd\n"
    waves = read_waves((tmp_path / "waves.vcd").read_text())
    assert {"CK", "G17", "G17.want", "SO.want", "fail", "fails", "G9"} <= set(waves)
    assert [time for time, level in waves["fail"] if level == "1"] == [340000000, 540000000]
    assert level_at(waves["G17.want"], 340000000) == "0" and level_at(waves["G17"], 340000000) == "1"
    assert level_at(waves["G17.want"], 339999999) == "x" and level_at(waves["SO.want"], 540000000) == "1"
    assert level_at(waves["fails"], 540000000) == "10" and level_at(waves["G9"], 10**8) == "1"


def read_waves(text: str) -> dict[str, list[tuple[int, str]]]:
    """The changes of each line of a value change dump."""
    names: dict[str, str] = {}
    waves: dict[str, list[tuple[int, str]]] = {}
    time = 0
    for line in text.split("\n"):
        words = line.split()
        if line.startswith("$var"):
            names[words[3]] = words[4].lstrip("\\")
        elif line.startswith("#"):
            time = int(line[1:])
        elif line[:1] in ("b", "0", "1", "x", "z") and words:
            level, key = (words[0][1:], words[1]) if line[0] == "b" else (line[0], line[1:])
            waves.setdefault(names[key], []).append((time, level))
    return waves


def level_at(changes: list[tuple[int, str]], time: int) -> str:
    """The level of a line at a time."""
    return [level for at, level in changes if at <= time][-1]


@pytest.fixture(scope="module")
def counted(tmp_path_factory: pytest.TempPathFactory) -> dict[str, Lot]:
    """The counter and the ALU with programs that their good netlists pass."""
    if not shutil.which("yosys"):
        pytest.skip("yosys isn't there: netlists of Verilog are left out")
    found = {}
    for top in ("counter", "alu"):
        folder = tmp_path_factory.mktemp(top)
        _, (bench, stil, plan) = netlist.make(netlist.Start([str(DATA / f"{top}.v")], None, 0, 120 if top == "alu" else 0), str(folder))
        if top == "counter":
            text = pathlib.Path(stil).read_text().rstrip()[:-1]
            counts = ('V { "rst"=0; "en"=1; "_po"=LLLLLLL; }\n' for _ in range(20))
            pathlib.Path(stil).write_text("".join([text, 'V { "rst"=1; "en"=0; "_po"=XXXXXXX; }\n', *counts, "}\n"]))
        pathlib.Path(stil).write_text(learn.learn(stil, plan).text, encoding="latin-1")
        found[top] = Lot(folder, bench, stil, plan)
    return found


BUGS = {
    "counter": ("q <= q + 4'd1;", "q <= {q[3:2], q[1:0] + 2'd1};", "a carry is missed"),
    "alu": ("2'd0: next = left + right;\n        2'd1: next = left - right;", "2'd1: next = left + right;\n        2'd0: next = left - right;", "exchanged"),
}


@needs_iverilog
@needs_yosys
@pytest.mark.parametrize("top", ["counter", "alu"])
def test_bugs_of_ones_own_design_are_told(tmp_path: pathlib.Path, counted: dict[str, Lot], top: str, capsys: pytest.CaptureFixture[str]) -> None:
    lot = counted[top]
    words = ["testbench", lot.stil, lot.plan, "--rtl", top, "--run", "-o", str(tmp_path / "out"), "--files"]
    assert main([*words, str(DATA / f"{top}.v")]) == 0
    told = capsys.readouterr()
    assert told.out == f"{top}: 0 fails, verdict pass\n" and ("has no port `tie1`" in told.err) == (top == "counter")
    right, wrong, _ = BUGS[top]
    text = (DATA / f"{top}.v").read_text()
    assert right in text
    (tmp_path / "wrong file.v").write_text(text.replace(right, wrong))
    assert main([*words, str(tmp_path / "wrong file.v")]) == 1
    lines = capsys.readouterr().out.split("\n")
    assert lines[0].startswith("fail ") and lines[0].split()[3] in ("q[2]", "y[0]", "y[1]", "y[2]", "y[3]", "y[4]", "zero")
    cycle, at = map(int, lines[0].split()[1:3])
    assert at == cycle * 10**8 + 4 * 10**7 and lines[-2].endswith(" fails, verdict fail 0")


CELLS = """primitive choice(o, s, a, b); output o; input s, a, b;
table 0 0 ? : 0; 0 1 ? : 1; 1 ? 0 : 0; 1 ? 1 : 1; endtable endprimitive
module MUX(output z, input s, input a, input b); choice (z, s, a, b); specify (s => z) = 0.1; endspecify endmodule
module DFQ(output reg q, input c, input d); always @(posedge c) q <= #0.01 d; endmodule
module unused(input x); nothing y(x); endmodule
"""
TOP = """`timescale 1ns/1ps
`include "wires.vh"
module g(input ck, input s, input [0:1] a, output q, inout io, output \\odd.name );
`WIRES MUX u(m, s, a[1], a[0]); DFQ f(q, ck, m); assign io = s ? q : 1'bz; assign \\odd.name = s;
endmodule
"""
TEXT = """STIL 1.0; Signals { ck In; s In; "a[1]" In; "a[0]" In; q Out; io InOut; end Out; pwr Supply; }
Timing { WaveformTable w { Period '100ns'; Waveforms { ck { P { '0ns' D; '50ns' U; '80ns' D; } } 's + "a[1]" + "a[0]"' { 01 { '0ns' D/U; } }
'q + end' { LHX { '40ns' L/H/X; } } io { LHTX01 { '0ns' Z/Z/Z/Z/D/U; '60ns' L/H/T/X/X/X; } } } } }
Pattern p { W w; V { ck=P; s=0; "a[1]"=0; "a[0]"=1; q=X; io=T; end=L; } V { q=L; s=1; io=H; end=H; } V { "a[1]"=1; "a[0]"=0; q=H; io=L; }
V { s=0; q=L; io=T; end=L; } V { q=H; io=0; } V { io=1; } }
PatternBurst b { PatList { p; } } PatternExec { PatternBurst b; }
"""


@pytest.fixture
def gates(tmp_path: pathlib.Path) -> list[str]:
    """A design of library cells with delays, a bus, an inout and an odd name; its program and plan."""
    (tmp_path / "rtl").mkdir()
    for name, text in (("rtl/g.v", TOP), ("rtl/wires.vh", "`define WIRES wire m;\n"), ("cells.v", CELLS), ("p.stil", TEXT),
                       ("plan.csv", "lot,256,3,64,,\nclock,ck,,,,\nbind,end,odd.name,,,\n")):
        (tmp_path / name).write_text(text)
    return ["testbench", str(tmp_path / "p.stil"), str(tmp_path / "plan.csv"), "-o", str(tmp_path / "out"), "--run", "--rtl", "g",
            "--files", str(tmp_path / "rtl/g.v"), "--libs", str(tmp_path / "cells.v")]


@needs_iverilog
def test_a_design_of_library_cells_stands_in_the_dies_place(gates: list[str], capsys: pytest.CaptureFixture[str]) -> None:
    assert main(gates) == 0
    assert capsys.readouterr().out == "g: 0 fails, verdict pass\n"
    assert main([*gates, "--waves", "--net", "u.z"]) == 0
    out = pathlib.Path(gates[4])
    assert {"io", "io.drive", "io.want", "z"} <= set(read_waves((out / "waves.vcd").read_text()))


@needs_iverilog
@pytest.mark.parametrize("words, told", [
    (["--rtl", "other"], "rtl/g.v:1:1: error: there is no module `other` in these files"),
    (["--rtl", "a b"], "`a b` can't be the name of a module here"),
    (["--files", "none.v"], "none.v:1:1: error: the file can't be read"),
    (["--waves", "--net", "u.`z"], "is no net of `g`")])
def test_what_is_wrong_with_a_design_is_told(gates: list[str], words: list[str], told: str, capsys: pytest.CaptureFixture[str]) -> None:
    assert main([*gates, *words]) in (1, 3)
    assert told in capsys.readouterr().err


@needs_iverilog
def test_a_module_that_is_in_no_file_is_told(gates: list[str], capsys: pytest.CaptureFixture[str]) -> None:
    top = pathlib.Path(gates[1]).parent / "rtl/g.v"
    assert main(gates[:-2]) == 1
    assert f"{top}:4:1: error: iverilog: Unknown module type: MUX" in capsys.readouterr().err


@needs_iverilog
def test_a_signal_without_a_port_is_refused(gates: list[str], capsys: pytest.CaptureFixture[str]) -> None:
    plan = pathlib.Path(gates[2])
    plan.write_text(plan.read_text().replace("odd.name", "none"))
    assert main(gates) == 1
    assert f"{plan}:3:1: error: the signal `end` has no port of the module `g` that it can have" in capsys.readouterr().err
    plan.write_text(plan.read_text().replace("none", "-"))
    assert main(gates) == 0


RACES = """module r(input ck, input en, input d, output reg q, output reg g, output reg h, output reg b);
wire gated = ck & en; reg half = 0;
always @(posedge ck) begin q <= d; half <= ~half; end
always @(posedge gated) g <= d;
always @(posedge half) h <= d;
always @(posedge ck) b = d;
endmodule
"""
RACING = """STIL 1.0; Signals { d In; en In; ck In; q Out; g Out; h Out; b Out; }
Timing { WaveformTable w { Period '100ns'; Waveforms { d { r { '0ns' D; '50ns' U; } f { '0ns' U; '50ns' D; } } en { 1 { '0ns' U; } n { '0ns' U; '50ns' D; } }
ck { P { '0ns' D; '50ns' U; } } 'q+g+h+b' { LHX { '60ns' L/H/X; } } } } }
Pattern p { W w; V { d=r; en=1; ck=P; q=L; g=L; h=L; b=L; } V { d=f; en=n; q=H; g=H; h=L; b=H; } V { d=r; q=L; g=L; b=L; } }
PatternBurst b { PatList { p; } } PatternExec { PatternBurst b; }
"""


@needs_iverilog
def test_a_clock_comes_before_the_data_of_its_instant(tmp_path: pathlib.Path, capsys: pytest.CaptureFixture[str]) -> None:
    for name, text in (("r.v", RACES), ("p.stil", RACING), ("p.csv", "lot,256,1,64,,\nclock,ck,,,,\n")):
        (tmp_path / name).write_text(text)
    words = ["testbench", *(str(tmp_path / name) for name in ("p.stil", "p.csv")), "-o", str(tmp_path / "out"), "--run"]
    assert main([*words, "--rtl", "r", "--files", str(tmp_path / "r.v")]) == 0
    assert capsys.readouterr().out == "r: 0 fails, verdict pass\n"


@needs_iverilog
def test_a_design_that_ends_by_itself_is_no_pass(gates: list[str], capsys: pytest.CaptureFixture[str]) -> None:
    top = pathlib.Path(gates[4]).parent / "rtl/g.v"
    top.write_text(top.read_text().replace("endmodule", "initial begin #120 $display(\"bin 1\"); $finish; end endmodule"))
    assert main(gates) == 4
    assert "the simulation ended before the test did" in capsys.readouterr().err


@pytest.mark.parametrize("words, told", [
    (["--site", "9"], "has no die at site 9"), (["--die", "none"], "has no die `none`"), (["--site", "2", "--die", "a"], "no die `a` at site 2")])
def test_a_die_that_is_not_there_is_told(tmp_path: pathlib.Path, words: list[str], told: str, capsys: pytest.CaptureFixture[str]) -> None:
    assert main(["testbench", *SCAN, *words, "-o", str(tmp_path / "out")]) == 1
    assert told in capsys.readouterr().err and not (tmp_path / "out").exists()


@pytest.mark.parametrize("words", [["--rtl", "top"], ["--files", "a.v"], ["--net", "G9"], ["--libs", "a.v"]])
def test_words_that_belong_together(tmp_path: pathlib.Path, words: list[str]) -> None:
    assert main(["testbench", *SCAN, *words, "-o", str(tmp_path / "out")]) == 2


def test_no_other_file_is_written_over(tmp_path: pathlib.Path, capsys: pytest.CaptureFixture[str]) -> None:
    (tmp_path / "die.v").write_text("mine\n")
    assert main(["testbench", *SCAN, "-o", str(tmp_path)]) == 3
    assert "die.v:1:1: error: this file is there already" in capsys.readouterr().err and (tmp_path / "die.v").read_text() == "mine\n"
    (tmp_path / "die.v").unlink()
    assert main(["testbench", *SCAN, "-o", str(tmp_path)]) == main(["testbench", *SCAN, "-o", str(tmp_path)]) == 0
    assert not [path for path in tmp_path.iterdir() if path.name.endswith(".unfinished")]


def test_a_missing_simulator_is_told(tmp_path: pathlib.Path, monkeypatch: pytest.MonkeyPatch, capsys: pytest.CaptureFixture[str]) -> None:
    monkeypatch.setattr(simulator.shutil, "which", lambda name: None)
    assert main(["testbench", *SCAN, "--run", "-o", str(tmp_path / "out")]) == 4
    assert "apt-get install iverilog" in capsys.readouterr().err and not (tmp_path / "out").exists()


@needs_iverilog
def test_odd_names_are_names(tmp_path: pathlib.Path, capsys: pytest.CaptureFixture[str]) -> None:
    folder = tmp_path / "a b'`$(x)"
    folder.mkdir()
    nets = ["INPUT(a`b)", "OUTPUT(\"\\//*)", "OUTPUT($finish)", "\"\\//* = NOT(a`b)", "$finish = BUFF(a`b)", "ck = AND(a`b,fresh)", "INPUT(fresh)"]
    (tmp_path / "n.bench").write_text("\n".join(nets))
    (tmp_path / "p.stil").write_text(LONG.format(period="100ns", passes=2).replace("A", '"`a %d"').replace("Y", '"$y;\\\\"'))
    (tmp_path / "plan.csv").write_text("lot,256,1,8,,\nbind,`a %d,a`b,,,\n\"bind\",$y;\\\\,\"\"\"\\//*\",,,\n"
                                       f"die,0,\"`x\"\"$(y)%d\\n\",{tmp_path}/n.bench,,\n" + "fault,0,\"`x\"\"$(y)%d\\n\",a`b,1,\n")
    assert main(["testbench", str(tmp_path / "p.stil"), str(tmp_path / "plan.csv"), "--run", "--waves", "--net", "ck", "-o", str(folder)]) == 0
    assert capsys.readouterr().out.startswith("agree, 3 fails\n")
    assert os.path.exists(folder / "waves.vcd")
