"""The witness: random dies, the examples and worked cases in the simulator; and bugs in the export, which it must see."""

import pathlib
from collections.abc import Callable, Iterable

import pytest

from conftest import TOP, needs_iverilog
from stilfloor import tester
from stilfloor.faults import Fault
from stilfloor.sentences import refusal
from stilfloor.testbench import lots, make, nets
from stilfloor.witness import lots as witnessed
from stilfloor.witness.cases import cases_of, lots_of
from stilfloor.witness.command import main
from stilfloor.witness.runs import Tally, run_seed

SEEDS = range(1, 61)
# of each feature a bug in the export: its file, what stands there, and what is planted instead
PLANTED = {
    "window": ("testbench.v", "low_open = (low_open & ~looked) | low_window;", "low_open = low_window;"),
    "window that nothing closes": ("testbench.v", "low_open = 0; high_open = 0; off_open = 0;\n            case", "case"),
    "P": ("testbench.v", "last_value = (last_value & ~down) | up;", "last_value = last_value | up;"),
    "Z": ("testbench.v", "(vague & ~touched) | off | unknown", "(vague & ~touched) | unknown"),
    "X clock": ("die.v", "2'b0x, 2'b0z, 2'bx1: begin", "2'b11: begin"),
    "edge and data at one instant": ("testbench.v", "                ck = next_vague", "                value = next_value; vague = next_vague; #0;\n"
                                     "                ck = next_vague"),
    "second executive": ("testbench.v", "end else executive = executive + 1;", "end else begin executive = executive + 1; cycles = 0; end"),
    "second try": ("testbench.v", "started = $time;", "if (attempt == 0) started = $time;"),
    "fault": ("testbench.v", "active[0] = attempt <", "active[0] = 3 + attempt <"),
    "scan cell": ("testbench.v", "place = chains[c][111:88] - kept_mark[i];", "place = kept_mark[i] - 1;"),
    "stop": ("testbench.v", "batch == stop_batch", "batch == stop_batch + 1"),
    "loop": ("testbench.v", "if (loop_left[depth-1] > 1)", "if (loop_left[depth-1] > 2)"),
}
# seeds at which bugs are seen that few dies show
SHOWN = {"window that nothing closes": 70, "fault": 19}


def differing(seeds: Iterable[int]) -> str | None:
    """The first random die at which the two differ."""
    return next((found.name for seed in seeds for found in run_seed(seed) if found.trouble), None)


@needs_iverilog
@pytest.mark.parametrize("feature", PLANTED)
def test_a_planted_bug_makes_a_run_differ(feature: str, monkeypatch: pytest.MonkeyPatch) -> None:
    name, right, wrong = PLANTED[feature]
    write = make.write
    planted = []

    def spoilt(job: make.Job, folder: str) -> list[str]:
        paths = write(job, folder)
        path = pathlib.Path(folder, name)
        text = path.read_text()
        planted.append(right in text)
        path.write_text(text.replace(right, wrong))
        return paths

    monkeypatch.setattr(make, "write", spoilt)
    assert differing([SHOWN.get(feature, 1), *SEEDS]) and any(planted)


@needs_iverilog
def test_a_planted_skew_makes_a_run_differ(monkeypatch: pytest.MonkeyPatch) -> None:
    monkeypatch.setattr(make, "_skews", lambda code, lot, die: [0] * len(code.signals))
    assert differing(SEEDS)


@needs_iverilog
def test_random_dies_agree() -> None:
    tally = Tally()
    for seed in range(1001, 1013):
        for found in run_seed(seed):
            tally.add(found)
    assert not tally.differing and tally.dies == 12 and tally.features["fails"] > 3


@needs_iverilog
def test_worked_cases_are_read_and_run(capsys: pytest.CaptureFixture[str]) -> None:
    assert main(["--jobs", "2", "--cases", str(TOP / "crates/worked_cases/data/lots.txt")]) == 0
    assert " 0 differ" in capsys.readouterr().out


@pytest.mark.parametrize("words", [[], ["x"], ["3-"], ["-3"]])
def test_words_that_are_none(words: list[str]) -> None:
    with pytest.raises(SystemExit) as ended:
        main(words)
    assert ended.value.code == 2


CASES = r"""
text ROWS
repeat 2
|row {3+1}{2*-}
end
case one
words check p.stil
file p.stil
<ROWS
=00 FF 0A
status 4
~refused
case two
divided
word parts
word a b
sockets 0
status 0
case three
words check p.stil
fails 1
status 3
"""


def test_cases_are_read_whole(tmp_path: pathlib.Path) -> None:
    file = tmp_path / "cases.txt"
    file.write_text(CASES)
    one, two, three = cases_of(str(file), {})
    assert (one.title, one.words, one.files) == ("one", ["check", "p.stil"], {"p.stil": b"row 1--\nrow 4--\n\x00\xff\n"})
    assert (one.status, one.want, one.is_left, one.is_divided) == (4, b"refused", False, False)
    assert (two.words, two.is_divided, two.is_left, two.want) == (["parts", "a b"], True, False, b"")
    assert (three.status, three.is_left) == (3, True) and list(lots_of(str(file))) == []
    file.write_text(CASES.replace("fails 1", "failed 1"))
    with pytest.raises(ValueError, match="failed"):
        cases_of(str(file), {})


def test_a_place_without_cases_is_told(capsys: pytest.CaptureFixture[str]) -> None:
    assert main(["--cases", "/nowhere"]) in (3, 4)
    assert "error:" in capsys.readouterr().err


PROGRAM = """STIL 1.0; Signals { A In; B In; ck In; Y Out; }
Timing { WaveformTable w { Period '100ns'; Waveforms { 'A + B' { 01 { '10ns' D/U; } } ck { P { '0ns' D; '50ns' U; } } Y { L { '40ns' L; } } } } }
Pattern p { W w; V { A=1; B=0; ck=P; Y=L; } }
PatternBurst b { PatList { p; } } PatternExec { PatternBurst b; }
"""
NET = "INPUT(A)\nINPUT(B)\nINPUT(C)\nOUTPUT(Y)\nY = AND(A, B)\n"
HEAD, DIE = "lot,256,2,8,,\n", "die,0,d,n.bench,,\n"
WITH = HEAD + DIE
PLANS = [
    "", "\n\n", "lot,256,1,8,,,\n", "lot,0,1,8,,\n", "lot,1048577,1,8,,\n", "lot,256,9,8,,\n", "lot,256,1,1025,,\n", "lot,256,1,8, ,\n", DIE, HEAD + HEAD,
    HEAD + "\n" + "clock,ck,,,,\nclock,A,,,,\n", HEAD + "clock,none,,,,\n" + DIE, WITH + DIE, HEAD + "die,64,d,n.bench,,\n", HEAD + "die,0,a b,n.bench,,\n",
    WITH + "fault,0,e,Y,1,\n", WITH + "fault,0,d,Y,2,\n", WITH + "fault,0,d,Y,1,9\n", WITH + "fault,0,d,no,1,\n", WITH + "fault,0,d,Y,x,\n",
    WITH + "fault,0,d,Y,1,\nfault,0,d,Y,0,1\n", WITH + "fault,0,d,Y,1,001\nfault,00,d,Y,1,\n", WITH + "stop,0,d,9,1,\n", HEAD + "stop,0,d,1,1,\n" + DIE,
    WITH + "stop,0,d,1,1,\nstop,0,d,01,2,\n", WITH + "stop,0,d,1,281474976710657,\n", WITH + "bin,fail,1,3,,\n", WITH + "bin,fail,0,0,,\n",
    WITH + "bin,pass,0,3,,\n",
    WITH + "bin,pass,,3,,\nbin,pass,,4,,\n", WITH + "bin,lost,,3,,\n", HEAD + "skew,0,A,1,,\n" + DIE, WITH + "skew,0,A,-10000001,,\n",
    WITH + "skew,0,A,90000000,,\n",
    WITH + "skew,0,A,1,,\nskew,0,A,1,,\n", WITH + "skew,0,none,1,,\n", WITH + "skew,0,A,+1,,\n", WITH + "skew,0,A,--1,,\n", WITH + "skew,0,A,1000000000001,,\n",
    WITH + "skew,0,A,00000000000000000000001,,\n", WITH + "skew,0,A,-0,,\n" + "clock,ck,,,,\n", WITH + "bind,Y,A,,,\n", WITH + "bind,A,Y,,,\n",
    WITH + "bind,A,B,,,\n",
    WITH + "bind,A,,,,\n", WITH + "bind,A,C,,,\nbind,A,B,,,\n", WITH + "clock,A,,,,\nbind,B,A,,,\n", WITH + "\xe9,,,,,\n", HEAD + "x" * 200000 + "\n",
    HEAD + 'die,0,"d,n.bench,,\n', "\xef\xbb\xbf" + WITH + "clock,ck,,,,\n"]
NETS = [
    NET + "Y = OR(A, B)\n", NET + "INPUT(Y)\n", NET + "Z = NOT(A, B)\n", NET + "Z = DFF()\n", NET + "Z = AND(A,)\n", NET + "Z = MUX(A, B)\n",
    NET + "OUTPUT(Z)\n",
    NET + "Z = AND(A, Q)\n", NET + "Z = AND(A, Z)\n", NET + "Z = AND(A, Q)\nQ = OR(Z, B)\nR = NOT(Z)\n", NET + "Z = DFF(Z)\n", NET + "\rZ = NOT(A)\n",
    NET + "Z = NOT(A)\r",
    NET + "Z = NOT(A)\r\n", NET + "# a\fb\r c\nZ = nOt(A) # x\n", NET + f"{'n' * 1024} = NOT(A)\n", NET + f"{'n' * 1025} = NOT(A)\n", NET + "Z = (A)\n",
    NET + "Z\n",
    NET + f"Z = AND({', '.join(['A'] * 1024)})\n", NET + f"Z = AND({', '.join(['A'] * 1025)})\n", NET + "INPUT(a b)\n",
    NET + "INPUT = DFF(OUTPUT)\nOUTPUT = NOT(INPUT)\n",
    NET + "Z = NOT (A) ;\n", NET + "\x0bZ = NOT(A)\n", NET + "\xe9 = NOT(A)\n", NET + "Z = XOR(A)\n", "".join(f"INPUT(i{k})\n" for k in range(65534)) + NET]


def told(call: Callable[[], object]) -> str:
    """What a call is refused with, if it is."""
    try:
        call()
    except Fault as fault:
        return fault.told()
    return ""


@pytest.mark.parametrize("number", range(len(PLANS)))
def test_plans_are_judged_as_the_program_judges_them(tmp_path: pathlib.Path, monkeypatch: pytest.MonkeyPatch, number: int) -> None:
    monkeypatch.chdir(tmp_path)
    for name, text in (("p.stil", PROGRAM), ("n.bench", NET), ("plan.csv", PLANS[number])):
        pathlib.Path(name).write_text(text, encoding="latin-1", newline="")
    status, output = tester.run(["lot", "p.stil", "plan.csv"])
    wanted = refusal(output.decode("latin-1"), status, "p.stil", "plan.csv").told() if status else ""
    got = told(lambda: make.job_of(make.Wish("p.stil", "plan.csv")))
    assert kind(got) == kind(wanted)


@pytest.mark.parametrize("number", range(len(NETS)))
def test_netlists_are_judged_as_the_program_judges_them(tmp_path: pathlib.Path, monkeypatch: pytest.MonkeyPatch, number: int) -> None:
    monkeypatch.chdir(tmp_path)
    for name, text in (("p.stil", PROGRAM), ("n.bench", NETS[number]), ("plan.csv", HEAD + "clock,ck,,,,\n" + DIE)):
        pathlib.Path(name).write_text(text, encoding="latin-1", newline="")
    status, output = tester.run(["lot", "p.stil", "plan.csv"])
    wanted = refusal(output.decode("latin-1"), status, "p.stil", "plan.csv").told() if status else ""
    assert told(lambda: nets.read_netlist("n.bench")) == wanted


def kind(line: str) -> tuple[str, str]:
    """The place and the kind of a refusal's line."""
    return line.partition(":1: ")[0], line.rpartition("(")[2]


def test_lots_of_the_examples_are_found() -> None:
    found = witnessed.of_examples()
    assert len(found) >= 10 and all(pathlib.Path(TOP, work.plan).exists() for work in found)
    assert lots.read_lot(str(TOP / "examples/s27scan/lot.csv")).keep == 16
