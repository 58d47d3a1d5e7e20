"""Scan tests: all faults of small designs found or refuted, what is found held against iverilog, what is refuted against all values."""

import pathlib
import random
import shutil

import pytest

from conftest import DATA, EXAMPLES, Lot, needs_iverilog, needs_yosys
from stilfloor import api, netlist, plans
from stilfloor.atpg import solver, work
from stilfloor.atpg.circuit import Circuit, Classes, Stuck, circuit_of
from stilfloor.atpg.miter import Miter
from stilfloor.atpg.proof import is_proof
from stilfloor.atpg.refute import everything, why_not_refuted
from stilfloor.cli import main

pytestmark = pytest.mark.skipif(not shutil.which("cadical"), reason="cadical isn't there: scan tests are left out")

MAC = """module mac(input clk, input rst_n, input en, input [2:0] a, input [2:0] b, output reg [6:0] acc);
  reg [2:0] x, y;
  always @(posedge clk or negedge rst_n)
    if (!rst_n) begin x <= 0; y <= 0; acc <= 0; end
    else if (en) begin x <= a; y <= b; acc <= acc + x * y; end
endmodule
"""


def made(folder: pathlib.Path, start: netlist.Start, *words: str) -> tuple[Lot, api.Grade, str]:
    """The test of a netlist with chains, its grade, and what the word prints."""
    start.chains = start.chains or 2
    bench, stil, plan = netlist.make(start, str(folder), True)[1]
    out = str(folder / "test.stil")
    assert main(["atpg", bench, plan, "-o", out, *words]) == 0
    return Lot(folder, bench, out, plan), api.grade(out, plan), stil


def shown(lot: Lot, grade: api.Grade, printed: str) -> list[str]:
    """Each fault is found by the grade, or printed as refuted; those that are refuted."""
    lines = printed.split("\n")
    missed = [f"refuted {fault.net} {fault.value}" for fault in grade.faults if fault.cycle is None]
    assert grade.good is None and lines == [*missed, lot.stil, ""]
    return missed


@needs_yosys
@pytest.mark.parametrize("words, most", [((), 30), (("--compact",), 20)])
def test_each_fault_of_the_alu_is_found(tmp_path: pathlib.Path, capsys: pytest.CaptureFixture[str], words: tuple[str, ...], most: int) -> None:
    lot, grade, _ = made(tmp_path, netlist.Start([str(DATA / "alu.v")]), *words)
    assert shown(lot, grade, capsys.readouterr().out) == [] and grade.found == 378
    text = pathlib.Path(lot.stil).read_text()
    assert text.count('Call "capture"') <= most and '"chain test": Call "load_unload" { "SI1"=00110011; "SI2"=0011001; }' in text


@needs_yosys
def test_each_pin_is_found_or_refuted_where_a_reset_is_held(tmp_path: pathlib.Path, capsys: pytest.CaptureFixture[str]) -> None:
    (tmp_path / "mac.v").write_text(MAC)
    lot, grade, _ = made(tmp_path, netlist.Start([str(tmp_path / "mac.v")], held={"rst_n": "1"}, has_pins=True))
    missed = shown(lot, grade, capsys.readouterr().out)
    assert "refuted rst_n 0" in missed and "refuted rst_n 1" in missed and len(missed) < 8 < len(grade.faults) / 50


@needs_yosys
@needs_iverilog
def test_what_is_found_is_found_by_iverilog_in_the_same_cycle(tmp_path: pathlib.Path, capsys: pytest.CaptureFixture[str]) -> None:
    start = netlist.Start([str(DATA / "s27cells.v")], None, 1, liberty=str(DATA / "cells.lib"), as_written=True, has_pins=True, held={"RN": "1"})
    lot, grade, _ = made(tmp_path, start)
    found = [fault for fault in grade.faults if fault.cycle is not None]
    for fault in random.Random(4).sample(found, 8):
        rows = [["die", "0", "d", lot.bench], ["fault", "0", "d", fault.net, str(fault.value)]]
        plan, _ = lot.run(rows)
        capsys.readouterr()
        assert main(["testbench", lot.stil, plan, "--run", "-o", str(tmp_path / "bench")]) == 0
        assert capsys.readouterr().out.startswith("agree, ")
        log = (tmp_path / "bench" / "testbench.log").read_text().split("\n")
        assert next(line for line in log if line.startswith("fail ")).split()[1] == str(fault.cycle)


def levels(circuit: Circuit, sources: dict[str, int], every: int, fault: Stuck | None) -> dict[str, int]:
    """The levels of all nets for all values at once, a bit of a number each."""
    shows: dict[str, int] = {}
    for net in [*sources, *circuit.order]:
        if net in sources:
            level = sources[net]
        else:
            kind, inputs = circuit.netlist.gates[net]
            level = every if kind in ("AND", "NAND") else 0
            for used in inputs:
                level = level & shows[used] if kind in ("AND", "NAND") else level ^ shows[used] if "XO" in kind or "XN" in kind else level | shows[used]
            level ^= every if kind in ("NAND", "NOR", "XNOR", "NOT") else 0
        shows[net] = every * fault[1] if fault and fault[0] == net else level
    return shows


def changes(circuit: Circuit, fault: Stuck, held: dict[str, int]) -> bool:
    """Whether a stuck net changes an output or a next state for some values, by trying all."""
    free = [net for net in [*circuit.netlist.inputs, *circuit.netlist.registers] if net not in held]
    assert len(free) <= 16
    every = (1 << (1 << len(free))) - 1
    sources = {net: every // ((1 << (1 << place)) + 1) for place, net in enumerate(free)}
    sources |= {net: every * value for net, value in held.items()}
    good, bad = levels(circuit, sources, every, None), levels(circuit, sources, every, fault)
    return any(good[net] != bad[net] for net in everything(circuit, held).looks)


def random_netlist(seed: int) -> str:
    """A netlist of six inputs and three flip-flops, in which much is seen nowhere or settles itself."""
    bits = random.Random(seed)
    nets = [f"i{number}" for number in range(6)] + [f"q{number}" for number in range(3)]
    lines = [f"INPUT(i{number})" for number in range(6)]
    for number in range(24):
        kind = bits.choice(("AND", "NAND", "OR", "NOR", "XOR", "XNOR", "NOT", "BUFF"))
        inputs = [bits.choice(nets[-9:]) for _ in range(1 if kind in ("NOT", "BUFF") else bits.choice((1, 2, 2, 3)))]
        nets.append(f"n{number}")
        lines.append(f"n{number} = {kind}({', '.join(inputs)})")
    lines += [f"q{number} = DFF({bits.choice(nets[-8:])})" for number in range(3)]
    return "\n".join([*lines, f"OUTPUT({nets[-1]})", f"OUTPUT({nets[-2]})"]) + "\n"


@pytest.mark.parametrize("seed", range(4))
def test_what_is_refuted_is_refuted_by_all_values(tmp_path: pathlib.Path, seed: int) -> None:
    (tmp_path / "n.bench").write_text(random_netlist(seed))
    circuit = circuit_of(str(tmp_path / "n.bench"))
    held = {"i0": 1} if seed % 2 else {}
    verdicts = {fault: why_not_refuted(circuit, held, fault, 10, str(tmp_path)) for fault in circuit.faults}
    assert verdicts == {fault: "solved" if changes(circuit, fault, held) else "" for fault in circuit.faults}
    assert 4 < list(verdicts.values()).count("") < len(verdicts) - 4


def test_faults_of_a_class_are_alike(tmp_path: pathlib.Path) -> None:
    (tmp_path / "n.bench").write_text(random_netlist(7))
    circuit = circuit_of(str(tmp_path / "n.bench"))
    classes = Classes(circuit)
    free = [*circuit.netlist.inputs, *circuit.netlist.registers]
    every = (1 << (1 << len(free))) - 1
    sources = {net: every // ((1 << (1 << place)) + 1) for place, net in enumerate(free)}
    looks = everything(circuit, {}).looks
    for fault in circuit.faults:
        one, other = (levels(circuit, sources, every, each) for each in (fault, classes.of(fault)))
        assert all(one[net] == other[net] for net in looks)
    assert len(set(map(classes.of, circuit.faults))) < len(circuit.faults)


def test_a_proof_is_one_of_its_own_clauses(tmp_path: pathlib.Path) -> None:
    # (the two paths of c cancel out, which takes some steps to see)
    (tmp_path / "n.bench").write_text("INPUT(a)\nINPUT(b)\nINPUT(c)\nOUTPUT(y)\nl = AND(a, b)\nm = NAND(a, b)\nx = XOR(a, c)\nz = XNOR(a, c)\n"
                                      "u = AND(l, x)\nv = AND(l, z)\nw = OR(u, v)\ny = OR(w, m)\n")
    circuit = circuit_of(str(tmp_path / "n.bench"))
    texts = {fault: Miter(circuit, everything(circuit, {}), fault).text() for fault in circuit.faults}
    refuted, found = texts["c", 0], texts["m", 1 if "solved" else 0]
    assert solver.refuted(refuted, 10, str(tmp_path)) == "" and why_not_refuted(circuit, {}, ("c", 1), 10, str(tmp_path)) == ""
    solver.refuted(refuted, 10, str(tmp_path))
    proof = (tmp_path / "proof").read_text()
    assert is_proof(refuted, proof) and solver.refuted(texts["m", 0], 10, str(tmp_path)) == "solved"
    assert not is_proof(texts["m", 0], proof) and not is_proof(refuted, "") and not is_proof(texts["m", 0], "0\n")
    assert not is_proof(refuted, "x 0\n") and not is_proof(refuted, proof.replace(" 0\n", "\n")) and found


def test_a_proof_whose_step_does_not_follow_is_none() -> None:
    clauses = "p cnf 3 4\n1 2 0\n-1 2 0\n1 -2 0\n-1 -2 3 0\n"
    assert not is_proof(clauses, "2 0\n1 0\n-3 0\n0\n") and not is_proof(clauses, "2 0\n1 0\n0\n") and not is_proof(clauses, "d 1 2 0\n0\n")
    assert is_proof(clauses + "-3 0\n", "2 0\n0\n") and not is_proof(clauses + "-3 0\n", "0\n") and not is_proof(clauses + "-3", "2 0\n0\n")


def test_work_goes_on_where_it_ended(s27: Lot, monkeypatch: pytest.MonkeyPatch, capsys: pytest.CaptureFixture[str]) -> None:
    out = str(s27.folder / "test.stil")
    words = ["atpg", s27.bench, s27.plan, "--program", s27.stil, "-o", out]
    assert main([*words, "--resume"]) == 3 and "there is no work to go on with" in capsys.readouterr().err
    kept = work.Work._keep

    def at_once(self: work.Work) -> None:
        self.kept_at -= 100
        kept(self)
        raise KeyboardInterrupt

    monkeypatch.setattr(work.Work, "_keep", at_once)
    assert main(words) == 130
    monkeypatch.undo()
    assert main([*words, "--seed", "2", "--resume"]) == 1 and "of another netlist, text, plan or seed" in capsys.readouterr().err
    assert main([*words, "--resume"]) == 0 and not pathlib.Path(out + ".work").exists()
    assert api.grade(out, s27.plan).found == 58
    pathlib.Path(out + ".work").write_text("{}")
    assert main([*words, "--resume"]) == 3


def test_few_loads_leave_faults_open(s27: Lot, capsys: pytest.CaptureFixture[str]) -> None:
    out = str(s27.folder / "test.stil")
    assert main(["atpg", s27.bench, s27.plan, "--program", s27.stil, "--loads", "1", "-o", out]) == 0
    told = capsys.readouterr()
    assert ": there were no loads left for it\n" in told.out and "; 1 loads, " in told.err
    grade = api.grade(out, s27.plan)
    assert told.out.count("open ") == len(grade.faults) - grade.found


def test_a_flip_flop_outside_the_chains_is_unknown(s27: Lot, capsys: pytest.CaptureFixture[str]) -> None:
    bench = pathlib.Path(s27.bench)
    bench.write_text(bench.read_text() + "INPUT(E)\nOUTPUT(Z)\nK = DFF(K)\nZ = AND(E, K)\n")
    stil = pathlib.Path(s27.stil)
    stil.write_text(stil.read_text().replace('"G3" In;', '"G3" In; "E" In; "Z" Out;').replace('"G2" + "G3"', '"G2" + "G3" + "E"')
                    .replace("'\"G17\"'", "'\"G17\" + \"Z\"'").replace("\\r4 ", "\\r5 ").replace('=0101; "_po"=L', '=01010; "_po"=LX')
                    .replace('"_po"=X;', '"_po"=XX;'))
    out = str(s27.folder / "test.stil")
    assert main(["atpg", s27.bench, s27.plan, "--program", s27.stil, "-o", out]) == 0
    lines = capsys.readouterr().out.split("\n")
    assert "open K 0: " + work.OPEN["unknown"] in lines and "refuted K 0" not in lines
    assert api.grade(out, s27.plan).good is None


def test_what_no_test_can_be_made_of_is_refused(s27: Lot, tmp_path: pathlib.Path, capsys: pytest.CaptureFixture[str]) -> None:
    counter = EXAMPLES / "counter"
    for words, why in (([str(counter / "counter.bench"), str(counter / "lot.csv"), "--program", str(counter / "counter.stil")], "has no scan chains"),
                       ([s27.bench, s27.plan], "the netlist's STIL text isn't there") if not pathlib.Path(s27.stil).exists() else
                       ([s27.bench, s27.plan, "--program", str(tmp_path / "none")], "the netlist's STIL text isn't there")):
        assert main(["atpg", *words, "-o", str(tmp_path / "out.stil")]) == 1
        assert why in capsys.readouterr().err
    stil = pathlib.Path(s27.stil)
    text = stil.read_text()
    for before, after, why in (('ScanIn "SI"; ', "", "the chain `c1` has no ScanIn"),
                               ("\"_po\" = '\"G17\"'", "\"k\" = '\"G17\"'; \"_po\" = '\"k\"'", "and `k` is none"),
                               ('"capture" {\n', '"other" {\n', "isn't of the form that `netlist --scan N` writes")):
        assert before in text
        (tmp_path / "other.stil").write_text(text.replace(before, after).replace('Call "capture"', 'Call "other"' if "other" in after else 'Call "capture"'))
        assert main(["atpg", s27.bench, s27.plan, "--program", str(tmp_path / "other.stil"), "-o", str(tmp_path / "out.stil")]) == 1
        assert why in capsys.readouterr().err
    bench = pathlib.Path(s27.bench)
    bench.write_text(bench.read_text().replace("B6 = AND(SE, G5)", "B6 = AND(SE, G0)"))
    assert main(["atpg", s27.bench, s27.plan, "--program", s27.stil, "-o", str(tmp_path / "out.stil")]) == 1
    assert "the chain `c1` can't be followed from its end to `SI` through 3 flip-flops" in capsys.readouterr().err
    plan = pathlib.Path(s27.plan)
    plan.write_text("\n".join(line for line in plan.read_text().split("\n") if not line.startswith("clock")))
    assert main(["atpg", s27.bench, s27.plan, "--program", s27.stil, "-o", str(tmp_path / "out.stil")]) == 1
    assert "the plan's clock doesn't rise once" in capsys.readouterr().err and plans.read_plan(s27.plan).clock is None


def test_a_solver_that_is_missing_is_told(s27: Lot, monkeypatch: pytest.MonkeyPatch, capsys: pytest.CaptureFixture[str]) -> None:
    monkeypatch.setattr(solver.shutil, "which", lambda name: None)
    assert main(["atpg", s27.bench, s27.plan, "--program", s27.stil, "-o", str(s27.folder / "out")]) == 4
    assert "apt-get install cadical" in capsys.readouterr().err
