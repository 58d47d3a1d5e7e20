"""Learnt values: the good die passes with them, and a die with a stuck net doesn't."""

import pathlib

import pytest

from conftest import EXAMPLES, Lot, dies_of, needs_yosys
from stilfloor import learn, netlist, plans
from stilfloor.cli import main
from stilfloor.dictionary import nets_of
from stilfloor.faults import Fault, Faults

S27 = (EXAMPLES / "s27scan" / "s27scan.stil").read_text()


def learnt(lot: Lot, text: str) -> learn.Learnt:
    """What is learnt of a text by the first die of a lot."""
    path = lot.folder / "wanted.stil"
    path.write_text(text)
    return learn.learn(str(path), lot.plan)


def test_the_values_of_the_example_are_learnt(s27: Lot) -> None:
    found = learnt(s27, S27.replace('"SO"=HHL', '"SO"=LLL'))
    assert found.text == S27 and found.counts == {"L": 2, "H": 2, "T": 0, "X": 0} and found.runs == 2 and not found.notes


def test_a_repeat_is_written_out_where_it_is_learnt(s27: Lot) -> None:
    found = learnt(s27, S27.replace('"SO"=HHL', r'"SO"=\r3 L '))
    assert '"SO"=HHL ;' in found.text


def test_what_is_unknown_becomes_x(s27: Lot) -> None:
    found = learnt(s27, S27.replace('"SI"=110;', '"SI"=110; "SO"=LLL;').replace('"SO"=HHL', '"SO"=LLL'))
    assert '"SI"=110; "SO"=XXX;' in found.text and found.counts == {"L": 2, "H": 2, "T": 0, "X": 3}


def test_a_good_die_passes_and_a_stuck_net_is_seen(made_alu: Lot) -> None:
    _, datalog = made_alu.run([["die", "0", "good", made_alu.bench], ["die", "0", "bad", made_alu.bench], ["fault", "0", "bad", "zero", "1"]])
    good, bad = dies_of(datalog)
    assert good.tries[0].fails == 0 and good.verdict.kind == "pass" and bad.tries[0].fails > 0


@needs_yosys
def test_more_fails_than_a_try_keeps_are_learnt_in_several_runs(tmp_path: pathlib.Path) -> None:
    alu = pathlib.Path(__file__).parent / "data" / "alu.v"
    _, (_, stil, plan) = netlist.make(netlist.Start([str(alu)], None, 2, 400), str(tmp_path))
    found = learn.learn(stil, plan)
    assert found.counts["H"] > 1024 and found.runs > 2
    wanted = sum(line.count("L") for line in pathlib.Path(stil).read_text().split("Pattern ")[-1].splitlines() if "Call" in line)
    assert sum(found.counts.values()) == wanted
    pathlib.Path(stil).write_text(found.text)
    lot = Lot(tmp_path, plans.read_plan(plan).dies[0].netlist, stil, plan)
    assert dies_of(lot.run([["die", "0", "good", lot.bench]])[1])[0].tries[0].fails == 0


ELSEWHERE = {
    "a Loop": ('"pattern 1"', 'Loop 2 { V { "_po"=L; } } "pattern 1"', 48),
    "the procedure `capture`": ('"_po"=#;', '"_po"=L;', 37),
    "the procedure `load_unload`": ('"SO"=#;', '"SO"=L;', 33),
    "a C": ('"_po"=X; "SO"=X; }\n  Ann', '"_po"=L; "SO"=X; }\n  Ann', 44),
}


@pytest.mark.parametrize("where", ELSEWHERE)
def test_a_look_elsewhere_is_refused_by_its_line(s27: Lot, where: str) -> None:
    old, new, line = ELSEWHERE[where]
    assert S27.count(old) == 1
    with pytest.raises(Faults) as refused:
        learnt(s27, S27.replace(old, new))
    fault = refused.value.faults[0]
    assert where in fault.text and fault.line == line and fault.status == 1


def test_a_look_that_is_kept_and_shows_both_values_is_refused(s27: Lot) -> None:
    text = S27.replace('Call "capture" { "_pi"=0101; "_po"=L; }', 'V { "CK"=0; "SE"=0; "_pi"=0101; "_po"=L; } V { "_pi"=1000; } V { "_po"=X; }')
    with pytest.raises(Fault) as refused:
        learnt(s27, text)
    assert "different values" in refused.value.text and refused.value.line == 47


def test_a_look_that_is_kept_and_shows_one_value_is_learnt(s27: Lot) -> None:
    text = S27.replace('Call "capture" { "_pi"=0101; "_po"=L; }', 'V { "CK"=0; "SE"=0; "_pi"=0101; "_po"=L; } V { "SI"=1; } V { "CK"=P; "_po"=X; }')
    assert learnt(s27, text.replace("HHL", "LLL")).counts["H"] == 2


def test_a_look_that_nothing_runs_stays_and_is_told(s27: Lot) -> None:
    found = learnt(s27, S27.rstrip()[:-1] + '  Stop;\n  V { "_po"=L; }\n}\n')
    assert found.notes == [f"{s27.folder}/wanted.stil:50:1: warning: no vector makes this look, so it stays L"]


def test_other_looks_that_fail_are_told(s27: Lot) -> None:
    found = learnt(s27, S27.replace('"SO"=HHL', '"SO"=HLH'))
    assert found.notes == [f"{s27.folder}/wanted.stil: note: in cycle 6 the good die shows 0 at SO, where H is written"]


def test_a_text_without_a_look_and_a_saved_program_are_refused(s27: Lot) -> None:
    with pytest.raises(Fault, match="nothing to learn"):
        learnt(s27, S27.replace('"_po"=L', '"_po"=X').replace("HHL", "XXX"))
    with pytest.raises(Fault, match="nothing to learn|saved program|isn't ended"):
        learn.learn(str(s27.folder / "s27scan.bench"), s27.plan)
    with pytest.raises(Fault, match="no character H"):
        learnt(s27, S27.replace("""'"_po" + "SO"' { LHX { '40ns' L/H/X; } }""", """'"_po" + "SO"' { LX { '40ns' L/X; } }""").replace("HHL", "LLL"))


def test_a_refused_text_is_told_by_its_line(s27: Lot) -> None:
    with pytest.raises(Fault) as refused:
        learnt(s27, S27.replace('W "_default_WFT_";\n  "pre', 'W nowhere;\n  "pre'))
    assert refused.value.line == 43 and "(UnknownName" in refused.value.text


def test_skews_of_the_site_count(s27: Lot) -> None:
    text = S27.replace('"SO"=HHL', '"SO"=LLL')
    plan = pathlib.Path(s27.plan)
    plan.write_text(plan.read_text() + "skew,0,SO,20000000,,\n")
    assert '"SO"=HLL' in learnt(s27, text).text


def test_executives_are_learnt_one_after_another(s27: Lot) -> None:
    second = 'PatternBurst two { PatList { more; } }\nPatternExec second { PatternBurst two; }\nPattern "_pattern_"'
    text = S27.replace("PatternExec {", "PatternExec first {").replace('Pattern "_pattern_"', second)
    text += 'Pattern more { W "_default_WFT_"; V { "CK"=P; "SE"=0; "SI"=0; "_pi"=0101; "SO"=L; "_po"=L; } }\n'
    found = learnt(s27, text.replace("HHL", "LLL"))
    assert found.counts["H"] >= 3 and found.runs >= 3


def test_the_word_tells_how_many_looks_it_learnt(s27: Lot, capsys: pytest.CaptureFixture[str]) -> None:
    path = s27.folder / "wanted.stil"
    path.write_text(S27.replace("HHL", "LLL"))
    assert main(["learn", str(path), s27.plan, "-o", str(s27.folder / "out.stil")]) == 0
    assert "4 looks learnt: 2 low, 2 high, 0 off, 0 unknown; 2 runs" in capsys.readouterr().err
    assert (s27.folder / "out.stil").read_text() == S27
    assert dies_of(s27.run([["die", "0", nets_of(s27.bench)[0], s27.bench]])[1])[0].verdict.kind == "pass"
