"""Dumps and tables as STIL texts: what comes back is what was simulated, and what no text can say is refused by name and time."""

import json
import pathlib

import pytest

from conftest import DATA, EXAMPLES, TOP, needs_iverilog
from stilfloor import api, tester
from stilfloor.cli import main

COUNTER = [str(EXAMPLES / "counter" / "counter.stil"), str(EXAMPLES / "counter" / "lot.csv")]
HEAD = "$timescale 1ns $end\n$scope module tb $end\n$var reg 1 ! ck $end\n$var reg 2 % d [1:0] $end\n$var wire 1 & y $end\n$upscope $end\n" \
       "$enddefinitions $end\n#0\n0!\nb0 %\nx&\n"


@pytest.fixture(autouse=True)
def _in_the_checkout(monkeypatch: pytest.MonkeyPatch) -> None:
    """The plans of the examples name their netlists from there."""
    monkeypatch.chdir(TOP)


@needs_iverilog
def test_a_dump_of_a_testbench_comes_back(tmp_path: pathlib.Path, capsys: pytest.CaptureFixture[str]) -> None:
    assert main(["testbench", *COUNTER, "--waves", "-o", str(tmp_path)]) == 0
    mores: list[list[str]] = [[], ["--netlist", str(EXAMPLES / "counter" / "counter.bench")],
                              ["--in", "en", "rst", "--out", "q0", "q1", "q2", "--strobe", "40ns"]]
    for more in mores:
        out = str(tmp_path / "again.stil")
        assert main(["from-vcd", str(tmp_path / "waves.vcd"), "--clock", "ck", "-o", out, *more]) == 0
        assert "7 cycles, 2 inputs, 3 outputs\n" in capsys.readouterr().err
        datalog = tester.run(["lot", out, COUNTER[1]])[1].decode()
        assert datalog.startswith("site 0\ndie good\ntry 1 cycles 7 fails 0\nverdict pass\n")
        assert api.grade(out, COUNTER[1]).found == 28


def text_of(tmp_path: pathlib.Path, changes: str, *more: str) -> str:
    """The text of a dump, without blanks at the ends of lines."""
    (tmp_path / "d.vcd").write_text(HEAD + changes)
    assert main(["from-vcd", str(tmp_path / "d.vcd"), "--clock", "ck", "-o", str(tmp_path / "d.stil"), *more]) == 0
    assert tester.run(["check", str(tmp_path / "d.stil")])[0] == 0
    return (tmp_path / "d.stil").read_text()


def test_buses_clocks_that_rest_and_levels(tmp_path: pathlib.Path) -> None:
    text = text_of(tmp_path, "#2\nb1 %\n#5\n1!\n1&\n#7\n0!\n#12\nbx1 %\n#15\n1!\nz&\n#17\n0!\n#22\nbz %\n#30\n#35\n1!\n#37\n0!\n")
    assert "_pi\" = '\"d[1]\" + \"d[0]\"'" in text and "Period '10ns'" in text and "P { '0ns' D; '5ns' U; '7ns' D; }" in text
    assert '"d[0]" { 01NZ { \'2ns\' D/U/N/Z; } }' in text and "LHTX { '3500ps' L/H/T/X; }" in text
    assert text.split('W "_table_";\n')[1].split("\n")[:4] == [
        '  V { "ck"=P; "_pi"=01; "_po"=X; }', '  V { "_pi"=N1; "_po"=H; }', '  V { "ck"=0; "_pi"=ZZ; "_po"=T; }', '  V { "ck"=P; }']


def test_inputs_that_change_with_the_clock_are_those_behind_its_rise(tmp_path: pathlib.Path) -> None:
    text = text_of(tmp_path, "#10\n1!\nb1 %\n#15\n0!\n1&\n#20\n1!\nb10 %\n#25\n0!\n#30\n1!\n#35\n0!\n")
    assert "P { '0ns' U; '5ns' D; }" in text and "LHTX { '7500ps'" in text and '"d[0]" { 01NZ { \'0ns\'' in text
    assert text.split('W "_table_";\n')[1].split("\n")[0] == '  V { "ck"=0; "_pi"=00; "_po"=X; }'


@pytest.mark.parametrize("changes, why", [
    ("#2\nb1 %\n#5\n1!\n#7\n0!\n#13\nb0 %\n#15\n1!\n#17\n0!\n", "the input `d[0]` changes at 2ns and at 13ns, which are two times of a cycle of 10ns"),
    ("#5\n1!\n#7\n0!\n#15\n1!\n#18\n0!\n", "the clock `ck` changes to 0 at 7ns and at 18ns, which are two times of a cycle of 10ns"),
    ("#5\n1!\n#7\n0!\n#15\n1!\n#17\n0!\n#28\n1!\n", "`ck` rises at 15ns and at 28ns, which aren't whole cycles of 10ns apart"),
    ("#5\n1!\n", "doesn't rise twice, so --period has to say"),
    ("#5\n1!\n#3\n0!\n", ":14:1: error: `#3` is no time, or one that is over"),
    ("#5\n1?\n", ":13:1: error: the code `?` is of no variable"), ("q!\n", "`q!` is no change of a value"), ("$comment x\n", "$comment has no $end"),
    ("b2 %\n", "`2` has other levels than 0, 1, x and z")])
def test_what_no_text_can_say_is_refused_by_name_and_time(tmp_path: pathlib.Path, capsys: pytest.CaptureFixture[str], changes: str, why: str) -> None:
    (tmp_path / "d.vcd").write_text(HEAD + changes)
    assert main(["from-vcd", str(tmp_path / "d.vcd"), "--clock", "ck"]) in (1, 3)
    assert why in capsys.readouterr().err


def test_words_of_a_dump_that_cannot_be(tmp_path: pathlib.Path, capsys: pytest.CaptureFixture[str]) -> None:
    dump = tmp_path / "d.vcd"
    dump.write_text(HEAD + "#5\n1!\n#7\n0!\n#15\n1!\n")
    for words, status, why in ((["--clock", "no"], 1, "no signal `no` of one bit"), (["--clock", "ck", "--period", "x"], 2, "--period wants a time like 100ns"),
                               (["--clock", "ck", "--period", "0ns"], 2, "above 0"),
                               (["--clock", "ck", "--strobe", "11ns"], 1, "the strobe at 11ns lies outside"),
                               (["--clock", "ck", "--in", "k"], 1, "no signal `k`"), (["--clock", "ck", "--scope", "tb.u"], 1, "in the scope `tb.u`"),
                               (["--clock", "ck", "--in", "y", "--out", "y"], 1, "`y` stands twice"), (["--clock", "ck", "--period", "0.1fs"], 2, "whole")):
        assert main(["from-vcd", str(dump), *words]) == status
        assert why in capsys.readouterr().err
    dump.write_text("nothing\n")
    assert main(["from-vcd", str(dump), "--clock", "ck"]) == 3 and main(["from-vcd", str(DATA), "--clock", "ck"]) == 3


TABLE = "rst,en,q2,q1,q0\n1,0,X,X,X\n0,1,L,L,L\n0,1,L,L,H\n,,,,\n"


def test_tables_become_texts(tmp_path: pathlib.Path, capsys: pytest.CaptureFixture[str]) -> None:
    rows = [{"rst": 1, "en": 0, "q2": "X", "q1": "X", "q0": "x"}, {"rst": 0, "en": True, "q2": "L", "q1": 0, "q0": "L"}, {"q0": "H"}]
    (tmp_path / "t.csv").write_text(TABLE.replace(",,,,\n", ""))
    (tmp_path / "t.json").write_text(json.dumps(rows))
    mores: dict[str, list[str]] = {"t.csv": [], "t.json": ["--out", "q1", "--period", "50ns"]}
    for name, more in mores.items():
        out = str(tmp_path / "t.stil")
        assert main(["vectors", str(tmp_path / name), "--clock", "ck", "-o", out, *more]) == 0
        assert "3 cycles, 2 inputs, 3 outputs\n" in capsys.readouterr().err
        assert tester.run(["lot", out, COUNTER[1]])[1].decode().startswith("site 0\ndie good\ntry 1 cycles 3 fails 0\n")
    assert main(["vectors", str(tmp_path / "t.csv"), "--clock", "ck"]) == 0 and '"_pi"=10; "_po"=XXX;' in capsys.readouterr().out


@pytest.mark.parametrize("name, text, status, why", [
    ("t.csv", TABLE, 1, "t.csv:5:1: error: `` at `rst` is none of 0, 1, N, X, Z"),
    ("t.csv", "a,b\n1\n", 1, "t.csv:2:1: error: this row has 1 cells, and the heading 2"),
    ("t.csv", "a,a\n", 1, "the heading has `a` twice"), ("t.csv", "a\n", 1, "there is no cycle"), ("t.csv", 'a"\n1\n', 1, "can't be the name of a signal"),
    ("t.json", "[", 3, "this is no JSON"), ("t.json", "{}", 1, "no list of objects"), ("t.json", '[{"a": 7}]', 1, "`7` at `a` in object 1 is none of 0, 1")])
def test_tables_that_are_none_are_refused(tmp_path: pathlib.Path, capsys: pytest.CaptureFixture[str], name: str, text: str, status: int, why: str) -> None:
    (tmp_path / name).write_text(text)
    assert main(["vectors", str(tmp_path / name), "--clock", "ck"]) == status
    assert why in capsys.readouterr().err
