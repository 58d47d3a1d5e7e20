"""Refusals name what they are about, and what is likely not meant in scan data, waveforms and clocks is warned of."""

import pathlib

import pytest

from conftest import EXAMPLES, Lot
from stilfloor.cli import main
from stilfloor.lint import lint_plan, lint_text

P1 = (EXAMPLES / "p1.stil").read_text()
SCAN = (EXAMPLES / "s27scan" / "s27scan.stil").read_text()

REFUSED = {
    "V { a=0 y=H; }": "11:9: error: a `;` is missing in front of `y` (Shape",
    "V { a + y = 01; }": "11:5: error: an expression of signals stands in single quotes: write 'a + y' (Shape",
    "Vektor { a=0; }": "11:1: error: `Vektor` is no keyword; did you mean `Vector`? (LeftOut",
    "Goto x;": "11:1: error: `Goto` is a part of STIL that the program doesn't read",
    "Zebra x;": "11:1: error: `Zebra` is no keyword that the program knows here; mend it, or have it skipped by `UserKeywords Zebra;`",
    "V { aa=0; y=H; }": "11:5: error: the signal or group `aa` is declared nowhere; did you mean `a`? (UnknownName",
    "V { a=0; z=H; }": "11:10: error: the signal or group `z` is declared nowhere; look for a misspelling",
    "W ww; V { a=0; }": "11:3: error: the waveform table `ww` is declared nowhere; did you mean `w`?",
    "Call p;": "11:6: error: the procedure `p` is declared nowhere",
    "V { a=P; y=H; }": "11:7: error: the signal `a` has the character P here, which the waveform table `w` doesn't define for it; add it",
}


def told(folder: pathlib.Path, text: str) -> list[str]:
    """What is told of a text, without the file's name."""
    file = folder / "t.stil"
    file.write_text(text)
    return [line.removeprefix(f"{file}:") for line in lint_text(str(file))]


@pytest.mark.parametrize("statement", REFUSED)
def test_a_refusal_names_what_it_is_about_and_its_column(tmp_path: pathlib.Path, statement: str) -> None:
    line, = told(tmp_path, P1.replace("V { a=0; y=H; }", statement))
    assert line.startswith(REFUSED[statement]), line


def test_a_misspelt_keyword_of_a_table_is_none_that_is_left_out(tmp_path: pathlib.Path) -> None:
    line, = told(tmp_path, P1.replace("WaveformTable", "WaveformTabel"))
    assert line.startswith("3:12: error: `WaveformTabel` is no keyword; did you mean `WaveformTable`? (LeftOut")


def test_a_time_without_a_unit_is_told_where_it_stands(tmp_path: pathlib.Path) -> None:
    line, = told(tmp_path, P1.replace("'100ns'", "'100'"))
    assert line.startswith("7:1: error: an event lies outside its cycle") and "the time '100' on line 4 has no unit" in line


def test_a_character_from_a_caller_is_told_with_the_line_of_the_call(tmp_path: pathlib.Path) -> None:
    line, = told(tmp_path, SCAN.replace('"_po"=L;', '"_po"=Q;'))
    assert "the signal `G17` has the character Q here, which the waveform table `_default_WFT_` doesn't define" in line
    assert "(it comes from the argument on line 47)" in line and line.startswith("37:")


def test_a_folder_is_no_missing_file(tmp_path: pathlib.Path) -> None:
    assert list(lint_text(str(tmp_path))) == [f"{tmp_path}:1:1: error: this is a folder, and a file is wanted"]


FRONT = "lot,256,1,16,,\nclock,CK,,,,\nbind,SO,G7,,,\n"
ROWS = {
    "# a comment": "4:1: error: a plan has no comments; take this row out (Shape)",
    "dye,0,a,NET,,": "4:1: error: `dye` begins no row of a plan; did you mean `die`? (Shape)",
    "die,0,a,NET": "4:1: error: this row has 3 commas, and each row of a plan has 5: write die,SITE,NAME,FILE,, (Shape)",
    "die,zero,a,NET,,": "4:1: error: field 2 of this row is `zero`, where a number is wanted: write die,SITE,NAME,FILE,, (Shape)",
    "die,0, a,NET,,": "4:1: error: field 3 of this row, ` a`, has a blank at its edge; nothing is trimmed (Shape)",
    "bind,G00,-,,,": "4:1: error: the program has no signal `G00`; did you mean `G0`? (UnknownName)",
    "die,0,a,NET,,\nfault,0,b,G9,1,": "5:1: error: no row above has the die `b` at site 0",
    "die,0,a,NET,,\nfault,0,a,G99,1,": "5:1: error: the netlist of the die `a` has no net `G99`; did you mean `G9`? (UnknownName)",
    "lot,256,1,16,,": "4:1: error: the first row of a plan is lot,B,TRIES,F,,, and no other one is (Shape)",
}


@pytest.mark.parametrize("row", ROWS)
def test_rows_of_plans_are_told_by_what_is_wrong_with_them(s27: Lot, row: str) -> None:
    plan = pathlib.Path(s27.plan)
    plan.write_text(FRONT + row.replace("NET", s27.bench) + "\n")
    line, = lint_plan(str(plan), s27.stil)
    assert line.startswith(f"{plan}:{ROWS[row]}"), line


def test_a_heading_is_none_of_a_plan(s27: Lot) -> None:
    plan = pathlib.Path(s27.plan)
    plan.write_text("record,site,name,file,value,tries\n" + FRONT)
    line, = lint_plan(str(plan), s27.stil)
    assert line.startswith(f"{plan}:1:1: error: a plan has no heading; take this row out")


def test_a_plan_without_a_clock_is_told_to_add_one(s27: Lot) -> None:
    plan = pathlib.Path(s27.plan)
    text = plan.read_text().replace("clock,CK,,,,\n", "")
    plan.write_text(text)
    line, = lint_plan(str(plan), s27.stil)
    assert "the plan has no clock, and" in line and "has 3 flip-flops, which are never clocked: where it is their clock add clock,CK,,,,," in line
    plan.write_text(text + "bind,CK,-,,,\n")
    line, = lint_plan(str(plan), s27.stil)
    assert ": warning: the plan has no clock, and" in line and line.endswith("add clock,SIGNAL,,,,, as clock,CK,,,,")
    assert main(["lint", s27.stil, "--plan", s27.plan]) == 0


@pytest.mark.parametrize("old, new, wanted", [
    ('"SI"=110;', '"SI"=11010;', "46:1: warning: the data of `SI` have 5 characters, and the chain `c1` has 3 cells"),
    ('"SI"=110;', '"SI"=10;', "46:1: warning: the data of `SI` have 2 characters, and the chain `c1` has 3 cells"),
    ('"SO"=HHL;', '"SO"=\\r5 L ;', "48:1: warning: the data of `SO` have 5 characters, and the chain `c1` has 3 cells"),
    ('C { "_po"=X; "SO"=X; "CK"=0; "SE"=1; }', 'C { "_po"=X; "CK"=0; "SE"=1; } V { "SI"=#; "SO"=X; }',
     "32:1: warning: this vector takes the first scan character of `SI`, before the Shift does"),
    ('"CK" { 0 {', '"CK" { 0 { \'0ns\' D; } } "CK" { 0 {', "23:1: warning: `CK` has a waveform of the character 0 on line 23 already, in the same table"),
])
def test_scan_data_and_waveforms_that_are_likely_not_meant_are_warned_of(tmp_path: pathlib.Path, old: str, new: str, wanted: str) -> None:
    assert old in SCAN
    found = told(tmp_path, SCAN.replace(old, new))
    assert any(line.startswith(wanted) for line in found), found
    assert told(tmp_path, SCAN) == []


CHAINS = (EXAMPLES / "two_chains" / "chains.stil").read_text()
LONG = "and the chain `a` has 3 cells"


@pytest.mark.parametrize("old, new, wanted", [
    ("sa=011; sb=01;", "si=00001111;", f"32:1: warning: the data of `si` have 4 characters for each of its 2 signals, {LONG}"),
    ("sa=011; sb=01;", "si=\\r10 0;", f"32:1: warning: the data of `si` have 5 characters for each of its 2 signals, {LONG}"),
    ("sa=011; sb=01;", "si=0011;", f"32:1: warning: the data of `si` have 2 characters for each of its 2 signals, {LONG}"),
    ("oa=HLH; ob=HL;", "so=HLHLHLHLHL;", f"35:1: warning: the data of `so` have 5 characters for each of its 2 signals, {LONG}"),
    ("oa=HLH; ob=HL;", "'oa + ob'=HLHL;", f"35:1: warning: the data of `oa + ob` have 2 characters for each of its 2 signals, {LONG}"),
    ("sb=00; oa", "sb=0; oa", "35:1: warning: the data of `sb` have 1 character, and the chain `b` has 2 cells"),
])
def test_scan_data_of_groups_of_several_chains_are_warned_of(tmp_path: pathlib.Path, old: str, new: str, wanted: str) -> None:
    assert old in CHAINS
    found = told(tmp_path, CHAINS.replace(old, new))
    assert any(line.startswith(wanted) for line in found), found
    groups = CHAINS.replace("sa=#; sb=#; oa=#; ob=#;", "si=#; so=#;")
    assert any(line.startswith(wanted) for line in told(tmp_path, groups.replace(old, new)))


def test_a_vector_that_takes_the_first_character_of_a_group_is_warned_of(tmp_path: pathlib.Path) -> None:
    text = CHAINS.replace("Shift { V { ck=P; sa=#;", "V { ck=P; so=#; } Shift { V { ck=P; sa=#;").replace("sa=011; sb=01;", "sa=011; sb=01; so=XXXXXX;")
    found = [line for line in told(tmp_path, text) if "first scan character" in line]
    assert len(found) == 1 and "takes the first scan character of `so`, before the Shift does" in found[0] and "no cell of the chain `a`" in found[0]


def test_scan_data_of_groups_that_fit_are_not_warned_of(tmp_path: pathlib.Path) -> None:
    assert told(tmp_path, CHAINS) == []
    for front, back in (("sa=011; sb=01;", "si=001101;"), ("sa=011; sb=01;", "'sa + sb'=001101;"), ("oa=HLH; ob=HL;", "so=HHLLHX;")):
        assert told(tmp_path, CHAINS.replace(front, back)) == []
    many = CHAINS.replace("sb In { ScanIn; }", "sb In { ScanIn; } q[0..3] In;").replace("'sa + sb'", "'sa + q[0..3] + sb'").replace("si=00;", "si=000000;")
    fits = many.replace("sa=011; sb=01;", "si=000000000000000000;").replace("'se + si'", "'se + si'").replace("sa=#; sb=#;", "si=#;")
    assert not [line for line in told(tmp_path, fits) if "the data of `si`" in line]
    assert any("have 2 characters for each of its 6 signals" in line for line in told(tmp_path, fits.replace("si=000000000000000000;", "si=000000000000;")))


def test_waveforms_of_different_bits_are_no_second_ones(tmp_path: pathlib.Path) -> None:
    text = P1.replace("a In;", "a In; q[0..1] In;").replace("Waveforms {", "Waveforms {\n q[0] { 01 { '0ns' D/U; } } q[1] { 01 { '0ns' D/U; } }")
    assert told(tmp_path, text) == []
    again = told(tmp_path, text.replace("q[1] { 01", "q[1..0] { 01"))
    assert any("`q[0]` has a waveform of the character 0 on line 6 already" in line for line in again)


VECTOR = "V { a=0; y=H; }"
MANY = "".join(f"q{number} In;\n" for number in range(1030))
OUT_OF_RANGE = {
    "a loop of 0": (VECTOR, f"Loop 0 {{ {VECTOR} }}", "11:6: error: a Loop runs 1 to 281,474,976,710,656 times, and this one is to run 0 times (OutOfRange"),
    "a long loop": (VECTOR, f"Loop {'9' * 5000} {{ {VECTOR} }}", "11:6: error: a Loop runs 1 to 281,474,976,710,656 times"),
    "a period": ("'100ns'", "'2ms'", "4:8: error: a period is more than 0 and at most 1ms, and this one is '2ms'"),
    "no period": ("'100ns'", "'0'", "4:8: error: a period is more than 0 and at most 1ms, and this one is '0'"),
    "a repeat": (VECTOR, "V { a=\\r1048577 0; y=H; }", "11:7: error: a repeat is at most 1,048,576 times, and this one is \\r1048577"),
    "digits": ("'40ns'", f"'{'9' * 45}ns'", f"7:11: error: the number {'9' * 45} has more digits than can be counted with"),
    "decimals": ("'40ns'", f"'0.{'0' * 45}1ns'", "7:11: error: the number 0.000"),
    "signals at once": ("y Out;", "y Out; q[0..1023] In;", "2:24: error: a text has at most 1,024 signals, and here are 1,026"),
    "signals": ("y Out;", f"y Out;\n{MANY}", "1025:1: error: a text has at most 1,024 signals, and here are 1,025"),
    "events": ("L/H/X;", "L/H/X;" + "".join(f" '{41 + place}ns' X;" for place in range(17)), "7:"),
    "executives": ("PatternExec {", "".join(f"PatternExec e{number} {{ PatternBurst b; }}\n" for number in range(66)) + "PatternExec {",
                   "80:1: error: a text has at most 64 executives"),
}


@pytest.mark.parametrize("what", OUT_OF_RANGE)
def test_what_is_out_of_range_is_told_with_its_range(tmp_path: pathlib.Path, what: str) -> None:
    old, new, wanted = OUT_OF_RANGE[what]
    line, *_ = told(tmp_path, P1.replace(old, new, 1))
    assert line.startswith(wanted) and "(OutOfRange" in line, line
    assert what != "events" or "a waveform has at most 16 events, and this one has 18" in line


FIELDS = {
    "lot,256,9,8,,\n": "1:1: error: field 3 of this row (TRIES) is 9, and it goes from 1 to 8 (OutOfRange)",
    "lot,0,1,8,,\n": "1:1: error: field 2 of this row (B, the cycles of a batch) is 0, and it goes from 1 to 1,048,576 (OutOfRange)",
    "lot,256,1,1025,,\n": "1:1: error: field 4 of this row (F, the kept fails of a try) is 1025, and it goes from 0 to 1,024 (OutOfRange)",
    FRONT + "die,64,b,n.bench,,\n": "field 2 of this row (SITE) is 64, and it goes from 0 to 63",
    FRONT + "fault,0,a,G0,2,\n": "field 5 of this row (VALUE) is 2, and it goes from 0 to 1",
    FRONT + "fault,0,a,G0,1,9\n": "field 6 of this row (TRIES) is 9, and it goes from 1 to 8",
    FRONT + "stop,0,a,9,0,\n": "field 4 of this row (TRY) is 9, and it goes from 1 to 8",
    FRONT + f"stop,0,a,1,{'9' * 5000},\n": "field 5 of this row (BATCH) is 99999999999999999999..99999999999999999999, and it goes from 0 to",
    FRONT + "bin,pass,,100,,\n": "field 4 of this row (N, the bin) is 100, and it goes from 1 to 99",
    FRONT + "bin,fail,1,7,,\n": "field 3 of this row (E, an executive) is 1, and the program has 1, counted from 0",
    FRONT + "skew,0,G0,1000000000001,,\n": "field 4 of this row (FS) is 1000000000001, and it goes from -1,000,000,000,000 to 1,000,000,000,000",
    "lot,256,8,1024,,\n" + "".join(f"die,0,d{number},n.bench,,\n" for number in range(129)):
        "130:1: error: 129 dies times 8 tries times 1,024 kept fails are more than 1,048,576: lower TRIES or F in the first row",
    "lot,256,1,1,,\n" + "".join(f"die,0,d{number},n.bench,,\n" for number in range(4097)): "4098:1: error: a plan has at most 4,096 dies",
}


@pytest.mark.parametrize("text", FIELDS, ids=range(len(FIELDS)))
def test_a_field_of_a_plan_that_is_out_of_range_is_told_with_its_range(s27: Lot, tmp_path: pathlib.Path, text: str) -> None:
    plan = tmp_path / "fields.csv"
    plan.write_text(text.replace("n.bench", s27.bench))
    line, = lint_plan(str(plan), s27.stil)
    assert FIELDS[text] in line and line.endswith("(OutOfRange)"), line


def test_a_grade_of_a_good_die_that_fails_says_so_first(tmp_path: pathlib.Path, capsys: pytest.CaptureFixture[str]) -> None:
    grade = tmp_path / "grade"
    grade.write_text("good 3\nfault a 0 3\nfaults 1 found 1\n")
    assert main(["plot", "grade", str(grade), "-o", str(tmp_path / "g.svg")]) == 0
    assert "the good die fails from cycle 3 on" in capsys.readouterr().err and "the good die fails from cycle 3 on" in (tmp_path / "g.svg").read_text()
