"""Texts of other dialects in the profile: pairs with texts made by hand, what has to stop, and the texts of the tools."""

import pathlib

import pytest

from conftest import DATA, EXAMPLES, TOP
from fit_texts import PAIRS, STOPS, V, Program
from measure_fit import heads, measure
from stilfloor import tester
from stilfloor.cli import main

DIALECTS = EXAMPLES / "dialects"
S27 = DATA / "fit" / "s27"
TOOLS = DATA / "fit" / "tools"


def fit(folder: pathlib.Path, text: str, *words: str) -> tuple[int, str | None]:
    """The status of `fit`, and what it wrote."""
    before, after = folder / "before.stil", folder / "after.stil"
    before.write_text(text, encoding="latin-1", newline="")
    after.unlink(missing_ok=True)
    status = main(["fit", str(before), "-o", str(after), *words])
    assert after.exists() == (status == 0) and not list(folder.glob(".fit-*"))
    return status, after.read_text(encoding="latin-1") if status == 0 else None


def meant(folder: pathlib.Path, text: str) -> list[bytes]:
    """What the program says of a text: its cycles and events."""
    file = folder / "asked.stil"
    file.write_text(text, encoding="latin-1", newline="")
    told = [tester.run([word, str(file)]) for word in ("cycles", "events")]
    assert [status for status, _ in told] == [0, 0], told
    return [output for _, output in told]


@pytest.mark.parametrize("name", PAIRS)
def test_a_text_means_the_same_as_one_made_by_hand(tmp_path: pathlib.Path, capsys: pytest.CaptureFixture[str], name: str) -> None:
    before, after = (program.text() for program in PAIRS[name])
    status, text = fit(tmp_path, before)
    told = capsys.readouterr().err
    assert status == 0 and text is not None, told
    assert text.count("\n") == before.count("\n")
    assert meant(tmp_path, text) == meant(tmp_path, after), text
    assert told.count(": fitted: ") >= 1
    assert fit(tmp_path, text) == (0, text)


@pytest.mark.parametrize("name", STOPS)
def test_it_stops_where_the_test_would_change(tmp_path: pathlib.Path, capsys: pytest.CaptureFixture[str], name: str) -> None:
    program, lines, words = STOPS[name]
    status, _ = fit(tmp_path, program.text())
    told = capsys.readouterr().err.splitlines()
    assert status == 1 and all(line.startswith(f"{tmp_path / 'before.stil'}:") and ":1: error: " in line for line in told), told
    assert sorted({int(line.removeprefix(f"{tmp_path / 'before.stil'}:").split(":")[0]) for line in told}) == lines, told
    assert any(words in line for line in told), told


STOPPED = {DIALECTS: {"modus": [49, 62], "tessent": [3, 43], "tetramax": []},
           TOOLS: {"modus": [29, 50, 61], "tessent": [13, 57, 86, 87, 88, 89, 90, 91, 93, 94], "tetramax": []}}


@pytest.mark.parametrize("tool", ["modus", "tessent", "tetramax"])
@pytest.mark.parametrize("folder", STOPPED, ids=["examples", "tools"])
def test_the_texts_of_the_tools_stop_where_those_by_hand_leave_out_what_the_test_hangs_on(
        tmp_path: pathlib.Path, capsys: pytest.CaptureFixture[str], folder: pathlib.Path, tool: str) -> None:
    lines = STOPPED[folder][tool]
    status, _ = fit(tmp_path, (folder / f"{tool}.before.stil").read_text())
    told = capsys.readouterr().err
    assert status == (1 if lines else 0)
    assert sorted({int(line.split(":")[1]) for line in told.splitlines() if ": error: " in line}) == lines


# what is mended by hand, as in the texts by hand: lines, and what stands in them
MENDED: dict[pathlib.Path, dict[str, dict[int, str]]] = {
    DIALECTS: {"modus": {49: "", 62: '  Macro "Scan_Load" { "SI"=000; "SO"=HHL; }'}, "tessent": {3: "", 43: ""}, "tetramax": {}},
    TOOLS: {"modus": {29: 'WaveformTable "WFT_dyn" { Period \'1e-8s\'; Waveforms { "CLK" { P { \'1ns\' U; \'3ns\' D; } } } }', 50: "",
                      58: "V { ALLPIS=010\\r3 1 ; ALLPOS=XX; }", 61: 'Macro "Scan_Load" { "SO"=HL\\r1 H ; "SI"=111; }'},
            "tessent": {13: "", 41: "WaveformTable tset_hs { InheritWaveformTable tset_gen_tp1; Period 'per*0.9'; Waveforms { clk { P "
                                    "{ InheritWaveform tset_gen_tp1.P; } } } }",
                        57: "", 85: "V { d[0..3]=\\h A; q[0..1]=\\l HL; clk=P; }", 86: "lab: V { d[0..3]=0011; }", 88: "", 89: "", 90: "",
                        87: "", 91: "", 93: "", 92: "", 94: ""},
            "tetramax": {}},
}


@pytest.mark.parametrize("tool", ["modus", "tessent", "tetramax"])
@pytest.mark.parametrize("folder", MENDED, ids=["examples", "tools"])
def test_the_texts_of_the_tools_mean_the_same_as_those_by_hand(tmp_path: pathlib.Path, folder: pathlib.Path, tool: str) -> None:
    lines = (folder / f"{tool}.before.stil").read_text().split("\n")
    for number, line in MENDED[folder][tool].items():
        lines[number - 1] = line
    status, made = fit(tmp_path, "\n".join(lines))
    assert status == 0 and made is not None
    assert meant(tmp_path, made) == meant(tmp_path, (folder / f"{tool}.after.stil").read_text())


def fails(text: str, folder: pathlib.Path) -> list[int]:
    """How many fails a text has on the good die and on the one with a stuck net."""
    (folder / "lot.stil").write_text(text, encoding="latin-1", newline="")
    status, output = tester.run(["lot", str(folder / "lot.stil"), str(S27 / "plan.csv")], str(TOP))
    assert status == 0, output
    return [int(line.rsplit(b" ", 1)[1]) for line in output.splitlines() if line.startswith(b"try")]


@pytest.mark.parametrize("file", sorted(S27.glob("*.stil")), ids=lambda file: file.name)
def test_fitted_texts_pass_on_the_good_die_and_find_the_stuck_net(tmp_path: pathlib.Path, file: pathlib.Path) -> None:
    if file.name.startswith("8"):
        assert fails(file.read_text(), tmp_path) == [4, 6]
    status, made = fit(tmp_path, file.read_text(), "--unit", "ns")
    assert status == 0 and made is not None
    assert fails(made, tmp_path) == [0, 2]


def test_included_files_stand_in_their_line(tmp_path: pathlib.Path, capsys: pytest.CaptureFixture[str]) -> None:
    program, by_hand = Program(head='Include "pins/g.inc" IfNeed SignalGroups;', pattern='Include "v.inc";\nV { pins=10; }'), Program(
        groups="pins = 'a + b';", pattern="V { a=1; b=1; }\nV { b=0; a=1; }")
    (tmp_path / "more" / "pins").mkdir(parents=True)
    (tmp_path / "more" / "pins" / "g.inc").write_text("STIL 1.0 { Design 2005; }\n// the pins\nSignalGroups more {\n  pins = 'a +\n b';\n}\n")
    (tmp_path / "v.inc").write_text("Ann {* two\nlines *}\nX \"tag\";\nInclude \"w.inc\"; // last\n")
    (tmp_path / "w.inc").write_text("\nV { pins=\\j 11; }")
    status, _ = fit(tmp_path, program.text())
    assert status == 1 and "pins/g.inc" in capsys.readouterr().err
    status, text = fit(tmp_path, program.text(), "--include", str(tmp_path / "more"))
    assert status == 0 and text is not None and text.count("\n") == program.text().count("\n")
    told = capsys.readouterr().err
    assert f"{tmp_path / 'v.inc'}:3: fitted: `X \"tag\";` dropped" in told and f"{tmp_path / 'w.inc'}:2: fitted: `\\j` dropped" in told
    assert meant(tmp_path, text) == meant(tmp_path, by_hand.text())
    (tmp_path / "w.inc").write_text("V { pins=11; } Goto x;\n")
    status, _ = fit(tmp_path, program.text(), "--include", str(tmp_path / "more"))
    assert status == 1 and f"{tmp_path / 'w.inc'}:1:1: error: " in capsys.readouterr().err
    for wrong in ("V { pins=11;", "Include \"w.inc\";", "V { a='1; }"):
        (tmp_path / "w.inc").write_text(wrong)
        assert fit(tmp_path, program.text(), "--include", str(tmp_path / "more"))[0] == 1


def test_times_without_a_unit_have_the_one_that_is_told(tmp_path: pathlib.Path) -> None:
    before = Program(period="'100'", spec="Category c { per = '100ns'; n = '2'; t = '1e1'; }",
                     waves="b { P { '0' D; 't*n' U; '20 + 5ns' D; e: 'min(30, 31)' U; '@e + 5' D; 'per/4*2' U; } }", pattern="V { b=P; }")
    after = Program(period="'100ns'", waves="b { P { '0ns' D; '20ns' U; '25ns' D; '30ns' U; '35ns' D; '50ns' U; } }", pattern="V { b=P; }")
    status, text = fit(tmp_path, before.text(), "--unit", "ns")
    assert status == 0 and text is not None and meant(tmp_path, text) == meant(tmp_path, after.text())
    assert fit(tmp_path, Program(period="'0.1'", pattern=V).text(), "--unit", "us")[0] == 0
    assert fit(tmp_path, before.text(), "--unit", "ps")[0] == 1


def test_what_stil_refuses_of_the_outcome_is_told_with_both_lines(tmp_path: pathlib.Path, capsys: pytest.CaptureFixture[str]) -> None:
    status, _ = fit(tmp_path, Program(pattern="X t;\nV { a=Q; }").text())
    line, = capsys.readouterr().err.splitlines()
    assert status == 1 and line.startswith(f"{tmp_path / 'before.stil'}:19:1: error: ")
    assert "(NoWave, in Pattern `p`)" in line and "`refused stil NoWave Pattern p 19`" in line
    status, _ = fit(tmp_path, "STIL 1.0;\nPattern p { V { a=1; }\n")
    line, = capsys.readouterr().err.splitlines()
    assert status == 1 and line.startswith(f"{tmp_path / 'before.stil'}:2:1: error: ") and "(OpenBlock" in line


def test_each_status_of_fit_has_its_cause(tmp_path: pathlib.Path, capsys: pytest.CaptureFixture[str]) -> None:
    good = tmp_path / "good.stil"
    good.write_text(Program(pattern=f"X t; {V}").text())
    assert main(["fit", str(tmp_path / "none.stil"), "-o", str(tmp_path / "x")]) == 3
    assert main(["fit", str(good), "-o", str(tmp_path / "none" / "x")]) == 3
    assert main(["fit", str(good), "-o", str(tmp_path)]) == 3
    assert main(["fit", str(good), "-o", str(good)]) == 1
    assert main(["fit", str(good), "-o", str(tmp_path / "x")]) == 0
    assert main(["fit", str(tmp_path / "x"), "-o", str(tmp_path / "y")]) == 0 and (tmp_path / "y").read_text() == (tmp_path / "x").read_text()
    (tmp_path / "saved").write_bytes(b"\xd7STP\x02")
    assert main(["fit", str(tmp_path / "saved"), "-o", str(tmp_path / "z")]) == 1
    (tmp_path / "empty").write_text("")
    assert main(["fit", str(tmp_path / "empty"), "-o", str(tmp_path / "z")]) == 1
    (tmp_path / "long").write_bytes(b" " * (1 << 24) + b" ")
    assert main(["fit", str(tmp_path / "long"), "-o", str(tmp_path / "z")]) == 1
    assert "Traceback" not in capsys.readouterr().err and not (tmp_path / "z").exists()


def test_lint_tells_what_fit_has_a_rule_for(tmp_path: pathlib.Path, capsys: pytest.CaptureFixture[str]) -> None:
    file = tmp_path / "t.stil"
    file.write_text(Program(head="UserKeywords Foo; Foo;", pattern="X t;\nV { bus=\\h A; }\nGoto t;").text())
    assert main(["lint", str(file)]) == 1
    lines = [line.removeprefix(f"{file}:") for line in capsys.readouterr().out.splitlines()]
    assert lines[0].startswith("18:1: error: ") and "(LeftOut, in Pattern `p`)" in lines[0]
    assert [line.split(": ")[0] + ": " + line.split(": ")[1] for line in lines[1:]] == ["18:1: note", "19:1: note", "20:1: error", "1:1: note"]
    assert lines[-1] == "1:1: note: 3 places, 2 that fit can take away, 1 that changes the test or has no rule"
    file.write_text(Program(pattern=V).text())
    assert main(["lint", str(file)]) == 0 and ": fit" not in capsys.readouterr().out
    file.write_text("STIL 1.0;\nSignals {")
    assert main(["lint", str(file)]) == 1 and len(capsys.readouterr().out.splitlines()) == 1


def test_a_bar_is_shown_on_a_terminal(tmp_path: pathlib.Path, capsys: pytest.CaptureFixture[str], monkeypatch: pytest.MonkeyPatch) -> None:
    monkeypatch.setattr("sys.stderr.isatty", lambda: True)
    assert fit(tmp_path, Program(pattern=f"X t; {V}").text())[0] == 0
    told = capsys.readouterr().err
    assert "] reading" in told and "] asking stil" in told and "\r[" in told and told.rstrip().rpartition("\r")[2].startswith(str(tmp_path))


@pytest.mark.parametrize("kind", heads())
def test_long_texts_are_fitted_in_little_time_and_memory(tmp_path: pathlib.Path, kind: str) -> None:
    # (a tenth of what may take twenty seconds and a GiB; measure_fit.py measures the whole)
    status, _, processor, memory = measure(kind, 1_000_000, str(tmp_path))
    assert status == 0 and processor < 8 and memory < 256
