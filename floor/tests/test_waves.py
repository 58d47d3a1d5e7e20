"""Waves in the order of the text, with buses as values, looks beside what a die has seen; and shmoos beside lots of texts that are changed by hand."""

import pathlib
import shutil
import xml.etree.ElementTree

import numpy
import pytest
from matplotlib.image import imread

from conftest import EXAMPLES, Lot, dies_of
from stilfloor import plans, saved, shmoo, tester, waves
from stilfloor.cli import main
from stilfloor.faults import Fault
from stilfloor.wave_figure import FAILED, HELD, UNKNOWN, wave_figure

HOLD = EXAMPLES / "skew" / "hold.stil"
PLAN = EXAMPLES / "skew" / "lot.csv"


def gathered(alu: Lot, first: int, last: int) -> tuple[waves.Waves, saved.Code]:
    """The waves of the ALU's program."""
    code = saved.code_of(alu.stil)
    return waves.gather(waves.cycles_between(alu.stil, last, code), [name for _, name in code.signals], first), code


def test_signals_stand_in_the_order_of_the_text_and_buses_on_one_line(made_alu: Lot) -> None:
    found, code = gathered(made_alu, 0, 20)
    order = [name for _, name in code.signals]
    assert list(found.traces) == [name for name in order if name in found.traces] and len(found.traces) == len(order)
    rows = {row.name: row.signals for row in waves.rows_of(found)}
    assert rows["a[3..0]"] == ["a[3]", "a[2]", "a[1]", "a[0]"] and rows["y[4..0]"][0] == "y[4]" and rows["clk"] == ["clk"]
    assert len(waves.rows_of(found, True)) == len(order)
    assert (waves.value_of("11111"), waves.value_of("0101"), waves.value_of("01X"), waves.value_of("---")) == ("1f", "5", "01X", "-")


def test_what_is_driven_before_the_first_cycle_goes_on(made_alu: Lot) -> None:
    whole, late = gathered(made_alu, 0, 20)[0], gathered(made_alu, 12, 20)[0]
    assert late.first == 12 and late.starts == whole.starts[12:] and late.tables == whole.tables[12:]
    for name, trace in late.traces.items():
        if trace.drives:
            assert trace.drives[0] == (late.starts[0], [act for at, act in whole.traces[name].drives if at <= late.starts[0]][-1])
            assert trace.drives[1:] == [drive for drive in whole.traces[name].drives if drive[0] > late.starts[0]]
    assert {name for name, trace in whole.traces.items() if trace.drives} == {name for name, trace in late.traces.items() if trace.drives}


def test_the_values_of_a_bus_are_those_of_its_vectors(made_alu: Lot, tmp_path: pathlib.Path) -> None:
    out = tmp_path / "w.svg"
    assert main(["plot", "events", made_alu.stil, "--from", "8", "--to", "12", "-o", str(out)]) == 0
    text = out.read_text()
    code = saved.code_of(made_alu.stil)
    step = next(step for step in saved.steps(code.executives[0]) if step.start <= 8 < step.start + step.times)
    row = {name: chr(code.rows[step.row][number]) for number, (_, name) in enumerate(code.signals)}
    assert f"<!-- {int(''.join(row[f'a[{bit}]'] for bit in (3, 2, 1, 0)), 2):x} -->" in text
    assert "<!-- a[3..0] -->" in text and "<!-- 8 -->" in text and f"<!-- {code.tables[0].name} -->" in text and "<!-- a[0] -->" not in text
    assert main(["plot", "events", made_alu.stil, "--from", "8", "--to", "12", "--bits", "-o", str(out)]) == 0
    assert "<!-- a[0] -->" in out.read_text()


def failing(alu: Lot, kept: int = 64) -> str:
    """The datalog of a good die, and of one with `zero` stuck."""
    rows = [["die", "0", "good", alu.bench], ["die", "1", "bad", alu.bench], ["fault", "1", "bad", "zero", "1"]]
    return alu.run(rows, kept=kept, name=f"seen{kept}")[1]


def test_looks_stand_beside_what_a_die_has_seen(made_alu: Lot, tmp_path: pathlib.Path) -> None:
    found, code = gathered(made_alu, 0, 20)
    seen = waves.seen_in(failing(made_alu), code, None, None)
    assert seen.words.startswith("site 1, die bad, try 1, ")
    die = dies_of(failing(made_alu))[1]
    fails = {(fail.cycle, fail.signal): fail.seen for fail in die.tries[0].kept}
    for name, trace in found.traces.items():
        assert [seen.of(look, name) for look in trace.looks] == [fails.get((look.cycle, name), "") for look in trace.looks]
    figure = wave_figure(found, "t", seen)
    colours = {line.get_color() for line in figure.axes[0].lines}
    assert {FAILED, HELD} <= colours and UNKNOWN not in colours
    assert waves.seen_in(failing(made_alu), code, 0, None).fails == {}
    out = tmp_path / "w.svg"
    assert main(["plot", "events", made_alu.stil, "--datalog", failing(made_alu), "--die", "bad", "-o", str(out)]) == 0
    assert FAILED in out.read_text()


def test_what_is_not_known_of_a_die_has_a_colour_of_its_own(made_alu: Lot) -> None:
    found, code = gathered(made_alu, 0, 40)
    seen = waves.seen_in(failing(made_alu, 1), code, None, None)
    known = [[seen.of(look, name) for look in trace.looks if look.act in "LH" and look.cycle > seen.known] for name, trace in found.traces.items()]
    assert sum(map(len, known)) > 10 and {value for each in known for value in each} == {"?"}
    assert UNKNOWN in {line.get_color() for line in wave_figure(found, "t", seen).axes[0].lines}


def test_a_datalog_of_another_program_and_dies_that_are_not_there_are_refused(made_alu: Lot, capsys: pytest.CaptureFixture[str]) -> None:
    log = str(EXAMPLES / "s27scan" / "lot.datalog")
    assert main(["plot", "events", made_alu.stil, "--datalog", log]) == 1
    assert f"{log}:14:1: error: this can't be of the program: the program has no signal `G17`" in capsys.readouterr().err
    assert main(["plot", "events", made_alu.stil, "--datalog", failing(made_alu), "--die", "none"]) == 1
    assert "the datalog has no such die" in capsys.readouterr().err
    assert main(["plot", "events", made_alu.stil, "--die", "none"]) == 2


def test_a_picture_of_waves_has_no_blank_third(made_alu: Lot, tmp_path: pathlib.Path) -> None:
    for first in ("0", "10"):
        out = tmp_path / "w.png"
        assert main(["plot", "events", made_alu.stil, "--from", first, "-o", str(out)]) == 0
        inked = imread(str(out))[:, :, :3].min(axis=2) < 0.9
        for blank in (inked.any(axis=1), inked.any(axis=0)):
            runs = numpy.diff(numpy.flatnonzero(numpy.concatenate(([True], blank, [True]))))
            assert runs.max() < len(blank) / 12


def changed(period: int, strobe: int) -> str:
    """The text of the example with another period and another time of its look, in picoseconds."""
    text = HOLD.read_text()
    for time in ("20ns", "50ns", "40ns", "100ns"):
        text = text.replace(f"'{time}'", f"'@{int(time[:-2]) * period // 100}ps'")
    return text.replace("'80ns'", f"'@{strobe}ps'").replace("@", "")


def test_a_shmoo_is_that_of_texts_changed_by_hand(tmp_path: pathlib.Path, monkeypatch: pytest.MonkeyPatch) -> None:
    monkeypatch.chdir(EXAMPLES.parent)
    periods, strobes = [60, 100, 130], [0, 45, 60, 65, 110]
    made = shmoo.run(str(HOLD), str(PLAN), [one * 10**6 for one in periods], [one * 10**6 for one in strobes], (None, None))
    kinds = set()
    for row, strobe in zip(made.cells, strobes):
        for cell, period in zip(row, periods):
            file = tmp_path / "t.stil"
            file.write_text(changed(period * 1000, strobe * 1000))
            output = tester.run(["lot", str(file), str(PLAN)])[1]
            if output.startswith(b"refused"):
                assert cell.broken and cell.broken in output.decode()
            else:
                assert not cell.broken and (cell.passing, cell.dies) == (output.count(b"verdict pass"), output.count(b"\nbin ")) and cell.dies == 3
            kinds.add((bool(cell.broken), cell.passing))
    assert kinds == {(True, 0), (False, 0), (False, 1), (False, 3)}


def test_a_shmoo_of_one_site_shows_its_skew_and_says_what_it_cannot_show(tmp_path: pathlib.Path, monkeypatch: pytest.MonkeyPatch,
                                                                         capsys: pytest.CaptureFixture[str]) -> None:
    monkeypatch.chdir(EXAMPLES.parent)
    out = tmp_path / "s.svg"
    words = ["plot", "shmoo", str(HOLD), str(PLAN), "--period", "110ns..130ns/5ns", "-o", str(out)]
    assert main([*words, "--site", "1"]) == 0
    limit = "dies have no delays: what shows is edges, windows and skews of sites alone"
    assert capsys.readouterr().err == f"2 of 5 pass; {limit}\n" and limit in out.read_text()
    assert main([*words, "--die", "plain"]) == 0
    assert capsys.readouterr().err == f"5 of 5 pass; {limit}\n"
    assert xml.etree.ElementTree.parse(out).getroot().tag.endswith("svg")
    assert main([*words, "--die", "none"]) == 1 and "the plan has no such die" in capsys.readouterr().err


def test_texts_of_several_tables_keep_their_proportions(tmp_path: pathlib.Path) -> None:
    pipe = EXAMPLES / "two_timings" / "pipe.stil"
    timing = shmoo.timing_of(str(pipe))
    assert (timing.period, timing.strobe, timing.table, timing.looking) == (10**8, 4 * 10**7, "slow", "slow")
    (tmp_path / "t.stil").write_text(timing.written(2 * 10**8, 8 * 10**7))
    code, twice = saved.code_of(str(pipe)), saved.code_of(str(tmp_path / "t.stil"))
    assert [table.period * 2 for table in code.tables] == [table.period for table in twice.tables]
    for one, other in zip(code.tables, twice.tables):
        assert {key: [(2 * at, act) for at, act in events] for key, events in one.waves.items()} == other.waves


def test_times_out_of_their_range_are_a_place_of_the_picture(monkeypatch: pytest.MonkeyPatch) -> None:
    monkeypatch.chdir(EXAMPLES.parent)
    made = shmoo.run(str(HOLD), str(PLAN), [0, 10**8, 2 * 10**12], [], (None, None))
    assert [cell.broken for cell in made.cells[0]] == ["OutOfRange", "", "OutOfRange"]


NOT_PLAIN = {
    "Period '100ns';": ("Period 'per';", 5, "`'per'` is no number with its unit"),
    "'80ns' L/H/X;": ("'40ns + 40ns' L/H/X;", 9, "`'40ns + 40ns'` is no number with its unit"),
    "LHX { '80ns' L/H/X; }": ("LHX { '80ns' L/H/D; }", 9, "an event drives by one character and looks by another"),
    "'20ns' D;": ("'slow' D;", 7, "`'slow'` is no number with its unit"),
}


@pytest.mark.parametrize("old", NOT_PLAIN)
def test_texts_that_are_not_plain_are_refused_by_their_line(tmp_path: pathlib.Path, old: str) -> None:
    new, line, why = NOT_PLAIN[old]
    file = tmp_path / "t.stil"
    file.write_text(HOLD.read_text().replace(old, new))
    with pytest.raises(Fault) as told:
        shmoo.timing_of(str(file))
    assert told.value.told() == f"{file}:{line}:1: error: a shmoo needs times that it can change: {why}"


@pytest.mark.parametrize("text, why", [
    ("80..120/5", "isn't"), ("80ns..120ns", "isn't"), ("120ns..80ns/5ns", "A is at most B"), ("1ns..2ns/0ns", "above 0"), ("0ns..1us/1ns", "at most 64 steps"),
    ("0.5fs..9fs/1fs", "whole femtoseconds"), ("$(touch RUN)", "isn't")])
def test_ranges_that_are_none_are_refused(text: str, why: str, capsys: pytest.CaptureFixture[str]) -> None:
    assert main(["plot", "shmoo", str(HOLD), str(PLAN), "--period", text]) == 2
    told = capsys.readouterr().err
    assert why in told and "--period" in told and told.count("\n") == 1


def test_a_saved_program_and_a_program_that_is_refused_have_no_shmoo(tmp_path: pathlib.Path, capsys: pytest.CaptureFixture[str],
                                                                     monkeypatch: pytest.MonkeyPatch) -> None:
    monkeypatch.chdir(EXAMPLES.parent)
    (tmp_path / "p.saved").write_bytes(tester.run(["save", str(HOLD)])[1])
    assert main(["plot", "shmoo", str(tmp_path / "p.saved"), str(PLAN), "--strobe", "1ns..2ns/1ns"]) == 1
    assert "this is a saved program" in capsys.readouterr().err
    shutil.copy(PLAN, tmp_path / "lot.csv")
    (tmp_path / "lot.csv").write_text(PLAN.read_text() + "bind,nowhere,x,,,\n")
    assert main(["plot", "shmoo", str(HOLD), str(tmp_path / "lot.csv"), "--strobe", "1ns..2ns/1ns"]) == 1
    assert f"{tmp_path / 'lot.csv'}:8:1: error: " in capsys.readouterr().err
    assert main(["plot", "shmoo", str(HOLD), str(PLAN)]) == 2 and plans.read_plan(str(PLAN)).kept == 8
