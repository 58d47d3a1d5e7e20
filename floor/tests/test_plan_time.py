"""How long a lot or a grade will take, held against what it takes."""

import os
import pathlib
import shutil
import subprocess

import pytest

from conftest import EXAMPLES, Lot
from stilfloor import plan_time, plans, tester
from stilfloor.cli import main


@pytest.fixture
def long_lot(s27: Lot) -> Lot:
    """A lot of eight dies at four sites, of which one has a stuck net and is tried twice, of a scan test with many loads."""
    text = pathlib.Path(s27.stil).read_text()
    place = text.index("Call", text.index("Pattern "))
    line = text[place : text.index("}", place) + 1] + "\n"
    calls = "".join(line for _ in range(12000))
    pathlib.Path(s27.stil).write_text(text[:place] + calls + text[place:])
    rows = [["lot", "256", "2", "0"], *s27.binding(), *([["die", str(k % 4), f"d{k}", s27.bench] for k in range(8)]), ["fault", "1", "d1", "G9", "1"]]
    pathlib.Path(s27.plan).write_text(plans.write_rows(rows))
    return s27


def test_a_lot_is_told_within_a_factor_of_two(long_lot: Lot) -> None:
    numbers, _, work = plan_time.estimate(long_lot.stil, long_lot.plan, False)
    assert (numbers.dies, numbers.tries, numbers.sites) == (8, 9, 4) and numbers.cycles > 30_000
    took, _ = plan_time.spent([tester.find_program(), "lot", long_lot.stil, long_lot.plan])
    assert took / 2 < work.begins + work.all < 2 * took + 0.2, took
    assert work.on(1) > work.on(2) > work.on(4) >= work.on(64) >= work.longest > 0


@pytest.mark.skipif(not os.access(plan_time.find_lots(), os.X_OK), reason="the program lots isn't there")
def test_a_grade_is_told_within_a_factor_of_two(long_lot: Lot) -> None:
    numbers, faults, work = plan_time.estimate(long_lot.stil, long_lot.plan, True)
    took, output = plan_time.spent([tester.find_program(), "grade", long_lot.stil, long_lot.plan])
    assert f"faults {faults} found" in output.decode() and list(numbers.gates.values()) == [23]
    assert took / 2 < work.begins + work.all < 2 * took + 0.2, took


def test_what_cannot_be_told_is_refused(tmp_path: pathlib.Path, capsys: pytest.CaptureFixture[str]) -> None:
    scan, plan = str(EXAMPLES / "s27scan" / "s27scan.stil"), tmp_path / "lot.csv"
    plan.write_text("lot,256,1,16,,\n")
    assert main(["plan-time", scan, str(plan)]) == 1
    assert capsys.readouterr().err == f"{plan}:1:1: error: the plan has no die; add a row `die,0,NAME,FILE,,`\n"
    plan.write_text("lot,256,1,16,,\ndie,0,d,none.bench,,\n")
    assert main(["plan-time", scan, str(plan)]) == 3
    shutil.copy(EXAMPLES / "s27scan" / "s27scan.bench", tmp_path / "n.bench")
    plan.write_text(f"lot,256,1,16,,\ndie,0,d,{tmp_path}/n.bench,,\n")
    assert main(["plan-time", scan, str(plan)]) == 1 and f"{plan}:1:1: error: the signal `CK` has no net" in capsys.readouterr().err
    with pytest.raises(SystemExit):
        main(["plan-time", scan, str(plan), "--processors", "0"])


def test_seconds_are_said_as_people_say_them() -> None:
    said = [plan_time.said(seconds) for seconds in (0.012, 3.21, 45.2, 110, 130, 1800, 8000, 90000)]
    assert said == ["0.01 seconds", "3.2 seconds", "45 seconds", "110 seconds", "2.2 minutes", "30 minutes", "2.2 hours", "25 hours"]


def test_the_tool_that_measures_a_machine_says_two_lines() -> None:
    top = EXAMPLES.parent
    done = subprocess.run([str(top / "tools" / "measure-here"), "--short", tester.find_program()], capture_output=True, text=True, check=False)
    lot, grade = done.stdout.splitlines()
    assert lot.startswith("lot: ") and "ns a gate and cycle" in lot and "ns a gate, cycle and fault" in grade and done.returncode == 0
