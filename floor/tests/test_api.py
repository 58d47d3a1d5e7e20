"""What the program says as plain data, and the course's notebook that uses it."""

import importlib.util
import json
import os
import pathlib
import shutil
import subprocess
import sys
from typing import Any

import pytest

from conftest import EXAMPLES, TOP
from stilfloor import api, tester
from stilfloor.faults import Fault

SCAN, PLAN = "examples/s27scan/s27scan.stil", "examples/s27scan/lot.csv"
NOTEBOOK = TOP / "docs" / "course.ipynb"
needs_pandas = pytest.mark.skipif(not importlib.util.find_spec("pandas"), reason="pandas isn't there: frames are left out")
HAS_NOTEBOOK = all(map(importlib.util.find_spec, ("pandas", "nbconvert", "ipykernel"))) and all(map(shutil.which, ("yosys", "iverilog", "cadical")))
needs_jupyter = pytest.mark.skipif(not HAS_NOTEBOOK, reason="one of pandas, nbconvert, ipykernel, yosys, iverilog and cadical isn't there: "
                                                            "the notebook is left out")


def test_what_the_program_says_is_data() -> None:
    checked = api.check(SCAN, TOP)
    assert checked == api.Checked(executives=1, cycles=7, rows=5, instructions=8, pages=1)
    cycles = api.cycles(pathlib.Path(SCAN), TOP)
    assert len(cycles.cycles) == checked.cycles and len(cycles.executives) == 1 and cycles.end == 700_000_000
    assert [cycle.start for cycle in cycles.cycles] == list(range(0, 700_000_000, 100_000_000))
    lot = api.lot(SCAN, PLAN, TOP)
    assert [die.bin for die in lot.dies] == [1, 1, 2, 1] and lot.totals == {1: 3, 2: 1}
    grade = api.grade(SCAN, PLAN, TOP)
    assert (grade.good, grade.found, len(grade.faults)) == (None, 41, 58) and round(grade.coverage, 2) == 0.71


@pytest.mark.parametrize("file", sorted(path for path in EXAMPLES.glob("*/*.stil") if ".before." not in path.name), ids=lambda path: path.name)
def test_the_cycles_are_those_that_are_printed(file: pathlib.Path) -> None:
    found = api.cycles(file)
    status, output = tester.run(["cycles", str(file)])
    lines = [line for line in output.decode().splitlines() if line[:1].isdigit()]
    assert status == 0 and [f"{cycle.number} {cycle.start}" for cycle in found.cycles] == [" ".join(line.split()[:2]) for line in lines]
    assert [cycle.characters for cycle in found.cycles] == [line.rsplit(" ", 1)[1] for line in lines]
    assert {cycle.executive for cycle in found.cycles} == set(range(len(found.executives)))


def test_what_is_refused_is_raised(tmp_path: pathlib.Path) -> None:
    (tmp_path / "bad.stil").write_text("STIL 1.0;\nSignals {\n")
    for asked in (api.check, api.cycles):
        with pytest.raises(Fault) as raised:
            asked("bad.stil", tmp_path)
        assert raised.value.file == "bad.stil" and raised.value.line == 2
    with pytest.raises(Fault, match="can't be read"):
        api.lot(SCAN, "none.csv", TOP)


@needs_pandas
def test_frames_have_a_row_for_each() -> None:
    assert list(api.cycles(SCAN, TOP).frame()["number"]) == list(range(7))
    lot = api.lot(SCAN, PLAN, TOP)
    assert list(lot.frame()["verdict"]) == ["pass", "pass", "fail", "pass"] and list(lot.fails()["cell"]) == [None, "f6"]
    frame = api.grade(SCAN, PLAN, TOP).frame()
    assert len(frame) == 58 and int(frame["cycle"].notna().sum()) == 41


def printed(notebook: pathlib.Path) -> list[str]:
    """What each cell of a notebook printed."""
    cells: list[dict[str, Any]] = json.loads(notebook.read_text())["cells"]
    return ["".join("".join(output.get("text", "")) for output in cell.get("outputs", [])) for cell in cells]


@needs_jupyter
def test_the_notebook_prints_what_stands_in_it(tmp_path: pathlib.Path) -> None:
    shutil.copy(NOTEBOOK, tmp_path)
    ran = subprocess.run([sys.executable, "-m", "nbconvert", "--to", "notebook", "--execute", "--ExecutePreprocessor.startup_timeout=240",
                          "--output", "ran", "course.ipynb"], cwd=tmp_path, capture_output=True, text=True, check=False,
                         env={**os.environ, "PYTHONPATH": str(TOP / "floor" / "src"), "STIL": tester.find_program(), "HOME": str(tmp_path)})
    assert ran.returncode == 0, ran.stderr
    assert printed(tmp_path / "ran.ipynb") == printed(NOTEBOOK) and any(printed(NOTEBOOK))
