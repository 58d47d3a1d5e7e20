"""What is read from files that others wrote: a refusal with its file and line, or nothing that is wrong, and never a traceback."""

import csv
import io
import pathlib
import subprocess
import xml.etree.ElementTree

import pytest

from conftest import EXAMPLES, TOP, Lot
from stilfloor import plans, records, saved
from stilfloor.cli import main
from stilfloor.faults import Fault

DIE = "site 0\ndie a\ntry 1 cycles 4 fails 1\nfail 3 340000000 y L 1\nverdict fail 0\nbin 2\ntotal 2 1\n"


@pytest.mark.parametrize("line, old, new", [
    (4, "fail 3 ", "fail -3 "), (4, "fail 3 ", "fail ² "), (4, "fail 3 ", f"fail {'9' * 5001} "), (4, "fail 3 ", "fail +3 "),
    (4, " 340000000 ", " 34_0 "), (4, " L 1", " L 7"), (4, " L 1", " U 1"), (4, " L 1", " L 1 c"), (4, " L 1", " L 1 c f6 f7"),
    (3, "cycles 4", "cycles -4"), (3, "fails 1", f"fails {'1' * 5001}"), (1, "site 0", "site -1"), (1, "site 0", "site ²"),
    (6, "bin 2", "bin -2"), (5, "fail 0\n", "fail ²\n"), (7, "total 2 1", "total 2 -1")])
def test_numbers_of_a_datalog_are_digits(tmp_path: pathlib.Path, capsys: pytest.CaptureFixture[str], line: int, old: str, new: str) -> None:
    file = tmp_path / "lot.datalog"
    file.write_text(DIE.replace(old, new, 1), encoding="latin-1")
    for words in (["plot", "lot", str(file)], ["plot", "fails", str(file)], ["export", str(file), "--csv"]):
        assert main([*words, "-o", str(tmp_path / "p.png")]) == 3
        assert capsys.readouterr().err.startswith(f"{file}:{line}:1: error: this is no datalog: ")


@pytest.mark.parametrize("text", ["good -1\nfaults 0 found 0\n", "good none\nfault a 0 ²\nfaults 1 found 1\n",
                                  f"good none\nfault a 0 {'9' * 5001}\nfaults 1 found 1\n"])
def test_numbers_of_a_grade_are_digits(tmp_path: pathlib.Path, capsys: pytest.CaptureFixture[str], text: str) -> None:
    file = tmp_path / "grade"
    file.write_text(text, encoding="latin-1")
    assert main(["plot", "grade", str(file), "-o", str(tmp_path / "p.png")]) == 3
    assert "this is no grade: " in capsys.readouterr().err


@pytest.mark.parametrize("number", ["²", "9" * 5001, "+1", " 1", "1_0", ""])
def test_numbers_of_a_plan_and_of_the_command_are_digits(s27: Lot, capsys: pytest.CaptureFixture[str], number: str) -> None:
    log = str(EXAMPLES / "s27scan" / "lot.datalog")
    plan = pathlib.Path(s27.plan)
    plan.write_text(plan.read_text().replace("lot,256,1,16", f"lot,256,1,{number}"), encoding="utf-8")
    assert main(["diagnose", s27.stil, s27.plan, log]) == 1
    assert capsys.readouterr().err.startswith(f"{plan}:1:1: error: ")
    with pytest.raises(SystemExit) as ended:
        main(["diagnose", s27.stil, s27.plan, log, f"--site={number}"])
    assert ended.value.code == 2


def test_a_field_of_any_length_is_read(tmp_path: pathlib.Path, capsys: pytest.CaptureFixture[str]) -> None:
    file = tmp_path / "lot.csv"
    file.write_text(f"lot,256,1,16,,\ndie,0,a,{'n' * 200_000},,\n")
    assert main(["lint", "--plan", str(file)]) == 1
    assert f"{file}:2:1: error: " in capsys.readouterr().out
    with pytest.raises(Fault):
        plans.read_rows("a," + "b" * (1 << 26), "lot.csv")


def test_names_with_dollars_and_control_characters_are_names_in_pictures(tmp_path: pathlib.Path) -> None:
    file = tmp_path / "lot.datalog"
    file.write_bytes(DIE.replace(" y L", ' "a$\\frac{$\x01--> b" L').encode())
    for ending in ("svg", "png", "pdf"):
        assert main(["plot", "fails", str(file), "-o", str(tmp_path / f"p.{ending}")]) == 0
    xml.etree.ElementTree.parse(tmp_path / "p.svg")


@pytest.mark.parametrize("data", [b"\xd7STP\x02\x00\x00\x00" + b"\xff" * 8, b"\xd7STP\x02\x00\x00\x00" + b"\xff" * 66, b"\xd7STP",
                                  b"\xd7STP\x07\x00" + b"\0" * 70])
def test_saved_programs_are_asked_of_the_program(tmp_path: pathlib.Path, capsys: pytest.CaptureFixture[str], data: bytes) -> None:
    file = tmp_path / "p.saved"
    file.write_bytes(data)
    assert main(["plot", "fails", str(EXAMPLES / "s27scan" / "lot.datalog"), "--program", str(file), "-o", str(tmp_path / "p.png")]) == 1
    assert capsys.readouterr().err.startswith(f"{file}:1:1: error: ")


def test_a_saved_program_that_is_one_is_read(s27: Lot, tmp_path: pathlib.Path) -> None:
    file = tmp_path / "p.saved"
    file.write_bytes(saved.bytes_of(s27.stil))
    assert saved.code_of(str(file)).executives[0].cycles == 7


def test_a_long_repeat_of_a_text_that_is_refused_is_not_written_out(s27: Lot, capsys: pytest.CaptureFixture[str]) -> None:
    text = pathlib.Path(s27.stil)
    text.write_text(text.read_text().replace('"_po"=L;', '"_po"=\\r99999999999 L ;'))
    assert main(["learn", s27.stil, s27.plan]) == 1
    assert f"{text}:" in capsys.readouterr().err


def test_cells_that_a_spreadsheet_would_run_are_guarded(tmp_path: pathlib.Path, capsys: pytest.CaptureFixture[str]) -> None:
    file = tmp_path / "lot.datalog"
    names = ["=1+1", "+1", "-1", "@a", "'a", "a=1"]
    file.write_text("site 0\n" + "".join(DIE.split("total")[0].removeprefix("site 0\n").replace("die a", f"die {name}").replace(" y L", f" {name} L")
                                         for name in names))
    for table in ("dies", "tries", "fails"):
        assert main(["export", str(file), "--csv", "--table", table]) == 0
        rows = list(csv.DictReader(io.StringIO(capsys.readouterr().out)))
        assert [row["die"] for row in rows] == ["'=1+1", "'+1", "'-1", "'@a", "''a", "a=1"]
    assert [row["signal"] for row in rows] == ["'=1+1", "'+1", "'-1", "'@a", "''a", "a=1"]


@pytest.mark.parametrize("words", ["diagnose examples/s27scan/s27scan.stil examples/s27scan/lot.csv examples/s27scan/lot.datalog",
                                   "export examples/s27scan/lot.datalog --csv", "lint --plan none.csv"])
def test_a_reader_that_goes_away_ends_the_command_quietly(words: str) -> None:
    done = subprocess.run(["sh", "-c", f"(floor/stilfloor {words}; echo $? >&3) 3>&2 | true"], cwd=TOP, capture_output=True, text=True, check=False)
    assert "Traceback" not in done.stderr and "Exception" not in done.stderr and "Broken pipe" not in done.stderr


def test_digits_are_those_of_the_program() -> None:
    assert records.digits("0") == 0 and records.digits("9" * 39)
    for word in ("", "-1", "+1", "²", " 1", "1 ", "1_0", "9" * 40):
        with pytest.raises(ValueError):
            records.digits(word)
