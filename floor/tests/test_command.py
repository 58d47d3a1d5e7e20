"""The command: its help, its statuses, and its tables."""

import csv
import io
import json
import pathlib
import subprocess
import sys

import pytest

from conftest import EXAMPLES, TOP
from stilfloor import __version__, tester
from stilfloor.cli import main

LOG = str(EXAMPLES / "s27scan" / "lot.datalog")


@pytest.mark.parametrize("words", [["netlist"], ["learn"], ["diagnose"], ["plot"], ["plot", "lot"], ["plot", "fails"], ["plot", "grade"],
                                   ["plot", "events"], ["report"], ["export"], ["lint"], ["fit"], ["testbench"], ["server"], ["plan-time"],
                                   ["atpg"], ["from-vcd"], ["vectors"], ["coverage"]])
def test_each_word_has_help_with_an_example(words: list[str], capsys: pytest.CaptureFixture[str]) -> None:
    with pytest.raises(SystemExit) as ended:
        main([*words, "--help"])
    told = capsys.readouterr().out
    assert ended.value.code == 0 and f"example:\n  stil{'' if words == ['plot', 'grade'] else 'floor'}" in told and "exit status:" in told


def test_the_version_is_told(capsys: pytest.CaptureFixture[str]) -> None:
    with pytest.raises(SystemExit):
        main(["--version"])
    assert capsys.readouterr().out == f"stilfloor {__version__}\n"
    assert f'version = "{__version__}"' in (TOP / "floor" / "pyproject.toml").read_text()


@pytest.mark.parametrize("status, words", [
    (2, ["nothing"]), (2, ["lint"]), (3, ["plot", "lot", "none.datalog"]), (3, ["export", str(EXAMPLES / "p1.stil"), "--csv"]),
    (1, ["lint", "--plan", str(EXAMPLES / "p1.stil")]),
    (3, ["learn", "none.stil", "none.csv"]), (3, ["report", "none.stil", "none.csv", LOG, "-o", "x"])])
def test_each_status_has_its_cause(tmp_path: pathlib.Path, monkeypatch: pytest.MonkeyPatch, capsys: pytest.CaptureFixture[str],
                                   status: int, words: list[str]) -> None:
    monkeypatch.chdir(tmp_path)
    try:
        ended = main(words)
    except SystemExit as ending:
        ended = int(str(ending.code))
    told = capsys.readouterr()
    assert ended == status and "error:" in told.out + told.err


def test_a_program_that_is_missing_is_told(monkeypatch: pytest.MonkeyPatch, capsys: pytest.CaptureFixture[str]) -> None:
    monkeypatch.setenv("STIL", "/nowhere/stil")
    tester.find_program.cache_clear()
    try:
        assert main(["lint", str(EXAMPLES / "p1.stil")]) == 4
    finally:
        monkeypatch.undo()
        tester.find_program.cache_clear()
    assert "/nowhere/stil" in capsys.readouterr().err


def test_a_module_that_is_missing_is_told_by_its_package() -> None:
    script = f"import sys; sys.modules['numpy'] = None; from stilfloor.cli import main; sys.exit(main(['lint', {str(EXAMPLES / 'p1.stil')!r}]))"
    done = subprocess.run([sys.executable, "-c", script], env={"PYTHONPATH": str(TOP / "floor" / "src")}, capture_output=True, text=True, check=False)
    assert (done.returncode, done.stdout) == (4, "")
    assert done.stderr == "stilfloor: error: Python's numpy isn't there, and this needs it: `apt-get install python3-numpy`\n"


def test_a_datalog_becomes_tables(tmp_path: pathlib.Path, capsys: pytest.CaptureFixture[str]) -> None:
    assert main(["export", LOG, "--csv", "-o", str(tmp_path / "fails.csv")]) == 0
    fails = list(csv.DictReader(io.StringIO((tmp_path / "fails.csv").read_text())))
    assert fails[1] == {"site": "2", "die": "c", "try": "1", "cycle": "5", "at": "540000000", "signal": "SO", "want": "H", "seen": "0",
                        "chain": "c1", "cell": "f6"}
    for table, rows in (("dies", 4), ("tries", 4)):
        assert main(["export", LOG, "--csv", "--table", table, "-o", str(tmp_path / table)]) == 0
        assert len((tmp_path / table).read_text().splitlines()) == rows + 1
    assert main(["export", LOG, "--json", "-o", str(tmp_path / "json")]) == 0
    dies = json.loads((tmp_path / "json").read_text())
    assert [die["bin"] for die in dies] == [1, 1, 2, 1] and dies[2]["tries"][0]["kept"][0]["signal"] == "G17"


def test_standard_output_may_close_early() -> None:
    script = f"{TOP}/floor/stilfloor export {LOG} --json | head -c 5"
    done = subprocess.run(["sh", "-c", script], capture_output=True, text=True, check=False)
    assert done.stdout == "[\n{\"s" and "Traceback" not in done.stderr
