"""Coverage: found sure, by an unknown level alone, refuted and open, against lots and by hand."""

import csv
import io
import json
import pathlib
import shutil

import pytest
from PIL import Image

from conftest import EXAMPLES, TOP, Lot, dies_of
from stilfloor import api
from stilfloor.cli import main
from stilfloor.coverage import count

COUNTER = [str(EXAMPLES / "counter" / "counter.stil"), str(EXAMPLES / "counter" / "lot.csv")]
needs_cadical = pytest.mark.skipif(not shutil.which("cadical"), reason="cadical isn't there: what is refuted is left out")


@pytest.fixture(autouse=True)
def _in_the_checkout(monkeypatch: pytest.MonkeyPatch) -> None:
    """The plans of the examples name their netlists from there."""
    monkeypatch.chdir(TOP)


def by_lots(tmp_path: pathlib.Path) -> dict[tuple[str, int], bool]:
    """For each fault of the counter whether a fail of its die shows a known level, by a lot of all of them with all fails."""
    faults = [(fault.net, fault.value) for fault in api.grade(*COUNTER).faults]
    rows = ["lot,256,1,1024,,", "clock,ck,,,,"]
    for number, (net, value) in enumerate(faults):
        rows += [f"die,0,d{number},examples/counter/counter.bench,,", f"fault,0,d{number},{net},{value},"]
    (tmp_path / "lot.csv").write_text("\n".join(rows) + "\n")
    (tmp_path / "datalog").write_bytes(api.tester.run(["lot", COUNTER[0], str(tmp_path / "lot.csv")])[1])
    return {fault: any(fail.seen in "01" for fail in die.tries[0].kept) for fault, die in zip(faults, dies_of(str(tmp_path / "datalog")))}


def test_what_an_unknown_level_alone_finds_is_told_apart(tmp_path: pathlib.Path, capsys: pytest.CaptureFixture[str]) -> None:
    sure = by_lots(tmp_path)
    assert list(sure.values()).count(False) == 2 and len(sure) == 28
    assert main(["coverage", *COUNTER, "--plot", str(tmp_path / "c.png")]) == 0
    lines = capsys.readouterr().out.split("\n")
    assert lines[0].startswith("faults 28: 26 found sure, 2 found by an unknown alone, 0 refuted, 0 open; 92.86 percent")
    assert lines[1].startswith("classes 23: 22 found sure, 1 found by an unknown alone, 0 refuted, 0 open; ")
    assert len({pixel for pixel in Image.open(tmp_path / "c.png").convert("RGB").getdata()}) > 20
    assert main(["coverage", *COUNTER, "--json"]) == 0
    told = json.loads(capsys.readouterr().out)
    assert {(fault["net"], fault["value"]): fault["state"] == "sure" for fault in told["faults"]} == sure
    assert told["counts"]["faults"] == {"sure": 26, "unknown": 2, "refuted": 0, "open": 0}
    assert main(["coverage", *COUNTER, "--csv", "-o", str(tmp_path / "c.csv")]) == 0
    rows = list(csv.DictReader(io.StringIO((tmp_path / "c.csv").read_text())))
    assert [row["net"] for row in rows[:3]] == ["rst", "rst", "en"] and rows[0]["cycle"] == "1"


@needs_cadical
def test_open_faults_have_a_reason(s27: Lot, capsys: pytest.CaptureFixture[str]) -> None:
    bench = pathlib.Path(s27.bench)
    bench.write_text(bench.read_text() + "INPUT(D)\nOUTPUT(Z)\nW = AND(D, G0)\nU = AND(W, V)\nV = NOT(D)\nZ = OR(U, G1)\n")
    assert main(["coverage", s27.stil, s27.plan]) == 0
    lines = capsys.readouterr().out.split("\n")
    opened = {line.split(":")[0]: line.split(": ", 1)[1] for line in lines if line.startswith("open ")}
    assert opened["open G0 0"] == "never set: the net is 1 nowhere where it is looked at"
    assert opened["open G1 0"] == "set and never seen: the net is 1 in cycle 3, and no look shows it"
    assert opened["open D 0"] == "never set: the net is unknown wherever it is looked at" if "open D 0" in opened else True
    assert "open U 0" not in opened and " refuted, " in lines[0] and ", 0 refuted, " not in lines[0]
    (s27.folder / "grade").write_bytes(api.tester.run(["grade", s27.stil, s27.plan])[1])
    assert main(["coverage", s27.stil, s27.plan, "--grade", str(s27.folder / "grade")]) == 0
    assert capsys.readouterr().out.split("\n") == lines


def test_where_the_good_die_fails_nothing_is_counted(tmp_path: pathlib.Path, capsys: pytest.CaptureFixture[str]) -> None:
    text = pathlib.Path(COUNTER[0]).read_text()
    (tmp_path / "bad.stil").write_text(text.replace("V { q=LLH; }", "V { q=LHH; }"))
    assert main(["coverage", str(tmp_path / "bad.stil"), COUNTER[1]]) == 1
    assert "the good die fails in cycle 2, so faults are found that aren't there, and nothing is counted" in capsys.readouterr().err


def test_a_grade_of_other_nets_and_a_plan_without_dies_are_refused(tmp_path: pathlib.Path, capsys: pytest.CaptureFixture[str]) -> None:
    assert main(["coverage", *COUNTER, "--grade", str(EXAMPLES / "s27scan" / "lot.grade")]) == 1
    assert "this grade is of other nets than those of examples/counter/counter.bench" in capsys.readouterr().err
    (tmp_path / "lot.csv").write_text("lot,256,1,8,,\nclock,ck,,,,\n")
    assert main(["coverage", COUNTER[0], str(tmp_path / "lot.csv")]) == 1 and "the plan has no die" in capsys.readouterr().err
    (tmp_path / "lot.csv").write_text("lot,256,1,8,,\nclock,ck,,,,\ndie,0,a,none.bench,,\n")
    assert main(["coverage", COUNTER[0], str(tmp_path / "lot.csv")]) == 3 and "none.bench" in capsys.readouterr().err


def test_without_a_solver_nothing_is_refuted(s27: Lot, monkeypatch: pytest.MonkeyPatch, capsys: pytest.CaptureFixture[str]) -> None:
    monkeypatch.setattr(count.shutil, "which", lambda name: None)
    assert main(["coverage", s27.stil, s27.plan]) == 0
    assert "no fault is refuted, as cadical isn't there\n" in capsys.readouterr().out
