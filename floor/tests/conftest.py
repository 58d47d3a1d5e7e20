"""What several tests stand on: the real program, the examples, and the ALU as a netlist with a learnt scan program."""

import os
import pathlib
import shutil
from dataclasses import dataclass

import pytest

from stilfloor import learn, netlist, plans, records, tester

TOP = pathlib.Path(__file__).resolve().parents[2]
DATA = pathlib.Path(__file__).resolve().parent / "data"
EXAMPLES = TOP / "examples"
# the texts that the program reads: those of other dialects stand beside them as they were
TEXTS = sorted(path for path in EXAMPLES.glob("**/*.stil") if not path.name.endswith(".before.stil"))

needs_yosys = pytest.mark.skipif(not shutil.which("yosys"), reason="yosys isn't there: netlists of Verilog are left out")
needs_iverilog = pytest.mark.skipif(not shutil.which("iverilog"), reason="iverilog isn't there: netlists beside simulation are left out")
CHROMIUM = shutil.which("chromium") or shutil.which("chromium-browser") or shutil.which("google-chrome")
needs_chromium = pytest.mark.skipif(not CHROMIUM, reason="chromium isn't there: the report in a browser is left out")


@dataclass
class Lot:
    """The files of a program: its folder, netlist, STIL text and plan."""

    folder: pathlib.Path
    bench: str
    stil: str
    plan: str

    def binding(self) -> list[list[str]]:
        """The rows that bind the program."""
        return plans.read_plan(self.plan).binding()

    def run(self, rows: list[list[str]], kept: int = 64, tries: int = 1, name: str = "test") -> tuple[str, str]:
        """Runs a lot of these rows behind the ones that bind; the names of its plan and its datalog."""
        plan = self.folder / f"{name}.csv"
        plan.write_text(plans.write_rows([["lot", "256", str(tries), str(kept)], *self.binding(), *rows]))
        status, output = tester.run(["lot", self.stil, str(plan)])
        assert status == 0, output
        datalog = self.folder / f"{name}.datalog"
        datalog.write_bytes(output)
        return str(plan), str(datalog)


def dies_of(path: str) -> list[records.Die]:
    """All dies of a datalog."""
    with records.datalog(path) as dies:
        return list(dies)


@pytest.fixture(scope="package", autouse=True)
def _program() -> None:
    """Says early where there is no program."""
    tester.find_program()
    os.environ.setdefault("MPLBACKEND", "agg")


@pytest.fixture
def s27(tmp_path: pathlib.Path) -> Lot:
    """The scan example of s27, in a folder of its own."""
    for name in ("s27scan.bench", "s27scan.stil"):
        shutil.copy(EXAMPLES / "s27scan" / name, tmp_path)
    bench, plan = str(tmp_path / "s27scan.bench"), tmp_path / "lot.csv"
    plan.write_text((EXAMPLES / "s27scan" / "lot.csv").read_text().replace("examples/s27scan/s27scan.bench", bench))
    return Lot(tmp_path, bench, str(tmp_path / "s27scan.stil"), str(plan))


@pytest.fixture(scope="package")
def made_alu(tmp_path_factory: pytest.TempPathFactory) -> Lot:
    """The ALU with two scan chains of unequal length, and values learnt from its good die."""
    if not shutil.which("yosys"):
        pytest.skip("yosys isn't there: netlists of Verilog are left out")
    folder = tmp_path_factory.mktemp("alu")
    _, (bench, stil, plan) = netlist.make(netlist.Start([str(DATA / "alu.v")], None, 2, 24), str(folder))
    learnt = folder / "learnt.stil"
    learnt.write_text(learn.learn(stil, plan).text, encoding="latin-1")
    return Lot(folder, bench, str(learnt), plan)
