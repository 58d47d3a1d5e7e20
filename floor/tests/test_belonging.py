"""A datalog is held against the plan and the program that it is read with."""

import pathlib
import random

import pytest

from conftest import EXAMPLES, Lot
from stilfloor import plans, records, saved, tester
from stilfloor.belonging import Owner
from stilfloor.cli import main
from stilfloor.dictionary import nets_of
from stilfloor.faults import Fault

PAIRS = [(stil, plan) for plan in sorted(EXAMPLES.glob("*/*.csv")) for stil in sorted(plan.parent.glob("*.stil"))]


def held(stil: str, plan: str, datalog: str) -> int:
    """How many dies of a datalog are those of the plan and the program."""
    owner = Owner(plans.read_plan(plan), saved.code_of(stil))
    with records.datalog(datalog) as dies:
        return len(list(owner.held(dies)))


@pytest.mark.parametrize("pair", PAIRS, ids=lambda pair: f"{pair[0].parent.name}-{pair[0].stem}-{pair[1].stem}")
def test_each_lot_of_the_examples_is_its_own(tmp_path: pathlib.Path, pair: tuple[pathlib.Path, pathlib.Path]) -> None:
    status, output = tester.run(["lot", *map(str, pair)], str(EXAMPLES.parent))
    if status:
        pytest.skip("the program and the plan are none of each other")
    (tmp_path / "log").write_bytes(output)
    assert held(str(pair[0]), str(pair[1]), str(tmp_path / "log")) == output.count(b"\nbin ")


def lot_of_each_kind(alu: Lot, name: str) -> tuple[str, str]:
    """A lot with tries, stops, skews and many fails, of which some are kept."""
    choice, nets = random.Random(9), nets_of(alu.bench)
    rows = []
    for number in range(60):
        rows.append(["die", str(number * 5 % 7), f"d{number}", alu.bench])
        rows += [["fault", str(number * 5 % 7), f"d{number}", net, str(number % 2), choice.choice(["", "1"])] for net in choice.sample(nets, number % 3)]
    rows += [["stop", "2", "d6", "1", "0"], ["skew", "3", "SO1", "3000000"], ["skew", "4", "y[0]", "-2000000"]]
    return alu.run(rows, kept=20, tries=2, name=name)


def test_a_lot_with_tries_stops_and_skews_is_its_own(made_alu: Lot) -> None:
    plan, datalog = lot_of_each_kind(made_alu, "own")
    assert held(made_alu.stil, plan, datalog) == 60


def first_wrong_line(stil: str, plan: str, datalog: str) -> int:
    """The line at which a datalog is refused."""
    with pytest.raises(Fault) as refused:
        held(stil, plan, datalog)
    assert (refused.value.status, refused.value.file) == (1, datalog)
    return refused.value.line


def test_another_lot_is_refused_by_its_first_line(made_alu: Lot, tmp_path: pathlib.Path) -> None:
    plan, datalog = lot_of_each_kind(made_alu, "other")
    lines = pathlib.Path(datalog).read_text().split("\n")

    def changed(old: str, new: str, at: int = 0) -> tuple[int, int]:
        """The line that is changed, and the one that is refused."""
        number = next(place for place, line in enumerate(lines) if place >= at and line.startswith(old))
        file = tmp_path / "changed"
        file.write_text("\n".join([*lines[:number], *([lines[number].replace(old, new, 1)] if new else []), *lines[number + 1 :]]))
        return number + 1, first_wrong_line(made_alu.stil, plan, str(file))

    for old, new in (("die d7", "die d8"), ("try 1 cycles", "try 2 cycles"), ("try 1 cycles ", "try 1 cycles 9"), ("fail ", "fail 9"),
                     ("verdict fail 0", "verdict fail 1")):
        wanted, found = changed(old, new)
        assert found == wanted, (old, new)
    wanted, found = changed("site 1", "site 9")
    assert found == wanted + 1
    number = next(place for place, line in enumerate(lines) if len(line.split()) == 8)
    _, cycle, at, signal, want, seen, chain, cell = lines[number].split()
    other = {"L": "H", "H": "L"}[want]
    for fields in ([cycle, at, signal, want, seen, "c9", cell], [cycle, at, signal, want, seen, chain, "none"], [cycle, at, "none", want, seen],
                   [cycle, at, signal, other, seen, chain, cell], [cycle, at + "1", signal, want, seen, chain, cell], [cycle, at, "a[0]", want, seen]):
        file = tmp_path / "changed"
        file.write_text("\n".join([*lines[:number], " ".join(["fail", *fields]), *lines[number + 1 :]]))
        assert first_wrong_line(made_alu.stil, plan, str(file)) == number + 1, fields


def test_a_lot_of_more_or_fewer_dies_is_refused(made_alu: Lot) -> None:
    plan, datalog = lot_of_each_kind(made_alu, "more")
    rows = pathlib.Path(plan).read_text().split("\n")
    fewer = made_alu.folder / "fewer.csv"
    fewer.write_text("\n".join(row for row in rows if ",d59," not in row))
    more = made_alu.folder / "more dies.csv"
    more.write_text("\n".join(rows) + f"die,8,late,{made_alu.bench},,\n")
    lines = pathlib.Path(datalog).read_text().split("\n")
    assert lines[first_wrong_line(made_alu.stil, str(fewer), datalog) - 1] == "die d59"
    assert lines[first_wrong_line(made_alu.stil, str(more), datalog) - 1].startswith("total ")


def test_another_number_of_kept_fails_or_tries_is_refused(made_alu: Lot) -> None:
    plan, datalog = lot_of_each_kind(made_alu, "kept")
    text = pathlib.Path(plan).read_text()
    lines = pathlib.Path(datalog).read_text().split("\n")
    for new in ("lot,256,2,21,,", "lot,256,1,20,,", "lot,256,3,20,,"):
        other = made_alu.folder / "kept other.csv"
        other.write_text(text.replace("lot,256,2,20,,", new))
        assert lines[first_wrong_line(made_alu.stil, str(other), datalog) - 1].startswith("try ")


@pytest.mark.parametrize("word", ["diagnose", "report"])
def test_the_words_refuse_another_lot_and_another_program(made_alu: Lot, s27: Lot, capsys: pytest.CaptureFixture[str], tmp_path: pathlib.Path,
                                                          word: str) -> None:
    datalog = str(EXAMPLES / "s27scan" / "lot.datalog")
    more = ["-o", str(tmp_path / "r")] if word == "report" else []
    other, _ = made_alu.run([["die", "0", f"d{number}", made_alu.bench] for number in range(8)], name="eight")
    assert main([word, made_alu.stil, other, datalog, *more]) == 1
    told = capsys.readouterr()
    assert told.err.startswith(f"{datalog}:2:1: error: this can't be of the plan ") and not told.out and not (tmp_path / "r").exists()
    text = pathlib.Path(s27.stil)
    text.write_text(text.read_text().replace('"_po"=L;', '"_po"=X;'))
    assert main([word, s27.stil, s27.plan, datalog, *more]) == 1
    assert f"{datalog}:14:1: error: " in capsys.readouterr().err


def test_where_the_good_die_fails_that_is_said_first(s27: Lot, capsys: pytest.CaptureFixture[str]) -> None:
    text = pathlib.Path(s27.stil)
    text.write_text(text.read_text().replace('"SO"=HHL;', '"SO"=LHL;'))
    _, datalog = s27.run([["die", "0", "a", s27.bench], ["fault", "0", "a", "G9", "1"]], name="test")
    assert main(["diagnose", s27.stil, str(s27.folder / "test.csv"), datalog]) == 0
    assert capsys.readouterr().out.startswith("the good die of this program (")
