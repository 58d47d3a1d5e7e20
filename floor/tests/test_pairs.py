"""Two stuck nets: where no single one explains a die, both stand in the told pairs, and each told pair's die has the very fails."""

import json
import pathlib
import random
from itertools import product

import numpy
import pytest

from conftest import Lot, dies_of
from stilfloor import chains, pairs, plans, records, saved
from stilfloor.chain_tests import breaking
from stilfloor.chains import Chains, looks_of
from stilfloor.cli import main
from stilfloor.diagnose import Doctor
from stilfloor.dictionary import Die, Suspect, nets_of

DIES = 12


def doubles(alu: Lot, count: int) -> tuple[str, str, dict[str, tuple[Suspect, Suspect]]]:
    """A lot of dies with two nets stuck, drawn at random: its plan, its datalog, and what is stuck."""
    choice, nets = random.Random(11), nets_of(alu.bench)
    rows, twos = [], {}
    for number in range(count):
        first, second = choice.sample(nets, 2)
        twos[f"d{number}"] = Suspect(first, choice.randrange(2)), Suspect(second, choice.randrange(2))
        rows.append(["die", "0", f"d{number}", alu.bench])
        rows += [["fault", "0", f"d{number}", suspect.net, str(suspect.value)] for suspect in twos[f"d{number}"]]
    return *alu.run(rows, kept=512, name="doubles"), twos


def lines_of(alu: Lot, twos: list[tuple[Suspect, Suspect]]) -> list[list[str]]:
    """The lines that `stil lot` prints of dies with these nets stuck, from the try on."""
    rows = []
    for number, two in enumerate(twos):
        rows.append(["die", "0", f"p{number}", alu.bench])
        rows += [["fault", "0", f"p{number}", suspect.net, str(suspect.value)] for suspect in two]
    text = pathlib.Path(alu.run(rows, kept=512, name="told")[1]).read_text()
    return [part.split("\n")[1:] for part in text.split("\ntotal")[0].split("die p")[1:]]


def test_both_nets_stand_in_the_told_pairs_and_each_has_the_very_fails(made_alu: Lot) -> None:
    plan, datalog, twos = doubles(made_alu, 5 * DIES)
    doctor = Doctor(made_alu.stil, plan, 2, most_pairs=DIES)
    found, told = 0, 0
    seen = [(die, doctor.see(die)) for die in dies_of(datalog)]
    unexplained = [(die, diagnosis) for die, diagnosis in seen if diagnosis and diagnosis.pairs]
    assert len(unexplained) >= DIES
    for die, diagnosis in unexplained:
        assert diagnosis.pairs and not diagnosis.exact
        every = [two for pair in diagnosis.pairs.pairs for two in product(pair.first, pair.second)]
        assert len(every) == diagnosis.pairs.count <= diagnosis.pairs.tried and diagnosis.explained == bool(every)
        first, second = twos[die.name]
        found += (first, second) in every or (second, first) in every
        text = pathlib.Path(datalog).read_text().split(f"die {die.name}\n")[1].split("\nbin")[0].split("\n")
        for lines in lines_of(made_alu, every[:40]) if every else []:
            told += 1
            assert lines[: len(text)] == text
    assert found >= 0.6 * len(unexplained) and told > DIES


def test_the_word_tells_pairs_with_their_number(made_alu: Lot, capsys: pytest.CaptureFixture[str]) -> None:
    rows = [["die", "0", "d", made_alu.bench], ["fault", "0", "d", "n_17", "0"], ["fault", "0", "d", "n_30", "1"]]
    plan, datalog = made_alu.run(rows, name="one")
    assert main(["diagnose", made_alu.stil, plan, datalog]) == 0
    out = capsys.readouterr().out.split("\n")
    assert "no single stuck net explains it, and 1 of " in out[0] and "pairs of stuck nets does; then come the nearest classes" in out[0]
    assert out[1] in ("  n_17 stuck at 0 with n_30 stuck at 1", "  n_30 stuck at 1 with n_17 stuck at 0")
    assert main(["diagnose", made_alu.stil, plan, datalog, "--json"]) == 0
    die, = json.loads(capsys.readouterr().out)
    nets = {member["net"] for group in ("first", "second") for member in die["pairs"][0][group]}
    assert nets == {"n_17", "n_30"} and die["explained"] and die["pairs_tried"] > 100
    assert main(["diagnose", made_alu.stil, plan, datalog, "--pairs", "0"]) == 0
    assert "no single stuck net explains it, and these come nearest" in capsys.readouterr().out


def test_pairs_are_grouped_so_that_each_goes_with_each() -> None:
    first, second = [Suspect(f"a{number}") for number in range(3)], [Suspect(f"b{number}") for number in range(3)]
    some = [two for two in product(first, second) if two != (first[0], second[2])]
    found = list(pairs._grouped(some))
    assert len(found) == 2 and {two for pair in found for two in product(pair.first, pair.second)} == set(some)


def test_what_leaves_a_chain_tells_where_it_is_broken(made_alu: Lot) -> None:
    """Each net of a chain's own, stuck: the chain is told, at or before the cell behind it, and a reset that is stuck breaks none."""
    code = saved.code_of(made_alu.stil)
    every = Chains(looks_of(code))
    die = Die(made_alu.stil, made_alu.bench, plans.read_plan(made_alu.plan), [], 512)
    wanted = {}
    for chain in code.executives[0].chains:
        for place, cell in enumerate(chain.cells[1:], 1):
            wanted[Suspect(f"{cell}_shift", 0)] = chain.name, cell, place
    suspects = [*wanted, Suspect("rst", 1)]
    rows = [row for number, suspect in enumerate(suspects)
            for row in (["die", "0", f"d{number}", made_alu.bench], ["fault", "0", f"d{number}", suspect.net, str(suspect.value)])]
    dies = dies_of(made_alu.run(rows, kept=512, name="chains")[1])
    told = 0
    for suspect, made in zip(suspects, dies):
        found = every.broken(made.tries[0])
        if suspect.net == "rst":
            assert len(found) == 2 and not any(breaking(die, code, broken, [suspect]) for broken in found)
            continue
        name, cell, place = wanted[suspect]
        cells = next(chain.cells for chain in code.executives[0].chains if chain.name == name)
        for broken in found:
            assert broken.chain == name and cells.index(broken.before) >= place and breaking(die, code, broken, [suspect]) == [suspect]
            told += broken.before == cell
    assert told > 8


def test_of_programs_with_too_many_looks_no_chain_is_told(made_alu: Lot, monkeypatch: pytest.MonkeyPatch) -> None:
    monkeypatch.setattr(chains, "MOST_LOOKS", 100)
    assert looks_of(saved.code_of(made_alu.stil)) == []


def test_a_die_that_fails_at_a_cell_alone_breaks_no_chain(made_alu: Lot) -> None:
    code = saved.code_of(made_alu.stil)
    every = Chains(looks_of(code))
    looks = every.looks[0]
    fails = [records.Fail(int(cycle), 0, looks.out, "L", "1", looks.chain.name, looks.chain.cells[0])
             for cycle, cell, want in zip(looks.cycles, looks.cells, looks.wanted) if cell == 0 and want == 0]
    assert every.broken(records.Try(1, 0, len(fails), fails)) == [] and len(fails) > 3
    assert numpy.all(numpy.diff(looks.cycles) > 0)


def test_a_chain_is_told_beside_pairs_where_more_is_wrong(made_alu: Lot, capsys: pytest.CaptureFixture[str]) -> None:
    rows = [["die", "0", "d", made_alu.bench], ["fault", "0", "d", "left[2]_shift", "0"], ["fault", "0", "d", "n_17", "0"]]
    plan, datalog = made_alu.run(rows, kept=512, name="both")
    assert main(["diagnose", made_alu.stil, plan, datalog]) == 0
    out = capsys.readouterr().out
    assert "chain c1 at or before left[2]: of the cells before it nothing but 0 leaves the chain" in out
