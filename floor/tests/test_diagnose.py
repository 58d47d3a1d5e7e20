"""Suspects: each single stuck net that fails stands in the best class, and what is no single stuck net is told apart from one."""

import json
import pathlib
import random

import pytest

from conftest import EXAMPLES, Lot, dies_of
from stilfloor import dictionary, plans
from stilfloor.cli import main
from stilfloor.diagnose import Diagnosis, Doctor, diagnose
from stilfloor.dictionary import Suspect, nets_of
from stilfloor.faults import Fault


def found(lot: Lot, plan: str, datalog: str, jobs: int = 1) -> tuple[dict[str, Diagnosis], Doctor]:
    """The diagnoses of a datalog by the names of dies."""
    doctor = Doctor(lot.stil, plan, jobs)
    return {diagnosis.die: diagnosis for diagnosis in diagnose(doctor, iter(dies_of(datalog)), None, None)}, doctor


def every_stuck_net(lot: Lot) -> None:
    """Runs a lot with each stuck net, and looks for each that fails in its best class."""
    rows, suspects = [], {}
    for number, (net, value) in enumerate((net, value) for net in nets_of(lot.bench) for value in (0, 1)):
        rows += [["die", str(number % 4), f"d{number}", lot.bench], ["fault", str(number % 4), f"d{number}", net, str(value)]]
        suspects[f"d{number}"] = Suspect(net, value)
    plan, datalog = lot.run(rows)
    diagnoses, _ = found(lot, plan, datalog)
    failing = [die.name for die in dies_of(datalog) if die.verdict.kind == "fail"]
    assert sorted(failing) == sorted(diagnoses) and len(failing) > 30
    for name, diagnosis in diagnoses.items():
        assert diagnosis.exact and diagnosis.classes[0].score == 1.0 and suspects[name] in diagnosis.classes[0].members


def test_each_stuck_net_of_s27_stands_in_the_best_class(s27: Lot) -> None:
    every_stuck_net(s27)


def test_each_stuck_net_of_the_alu_stands_in_the_best_class(made_alu: Lot) -> None:
    every_stuck_net(made_alu)


def test_fails_that_are_not_kept_count_too(s27: Lot) -> None:
    plan, datalog = s27.run([["die", "0", "a", s27.bench], ["fault", "0", "a", "G0", "1"]], kept=1)
    diagnoses, _ = found(s27, plan, datalog)
    assert diagnoses["a"].fails == 3 and diagnoses["a"].exact and Suspect("G0", 1) in diagnoses["a"].classes[0].members


def test_a_skewed_site_is_told_apart_where_the_plan_does_not_know_it(made_alu: Lot) -> None:
    rows = [["die", str(site), f"d{site}{number}", made_alu.bench] for site in (0, 1) for number in range(3)]
    rows += [["fault", "0", "d00", "zero", "1"]]
    plan = made_alu.run(rows)[0]
    datalog = made_alu.run([*rows, ["skew", "1", "SO1", "20000000"]], name="skewed")[1]
    diagnoses, doctor = found(made_alu, plan, datalog)
    assert set(diagnoses) == {"d00", "d10", "d11", "d12"}
    assert diagnoses["d00"].sentence.startswith(("a stuck net", "a class of")) and Suspect("zero", 1) in diagnoses["d00"].classes[0].members
    for name in ("d10", "d11", "d12"):
        assert diagnoses[name].sentence == "no single stuck net explains it, and a signal moved at its site does"
        assert {member.net for member in diagnoses[name].classes[0].members} == {"SO1"}
    assert list(doctor.site_lines()) == ["site 1: all 3 dies fail alike, and at no other site: look at the site before its dies"]


def test_a_skewed_site_is_told_apart_where_the_plan_knows_it(made_alu: Lot) -> None:
    rows = [["die", "1", name, made_alu.bench] for name in ("a", "b")]
    plan, datalog = made_alu.run([*rows, ["fault", "1", "b", "zero", "1"], ["skew", "1", "SO1", "20000000"]])
    diagnoses, _ = found(made_alu, plan, datalog)
    assert diagnoses["a"].sentence == "a die without a stuck net fails like this at its site"
    assert diagnoses["b"].exact and Suspect("zero", 1) in diagnoses["b"].classes[0].members


def test_two_stuck_nets_are_said_to_be_no_single_one(made_alu: Lot) -> None:
    choice, nets = random.Random(5), nets_of(made_alu.bench)
    rows, pairs = [], {}
    for number in range(60):
        first, second = choice.sample(nets, 2)
        pairs[f"d{number}"] = [Suspect(first, number % 2), Suspect(second, number // 2 % 2)]
        rows.append(["die", "0", f"d{number}", made_alu.bench])
        rows += [["fault", "0", f"d{number}", suspect.net, str(suspect.value)] for suspect in pairs[f"d{number}"]]
    plan, datalog = made_alu.run(rows)
    diagnoses, doctor = found(made_alu, plan, datalog)
    made = doctor.dictionary(0, "d0")
    unexplained = [diagnosis for diagnosis in diagnoses.values() if not diagnosis.exact]
    assert len(unexplained) > 20
    near = 0
    for die in dies_of(datalog):
        if die.name in diagnoses:
            assert diagnoses[die.name].exact == (made.same(die.tries[0]) is not None)
            near += any(suspect in ranked.members for suspect in pairs[die.name] for ranked in diagnoses[die.name].classes)
    for diagnosis in unexplained:
        assert diagnosis.sentence.startswith("no single stuck net explains it") and all(ranked.score < 1 for ranked in diagnosis.classes)
    assert near > len(diagnoses) / 2


def test_a_die_that_passes_when_tried_again_is_not_failing(s27: Lot) -> None:
    rows = [["die", "0", "a", s27.bench], ["fault", "0", "a", "G9", "1", "1"], ["die", "0", "b", s27.bench], ["fault", "0", "b", "G9", "1"]]
    plan, datalog = s27.run(rows, tries=2)
    diagnoses, _ = found(s27, plan, datalog)
    assert set(diagnoses) == {"b"} and diagnoses["b"].attempt == 2


def test_a_dictionary_is_kept_by_the_sum_of_its_files(s27: Lot, monkeypatch: pytest.MonkeyPatch) -> None:
    plan, datalog = s27.run([["die", "0", "a", s27.bench], ["fault", "0", "a", "G9", "1"]])
    first, _ = found(s27, plan, datalog)
    kept = list(s27.folder.glob("*.faults.npz"))
    assert len(kept) == 1
    with monkeypatch.context() as patch:
        patch.setattr(dictionary, "_make", lambda *_: pytest.fail("it is made again"))
        again, _ = found(s27, plan, datalog)
    assert again["a"].plain() == first["a"].plain()
    text = pathlib.Path(s27.bench).read_text()
    pathlib.Path(s27.bench).write_text(text + "# another sum\n")
    found(s27, plan, datalog)
    assert len(list(s27.folder.glob("*.faults.npz"))) == 2


def test_a_dictionary_that_is_torn_is_made_again(s27: Lot, capsys: pytest.CaptureFixture[str]) -> None:
    plan, datalog = s27.run([["die", "0", "a", s27.bench], ["fault", "0", "a", "G9", "1"]])
    found(s27, plan, datalog)
    kept, = s27.folder.glob("*.faults.npz")
    kept.write_bytes(kept.read_bytes()[:100])
    assert found(s27, plan, datalog)[0]["a"].exact
    assert "made again" in capsys.readouterr().err


def test_parts_by_parallel_give_the_same_dictionary(s27: Lot, monkeypatch: pytest.MonkeyPatch) -> None:
    die = dictionary.Die(s27.stil, s27.bench, plans.read_plan(s27.plan), [], 16)
    many = dictionary._make(die, 3)
    monkeypatch.setattr(dictionary, "has_parallel", lambda: False)
    one = dictionary._make(die, 1)
    assert {frozenset(members) for members in many.members} == {frozenset(members) for members in one.members}


def test_parts_keep_to_the_limits_of_plans(s27: Lot, tmp_path: pathlib.Path) -> None:
    suspects = [Suspect(f"n{number}", 0) for number in range(9000)]
    sizes = {}
    for kept in (16, 256, 1024):
        die = dictionary.Die(s27.stil, s27.bench, plans.read_plan(s27.plan), [], kept)
        sizes[kept] = [len(some) for _, some in dictionary._stuck_parts(die, suspects, str(tmp_path), 1)]
    assert sizes[16] == sizes[256] == [4096, 4096, 808] and sizes[1024][0] == 1024 and sum(sizes[1024]) == 9000


def test_a_die_without_a_fault_that_fails_is_said_to_be_so(tmp_path: pathlib.Path) -> None:
    bench = str(EXAMPLES / "s27" / "s27.bench")
    stil = tmp_path / "s27.stil"
    stil.write_bytes((EXAMPLES / "s27" / "s27.stil").read_bytes())
    plan = tmp_path / "lot.csv"
    plan.write_text(f"lot,256,1,8,,\nclock,ck,,,,\ndie,0,d0,{bench},,\n")
    doctor = Doctor(str(stil), str(plan))
    diagnosis, = diagnose(doctor, iter(dies_of(str(EXAMPLES / "s27" / "lot.datalog"))), None, None)
    assert diagnosis.sentence == "a die without a stuck net fails like this at its site"


def test_the_word_takes_one_die_and_gives_json(s27: Lot, capsys: pytest.CaptureFixture[str]) -> None:
    datalog = str(EXAMPLES / "s27scan" / "lot.datalog")
    assert main(["diagnose", s27.stil, s27.plan, datalog, "--site", "2", "--die", "c"]) == 0
    assert capsys.readouterr().out.startswith(
        "site 2 die c try 1 fails 2: a stuck net explains it, and so does a signal moved at its site\n  1.000 SI stuck at 0, ")
    assert main(["diagnose", s27.stil, s27.plan, datalog, "--json"]) == 0
    told, = json.loads(capsys.readouterr().out)
    assert told["explained"] and {"kind": "stuck", "net": "G9", "value": 1} in told["classes"][0]["members"]
    assert main(["diagnose", s27.stil, s27.plan, datalog, "--die", "nobody"]) == 1
    assert "no such die" in capsys.readouterr().err


def test_a_plan_that_keeps_no_fails_is_refused(s27: Lot) -> None:
    plan = pathlib.Path(s27.plan)
    plan.write_text(plan.read_text().replace("lot,256,1,16", "lot,256,1,0"))
    with pytest.raises(Fault, match="keeps no fails"):
        Doctor(s27.stil, s27.plan)


def test_what_refuses_the_dictionary_is_told_of_the_files_given(s27: Lot) -> None:
    pathlib.Path(s27.bench).write_text("INPUT(a)\ny = MAYBE(a)\n")
    with pytest.raises(Fault) as refused:
        found(s27, s27.plan, str(EXAMPLES / "s27scan" / "lot.datalog"))
    assert (refused.value.file, refused.value.line) == (s27.bench, 2)
