"""Wrong rules that are put into `fit`: each is seen by a pair of texts, by a text in which it must stop, or by a lot."""

import pathlib
from collections.abc import Callable

import pytest

from fit_texts import PAIRS, STOPS
from stilfloor.fit import bodies, data, data_rules, fixed, scan
from stilfloor.fit.bodies import Bodies
from stilfloor.fit.signals import Names
from stilfloor.fit.tree import Statement, all_of
from stilfloor.fit.work import Work
from test_fit import S27, fails, fit, meant


def f_is_dropped(work: Work, names: Names, bodies_: Bodies) -> None:
    for body in bodies_.all:
        for statement in list(all_of(body.kids)):
            if work.keyword(statement) == "F":
                work.drop(statement, "wrong")


def e_is_dropped(work: Work, names: Names, bodies_: Bodies) -> None:
    for body in bodies_.all:
        for statement in list(all_of(body.kids)):
            if work.keyword(statement) == "E":
                work.drop(statement, "wrong")


def repeats_are_doubled(rules: data_rules.Rules, cursor: data_rules.Cursor, place: int, count: int) -> int:
    return RIGHT_REPEAT(rules, cursor, place, 2 * count)


def chains_are_padded_in_front(found: scan.Scan, body: bodies.Body, shift: scan.Shift) -> None:
    work = found.work
    if any(character == "#" for character in shift.before.values()):
        for _, call in body.callers:
            for part in work.assignments(call):
                if work.texts[part.start].strip('"') in ("so", "SO"):
                    work.insert(part.equals + 1, "X")


def a_block_is_played(work: Work, statement: Statement, keyword: str, constants: dict[str, str]) -> bool:
    if keyword == "BreakPoint" and statement.open >= 0:
        work.blank(statement.start, statement.open + 1)
        work.blank(statement.end, statement.end + 1)
        return False
    return RIGHT_KEPT(work, statement, keyword, constants)


def it_stops_at_joins(work: Work, rules: data_rules.Rules, parts: object, part: object) -> str:
    return "a"


RIGHT_REPEAT, RIGHT_KEPT = data._repeat, bodies._fit_kept
WRONG: dict[str, tuple[object, str, Callable[..., object], str]] = {
    "F dropped": (fixed, "fit_fixed", f_is_dropped, "fixed signals"),
    "a BreakPoint's block played": (bodies, "_fit_kept", a_block_is_played, "a BreakPoint's block"),
    "repeats doubled": (data, "_repeat", repeats_are_doubled, "repeats of several characters"),
    "the wrong end of a chain padded": (scan, "_quiet", chains_are_padded_in_front, "a look before a Shift"),
    "a stop where a rule holds": (data, "_shared", it_stops_at_joins, "joined data without a second assignment"),
}


@pytest.mark.parametrize("name", WRONG)
def test_a_wrong_rule_is_seen_by_a_pair(tmp_path: pathlib.Path, monkeypatch: pytest.MonkeyPatch, name: str) -> None:
    module, rule, wrong, pair = WRONG[name]
    before, after = (program.text() for program in PAIRS[pair])
    monkeypatch.setattr(module, rule, wrong)
    status, text = fit(tmp_path, before)
    assert status == 1 or text is not None and meant(tmp_path, text) != meant(tmp_path, after)


def test_an_e_that_is_dropped_unchecked_is_seen_by_a_text_that_must_stop(tmp_path: pathlib.Path, monkeypatch: pytest.MonkeyPatch) -> None:
    monkeypatch.setattr(fixed, "fit_tied", e_is_dropped)
    assert fit(tmp_path, STOPS["an E of which one signal alone is assigned"][0].text())[0] == 0


def test_the_wrong_end_of_a_chain_is_seen_by_a_lot(tmp_path: pathlib.Path, monkeypatch: pytest.MonkeyPatch) -> None:
    monkeypatch.setattr(scan, "_quiet", chains_are_padded_in_front)
    status, made = fit(tmp_path, (S27 / "8-preshift.stil").read_text())
    assert status == 0 and made is not None and fails(made, tmp_path) != [0, 2]
