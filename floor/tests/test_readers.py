"""Datalogs, grades and events: read and printed again they are the same, line by line and in bounded memory."""

import io
import pathlib
import tracemalloc
from collections.abc import Iterator

import pytest

from conftest import EXAMPLES, TEXTS, TOP
from stilfloor import records, saved, tester
from stilfloor.faults import Fault

DATALOGS = sorted(EXAMPLES.glob("*/*.datalog"))
GRADES = sorted(EXAMPLES.glob("*/*.grade"))


def printed(name: str) -> str:
    """A name as the program prints it."""
    return name if name and " " not in name else f'"{name}"'


def datalog_lines(dies: Iterator[records.Die]) -> Iterator[str]:
    site = None
    for die in dies:
        if die.site != site:
            yield f"site {die.site}"
        site = die.site
        yield f"die {die.name}"
        for attempt in die.tries:
            yield f"try {attempt.number} cycles {attempt.cycles} fails {attempt.fails}"
            for fail in attempt.kept:
                cell = f" {printed(fail.chain)} {printed(fail.cell)}" if fail.chain and fail.cell else ""
                yield f"fail {fail.cycle} {fail.at} {printed(fail.signal)} {fail.want} {fail.seen}{cell}"
            yield f"verdict {attempt.verdict}"
        yield f"bin {die.bin}"


@pytest.mark.parametrize("path", DATALOGS, ids=lambda path: path.stem + "-" + path.parent.name)
def test_a_datalog_is_read_whole(path: pathlib.Path) -> None:
    with records.datalog(str(path)) as dies:
        lines = list(datalog_lines(iter(dies)))
        lines += [f"total {number} {count}" for number, count in sorted(dies.totals.items())]
    assert "\n".join(lines) + "\n" == path.read_text()


@pytest.mark.parametrize("path", GRADES, ids=lambda path: path.parent.name)
def test_a_grade_is_read_whole(path: pathlib.Path) -> None:
    with records.grade(str(path)) as faults:
        lines = [f"fault {printed(fault.net)} {fault.value} {'none' if fault.cycle is None else fault.cycle}" for fault in faults]
        lines.insert(0, f"good {'none' if faults.good is None else faults.good}")
        lines.append(f"faults {faults.count} found {faults.found}")
    assert "\n".join(lines) + "\n" == path.read_text()


@pytest.mark.parametrize("path", TEXTS, ids=lambda path: path.stem)
def test_events_are_read_whole(path: pathlib.Path) -> None:
    output = tester.run(["events", str(path)])[1].decode()
    events = records.Events(io.StringIO(output), "events")
    lines: list[str] = []
    for cycle in events:
        lines += [f"exec {cycle.executive} {events.executives[cycle.executive] or '-'}"] if cycle.number == 0 else []
        lines.append(f"cycle {cycle.number} {cycle.start} {printed(cycle.table)}")
        for moment in cycle.moments:
            acts = [f"{printed(name)}={act}" for name, act in moment.drives] + [f"{printed(name)}?{act}" for name, act in moment.looks]
            lines.append(" ".join([f"at {moment.at}", *acts]))
    lines.append(f"end {events.cycles} {events.time}")
    assert "\n".join(lines) + "\n" == output


@pytest.mark.parametrize("path", TEXTS, ids=lambda path: path.stem)
def test_a_saved_program_is_read_as_its_cycles(path: pathlib.Path) -> None:
    code = saved.code_of(str(path))
    lines = []
    for number, executive in enumerate(code.executives):
        lines.append(f"exec {number} {executive.name or '-'}")
        start = 0
        for step in saved.steps(executive):
            for cycle in range(step.start, step.start + step.times):
                characters = "".join(chr(character) if character else "-" for character in code.rows[step.row])
                lines.append(f"{cycle} {start} {printed(code.tables[step.table].name)} {characters}")
                start += code.tables[step.table].period
    assert lines == tester.run(["cycles", str(path)])[1].decode().splitlines()[:-1]


def test_loops_of_a_saved_program_are_unrolled(tmp_path: pathlib.Path) -> None:
    text = (EXAMPLES / "p1.stil").read_text().replace("V { y=X; }", "Loop 3 { V { a=0; } Loop 2 { V { a=1; } V { y=X; } } }")
    path = tmp_path / "loops.stil"
    path.write_text(text)
    test_a_saved_program_is_read_as_its_cycles(path)
    assert saved.code_of(str(path)).executives[0].cycles == 17


def test_names_in_quotes_are_read() -> None:
    lines = ["site 0\n", "die a\"b\n", "try 1 cycles 1 fails 1\n", 'fail 0 5 "a b" L 1 "c 1" "u/f 1"\n', "verdict fail 0\n", "bin 2\n"]
    die, = records.Datalog(lines)
    assert die.name == 'a"b' and die.tries[0].kept == [records.Fail(0, 5, "a b", "L", "1", "c 1", "u/f 1")]
    cycle, = records.Events(["exec 0 -\n", 'cycle 0 0 "w 1"\n', 'at 0 "a b"=D a=b=U q?L\n', "end 1 5\n"])
    assert cycle.table == "w 1" and cycle.moments[0].drives == [("a b", "D"), ("a=b", "U")] and cycle.moments[0].looks == [("q", "L")]


@pytest.mark.parametrize("verdict, kind", [("stopped 3 plan", "stopped"), ("stopped 3 desk 2", "stopped"), ("contact 77", "contact"), ("pass", "pass")])
def test_each_verdict_is_read(verdict: str, kind: str) -> None:
    die, = records.Datalog(["site 3\n", "die d\n", "try 1 cycles 0 fails 0\n", f"verdict {verdict}\n", "bin 3\n", "total 3 1\n"])
    assert die.verdict.kind == kind and str(die.verdict) == verdict


@pytest.mark.parametrize("line, text", [
    (1, "refused stil Shape Pattern p 4\n"), (2, "site 0\ntry 1 cycles 0 fails 0\n"), (3, "site 0\ndie a\nfail 1 2 y L 1\n"),
    (4, "site 0\ndie a\ntry 1 cycles 1 fails 1\nfail 1 y L 1\n"), (4, "site 0\ndie a\ntry 1 cycles 1 fails 0\nverdict pa"),
    (3, "site 0\ndie a\ntry 1 cycles 1 fails 0\n"), (1, "site x\n"), (5, "site 0\ndie a\ntry 1 cycles 1 fails 0\nverdict pass\ndie b\n")])
def test_a_torn_or_foreign_datalog_is_refused_by_its_line(line: int, text: str) -> None:
    with pytest.raises(Fault) as refused:
        list(records.Datalog(io.StringIO(text), "lot.datalog"))
    assert (refused.value.file, refused.value.line, refused.value.status) == ("lot.datalog", line, 3)


@pytest.mark.parametrize("reader, text", [
    (records.Grade, "good none\nfault a 0 3\n"), (records.Grade, "fault a 0 3\n"), (records.Grade, "good none\nfault a 0\nfaults 1 found 0\n"),
    (records.Events, "exec 0 -\ncycle 0 0 w\nat 0 a=D\n"), (records.Events, "cycle 0 0 w\n"), (records.Events, "end 0 0\nexec 0 -\n")])
def test_torn_grades_and_events_are_refused(reader: type[records.Grade], text: str) -> None:
    with pytest.raises(Fault):
        list(reader(io.StringIO(text), "x"))


def test_a_long_datalog_goes_in_bounded_memory() -> None:
    def lines() -> Iterator[str]:
        yield "site 0\n"
        for number in range(200):
            yield f"die d{number}\n"
            yield "try 1 cycles 2000 fails 1024\n"
            for cycle in range(1024):
                yield f"fail {cycle} {cycle}40000000 SO1 L 1 c1 f{cycle % 7}\n"
            yield "verdict fail 0\n"
            yield "bin 2\n"

    tracemalloc.start()
    count = sum(len(die.tries[0].kept) for die in records.Datalog(lines()))
    peak = tracemalloc.get_traced_memory()[1]
    tracemalloc.stop()
    assert count == 200 * 1024 and peak < 4_000_000


def test_the_reader_is_a_module_for_other_programs() -> None:
    with records.datalog(str(TOP / "examples" / "s27scan" / "lot.datalog")) as dies:
        failing = [die.name for die in dies if die.verdict.kind == "fail"]
    assert failing == ["c"]
