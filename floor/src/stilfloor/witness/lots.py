"""Lots that lie somewhere: those of the examples, of folders with their words, and of the project's own worked cases."""

import contextlib
import pathlib
import tempfile
from collections.abc import Iterator
from dataclasses import dataclass, field

from stilfloor import tester
from stilfloor.faults import UNREADABLE, Fault
from stilfloor.testbench.lots import read_lot
from stilfloor.testbench.make import Wish
from stilfloor.witness.cases import lots_of
from stilfloor.witness.runs import Found, run_die


@dataclass(slots=True)
class LotWork:
    """A lot: its name, its program and plan, the folder in which it is run, and files that are put there first."""

    name: str
    program: str
    plan: str
    folder: str = ""
    files: dict[str, bytes] = field(default_factory=dict)


def of_examples() -> list[LotWork]:
    """The lots of the examples, by the files `words` beside them."""
    found = []
    for path in sorted((tester.CHECKOUT / "examples").glob("*/words")):
        lines = [line.split() for line in path.read_text().splitlines()]
        found += [LotWork(f"{words[2]} {words[3]}", words[2], words[3], str(tester.CHECKOUT)) for words in lines if words[1] == "lot"]
    return found


def of_cases(place: str) -> list[LotWork]:
    """The lots of a file of worked cases, or of the folders of a folder, each with its words in a file WORDS."""
    path = pathlib.Path(place)
    if path.is_dir():
        words = {folder: folder.joinpath("WORDS").read_text().split() for folder in sorted(path.iterdir()) if folder.joinpath("WORDS").exists()}
        return [LotWork(str(folder), some[1], some[2], str(folder)) for folder, some in words.items() if some[:1] == ["lot"]]
    if not path.is_file():
        raise Fault(UNREADABLE, "there is no file or folder of cases", place)
    return [LotWork(f"{path.name}: {case.title}", case.words[1], case.words[2], "", case.files) for case in lots_of(str(path))]


def run_lot(work: LotWork) -> list[Found]:
    """All dies of a lot."""
    with tempfile.TemporaryDirectory() as room:
        for name, data in work.files.items():
            pathlib.Path(room, name).write_bytes(data)
        with contextlib.chdir(work.folder or room):
            try:
                dies = list(read_lot(work.plan).dies)
            except Fault as fault:
                return [_refused(work, fault)]
            return [_run_one(work, site, name) for site, name in dies]


def _run_one(work: LotWork, site: int, name: str) -> Found:
    """One die of a lot."""
    with tempfile.TemporaryDirectory() as room:
        try:
            return run_die(f"{work.name} site {site} die {name}", Wish(work.program, work.plan, site, name), room)
        except Fault as fault:
            return _refused(work, fault)


def _refused(work: LotWork, fault: Fault) -> Found:
    """A refusal, which the program must make, too; anything else that went wrong is trouble as well."""
    status, output = tester.run(["lot", work.program, work.plan])
    printed = output.decode("latin-1").split("\n", 1)[0]
    return Found(work.name, is_refused=True, trouble="" if status else f"refused `{fault.told()}`, stil lot printed `{printed}`")


def open_lots(places: list[str]) -> Iterator[LotWork]:
    """The lots of several places."""
    for place in places:
        yield from of_cases(place)
