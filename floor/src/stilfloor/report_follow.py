"""The parts of a lot that are there so far, in the working folder of a farm (docs/farm.md)."""

import copy
import json
import os
from collections.abc import Iterable, Iterator
from dataclasses import dataclass

from stilfloor import plans, records
from stilfloor.belonging import Owner
from stilfloor.faults import REFUSED, UNREADABLE, Fault

MOST_PARTS = 4096


class PartLog(records.Datalog):
    """The datalog of a part, with the sites of the whole in place of the part's own."""

    def __init__(self, lines: Iterable[str], file: str, sites: list[int]) -> None:
        super().__init__(lines, file)
        self.sites = sites

    def __iter__(self) -> Iterator[records.Die]:
        for die in super().__iter__():
            if die.site >= len(self.sites):
                raise self.refuse(f"the part has {len(self.sites)} sites, and here is site {die.site}")
            die.site = self.sites[die.site]
            yield die


@dataclass(slots=True)
class Farm:
    """A working folder, how many parts the lot has there, and the sites with dies of its plan."""

    folder: str
    parts: int
    sites: list[int]

    def there(self) -> list[int]:
        """The parts that are done."""
        return [number for number in range(1, self.parts + 1) if _word(os.path.join(self.folder, str(number), "status")) == "0"]

    def dies(self, number: int, owner: Owner) -> Iterator[records.Die]:
        """The dies of a part, as long as they can be those of the plan and the program."""
        sites = self.sites[number - 1 :: self.parts]
        mine = copy.copy(owner)
        mine.dies = [die for die in owner.dies if die.site in sites]
        file = os.path.join(self.folder, str(number), "text")
        with records.opened(file) as lines:
            yield from mine.held(PartLog(lines, file, sites))

    def note(self, there: list[int]) -> str:
        """What is said where parts are missing."""
        if len(there) == self.parts:
            return ""
        missing = sorted({site for number in range(1, self.parts + 1) if number not in there for site in self.sites[number - 1 :: self.parts]})
        return (f"{len(there)} of {self.parts} parts are there so far: what follows is of them alone, and without the dies of "
                f"{'site' if len(missing) == 1 else 'sites'} {', '.join(map(str, missing))}")


def farm_of(folder: str, plan: plans.Plan) -> Farm:
    """The working folder of a lot of this plan."""
    said = _said(folder)
    parts = said.get("parts")
    if said.get("kind") != "lot" or not isinstance(parts, int) or not 1 <= parts <= MOST_PARTS:
        raise Fault(REFUSED, "this is no working folder of a lot in parts", folder)
    kept = os.path.join(folder, "plan.csv")
    if plans.read_text(kept) != plans.read_text(plan.file):
        raise Fault(REFUSED, f"this is the plan of the lot in the working folder, and {plan.file} is another one", kept)
    return Farm(folder, parts, sorted({die.site for die in plan.dies}))


def _said(folder: str) -> dict[str, object]:
    """How the lot was started."""
    try:
        said = json.loads(plans.read_text(os.path.join(folder, "said")))
    except (Fault, ValueError):
        raise Fault(UNREADABLE, "this is no working folder of a farm: it has no file `said` that tells how the lot was started", folder) from None
    return said if isinstance(said, dict) else {}


def _word(path: str) -> str:
    """The word in a file, or nothing where there is none yet."""
    try:
        with open(path, encoding="latin-1") as stream:
            return stream.read(16).strip()
    except OSError:
        return ""
