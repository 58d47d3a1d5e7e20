"""What `tools/fuzz` begins with: the lots of the examples, each with what the two programs print of it."""
import pathlib
import random
import re
import subprocess
import tempfile
from dataclasses import dataclass

from fuzz_mutants import Files
from programs import top

PARTS = 2


@dataclass
class Lot:
    """A lot that runs: the bytes of its text `p.stil`, its plan `p.csv` and its netlists, and what is made of it: the saved program `p.sav`,
    `p.log` and `p.grade`, `dump.vcd` of its first site, the plans, datalogs and grades of its parts, as `1.csv`, `1.log` and `1.grade`."""

    files: Files
    nets: list[str]
    made: Files


def printed(room: str, program: str, *words: str) -> bytes:
    """What a command prints in a folder, or nothing where it refuses what it is given."""
    ran = subprocess.run([program, *words], cwd=room, stdout=subprocess.PIPE)
    return b"" if ran.returncode else ran.stdout


def part(room: str, stil: str, lots: str, number: int) -> Files:
    """What is made of a part of a lot."""
    plan, log, grade = f"{number}.csv", f"{number}.log", f"{number}.grade"
    made = {plan: printed(room, lots, "part", "p.csv", str(number), str(PARTS))}
    (pathlib.Path(room) / plan).write_bytes(made[plan])
    made[log] = printed(room, stil, "lot", "p.stil", plan)
    made[grade] = printed(room, lots, "grade", "p.stil", "p.csv", str(number), str(PARTS))
    return made


def made_of(files: Files, stil: str, lots: str) -> Files | None:
    """What is made of a lot, or nothing where it is refused."""
    with tempfile.TemporaryDirectory() as room:
        for name, content in files.items():
            (pathlib.Path(room) / name).write_bytes(content)
        made = {"p.log": printed(room, stil, "lot", "p.stil", "p.csv")}
        if not made["p.log"]:
            return None
        site = made["p.log"].split(b"\n", 1)[0].split()[1].decode()
        made |= {"p.sav": printed(room, stil, "save", "p.stil"), "p.grade": printed(room, stil, "grade", "p.stil", "p.csv"),
                 "dump.vcd": printed(room, stil, "dump", "p.stil", "p.csv", site)}
        for number in range(1, PARTS + 1):
            made |= part(room, stil, lots, number)
        return made


def files_of(plan: pathlib.Path, text: pathlib.Path) -> Files:
    """A text, a plan and its netlists, all in one folder."""
    rows = plan.read_bytes()
    names = sorted(set(re.findall(rb"examples/[\w/]*\.bench", rows)))
    files = {name.decode().rpartition("/")[2]: (top / name.decode()).read_bytes() for name in names}
    return {**files, "p.stil": text.read_bytes(), "p.csv": re.sub(rb"examples/\w*/", b"", rows)}


def good_lots(stil: str, lots: str) -> list[Lot]:
    """The lots of the examples that the program runs."""
    found = []
    pairs = [(plan, text) for plan in sorted(top.glob("examples/*/*.csv")) for text in sorted(plan.parent.glob("*.stil"))]
    for files in (files_of(plan, text) for plan, text in pairs):
        made = made_of(files, stil, lots)
        if made:
            found.append(Lot(files, [name for name in files if name.endswith(".bench")], made))
    return found


def texts() -> list[bytes]:
    """The texts of other dialects."""
    folders = [top / "examples/dialects", top / "floor/tests/data/fit"]
    return [path.read_bytes() for folder in folders for path in sorted(folder.rglob("*.stil"))]


def code_or_text(lot: Lot) -> Files:
    """The files of a lot, its text now and then as the saved program."""
    return {**lot.files, "p.stil": lot.made["p.sav"]} if random.random() < 0.4 else dict(lot.files)
