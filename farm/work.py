"""The working folder of a lot or a grade that runs in parts, and what is known of its plan.

It holds `program` and `plan.csv` (the program, saved, and the plan), `said` (how it was started, in JSON), a folder for each part by its
number, with its `text` and the `status` that the program ended with, or `failed` where it gave no answer, `joblog` and `lock`."""
import csv
import fcntl
import json
import os
import pathlib
import shutil
import subprocess
import sys
import tempfile
from collections.abc import Sequence
from typing import IO, NoReturn

HERE = pathlib.Path(__file__).resolve().parent
SAVED = b"\xd7STP"
LONGEST = 16777216
MOST_PARTS = 4096
LAST_SITE = 63
DONE, READ_FAULT, HALF, REFUSED_NET, REFUSED_PLAN, TOO_LONG, NO_DIE, REFUSED_PART = 0, 2, 3, 5, 6, 9, 12, 14
# that of the scripts themselves, where a program is missing or another run is at work
NOT_RUN = 70
# statuses behind which another try would end alike: done, refused, too few sockets, too long, no die
FINAL = {0, 4, 5, 6, 7, 9, 10, 12}
# the rows that name a site
SITED = {"die", "fault", "stop", "skew"}


def say(text: str) -> None:
    """Says a line; what a name in it has of line feeds and the like is shown by its number."""
    shown = "".join(it if it.isprintable() else f"\\x{ord(it):02x}" for it in text)
    print(f"farm: {shown}", file=sys.stderr, flush=True)


def without(what: str, wants: str) -> NoReturn:
    """Ends where a program is missing that is wanted."""
    say(f"{what} is missing, which {wants} needs")
    sys.exit(NOT_RUN)


def program_of(name: str) -> str:
    """Where a program is: as the variable of its name in capitals says, in release/ or built beside this folder, installed above it, or
    on the path."""
    tool, found = HERE.parent / "tools/program", os.environ.get(name.upper())
    if not found and not tool.exists() and (HERE.parent / name).is_file():
        found = str(HERE.parent / name)
    if not found and tool.exists():
        said = subprocess.run([tool, name], stdout=subprocess.PIPE, text=True).stdout.strip()
        found = str(HERE.parent / (said or name))
    path = shutil.which(found or name)
    return str(pathlib.Path(path).absolute()) if path else without(name, "a lot in parts")


def answer(words: Sequence[str | os.PathLike[str]], cwd: str | os.PathLike[str] | None = None) -> tuple[int, bytes]:
    """The status and the text of a run of a program."""
    ran = subprocess.run(words, stdout=subprocess.PIPE, stdin=subprocess.DEVNULL, restore_signals=False, cwd=cwd)
    return ran.returncode, ran.stdout


class Plan:
    """The rows of a plan that was accepted: each with its fields, and the sites with dies by rising number."""

    def __init__(self, path: str | os.PathLike[str]) -> None:
        with open(path, encoding="latin-1", newline="") as file:
            self.rows = [row for row in csv.reader(file) if row]
        dies = [row for row in self.rows if row[0] == "die"]
        self.sites = sorted({int(row[1]) for row in dies})
        self.files = list(dict.fromkeys(row[3] for row in dies))

    def part(self, k: int, n: int) -> list[int]:
        """The sites of part k of n: the i-th of them has the number i there."""
        return self.sites[k - 1 :: n]

    def numbers(self, k: int, n: int) -> list[int]:
        """The numbers of a part's rows in the plan, in order."""
        mine = set(self.part(k, n))
        return [i for i, row in enumerate(self.rows, 1) if row[0] not in SITED or int(row[1]) in mine]


class Work:
    """A working folder that is there."""

    # what keeps other runs away, where this one has it
    lock: IO[str] | None = None

    def __init__(self, folder: str | os.PathLike[str]) -> None:
        self.folder = pathlib.Path(folder).absolute()
        if not (self.folder / "said").exists():
            no_work(folder)
        self.said = json.loads((self.folder / "said").read_text())
        self.kind, self.start, self.stil, self.lots = (str(self.said[name]) for name in ("kind", "start", "stil", "lots"))
        self.parts = int(self.said["parts"])
        self.program, self.plan = self.folder / "program", self.folder / "plan.csv"

    def of(self, k: int, name: str) -> pathlib.Path:
        """A file of part k."""
        return self.folder / str(k) / name

    def status(self, k: int) -> int | None:
        """The status that part k ended with for good, or none."""
        path = self.of(k, "status")
        return int(path.read_text()) if path.exists() else None

    def missing(self) -> list[int]:
        """The parts that have not ended for good."""
        return [k for k in range(1, self.parts + 1) if self.status(k) is None]

    def refusal(self, k: int) -> tuple[int | None, bytes]:
        """The status and line of a part that was refused or failed; a status of none where nothing is known of it."""
        kept = self.of(k, "failed") if self.status(k) is None else self.of(k, "status")
        status = int(kept.read_text()) if kept.exists() else None
        text = self.of(k, "text" if kept.name == "status" else "failed.text")
        return status, text.read_bytes() if text.exists() else b""

    def undo(self, k: int) -> None:
        """Takes a part for one that failed, so that it is run again."""
        for name, other in ("text", "failed.text"), ("status", "failed"):
            os.replace(self.of(k, name), self.of(k, other))


def no_work(folder: str | os.PathLike[str]) -> NoReturn:
    """Ends where a folder is no working folder."""
    say(f"{folder} is no working folder")
    sys.exit(1)


def locked(folder: str) -> IO[str]:
    """Keeps other runs from a working folder until this one ends; ends where one is at work there. The lock goes with its run."""
    lock = open(pathlib.Path(folder, "lock"), "w")
    try:
        fcntl.flock(lock, fcntl.LOCK_EX | fcntl.LOCK_NB)
    except BlockingIOError:
        say(f"another run is at work in {folder}; let it end")
        sys.exit(NOT_RUN)
    except OSError as fault:
        say(f"no lock can be had in {folder}: {fault.strerror}; see that no other run is at work there")
    return lock


def resumed(folder: str) -> Work:
    """The working folder of a run that was broken off."""
    if not pathlib.Path(folder, "said").exists():
        no_work(folder)
    lock = locked(folder)
    # (another run may have ended the lot and taken the folder away meanwhile)
    work = Work(folder)
    work.lock = lock
    return work


def saved(stil: str, program: str, to: str) -> tuple[int, bytes] | None:
    """Puts a program into a file, saved where it is a text, and answers the status and line of what refuses it, if anything does."""
    try:
        with open(program, "rb") as file:
            is_saved = file.read(len(SAVED)) == SAVED
    except OSError:
        is_saved = False
    if is_saved:
        # (behind a program that is accepted the first refusal is that of a plan without rows)
        status, line = answer([stil, "lot", program, os.devnull])
        shutil.copyfile(program, to)
        return None if status == REFUSED_PLAN else (status, line)
    with open(to, "wb") as file:
        status = subprocess.run([stil, "save", program], stdout=file, restore_signals=False).returncode
    if status == TOO_LONG and os.stat(program).st_size <= LONGEST:
        # (a text whose saved program would be too long is read by each part)
        shutil.copyfile(program, to)
        status = DONE
    return None if status == DONE else (status, pathlib.Path(to).read_bytes())


def end_with(status: int, line: bytes) -> NoReturn:
    """Ends as the program does."""
    sys.stdout.buffer.write(line)
    sys.stdout.buffer.flush()
    sys.exit(status)


def made(kind: str, program: str, plan: str, parts: int | None) -> Work:
    """A new working folder in the folder where one stands; ends as the program does where it refuses the program or the plan."""
    from good_parts import good_parts

    stil, lots = program_of("stil"), program_of("lots")
    folder = tempfile.mkdtemp(prefix="farm.", dir=os.getcwd())
    lock = locked(folder)
    try:
        refused = saved(stil, program, f"{folder}/program")
        if not refused:
            status, line = answer([lots, "parts", plan])
            refused = (status, line) if status else None
        if refused:
            end_with(*refused)
        shutil.copyfile(plan, f"{folder}/plan.csv")
        if not parts and kind == "grade":
            parts = good_parts(lots, f"{folder}/program", f"{folder}/plan.csv")
        said = {"kind": kind, "parts": parts or int(line), "start": os.getcwd(), "stil": stil, "lots": lots}
        pathlib.Path(folder, "said").write_text(json.dumps(said) + "\n")
    except BaseException:
        shutil.rmtree(folder, ignore_errors=True)
        raise
    say(f"the working folder is {folder}, and the parts are {said['parts']}")
    work = Work(folder)
    work.lock = lock
    return work
