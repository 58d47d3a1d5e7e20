"""What is said of a lot or a grade whose parts have run."""
import os
import re
import shutil
import subprocess
import sys
from typing import NoReturn
from work import FINAL, LAST_SITE, NO_DIE, NOT_RUN, READ_FAULT, REFUSED_PART, Plan, Work, answer, end_with, say

# what a part came to: its number, its status, where one is known, and its line
End = tuple[int, int | None, bytes]


def in_plan(plan: Plan, work: Work, k: int, line: bytes) -> bytes:
    """A part's line with its row put back to the plan's."""
    words = line.split()
    if words[:2] == [b"refused", b"plan"] and words[2] != b"Unbound":
        return b"refused plan %s %d\n" % (words[2], plan.numbers(k, work.parts)[int(words[3]) - 1])
    return line


def place(plan: Plan, line: bytes) -> tuple[int, int]:
    """Where a refusal stands among those of the whole: netlists as the plan first names them, its rows, signals without a net."""
    words = line.split()
    if words[:2] in ([b"read", b"fault"], [b"too", b"long"], [b"refused", b"net"]):
        name = words[2].decode("latin-1")
        return 1, plan.files.index(name) if name in plan.files else -1
    if words[:2] == [b"refused", b"plan"]:
        return (3, 0) if words[2] == b"Unbound" else (2, int(words[3]))
    return (4 if words[:2] == [b"too", b"few"] else 0), 0


def asked(work: Work, plan: Plan) -> tuple[int, bytes]:
    """What the program says of the whole plan, which it refuses."""
    free = [site for site in range(LAST_SITE + 1) if site not in plan.sites]
    files = [os.path.relpath(file, work.start) for file in (work.program, work.plan)]
    words = ["dump", *files, str(free[0])] if free else ["lot", *files]
    return answer([work.stil, *words], cwd=work.start)


def refused(work: Work, told: list[End]) -> tuple[int, bytes]:
    """The refusal of the whole, of those of its parts: the first in the order of the whole."""
    if work.kind == "grade":
        return told[0][1] or 0, told[0][2]
    plan = Plan(work.plan)
    lines = [(status or 0, in_plan(plan, work, k, line)) for k, status, line in told]
    status, line = min(lines, key=lambda it: place(plan, it[1]))
    if place(plan, line)[0] == 3 and len({it[1] for it in lines}) > 1:
        # (which netlist leaves the signal without a net, the line doesn't say)
        whole, said = asked(work, plan)
        return (whole, said) if whole not in (0, NO_DIE) else (status, line)
    return status, line


def told(work: Work) -> int:
    """Prints the whole, and answers the status; where parts are refused or missing, says so."""
    every = range(1, work.parts + 1)
    ends: list[End] = [(k, *work.refusal(k)) for k in every]
    stopped = [it for it in ends if it[1] != 0 and it[1] in FINAL | {READ_FAULT}]
    if stopped:
        end_with(*refused(work, stopped))
    missing = work.missing()
    if missing:
        say(f"parts without a text: {' '.join(map(str, missing))}; --resume {work.folder} runs them again")
        k, status, line = next(it for it in ends if it[0] == missing[0])
        end_with(status or NOT_RUN, line)
    words = [work.lots, *(["merge", "plan.csv"] if work.kind == "lot" else ["merge-grade"]), *(f"{k}/text" for k in every)]
    ended = subprocess.run(words, cwd=work.folder, restore_signals=False).returncode
    if ended == REFUSED_PART:
        undo(work, answer(words, cwd=work.folder)[1])
    return ended


def undo(work: Work, line: bytes) -> None:
    """Takes the part whose text can't be merged, by the line that refuses it, for one that failed."""
    found = re.match(rb"refused part (\d+)/text ", line)
    if found:
        k = int(found[1])
        work.undo(k)
        say(f"the text of part {k} is none; --resume {work.folder} runs it again")


def merged(work: Work) -> int:
    """Prints what a job has merged, and answers its status."""
    with open(work.folder / "whole", "rb") as text:
        shutil.copyfileobj(text, sys.stdout.buffer)
    sys.stdout.buffer.flush()
    return int((work.folder / "ended").read_text())


def end(work: Work) -> NoReturn:
    """Prints the whole and ends; the working folder stays where something failed."""
    status: str | int | None
    try:
        status = merged(work) if (work.folder / "ended").exists() else told(work)
    except SystemExit as ended:
        status = ended.code
    if status == 0:
        # (a run of a part that was given up may be there still)
        shutil.rmtree(work.folder, ignore_errors=True)
    elif work.folder.exists():
        say(f"the working folder stays: {work.folder}")
    raise SystemExit(status)
