"""Runs a lot or a grade in parts: by GNU parallel here or over ssh, one part after another where it is missing, or by Slurm."""
import argparse
import os
import shutil
import signal
import subprocess
import sys
import time
from collections.abc import Callable, Sequence
from typing import NoReturn
import whole
from progress import Progress, watched
from work import HERE, MOST_PARTS, Work, made, resumed, say, without

# how many seconds a merge is awaited of which Slurm knows nothing any more
AWAITED = 5
# the script of a job, which runs the words behind it, and a part with its number
JOB = """#!/bin/sh
exec "$@" $SLURM_ARRAY_TASK_ID
"""


class Reader(argparse.ArgumentParser):
    """Reads the words of a command, and ends with a line where they are none of its."""

    def error(self, message: str) -> NoReturn:
        """Ends."""
        sys.exit(f"{self.prog}: {message}")


def number(least: int, most: int) -> Callable[[str], int]:
    """What takes a number in a range, in digits."""
    def taken(word: str) -> int:
        if not (word.isascii() and word.isdigit() and least <= int(word) <= most):
            raise argparse.ArgumentTypeError(f"{word} is no number from {least} to {most}")
        return int(word)
    return taken


def words(kind: str, is_slurm: bool) -> argparse.Namespace:
    """The words of the command: a working folder to go on with, or a program, a plan and a number of parts."""
    name = f"farm/{kind}.slurm" if is_slurm else f"farm/{kind}"
    reader = Reader(prog=name, usage=f"{name} [OPTION ..] PROGRAM PLAN [N] | {name} [OPTION ..] --resume FOLDER")
    reader.add_argument("--retries", type=number(1, 99), default=3, metavar="R", help="how often a part is run at most; 3 times")
    reader.add_argument("--resume", metavar="FOLDER", help="runs the parts that are missing in this working folder")
    if is_slurm:
        reader.add_argument("--sbatch", action="append", default=[], metavar="WORD", help="a word more for sbatch, as --sbatch=--mem=2G")
    else:
        reader.add_argument("--jobs", metavar="J", help="how many parts run beside each other on a machine; as many as it has processors")
        reader.add_argument("--sshloginfile", metavar="FILE", help="the machines, one a line, as GNU parallel takes them")
    reader.add_argument("program", nargs="?", metavar="PROGRAM")
    reader.add_argument("plan", nargs="?", metavar="PLAN")
    reader.add_argument("parts", nargs="?", type=number(1, MOST_PARTS), metavar="N")
    given = reader.parse_args()
    if given.program if given.resume else not given.plan:
        reader.print_usage(sys.stderr)
        sys.exit(1)
    return given


def has_parallel() -> bool:
    """Whether GNU parallel is here (another program has its name too)."""
    if not shutil.which("parallel"):
        return False
    return b"GNU" in subprocess.run(["parallel", "--version"], stdout=subprocess.PIPE, stderr=subprocess.DEVNULL).stdout


def by_parallel(work: Work, given: argparse.Namespace, progress: Progress) -> None:
    """Runs the parts that are missing by GNU parallel, here or on the machines of a file."""
    missing = work.missing()
    if not missing:
        return
    asked = ["parallel", "--will-cite", "--null", "--joblog", str(work.folder / "joblog"), "--retries", str(given.retries)]
    asked += ["--jobs", given.jobs] if given.jobs else []
    asked += ["--sshloginfile", given.sshloginfile] if given.sshloginfile else []
    # (names stand in no template, where parallel would run what they say; it quotes values, but none that a command begins with)
    asked += ["exec", "{1}", "{2}", "{3}", ":::", str(HERE / "part"), ":::", str(work.folder), ":::"]
    ran = subprocess.Popen([*asked, *map(str, missing)], stdin=subprocess.DEVNULL,
                           env={"HOME": str(work.folder), "PATH": os.defpath, **os.environ})
    try:
        watched(progress, ran)
    finally:
        if ran.poll() is None:
            # (at the first of these it waits for what runs, at the second it ends that)
            for _ in range(2):
                ran.send_signal(signal.SIGTERM)
            ran.wait()


def one_by_one(work: Work, given: argparse.Namespace, progress: Progress) -> None:
    """Runs the parts that are missing, one after another."""
    for k in work.missing():
        watched(progress, subprocess.Popen([HERE / "part", "--retries", str(given.retries), work.folder, str(k)], stdin=subprocess.DEVNULL))


def submitted(asked: Sequence[str]) -> str:
    """Submits a job, and answers its number."""
    ran = subprocess.run(asked, stdout=subprocess.PIPE, text=True)
    if ran.returncode:
        sys.exit(70)
    return ran.stdout.strip().split(";")[0]


def by_slurm(work: Work, given: argparse.Namespace, progress: Progress) -> None:
    """Submits the parts as an array of jobs and the merge behind them, and waits for it; its text and status are in the working folder.

    What a job runs are words behind its script, and what it says goes to a plain name: names are no part of either."""
    missing, job_script = work.missing(), work.folder / "job"
    job_script.write_text(JOB)
    common = ["sbatch", "--parsable", f"--chdir={work.folder}", *given.sbatch]
    behind: list[str] = []
    for name in "whole", "ended":
        (work.folder / name).unlink(missing_ok=True)
    if missing:
        array = "1-%d" % work.parts if len(missing) == work.parts else ",".join(map(str, missing))
        asked = [*common, f"--array={array}", "--requeue", "--job-name=farm", "--output=slurm.%a", str(job_script)]
        job = submitted([*asked, str(HERE / "part"), "--retries", str(given.retries), str(work.folder)])
        say(f"the parts are the array {job}")
        behind = [f"--dependency=afterok:{job}", "--kill-on-invalid-dep=yes"]
    job = submitted([*common, *behind, "--job-name=farm-merge", "--output=slurm.merge", str(job_script), str(HERE / "merged"), str(work.folder)])
    # (what is on its way through the file system when the job is gone has some seconds to come)
    left = AWAITED
    while left and not (work.folder / "ended").exists():
        time.sleep(1)
        progress.look()
        known = subprocess.run(["squeue", "-h", "-j", job], stdout=subprocess.PIPE, stderr=subprocess.DEVNULL).stdout
        left = AWAITED if known else left - 1


def main(kind: str, is_slurm: bool = False) -> NoReturn:
    """Runs a lot or a grade by the words of the command, prints it, and ends with its status."""
    given = words(kind, is_slurm)
    if is_slurm and not shutil.which("sbatch"):
        without("sbatch", "a lot by Slurm")
    if not is_slurm and given.sshloginfile and not has_parallel():
        without("parallel", "--sshloginfile")
    signal.signal(signal.SIGTERM, lambda number, frame: sys.exit(128 + number))
    work = resumed(given.resume) if given.resume else made(kind, given.program, given.plan, given.parts)
    progress = Progress(work)
    try:
        if is_slurm:
            by_slurm(work, given, progress)
        elif has_parallel():
            by_parallel(work, given, progress)
        else:
            say("parallel is missing, so the parts run one after another")
            one_by_one(work, given, progress)
        progress.end()
    except (KeyboardInterrupt, SystemExit) as ended:
        progress.end()
        say(f"broken off; --resume {work.folder} goes on")
        sys.exit(130 if isinstance(ended, KeyboardInterrupt) else ended.code)
    whole.end(work)
