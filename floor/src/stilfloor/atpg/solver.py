"""Cadical, asked through files of clauses with plain names in a folder of their own."""

import os
import shutil
import subprocess
from dataclasses import dataclass

from stilfloor.atpg.proof import is_proof
from stilfloor.faults import TOOL, Fault


@dataclass(slots=True)
class Answer:
    """What a solver says: a solution's literals, that there is none, or neither in the time that it had."""

    model: set[int] | None = None
    is_refuted: bool = False


def check_tools() -> None:
    """Says where the solver is missing."""
    if not shutil.which("cadical"):
        raise Fault(TOOL, "cadical isn't there, and this needs it: `apt-get install cadical`")


def solve(text: str, seconds: int, proof: str | None = None) -> Answer:
    """Asks for a solution of clauses; with a file for the proof, cadical writes one."""
    words = ["cadical", "-q", "-t", str(seconds)]
    # (--plain takes no step but those that propagation checks)
    words += ["--no-binary", "--plain", "-", proof] if proof else []
    done = subprocess.run(words, input=text, capture_output=True, text=True, check=False)
    if done.returncode == 10:
        values = [int(word) for line in done.stdout.split("\n") if line.startswith("v ") for word in line[2:].split()]
        return Answer(set(values) - {0})
    if done.returncode not in (0, 20):
        raise Fault(TOOL, f"cadical ended with status {done.returncode}: " + " ".join((done.stderr or done.stdout).split())[-200:])
    return Answer(None, done.returncode == 20)


def refuted(text: str, seconds: int, room: str) -> str:
    """Why clauses aren't refuted by a proof that is checked, if they aren't: `solved`, `time` or `proof`."""
    path = os.path.join(room, "proof")
    answer = solve(text, seconds, path)
    if not answer.is_refuted:
        return "solved" if answer.model is not None else "time"
    with open(path, encoding="ascii") as steps:
        return "" if is_proof(text, steps.read()) else "proof"
