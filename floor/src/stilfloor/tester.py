"""The program `stil`: where it is, and one call a command."""

import functools
import os
import pathlib
import shutil
import subprocess
from collections.abc import Sequence

from stilfloor.faults import TOOL, UNREADABLE, Fault

CHECKOUT = pathlib.Path(__file__).resolve().parents[3]


def _sum_of_sources() -> str:
    """The sum of the checkout's sources, or nothing where it can't be had."""
    script = CHECKOUT / "tools" / "sources"
    if not script.exists():
        return ""
    return subprocess.run([str(script)], capture_output=True, text=True, check=False).stdout.strip()


def _first_line(path: pathlib.Path) -> str:
    return path.read_text().split("\n", 1)[0] if path.exists() else ""


@functools.cache
def find_program() -> str:
    """The path of the program: that of the variable STIL, else the checkout's or the one that this
    package is installed beside, else the one on the path.

    In a checkout it is the program that `stil` there would run, found once, since the script sums all sources at each call.
    """
    told = os.environ.get("STIL")
    if told:
        found = shutil.which(told)
        if not found:
            raise Fault(TOOL, f"the variable STIL names `{told}`, which is no program")
        return os.path.abspath(found)
    if (CHECKOUT / "stil").is_file():
        of_sources = _sum_of_sources()
        if of_sources:
            for folder, name in (("release", "stil-x86_64-linux-gnu"), ("crates/stil/out", "stil")):
                sources = CHECKOUT / folder / ("SOURCES" if folder == "release" else "sources")
                program = CHECKOUT / folder / name
                if _first_line(sources) == of_sources and os.access(program, os.X_OK):
                    return str(program)
        return str(CHECKOUT / "stil")
    found = shutil.which("stil")
    if not found:
        raise Fault(TOOL, "the program `stil` isn't there: put it on the path, or name it by the variable STIL")
    return found


def _judge(words: Sequence[str]) -> None:
    """Refuses words that the program would take for none of its own."""
    for word in words:
        if any(0xD800 <= ord(character) <= 0xDFFF for character in word):
            raise Fault(UNREADABLE, "the program takes names of UTF-8 alone; give the file another name, or a link", word)


def run(words: Sequence[str], folder: str | None = None) -> tuple[int, bytes]:
    """The exit status and the output of the program, run with these words in that folder."""
    _judge(words)
    try:
        done = subprocess.run([find_program(), *words], cwd=folder, capture_output=True, check=False)
    except OSError as error:
        raise Fault(TOOL, f"the program `{find_program()}` doesn't run: {error.strerror}") from error
    return done.returncode, done.stdout


def open_output(words: Sequence[str]) -> "subprocess.Popen[str]":
    """The program, running, whose output is read line by line."""
    _judge(words)
    return subprocess.Popen([find_program(), *words], stdout=subprocess.PIPE, text=True, encoding="latin-1")
