"""The programs that a tool tries: those that its words name, and without words those of release/."""
import os
import pathlib
import sys

top = pathlib.Path(__file__).resolve().parent.parent
NAMES = ("stil", "lots")


def released(name: str) -> pathlib.Path:
    """Where the program of a name lies in release/."""
    return top / f"release/{name}-x86_64-linux-gnu"


def programs(words: list[str]) -> tuple[pathlib.Path, pathlib.Path]:
    """The paths of `stil` and `lots`; a word or two name others than those of release/."""
    given = [pathlib.Path(word).absolute() for word in words[: len(NAMES)]]
    stil, lots = [*given, *map(released, NAMES[len(given) :])]
    return stil, lots


def needed(program: str | os.PathLike[str]) -> str:
    """The path of a program; where none is there that can be run, the tool ends and says so."""
    path = os.path.abspath(program)
    if not os.access(path, os.X_OK):
        sys.exit(f"{os.path.basename(sys.argv[0])}: there is no program {path}")
    return path
