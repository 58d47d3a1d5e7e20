"""The crates of this folder, as crates.txt has them, and what they stand on."""
import pathlib
from collections.abc import Iterable, Mapping

top = pathlib.Path(__file__).resolve().parent.parent


def below() -> dict[str, list[str]]:
    """Each crate of crates.txt with the words behind it: the crates and the libraries of the kit that it stands on."""
    lines = [line.split("#")[0].partition(":") for line in (top / "crates.txt").read_text().splitlines()]
    return {head.split()[0]: words.split() for head, _, words in lines if head.split()}


def closure(names: Iterable[str], stands_on: Mapping[str, Iterable[str]]) -> set[str]:
    """These crates and all that they stand on."""
    wanted: set[str] = set()
    left = list(names)
    while left:
        name = left.pop()
        if name in stands_on and name not in wanted:
            wanted.add(name)
            left += stands_on[name]
    return wanted
