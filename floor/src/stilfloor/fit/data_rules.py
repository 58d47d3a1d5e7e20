"""What the rules of data know of a text, and where one reads data."""

from dataclasses import dataclass, field

from stilfloor.fit.bodies import Body
from stilfloor.fit.signals import Attributes, Names
from stilfloor.fit.timing import Waves
from stilfloor.fit.tokens import plain
from stilfloor.fit.work import Work


class DataStop(Exception):
    """Data that can't be written so that they mean the same."""


@dataclass(slots=True)
class Rules:
    """What data rules know of a text: its names, renamed characters, and the length of the chain of each scan signal."""

    names: Names
    waves: Waves
    renamed: dict[str, str] = field(default_factory=dict)
    mapped: dict[str, dict[str, str]] = field(default_factory=dict)
    lengths: dict[str, int] = field(default_factory=dict)
    letters: set[str] = field(default_factory=set)
    based: bool = False
    memory: "dict[tuple[str, str, bool], Piece]" = field(default_factory=dict)
    late: "list[tuple[Body, int, tuple[str, ...], dict[str, str]]]" = field(default_factory=list)


@dataclass(slots=True)
class Piece:
    """Data as they are to be written, what was done, and where they stop; `joined` and `late` are questions that the block answers."""

    text: str = ""
    notes: list[tuple[str, str]] = field(default_factory=list)
    stop: str = ""
    joined: bool = False
    late: bool = False


@dataclass(slots=True)
class Cursor:
    """Where the data of an assignment are read, and what is known there."""

    tokens: list[str]
    gaps: list[str]
    members: tuple[str, ...] | None
    attributes: Attributes | None
    mode: str = "w"
    base: str = ""
    automatic: dict[str, str] = field(default_factory=dict)
    is_mapped: bool = False
    pieces: list[str] = field(default_factory=list)
    digits: list[str] = field(default_factory=list)
    notes: dict[tuple[str, str], None] = field(default_factory=dict)
    is_changed: bool = False
    joined: bool = False
    late: bool = False


def rules_of(work: Work, names: Names, waves: Waves) -> Rules:
    """What the data rules need, before data are read."""
    rules = Rules(names, waves, lengths=_lengths(work, names))
    for key, made in names.attributes.items():
        rules.based = rules.based or bool(made.base)
        members = names.members([f'"{key}"']) if key not in names.ranges else tuple(names.ranges[key])
        automatic = {before: after for before, after in made.single.items() if members and before != after
                     and not any(before in waves.acts.get(member, ()) for member in members)}
        if automatic:
            rules.mapped[key] = automatic
            rules.letters.update(automatic)
    return rules


def _lengths(work: Work, names: Names) -> dict[str, int]:
    """The chain's length of each signal at a chain's end."""
    found: dict[str, int] = {}
    for block in work.statements:
        for chain in block.kids or [] if work.keyword(block) == "ScanStructures" else []:
            parts = {work.keyword(part): work.head(part) for part in chain.kids or []}
            length = parts.get("ScanLength", [""])[0] if parts.get("ScanLength") else ""
            for end in ("ScanIn", "ScanOut"):
                name = plain("".join(parts.get(end, [])))
                if name and length.isdigit():
                    found[name] = int(length)
    return found


def short(text: str) -> str:
    return text if len(text) <= 24 else text[:21] + ".."


def note(cursor: Cursor, what: str, why: str) -> None:
    cursor.notes[what, why] = None
