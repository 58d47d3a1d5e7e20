"""Data as they stand once their flags are written out: a character for each item, dealt to the signals of their reference."""

import re
from collections.abc import Collection, Iterator, Sequence

from stilfloor.fit.signals import Names
from stilfloor.fit.tree import Statement
from stilfloor.fit.work import Work

ITEM = re.compile(r"\\r(\d+)\s*([^\s\\])|(\\)|\s+|([^\s\\]+)", re.ASCII)
# (no text of the program's size has more)
MOST_ITEMS = 1 << 24


def items(texts: Sequence[str]) -> str | None:
    """The items of data, a character each; None where they have another form."""
    if len(texts) == 1 and "\\" not in texts[0] and " " not in texts[0]:
        return texts[0]
    found: list[str] = []
    for count, unit, flag, characters in ITEM.findall(" ".join(texts).replace("\\ r", "\\r")):
        if flag or count and int(count[:9]) > MOST_ITEMS:
            return None
        found.append(unit * int(count) if count else characters)
    return "".join(found)


def length(texts: Sequence[str]) -> int | None:
    """How many items data have."""
    known = items(texts)
    return None if known is None else len(known)


def runs_of(work: Work, names: Names, statement: Statement, only: Collection[str] | None = None) -> Iterator[tuple[str, str, int]]:
    """What an assigning statement gives each signal, or only some of them, in text order: its items, and their place."""
    for part in work.assignments(statement):
        if part.equals < 0:
            continue
        members = names.members(work.texts[part.start : part.equals])
        if not members or only is not None and not any(member in only for member in members):
            continue
        known = items([text for text in work.texts[part.equals + 1 : part.end] if text])
        if known is None:
            continue
        if len(known) == 1 and known in "#%":
            known *= len(members)
        for number, member in enumerate(members):
            if only is None or member in only:
                yield member, known[number :: len(members)], part.start


def call_data(work: Work, names: Names, call: Statement) -> dict[str, tuple[str, int]]:
    """The data that a Call or Macro gives each signal, and their place; a later argument of a signal counts."""
    return {signal: (text, place) for signal, text, place in runs_of(work, names, call)}
