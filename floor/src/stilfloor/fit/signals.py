"""What names stand for: signals, groups, and the attributes of both that say how data are written."""

import re
from collections.abc import Sequence
from dataclasses import dataclass, field

from stilfloor.fit.tokens import plain
from stilfloor.fit.tree import Statement
from stilfloor.fit.work import Work

ITEM = re.compile(r'\s*([-+]?)\s*("[^"]*"|\w+)\s*(?:\[\s*(\d+)\s*(?:\.\s*\.\s*(\d+)\s*)?\])?', re.ASCII)
REFERENCE = re.compile(r'("[^"]*"|\w+)(?:\[(\d+)(?:\.\.(\d+))?\])?', re.ASCII)
MOST_SIGNALS = 1 << 16


@dataclass(slots=True)
class Attributes:
    """How data of a signal or group are written: its Base with its characters, Alignment, DataBitCount, and WFCMap."""

    radix: str = ""
    base: str = ""
    alignment: str = ""
    bits: int = 0
    single: dict[str, str] = field(default_factory=dict)
    joined: dict[str, str] = field(default_factory=dict)
    unread: bool = False


@dataclass(slots=True)
class Names:
    """The signals and groups of a text."""

    directions: dict[str, str] = field(default_factory=dict)
    ranges: dict[str, list[str]] = field(default_factory=dict)
    groups: dict[str, str] = field(default_factory=dict)
    attributes: dict[str, Attributes] = field(default_factory=dict)
    cache: dict[str, tuple[str, ...] | None] = field(default_factory=dict)
    open: set[str] = field(default_factory=set)

    def members(self, tokens: Sequence[str]) -> tuple[str, ...] | None:
        """The signals of a reference; None where it has no such meaning."""
        key = "".join(tokens)
        if key not in self.cache:
            self.cache[key] = self._expression(plain(key)) if key[:1] == "'" else self._reference(key)
        return self.cache[key]

    def _reference(self, key: str) -> tuple[str, ...] | None:
        found = REFERENCE.fullmatch(key)
        return self._item(plain(found[1]), found[2], found[3]) if found else None

    def _item(self, name: str, first: str | None, last: str | None) -> tuple[str, ...] | None:
        """The signals of a name, maybe with indices."""
        if first is not None:
            texts = indexed(name, first, last)
            return tuple(texts) if all(text in self.directions for text in texts) else None
        if name in self.directions:
            return (name,)
        if name in self.groups:
            return self._group(name)
        return tuple(self.ranges[name]) if name in self.ranges else None

    def _group(self, name: str) -> tuple[str, ...] | None:
        if name in self.open:
            return None
        self.open.add(name)
        found = self._expression(self.groups[name])
        self.open.discard(name)
        return found

    def _expression(self, text: str) -> tuple[str, ...] | None:
        """The signals of a group's expression."""
        found: dict[str, None] = {}
        place = 0
        while place < len(text.rstrip()):
            item = ITEM.match(text, place)
            if not item or bool(item[1]) == (place == 0):
                return None
            members = self._item(plain(item[2]), item[3], item[4])
            if members is None:
                return None
            for member in members:
                if item[1] == "-":
                    found.pop(member, None)
                else:
                    found[member] = None
            place = item.end()
        return tuple(found)

    def attributes_of(self, tokens: Sequence[str]) -> Attributes | None:
        """The attributes for a reference: its own, else those of its signals where they have the same."""
        key = plain("".join(tokens).replace('"', "")) if tokens and tokens[0][:1] != "'" else "".join(tokens)
        own = self.attributes.get(key)
        if own:
            return own
        members = self.members(tokens)
        if not members:
            return None
        each = [self.attributes.get(member) for member in members]
        return each[0] if all(one == each[0] for one in each) else None


def indexed(name: str, first: str, last: str | None) -> list[str]:
    """The signals of a name with indices."""
    start, end = int(first), int(last if last is not None else first)
    step = 1 if end >= start else -1
    if abs(end - start) > MOST_SIGNALS:
        return [name]
    return [f"{name}[{number}]" for number in range(start, end + step, step)]


def names_of(work: Work) -> Names:
    """The signals and groups that a text declares."""
    names = Names()
    for block in work.statements:
        keyword = work.keyword(block)
        for statement in block.kids or []:
            if work.is_skipped(statement.start):
                continue
            if keyword == "Signals":
                _declare(work, names, statement)
            elif keyword == "SignalGroups":
                _group(work, names, statement)
    return names


def _declare(work: Work, names: Names, statement: Statement) -> None:
    head = work.texts[statement.start : statement.head_end]
    found = REFERENCE.fullmatch("".join(head[:-1])) if len(head) > 1 else None
    if not found:
        return
    name = plain(found[1])
    texts = indexed(name, found[2], found[3]) if found[2] is not None else [name]
    for text in texts:
        names.directions[text] = head[-1]
    if found[2] is not None:
        names.ranges.setdefault(name, []).extend(texts)
    if statement.kids:
        made = _attributes(work, statement.kids)
        for text in {name, *texts}:
            names.attributes[text] = made


def _group(work: Work, names: Names, statement: Statement) -> None:
    head = work.texts[statement.start : statement.head_end]
    if len(head) != 3 or head[1] != "=" or head[2][:1] != "'":
        return
    names.groups.setdefault(plain(head[0]), plain(head[2]))
    if statement.kids:
        names.attributes[plain(head[0])] = _attributes(work, statement.kids)


def _attributes(work: Work, kids: list[Statement]) -> Attributes:
    made = Attributes()
    for kid in kids:
        head = work.head(kid)
        keyword = work.keyword(kid)
        if keyword == "Base" and len(head) >= 2:
            made.radix, made.base = head[0], "".join(head[1:])
        elif keyword == "Alignment" and head:
            made.alignment = head[0]
        elif keyword == "DataBitCount" and head and head[0].isdigit():
            made.bits = int(head[0])
        elif keyword == "WFCMap" and kid.kids is not None:
            for rule in kid.kids:
                _map(work, made, rule)
    return made


def _map(work: Work, made: Attributes, rule: Statement) -> None:
    """A rule of a WFCMap: one character for another, a list for a list of as many, or one for two that are joined."""
    before, arrow, after = "".join(work.texts[rule.start : rule.head_end]).partition("->")
    if not arrow or not before or not after or rule.open >= 0:
        made.unread = True
    elif len(before) == len(after):
        made.single.update(zip(before, after))
    elif len(before) == 2 and len(after) == 1:
        made.joined[before] = after
    else:
        made.unread = True
