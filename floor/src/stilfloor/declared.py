"""The names that a STIL text declares: where, and what each is. It reads a text that is half typed as far as it goes.

It serves an editor that asks for a name; what a text means, and whether it is one, is asked of the program alone.
"""

import re
from collections.abc import Callable, Iterator
from dataclasses import dataclass, field

from stilfloor.outline import Statement, Token, outline

# the blocks of the top level, and what else ends or hides them
TOP = "Signals|SignalGroups|Timing|Spec|ScanStructures|MacroDefs|Procedures|PatternBurst|PatternExec|Pattern|UserKeywords|Header"
MARK = re.compile(r"""//[^\n]*|/\*.*?(?:\*/|\Z)|\bAnn[ \t\n\f\r]*\{\*.*?(?:\*\}|\Z)|"[^"\n]*"|'[^'{};]*'|(?P<brace>[{}])"""
                  r"|(?:(?<=\n)|\A)(?P<top>(?:" + TOP + r")\b[^{};]{0,1200}\{)", re.DOTALL)
HEAD = re.compile(r'(?P<key>\w+)[ \t\n\f\r]*(?P<name>\w+|"[^"]*")?[^{};]*\Z')
VECTOR = re.compile(r"\b(?:V|Vector)[ \t\n\f\r]*\{")

KEYWORDS = (
    "STIL Header Signals SignalGroups Spec Category Selector Timing WaveformTable Waveforms ScanStructures ScanChain MacroDefs Procedures "
    "PatternBurst PatList PatternExec Pattern UserKeywords UserFunctions W V C Vector Condition Loop Macro Call Shift Stop BreakPoint "
    "IddqTestPoint Period InheritWaveformTable ScanLength ScanIn ScanOut ScanCells ScanInversion ScanEnable ScanMasterClock ScanSlaveClock "
    "ScanOutLength Title Date Source History Design In Out InOut Supply Pseudo Min Typ Max Meas").split()

# what a name stands for behind a word
BEHIND = {"W": "waveform table", "WaveformTable": "waveform table", "InheritWaveformTable": "waveform table", "Macro": "macro",
          "Call": "procedure", "Timing": "timing", "PatternBurst": "pattern burst", "Pattern": "pattern", "ScanIn": "signal", "ScanOut": "signal",
          "ScanChain": "scan chain", "Spec": "spec", "Category": "category", "Selector": "selector", "MacroDefs": "macros",
          "Procedures": "procedures", "PatternExec": "pattern executive", "SignalGroups": "signal groups", "ScanStructures": "scan structures"}
NAMED = {"Timing": "timing", "Spec": "spec", "ScanStructures": "scan structures", "MacroDefs": "macros", "Procedures": "procedures",
         "PatternBurst": "pattern burst", "PatternExec": "pattern executive", "Pattern": "pattern", "SignalGroups": "signal groups"}


@dataclass(slots=True)
class Declared:
    """A name: its kind, how it is written, from where to where it stands, what it is, and the place behind its block."""

    kind: str
    name: str
    start: int
    end: int
    what: str
    until: int


@dataclass(slots=True)
class Block:
    """A block of the top level: its keyword, its name with its places (-1 for none), where it begins, and the places of its braces."""

    keyword: str
    name: str
    named: tuple[int, int]
    start: int
    opened: int
    closed: int


@dataclass(slots=True)
class Names:
    """The names of a text, block by block."""

    blocks: list[tuple[Block, list[Declared]]] = field(default_factory=list)
    by_name: dict[str, list[Declared]] = field(default_factory=dict)

    def add(self, block: Block, found: list[Declared]) -> None:
        """Takes the names of a block."""
        self.blocks.append((block, found))
        for each in found:
            self.by_name.setdefault(each.name, []).append(each)

    def of(self, name: str, kind: str | None) -> list[Declared]:
        """What a name stands for: those of a kind where there are some, else all."""
        found = self.by_name.get(name, [])
        return [each for each in found if each.kind == kind] or found

    def all(self) -> Iterator[Declared]:
        """All names in the order of the text."""
        for _, found in self.blocks:
            yield from found


# what finds the names in the statements of a block, whose first character has a place
Inside = Callable[[list[Statement], int], list[Declared]]


def bare(name: str) -> str:
    """A name without its quotes and its indices."""
    plain = name[1:-1] if name[:1] == '"' else name
    return plain.split("[", 1)[0]


def blocks_of(text: str) -> Iterator[Block]:
    """The blocks of the top level. One that isn't closed ends where the next one begins a line, or with the text."""
    depth = front = 0
    block: Block | None = None
    for mark in MARK.finditer(text):
        if mark["top"] and block:
            block.closed = mark.start()
            yield block
            block, depth = None, 0
            front = mark.start()
        if mark["top"] or mark["brace"] == "{":
            depth += 1
            if depth == 1:
                block = _opened(text, front, mark.end() - 1)
        elif mark["brace"] and depth:
            depth -= 1
            if depth == 0 and block:
                block.closed, front = mark.start(), mark.end()
                yield block
                block = None
        elif mark["brace"] or depth == 0 and mark[0][:1] == "/":
            front = mark.end()
    if block:
        yield block


def _opened(text: str, front: int, opened: int) -> Block:
    """The block whose brace is opened at a place, its head being behind another place."""
    head = text[front:opened]
    front += head.rfind(";") + 1
    found = HEAD.search(text, front, opened)
    if not found:
        return Block("", "", (-1, -1), opened, opened, len(text))
    return Block(found["key"], bare(found["name"] or ""), found.span("name"), found.start(), opened, len(text))


def names_of(text: str) -> Names:
    """The names that a text declares."""
    names = Names()
    for block in blocks_of(text):
        found = [_of_block(text, block)] if block.keyword in NAMED and block.name else []
        if block.keyword not in ("Pattern", "", "Header"):
            # (what is half typed is ended)
            inside = outline(text[block.opened + 1 : block.closed] + ";" + 16 * "}")
            found += _INSIDE.get(block.keyword, _nothing)(inside, block.opened + 1)
        names.add(block, found)
    return names


def _of_block(text: str, block: Block) -> Declared:
    what = ""
    if block.keyword == "Pattern":
        count = sum(1 for _ in VECTOR.finditer(text, block.opened, block.closed))
        what = f"{count} vector{'' if count == 1 else 's'} written in it"
    return Declared(NAMED[block.keyword], block.name, *block.named, what, block.closed + 1)


def _declared(kind: str, token: Token, base: int, what: str, until: int = 0) -> Declared:
    start = base + token.start
    end = start + len(token.text)
    return Declared(kind, bare(token.text), start, end, what, max(until, end))


def _said(tokens: list[Token]) -> str:
    return " ".join(token.text for token in tokens)


def _last(statement: Statement) -> int:
    """The place behind the last token of a statement, as far as it has one."""
    places = [_last(below) for below in statement.block or []]
    if statement.head:
        places.append(statement.head[-1].start + len(statement.head[-1].text))
    return max(places, default=0)


def _nothing(statements: list[Statement], base: int) -> list[Declared]:
    return []


def _signals(statements: list[Statement], base: int) -> list[Declared]:
    signals = [statement for statement in statements if statement.head[0].kind != "sign"]
    return [_declared("signal", signal.head[0], base, _said(signal.head[1:]), base + _last(signal)) for signal in signals]


def _groups(statements: list[Statement], base: int) -> list[Declared]:
    groups = [statement for statement in statements if len(statement.head) > 1 and statement.head[1].text == "="]
    return [_declared("group", group.head[0], base, _said(group.head[2:]), base + _last(group)) for group in groups]


def _tables(statements: list[Statement], base: int) -> list[Declared]:
    found = []
    for table in statements:
        if table.keyword == "WaveformTable" and len(table.head) > 1:
            parts = {part.keyword: part for part in table.block or []}
            period = _said(parts["Period"].head[1:]) if "Period" in parts else "none of its own"
            waves = len(parts["Waveforms"].block or []) if "Waveforms" in parts else 0
            found.append(_declared("waveform table", table.head[1], base, f"period {period}, waveforms for {waves} references", base + _last(table)))
    return found


def _chains(statements: list[Statement], base: int) -> list[Declared]:
    found = []
    for chain in statements:
        if chain.keyword == "ScanChain" and len(chain.head) > 1:
            said = [_said(part.head) for part in chain.block or [] if part.keyword in ("ScanLength", "ScanIn", "ScanOut")]
            found.append(_declared("scan chain", chain.head[1], base, ", ".join(said), base + _last(chain)))
    return found


def _bodies(kind: str) -> Inside:
    def bodies(statements: list[Statement], base: int) -> list[Declared]:
        found = []
        for body in statements:
            if body.block is not None and body.head[0].kind != "sign":
                until = base + _last(body)
                count = len(body.block)
                shifts = any(part.keyword == "Shift" for part in body.block)
                what = f"{count} statement{'' if count == 1 else 's'}" + (", takes scan data" if shifts else "")
                found.append(_declared(kind, body.head[0], base, what, until))
        return found

    return bodies


def _variables(statements: list[Statement], base: int) -> list[Declared]:
    found = []
    for part in statements:
        if part.keyword == "Category" and len(part.head) > 1:
            found.append(_declared("category", part.head[1], base, f"{len(part.block or [])} variables", base + _last(part)))
            variables = [one for one in part.block or [] if one.head[0].kind != "sign"]
            found += [_declared("variable", one.head[0], base, _said(one.head[1:]), base + _last(one)) for one in variables]
    return found


_INSIDE: dict[str, Inside] = {
    "Signals": _signals, "SignalGroups": _groups, "Timing": _tables, "ScanStructures": _chains, "MacroDefs": _bodies("macro"),
    "Procedures": _bodies("procedure"), "Spec": _variables}

WORD_AT = re.compile(r'"[^"\n]*"|\w+')
BEFORE = re.compile(r'(\w+)[ \t]*\Z')


@dataclass(slots=True)
class Asked:
    """A word of a text: how it is written, its places, and what it may stand for (none where the words before it don't tell)."""

    word: str
    start: int
    end: int
    kind: str | None


def word_at(text: str, place: int, start: int, end: int) -> Asked | None:
    """The word at a place of a line that goes from one place to another."""
    for found in WORD_AT.finditer(text, start, end):
        if found.start() <= place <= found.end():
            before = BEFORE.search(text, start, found.start())
            return Asked(bare(found[0]), found.start(), found.end(), BEHIND.get(before[1]) if before else None)
    return None
