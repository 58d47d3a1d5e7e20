"""What is being fitted: the tokens of a text, the edits that were made in them with their reasons, and where it stops."""

import bisect
from dataclasses import dataclass, field
from typing import NamedTuple

from stilfloor.faults import REFUSED, Fault, shown
from stilfloor.fit.tokens import Tokens
from stilfloor.fit.tree import Assignment, Statement, Tree, assignments, tree_of

# tokens of a statement's head that a message shows
MOST_SHOWN = 6


class Change(NamedTuple):
    """An edit: the file and line, what was changed, and why the test is the same."""

    file: str
    line: int
    what: str
    why: str
    is_edit: bool = True

    def told(self) -> str:
        """The line that is printed."""
        return f"{shown(self.file)}:{self.line}: fitted: {shown(self.what)}: {shown(self.why)}"


@dataclass(slots=True)
class Inlined:
    """Tokens of another file that stand in the line of their Include: from `start` up to `end`."""

    start: int
    end: int
    file: str


@dataclass(slots=True)
class Work:
    """A text on its way: edits change its tokens in place, so that a statement keeps its places."""

    file: str
    tokens: Tokens
    unit: str = ""
    tree: Tree = field(default_factory=Tree)
    inlined: list[Inlined] = field(default_factory=list)
    skipped: dict[str, int] = field(default_factory=dict)
    before: dict[int, str] = field(default_factory=dict)
    changes: dict[Change, None] = field(default_factory=dict)
    stops: dict[tuple[str, int, str], Fault] = field(default_factory=dict)

    @property
    def texts(self) -> list[str]:
        """The tokens' texts."""
        return self.tokens.texts

    @property
    def statements(self) -> list[Statement]:
        """The statements outside all blocks."""
        return self.tree.statements

    def grow(self) -> None:
        """Cuts the tokens into statements."""
        self.tree = tree_of(self.texts)

    def where(self, place: int) -> tuple[str, int]:
        """The file and line of a token."""
        line = self.tokens.lines[place]
        if not self.inlined:
            return self.file, line
        number = bisect.bisect_right(self.inlined, place, key=lambda part: part.start) - 1
        if number >= 0 and place < self.inlined[number].end:
            return self.inlined[number].file, line
        return self.file, line

    def line(self, place: int) -> str:
        """The line of a token as a reason names it: with its file where that is another."""
        file, line = self.where(place)
        return f"line {line}" if file == self.file else f"{file}:{line}"

    def change(self, place: int, what: str, why: str, is_edit: bool = True) -> None:
        """Notes an edit, or what is told though it stays."""
        self.changes[Change(*self.where(place), what, why, is_edit)] = None

    def stop(self, place: int, text: str) -> None:
        """Notes a place at which the test would change, or for which there is no rule."""
        file, line = self.where(place)
        self.stops[file, line, text] = Fault(REFUSED, text, file, line)

    def blank(self, start: int, end: int) -> None:
        """Takes the tokens from `start` up to `end` out; line feeds inside them stay."""
        texts = self.tokens.texts
        texts[start:end] = ["\n" * text.count("\n") if "\n" in text else "" for text in texts[start:end]]

    def put(self, start: int, end: int, text: str) -> None:
        """Puts a text in place of the tokens from `start` up to `end`."""
        texts = self.tokens.texts
        self.blank(start, end)
        texts[start] = text + texts[start]

    def insert(self, place: int, text: str) -> None:
        """Puts a text before a token."""
        self.before[place] = self.before.get(place, "") + text

    def drop(self, statement: Statement, why: str, what: str = "") -> None:
        """Takes a statement out."""
        self.change(statement.key, f"{what or self.shown(statement)} dropped", why)
        self.blank(statement.start, statement.end + 1)

    def shown(self, statement: Statement) -> str:
        """A statement as a message names it: its head, and dots for a block."""
        start, end = statement.key, min(statement.head_end, statement.key + MOST_SHOWN)
        head = self.texts[start] + "".join((" " if self.tokens.gaps[place] else "") + self.texts[place] for place in range(start + 1, end))
        dots = " .." if statement.head_end > end else ""
        return f"`{' '.join(head.split())}{dots}{' { .. }' if statement.open >= 0 else ';'}`"

    def keyword(self, statement: Statement) -> str:
        """The keyword of a statement."""
        return self.tokens.texts[statement.key]

    def label(self, statement: Statement) -> str:
        """The label of a statement, as it is written."""
        return self.texts[statement.start] if statement.key > statement.start else ""

    def head(self, statement: Statement) -> list[str]:
        """The tokens of a statement's head behind its keyword."""
        return self.texts[statement.key + 1 : statement.head_end]

    def assignments(self, statement: Statement) -> list[Assignment]:
        """The assignments of a statement's block that aren't skipped."""
        found = assignments(self.tokens.texts, statement)
        if self.skipped:
            return [part for part in found if not self.is_skipped(part.start)]
        return found

    def is_skipped(self, place: int) -> bool:
        """Whether a statement that begins here begins with a word of an earlier UserKeywords."""
        since = self.skipped.get(self.texts[place])
        return since is not None and since < place

    def text(self) -> str:
        """The text with its edits."""
        for place, put in self.before.items():
            self.texts[place] = put + self.texts[place]
        self.before.clear()
        return self.tokens.joined()
