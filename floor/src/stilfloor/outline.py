"""The outline of a STIL text: its tokens with their places, and its statements as heads and blocks.

It says where something is written, so that it can be told by its line or edited. What a text means, and whether it is one, is asked
of the program alone.
"""

import re
from collections.abc import Iterator
from dataclasses import dataclass, field

TOKEN = re.compile(
    r"""(?P<gap>[ \t\n\f\r]+|//[^\n]*|/\*.*?\*/|Ann[ \t\n\f\r]*\{\*.*?\*\})
      |(?P<word>\w+)|(?P<name>"[^"]*")|(?P<text>'[^']*')|(?P<sign>.)""",
    re.DOTALL | re.VERBOSE | re.ASCII,
)


@dataclass(slots=True)
class Token:
    """A token: its kind (word, name, text or sign), its text as it is written, and where it begins."""

    kind: str
    text: str
    start: int
    line: int

    @property
    def plain(self) -> str:
        """What a name or a text says between its quotes."""
        return self.text[1:-1] if self.kind in ("name", "text") else self.text


@dataclass(slots=True)
class Statement:
    """A statement: its head's tokens, its label if it has one, and the statements of its block."""

    head: list[Token]
    block: "list[Statement] | None" = None
    label: str = ""

    @property
    def keyword(self) -> str:
        """The first token of the head."""
        return self.head[0].plain if self.head else ""

    @property
    def name(self) -> str:
        """The second token of the head, where it has one."""
        return self.head[1].plain if len(self.head) > 1 else ""

    @property
    def line(self) -> int:
        """The line on which it begins."""
        return self.head[0].line if self.head else 0


@dataclass(slots=True)
class Frame:
    """A block that is being read."""

    statements: list[Statement] = field(default_factory=list)
    head: list[Token] = field(default_factory=list)


def tokens(text: str) -> Iterator[Token]:
    """The tokens of a text."""
    line, counted = 1, 0
    for found in TOKEN.finditer(text):
        if found.lastgroup == "gap":
            continue
        line += text.count("\n", counted, found.start())
        counted = found.start()
        yield Token(str(found.lastgroup), found.group(), found.start(), line)


def _closed(frame: Frame, block: list[Statement] | None) -> None:
    """Puts the statement whose head is ready behind the others; a label before its keyword is taken off."""
    head, frame.head = frame.head, []
    label = ""
    if len(head) > 2 and head[1].text == ":" and head[0].kind in ("word", "name"):
        label, head = head[0].plain, head[2:]
    if head:
        frame.statements.append(Statement(head, block, label))


def outline(text: str) -> list[Statement]:
    """The statements of a text. Of one that isn't well formed it is what can be made of it."""
    stack = [Frame()]
    skipped: set[str] = set()
    for token in tokens(text):
        frame = stack[-1]
        if token.text == "{":
            stack.append(Frame())
        elif token.text == "}" and len(stack) > 1:
            _closed(frame, None)
            stack.pop()
            _closed(stack[-1], frame.statements)
        elif token.text == ";":
            if frame.head and frame.head[0].text == "UserKeywords":
                skipped.update(word.text for word in frame.head[1:])
            _closed(frame, None)
        else:
            frame.head.append(token)
    return _without(stack[0].statements, skipped) if skipped else stack[0].statements


def _without(statements: list[Statement], skipped: set[str]) -> list[Statement]:
    """The statements without those that begin with a word of UserKeywords."""
    kept = [statement for statement in statements if statement.keyword not in skipped]
    for statement in kept:
        if statement.block:
            statement.block = _without(statement.block, skipped)
    return kept


def every(statements: list[Statement]) -> Iterator[Statement]:
    """Statements, and those in their blocks, in text order."""
    for statement in statements:
        yield statement
        yield from every(statement.block or [])


def data_of(statement: Statement) -> list[Token]:
    """The tokens of the data of an assignment: those behind its `=`."""
    for place, token in enumerate(statement.head):
        if token.text == "=":
            return statement.head[place + 1 :]
    return []


def line_at(text: str, place: int) -> int:
    """The line of a place in a text."""
    return text.count("\n", 0, place) + 1
