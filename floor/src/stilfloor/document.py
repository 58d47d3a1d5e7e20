"""A text that is open in an editor: its lines, its places in UTF-16 as editors count them, and changes of it.

A place is a number of a character from 0 on. An editor's position is a line and a number of UTF-16 units in it, both from 0; lines end
with a line feed, a carriage return, or both. The program counts line feeds alone, from 1.
"""

import re
from bisect import bisect_right
from dataclasses import dataclass, field

END_OF_LINE = re.compile(r"\r\n|\n|\r")
Position = dict[str, int]
Range = dict[str, Position]


def units(text: str) -> int:
    """How many UTF-16 units a text has."""
    return len(text) if text.isascii() else len(text.encode("utf-16-le", "surrogatepass")) // 2


def behind(text: str, count: int) -> int:
    """How many characters the first UTF-16 units of a text are; half a character counts as none."""
    if text.isascii():
        return max(0, min(count, len(text)))
    return len(text.encode("utf-16-le", "surrogatepass")[: 2 * max(0, count)].decode("utf-16-le", "ignore"))


@dataclass(slots=True)
class Document:
    """A text with its version, and where its lines begin."""

    text: str
    version: int = 0
    starts: list[int] = field(default_factory=list)
    is_plain: bool = False

    def __post_init__(self) -> None:
        self.starts = [0, *(end.end() for end in END_OF_LINE.finditer(self.text))]
        # (in a text of ASCII a unit is a character, whatever its lines are)
        self.is_plain = self.text.isascii()

    def line(self, number: int) -> str:
        """A line without what ends it."""
        end = self.starts[number + 1] if number + 1 < len(self.starts) else len(self.text)
        return self.text[self.starts[number] : end].rstrip("\r\n")

    def place(self, position: Position) -> int:
        """The place of an editor's position; one behind the end of a line or of the text is that end."""
        number = position["line"]
        if number >= len(self.starts):
            return len(self.text)
        return self.starts[number] + behind(self.line(number), position["character"])

    def position(self, place: int) -> Position:
        """An editor's position of a place."""
        number = bisect_right(self.starts, place) - 1
        if self.is_plain:
            return {"line": number, "character": place - self.starts[number]}
        return {"line": number, "character": units(self.text[self.starts[number] : place])}

    def range(self, start: int, end: int) -> Range:
        """An editor's range from a place to another."""
        return {"start": self.position(start), "end": self.position(end)}

    def changed(self, changes: list[dict[str, object]], version: int) -> "Document":
        """The document behind changes, one after another: each of a range, or of the whole text."""
        document = self
        for change in changes:
            text, span = str(change["text"]), change.get("range")
            if isinstance(span, dict):
                start, end = document.place(span["start"]), document.place(span["end"])
                text = document.text[:start] + text + document.text[max(start, end) :]
            document = Document(text, version)
        return document

    def words_of_line(self, fed: int) -> Range:
        """The range of what is written on a line that is counted by line feeds from 1."""
        start = 0
        for _ in range(fed - 1):
            found = self.text.find("\n", start)
            if found < 0:
                break
            start = found + 1
        end = self.text.find("\n", start)
        line = self.text[start : len(self.text) if end < 0 else end]
        front = len(line) - len(line.lstrip())
        return self.range(start + front, start + max(front, len(line.rstrip())))
