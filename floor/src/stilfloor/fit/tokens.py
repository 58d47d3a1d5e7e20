"""The tokens of a STIL text without loss: each with the gap before it and its line, so that all of them joined are the text again."""

import re
import sys
from array import array
from collections.abc import Callable, Iterator
from dataclasses import dataclass, field
from itertools import accumulate, chain

# (an open quote or comment reaches to the end of what is looked at, so that a piece of a text is never cut within a token)
GAP = r"(?:[ \t\n\f\r]+|//[^\n]*|/\*(?:.*?\*/|.*\Z)|Ann(?!\w)[ \t\n\f\r]*(?:\{\*(?:.*?\*\}|.*\Z)|\{\Z|\Z))*+"
TOKEN = r"""(?:\w++|"[^"]*+(?:"|\Z)|'[^']*+(?:'|\Z)|.)"""
LEADING = re.compile(GAP, re.DOTALL | re.ASCII)
ALONE = re.compile(TOKEN, re.DOTALL | re.ASCII)
# a token with the gap behind it
PIECE = re.compile(TOKEN + GAP, re.DOTALL | re.ASCII)
MOST = 1 << 18
WORD = re.compile(r"\w+", re.ASCII)


@dataclass(slots=True)
class Tokens:
    """The tokens of a text: their texts, the gaps before them, and their lines; `tail` is the gap behind the last one."""

    texts: list[str] = field(default_factory=list)
    gaps: list[str] = field(default_factory=list)
    lines: "array[int]" = field(default_factory=lambda: array("I"))
    tail: str = ""

    def joined(self) -> str:
        """The text."""
        return "".join(chain.from_iterable(zip(self.gaps, self.texts))) + self.tail


def _pieces(text: str, place: int) -> Iterator[tuple[list[str], int]]:
    """The tokens with the gaps behind them, part by part, each with the place where it ends."""
    size = MOST
    while place < len(text):
        end = min(place + size, len(text))
        pieces = PIECE.findall(text, place, end)
        if end < len(text):
            # (what is cut off may be the front of a comment, which is of the gap of the token before it)
            if len(pieces) < 3:
                size *= 2
                continue
            end -= len(pieces.pop()) + len(pieces.pop())
        place, size = end, MOST
        yield pieces, place


def tokens_of(text: str, at: Callable[[int], None] = lambda place: None) -> Tokens:
    """The tokens of a text; `at` is told how far it is read."""
    leading = LEADING.match(text)
    first = leading.group() if leading else ""
    made = Tokens(gaps=[first])
    line = 1 + first.count("\n")
    for pieces, place in _pieces(text, len(first)):
        known = {piece: _cut(piece) for piece in set(pieces)}
        made.texts += [known[piece][0] for piece in pieces]
        made.gaps += [known[piece][1] for piece in pieces]
        starts = list(accumulate([known[piece][2] for piece in pieces], initial=line))
        line = starts.pop()
        made.lines.extend(starts)
        at(place)
    made.tail = made.gaps.pop()
    return made


def _cut(piece: str) -> tuple[str, str, int]:
    """A token, the gap behind it, and their line feeds."""
    found = ALONE.match(piece)
    end = found.end() if found else 0
    return sys.intern(piece[:end]), sys.intern(piece[end:]), piece.count("\n")


def is_word(text: str) -> bool:
    """Whether a token is a word."""
    return WORD.match(text) is not None


def is_name(text: str) -> bool:
    """Whether a token is a word or stands in double quotes."""
    return text[:1] == '"' or WORD.match(text) is not None


def plain(text: str) -> str:
    """What a token says between its quotes."""
    return text[1:-1] if text[:1] in "\"'" else text
