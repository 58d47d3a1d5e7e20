"""The worked cases, as docs/formats/cases.md says how they are written; tools/quick reads them by this too."""

import re
from collections.abc import Iterator, Mapping
from dataclasses import dataclass, field

from stilfloor.plans import read_text

# what a case says of the outside that a program on real files can't be given
OUTSIDE = ("offline", "loads", "room", "fails", "empty", "desk")
# what changes nothing for a program on real files: how much the sink takes at once, and further runs
BESIDE = ("takes", "loaded", "bytewise", "sockets")
BRACES = re.compile(r"\{(?:(\d+)\*([^{}]*)|(\d+)(?:\+(\d+))?)\}")


@dataclass(slots=True)
class Case:
    """A case: its title, its words and its files by name, and the exit status and the output that are wanted. `is_divided` where its words are
    those of `lots`; `is_left` where a program on real files can't be given what it says of the outside."""

    title: str
    words: list[str] = field(default_factory=list)
    files: dict[str, bytes] = field(default_factory=dict)
    status: int = 0
    want: bytes = b""
    is_divided: bool = False
    is_left: bool = False


class Reader:
    """Reads the lines of a file of cases; `texts` are contents that the file may put in by their names."""

    def __init__(self, texts: Mapping[str, bytes]) -> None:
        self.texts = dict(texts)
        self.cases: list[Case] = []
        self.content = bytearray()
        self.place: tuple[str, str] = ("", "")
        self.repeated: list[str] | None = None
        self.passes = 0

    def read(self, line: str) -> None:
        """One line."""
        if self.repeated is not None:
            if line == "end":
                self.content += b"".join(self._content(some, number) for number in range(self.passes) for some in self.repeated)
                self.repeated = None
            else:
                self.repeated.append(line)
        elif line[:1] in ("|", "~", "=", "<"):
            self.content += self._content(line, 0)
        elif line and not line.startswith("#"):
            word, _, rest = line.partition(" ")
            self._said(word, _filled(rest, 0))

    def _content(self, line: str, number: int) -> bytes:
        if line.startswith("<"):
            return self.texts[line[1:]]
        if line.startswith("="):
            return bytes.fromhex(line[1:])
        return (_filled(line[1:], number) + ("" if line.startswith("~") else "\n")).encode("latin-1")

    def _said(self, word: str, rest: str) -> None:
        """What a line's first word says."""
        if word in ("text", "file", "case", "status"):
            self.close()
            self.place = word, rest
            self.cases += [Case(rest)] if word == "case" else []
        elif word == "repeat":
            self.repeated, self.passes = [], int(rest)
        elif word == "words":
            self.cases[-1].words += rest.split()
        elif word == "word":
            self.cases[-1].words.append(rest)
        elif word == "divided":
            self.cases[-1].is_divided = True
        elif word in OUTSIDE or word == "sockets" and re.search("[1-9]", rest):
            self.cases[-1].is_left = True
        elif word not in BESIDE:
            raise ValueError(f"no case says `{word}`")

    def close(self) -> None:
        """Hands on the content that has been read."""
        kind, name = self.place
        if kind == "text":
            self.texts[name] = bytes(self.content)
        elif kind == "file":
            self.cases[-1].files[name] = bytes(self.content)
            self.cases[-1].is_left |= not name or "/" in name
        elif kind == "status":
            self.cases[-1].status, self.cases[-1].want = int(name), bytes(self.content)
        self.content.clear()
        self.place = ("", "")


def _filled(line: str, number: int) -> str:
    """A line with what its braces say in the pass of this number."""
    return BRACES.sub(lambda found: found[2] * int(found[1]) if found[1] else str(int(found[3]) * number + int(found[4] or 0)), line)


def cases_of(file: str, texts: Mapping[str, bytes]) -> list[Case]:
    """All cases of a file, which may put in these texts by their names; words and names of files are read byte by byte.

    Raises Fault where the file can't be read, and ValueError where a line of it says nothing that a case can say.
    """
    reader = Reader(texts)
    for line in read_text(file).split("\n"):
        reader.read(line)
    reader.close()
    return reader.cases


def lots_of(file: str) -> Iterator[Case]:
    """The cases of lots that can be run."""
    for case in cases_of(file, {"usage": b"", "usage of lots": b""}):
        is_lot = case.words[:1] == ["lot"] and len(case.words) == 3 and {case.words[1], case.words[2]} <= set(case.files)
        if is_lot and not case.is_left and not case.is_divided:
            yield case
