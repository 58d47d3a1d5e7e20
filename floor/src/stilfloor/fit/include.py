"""`Include`: the text of another file in the place of the statement that names it, all of it in that line."""

import os
import re
from array import array
from dataclasses import dataclass

from stilfloor.faults import Fault
from stilfloor.fit.tokens import Tokens, plain, tokens_of
from stilfloor.fit.tree import Statement, all_of, tree_of
from stilfloor.fit.work import Inlined, Work
from stilfloor.plans import read_text

MOST_DEEP = 16
MOST_BYTES = 1 << 24
PLACES = frozenset(("Header", "UserKeywords", "UserFunctions", "Environment"))
COMMENT = re.compile(r"//[^\n]*|(Ann[ \t\n\f\r]*\{\*.*?\*\}|/\*.*?\*/)|[ \t\n\f\r]+", re.DOTALL | re.ASCII)


@dataclass(slots=True)
class Found:
    """A file that is included: its path and its tokens, in one line."""

    path: str
    tokens: Tokens


def inline(work: Work, folders: list[str]) -> None:
    """Puts included files in their places, those that they include too."""
    for _ in range(MOST_DEEP):
        work.grow()
        found = [(statement, _found(work, statement, folders)) for statement in _includes(work)]
        ready = [(statement, file) for statement, file in found if file]
        if not ready:
            return
        _splice(work, ready)
    work.grow()
    for statement in _includes(work):
        work.stop(statement.key, f"files include each other more than {MOST_DEEP} deep; take an Include out")


def _includes(work: Work) -> list[Statement]:
    """The Include statements, but for those of blocks that are skipped."""
    top = [statement for statement in work.statements if work.keyword(statement) not in PLACES]
    return [statement for statement in all_of(top) if work.keyword(statement) == "Include" and statement.open < 0]


def _found(work: Work, statement: Statement, folders: list[str]) -> Found | None:
    """The file of an Include; where it isn't there, it stops."""
    head = work.head(statement)
    if not head or head[0][:1] not in "\"'" or len(head) > 3:
        work.stop(statement.key, "fit has no rule for an Include of this form; write `Include \"file\";`")
        return None
    name = plain(head[0])
    here = os.path.dirname(work.where(statement.key)[0])
    for folder in [here, *folders]:
        path = os.path.join(folder, name)
        if os.path.isfile(path):
            return _read(work, statement, path)
    work.stop(statement.key, f"the file `{name}` that is included here isn't found: what stands in it is part of the test; "
                             "give its folder by --include")
    return None


def _read(work: Work, statement: Statement, path: str) -> Found | None:
    """The tokens of an included file, without its first `STIL 1.0;`."""
    try:
        if os.path.getsize(path) > MOST_BYTES:
            raise Fault(1, "it has more than 16,777,216 bytes")
        tokens = tokens_of(read_text(path))
    except Fault as fault:
        work.stop(statement.key, f"the file `{path}` that is included here can't be read: {fault.text}")
        return None
    tree = tree_of(tokens.texts)
    if tree.broken >= 0 or any(text[:1] in "\"'" and (len(text) < 2 or text[-1] != text[0]) for text in tokens.texts):
        work.stop(statement.key, f"the braces or quotes of the file `{path}` that is included here don't match")
        return None
    tokens.gaps = [_in_one_line(gap) if "\n" in gap or "/" in gap else gap for gap in tokens.gaps]
    tokens.texts = [re.sub(r"\s+", " ", text) if "\n" in text else text for text in tokens.texts]
    first = tree.statements[0] if tree.statements else None
    if first and tokens.texts[first.key] == "STIL":
        behind = first.end + 1
        tokens = Tokens(tokens.texts[behind:], tokens.gaps[behind:], tokens.lines[behind:])
    return Found(path, tokens)


def _in_one_line(gap: str) -> str:
    """A gap without its line feeds, and without comments up to a line's end."""
    return COMMENT.sub(lambda found: found[1].replace("\n", " ") if found[1] else " ", gap) or " "


def _splice(work: Work, ready: list[tuple[Statement, Found]]) -> None:
    """Puts files in place of their statements."""
    old = work.tokens
    new = Tokens(tail=old.tail)
    parts: list[Inlined] = []
    place = 0

    def copy(end: int) -> None:
        shift = len(new.texts) - place
        for part in work.inlined:
            start, stop = max(part.start, place), min(part.end, end)
            if start < stop:
                parts.append(Inlined(start + shift, stop + shift, part.file))
        new.texts += old.texts[place:end]
        new.gaps += old.gaps[place:end]
        new.lines += old.lines[place:end]

    for statement, found in ready:
        copy(statement.start)
        name = plain(work.head(statement)[0])
        work.change(statement.key, f"`Include \"{name}\";` put in", f"the statements of {found.path} stand in its line")
        new.gaps.append(old.gaps[statement.start] + _feeds(work, statement))
        new.texts.append(";")
        new.lines.append(old.lines[statement.start])
        start = len(new.texts)
        new.texts += found.tokens.texts
        new.gaps += found.tokens.gaps
        new.lines += array("I", found.tokens.lines)
        parts.append(Inlined(start, len(new.texts), found.path))
        place = statement.end + 1
    copy(len(old.texts))
    work.tokens, work.inlined = new, sorted(parts, key=lambda part: part.start)


def _feeds(work: Work, statement: Statement) -> str:
    """The line feeds that stood inside a statement."""
    inner = work.tokens.gaps[statement.start + 1 : statement.end + 1] + work.texts[statement.start : statement.end + 1]
    return "\n" * sum(text.count("\n") for text in inner) + " "
