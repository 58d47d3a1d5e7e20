"""The tree of statements over a text's tokens: where each begins, where its block opens, and where it ends. No meaning."""

from collections.abc import Iterator
from dataclasses import dataclass, field

from stilfloor.fit.tokens import is_name

MARKS = frozenset("{};")
# statements whose blocks are assignments: these are cut only where they are looked at
LEAVES = frozenset(("V", "Vector", "C", "Condition", "F", "Fixed", "Call", "Macro"))

# how many blocks stand round the statements of bodies
DEPTHS = {"Pattern": 1, "MacroDefs": 2, "Procedures": 2}


@dataclass(slots=True, eq=False)
class Statement:
    """A statement: the places of its first token, of its keyword behind a label, of its `{` (-1 where it has none), and of its end."""

    start: int
    key: int
    open: int
    end: int
    kids: "list[Statement] | None" = None

    @property
    def head_end(self) -> int:
        """The place behind its head."""
        return self.end if self.open < 0 else self.open


@dataclass(slots=True)
class Tree:
    """The statements outside all blocks, and where braces don't match, the place of the first such token."""

    statements: list[Statement] = field(default_factory=list)
    broken: int = -1


def keyword_place(texts: list[str], start: int, end: int) -> int:
    """The place of a statement's keyword: behind a label `name :` where it has one."""
    if end - start > 2 and texts[start + 1] == ":" and is_name(texts[start]):
        return start + 2
    return start


def tree_of(texts: list[str], first: int = 0, last: int | None = None) -> Tree:
    """The tree of the tokens from `first` up to `last`."""
    end = len(texts) if last is None else last
    tree = Tree()
    stack: list[tuple[Statement | None, list[Statement]]] = [(None, tree.statements)]
    start, depth = first, 0
    leaf: Statement | None = None
    for place in [number for number in range(first, end) if texts[number] in MARKS]:
        mark = texts[place]
        if leaf is not None:
            depth += (mark == "{") - (mark == "}")
            if depth == 0:
                leaf.end, leaf = place, None
                start = place + 1
        elif mark == "{":
            leaf, depth = _opened(texts, start, place, stack), 1
            start = place + 1
        else:
            if start < place and mark == ";":
                stack[-1][1].append(Statement(start, keyword_place(texts, start, place), -1, place))
            elif mark == "}" and not _closed(stack, place) or start < place:
                tree.broken = place if tree.broken < 0 else tree.broken
            start = place + 1
    if (len(stack) > 1 or leaf or start < end) and tree.broken < 0:
        tree.broken = end - 1
    return tree


def _opened(texts: list[str], start: int, place: int, stack: list[tuple[Statement | None, list[Statement]]]) -> Statement | None:
    """Opens a block; the statement, where its block is one of assignments."""
    statement = Statement(start, keyword_place(texts, start, place), place, place)
    stack[-1][1].append(statement)
    if texts[statement.key] in LEAVES and statement.key < place and _is_in_body(texts, stack):
        return statement
    statement.kids = []
    stack.append((statement, statement.kids))
    return None


def _is_in_body(texts: list[str], stack: list[tuple[Statement | None, list[Statement]]]) -> bool:
    """Whether statements of a pattern, macro or procedure stand here: elsewhere `C` and `V` may be signals."""
    outer = stack[1][0] if len(stack) > 1 else None
    return outer is not None and len(stack) > DEPTHS.get(texts[outer.key], len(stack))


def _closed(stack: list[tuple[Statement | None, list[Statement]]], place: int) -> bool:
    """Closes the innermost block, where there is one."""
    if len(stack) == 1:
        return False
    statement, _ = stack.pop()
    assert statement is not None
    statement.end = place
    return True


def all_of(statements: list[Statement]) -> Iterator[Statement]:
    """The statements and those in their blocks, in text order."""
    stack = [iter(statements)]
    while stack:
        for statement in stack[-1]:
            yield statement
            if statement.kids:
                stack.append(iter(statement.kids))
                break
        else:
            stack.pop()


@dataclass(slots=True, eq=False)
class Assignment:
    """A `ref = data;` of a block: the places of its first token, its `=` (-1 where there is none), and its end."""

    start: int
    equals: int
    end: int


def assignments(texts: list[str], statement: Statement) -> list[Assignment]:
    """The assignments of a statement's block."""
    found: list[Assignment] = []
    if statement.open < 0:
        return found
    start, end = statement.open + 1, statement.end
    while start < end:
        try:
            stop = texts.index(";", start, end)
        except ValueError:
            stop = end
        if stop > start:
            try:
                equals = texts.index("=", start, stop)
            except ValueError:
                equals = -1
            found.append(Assignment(start, equals, stop))
        start = stop + 1
    return found
