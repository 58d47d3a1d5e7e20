"""Patterns, macros and procedures: which statements stand in them, who calls whom, and rules for single statements."""

from collections.abc import Iterator
from dataclasses import dataclass, field

from stilfloor.fit.blocks import CONSTANTS, KNOWN, REMARK, TOP, integer
from stilfloor.fit.tokens import plain
from stilfloor.fit.tree import Statement, all_of
from stilfloor.fit.work import Work

VECTORS = ("V", "Vector")
CONDITIONS = ("C", "Condition")
FIXED = ("F", "Fixed")
TIED = ("E", "Equivalent")
ASSIGNING = frozenset((*VECTORS, *CONDITIONS, *FIXED))
ACTIVE = ("ActiveScanChains", "ScanChain")
TABLES = ("W", "WaveformTable")
CALLS = ("Call", "Macro")
KEPT = frozenset((*ASSIGNING, *TABLES, *CALLS, *TIED, *ACTIVE, "Loop", "Shift", "Stop", "BreakPoint", "IddqTestPoint", "IDDQTestPoint"))
PAUSE = "it runs while a tester pauses, so its vectors never enter the test"
STOPS = {
    "If": "what runs here depends on a condition that is met while the test runs, so its vectors aren't known",
    "While": "how often this runs depends on a condition that is met while the test runs",
    "MatchLoop": "how often this runs depends on what the die shows",
    "Goto": "what runs next depends on this jump, which the program doesn't make",
    "LoopData": "this moves data by itself; have the tool write a Shift, or vectors written out",
    "@": "this vector has a time of its own (a raw event), and a table's waveforms don't",
}


@dataclass(slots=True)
class Body:
    """A pattern, a macro or a procedure."""

    kind: str
    name: str
    statement: Statement
    callers: "list[tuple[Body, Statement]]" = field(default_factory=list)

    @property
    def kids(self) -> list[Statement]:
        """Its statements."""
        assert self.statement.kids is not None
        return self.statement.kids


@dataclass(slots=True)
class Bodies:
    """All bodies of a text, and those that a Call or Macro of a name may run."""

    all: list[Body] = field(default_factory=list)
    named: dict[tuple[str, str], list[Body]] = field(default_factory=dict)

    def called(self, work: Work, statement: Statement) -> list[Body]:
        """The bodies that a Call or Macro runs, by its name: in each MacroDefs or Procedures that has one."""
        head = work.head(statement)
        kind = "macro" if work.keyword(statement) == "Macro" else "procedure"
        return self.named.get((kind, plain(head[0])), []) if head else []


def bodies_of(work: Work) -> Bodies:
    """The bodies of a text."""
    bodies = Bodies()
    for block in work.statements:
        keyword = work.keyword(block)
        if keyword == "Pattern" and block.kids is not None:
            bodies.all.append(Body("pattern", plain(" ".join(work.head(block)[:1])), block))
        elif keyword in ("MacroDefs", "Procedures"):
            kind = "macro" if keyword == "MacroDefs" else "procedure"
            bodies.all += [Body(kind, plain(work.texts[one.start]), one) for one in block.kids or [] if one.kids is not None]
    for body in bodies.all:
        bodies.named.setdefault((body.kind, body.name), []).append(body)
    return bodies


def link(work: Work, bodies: Bodies) -> None:
    """Notes the callers of each body."""
    for body in bodies.all:
        for statement in all_of(body.kids):
            if work.keyword(statement) in CALLS:
                for called in bodies.called(work, statement):
                    called.callers.append((body, statement))


def fit_bodies(work: Work, bodies: Bodies, constants: dict[str, str]) -> None:
    """Rules for single statements of bodies: what goes leaves the tree."""
    for body in bodies.all:
        _fit_list(work, body.kids, constants)
        own = {id(statement) for statement in body.kids} if body.kind == "pattern" else set()
        for statement in all_of(body.kids):
            if work.keyword(statement) == "Stop" and id(statement) not in own:
                work.stop(statement.key, "the test ends here in the midst of a block, which the program does at a pattern's own level alone")


def _fit_list(work: Work, statements: list[Statement], constants: dict[str, str]) -> None:
    gone: set[int] = set()
    texts = work.texts
    for number, statement in enumerate(statements):
        keyword = texts[statement.key]
        if keyword in KEPT:
            if keyword not in ASSIGNING and keyword not in CALLS and _fit_kept(work, statement, keyword, constants):
                gone.add(number)
        elif keyword in STOPS:
            work.stop(statement.key, STOPS[keyword])
            gone.add(number)
        elif keyword in TOP or keyword in ("TimeUnit", "Variables", "SignalGroups") and keyword != "Include":
            gone.add(number)
            _drop(work, statement, keyword)
        else:
            gone.add(number)
            if keyword not in ("Include", "Else"):
                work.stop(statement.key, f"fit has no rule for {work.shown(statement)} in a pattern, macro or procedure")
    if gone:
        statements[:] = [statement for number, statement in enumerate(statements) if number not in gone]


def _drop(work: Work, statement: Statement, keyword: str) -> None:
    reasons = {"TimeUnit": "it is the unit of raw events, and none stands in the text", "SignalGroups": KNOWN,
               "Variables": CONSTANTS}
    work.drop(statement, reasons.get(keyword, TOP.get(keyword, REMARK)))


def _fit_kept(work: Work, statement: Statement, keyword: str, constants: dict[str, str]) -> bool:
    """One statement that stays, in its way; whether it leaves the tree for others."""
    if keyword == "BreakPoint" and statement.open >= 0:
        if statement.open == statement.key + 1:
            work.change(statement.key, "`BreakPoint { .. }` written `BreakPoint;`", PAUSE)
            work.blank(statement.open, statement.end + 1)
            work.texts[statement.open] = ";" + work.texts[statement.open]
        else:
            work.stop(statement.key, "fit has no rule for a BreakPoint of this form")
        return True
    if keyword == "IDDQTestPoint":
        work.change(statement.key, "`IDDQTestPoint` written `IddqTestPoint`", "no current is measured")
        work.texts[statement.key] = "IddqTestPoint"
    elif keyword == "Loop":
        _count(work, statement, constants)
    if keyword in ("Loop", "Shift") and statement.kids is not None:
        _fit_list(work, statement.kids, constants)
    return False


def _count(work: Work, statement: Statement, constants: dict[str, str]) -> None:
    """`Loop 'n'` of a constant becomes its number."""
    head = work.head(statement)
    if len(head) == 1 and head[0].isdigit():
        return
    text = plain(head[0]) if len(head) == 1 else " ".join(head)
    count = integer(text, constants) if head else None
    if count is None:
        work.stop(statement.key, f"how often this Loop runs, `{text}`, is no constant of the text" if head else STOPS["While"])
    elif count < 1:
        work.stop(statement.key, f"this Loop runs {count} times, and the program's Loops run once at least")
    else:
        work.change(statement.key, f"`Loop {head[0] if len(head) == 1 else text}` written `Loop {count}`", "the value of its constant expression")
        work.put(statement.key + 1, statement.open, f" {count} ")


def vectors_of(work: Work, statements: list[Statement]) -> Iterator[Statement]:
    """The statements that assign, in loops and shifts too."""
    return (statement for statement in all_of(statements) if work.keyword(statement) in ASSIGNING)
