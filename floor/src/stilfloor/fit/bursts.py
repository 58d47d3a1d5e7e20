"""Rules for pattern bursts: entries with blocks of their own, and labels at which patterns start and stop."""

from collections.abc import Iterator
from dataclasses import dataclass, field

from stilfloor.fit.blocks import KNOWN, TOP
from stilfloor.fit.bodies import ASSIGNING, CALLS, CONDITIONS, FIXED, TABLES, TIED, VECTORS, Bodies, Body
from stilfloor.fit.items import runs_of
from stilfloor.fit.signals import Names
from stilfloor.fit.tokens import plain
from stilfloor.fit.tree import Statement, all_of
from stilfloor.fit.work import Work

NAMED = ("SignalGroups", "MacroDefs", "Procedures", "ScanStructures")
# statements that neither make a vector nor change a state
INERT = frozenset(("BreakPoint", "IddqTestPoint", "IDDQTestPoint", "X", "TimeUnit", "Environment", "ActiveScanChains", "ScanChain", "DCLevels",
                   "DCSets", "DCSequence", "Termination"))
# those that stay where what stands in front of a label is cut off: they make no vector, and what they set lasts
LASTING = INERT | {*TABLES, *CONDITIONS, *FIXED, *TIED}


@dataclass(slots=True)
class Ends:
    """The labels at which an entry of a burst starts and stops, with their places."""

    start: str = ""
    stop: str = ""
    start_place: int = -1
    stop_place: int = -1


@dataclass(slots=True)
class Entry:
    """An entry of a PatList, and the burst that it stands in."""

    burst: Statement
    statement: Statement
    name: str
    ends: Ends = field(default_factory=Ends)


@dataclass(slots=True)
class Bursts:
    """The bursts of a text and what they run."""

    work: Work
    names: Names
    bodies: Bodies
    entries: list[Entry] = field(default_factory=list)
    taken: set[str] = field(default_factory=set)


def fit_bursts(work: Work, names: Names, bodies: Bodies) -> None:
    """All bursts."""
    bursts = Bursts(work, names, bodies)
    blocks = [block for block in work.statements if work.keyword(block) == "PatternBurst" and block.kids is not None]
    bursts.taken = {plain(" ".join(work.head(block)[:1])) for block in work.statements if work.keyword(block) in ("PatternBurst", "Pattern")}
    for block in blocks:
        _fit_burst(bursts, block)
    _fit_ends(bursts)


def _fit_burst(bursts: Bursts, block: Statement) -> None:
    work = bursts.work
    own: dict[str, str] = {}
    ends = Ends()
    first = len(bursts.entries)
    for statement in block.kids or []:
        keyword = work.keyword(statement)
        if keyword in NAMED and statement.open < 0:
            head = work.head(statement)
            if head:
                own[keyword] = plain(head[0])
            elif keyword == "SignalGroups":
                work.drop(statement, KNOWN)
        elif keyword == "PatList" and statement.open >= 0:
            bursts.entries += [Entry(block, entry, plain(work.texts[entry.start])) for entry in statement.kids or []]
        elif keyword in ("Start", "Stop") and statement.open < 0 and len(work.head(statement)) == 1:
            _set_end(ends, keyword, plain(work.head(statement)[0]), statement.key)
            work.blank(statement.start, statement.end + 1)
        else:
            _fit_other(work, statement, keyword)
    entries = bursts.entries[first:]
    for entry in entries:
        _fit_entry(bursts, entry, own)
    if entries and ends.start_place >= 0:
        entries[0].ends.start, entries[0].ends.start_place = ends.start, ends.start_place
    if entries and ends.stop_place >= 0:
        entries[-1].ends.stop, entries[-1].ends.stop_place = ends.stop, ends.stop_place


def _set_end(ends: Ends, keyword: str, label: str, place: int) -> None:
    if keyword == "Start":
        ends.start, ends.start_place = label, place
    else:
        ends.stop, ends.stop_place = label, place


def _fit_other(work: Work, statement: Statement, keyword: str) -> None:
    """A statement of a burst that isn't read."""
    if keyword in TOP:
        work.drop(statement, TOP[keyword])
    elif keyword == "Variables" and statement.open < 0:
        work.drop(statement, "no statement that is left uses a variable")
    elif keyword == "ParallelPatList":
        work.stop(statement.key, "patterns that run beside each other can't be had: where they have to run, list them in a PatList, one after another")
    else:
        work.stop(statement.key, f"fit has no rule for {work.shown(statement)} in a PatternBurst")


def _fit_entry(bursts: Bursts, entry: Entry, own: dict[str, str]) -> None:
    """An entry's own names: those of its burst go, others make a burst of its own."""
    work = bursts.work
    others: list[Statement] = []
    for statement in entry.statement.kids or []:
        keyword, head = work.keyword(statement), work.head(statement)
        if keyword in ("Start", "Stop") and statement.open < 0 and len(head) == 1:
            _set_end(entry.ends, keyword, plain(head[0]), statement.key)
            work.blank(statement.start, statement.end + 1)
        elif keyword in NAMED and statement.open < 0 and len(head) <= 1:
            if keyword == "SignalGroups" or own.get(keyword, "") == plain("".join(head)):
                work.drop(statement, KNOWN if keyword == "SignalGroups" else "its burst names the same")
            elif keyword == "ScanStructures":
                work.stop(statement.key, "an entry of a PatList has scan structures of its own, and an executive has those of its burst")
            else:
                others.append(statement)
        elif keyword in TOP:
            work.drop(statement, TOP[keyword])
        else:
            work.stop(statement.key, f"fit has no rule for {work.shown(statement)} in an entry of a PatList")
    if others:
        _own_burst(bursts, entry, others)


def _own_burst(bursts: Bursts, entry: Entry, others: list[Statement]) -> None:
    """An entry with macros or procedures of its own becomes a burst."""
    work = bursts.work
    name = next(name for number in range(len(bursts.taken) + 1) if (name := f"{entry.name} {number or 'alone'}") not in bursts.taken)
    bursts.taken.add(name)
    inside = " ".join("".join(f"{text} " for text in work.texts[one.start : one.end]).strip() + ";" for one in others)
    for one in others:
        work.change(one.key, f"{work.shown(one)} of `{entry.name}` moved to a burst of its own, `{name}`", "the same macros and procedures for it")
        work.blank(one.start, one.end + 1)
    shown = work.texts[entry.statement.start]
    work.insert(entry.burst.start, f'PatternBurst "{name}" {{ {inside} PatList {{ {shown}; }} }} ')
    work.put(entry.statement.start, entry.statement.start + 1, f'"{name}"')


def _fit_ends(bursts: Bursts) -> None:
    """Cuts patterns at the labels at which they start and stop."""
    for number, entry in enumerate(bursts.entries):
        ends = entry.ends
        if ends.start_place < 0 and ends.stop_place < 0:
            continue
        patterns = bursts.bodies.named.get(("pattern", entry.name), [])
        place = ends.start_place if ends.start_place >= 0 else ends.stop_place
        if len(patterns) != 1:
            bursts.work.stop(place, f"`{entry.name}` is no one pattern, so where it starts and stops isn't known")
        elif sum(other.name == entry.name for other in bursts.entries) > 1:
            bursts.work.stop(place, f"the pattern `{entry.name}` runs elsewhere too, so it can't be cut")
        else:
            others = [other for other in bursts.entries[:number] if other.burst is not entry.burst] + bursts.entries[number + 1 :]
            _cut(bursts, patterns[0], ends, bool(others))


def _cut(bursts: Bursts, pattern: Body, ends: Ends, is_followed: bool) -> None:
    work = bursts.work
    kids = pattern.kids
    start = _place_of(work, pattern, ends.start, ends.start_place, "Start") if ends.start_place >= 0 else 0
    stop = _place_of(work, pattern, ends.stop, ends.stop_place, "Stop") if ends.stop_place >= 0 else len(kids) - 1
    if start is None or stop is None:
        return
    if stop < start:
        work.stop(ends.stop_place, f"the label `{ends.stop}` stands in front of `{ends.start}`")
        return
    before = [one for one in kids[:start] if work.keyword(one) not in LASTING]
    behind = [one for one in kids[stop + 1 :] if work.keyword(one) not in INERT]
    if why := _lost(bursts, before, kids[start : stop + 1]):
        work.stop(ends.start_place, f"what stands in front of the label `{ends.start}` {why}, so it can't be cut off")
        return
    if is_followed and (state := _state(bursts, behind)):
        work.stop(ends.stop_place, f"what stands behind the label `{ends.stop}` sets `{sorted(state)[0]}`, and another pattern follows")
        return
    _say(work, "Start", ends.start, ends.start_place, before)
    _say(work, "Stop", ends.stop, ends.stop_place, behind)
    for statement in before + behind:
        work.blank(statement.start, statement.end + 1)
    gone = {id(statement) for statement in before + behind}
    kids[:] = [statement for statement in kids if id(statement) not in gone]


def _say(work: Work, keyword: str, label: str, place: int, cut: list[Statement]) -> None:
    """Tells what became of a Start or Stop."""
    if place < 0:
        return
    side = "in front of" if keyword == "Start" else "behind"
    if not cut:
        work.change(place, f"`{keyword} {label};` dropped", f"no vector stands {side} that label")
        return
    work.change(place, f"`{keyword} {label};` done: what stands {side} the label is cut off", "it doesn't run, and no state is lost with it")
    work.change(cut[0].start, f"{len(cut)} statements {side} the label `{label}` cut off", f"the burst's {keyword} leaves them out")


def _place_of(work: Work, pattern: Body, label: str, place: int, keyword: str) -> int | None:
    """The number of the statement with a label; where it is no one statement of the pattern itself, it stops."""
    found = [number for number, statement in enumerate(pattern.kids) if plain(work.label(statement)) == label and work.label(statement)]
    everywhere = [one for one in all_of(pattern.kids) if work.label(one) and plain(work.label(one)) == label]
    if len(found) == 1 == len(everywhere):
        return found[0]
    if everywhere and not found:
        work.stop(place, f"the label `{label}` of {work.line(everywhere[0].start)} stands inside a block, where the test can't {keyword.lower()}")
    else:
        work.stop(place, f"the pattern `{pattern.name}` has no one statement with the label `{label}`")
    return None


def _state(bursts: Bursts, statements: list[Statement], deep: int = 0) -> set[str]:
    """What statements leave behind: the signals that they assign, and `W` for a table."""
    work = bursts.work
    found: set[str] = set()
    for statement in all_of(statements):
        keyword = work.keyword(statement)
        if keyword in TABLES:
            found.add("W")
        elif keyword in ASSIGNING:
            found.update(signal for signal, _, _ in runs_of(work, bursts.names, statement))
        elif keyword == "Macro" and deep <= 64:
            for called in bursts.bodies.called(work, statement):
                found |= _state(bursts, called.kids, deep + 1)
    return found


def _lost(bursts: Bursts, before: list[Statement], kept: list[Statement]) -> str:
    """Why what is kept needs what stands before it; nothing where it doesn't."""
    work = bursts.work
    strange = [one for one in before if work.keyword(one) not in (*VECTORS, *CALLS, "Loop")]
    if strange:
        return f"has {work.shown(strange[0])}"
    needed = _state(bursts, before)
    for statement in _running(bursts, kept, 0):
        keyword = work.keyword(statement)
        if keyword in TABLES:
            needed.discard("W")
        elif keyword in ASSIGNING:
            needed.difference_update([signal for signal, _, _ in runs_of(work, bursts.names, statement)])
        if not needed:
            return ""
        if keyword in VECTORS:
            break
    return f"sets `{'a table' if 'W' in needed else sorted(needed)[0]}`, which the first vector behind it needs" if needed else ""


def _running(bursts: Bursts, statements: list[Statement], deep: int) -> Iterator[Statement]:
    """Statements in the order in which they first run."""
    for statement in statements:
        yield statement
        if bursts.work.keyword(statement) in CALLS and deep <= 64:
            for called in bursts.bodies.called(bursts.work, statement)[:1]:
                yield from _running(bursts, called.kids, deep + 1)
        elif statement.kids:
            yield from _running(bursts, statement.kids, deep)
