"""Signals that are fixed (F) or tied to each other (E): what the statements behind say of them."""

from collections.abc import Iterator
from dataclasses import dataclass, field

from stilfloor.fit.bodies import ASSIGNING, FIXED, TIED, Bodies, Body
from stilfloor.fit.items import call_data, runs_of
from stilfloor.fit.signals import Names
from stilfloor.fit.tree import Statement, all_of
from stilfloor.fit.work import Work

# of a signal: the characters that statements behind give it, each with the place of one that does
Given = dict[str, dict[str, int]]


@dataclass(slots=True)
class Fixing:
    """What the check of F statements needs."""

    work: Work
    names: Names
    bodies: Bodies
    tracked: frozenset[str] = frozenset()
    open: set[int] = field(default_factory=set)
    macros: dict[int, Given] = field(default_factory=dict)
    callers: dict[int, Given] = field(default_factory=dict)

    def of_callers(self, body: Body) -> Given:
        """The characters that the callers of a body give its signals."""
        if id(body) not in self.callers:
            given: Given = {}
            for _, call in body.callers:
                for signal, text, place in runs_of(self.work, self.names, call, self.tracked):
                    for character in set(text):
                        given.setdefault(signal, {}).setdefault(character, place)
            self.callers[id(body)] = given
        return self.callers[id(body)]


def fit_fixed(work: Work, names: Names, bodies: Bodies) -> None:
    """Writes F as C where no statement behind it gives its signals another character."""
    found = [(body, statement) for body in bodies.all for statement in all_of(body.kids) if work.keyword(statement) in FIXED]
    if not found:
        return
    fixing = Fixing(work, names, bodies)
    fixing.tracked = frozenset(signal for _, statement in found for signal, _, _ in runs_of(work, names, statement))
    for body in {id(body): body for body, _ in found}.values():
        _backward(fixing, body, body.kids, {})


def _backward(fixing: Fixing, body: Body, statements: list[Statement], behind: Given) -> None:
    """Goes through statements from the last to the first; `behind` gathers what they give."""
    work = fixing.work
    for statement in reversed(statements):
        keyword = work.keyword(statement)
        if keyword in FIXED:
            _fix(fixing, statement, behind)
        if keyword in ASSIGNING:
            _give(fixing, body, statement, behind)
        elif keyword == "Macro":
            _merge(behind, _of_macro(fixing, statement))
        elif keyword in ("Loop", "Shift") and statement.kids is not None:
            for inner in all_of(statement.kids):
                if work.keyword(inner) in ASSIGNING:
                    _give(fixing, body, inner, behind)
                elif work.keyword(inner) == "Macro":
                    _merge(behind, _of_macro(fixing, inner))
            _backward(fixing, body, statement.kids, behind)


def _merge(into: Given, other: Given) -> None:
    for signal, characters in other.items():
        for character, place in characters.items():
            into.setdefault(signal, {}).setdefault(character, place)


def _give(fixing: Fixing, body: Body, statement: Statement, behind: Given) -> None:
    """Adds what an assigning statement gives; for `#` and `%` what the body's callers give."""
    last = {signal: (text, place) for signal, text, place in runs_of(fixing.work, fixing.names, statement, fixing.tracked)}
    for signal, (text, place) in last.items():
        characters = behind.setdefault(signal, {})
        for character in set(text):
            if character in "#%":
                _merge(behind, {signal: fixing.of_callers(body).get(signal, {})})
            else:
                characters.setdefault(character, place)


def _of_macro(fixing: Fixing, call: Statement) -> Given:
    """What the bodies that a Macro runs give, with this call's arguments; a Call puts back what it changes, so it gives nothing."""
    given: Given = {}
    data = call_data(fixing.work, fixing.names, call)
    for called in fixing.bodies.called(fixing.work, call):
        for signal, characters in _literal(fixing, called).items():
            for character, place in characters.items():
                if character in "#%":
                    for one in set(data[signal][0]) if signal in data else ():
                        given.setdefault(signal, {}).setdefault(one, data[signal][1])
                else:
                    given.setdefault(signal, {}).setdefault(character, place)
    return given


def _literal(fixing: Fixing, body: Body) -> Given:
    """What the statements of a macro give, `#` and `%` standing for its arguments."""
    key = id(body)
    if key in fixing.macros or key in fixing.open:
        return fixing.macros.get(key, {})
    fixing.open.add(key)
    given: Given = {}
    for statement in all_of(body.kids):
        keyword = fixing.work.keyword(statement)
        if keyword in ASSIGNING:
            for signal, text, place in runs_of(fixing.work, fixing.names, statement, fixing.tracked):
                for character in set(text):
                    given.setdefault(signal, {}).setdefault(character, place)
        elif keyword == "Macro":
            _merge(given, _of_macro(fixing, statement))
    fixing.open.discard(key)
    fixing.macros[key] = given
    return given


def _fix(fixing: Fixing, statement: Statement, behind: Given) -> None:
    """One F: it becomes C, or it stops."""
    work = fixing.work
    for signal, text, _ in runs_of(work, fixing.names, statement):
        other = [(place, character) for character, place in behind.get(signal, {}).items() if character not in text]
        if len(set(text)) != 1 or text in "#%":
            work.stop(statement.key, f"F fixes `{signal}` at no one character, so what it is fixed at isn't known")
            return
        if other:
            place, character = min(other)
            work.stop(statement.key, f"F fixes `{signal}` at {text[0]}, and {work.line(place)} gives it {character} behind it: "
                                     "which of the two is meant isn't known")
            return
    work.change(statement.key, f"`{work.keyword(statement)}` written `C`",
                "a character stays until another is assigned, and no statement behind it assigns these signals another one")
    work.texts[statement.key] = "C"


@dataclass(slots=True)
class Tie:
    """An E: its signals, first those that have the same characters, then those that have them by a map."""

    same: list[tuple[str, ...]] = field(default_factory=list)
    mapped: list[tuple[tuple[str, ...], dict[str, str]]] = field(default_factory=list)


def fit_tied(work: Work, names: Names, bodies: Bodies) -> None:
    """Takes E out where each statement behind it that assigns one of its signals assigns all of them, by its map."""
    for body in bodies.all:
        seen: dict[str, bool] = {}
        for statements in _lists(body.kids):
            for statement in [one for one in statements if work.keyword(one) in TIED]:
                head = "".join(work.head(statement))
                if head not in seen:
                    seen[head] = _fit_tie(work, names, bodies, body, statement)
                if seen[head]:
                    work.drop(statement, "each statement behind it that gives its first signal a character gives the others theirs too")
            statements[:] = [one for one in statements if work.texts[one.end]]


def _lists(statements: list[Statement]) -> Iterator[list[Statement]]:
    yield statements
    for statement in statements:
        if statement.kids:
            yield from _lists(statement.kids)


def _fit_tie(work: Work, names: Names, bodies: Bodies, body: Body, statement: Statement) -> bool:
    tie = _tie(work, names, statement)
    if not tie:
        work.stop(statement.key, f"fit has no rule for {work.shown(statement)} of this form, or a name in it isn't known")
        return False
    for one, owner, callers in _behind(work, bodies, body, statement):
        if why := _breach(work, names, tie, one, owner, callers):
            work.stop(statement.key, f"E ties signals, and {work.line(one.key)} {why}: which of the two is meant isn't known")
            return False
    return True


def _tie(work: Work, names: Names, statement: Statement) -> Tie | None:
    """The signals of an E; None where it can't be read."""
    tie = Tie()
    head, place = work.head(statement), 0
    if statement.open >= 0:
        return None
    while place < len(head):
        is_mapped = head[place : place + 2] == ["\\", "m"]
        place += 2 * is_mapped
        end = place + 1
        if head[place + 1 : place + 2] == ["["]:
            end = head.index("]", place) + 1 if "]" in head[place:] else len(head)
        members = names.members(head[place:end])
        if not members:
            return None
        if is_mapped:
            made = names.attributes_of(head[place:end])
            if made and made.unread:
                return None
            tie.mapped.append((members, made.single if made else {}))
        else:
            tie.same.append(members)
        place = end
    size = {len(members) for members in tie.same} | {len(members) for members, _ in tie.mapped}
    return tie if len(size) == 1 and len(tie.same) + len(tie.mapped) > 1 else None


Calls = list[tuple[Body, Statement]]


def _behind(work: Work, bodies: Bodies, body: Body, tied: Statement) -> Iterator[tuple[Statement, Body, Calls]]:
    """The statements that assign behind an E: in its body, in a Loop round it, and in macros that run behind it; with their callers."""
    place = tied.key
    for outer in all_of(body.kids):
        if work.keyword(outer) in ("Loop", "Shift") and outer.start < place < outer.end:
            place = outer.start
            break
    seen: set[int] = set()
    for statement in all_of(body.kids):
        if statement.start < place:
            continue
        if work.keyword(statement) in ASSIGNING:
            yield statement, body, body.callers
        elif work.keyword(statement) == "Macro":
            yield from _in_macros(work, bodies, body, statement, seen)


def _in_macros(work: Work, bodies: Bodies, caller: Body, call: Statement, seen: set[int]) -> Iterator[tuple[Statement, Body, Calls]]:
    for called in bodies.called(work, call):
        if id(called) in seen:
            continue
        seen.add(id(called))
        for statement in all_of(called.kids):
            if work.keyword(statement) in ASSIGNING:
                yield statement, called, called.callers
            elif work.keyword(statement) == "Macro":
                yield from _in_macros(work, bodies, called, statement, seen)


def _breach(work: Work, names: Names, tie: Tie, statement: Statement, body: Body, callers: Calls) -> str:
    """How a statement breaks a tie; nothing where it doesn't. A map goes one way, from the first signals to the mapped ones."""
    given = {signal: text for signal, text, _ in runs_of(work, names, statement)}
    leaders = tie.same or [tie.mapped[0][0]]
    for number, leader in enumerate(leaders[0]):
        column = [members[number] for members in leaders if members[number] in given]
        if not column:
            continue
        if len(column) < len(leaders):
            missing = next(members[number] for members in leaders if members[number] not in given)
            return f"gives `{column[0]}` a character and `{missing}` none"
        others = [(members[number], single) for members, single in tie.mapped] + [(members[number], {}) for members in leaders[1:]]
        for signal, single in others:
            if why := _differs(work, names, given, leader, signal, single, callers):
                return why
    return ""


def _differs(work: Work, names: Names, given: dict[str, str], leader: str, signal: str, single: dict[str, str], callers: Calls) -> str:
    """How a signal has other data than its leader's."""
    if signal not in given:
        return f"gives `{leader}` a character and `{signal}` none"
    first, second = given[leader], given[signal]
    pairs = [(first, second, "")]
    if "#" in first + second or "%" in first + second:
        pairs = []
        for _, call in callers:
            data = call_data(work, names, call)
            one = data[leader][0] if first in "#%" and leader in data else "" if first in "#%" else first
            two = data[signal][0] if second in "#%" and signal in data else "" if second in "#%" else second
            size = max(len(one), len(two), 1)
            one, two = (one * size if len(one) == 1 else one), (two * size if len(two) == 1 else two)
            pairs.append((one, two, f" by the data of {work.line(call.key)}"))
    for one, two, where in pairs:
        if "".join(single.get(character, character) for character in one) != two:
            return f"gives `{leader}` and `{signal}` characters that don't match{where}"
    return ""
