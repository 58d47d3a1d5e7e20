"""Rules for scan: chains that are named as active, looks before a Shift, loads without scan-out data, and pins of two groups."""

from collections.abc import Iterator
from dataclasses import dataclass, field

from stilfloor.fit.bodies import ACTIVE, ASSIGNING, CALLS, Bodies, Body
from stilfloor.fit.items import call_data, items, runs_of
from stilfloor.fit.signals import Names
from stilfloor.fit.timing import Waves
from stilfloor.fit.tokens import plain
from stilfloor.fit.tree import Assignment, Statement, all_of
from stilfloor.fit.work import Work

MOST_DEEP = 64
DRIVEN = ("In", "Supply", "Pseudo")


@dataclass(slots=True)
class Shift:
    """A Shift of a body: how many items of each of its signals were taken before it, and the last item that each got before it."""

    statement: Statement
    signals: list[str]
    taken: dict[str, int]
    before: dict[str, str]


@dataclass(slots=True)
class Scan:
    """What the scan rules need."""

    work: Work
    names: Names
    waves: Waves
    bodies: Bodies
    lengths: dict[str, int]
    chains: dict[str, set[int]]
    shifts: dict[int, list[Shift]] = field(default_factory=dict)
    nested: dict[int, list[Statement]] = field(default_factory=dict)
    filled: set[int] = field(default_factory=set)

    def of(self, body: Body) -> list[Shift]:
        """The Shifts of a body."""
        if id(body) not in self.shifts:
            self.shifts[id(body)] = self._shifts(body)
        return self.shifts[id(body)]

    def _shifts(self, body: Body) -> list[Shift]:
        found: list[Shift] = []
        taken: dict[str, int] = {}
        before: dict[str, str] = {}
        for statement in body.kids:
            keyword = self.work.keyword(statement)
            if keyword in ASSIGNING:
                for signal, text, _ in runs_of(self.work, self.names, statement):
                    before[signal] = text
                    if text == "#":
                        taken[signal] = taken.get(signal, 0) + 1
            elif keyword == "Shift" and statement.kids is not None:
                inside = {signal for one in all_of(statement.kids) if self.work.keyword(one) in ASSIGNING
                          for signal, text, _ in runs_of(self.work, self.names, one) if text == "#"}
                found.append(Shift(statement, sorted(inside), dict(taken), dict(before)))
                taken.update(dict.fromkeys(inside, 1 << 40))
        return found

    def passes(self, shift: Shift, data: dict[str, tuple[str, int]]) -> int:
        """How often a Shift passes with these arguments."""
        return max(0, *(len(data[signal][0]) - shift.taken.get(signal, 0) for signal in shift.signals if signal in data), 0)

    def calls_of(self, body: Body) -> list[Statement]:
        """The Call and Macro statements of a body."""
        if id(body) not in self.nested:
            self.nested[id(body)] = [statement for statement in all_of(body.kids) if self.work.keyword(statement) in CALLS]
        return self.nested[id(body)]


def fit_active(scan: Scan) -> None:
    """Takes ActiveScanChains and ScanChain out where each Shift behind them passes as often as the longest chain is long."""
    for body in scan.bodies.all:
        if any(scan.work.keyword(statement) in ACTIVE for statement in all_of(body.kids)):
            _fit_active_list(scan, body, body.kids, [])


@dataclass(slots=True)
class Active:
    """A statement that names chains, the length of the longest one, and whether it stopped."""

    statement: Statement
    length: int
    is_stopped: bool = False


def _fit_active_list(scan: Scan, body: Body, statements: list[Statement], now: list[Active]) -> None:
    """The statements of one list; `now` holds the last one that names chains."""
    work = scan.work
    own: list[Active] = []
    for statement in statements:
        keyword = work.keyword(statement)
        if keyword in ACTIVE:
            own.append(_active(scan, statement))
            now[:] = own[-1:]
        elif keyword == "Loop" and statement.kids is not None:
            _fit_active_list(scan, body, statement.kids, now)
            # (what stands in front of it in the Loop runs behind it in the next pass)
            for inner in all_of(statement.kids):
                _check_active(scan, body, inner, now)
        else:
            if keyword == "Shift" and statement.kids is not None:
                _fit_active_list(scan, body, statement.kids, now)
            _check_active(scan, body, statement, now)
    for active in own:
        if not active.is_stopped:
            work.drop(active.statement, "each Shift behind it passes as often as the longest of its chains is long, by the longest of its data")
    gone = {id(active.statement) for active in own}
    statements[:] = [statement for statement in statements if id(statement) not in gone]


def chains_of(work: Work) -> dict[str, set[int]]:
    """The lengths of the chains of each name; groups of chains have those of their longest chain."""
    found: dict[str, set[int]] = {}
    groups: list[tuple[str, list[str]]] = []
    for block in work.statements:
        for statement in block.kids or [] if work.keyword(block) == "ScanStructures" else []:
            if work.keyword(statement) == "ScanChain":
                lengths = [work.head(part)[0] for part in statement.kids or [] if work.keyword(part) == "ScanLength" and work.head(part)]
                known = found.setdefault(plain(" ".join(work.head(statement)[:1])), set())
                known.update(int(length[:9]) for length in lengths if length.isdigit())
            elif work.keyword(statement) == "ScanChainGroups":
                groups += [(plain(work.texts[group.start]), [plain(work.texts[kid.start]) for kid in group.kids or []])
                           for group in statement.kids or []]
    for name, members in groups:
        longest = [max(found[member]) for member in members if found.get(member)]
        if len(longest) == len(members) and longest:
            found.setdefault(name, set()).add(max(longest))
    return found


def _active(scan: Scan, statement: Statement) -> Active:
    """What a statement says of chains; where a chain's length isn't known, it stops."""
    lengths: list[int] = []
    for text in scan.work.head(statement):
        known = scan.chains.get(plain(text), set())
        if len(known) != 1:
            scan.work.stop(statement.key, f"the chain `{plain(text)}` that is named here has no one ScanLength, so how far a Shift goes isn't known")
            return Active(statement, 0, True)
        lengths += known
    return Active(statement, max(lengths, default=0))


def _check_active(scan: Scan, body: Body, statement: Statement, now: list[Active]) -> None:
    """One statement behind those that name chains: the Shifts that it runs."""
    if not now or now[0].is_stopped or not now[0].length:
        return
    keyword = scan.work.keyword(statement)
    if keyword == "Shift":
        for shift in scan.of(body):
            if shift.statement is statement:
                any(_differs(scan, now[0], shift, call) for _, call in body.callers)
    elif keyword in CALLS:
        _check_call(scan, now[0], statement, 0)


def _check_call(scan: Scan, active: Active, call: Statement, deep: int) -> bool:
    """The Shifts that a Call or Macro runs, but for bodies that name chains themselves; whether one stops."""
    for called in scan.bodies.called(scan.work, call):
        if deep > MOST_DEEP or any(scan.work.keyword(one) in ACTIVE for one in called.kids):
            continue
        if any(_differs(scan, active, shift, call) for shift in scan.of(called)):
            return True
        if any(_check_call(scan, active, inner, deep + 1) for inner in scan.calls_of(called)):
            return True
    return False


def _differs(scan: Scan, active: Active, shift: Shift, call: Statement) -> bool:
    """Whether a Shift passes another number of times than the longest active chain is long, which stops."""
    if not shift.signals:
        return False
    passes = scan.passes(shift, call_data(scan.work, scan.names, call))
    if passes == active.length:
        return False
    scan.work.stop(active.statement.key,
                   f"the longest chain that is named here has {active.length} cells, and the Shift of {scan.work.line(shift.statement.key)} has data "
                   f"for {passes} passes by {scan.work.line(call.key)}: the standard pads to the chain, and the program to the longest data")
    active.is_stopped = True
    return True


def fit_loads(scan: Scan) -> None:
    """Puts X before a Shift whose padding would compare again, and scan-out data into loads that have none."""
    for body in scan.bodies.all:
        if body.kind == "pattern" or not scan.of(body):
            continue
        for _, call in body.callers:
            _fill(scan, body, call)
        for shift in scan.of(body):
            _quiet(scan, body, shift)


def _fill(scan: Scan, body: Body, call: Statement) -> None:
    """Scan-out data for a load that has none, where a look before the Shift takes some."""
    work = scan.work
    data = call_data(work, scan.names, call)
    shift = scan.of(body)[0]
    missing = [signal for signal, count in shift.taken.items() if count and signal not in data and signal in shift.signals]
    longest = scan.passes(shift, data)
    puts = []
    for signal in missing:
        length, quiet = scan.lengths.get(signal, 0), scan.waves.quiet(signal)
        if scan.names.directions.get(signal) in DRIVEN or not length or length > longest or quiet is None:
            work.stop(call.key, f"the Shift of {work.line(shift.statement.key)} and a vector before it take data of `{signal}`, and this load has none: "
                                "fit knows no characters without a look for as many cells")
            return
        puts.append(f'"{signal}"=\\r{length} {quiet} ;')
    if puts and id(call) not in scan.filled:
        scan.filled.add(id(call))
        work.change(call.key, f"data `{' '.join(puts)}` put in", "the load has no scan-out data, and these characters look at nothing")
        if call.open >= 0:
            work.insert(call.end, " ".join(puts) + " ")
        else:
            work.texts[call.end] = f" {{ {' '.join(puts)} }}"


def _quiet(scan: Scan, body: Body, shift: Shift) -> None:
    """`C { so=X; }` before a Shift that goes on with the data of a look and is padded by it."""
    work = scan.work
    looked = [signal for signal in shift.signals if shift.before.get(signal) == "#" and scan.names.directions.get(signal) not in DRIVEN]
    padded = []
    for _, call in body.callers if looked else []:
        data = call_data(work, scan.names, call)
        passes = scan.passes(shift, data)
        padded += [signal for signal in looked if len(data.get(signal, ("", 0))[0]) - shift.taken.get(signal, 0) < passes]
    wanted = [signal for signal in looked if signal in set(padded)]
    if not wanted:
        return
    puts = [(signal, scan.waves.quiet(signal)) for signal in wanted]
    if any(quiet is None for _, quiet in puts):
        work.stop(shift.statement.key, f"the last pass of this Shift is padded by the character at which a vector before it looks at `{wanted[0]}`, "
                                       "and no table has a character without a look for it")
        return
    text = " ".join(f'"{signal}"={quiet};' for signal, quiet in puts)
    work.change(shift.statement.key, f"`C {{ {text} }}` put in front of the Shift",
                "its last pass is padded by what the signals had, which would compare the first cell again; these characters look at nothing")
    work.insert(shift.statement.start, f"C {{ {text} }} ")


def fit_shared(scan: Scan) -> None:
    """Takes a pin out of the second of two groups with arguments where all its data there are X."""
    for body in scan.bodies.all:
        if body.kind != "pattern" and body.callers:
            for signal, first, later in list(_twice(scan, body)):
                _take_out(scan, body, signal, first, later)


def _arguments(scan: Scan, body: Body) -> Iterator[tuple[Statement, Assignment, tuple[str, ...]]]:
    """The assignments of a body that take arguments, with their signals."""
    for statement in all_of(body.kids):
        if scan.work.keyword(statement) in ASSIGNING:
            for part in scan.work.assignments(statement):
                if part.equals >= 0 and "#" in "".join(scan.work.texts[part.equals + 1 : part.end]):
                    members = scan.names.members(scan.work.texts[part.start : part.equals])
                    if members:
                        yield statement, part, members


def _twice(scan: Scan, body: Body) -> Iterator[tuple[str, str, list[Assignment]]]:
    """The signals that take arguments by two references: the first reference, and the assignments by the others."""
    seen: dict[str, str] = {}
    found: dict[str, tuple[str, list[Assignment]]] = {}
    for _, part, members in _arguments(scan, body):
        reference = "".join(scan.work.texts[part.start : part.equals])
        for member in members:
            first = seen.setdefault(member, reference)
            if first != reference and len(members) > 1:
                found.setdefault(member, (first, []))[1].append(part)
    return ((signal, first, later) for signal, (first, later) in found.items())


def _take_out(scan: Scan, body: Body, signal: str, first: str, later: list[Assignment]) -> None:
    """One pin of two groups: where callers give it data by both, those of the second are all X, or it stops."""
    work = scan.work
    references = {_name(work, part) for part in later}
    edits: list[tuple[Assignment, str]] = []
    for _, call in body.callers:
        parts = work.assignments(call)
        if not any(_name(work, part) == plain(first) for part in parts):
            continue
        for part in [part for part in parts if _name(work, part) in references]:
            known = items([text for text in work.texts[part.equals + 1 : part.end] if text]) or ""
            members = scan.names.members(work.texts[part.start : part.equals]) or ()
            given = known[members.index(signal) :: len(members)] if signal in members else ""
            if set(given) - {"X"} or _has_act(scan, signal):
                work.stop(part.start, f"`{signal}` is in two groups whose data {work.line(later[0].start)} takes, and here it has "
                                      f"{given} in the second one: the program keeps the data of one")
                return
            edits.append((part, "".join(character for number, character in enumerate(known) if members[number % len(members)] != signal)))
    for part, text in edits:
        _without(scan, part, signal, text)
    for part in later if edits else []:
        _as_literal(scan, part, signal)


def _name(work: Work, part: Assignment) -> str:
    """The reference of an assignment without quotes."""
    return plain("".join(work.texts[part.start : part.equals])) if part.equals >= 0 else ""


def _has_act(scan: Scan, signal: str) -> bool:
    """Whether a signal is driven or looked at where it has X."""
    return scan.waves.quiet(signal, False) != "X"


def _without(scan: Scan, part: Assignment, signal: str, text: str) -> None:
    """An argument without a signal."""
    work = scan.work
    reference = "".join(work.texts[part.start : part.equals])
    made = _reference_without(reference, signal)
    work.change(part.start, f"`{signal}` taken out of the data of {reference}", "its data there are X, at which it is neither driven nor looked at")
    work.put(part.start, part.equals, made)
    work.put(part.equals + 1, part.end, text)


def _reference_without(reference: str, signal: str) -> str:
    inner = plain(reference) if reference[:1] == "'" else reference
    return f"'{inner} - \"{signal}\"'"


def _as_literal(scan: Scan, part: Assignment, signal: str) -> None:
    """An assignment of `#` with X for a signal, since all data of it there are X."""
    work = scan.work
    reference = "".join(work.texts[part.start : part.equals])
    known = items([text for text in work.texts[part.equals + 1 : part.end] if text]) or ""
    work.change(part.start, f"`{signal}` taken out of {reference} and given X", "all its data there are X, and the program keeps data of one group alone")
    work.put(part.start, part.equals, _reference_without(reference, signal))
    work.put(part.equals + 1, part.end, known if len(known) == 1 else known[1:])
    work.insert(part.end, f'; "{signal}"=X')
