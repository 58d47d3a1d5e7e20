"""What is likely not meant in scan data, waveforms and clocks, though the program accepts it."""

import re
from collections.abc import Iterator
from dataclasses import dataclass, field

from stilfloor import plans
from stilfloor.faults import Fault
from stilfloor.outline import Statement, Token, data_of, every, outline

ITEM = re.compile(r"\"[^\"]*\"|\w+(?:\s*\[\s*\d+(?:\s*\.\.\s*\d+)?\s*\])?", re.ASCII)
BITS = re.compile(r"(.+)\[(\d{1,5})\.\.(\d{1,5})\]", re.DOTALL)
MOST_BITS = 1 << 14
GATE = re.compile(r"=\s*DFF\s*\(", re.IGNORECASE)


@dataclass(slots=True)
class Ends:
    """The chains of a text by the signals at their ends, with their lengths; `several` are signals that end chains of several lengths."""

    chains: dict[str, tuple[str, int]] = field(default_factory=dict)
    several: set[str] = field(default_factory=set)

    def of(self, signals: list[str]) -> list[tuple[str, int]]:
        """The chains, and their lengths, at ends of which some signals stand; none where one of them ends chains of several lengths."""
        return [] if self.several & set(signals) else [self.chains[signal] for signal in signals if signal in self.chains]


def ends_of(statements: list[Statement]) -> Ends:
    """The ends of all chains."""
    ends = Ends()
    lengths: dict[str, set[int]] = {}
    for chain in every(statements):
        if chain.keyword != "ScanChain" or chain.block is None:
            continue
        parts = {part.keyword: part for part in chain.block}
        length = _length(parts)
        for end in ("ScanIn", "ScanOut"):
            signals = signals_of(parts[end].head[1:]) if end in parts else []
            if length is not None and len(signals) == 1:
                ends.chains[signals[0]] = chain.name, length
                lengths.setdefault(signals[0], set()).add(length)
    ends.several = {signal for signal, found in lengths.items() if len(found) > 1}
    return ends


def signals_of(head: list[Token]) -> list[str]:
    """The signals, or groups, that a reference names, in its order; none where that isn't a plain sum of names."""
    if len(head) == 1 and head[0].kind == "text":
        items = [item.strip() for item in head[0].plain.split("+")]
        if not all(ITEM.fullmatch(item) for item in items):
            return []
        return [signal for item in items for signal in _bits(item.replace('"', "").replace(" ", "") if item[:1] != '"' else item.strip('"'))]
    return _bits("".join(token.plain for token in head)) if head else []


def _bits(name: str) -> list[str]:
    """The signals of a name with a range of indices, or the name itself."""
    bits = BITS.fullmatch(name)
    if not bits:
        return [name]
    first, last = int(bits[2]), int(bits[3])
    step = 1 if last >= first else -1
    return [f"{bits[1]}[{bit}]" for bit in range(first, last + step, step)] if abs(last - first) < MOST_BITS else [name]


def _reference(assignment: Statement) -> list[str]:
    """The signals, or groups, to which an assignment gives data."""
    place = next((place for place, token in enumerate(assignment.head) if token.text == "="), len(assignment.head))
    return signals_of(assignment.head[:place])


def _length(parts: dict[str, Statement]) -> int | None:
    """How many cells a chain has: what ScanLength says, else how many are listed."""
    from stilfloor.lint import cells_of

    length = parts.get("ScanLength")
    if length and re.fullmatch("[0-9]{1,7}", length.name):
        return int(length.name)
    return cells_of(parts["ScanCells"]) if "ScanCells" in parts else None


def size_of(assignment: Statement) -> int | None:
    """How many waveform characters the data of an assignment have; none where that isn't plain."""
    count, times = 0, 1
    data = data_of(assignment)
    for number, token in enumerate(data):
        is_sign = number > 0 and data[number - 1].text == "\\"
        if token.text == "\\":
            continue
        if is_sign and re.fullmatch("r[0-9]{1,7}", token.text):
            times = int(token.text[1:])
        elif token.kind == "word" and not is_sign:
            count, times = count + times * len(token.text), 1
        else:
            return None
    return count


@dataclass(slots=True)
class Body:
    """A macro or a procedure: the signals whose data a Shift takes, and the vectors before it that take a character of some signals."""

    shifted: set[str] = field(default_factory=set)
    before: list[tuple[int, list[str]]] = field(default_factory=list)


def bodies_of(statements: list[Statement], groups: "Groups") -> dict[tuple[str, str], Body]:
    """The macros and procedures that shift, by the word that runs them and their name; of one name that stands twice there is none."""
    found: dict[tuple[str, str], Body] = {}
    twice: set[tuple[str, str]] = set()
    for block in statements:
        word = {"MacroDefs": "Macro", "Procedures": "Call"}.get(block.keyword)
        for body in (block.block or []) if word else []:
            key = (str(word), body.keyword)
            if key in found:
                twice.add(key)
            found[key] = _body(body, groups)
    return {key: body for key, body in found.items() if body.shifted and key not in twice}


def _body(body: Statement, groups: "Groups") -> Body:
    made = Body()
    for statement in body.block or []:
        if statement.keyword == "Shift":
            for vector in statement.block or []:
                for part in [part for part in vector.block or [] if any(token.text == "#" for token in data_of(part))]:
                    made.shifted |= set(groups.signals(_reference(part)))
        elif statement.keyword in ("V", "Vector") and not made.shifted:
            made.before += [(part.line, _reference(part)) for part in statement.block or [] if {token.text for token in data_of(part)} == {"#"}]
    return made


def scan_data(text: str) -> Iterator[tuple[int, str]]:
    """Scan data of another length than their chain, and vectors before a Shift that take its first character."""
    statements = outline(text)
    ends, groups = ends_of(statements), Groups(statements)
    bodies = bodies_of(statements, groups)
    for body in bodies.values():
        for line, reference in body.before:
            chains = ends.of([signal for signal in groups.signals(reference) if signal in body.shifted])
            if chains:
                yield line, (f"this vector takes the first scan character of `{' + '.join(reference)}`, before the Shift does: a fail here names no "
                             f"cell of the chain `{chains[0][0]}`, and the Shift has one character less")
    for call in every(statements):
        called = bodies.get((call.keyword, call.name)) if call.keyword in ("Call", "Macro") else None
        for argument in (call.block or []) if called else []:
            told = _wrong_length(argument, groups.exact(_reference(argument)), ends, called.shifted) if called else ""
            if told:
                yield argument.line, told


def _wrong_length(argument: Statement, signals: list[str], ends: Ends, shifted: set[str]) -> str:
    """What is said of data that aren't as long as the longest of the chains at whose ends their signals stand."""
    chains, size = ends.of([signal for signal in signals if signal in shifted]), size_of(argument)
    if not chains or not size or size % len(signals):
        return ""
    name, length = max(chains, key=lambda chain: chain[1])
    each = size // len(signals)
    if each == length:
        return ""
    reference = " + ".join(_reference(argument))
    what = f"the data of `{reference}` have {each} {'character' if each == 1 else 'characters'}"
    behind = f" for each of its {len(signals)} signals" if len(signals) > 1 else ""
    return f"{what}{behind}, and the chain `{name}` has {length} {'cell' if length == 1 else 'cells'}"


class Groups:
    """The groups that are sums of names, by which a reference is the signals that it names; of other groups nothing is known."""

    def __init__(self, statements: list[Statement]) -> None:
        self.members: dict[str, list[str]] = {}
        self.declared: dict[str, list[str]] = {}
        for block in statements:
            for group in (block.block or []) if block.keyword == "SignalGroups" else []:
                names = signals_of(group.head[2:3]) if len(group.head) == 3 else []
                if names:
                    self.members[group.keyword] = names
            for signal in (block.block or []) if block.keyword == "Signals" else []:
                for bit in _bits("".join(token.plain for token in signal.head[:-1])):
                    self.declared.setdefault(bit, [bit])
                    self.declared.setdefault(bit.partition("[")[0], []).extend([bit] if "[" in bit else [])

    def signals(self, names: list[str]) -> list[str]:
        """The signals of some names, groups resolved once each, in their order."""
        found: dict[str, None] = {}
        seen: set[str] = set()
        waiting = list(names)[::-1]
        while waiting:
            name = waiting.pop().strip('"')
            if name in self.members and name not in self.declared:
                waiting += self.members[name][::-1] if name not in seen else []
                seen.add(name)
            else:
                found.update(dict.fromkeys(self.declared.get(name) or [name]))
        return list(found)

    def exact(self, names: list[str]) -> list[str]:
        """The same where each of them is declared, else none."""
        signals = self.signals(names)
        return signals if all(signal in self.declared for signal in signals) else []


def second_waveforms(text: str) -> Iterator[tuple[int, str]]:
    """Waveforms of a character that a signal has in the same table already: the later one counts."""
    statements = outline(text)
    groups = Groups(statements)
    for table in every(statements):
        blocks = [block for block in table.block or [] if block.keyword == "Waveforms"] if table.keyword == "WaveformTable" else []
        lines: dict[tuple[str, str], int] = {}
        for pin in [pin for block in blocks for pin in block.block or []]:
            yield from _again(pin, groups.signals(signals_of(pin.head)), lines)


def _again(pin: Statement, signals: list[str], lines: dict[tuple[str, str], int]) -> Iterator[tuple[int, str]]:
    """The characters that one of the signals has already; `lines` says where each has each."""
    for wave in pin.block or []:
        for letter in wave.keyword:
            known = next((signal for signal in signals if (signal, letter) in lines), None)
            if known:
                yield wave.line, (f"`{known}` has a waveform of the character {letter} on line {lines[known, letter]} already, in the same table: this "
                                  "one counts, and that one doesn't")
            lines.update({(signal, letter): wave.line for signal in signals})


def flip_flops(file: str) -> int:
    """How many flip-flops a netlist has; none where it can't be read."""
    try:
        return len(GATE.findall(re.sub("#.*", "", plans.read_text(file))))
    except Fault:
        return 0


def without_clock(plan: plans.Plan) -> tuple[int, str] | None:
    """Where a plan has no clock and a die of it has flip-flops: the die's line, and what is said of it."""
    if any(row[0] == "clock" for row in plan.rows):
        return None
    seen: set[str] = set()
    for row, line in zip(plan.rows, plan.lines):
        if row[0] == "die" and len(row) > 3 and row[3] not in seen:
            seen.add(row[3])
            count = flip_flops(row[3])
            if count:
                return line, f"the plan has no clock, and {row[3]} has {count} flip-flops, which are never clocked"
    return None
