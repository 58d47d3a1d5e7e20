"""Times: exponents, labels and numbers without a unit written as the program reads them, by their exact values."""

import re
from collections.abc import Callable
from dataclasses import dataclass, field
from fractions import Fraction

from stilfloor.fit.tokens import plain

UNITS = {"s": Fraction(1), "ms": Fraction(1, 10**3), "us": Fraction(1, 10**6), "ns": Fraction(1, 10**9), "ps": Fraction(1, 10**12),
         "fs": Fraction(1, 10**15)}
# units of other things than times, with the letters of their powers of ten
OTHERS = re.compile(r"[EPTGMkmunpfa]?(?:V|A|W|Ohm|Hz|F|H|C|Cel|m)")
LEXEME = re.compile(r"""\s*(?:(?P<number>(?:\d+\.?\d*|\.\d+)(?:[eE][-+]?\d+)?)(?P<unit>\s*[A-Za-z]\w*)?
                        |(?P<name>"[^"]*"|[A-Za-z_][\w.]*)|(?P<sign>[-+*/(),]))""", re.VERBOSE | re.ASCII)
LABEL = re.compile(r'@\s*("[^"]*"|[A-Za-z_]\w*)?', re.ASCII)
MOST_DEEP = 64
MOST_DIGITS = 60
MOST_BYTES = 1 << 14
ANY = None
# the kind of a variable that is a time in one category and a plain number in another
BOTH = 99


class TimeStop(Exception):
    """A time that can't be written so that it means the same."""


@dataclass(slots=True)
class Part:
    """A piece of a time's text: what stands before it, and it."""

    gap: str
    text: str


@dataclass(slots=True)
class Value:
    """What is known of an expression: whether it is a time (1) or a plain number (0), ANY where both fit; its value without names."""

    kind: int | None
    value: Fraction | None
    first: int
    last: int
    terms: "list[Value]" = field(default_factory=list)


def number_text(value: Fraction) -> str:
    """A number as digits; one that has no end stays a fraction."""
    scaled, places = value, 0
    while scaled.denominator != 1 and places < MOST_DIGITS:
        scaled, places = scaled * 10, places + 1
    if scaled.denominator != 1:
        raise TimeStop("this time has no end as a decimal number")
    digits = str(scaled.numerator).rjust(places + 1, "0")
    return digits if places == 0 else f"{digits[:-places]}.{digits[-places:]}"


def time_text(value: Fraction) -> str:
    """A time by its largest unit of which it has one at least."""
    if value == 0:
        return "0ns"
    unit = next((unit for unit, factor in UNITS.items() if value >= factor), "fs")
    return number_text(value / UNITS[unit]) + unit


@dataclass(slots=True)
class Reader:
    """Reads one time. `kind_of` says of a variable whether it is a time, a plain number, or not known."""

    text: str
    kind_of: Callable[[str], int | None]
    unit: str = ""
    parts: list[Part] = field(default_factory=list)
    values: list[tuple[str, Fraction, int]] = field(default_factory=list)
    place: int = 0
    edits: list[str] = field(default_factory=list)
    names: list[str] = field(default_factory=list)
    lacking: list[Value] = field(default_factory=list)
    others: bool = False

    def cut(self) -> bool:
        """Cuts the text; False where it is no time."""
        place = 0
        while place < len(self.text.rstrip()):
            found = LEXEME.match(self.text, place)
            if not found:
                return False
            gap = self.text[place : found.end()][: len(self.text[place : found.end()]) - len(self.text[place : found.end()].lstrip())]
            if found["number"]:
                self._number(gap, found["number"], found["unit"] or "")
            else:
                self.parts.append(Part(gap, found["name"] or found["sign"]))
                self.values.append(("name", Fraction(0), 0) if found["name"] else (found["sign"], Fraction(0), 0))
            place = found.end()
        return bool(self.parts)

    def _number(self, gap: str, digits: str, unit: str) -> None:
        """A number with its unit, where an exponent, a blank before the unit, or a point without digits is written otherwise."""
        exponent = re.search(r"[eE]([-+]?\d+)$", digits)
        if exponent and abs(int(exponent[1][:6])) > 40:
            raise TimeStop(f"the exponent of `{digits}` is too large")
        bare = unit.strip()
        value = Fraction(digits.rstrip("."))
        if bare in UNITS:
            text = digits + bare
            if exponent:
                text = time_text(value * UNITS[bare])
                self.edits.append(f"`{digits}{bare}` as {text}")
            elif unit != bare or digits[0] == "." or digits[-1] == ".":
                text = number_text(value) + bare
                self.edits.append(f"`{(digits + unit).strip()}` as {text}")
            self.values.append(("number", value * UNITS[bare], 1))
        elif bare:
            self.others = bool(OTHERS.fullmatch(bare))
            raise TimeStop(f"`{digits}{bare}` isn't a number with a unit of time")
        else:
            text = digits
            if exponent or digits[0] == "." or digits[-1] == ".":
                text = number_text(value)
                self.edits.append(f"`{digits}` as {text}")
            self.values.append(("number", value, 0))
        self.parts.append(Part(gap, text))

    def read(self) -> Value | None:
        """What is known of the expression, None where it is none."""
        value = self._sum(0)
        return value if value and self.place == len(self.values) else None

    def _sum(self, deep: int) -> Value | None:
        first = self._term(deep)
        if not first:
            return None
        terms = [first]
        total = first.value
        while self.place < len(self.values) and self.values[self.place][0] in "+-":
            sign = self.values[self.place][0]
            self.place += 1
            term = self._term(deep)
            if not term:
                return None
            terms.append(term)
            total = None if total is None or term.value is None else total + term.value if sign == "+" else total - term.value
        kinds = {term.kind for term in terms if term.value != 0}
        if 1 in kinds:
            self.lacking += [term for term in terms if term.value != 0 and term.kind not in (1, ANY)]
        kind = 1 if 1 in kinds else kinds.pop() if len(kinds) == 1 else ANY
        return Value(kind, total, first.first, terms[-1].last, terms)

    def _term(self, deep: int) -> Value | None:
        value = self._factor(deep)
        while value and self.place < len(self.values) and self.values[self.place][0] in "*/":
            sign = self.values[self.place][0]
            self.place += 1
            other = self._factor(deep)
            value = _combined(value, sign, other) if other else None
        return value

    def _factor(self, deep: int) -> Value | None:
        if self.place >= len(self.values) or deep > MOST_DEEP:
            return None
        kind, value, power = self.values[self.place]
        first = self.place
        self.place += 1
        if kind == "number":
            return Value(power, value, first, first)
        if kind == "(":
            inner = self._sum(deep + 1)
            return self._closed(inner, first)
        if kind != "name":
            return None
        name = self.parts[first].text
        if name in ("min", "max") and self.place < len(self.values) and self.values[self.place][0] == "(":
            self.place += 1
            return self._call(first, deep)
        self.names.append(plain(name))
        return Value(self.kind_of(plain(name)), None, first, first)

    def _closed(self, inner: Value | None, first: int) -> Value | None:
        if not inner or self.place >= len(self.values) or self.values[self.place][0] != ")":
            return None
        self.place += 1
        return Value(inner.kind, inner.value, first, self.place - 1, [])

    def _call(self, first: int, deep: int) -> Value | None:
        """A min or max; its operands are of one kind."""
        inner = self._sum(deep + 1)
        operands = [inner]
        while inner and self.place < len(self.values) and self.values[self.place][0] == ",":
            self.place += 1
            inner = self._sum(deep + 1)
            operands.append(inner)
        if not inner or len(operands) < 2:
            return None
        kinds = {operand.kind for operand in operands if operand and operand.value != 0}
        if len(kinds) > 1:
            raise TimeStop("numbers with and without a unit are compared here")
        return self._closed(Value(kinds.pop() if kinds else ANY, None, first, first), first)

    def written(self) -> str:
        """The text of the parts."""
        return "".join(part.gap + part.text for part in self.parts)


def _combined(left: Value, sign: str, right: Value) -> Value:
    """A product or quotient."""
    kind = None if left.kind is None or right.kind is None else left.kind + right.kind if sign == "*" else left.kind - right.kind
    value = None
    if left.value is not None and right.value is not None and (sign == "*" or right.value):
        value = left.value * right.value if sign == "*" else left.value / right.value
    return Value(kind, value, left.first, right.last)


def with_unit(reader: Reader, value: Value) -> bool:
    """Gives numbers that are to be times their unit; whether there were some. Raises where it can't be known."""
    lacking = list(reader.lacking)
    if value.kind not in (1, ANY) and value.value != 0:
        lacking += [term for term in value.terms or [value] if term.value != 0 and term.kind != ANY]
    for term in lacking:
        if term.kind == BOTH:
            raise TimeStop("a variable here is a time in one category and a number without a unit in another")
        if term.kind != 0:
            raise TimeStop("this is no time: times are multiplied, or divided by each other, here")
        if reader.unit:
            alone = term.first == term.last and reader.values[term.first][0] == "number"
            reader.parts[term.last].text += reader.unit if alone else f"*1{reader.unit}"
    return bool(lacking)


@dataclass(frozen=True, slots=True)
class Written:
    """A time as it is to be written, what was done to it, and the variables that it names."""

    text: str
    edits: tuple[str, ...]
    names: tuple[str, ...]


def written(text: str, kind_of: Callable[[str], int | None], unit: str, labels: dict[str, str | None], is_time: bool) -> Written:
    """A time, or the text of a variable, as the program reads it. Raises where its value can't be known."""
    bare = unlabelled(text, labels) if "@" in text else text
    reader = Reader(bare, kind_of, unit)
    value = reader.read() if reader.cut() else None
    if value is None:
        return Written(text, (), ())
    edits = list(reader.edits)
    if is_time and with_unit(reader, value):
        if not unit:
            raise TimeStop(f"the time '{text}' has a number without a unit: say by --unit which one the tool means")
        edits.append(f"'{text}' in {unit}")
    made = reader.written()
    if bare != text:
        if value.value is not None and value.kind == 1 and not reader.lacking:
            made = _folded(value.value, made)
        edits.append(f"'{text}' as '{made}'")
    return Written(made, tuple(edits), tuple(reader.names))


def _folded(value: Fraction, made: str) -> str:
    """A value as one time where that has an end."""
    try:
        return time_text(value)
    except TimeStop:
        return made


def unlabelled(text: str, labels: dict[str, str | None], deep: int = 0) -> str:
    """A time with what its labels stand for in their place, in parentheses."""
    def meant(found: "re.Match[str]") -> str:
        name = plain(found[1] or "")
        if not name:
            raise TimeStop("`@` stands without a label here, and fit has no rule for it")
        stands = labels.get(name)
        if stands is None or deep > MOST_DEEP:
            raise TimeStop(f"the label `{name}` is that of no one event of this table, so `@{name}` isn't known")
        return f"({unlabelled(stands, labels, deep + 1)})"

    made = LABEL.sub(meant, text)
    if len(made) > MOST_BYTES:
        raise TimeStop("the labels that this time names make it longer than 16,384 bytes")
    return made
