"""Which number of a line, or which count, is out of which range, where the program refuses it so."""

import re
from collections.abc import Iterator

from stilfloor import plans
from stilfloor.outline import Statement, Token, data_of, outline
from stilfloor.scans import MOST_BITS, signals_of
from stilfloor.shmoo import PLAIN, UNITS

MOST_LOOPS = 1 << 48
MOST_NAME = 1024
MOST_REPEATS = MOST_CELLS = 1 << 20
MOST_PERIOD = 10**12
LARGEST = (1 << 127) - 1
MOST_SIGNALS, MOST_GROUPS, MOST_EXECUTIVES, MOST_CHAINS, MOST_VARIABLES, MOST_TABLES, MOST_EVENTS = 1024, 4096, 64, 256, 1024, 64, 16
LITERAL = re.compile(r"(\d+)(?:\.(\d+))?")
# the place in the text, and the sentence
Told = tuple[int | None, str] | None


def of_text(text: str, line: int) -> Told:
    """The number of a text's line that is out of its range, or what there are too many of; none where that isn't known."""
    statements = outline(text)
    for statement, parent in _walk(statements):
        if statement.line == line:
            told = _literal(statement) or _number(statement) or _events(statement, parent)
            if told:
                return told
    return _count(statements, line)


def _walk(statements: list[Statement], parent: str = "") -> Iterator[tuple[Statement, str]]:
    """Statements and those within them, each with the keyword around it."""
    for statement in statements:
        yield statement, parent
        yield from _walk(statement.block or [], statement.keyword)


def _value(digits: str) -> int:
    """The number of digits, and one beyond all ranges where there are very many."""
    return int(digits) if len(digits.lstrip("0")) <= 60 else 1 << 200


def _number(statement: Statement) -> Told:
    """The number of a Loop, a Period, a ScanLength or a repeat, where it is out of its range."""
    head = statement.head
    if statement.keyword == "Loop" and len(head) > 1 and head[1].text.isdigit() and not 1 <= _value(head[1].text) <= MOST_LOOPS:
        return head[1].start, f"a Loop runs 1 to {MOST_LOOPS:,} times, and this one is to run {_short(head[1].text)} times"
    if statement.keyword == "Period" and len(head) == 2:
        found = PLAIN.fullmatch(head[1].plain)
        if found is None:
            return head[1].start, f"a period is more than 0 and at most 1ms: look at the value of '{head[1].plain}'"
        if not 0 < float(found[1]) * UNITS[found[2] or "fs"] <= MOST_PERIOD:
            return head[1].start, f"a period is more than 0 and at most 1ms, and this one is '{head[1].plain}'"
    if statement.keyword == "ScanLength" and len(head) > 1 and head[1].text.isdigit() and _value(head[1].text) > MOST_CELLS:
        return head[1].start, f"a chain has at most {MOST_CELLS:,} cells, and this ScanLength is {_short(head[1].text)}"
    data = data_of(statement)
    for sign, token in zip(data, data[1:]):
        if sign.text == "\\" and re.fullmatch(r"r\d+", token.text) and _value(token.text[1:]) > MOST_REPEATS:
            return sign.start, f"a repeat is at most {MOST_REPEATS:,} times, and this one is \\{_short(token.text)}"
    return None


def _literal(statement: Statement) -> Told:
    """A number in a time whose digits, or whose power of ten, are too many to be counted with."""
    for token in statement.head:
        for found in LITERAL.finditer(token.plain) if token.kind == "text" else []:
            if _value(found[1] + (found[2] or "")) > LARGEST or len(found[2] or "") > 38:
                return token.start, f"the number {_short(found[0])} has more digits than can be counted with, which are some 38"
    return None


def _short(number: str) -> str:
    return number if len(number) <= 48 else f"{number[:20]}..{number[-20:]}"


def _events(statement: Statement, parent: str) -> Told:
    """A waveform of too many events."""
    for wave in [statement, *(statement.block or [])]:
        count = sum(event.head[0].kind == "text" for event in wave.block or [] if event.head)
        if count > MOST_EVENTS and parent not in ("", "Timing"):
            return wave.head[0].start, f"a waveform has at most {MOST_EVENTS} events, and this one has {count}"
    return None


def _count(statements: list[Statement], line: int) -> Told:
    """What there are too many of from a line on."""
    signals = groups = executives = 0
    for block in statements:
        executives += block.keyword == "PatternExec"
        if block.line == line and executives > MOST_EXECUTIVES:
            return block.head[0].start, f"a text has at most {MOST_EXECUTIVES} executives, and this is one more"
        chains = tables = variables = 0
        for inner in block.block or []:
            signals += _declared(inner) if block.keyword == "Signals" else 0
            groups += block.keyword == "SignalGroups"
            chains += inner.keyword == "ScanChain"
            tables += inner.keyword == "WaveformTable"
            counts = ((signals, MOST_SIGNALS, "a text has", "signals"), (groups, MOST_GROUPS, "a text has", "groups"),
                      (chains, MOST_CHAINS, "a structure has", "chains"), (tables, MOST_TABLES, "a Timing has", "tables"))
            over = next((f"{has} at most {most:,} {what}, and here are {f'{count:,}' if count < 10**6 else 'many more'}"
                         for count, most, has, what in counts if count > most), "")
            if inner.line == line and over:
                return inner.head[0].start, over
            for part in inner.block or []:
                variables += block.keyword == "Spec" and inner.keyword == "Category"
                if part.line == line and variables > MOST_VARIABLES:
                    return part.head[0].start, f"an executive has at most {MOST_VARIABLES:,} variables, and here are {variables:,}"
                if part.line == line and part.keyword == "ScanCells":
                    return _cells(part)
    return None


def _cells(statement: Statement) -> Told:
    """Too many cells, or one whose name is too long."""
    long = next((token for token in statement.head if len(token.plain) > MOST_NAME), None)
    if long:
        return long.start, f"a name has at most {MOST_NAME:,} bytes, and that of this cell has {len(long.plain):,}"
    numbers = [_value(token.text) for token in statement.head if token.text.isdigit()]
    if sum(abs(first - last) for first, last in zip(numbers, numbers[1:])) + len(statement.head) > MOST_CELLS:
        return statement.head[0].start, f"a chain has at most {MOST_CELLS:,} cells, and more are listed here"
    return None


def _declared(statement: Statement) -> int:
    """How many signals a statement declares."""
    head: list[Token] = statement.head[:-1]
    numbers = [_value(token.text) for token in head if token.text.isdigit()]
    is_long = len(numbers) == 2 and abs(numbers[0] - numbers[1]) >= MOST_BITS
    return abs(numbers[0] - numbers[1]) + 1 if is_long else len(signals_of(head))


# of each row the numbers: the field, its name, the least and the most
FIELDS = {
    "lot": ((1, "B, the cycles of a batch", 1, 1_048_576), (2, "TRIES", 1, 8), (3, "F, the kept fails of a try", 0, plans.MOST_KEPT)),
    "die": ((1, "SITE", 0, 63),), "fault": ((1, "SITE", 0, 63), (4, "VALUE", 0, 1), (5, "TRIES", 1, 8)),
    "stop": ((1, "SITE", 0, 63), (3, "TRY", 1, 8), (4, "BATCH", 0, 1 << 48)), "bin": ((2, "E, an executive", 0, 63), (3, "N, the bin", 1, 99)),
    "skew": ((1, "SITE", 0, 63), (3, "FS", -(10**12), 10**12)),
}


def of_row(rows: list[list[str]], place: int, executives: int | None) -> str:
    """The field of a plan's row that is out of its range, or what there are too many of; nothing where that isn't known."""
    row = rows[place]
    for field, name, least, most in FIELDS.get(row[0], ()):
        word = row[field] if field < len(row) else ""
        if re.fullmatch(r"-?[0-9]+", word) and (len(word.lstrip("-")) > 20 or not least <= int(word) <= most):
            return f"field {field + 1} of this row ({name}) is {_short(word)}, and it goes from {least:,} to {most:,}"
    if row[0] == "bin" and executives is not None and re.fullmatch("[0-9]{1,2}", row[2]) and int(row[2]) >= executives:
        return f"field 3 of this row (E, an executive) is {row[2]}, and the program has {executives}, counted from 0"
    if row[0] != "die":
        return ""
    dies = sum(other[0] == "die" for other in rows[: place + 1])
    if dies > plans.MOST_DIES:
        return f"a plan has at most {plans.MOST_DIES:,} dies, and this is the {dies:,}th"
    tries, kept = (int(rows[0][field]) if rows[0][0] == "lot" and re.fullmatch("[0-9]{1,9}", rows[0][field]) else 0 for field in (2, 3))
    if dies * tries * kept > plans.MOST_FAILS:
        told = f"{dies:,} dies times {tries} {'try' if tries == 1 else 'tries'} times {kept:,} kept fails are more than {plans.MOST_FAILS:,}"
        return f"{told}: lower TRIES or F in the first row, or split the plan"
    return ""
