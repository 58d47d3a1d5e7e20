"""What a refusal is about, as far as its line and the program's own answers tell: the name, the character, the sign that is missing.

The program is asked of changed texts, so no second reader of STIL says what a text means; the outline says where something is written.
"""

import difflib
import os
import re
import tempfile
from collections.abc import Iterator

from stilfloor import tester
from stilfloor.faults import Fault
from stilfloor.outline import Statement, Token, data_of, every, outline, tokens

READ = frozenset("""STIL Header Title Date Source History Signals SignalGroups Spec Category Selector Timing WaveformTable Period
InheritWaveformTable Waveforms ScanStructures ScanChain ScanLength ScanIn ScanOut ScanCells ScanInversion ScanMasterClock MacroDefs Procedures
PatternBurst PatList PatternExec Pattern W V Vector C Condition Loop Macro Call Shift Stop BreakPoint IddqTestPoint UserKeywords UserFunctions In
Out InOut Supply Pseudo Min Typ Max Meas Ann ActiveLow""".split())
LEFT = frozenset("""Include Variables Goto MatchLoop MergedScan ScanRecord ScanSlaveClock Fixed Format F Force Base Alignment DefaultState
ScanOutLength DataBitCount Start StartPattern Termination SubWaveforms Environment PatternFailReport BreakPointNoBlock InheritWaveform
ParallelPatList LockStep TimingSync Extend Wait Inherit Infinite If Else While Constant Enum Instance Real Integer""".split())
NAME = re.compile(r"[A-Za-z_]\w*", re.ASCII)
UNITS = re.compile(r"(?:[EPTGMkmunpfa])?(?:s|A|V|Hz|Ohm|F|H|W|C|K|dB)")
OTHERS = "QqKkJjYyRrSs"


def near(name: str, names: list[str]) -> str:
    """The question whether another name was meant, where there is one like it."""
    likely = [other for other in dict.fromkeys(names) if abs(len(other) - len(name)) <= 3 and len(other) <= 64][:4096]
    folded = [other for other in likely if other.lower() == name.lower()]
    found = difflib.get_close_matches(name, likely, 1, 0.6)
    return f"; did you mean `{(folded or found)[0]}`?" if folded or found else ""


def of_text(fault: Fault, text: str) -> Fault:
    """The fault with what can be told besides; of kinds for which nothing is known it stays as it is."""
    teller = {"LeftOut": _left_out, "UnknownName": _unknown_name, "NoWave": _no_wave, "Shape": _shape, "OpenStatement": _shape,
              "OutOfRange": _out_of_range, "EventOutside": _no_unit, "EventOrder": _no_unit, "NotWhole": _no_unit}.get(fault.kind)
    told = teller(fault, text) if teller else None
    if told:
        place, sentence = told
        fault.text = f"{sentence} ({fault.text.rpartition(' (')[2]}"
        if place is not None and text.count("\n", 0, place) + 1 == fault.line:
            fault.column = place - text.rfind("\n", 0, place)
    return fault


Told = tuple[int | None, str] | None


def _on_line(text: str, line: int) -> list[Statement]:
    """The statements that begin on a line, outer ones first."""
    return [statement for statement in every(outline(text)) if statement.line == line]


def _left_out(fault: Fault, text: str) -> Told:
    for statement in _on_line(text, fault.line):
        token = statement.head[0]
        if token.kind != "word" or token.text in READ:
            continue
        if token.text in LEFT:
            return token.start, f"`{token.text}` is a part of STIL that the program doesn't read; take it out, or write it by what it reads"
        question = near(token.text, sorted(READ))
        if question:
            return token.start, f"`{token.text}` is no keyword{question}"
        return token.start, f"`{token.text}` is no keyword that the program knows here; mend it, or have it skipped by `UserKeywords {token.text};`"
    return None


class Names:
    """The names that a text declares, by what they are."""

    def __init__(self, text: str) -> None:
        self.kinds: dict[str, list[str]] = {}
        for block in outline(text):
            self._add(block.keyword, block.name if len(block.head) > 1 else "")
            for inner in block.block or []:
                if block.keyword in ("Signals", "SignalGroups", "MacroDefs", "Procedures"):
                    self._add(block.keyword, inner.keyword)
                elif inner.keyword in ("WaveformTable", "Category", "ScanChain"):
                    self._add(inner.keyword, inner.name)
                    for variable in inner.block or []:
                        self._add("variable", variable.keyword)
                elif block.keyword == "Spec" and inner.keyword == "Variable":
                    self._add("variable", inner.name)

    def _add(self, kind: str, name: str) -> None:
        self.kinds.setdefault(kind, []).append(name)

    def of(self, *kinds: str) -> list[str]:
        """The names of these kinds."""
        return [name for kind in kinds for name in self.kinds.get(kind, []) if name]


CALLED = {"W": ("waveform table", "WaveformTable"), "WaveformTable": ("waveform table", "WaveformTable"), "Macro": ("macro", "MacroDefs"),
          "Call": ("procedure", "Procedures"), "Timing": ("Timing", "Timing"), "Selector": ("Selector", "Selector"),
          "Category": ("Category", "Category"), "PatternBurst": ("burst", "PatternBurst"), "InheritWaveformTable": ("waveform table", "WaveformTable"),
          "ScanStructures": ("ScanStructures block", "ScanStructures"), "SignalGroups": ("SignalGroups block", "SignalGroups"),
          "MacroDefs": ("MacroDefs block", "MacroDefs"), "Procedures": ("Procedures block", "Procedures")}


def _wanted(statement: Statement, parent: str) -> Iterator[tuple[Token, str, str, tuple[str, ...]]]:
    """The names that a statement uses: the token, the name, what it is, and where it is declared."""
    head = statement.head
    if statement.keyword in CALLED and len(head) > 1 and not (statement.block is not None and parent == ""):
        what, kind = CALLED[statement.keyword]
        yield head[1], head[1].plain, what, (kind,)
    elif parent == "PatList":
        yield head[0], head[0].plain, "pattern or burst", ("Pattern", "PatternBurst")
    elif parent in ("V", "Vector", "C", "Condition", "Call", "Macro", "Waveforms", "SignalGroups"):
        front = head[2:] if parent == "SignalGroups" else head[: next((place for place, token in enumerate(head) if token.text == "="), len(head))]
        for token in front:
            for name in [token.plain] if token.kind in ("word", "name") else _members(token):
                yield token, name, "signal or group", ("Signals", "SignalGroups")
    for token in head:
        if token.kind == "text" and parent not in ("V", "C", "Waveforms", "SignalGroups", "Call", "Macro"):
            for found in NAME.finditer(token.plain):
                if not UNITS.fullmatch(found[0]) and not token.plain[: found.start()].rstrip()[-1:].isdigit():
                    yield token, found[0], "variable", ("variable",)


def _members(token: Token) -> list[str]:
    """The names in an expression of signals in quotes."""
    return [found.strip('"') for found in re.findall(r"\"[^\"]*\"|[A-Za-z_]\w*", token.plain)] if token.kind == "text" else []


def _walk(statements: list[Statement], parent: str = "") -> Iterator[tuple[Statement, str]]:
    for statement in statements:
        yield statement, parent
        yield from _walk(statement.block or [], statement.keyword)


def _unknown_name(fault: Fault, text: str) -> Told:
    names = Names(text)
    for statement, parent in _walk(outline(text)):
        for token, name, what, kinds in _wanted(statement, parent):
            declared = names.of(*kinds)
            if token.line == fault.line and re.sub(r"\[.*", "", name) not in {re.sub(r"\[.*", "", other) for other in declared}:
                return token.start, f"the {what} `{name}` is declared nowhere{near(name, declared) or '; look for a misspelling, or declare it'}"
    return None


def _shape(fault: Fault, text: str) -> Told:
    for statement in _on_line(text, fault.line):
        signs = [token for token in statement.head if token.text == "="]
        if len(signs) > 1:
            second = statement.head[statement.head.index(signs[1]) - 1]
            return second.start, f"a `;` is missing in front of `{second.plain}`"
        plus = next((token for token in statement.head if token.kind == "sign" and token.text in "+-"), None)
        if plus and statement.head[0].kind in ("word", "name"):
            behind = [token.plain for token in statement.head]
            expression = " ".join(behind[behind.index("=") + 1 :] if signs and behind.index("=") < behind.index(plus.text)
                                  else behind[: behind.index("=")] if signs else behind)
            return statement.head[0].start, f"an expression of signals stands in single quotes: write '{expression}'"
    return None


def _no_unit(fault: Fault, text: str) -> Told:
    from stilfloor.lint import times_without_units

    found = next(iter(times_without_units(text)), None)
    if not found:
        return None
    line, time, wanted = found
    return None, (f"{fault.text.rpartition(' (')[0]}; the time '{time}' on line {line} has no unit, which makes it femtoseconds: "
                  f"write one, as '{wanted}ns'")


def _out_of_range(fault: Fault, text: str) -> Told:
    from stilfloor import ranges

    return ranges.of_text(text, fault.line)


def _asked(text: str) -> tuple[str, str]:
    """The kind and line of the refusal of a text, by the program."""
    with tempfile.TemporaryDirectory() as room:
        path = os.path.join(room, "p.stil")
        with open(path, "w", encoding="latin-1", newline="") as out:
            out.write(text)
        words = tester.run(["check", path])[1].decode("latin-1").split()
    return (words[2], words[-1]) if words[:2] == ["refused", "stil"] else ("", "")


def _ends_of_tables(text: str) -> list[tuple[str, int]]:
    """The name of each waveform table, and the place at which its Waveforms end."""
    ends: list[tuple[str, int]] = []
    names: list[str] = []
    opened: list[str] = []
    head: list[Token] = []
    for token in tokens(text):
        if token.text == "{":
            opened.append(head[0].plain if head else "")
            if opened[-1] == "WaveformTable" and len(head) > 1:
                names.append(head[1].plain)
            head = []
        elif token.text == "}" and opened:
            if opened.pop() == "Waveforms" and names:
                ends.append((names[-1], token.start))
            head = []
        elif token.text == ";":
            head = []
        else:
            head.append(token)
    return ends


def _no_wave(fault: Fault, text: str) -> Told:
    """The signal, the character and the table, by asking which definition would be taken."""
    signals = _signals(text)
    tables = _ends_of_tables(text)
    here = ("NoWave", str(fault.line))

    def helps(letter: str, some: list[str], where: list[tuple[str, int]]) -> bool:
        """Whether the refusal goes away where these signals have this character in these tables."""
        more = "".join(f' "{signal}" {{ {letter} {{ \'0ns\' D; }} }}' for signal in some)
        changed = text
        for _, place in sorted(where, key=lambda entry: -entry[1]):
            changed = changed[:place] + more + " " + changed[place:]
        return _asked(changed) != here

    letter = next((letter for letter in _letters(text) if helps(letter, signals, tables)), None)
    if letter is None:
        return None
    some = signals
    while len(some) > 1:
        half = some[: len(some) // 2]
        some = half if helps(letter, half, tables) else some[len(half) :]
    table = next((table for table in tables if helps(letter, some, [table])), None)
    if not some or table is None:
        return None
    place, caller = _caller(text, fault.line, some[0], letter)
    said = f"the signal `{some[0]}` has the character {letter} here, which the waveform table `{table[0]}` doesn't define for it{caller}"
    return place, f"{said}; add it to the table's Waveforms"


def _signals(text: str) -> list[str]:
    """The signals that are declared; those with indices one by one, up to 4,096."""
    found: list[str] = []
    for block in outline(text):
        for statement in (block.block or []) if block.keyword == "Signals" else []:
            whole = "".join(token.plain for token in statement.head)
            indices = re.match(r"(\w+)\[(\d{1,4})\.\.(\d{1,4})\]", whole)
            if indices:
                first, last = sorted((int(indices[2]), int(indices[3])))
                found += [f"{indices[1]}[{index}]" for index in range(first, last + 1)]
            else:
                found.append(statement.keyword)
    return found[:4096]


def _letters(text: str) -> list[str]:
    """The waveform characters that are written in data, in order."""
    found: dict[str, None] = {}
    for statement in every(outline(text)):
        for token in data_of(statement):
            if token.kind == "word":
                found.update(dict.fromkeys(token.text))
    return list(found)


def _caller(text: str, line: int, signal: str, letter: str) -> tuple[int | None, str]:
    """Where the character is written: in the vector itself, else in the first Call or Macro whose arguments have it for the signal."""
    groups = {group.keyword for block in outline(text) if block.keyword == "SignalGroups" for group in block.block or []
              if signal in _members(Token("text", "".join(token.text for token in group.head[2:]), 0, 0)) or f'"{signal}"' in str(group.head)}
    for statement, parent in _walk(outline(text)):
        is_here = parent in ("V", "Vector") and statement.line == line
        if (is_here or parent in ("Call", "Macro")) and statement.keyword in {signal, re.sub(r"\[.*", "", signal), *groups}:
            token = next((token for token in data_of(statement) if letter in token.text), None)
            if token and is_here:
                return token.start, ""
            if token:
                return None, f" (it comes from the argument on line {token.line})"
    return None, ""


def of_file(fault: Fault) -> Fault:
    """A file that can't be read, where it is a folder."""
    if os.path.isdir(fault.file):
        fault.text = "this is a folder, and a file is wanted"
    return fault


KINDS = {"lot": (1, 2, 3), "clock": (), "bind": (), "die": (1,), "fault": (1, 4), "stop": (1, 3, 4), "bin": (3,), "skew": (1, 3)}
FORMS = {"lot": "lot,B,TRIES,F,,", "clock": "clock,SIGNAL,,,,", "bind": "bind,SIGNAL,NET,,,", "die": "die,SITE,NAME,FILE,,",
         "fault": "fault,SITE,NAME,NET,VALUE,TRIES", "stop": "stop,SITE,NAME,TRY,BATCH,", "bin": "bin,pass,,N,,", "skew": "skew,SITE,SIGNAL,FS,,"}
PAGE = "see docs/formats/plan.md"


def of_row(row: list[str], is_first: bool) -> str:
    """What is wrong with the form of a row of a plan, in a sentence; nothing where that isn't known."""
    kind = row[0]
    if kind.lstrip().startswith(("#", "//", ";")):
        return "a plan has no comments; take this row out"
    if kind not in KINDS:
        question = near(kind.strip(), list(KINDS))
        if is_first and not question and len(row) > 1:
            return f"a plan has no heading; take this row out, so that the first one is {FORMS['lot']}"
        return f"`{kind}` begins no row of a plan{question}; {PAGE}" if not question else f"`{kind}` begins no row of a plan{question}"
    if is_first != (kind == "lot"):
        return f"the first row of a plan is {FORMS['lot']}, and no other one is"
    if len(row) != 6:
        return f"this row has {len(row) - 1} commas, and each row of a plan has 5: write {FORMS[kind]}"
    for place in KINDS[kind]:
        if row[place] and not re.fullmatch(r"-?[0-9]+", row[place]):
            return f"field {place + 1} of this row is `{row[place]}`, where a number is wanted: write {FORMS[kind]}"
    for place, word in enumerate(row):
        if word != word.strip():
            return f"field {place + 1} of this row, `{word}`, has a blank at its edge; nothing is trimmed"
    return f"this row hasn't the form {FORMS[kind]}; {PAGE}"


def of_name(row: list[str], signals: list[str], nets: list[str], dies: list[str]) -> str:
    """The name of a row of a plan that isn't there."""
    kind = row[0]
    if kind in ("clock", "bind", "skew"):
        name = row[2] if kind == "skew" else row[1]
        if name in signals and kind == "skew":
            return f"no row above has a die at site {row[1]}"
        return f"the program has no signal `{name}`{near(name, signals)}" if signals and name not in signals else ""
    if kind in ("fault", "stop") and row[2] not in dies:
        return f"no row above has the die `{row[2]}` at site {row[1]}{near(row[2], dies)}"
    if kind == "fault" and nets and row[3] not in nets:
        return f"the netlist of the die `{row[2]}` has no net `{row[3]}`{near(row[3], nets)}"
    return ""
