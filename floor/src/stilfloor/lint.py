"""What the program refuses of a STIL text or a plan, in plain sentences, and what it accepts but is likely not meant."""

import os
import re
import tempfile
from collections.abc import Iterator

from stilfloor import hints, plans, ranges, saved, scans, tester
from stilfloor.dictionary import nets_of
from stilfloor.faults import UNREADABLE, Fault, shown
from stilfloor.looks import compiled, trace, written
from stilfloor.outline import Statement, Token, every, outline
from stilfloor.sentences import refusal

NUMBER = re.compile(r"\s*(\d+(?:\.\d+)?)\s*")
PARTS = re.compile(r"[-+,()]")
LOOKING = "LHTlht"


def lint_text(file: str) -> Iterator[str]:
    """The lines about a STIL text: its refusal, else warnings in the order of lines."""
    status, output = tester.run(["check", file])
    if status:
        fault = refusal(output.decode("latin-1"), status, file)
        if fault.status == UNREADABLE:
            hints.of_file(fault)
        elif fault.kind:
            hints.of_text(fault, plans.read_text(file))
        yield fault.told()
        return
    text = plans.read_text(file)
    if text.encode("latin-1")[:4] == saved.MAGIC:
        return
    code = compiled(text, file)
    found = [*_lengths(text), *_units(text), *scans.scan_data(text), *scans.second_waveforms(text), *_unseen(text, code), *_unmade(text, file)]
    for line, sentence in sorted(set(found)):
        yield f"{shown(file)}:{max(line, 1)}:1: warning: {shown(sentence)}"


def _lengths(text: str) -> Iterator[tuple[int, str]]:
    """Chains whose ScanLength is another than the number of cells that are listed."""
    for chain in every(outline(text)):
        if chain.keyword != "ScanChain" or chain.block is None:
            continue
        parts = {part.keyword: part for part in chain.block}
        if "ScanLength" not in parts or "ScanCells" not in parts:
            continue
        length, cells = parts["ScanLength"], cells_of(parts["ScanCells"])
        if length.name.isdigit() and cells is not None and int(length.name) != cells:
            yield length.line, (f"the chain `{chain.name}` has ScanLength {length.name}, and {cells} cells are listed: "
                                "fails name the wrong cell or none")


def cells_of(statement: Statement) -> int | None:
    """How many cells a ScanCells lists."""
    text = " ".join(token.text for token in statement.head[1:] if token.text != "!")
    count = len(re.findall(r"\"[^\"]*\"|\w+", re.sub(r"\[[^\]]*\]", "", text)))
    for first, last in re.findall(r"\[ (\d+) \. \. (\d+) \]", text):
        count += abs(int(first) - int(last))
    return count


def _units(text: str) -> Iterator[tuple[int, str]]:
    """What is said of times that are plain numbers."""
    for line, time, wanted in times_without_units(text):
        yield line, f"the time '{time}' has a number without a unit, which stands for femtoseconds: write a unit, as {wanted}ns"


def times_without_units(text: str) -> Iterator[tuple[int, str, str]]:
    """Times that are plain numbers, which stand for femtoseconds: the line, the time, and its first number."""
    for block in outline(text):
        if block.keyword not in ("Timing", "Spec"):
            continue
        for statement in every([block]):
            for token in _times(statement):
                plain = [part for part in PARTS.split(token.plain) if NUMBER.fullmatch(part) and float(part)]
                if plain:
                    yield token.line, token.plain, plain[0].strip()


def _times(statement: Statement) -> list[Token]:
    """The texts of a statement that are times; a variable's is one where it has a unit somewhere, or nothing but a number."""
    return [token for token in statement.head if token.kind == "text" and not re.search(r"[*/]", token.plain)]


def _unseen(text: str, code: saved.Code) -> Iterator[tuple[int, str]]:
    """Outputs that no cycle looks at."""
    seen: set[int] = set()
    pairs = {(table, row) for executive in code.executives for op, table, row, _, _ in executive.instructions if op == 1}
    for table, row in pairs:
        waves = code.tables[table].waves
        for signal, character in enumerate(code.rows[row]):
            events = waves.get((signal, chr(character)), []) if character else []
            if any(act in LOOKING for _, act in events):
                seen.add(signal)
    lines = _declared(text)
    for number, (direction, name) in enumerate(code.signals):
        if direction == "Out" and number not in seen:
            yield lines.get(name, lines.get(name.split("[")[0], 1)), f"no vector looks at the output `{name}`: its faults stay unseen"


def _declared(text: str) -> dict[str, int]:
    """The line on which each signal is declared; of signals with indices by their common name."""
    found: dict[str, int] = {}
    for block in outline(text):
        if block.keyword == "Signals":
            for statement in block.block or []:
                found.setdefault(statement.keyword, statement.line)
    return found


def _unmade(text: str, file: str) -> Iterator[tuple[int, str]]:
    """Looks that are written and that no vector makes."""
    looks = [look for look in written(text, "LHT") if not look.around.startswith(("the macro", "the procedure"))]
    for instead in ({"L": "X", "H": "X", "T": "X"}, {"L": "H", "H": "L", "T": "X"}):
        for look in looks:
            look.cells.clear()
        try:
            trace(text, file, looks, instead)
        except Fault:
            continue
        for look in looks:
            if not look.cells:
                yield look.line, f"no vector makes the look {look.letter} that is written here: nothing runs it, or later data replace it"
        return


def lint_plan(file: str, program: str | None) -> Iterator[str]:
    """The lines about a plan, for a program; without one, for a text that has every signal and executive that the plan names."""
    text = plans.read_text(file)
    with tempfile.TemporaryDirectory() as room:
        stand_in = os.path.join(room, "program.stil")
        if program is None:
            with open(stand_in, "w", encoding="latin-1") as out:
                out.write(_stand_in(plans.read_rows(text, file)))
        status, output = tester.run(["lot", program or stand_in, file])
    if status:
        fault = refusal(output.decode("latin-1"), status, program or file, file)
        yield _explained(fault, plans.read_rows(text, file), program).told()
        return
    clockless = scans.without_clock(plans.read_rows(text, file))
    if clockless:
        line, sentence = clockless
        name = f", as clock,{_pulsed(saved.code_of(program))},,,," if program and _pulsed(saved.code_of(program)) else ""
        yield f"{shown(file)}:{line}:1: warning: {shown(sentence)}: add clock,SIGNAL,,,,{name}"


def _pulsed(code: saved.Code) -> str:
    """A signal that is driven up and down within a cycle, as a clock is."""
    for (signal, _), events in sorted((key, events) for table in code.tables for key, events in table.waves.items()):
        if code.signals[signal][0] == "In" and {"D", "U"} <= {act for _, act in events} and len(events) > 1:
            return code.signals[signal][1]
    return ""


def _explained(fault: Fault, plan: plans.Plan, program: str | None) -> Fault:
    """A fault with what is wrong with its row, as far as that is known."""
    if fault.status == UNREADABLE:
        return hints.of_file(fault)
    place = plan.lines.index(fault.line) if fault.line in plan.lines else -1
    said = ""
    clockless = scans.without_clock(plan) if fault.kind.startswith("Unbound ") else None
    if clockless:
        signal = fault.kind.removeprefix("Unbound ")
        fault.text = (f"the signal `{signal}` has no net that it can have; {clockless[1]}: where it is their clock add clock,{signal},,,,, else "
                      f"bind,{signal},NET,,, (Unbound)")
        fault.line = clockless[0]
        return fault
    if fault.kind == "Shape" and place >= 0:
        said = hints.of_row(plan.rows[place], place == 0)
    elif fault.kind == "OutOfRange" and place >= 0:
        said = ranges.of_row(plan.rows, place, len(saved.code_of(program).executives) if program else None)
    elif fault.kind == "UnknownName" and place >= 0:
        row = plan.rows[place]
        dies = {other[2]: other[3] for other in plan.rows[:place] if other[0] == "die" and other[1] == row[1]}
        signals = [name for _, name in saved.code_of(program).signals] if program else []
        said = hints.of_name(row, signals, nets_of(dies[row[2]]) if row[0] == "fault" and row[2] in dies else [], list(dies))
    if said:
        fault.text = f"{said} ({fault.kind})"
    return fault


def _stand_in(plan: plans.Plan) -> str:
    """A STIL text without a vector, whose signals are those that the plan names, and which has an executive for each bin."""
    names: dict[str, None] = {}
    executives = 1
    for row in plan.rows:
        name = row[1] if row[0] in ("clock", "bind") and len(row) > 1 else row[2] if row[0] == "skew" and len(row) > 2 else ""
        if name and '"' not in name and re.fullmatch(r"[\x20-\x7e]{1,1024}", name):
            names[name] = None
        if row[:2] == ["bin", "fail"] and len(row) > 2 and plans.NUMBER.fullmatch(row[2]):
            executives = max(executives, min(int(row[2]) + 1, 64))
    signals = "".join(f'"{name}" Pseudo;' for name in names) or "a Pseudo;"
    runs = "".join(f"PatternExec e{number} {{ PatternBurst b; }}\n" for number in range(executives))
    return f"STIL 1.0;\nSignals {{ {signals} }}\nTiming {{ }}\nPattern p {{ }}\nPatternBurst b {{ PatList {{ p; }} }}\n{runs}"
