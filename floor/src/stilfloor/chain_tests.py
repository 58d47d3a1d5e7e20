"""Whether a chain is broken, by a lot of its own: loads are shifted through a die without a capture between them."""

import os
import tempfile

from stilfloor import records, saved, tester
from stilfloor.chains import Broken
from stilfloor.dictionary import Die, Suspect, put_netlist, rows_of
from stilfloor.plans import MOST_KEPT, write_rows

MOST_LOADS = 5
MOST_DIES = 256
Row = tuple[int, bytes]


def breaking(die: Die, code: saved.Code, broken: Broken, suspects: list[Suspect]) -> list[Suspect]:
    """The suspects with which nothing but one value leaves the chain, while both leave that of a good die."""
    stuck = [suspect for suspect in suspects if suspect.net and not suspect.moved][:MOST_DIES]
    for executive in code.executives:
        chain = next((chain for chain in executive.chains if chain.name == broken.chain), None)
        loads = _loads(executive) if chain else []
        rows, looks = _shifts(code, loads, chain.out) if chain and len(loads) > 1 else ([], 0)
        if chain and looks:
            shown = _run(die, _text(code, rows), code.signals[chain.out][1], looks, [Suspect(), *stuck])
            whole = bool(shown) and shown[0] >= {"0", "1"}
            return [suspect for suspect, seen in zip(stuck, shown[1:]) if seen == {str(broken.value)}] if whole else []
    return []


def _loads(executive: saved.Executive) -> list[list[saved.Step]]:
    """The steps of the first loads of an executive's chains."""
    loads: list[list[saved.Step]] = []
    before = 0
    for step in saved.steps(executive):
        if step.mark:
            if step.mark <= before or not before:
                loads.append([])
            if len(loads) > MOST_LOADS:
                break
            loads[-1].append(step)
        before = step.mark
    return loads[:MOST_LOADS]


def _shifts(code: saved.Code, loads: list[list[saved.Step]], out: int) -> tuple[list[Row], int]:
    """The rows of loads behind one another, with a look for 0 at a signal in each but those of the first load, and how many looks these are."""
    blanks = {table: {signal: letter for (signal, letter), events in code.tables[table].waves.items() if {act for _, act in events} <= {"X"}}
              for table in {step.table for load in loads for step in load}}
    lows = {table: next((letter for (signal, letter), events in code.tables[table].waves.items()
                         if signal == out and [act for _, act in events] == ["L"]), "") for table in blanks}
    rows: list[Row] = []
    looks = 0
    for number, load in enumerate(loads):
        for step in load:
            row = _blank(code, step, blanks[step.table])
            if number and looks < MOST_KEPT and lows[step.table]:
                row[out] = ord(lows[step.table])
                looks += 1
            rows.append((step.table, bytes(row)))
    return rows, looks


def _blank(code: saved.Code, step: saved.Step, blanks: dict[int, str]) -> bytearray:
    """A step's row in which nothing is looked at, as far as its table has characters for that."""
    row = bytearray(code.rows[step.row])
    waves = code.tables[step.table].waves
    for signal, letter in blanks.items():
        if any(act in "LHTlht" for _, act in waves.get((signal, chr(row[signal])), [])):
            row[signal] = ord(letter)
    return row


def _text(code: saved.Code, rows: list[Row]) -> str:
    """A STIL text of rows."""
    names = [f'"{name}"' for _, name in code.signals]
    lines = ["STIL 1.0;", "Signals {", *(f"  {name} {direction};" for name, (direction, _) in zip(names, code.signals)), "}", "Timing {"]
    for number in sorted({table for table, _ in rows}):
        table = code.tables[number]
        lines.append(f'  WaveformTable "w{number}" {{ Period \'{table.period}\'; Waveforms {{')
        for (signal, letter), events in table.waves.items():
            acts = " ".join(f"'{at}' {act};" for at, act in events)
            lines.append(f"    {names[signal]} {{ {letter} {{ {acts} }} }}")
        lines.append("  } }")
    lines += ["}", "Pattern p {"]
    for place, row in rows:
        given = " ".join(f"{name}={chr(letter)};" for name, letter in zip(names, row) if letter)
        lines.append(f'  W "w{place}"; V {{ {given} }}')
    return "\n".join([*lines, "}", "PatternBurst b { PatList { p; } }", "PatternExec { PatternBurst b; }", ""])


def _run(die: Die, text: str, out: str, looks: int, suspects: list[Suspect]) -> list[set[str]]:
    """The values that leave the chain of a die with each of the suspects, over all looks of the text; nothing where it can't be run."""
    rows = [[*row[:3], str(MOST_KEPT), *row[4:]] if row[0] == "lot" else row for row in rows_of(die)]
    for number, suspect in enumerate(suspects):
        rows.append(["die", "0", f"f{number}", "die.bench"])
        if suspect.net:
            rows.append(["fault", "0", f"f{number}", suspect.net, str(suspect.value)])
    with tempfile.TemporaryDirectory() as room:
        put_netlist(die, room)
        for name, content in (("program", text), ("plan.csv", write_rows(rows))):
            with open(os.path.join(room, name), "w", encoding="latin-1") as file:
                file.write(content)
        status, output = tester.run(["lot", "program", "plan.csv"], room)
    if status:
        return []
    return [_seen(made.tries[0], out, looks) for made in records.Datalog(output.decode("latin-1").splitlines(True))]


def _seen(attempt: records.Try, out: str, looks: int) -> set[str]:
    """The values that a try has seen at a signal that is looked at for 0."""
    fails = [fail.seen for fail in attempt.kept if fail.signal == out]
    return set(fails) | ({"0"} if len(fails) < looks or attempt.fails > len(attempt.kept) else set())
