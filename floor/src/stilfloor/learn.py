"""Expected values from a good die: looks that are written L become what the die shows."""

import os
import shutil
import tempfile
from dataclasses import dataclass

from stilfloor import plans, records, saved, tester
from stilfloor.faults import REFUSED, Fault, Faults, shown
from stilfloor.looks import MOST_CELLS, Look, compiled, replaced, spelled_out, trace, written
from stilfloor.sentences import refusal


@dataclass(slots=True)
class Learnt:
    """The text with its values, how many looks were learnt by what they became, and what is told beside them."""

    text: str
    counts: dict[str, int]
    runs: int
    notes: list[str]


def learn(program: str, plan_file: str) -> Learnt:
    """The text of `program` with each L as the plan's first die shows it: L, H, T where the signal is off, or X where it is unknown."""
    text = plans.read_text(program)
    if text.encode("latin-1")[:4] == saved.MAGIC:
        raise Fault(REFUSED, "this is a saved program: values are learnt for a STIL text", program)
    compiled(text, program)
    text = spelled_out(text, "L")
    looks = written(text, "L")
    _refuse_elsewhere([look for look in looks if look.around], program)
    if not looks:
        raise Fault(REFUSED, "no look is written L in a Pattern's own V or in the arguments of its Call, so there is nothing to learn", program)
    code = _traced(text, program, looks)
    wanted = [look for look in looks if _is_look(look, code)]
    rounds = Rounds(text, program, plans.read_plan(plan_file), code, wanted)
    rounds.run()
    notes = [rounds.note(fail) for fail in rounds.others[:8]]
    notes += [f"{shown(program)}:{look.line}:1: warning: no vector makes this look, so it stays L" for look in looks if not look.cells]
    letters = [rounds.letters.get(look.place, "L") for look in wanted]
    return Learnt(rounds.text(), {letter: letters.count(letter) for letter in "LHTX"}, rounds.count, notes)


def _traced(text: str, program: str, looks: list[Look]) -> saved.Code:
    """The code of the text, and the cells of its looks; where an H can't stand in place of an L, it says so."""
    try:
        return trace(text, program, looks, {"L": "H"})
    except Fault as fault:
        if "(NoWave" in fault.text:
            fault.text = "a look here is written L, and its waveform table has no character H that could be learnt; add one"
        raise


def _refuse_elsewhere(looks: list[Look], file: str) -> None:
    faults: dict[int, Fault] = {}
    for look in looks:
        text = f"this look is written L in {look.around}, where it stands for many cycles: write its value, or move it into a Pattern's V"
        faults.setdefault(look.line, Fault(REFUSED, text, file, look.line))
    if faults:
        raise Faults(list(faults.values()))


def _is_look(look: Look, code: saved.Code) -> bool:
    """Whether the character looks for low in each of its cells."""
    for cell in look.cells:
        acts = [act for _, act in code.tables[cell.table].waves[cell.signal, "L"]]
        if not any(act in "Ll" for act in acts) or any(act in "DU" for act in acts):
            return False
    return bool(look.cells)


class Rounds:
    """Runs of the good die, each of which shows at most 1,024 fails more, until it shows none."""

    def __init__(self, text: str, file: str, plan: plans.Plan, code: saved.Code, looks: list[Look]) -> None:
        self.written = text
        self.file = file
        self.plan = plan
        self.code = code
        self.letters: dict[int, str] = {}
        self.others: list[records.Fail] = []
        self.count = 0
        self.numbers = {name: number for number, (_, name) in enumerate(code.signals)}
        self.cells = self._cells(looks)

    def _cells(self, looks: list[Look]) -> dict[tuple[int, int], Look]:
        """The look of each cycle and signal."""
        cells: dict[tuple[int, int], Look] = {}
        for look in looks:
            if sum(cell.times for cell in look.cells) + len(cells) > MOST_CELLS:
                text = f"this look stands for more than {MOST_CELLS} cycles; write X for it in the vectors behind it"
                raise Fault(REFUSED, text, self.file, look.line)
            for cell in look.cells:
                for cycle in range(cell.start, cell.start + cell.times):
                    cells[cycle, cell.signal] = look
        return cells

    def text(self) -> str:
        """The text with what is learnt so far."""
        return replaced(self.written, self.letters)

    def run(self) -> None:
        """Runs the die until a run shows no look that isn't learnt."""
        die = self._die()
        with tempfile.TemporaryDirectory() as room:
            shutil.copyfile(die.netlist, os.path.join(room, "die.bench"))
            with open(os.path.join(room, "plan.csv"), "w", encoding="latin-1") as out:
                out.write(self._rows(die))
            while self._round(room):
                pass

    def _die(self) -> plans.PlannedDie:
        dies = self.plan.dies
        if not dies:
            raise Fault(REFUSED, "the plan has no die to learn from; add a row `die,0,NAME,FILE,,`", self.plan.file)
        if not os.path.exists(dies[0].netlist):
            raise refusal(f"read fault {dies[0].netlist}", 2, self.file)
        return dies[0]

    def _rows(self, die: plans.PlannedDie) -> str:
        """A plan of the die alone, without faults and stops; its site's skews count."""
        rows = [["lot", str(self.plan.batch), "1", str(plans.MOST_KEPT)], *self.plan.binding()]
        rows.append(["die", "0", die.name, "die.bench"])
        rows.extend(["skew", "0", signal, str(amount)] for signal, amount in self.plan.skews(die.site))
        return plans.write_rows(rows)

    def _round(self, room: str) -> bool:
        """One run; whether another one is needed."""
        self.count += 1
        with open(os.path.join(room, "program.stil"), "w", encoding="latin-1", newline="") as out:
            out.write(self.text())
        status, output = tester.run(["lot", "program.stil", "plan.csv"], room)
        if status:
            raise self._refused(output.decode("latin-1"), status)
        lines = output.decode("latin-1").splitlines(keepends=True)
        attempt = next(iter(records.Datalog(lines))).tries[0]
        changed = [look for look in map(self._take, attempt.kept) if look]
        self.others = [fail for fail in attempt.kept if self._look_of(fail) is None]
        ended = attempt.cycles < sum(executive.cycles for executive in self.code.executives)
        if self.others and not changed and (ended or len(self.others) < attempt.fails):
            text = f"{len(self.others)} looks that aren't written L fail on the good die and hide others; the first is in cycle {self.others[0].cycle}"
            raise Fault(REFUSED, text, self.file)
        return bool(changed)

    def _refused(self, output: str, status: int) -> Fault:
        """A refusal told of the files that were given."""
        fault = refusal(output, status, self.file, self.plan.file)
        if fault.file == "die.bench":
            fault.file = self.plan.dies[0].netlist
        if output.startswith("refused plan") and "Unbound" not in output:
            fault.line = 0
        return fault

    def _look_of(self, fail: records.Fail) -> Look | None:
        return self.cells.get((fail.cycle, self.numbers[fail.signal]))

    def _take(self, fail: records.Fail) -> Look | None:
        """Learns from a fail; the look, where its character changes."""
        look = self._look_of(fail)
        if look is None:
            return None
        before = self.letters.get(look.place, "L")
        letter = self._letter(fail, look, before)
        if letter == before:
            return None
        if before == "H" and fail.seen == "0":
            text = "this look is kept by the vectors behind it, and the good die shows different values there: write a value in each V"
            raise Fault(REFUSED, text, self.file, look.line)
        self.letters[look.place] = letter
        return look

    def _letter(self, fail: records.Fail, look: Look, before: str) -> str:
        """The character for what was seen: X where a value is unknown, or isn't steady."""
        if before == "X":
            return "X"
        if fail.seen == "1":
            return "H" if before == "L" else "X"
        off = self.code.tables[look.cells[0].table].waves.get((look.cells[0].signal, "T"), [])
        return "T" if fail.seen == "Z" and before == "L" and any(act in "Tt" for _, act in off) else "X"

    def note(self, fail: records.Fail) -> str:
        """What is told of a fail that stays."""
        return f"{shown(self.file)}: note: in cycle {fail.cycle} the good die shows {fail.seen} at {shown(fail.signal)}, where {fail.want} is written"
