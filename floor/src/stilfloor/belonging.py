"""Whether a datalog can be that of a plan and a program: its dies, tries and fails, told by the first line that can't be theirs."""

from bisect import bisect_right
from collections.abc import Iterator
from itertools import accumulate

from stilfloor import plans, records, saved
from stilfloor.faults import REFUSED, Fault


class Cycles:
    """The cycles of a try, by which a fail is judged: which step, table and executive each belongs to, and when it starts."""

    def __init__(self, code: saved.Code) -> None:
        self.code = code
        self.numbers = {name: number for number, (_, name) in enumerate(code.signals)}
        self.steps: list[tuple[saved.Step, int]] = []
        self.starts: list[int] = []
        self.times: list[int] = []
        offset = time = 0
        for place, executive in enumerate(code.executives):
            for step in saved.steps(executive):
                self.steps.append((step, place))
                self.starts.append(offset + step.start)
                self.times.append(time)
                time += step.times * code.tables[step.table].period
            offset += executive.cycles

    def begins(self, cycle: int) -> int:
        """When a cycle of a try begins, in femtoseconds; the one behind the last begins where the try ends."""
        place = bisect_right(self.starts, cycle) - 1
        if place < 0:
            return 0
        return self.times[place] + (cycle - self.starts[place]) * self.code.tables[self.steps[place][0].table].period

    def why_no_look(self, fail: records.Fail) -> str:
        """Why the program can't have this fail at a site of any skews, if it can't."""
        if fail.signal not in self.numbers:
            return f"the program has no signal `{fail.signal}`"
        place = bisect_right(self.starts, fail.cycle) - 1
        if place < 0 or fail.cycle >= self.starts[-1] + self.steps[-1][0].times:
            return f"the program has no cycle {fail.cycle}"
        step, signal = self.steps[place][0], self.numbers[fail.signal]
        looks = self.code.tables[step.table].waves.get((signal, chr(self.code.rows[step.row][signal])), [])
        is_there = any(act == fail.want for _, act in looks)
        return "" if is_there else f"the program doesn't look for {fail.want} at `{fail.signal}` in cycle {fail.cycle}"

    def why_not(self, fail: records.Fail, skew: int) -> str:
        """Why the program can't have this fail, if it can't."""
        if fail.signal not in self.numbers:
            return f"the program has no signal `{fail.signal}`"
        place = bisect_right(self.starts, fail.cycle) - 1
        if place < 0:
            return "the program has no cycle"
        step, executive = self.steps[place]
        table, signal = self.code.tables[step.table], self.numbers[fail.signal]
        begin = self.times[place] + (fail.cycle - self.starts[place]) * table.period
        looks = table.waves.get((signal, chr(self.code.rows[step.row][signal])), [])
        times = [begin + at + skew for at, act in looks if act == fail.want]
        if not times:
            return f"the program doesn't look for {fail.want} at `{fail.signal}` in cycle {fail.cycle}"
        if not (fail.at in times or fail.want in "lht" and times[0] <= fail.at <= begin + table.period):
            return f"the program looks at `{fail.signal}` at another time in cycle {fail.cycle}"
        return self._why_no_cell(fail, step, self.code.executives[executive], signal) if fail.chain is not None else ""

    @staticmethod
    def _why_no_cell(fail: records.Fail, step: saved.Step, executive: saved.Executive, signal: int) -> str:
        """Why the fail can't be at the cell that it names."""
        for chain in executive.chains:
            if chain.name == fail.chain and chain.out == signal and step.mark:
                return "" if fail.cell in chain.cells else f"the chain `{chain.name}` has no cell `{fail.cell}`"
        return f"the chain `{fail.chain}` isn't looked at there"


class Owner:
    """A plan and a program, which judge the dies of a datalog one by one."""

    def __init__(self, plan: plans.Plan, code: saved.Code) -> None:
        self.plan = plan
        self.ends = list(accumulate(executive.cycles for executive in code.executives))
        self.dies = sorted(plan.dies, key=lambda die: die.site)
        self.skews = {die.site: dict(plan.skews(die.site)) for die in self.dies}
        self.known: set[tuple[int, int, int, str, str, str | None, str | None]] = set()
        try:
            self.cycles: Cycles | None = Cycles(code)
        except Fault:
            # (there are too many steps to list them; all else is judged)
            self.cycles = None

    def held(self, datalog: records.Datalog) -> Iterator[records.Die]:
        """The dies of a datalog, as long as they can be those of the plan and the program."""
        behind = 0
        for number, die in enumerate(datalog):
            line = datalog.number - 1 - sum(2 + len(attempt.kept) for attempt in die.tries)
            self._judge_die(number, die, datalog.file, line)
            behind = datalog.number
            yield die
        if len(self.dies) > datalog.count:
            die_missing = self.dies[datalog.count]
            raise self._refuse(f"the plan has the die `{die_missing.name}` at site {die_missing.site} here", datalog.file, behind + 1)

    def _refuse(self, why: str, file: str, line: int) -> Fault:
        return Fault(REFUSED, f"this can't be of the plan {self.plan.file} and the program: {why}", file, line)

    def _judge_die(self, number: int, die: records.Die, file: str, line: int) -> None:
        """Refuses a die that isn't the next one of the plan, and its tries."""
        if number >= len(self.dies):
            raise self._refuse(f"the plan has {number} dies", file, line)
        planned = self.dies[number]
        if (die.site, die.name) != (planned.site, planned.name):
            raise self._refuse(f"the plan has the die `{planned.name}` at site {planned.site} here, and this is `{die.name}` at site {die.site}",
                               file, line)
        line += 1
        for place, attempt in enumerate(die.tries, 1):
            why = self._why_no_try(place, attempt, place == len(die.tries))
            if why:
                raise self._refuse(why, file, line)
            for fail in attempt.kept:
                line += 1
                self._judge_fail(fail, attempt, die.site, file, line)
            line += 1
            why = self._why_no_end(attempt)
            if why:
                raise self._refuse(why, file, line)
            line += 1

    def _why_no_try(self, place: int, attempt: records.Try, is_last: bool) -> str:
        """Why a try can't be the one at this place."""
        if attempt.number != place or place > self.plan.tries:
            return f"the plan has {self.plan.tries} {'try' if self.plan.tries == 1 else 'tries'} of a die, and this is try {attempt.number}"
        if not is_last and attempt.verdict.kind != "fail":
            return "a die is tried again behind a try that failed alone"
        if is_last and attempt.verdict.kind == "fail" and place < self.plan.tries:
            return f"the plan has {self.plan.tries} tries of a die that fails, and this is the last one"
        if len(attempt.kept) != min(attempt.fails, self.plan.kept):
            return f"the plan keeps {self.plan.kept} fails of a try, and here are {len(attempt.kept)} of {attempt.fails}"
        if attempt.cycles > self.ends[-1]:
            return f"the program has {self.ends[-1]} cycles, and this try {attempt.cycles}"
        return ""

    def _why_no_end(self, attempt: records.Try) -> str:
        """Why a verdict can't end its try."""
        end = attempt.verdict
        if end.kind == "pass":
            return "" if attempt.fails == 0 and attempt.cycles == self.ends[-1] else "a try that passes runs the whole program without a fail"
        if end.kind != "fail":
            return ""
        if end.executive is None or end.executive >= len(self.ends):
            return f"the program has {len(self.ends)} executives"
        is_whole = attempt.cycles == self.ends[end.executive] and attempt.fails > 0
        return "" if is_whole else f"executive {end.executive} ends behind {self.ends[end.executive]} cycles, and this try ran {attempt.cycles}"

    def _judge_fail(self, fail: records.Fail, attempt: records.Try, site: int, file: str, line: int) -> None:
        if fail.cycle > attempt.cycles or fail.cycle == attempt.cycles and attempt.verdict.kind != "contact":
            raise self._refuse(f"the try has {attempt.cycles} cycles", file, line)
        skew = self.skews[site].get(fail.signal, 0)
        key = (skew, fail.cycle, fail.at, fail.signal, fail.want, fail.chain, fail.cell)
        if self.cycles is None or key in self.known:
            return
        why = self.cycles.why_not(fail, skew)
        if why:
            raise self._refuse(why, file, line)
        self.known.add(key)
