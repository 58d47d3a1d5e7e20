"""What a net of the good die shows while a program runs: by the program's flat text, with one more signal that is looked at in each cycle."""

import os
import re
from dataclasses import dataclass

from stilfloor import plans, records, saved, tester
from stilfloor.atpg.circuit import Circuit

ROW = re.compile(r'^("r\d+" \{ V \{.*) \} \}$', re.MULTILINE)


@dataclass(slots=True)
class Shown:
    """The first cycles in which a net is 0 and 1 where it is looked at, if it ever is."""

    zero: int | None = None
    one: int | None = None


def _times(code: saved.Code) -> list[int]:
    """When each table looks: the last look of all, else the middle of its cycle."""
    found = []
    for table in code.tables:
        looks = [time for events in table.waves.values() for time, act in events if act in "LHTX"]
        found.append(max(looks, default=table.period // 2))
    return found


class Seer:
    """Asks what nets show, in a folder in which the netlist has each net as an output."""

    def __init__(self, program: str, plan: plans.Plan, circuit: Circuit, bench: str, room: str) -> None:
        self.room = room
        self.plan = plan
        self.why = ""
        self.name = "_seen_"
        status, output = tester.run(["flat", program])
        if status:
            self.why = "the program has no flat text, by which the net could be looked at"
            return
        code = saved.code_of(program)
        while self.name in {name for _, name in code.signals}:
            self.name += "_"
        outputs = "".join(f"OUTPUT({net})\n" for net in circuit.nets if net not in circuit.netlist.outputs)
        with open(os.path.join(room, "all.bench"), "w", encoding="latin-1") as out:
            out.write(plans.read_text(bench).rstrip("\n") + "\n" + outputs)
        for letter in "LH":
            self._put(output.decode("latin-1"), letter, _times(code))

    def _put(self, flat: str, letter: str, times: list[int]) -> None:
        """The program in which the net is looked at for low, or for high, compiled."""
        waves = iter(times)
        text = flat.replace("Signals {\n", f'Signals {{\n"{self.name}" Out;\n', 1)
        text = re.sub(r"^Waveforms \{$", lambda _: f'Waveforms {{\n"{self.name}" {{ {letter} {{ \'{next(waves)}fs\' {letter}; }} }}', text, flags=re.MULTILINE)
        text = ROW.sub(lambda row: f'{row[1]} "{self.name}"={letter}; }} }}', text)
        path = os.path.join(self.room, f"seen{letter}")
        with open(path + ".stil", "w", encoding="latin-1") as out:
            out.write(text)
        status, output = tester.run(["save", path + ".stil"])
        if status:
            self.why = "the program's flat text is too long for one more signal"
            return
        with open(path, "wb") as done:
            done.write(output)

    def shown(self, net: str) -> Shown:
        """What a net shows."""
        return Shown(self._first(net, "H", "0"), self._first(net, "L", "1"))

    def _first(self, net: str, letter: str, level: str) -> int | None:
        rows = [["lot", str(self.plan.batch), "1", str(plans.MOST_KEPT)], *self.plan.binding(), ["bind", self.name, net], ["die", "0", "d", "all.bench"]]
        with open(os.path.join(self.room, "seen.csv"), "w", encoding="latin-1") as out:
            out.write(plans.write_rows(rows))
        status, output = tester.run(["lot", f"seen{letter}", "seen.csv"], self.room)
        if status:
            self.why = "the net can't be looked at"
            return None
        die = next(iter(records.Datalog(output.decode("latin-1").splitlines(keepends=True))))
        return next((fail.cycle for fail in die.tries[0].kept if fail.signal == self.name and fail.seen == level), None)
