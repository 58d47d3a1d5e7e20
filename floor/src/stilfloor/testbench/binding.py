"""How the signals of a program are bound: to the nets of a netlist (docs/formats/plan.md), or to the ports of one's own design."""

from collections.abc import Callable
from dataclasses import dataclass, field

from stilfloor.faults import REFUSED, Fault
from stilfloor.saved import Code
from stilfloor.testbench.lots import Die, Lot
from stilfloor.testbench.nets import Netlist
from stilfloor.testbench.ports import Design, Pin

FREE = ("Supply", "Pseudo")


@dataclass(slots=True)
class Bind:
    """A signal that has a net, or bit of a port: whether it drives it, and whether that bit is an inout's."""

    net: str
    drives: bool
    both: bool = False


@dataclass(slots=True)
class Binding:
    """The bind of each signal, None for one that has no net; the number of the clock's signal; and the signals that a design lacks."""

    binds: list[Bind | None]
    clock: int | None
    lacking: list[str] = field(default_factory=list)

    @property
    def driven(self) -> int:
        """The signals whose drives reach the die, as bits."""
        mask = sum(1 << signal for signal, bind in enumerate(self.binds) if bind and bind.drives)
        return mask if self.clock is None else mask | 1 << self.clock

    @property
    def seen(self) -> int:
        """The signals that are looked at, as bits."""
        mask = sum(1 << signal for signal, bind in enumerate(self.binds) if bind)
        return mask if self.clock is None else mask | 1 << self.clock


def check_rows(code: Code, lot: Lot, die: Die | None, netlist: Netlist | None) -> None:
    """Refuses the first row of a plan that names what the program, or the die's netlist, doesn't have, or moves an event out of a cycle."""
    names = {name: signal for signal, (_, name) in enumerate(code.signals)}
    room = _rooms(code)
    for number, row in enumerate(lot.plan.rows, 1):
        kind = row[0]
        signal = row[1] if kind in ("clock", "bind") else row[2] if kind == "skew" else None
        if signal is not None and signal not in names:
            raise lot.refused("UnknownName", number)
        if netlist is not None and die is not None and kind == "fault" and (int(row[1]), row[2]) == (die.site, die.name) and row[3] not in netlist:
            raise lot.refused("UnknownName", number)
        if kind == "bin" and row[2] and int(row[2]) >= len(code.executives):
            raise lot.refused("OutOfRange", number)
        if kind == "skew" and not room[names[row[2]]][0] <= int(row[3]) <= room[names[row[2]]][1]:
            raise lot.refused("SkewOutside", number)


def _rooms(code: Code) -> list[tuple[int, int]]:
    """By how much the events of each signal can be moved, at least and at most."""
    room = [(-(10**13), 10**13)] * len(code.signals)
    events = ((signal, at, table.period) for table in code.tables for (signal, _), wave in table.waves.items() for at, _ in wave)
    for signal, at, period in events:
        least, most = room[signal]
        room[signal] = max(least, -at), min(most, period - 1 - at)
    return room


def bind_netlist(code: Code, lot: Lot, netlist: Netlist) -> Binding:
    """The binding of a netlist; a signal that can't be bound is refused."""
    taken: set[str] = set()

    def choose(direction: str, net: str, is_clock: bool) -> Bind | None:
        is_input = net in netlist.inputs
        if is_clock or direction == "In" or direction == "InOut" and is_input:
            return Bind(net, True) if is_input and net not in taken else None
        return Bind(net, False) if net in netlist.outputs else None

    return _bound(code, lot, taken, choose)


def bind_ports(code: Code, lot: Lot, design: Design) -> Binding:
    """The binding of one's own design: a signal has the port, or the bit of one, that its bind row names, else that of its own name."""
    taken: set[str] = set()

    def fits(pin: Pin | None, direction: str, is_clock: bool) -> bool:
        if pin is None:
            return False
        wanted = "input" if is_clock or direction == "In" else "output" if direction == "Out" else "inout"
        return pin.direction in (wanted, "inout") or direction == "InOut" and not is_clock

    def choose(direction: str, net: str, is_clock: bool) -> Bind | None:
        pin = design.pins.get(net)
        if pin is None or not fits(pin, direction, is_clock):
            return None
        drives = is_clock or pin.direction == "input" or pin.direction == "inout" and direction in ("In", "InOut")
        bit = f"{pin.port.name} {pin.index}"
        if drives and bit in taken:
            return None
        taken.update([bit] if drives else [])
        return Bind(net, drives, pin.direction == "inout")

    return _bound(code, lot, taken, choose, design)


def _bound(code: Code, lot: Lot, taken: set[str], choose: Callable[[str, str, bool], Bind | None], design: Design | None = None) -> Binding:
    """Binds signal by signal, in declared order; a design may lack inputs, as one of which a netlist was made has no ties."""
    binds: list[Bind | None] = []
    clock: int | None = None
    lacking: list[str] = []
    for signal, (direction, name) in enumerate(code.signals):
        is_clock = name == lot.clock
        clock = signal if is_clock else clock
        net = lot.binds.get(name, name)
        wishes = [net] if design is None or net == name else [net, name]
        if not is_clock and (direction in FREE or net is None):
            binds.append(None)
            continue
        bind = next((bind for wish in wishes if wish is not None and (bind := choose(direction, wish, is_clock))), None)
        if bind is None and design is not None and direction == "In" and not is_clock and not design.pins.keys() & set(wishes):
            lacking.append(name)
        elif bind is None and (not is_clock or design is not None):
            raise _unbound(lot, name, design)
        if bind is not None and bind.drives:
            taken.add(bind.net)
        binds.append(bind)
    return Binding(binds, clock, lacking)


def _unbound(lot: Lot, signal: str, design: Design | None) -> Fault:
    """The refusal of a signal that has no net."""
    lines = [line for row, line in zip(lot.plan.rows, lot.plan.lines) if row[0] == "bind" and row[1] == signal]
    where = "the netlist" if design is None else f"the module `{design.top}`"
    what = "net" if design is None else "port"
    text = f"the signal `{signal}` has no {what} of {where} that it can have: add `bind,{signal},NET,,,`, or `bind,{signal},-,,,` to leave it free"
    return Fault(REFUSED, f"{text} (Unbound)", lot.plan.file, lines[0] if lines else 0)
