"""The ports of one's own design, as the simulator elaborates it."""

import re
from dataclasses import dataclass, field

from stilfloor.faults import TOOL, Fault

PORT = re.compile(r'\s*\.port_info \d+ /(INPUT|OUTPUT|INOUT) (\d+) "((?:[^"\\]|\\.)*)"')
NET = re.compile(r'v\w+ \.\S+ "((?:[^"\\]|\\.)*)", (-?\d+) (-?\d+)')
SCOPE = re.compile(r'S_\w+ \.scope \w+, "((?:[^"\\]|\\.)*)"')


@dataclass(slots=True)
class Port:
    """A port: its name, its direction, and the first and the last index of its range; a port of one bit may have none."""

    name: str
    direction: str
    first: int
    last: int

    @property
    def indices(self) -> range:
        """The indices of its bits, the highest bit first."""
        step = -1 if self.first >= self.last else 1
        return range(self.first, self.last + step, step)


@dataclass(slots=True)
class Pin:
    """One bit of a port."""

    port: Port
    index: int

    @property
    def direction(self) -> str:
        """The direction of its port."""
        return self.port.direction


@dataclass(slots=True)
class Design:
    """A module with its ports, and their bits by the names that signals may have: `q[2]`, and `q` where that is one bit."""

    top: str
    ports: list[Port]
    pins: dict[str, Pin] = field(default_factory=dict)

    def __post_init__(self) -> None:
        for port in self.ports:
            for index in port.indices:
                self.pins.setdefault(f"{port.name}[{index}]", Pin(port, index))
        for port in self.ports:
            if port.first == port.last:
                self.pins[port.name] = Pin(port, port.first)


def read_design(code: str, top: str) -> Design:
    """The design whose only scope this code of the simulator has as an instance `dut`."""
    ports: dict[str, Port] = {}
    inside = False
    for line in code.split("\n"):
        scope = SCOPE.match(line)
        if scope:
            inside = scope[1] == "dut" and not ports
        elif inside and (port := PORT.match(line)):
            name = _plain(port[3])
            ports[name] = Port(name, port[1].lower(), int(port[2]) - 1, 0)
        elif inside and (net := NET.match(line)) and _plain(net[1]) in ports:
            _put_range(ports[_plain(net[1])], int(net[2]), int(net[3]))
    if not ports and ".port_info" not in code and ".scope module, \"dut\"" not in code:
        raise Fault(TOOL, f"this iverilog doesn't say which ports `{top}` has: version 11 and 12 do")
    return Design(top, list(ports.values()))


def _plain(text: str) -> str:
    return re.sub(r"\\(.)", r"\1", text)


def _put_range(port: Port, first: int, last: int) -> None:
    """The range of a port as it is declared, where it is as wide as the port."""
    if abs(first - last) == abs(port.first - port.last):
        port.first, port.last = first, last
