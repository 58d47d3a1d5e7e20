"""The top module, where a test bench stands among the modules."""

import re
from dataclasses import dataclass, field

from stilfloor.faults import REFUSED, Fault

LINE = re.compile(r"(module|  attribute|attribute|  wire|  cell) (.*)")


@dataclass(slots=True)
class Seen:
    """What is seen of a module: whether it has ports, whether it is a cell of a library, and the kinds of its cells, with an instance of each."""

    has_ports: bool = False
    is_box: bool = False
    cells: dict[str, str] = field(default_factory=dict)


Modules = dict[str, Seen]


def modules_of(path: str) -> Modules:
    """The modules of a design, in the text form of yosys."""
    modules: Modules = {}
    is_box = False
    with open(path, encoding="utf-8", errors="replace") as lines:
        for line in lines:
            found = LINE.match(line)
            kind, rest = (found[1], found[2]) if found else ("", "")
            if kind == "module":
                seen = modules[rest.removeprefix("\\")] = Seen(is_box=is_box)
                is_box = False
            elif kind == "attribute":
                is_box |= rest.startswith("\\blackbox ")
            elif kind == "  cell":
                cell, instance = (word.removeprefix("\\") for word in rest.rstrip().split(" ")[:2])
                seen.cells[cell] = instance
            elif kind == "  wire":
                seen.has_ports |= re.search(r"\b(?:input|output|inout) \d+ ", rest) is not None
    return modules


def chosen_top(path: str, file: str) -> str | None:
    """The module that is meant, where those that none uses have no ports; none where yosys may choose by itself.

    Of modules above which only such ones stand, one alone may be it; else `--top` has to name it.
    """
    modules = {name: module for name, module in modules_of(path).items() if not module.is_box}
    benches = _without_ports(modules)
    if not benches or len(benches) == len(modules):
        return None
    rest = {name: module for name, module in modules.items() if name not in benches}
    used = _used(rest)
    tops = [name for name in rest if name not in used]
    below = [name for name in tops if name in _used({name: modules[name] for name in benches})]
    found = below or tops
    if len(found) == 1:
        return found[0]
    told = ", ".join(f"`{name}`" for name in found)
    raise Fault(REFUSED, f"the module `{benches[0]}` has no ports, as a test bench, and several could be the top: name one of {told} by --top", file)


def _used(modules: Modules) -> set[str]:
    return {cell for module in modules.values() for cell in module.cells}


def _without_ports(modules: Modules) -> list[str]:
    """The modules without ports that only such ones use."""
    used = _used({name: module for name, module in modules.items() if module.has_ports})
    return [name for name, module in modules.items() if not module.has_ports and name not in used]
