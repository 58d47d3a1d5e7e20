"""Names in Verilog. A foreign name is written as an escaped identifier of harmless characters; what is printed lies in files of its own."""

import re
from collections.abc import Iterable

HARMLESS = re.compile(r"[^A-Za-z0-9_$.:<>\[\]+-]")


def harmless(name: str) -> str:
    """A name in which each character that could mean something elsewhere is a `_`."""
    return HARMLESS.sub("_", name)


def escaped(name: str) -> str:
    """A harmless name as an identifier."""
    return f"\\{name} "


class Names:
    """Identifiers for foreign names, each given once."""

    def __init__(self, taken: Iterable[str] = ()) -> None:
        self.taken = set(taken)
        self.numbers: dict[str, int] = {}

    def new(self, wish: str) -> str:
        """An identifier like the wished name."""
        plain = harmless(wish) or "_"
        name = plain
        while name in self.taken:
            self.numbers[plain] = self.numbers.get(plain, 0) + 1
            name = f"{plain}_{self.numbers[plain]}"
        self.taken.add(name)
        return escaped(name)


def printed(name: str) -> str:
    """A name as the program prints it: bare where it isn't empty and all of it is visible."""
    return name if name and all(0x21 <= ord(character) <= 0x7E for character in name) else f'"{name}"'


def constant(mask: int, width: int) -> str:
    """A number of so many bits."""
    return f"{width}'h{mask:x}"
