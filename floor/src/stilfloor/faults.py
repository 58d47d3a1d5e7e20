"""What can go wrong, with the exit status and the place that it is told with."""

REFUSED = 1
USAGE = 2
UNREADABLE = 3
TOOL = 4

STATUSES = """exit status:
  0  done
  1  refused: what was given can't be taken; each reason is a line FILE:LINE:1: error: ..
  2  the words are none of the command's
  3  a file couldn't be read or written, or isn't of its form
  4  a program that is needed is missing, or ended otherwise than it should"""


def shown(text: str) -> str:
    """A text on one line: a character that isn't printed (a line feed, an escape, a byte that is no text) is shown by its number."""
    if text.isprintable():
        return text
    return "".join(character if character.isprintable() else _number(ord(character)) for character in text)


def _number(code: int) -> str:
    byte = code - 0xDC00 if 0xDC80 <= code <= 0xDCFF else code
    return f"\\x{byte:02x}" if byte < 0x100 else f"\\u{byte:04x}"


class Fault(Exception):
    """An end of the command: an exit status and lines of what is told, each with its file and line where they are known."""

    def __init__(self, status: int, text: str, file: str = "", line: int = 0) -> None:
        super().__init__(text)
        self.status = status
        self.text = text
        self.file = file
        self.line = line
        self.column = 1
        self.kind = ""

    def __str__(self) -> str:
        return self.text

    def told(self) -> str:
        """The line that is printed, in the form that editors read."""
        if not self.file:
            return f"stilfloor: error: {shown(self.text)}"
        return f"{shown(self.file)}:{max(self.line, 1)}:{self.column}: error: {shown(self.text)}"


class Faults(Fault):
    """Several faults of one kind, told line by line."""

    def __init__(self, faults: list[Fault]) -> None:
        super().__init__(faults[0].status, faults[0].text, faults[0].file, faults[0].line)
        self.faults = faults

    def told(self) -> str:
        return "\n".join(fault.told() for fault in self.faults)
