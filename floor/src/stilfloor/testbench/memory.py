"""What the testbench reads as it begins: the rows of characters and the steps of the program, a word a line, and all texts that it prints."""

from collections.abc import Iterator
from dataclasses import dataclass, field

import numpy

from stilfloor.saved import Code
from stilfloor.testbench.names import printed

PIECE = 1 << 14
ROWS, STEPS, TEXTS, PLACES, CHAINS = (f"testbench.{what}" for what in ("rows", "steps", "texts", "places", "chains"))
# the bits of a chain: its executive, its signal, its length, how many cells are listed, and the numbers of the texts of its name and cells
CHAIN = (8, 16, 24, 24, 32, 32)


@dataclass(slots=True)
class Letters:
    """The characters of a program with their numbers in planes of bits: signal s has the number whose bit b is bit s of plane b."""

    numbers: dict[str, int]
    planes: int


def letters_of(code: Code) -> Letters:
    """The characters that stand in rows; none is 0."""
    used = set(b"".join(code.rows)) - {0}
    return Letters({chr(letter): number for number, letter in enumerate(sorted(used), 1)}, max(1, len(used).bit_length()))


def row_words(code: Code, letters: Letters) -> Iterator[bytes]:
    """The rows, some thousand at a time: plane by plane from the highest, in each the last signal first."""
    width = len(code.signals)
    if not width or not code.rows:
        yield (b"0" * max(1, letters.planes * max(1, width)) + b"\n") * max(1, len(code.rows))
        return
    table = numpy.zeros(256, dtype=numpy.uint8)
    for letter, number in letters.numbers.items():
        table[ord(letter)] = number
    for front in range(0, len(code.rows), PIECE):
        some = code.rows[front : front + PIECE]
        numbers = table[numpy.frombuffer(b"".join(some), dtype=numpy.uint8).reshape(len(some), width)][:, ::-1]
        planes = [numbers >> plane & 1 for plane in reversed(range(letters.planes))]
        yield _digits(planes, len(some))


def _digits(columns: list[numpy.ndarray], count: int) -> bytes:
    """Lines of the digits 0 and 1."""
    lines = numpy.concatenate([*columns, numpy.zeros((count, 1), dtype=numpy.uint8)], axis=1).astype(numpy.uint8) + ord("0")
    lines[:, -1] = ord("\n")
    return lines.tobytes()


@dataclass(slots=True)
class Steps:
    """The instructions of all executives behind one another: the widths of their fields (kind, table, row, mark, times), and where each
    executive begins."""

    widths: list[int]
    starts: list[int]
    fields: numpy.ndarray


def steps_of(code: Code) -> Steps:
    """The steps of a program; kinds are 0 for cycles, 1 for a loop, 2 for its end and 3 for the end of the executive."""
    starts, parts, front = [], [], 0
    for executive in code.executives:
        starts.append(front)
        front += len(executive.instructions)
        parts.append(numpy.array(executive.instructions, dtype=numpy.uint64).reshape(-1, 5))
    fields = numpy.concatenate(parts)
    fields[:, 0] -= 1
    fields[fields[:, 0] == 1, 3] = 0
    widths = [2, *(max(1, int(fields[:, place].max()).bit_length()) for place in range(1, 5))]
    return Steps(widths, starts, fields)


def step_words(steps: Steps) -> Iterator[bytes]:
    """The steps, some thousand at a time."""
    for front in range(0, len(steps.fields), PIECE):
        some = steps.fields[front : front + PIECE]
        columns = []
        for place, width in enumerate(steps.widths):
            bits = numpy.arange(width - 1, -1, -1, dtype=numpy.uint64)
            columns.append((some[:, place : place + 1] >> bits & numpy.uint64(1)).astype(numpy.uint8))
        yield _digits(columns, len(some))


@dataclass(slots=True)
class Texts:
    """All texts that are printed, as one heap of bytes, and where each begins; the signals come first, and then the die's name."""

    heap: bytearray = field(default_factory=bytearray)
    places: list[int] = field(default_factory=lambda: [0])
    chains: list[tuple[int, ...]] = field(default_factory=list)

    def add(self, name: str) -> int:
        """The number of a text."""
        self.heap += printed(name).encode("latin-1")
        self.places.append(len(self.heap))
        return len(self.places) - 2


def texts_of(code: Code, die: str) -> Texts:
    """The texts of a program and of the die's name."""
    texts = Texts()
    for _, name in code.signals:
        texts.add(name)
    texts.add(die)
    known: dict[tuple[str, ...], int] = {}
    chains = [(number, chain) for number, executive in enumerate(code.executives) for chain in executive.chains]
    for number, chain in chains:
        cells = (chain.name, *chain.cells)
        if cells not in known:
            known[cells] = texts.add(chain.name)
            for name in chain.cells:
                texts.add(name)
        first = known[cells]
        texts.chains.append((number, chain.out, chain.length, len(chain.cells), first, first + 1))
    return texts


def heap_words(texts: Texts) -> Iterator[bytes]:
    """The bytes of all texts, 32 a line."""
    heap = bytes(texts.heap) or b" "
    for front in range(0, len(heap), 32):
        yield heap[front : front + 32].hex(" ").encode() + b"\n"


def place_words(texts: Texts) -> Iterator[bytes]:
    """Where the texts begin, and where the last one ends."""
    for place in texts.places:
        yield b"%x\n" % place


def chain_words(texts: Texts) -> Iterator[bytes]:
    """The chains of all executives."""
    for chain in texts.chains or [(255, 0, 0, 0, 0, 0)]:
        yield "".join(f"{number:0{width // 4}x}" for number, width in zip(chain, CHAIN)).encode() + b"\n"
