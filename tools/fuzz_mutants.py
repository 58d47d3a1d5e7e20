"""Mutants for `tools/fuzz`: contents after parts of them were cut, doubled, swapped or flipped, or a number was exchanged; and the words that
a command may be given besides."""
import random
import re

# the bytes of files by name
Files = dict[str, bytes]
MOST_BYTES = 1 << 20
ODD = b"0189{}'\";.#%\\-,=()/\xff\x00"
NUMBERS = [b"0", b"1", b"2", b"63", b"64", b"255", b"256", b"65535", b"65536", b"16777217", b"4294967296", b"9" * 25]


def pieces(content: bytes) -> list[int]:
    """Where tokens, lines or bytes of a content begin."""
    words = [found.start() for found in re.finditer(rb"\w+|[^\w\s]", content)]
    lines = [found.start() for found in re.finditer(rb"(?m)^", content)]
    return random.choice([words, lines, list(range(len(content)))]) or [0]


def span(content: bytes) -> tuple[int, int]:
    """Where a part of a content begins and ends, which is short most of the time."""
    places = sorted({*pieces(content), len(content)})
    begin = random.randrange(len(places))
    end = begin + random.choice([1, 1, 2, 3, 8]) if random.random() < 0.7 else random.randrange(begin, len(places))
    return places[begin], places[min(end, len(places) - 1)]


def cut(content: bytes) -> bytes:
    """A content without a part of it."""
    begin, end = span(content)
    return content[:begin] + content[end:]


def doubled(content: bytes) -> bytes:
    """A content in which a part stands twice or more often."""
    begin, end = span(content)
    return content[:end] + content[begin:end] * random.choice([1, 1, 2, 50]) + content[end:]


def swapped(content: bytes) -> bytes:
    """A content in which two parts have changed their places."""
    one, two, three = sorted(random.choices(pieces(content) + [len(content)], k=3))
    return content[:one] + content[two:three] + content[one:two] + content[three:]


def flipped(content: bytes) -> bytes:
    """A content with other bits or bytes."""
    changed = bytearray(content or b" ")
    for _ in range(random.choice([1, 1, 2, 8])):
        place = random.randrange(len(changed))
        changed[place] = random.choice([changed[place] ^ 1 << random.randrange(8), *ODD])
    return bytes(changed)


def numbered(content: bytes) -> bytes:
    """Another number in the place of one."""
    found = list(re.finditer(rb"\d+", content))
    if not found:
        return flipped(content)
    at = random.choice(found)
    return content[: at.start()] + random.choice(NUMBERS) + content[at.end() :]


def mutant(content: bytes) -> bytes:
    """A content after some of these changes, of at most 1 MiB."""
    for _ in range(random.choice([1, 1, 1, 2, 4])):
        content = random.choice([cut, doubled, swapped, flipped, numbered])(content)
    return content[:MOST_BYTES]


def changed(files: Files, names: list[str]) -> Files:
    """Files of which one or two of these names are mutants."""
    made = dict(files)
    for name in random.sample(names, k=min(len(names), random.choice([1, 1, 2]))):
        made[name] = mutant(files[name])
    return made


def some(*choices: list[str]) -> list[str]:
    """One of some lists of words, or none."""
    return list(random.choice([[], *choices]))


def rarely(*choices: list[str]) -> list[str]:
    """One of some lists of words now and then, else none."""
    return list(random.choice(choices)) if random.random() < 0.1 else []


def number() -> str:
    """A word that is a number, or nearly one."""
    return random.choice(["0", "1", "2", "3", "7", "15", "16", "63", "64", "4096", "4097", "-1", "01", "1.5", "", "x", "9" * 25])
