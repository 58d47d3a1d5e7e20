"""The words that stand beside the examples, and what they print."""
from collections.abc import Iterator
from programs import top


def examples() -> Iterator[tuple[str, list[str], bytes]]:
    """The name of an example, words for the program, which runs in the top folder, and the output that stands beside them.

    Each example with a file `words` has some: a line of it names a file and the words whose output that file holds."""
    for path in sorted((top / "examples").glob("*/words")):
        for line in path.read_text().splitlines():
            name, *words = line.split()
            yield path.parent.name, words, (path.parent / name).read_bytes()
