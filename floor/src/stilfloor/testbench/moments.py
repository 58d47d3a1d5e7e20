"""What stands at each instant of a waveform table at a site: which signals are driven and looked at, by their characters. Signals are
bits of a number, so that one mask says it of all of them."""

from collections.abc import Iterator
from dataclasses import dataclass, field

from stilfloor.saved import Table

PUSHES = {"D": "down", "U": "up", "Z": "off", "N": "unknown", "P": "prior"}
EDGES = {"L": "low", "H": "high", "T": "off"}
WINDOWS = {"l": "low", "h": "high", "t": "off"}

# for each character the signals that it means, as bits
Masks = dict[str, int]


@dataclass(slots=True)
class Instant:
    """An instant: for each kind of act the signals that do it, by their characters.

    `edges` has a layer for each further edge look of a signal at this instant, in written order; `looked` are the signals that have a
    look, which closes the window before it, and `windows` what is open behind that. `events` are all signals with an event.
    """

    pushes: dict[str, Masks] = field(default_factory=dict)
    edges: list[dict[str, Masks]] = field(default_factory=list)
    windows: dict[str, Masks] = field(default_factory=dict)
    looked: Masks = field(default_factory=dict)
    events: Masks = field(default_factory=dict)


def _put(masks: Masks, letter: str, signal: int) -> None:
    masks[letter] = masks.get(letter, 0) | 1 << signal


def instants_of(table: Table, skews: list[int], driven: int, seen: int) -> dict[int, Instant]:
    """The instants of a table, by their times in the cycle, rising: with the drives of driven signals and the looks at seen ones."""
    found: dict[int, Instant] = {}
    for (signal, letter), events in table.waves.items():
        for time, acts in _by_time(events):
            instant = found.setdefault(time + skews[signal], Instant())
            _put(instant.events, letter, signal)
            if driven >> signal & 1:
                _put_push(instant, letter, signal, acts)
            if seen >> signal & 1:
                _put_looks(instant, letter, signal, [act for act in acts if act not in PUSHES])
    return dict(sorted(found.items()))


def _by_time(events: list[tuple[int, str]]) -> Iterator[tuple[int, list[str]]]:
    """The acts of each time, in written order."""
    gathered: dict[int, list[str]] = {}
    for at, act in events:
        gathered.setdefault(at, []).append(act)
    yield from gathered.items()


def _put_push(instant: Instant, letter: str, signal: int, acts: list[str]) -> None:
    """The last drive of an instant counts."""
    pushes = [act for act in acts if act in PUSHES]
    if pushes:
        _put(instant.pushes.setdefault(PUSHES[pushes[-1]], {}), letter, signal)


def _put_looks(instant: Instant, letter: str, signal: int, looks: list[str]) -> None:
    """All edge looks count, in written order; the last look leaves a window, or none."""
    for layer, act in enumerate(act for act in looks if act in EDGES):
        if layer == len(instant.edges):
            instant.edges.append({})
        _put(instant.edges[layer].setdefault(EDGES[act], {}), letter, signal)
    if looks:
        _put(instant.looked, letter, signal)
        if looks[-1] in WINDOWS:
            _put(instant.windows.setdefault(WINDOWS[looks[-1]], {}), letter, signal)
