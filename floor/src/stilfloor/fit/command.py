"""The word `fit`: reads a text, applies the rules, asks `stil` of the outcome, and writes it or says where it stops."""

import contextlib
import gc
import os
import sys
import tempfile
from collections.abc import Callable, Iterator
from dataclasses import dataclass, field

from stilfloor import saved, tester
from stilfloor.faults import REFUSED, TOOL, UNREADABLE, Fault, Faults, shown
from stilfloor.fit import blocks, bodies, bursts, data, data_rules, fixed, include, letters, scan, signals, tables, timing
from stilfloor.fit.tokens import tokens_of
from stilfloor.fit.work import Change, Work
from stilfloor.names import replacing
from stilfloor.plans import read_text
from stilfloor.records import WORD, bare
from stilfloor.sentences import refusal

# refusals behind which there are no tokens or statements to be read
UNREAD = ("BadByte", "OpenQuote", "OpenComment", "OpenBlock", "OpenStatement", "StrayClose", "TooDeep")
STEPS = 14
MOST_DEEP = 50000


@dataclass(slots=True)
class Bar:
    """A bar on a terminal."""

    is_shown: bool = field(default_factory=lambda: sys.stderr.isatty())

    def show(self, what: str, share: float) -> None:
        """Shows how far it is."""
        done = int(40 * share)
        if self.is_shown:
            print(f"\r[{'#' * done}{' ' * (40 - done)}] {what:<24}", end="", file=sys.stderr, flush=True)

    def close(self) -> None:
        """Takes the bar away."""
        if self.is_shown:
            print("\r" + " " * 70 + "\r", end="", file=sys.stderr, flush=True)


@dataclass(slots=True)
class Fitted:
    """What fit found: the text, where nothing stops; its edits, and its stops in the order of lines."""

    text: str
    changes: list[Change]
    stops: list[Fault]


def _rules(work: Work) -> Iterator[tuple[str, Callable[[], None]]]:
    """The rules in their order, each with what it is about."""
    yield "keywords", lambda: blocks.gather_keywords(work)
    names = signals.names_of(work)
    spec = timing.fit_spec(work)
    constants = blocks.constants_of(work)
    lengths = scan.chains_of(work)
    yield "blocks", lambda: blocks.fit_blocks(work)
    yield "times", lambda: timing.fit_times(work, spec)
    yield "tables", lambda: tables.fit_tables(work, names)
    all_bodies = bodies.bodies_of(work)
    yield "callers", lambda: bodies.link(work, all_bodies)
    waves = timing.waves_of(work, names)
    rules = data_rules.rules_of(work, names, waves)
    yield "characters", lambda: letters.fit_letters(work, rules)
    yield "bursts", lambda: bursts.fit_bursts(work, names, all_bodies)
    yield "statements", lambda: bodies.fit_bodies(work, all_bodies, constants)
    yield "data", lambda: data.fit_data(work, all_bodies, rules)
    yield "fixed signals", lambda: fixed.fit_fixed(work, names, all_bodies)
    yield "tied signals", lambda: fixed.fit_tied(work, names, all_bodies)
    chains = scan.Scan(work, names, waves, all_bodies, rules.lengths, lengths)
    yield "chains", lambda: scan.fit_active(chains)
    yield "pins", lambda: scan.fit_shared(chains)
    yield "loads", lambda: scan.fit_loads(chains)


def fitted(file: str, text: str, folders: list[str], unit: str = "", bar: Bar | None = None) -> Fitted:
    """A text by the rules."""
    shown = bar or Bar(False)
    size = max(len(text), 1)
    with _room():
        work = Work(file, tokens_of(text, lambda place: shown.show("reading", 0.4 * place / size)), unit)
        include.inline(work, folders)
        for number, (what, rule) in enumerate(_rules(work)):
            shown.show(what, 0.4 + 0.5 * number / STEPS)
            rule()
        stops = sorted(work.stops.values(), key=lambda fault: (fault.file != file, fault.file, fault.line))
        changes = sorted(work.changes, key=lambda change: (change.file != file, change.file, change.line))
        return Fitted("" if stops else work.text(), changes, stops)


@contextlib.contextmanager
def _room() -> Iterator[None]:
    """Room for deep groups and calls, and no search for rings of objects: there are millions of tokens, and none is in a ring."""
    was, limit = gc.isenabled(), sys.getrecursionlimit()
    gc.disable()
    sys.setrecursionlimit(max(limit, MOST_DEEP))
    try:
        yield
    finally:
        sys.setrecursionlimit(limit)
        if was:
            gc.enable()


def refused_kind(file: str) -> tuple[str, int, str]:
    """The kind of a text's refusal, the status and the line of `stil check`; no kind where it is accepted."""
    status, output = tester.run(["check", file])
    told = output.decode("latin-1").removesuffix("\n")
    words = [bare(word) for word in WORD.findall(told)]
    return (words[2] if words[:2] == ["refused", "stil"] else ""), status, told


def fit_file(file: str, out: str, folders: list[str], unit: str) -> list[Change]:
    """Fits a text into a file; the edits. Raises where it stops, and then writes no file."""
    kind, status, told = refused_kind(file)
    if status and (kind in UNREAD or not kind):
        raise refusal(told, status, file)
    text = read_text(file)
    if text.encode("latin-1")[:4] == saved.MAGIC:
        raise Fault(REFUSED, "this is a saved program: fit takes a STIL text", file)
    if os.path.exists(out) and os.path.samefile(file, out):
        raise Fault(REFUSED, "this is the text itself: give another file to write", out)
    bar = Bar()
    try:
        made = fitted(file, text, folders, unit, bar)
        if made.stops:
            raise Faults(made.stops)
        bar.show("asking stil", 0.92)
        _write(file, out, made.text, text.count("\n"))
    finally:
        bar.close()
    return made.changes


def _write(file: str, out: str, text: str, lines: int) -> None:
    """Writes the text where `stil` accepts it."""
    if os.path.exists(out) and not os.path.isfile(out):
        raise Fault(UNREADABLE, "this is no plain file, which fit would put in its place", out)
    if text.count("\n") != lines:
        raise Fault(TOOL, "fit would write another number of lines, which it must not", file)
    with tempfile.TemporaryDirectory() as room:
        path = os.path.join(room, "fitted.stil")
        with open(path, "w", encoding="latin-1", newline="") as asked:
            asked.write(text)
        _ask(file, path)
    with replacing(out, "latin-1") as put:
        put.write(text)


def _ask(file: str, path: str) -> None:
    """Asks `stil` of what would be written; its refusal becomes one of the text that was given, with both lines."""
    status, output = tester.run(["check", path])
    if status:
        told = output.decode("latin-1").removesuffix("\n")
        fault = refusal(told, status, path)
        said = told.replace(path, file)
        text = f"what fit would write is still refused there: {fault.text}; stil says `{said}` of it"
        raise Fault(fault.status, text, file, fault.line)


def places(file: str) -> list[str]:
    """For a text that is refused: the places that fit can take away and those at which it stops, a line each, and their number."""
    kind, status, _ = refused_kind(file)
    if not kind or kind in UNREAD:
        return []
    made = fitted(file, read_text(file), [])
    edits = [change for change in made.changes if change.is_edit]
    found = [(change.file, change.line, f"note: fit can take this away: {change.what}") for change in edits]
    found += [(stop.file, max(stop.line, 1), f"error: fit stops here: {stop.text}") for stop in made.stops]
    found.sort(key=lambda each: (each[0] != file, each[1]))
    able, unable = len(edits), len(made.stops)
    found.append((file, 1, f"note: {_count(able + unable, 'place')}, {able} that fit can take away, {unable} that "
                  f"{'changes the test or has' if unable == 1 else 'change the test or have'} no rule"))
    return [f"{shown(name)}:{line}:1: {shown(text)}" for name, line, text in found]


def _count(number: int, what: str) -> str:
    return f"{number} {what}{'' if number == 1 else 's'}"
