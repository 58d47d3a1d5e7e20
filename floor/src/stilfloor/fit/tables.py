"""Rules for waveform tables: what stands in them beside times, and waveforms that are inherited one by one."""

from dataclasses import dataclass, field

from stilfloor.fit.blocks import KNOWN
from stilfloor.fit.signals import Names
from stilfloor.fit.timing import ACTS, MARKERS, act_of
from stilfloor.fit.tokens import plain
from stilfloor.fit.tree import Statement, all_of
from stilfloor.fit.work import Work

Event = tuple[str, str]


@dataclass(slots=True)
class Table:
    """A table: its Timing's name, its own, the tables that it inherits, and the events of signals and characters in text order."""

    timing: str
    name: str
    parents: list[str] = field(default_factory=list)
    waves: dict[tuple[str, str], list[Event]] = field(default_factory=dict)


def fit_tables(work: Work, names: Names) -> None:
    """Takes out of Timing blocks what no cycle depends on, and writes inherited waveforms as their events."""
    for block in work.statements:
        if work.keyword(block) != "Timing":
            continue
        for statement in [kid for kid in block.kids or [] if not work.is_skipped(kid.start)]:
            keyword = work.keyword(statement)
            if keyword == "SignalGroups" and statement.open < 0 and _has_groups(work, statement):
                work.drop(statement, KNOWN)
            elif keyword == "WaveformTable" and statement.kids is not None:
                _fit_table(work, statement)
            elif keyword != "WaveformTable":
                work.stop(statement.key, f"fit has no rule for {work.shown(statement)} in a Timing")
    _inherit(work, names)


def _has_groups(work: Work, statement: Statement) -> bool:
    """Whether the groups that a statement names are there; it may name none."""
    named = [plain(" ".join(work.head(block)[:1])) for block in work.statements if work.keyword(block) == "SignalGroups"]
    return all(plain(name) in ("", *named) for name in work.head(statement))


def _fit_table(work: Work, table: Statement) -> None:
    used = {text for statement in all_of(table.kids or []) for text in _acts(work, statement)}
    for statement in table.kids or []:
        keyword = work.keyword(statement)
        if work.is_skipped(statement.start):
            continue
        if keyword == "SubWaveforms":
            _fit_sub_waveforms(work, statement, used)
        elif keyword == "Waveforms":
            for entry in statement.kids or []:
                _fit_entry(work, entry)
        elif keyword not in ("Period", "InheritWaveformTable"):
            work.stop(statement.key, f"fit has no rule for {work.shown(statement)} in a WaveformTable")


def _acts(work: Work, event: Statement) -> list[str]:
    """The acts of an event."""
    if event.open >= 0 or work.texts[event.key][:1] != "'":
        return []
    return [text for text in work.texts[event.key + 1 : event.head_end] if text != "/"]


def _fit_sub_waveforms(work: Work, statement: Statement, used: set[str]) -> None:
    named = [plain(work.texts[part.start]) for part in statement.kids or []]
    if used.intersection(named):
        work.stop(statement.key, f"the subwaveform `{sorted(used.intersection(named))[0]}` is named by an event, and fit has no rule for its "
                                 "events: write them where it is named")
    else:
        work.drop(statement, "no event names one of them")


def _fit_entry(work: Work, entry: Statement) -> None:
    for wave in entry.kids or []:
        for event in wave.kids or []:
            acts = _acts(work, event)
            if acts and all(act in MARKERS for act in acts):
                work.drop(event, "a marker neither drives nor looks")
            elif strange := [act for act in acts if act not in ACTS]:
                work.stop(event.key, f"fit has no rule for the event `{strange[0]}`")
            elif not acts and work.texts[event.key][:1] != "'" and work.keyword(event) != "InheritWaveform":
                work.stop(event.key, f"fit has no rule for {work.shown(event)} in a waveform")


def _inherit(work: Work, names: Names) -> None:
    """Puts the events of other waveforms where a waveform inherits them; tables are read in text order."""
    read: list[Table] = []
    for block in work.statements:
        if work.keyword(block) != "Timing":
            continue
        timing = plain(" ".join(work.head(block)[:1]))
        for statement in block.kids or []:
            if work.keyword(statement) == "WaveformTable" and statement.kids is not None:
                table = Table(timing, plain(" ".join(work.head(statement)[:1])))
                read.append(table)
                _read_table(work, names, read, table, statement)


def _read_table(work: Work, names: Names, tables: list[Table], table: Table, statement: Statement) -> None:
    table.parents = [plain(work.texts[kid.key + 1]) for kid in statement.kids or [] if work.keyword(kid) == "InheritWaveformTable"]
    for block in statement.kids or []:
        if work.keyword(block) != "Waveforms":
            continue
        for entry in block.kids or []:
            members = names.members(work.texts[entry.start : entry.head_end]) or ()
            for wave in entry.kids or []:
                if work.keyword(wave) == "InheritWaveform" and wave.open < 0:
                    _inherit_all(work, tables, table, members, wave)
                else:
                    _read_wave(work, tables, table, members, wave)


def _read_wave(work: Work, tables: list[Table], table: Table, members: tuple[str, ...], wave: Statement) -> None:
    characters = "".join(work.texts[wave.start : wave.head_end])
    for event in wave.kids or []:
        if work.keyword(event) == "InheritWaveform":
            _inherit_one(work, tables, table, members, characters, event)
    for number, character in enumerate(characters):
        events: list[Event] = []
        for event in wave.kids or []:
            if work.texts[event.key][:1] == "'":
                events.append((work.texts[event.key].strip(), act_of(work, event, number, len(characters))))
            elif work.keyword(event) == "" and event.key in work.before:
                events += _events_of(work.before[event.key])
        for member in members:
            table.waves[member, character] = events


def _events_of(text: str) -> list[Event]:
    """Events as they were put in."""
    parts = [part.strip().rpartition(" ") for part in text.split(";") if part.strip()]
    return [(time, act) for time, _, act in parts]


def _target(work: Work, tables: list[Table], table: Table, head: list[str]) -> tuple[Table, list[str]] | None:
    """The table that an InheritWaveform names, and what stands behind its name."""
    first, *rest = "".join(map(plain, head)).split(".")
    timing, _, name = first.rpartition("::")
    timing = timing or table.timing
    found = [one for one in tables if one.timing == timing and one.name == name]
    return (found[0], rest) if found and found[0] is not table else None


def _wave(tables: list[Table], table: Table, member: str, character: str, deep: int = 0) -> list[Event] | None:
    """The events of a signal and a character: the table's own, else those of the last table that it inherits and that has them."""
    own = table.waves.get((member, character))
    if own is not None or deep > 64:
        return own
    for name in reversed(table.parents):
        parent = next((one for one in tables if one.timing == table.timing and one.name == name), None)
        if parent and (found := _wave(tables, parent, member, character, deep + 1)) is not None:
            return found
    return None


def _inherit_one(work: Work, tables: list[Table], table: Table, members: tuple[str, ...], characters: str, event: Statement) -> None:
    """`InheritWaveform t.P;` becomes the events of P, where they are the same for all signals."""
    target = _target(work, tables, table, work.head(event))
    if not target or len(target[1]) > 2 or not members:
        work.stop(event.key, "fit knows no waveform of this name in front of it; write its events here")
        return
    source, rest = target
    signal = rest[0] if len(rest) == 2 else None
    character = rest[-1] if rest else characters
    if len(character) != 1 or len(characters) != 1:
        work.stop(event.key, "fit has no rule for an InheritWaveform of several characters; write their events here")
        return
    found = [_wave(tables, source, signal or member, character) for member in members]
    if found[0] is None or any(one != found[0] for one in found):
        work.stop(event.key, f"the signals here have no waveform `{character}` in `{source.name}`, or not the same one; write its events here")
        return
    work.change(event.key, f"{work.shown(event)} written as its events", "the same events at the same times")
    work.blank(event.start, event.end + 1)
    work.insert(event.key, "".join(f"{time} {act}; " for time, act in found[0]))


def _inherit_all(work: Work, tables: list[Table], table: Table, members: tuple[str, ...], statement: Statement) -> None:
    """`InheritWaveform t;` of signals becomes all their waveforms, where they are the same for all of them."""
    target = _target(work, tables, table, work.head(statement))
    if not target or len(target[1]) > 1 or not members:
        work.stop(statement.key, "fit knows no waveforms of this name in front of it; write them here")
        return
    source, rest = target
    each = [{character: events for character in _characters(tables, source, name)
             if (events := _wave(tables, source, name, character)) is not None} for name in ([rest[0]] if rest else members)]
    if not each[0] or any(one != each[0] for one in each):
        work.stop(statement.key, f"the signals here have no waveforms in `{source.name}`, or not the same ones; write them here")
        return
    work.change(statement.key, f"{work.shown(statement)} written as its waveforms", "the same events at the same times")
    work.blank(statement.start, statement.end + 1)
    waves = [f"{character} {{ {' '.join(f'{time} {act};' for time, act in events)} }} " for character, events in each[0].items()]
    work.insert(statement.start, "".join(waves))
    for member in members:
        for character, events in each[0].items():
            table.waves.setdefault((member, character), events)


def _characters(tables: list[Table], table: Table, member: str, deep: int = 0) -> list[str]:
    """The characters of a signal in a table, inherited ones too."""
    found = dict.fromkeys(character for name, character in table.waves if name == member)
    for name in table.parents if deep <= 64 else []:
        for parent in [one for one in tables if one.timing == table.timing and one.name == name]:
            found.update(dict.fromkeys(_characters(tables, parent, member, deep + 1)))
    return list(found)
