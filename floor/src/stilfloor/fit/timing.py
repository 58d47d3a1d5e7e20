"""Rules for Spec and Timing: variables, times, events, and waveforms that are inherited one by one."""

from dataclasses import dataclass, field

from stilfloor.fit import times
from stilfloor.fit.blocks import LEVELS
from stilfloor.fit.signals import Names
from stilfloor.fit.tokens import plain
from stilfloor.fit.tree import Statement, all_of
from stilfloor.fit.work import Work

CHOICES = ("Min", "Typ", "Max", "Meas")
ACTS = frozenset(
    "D U Z N P L H T X x l h t ForceDown ForceUp ForceOff ForceUnknown ForcePrior CompareLow CompareHigh CompareOff CompareUnknown "
    "CompareLowWindow CompareHighWindow CompareOffWindow".split())
LOOKS = frozenset("L H T l h t CompareLow CompareHigh CompareOff CompareLowWindow CompareHighWindow CompareOffWindow".split())
DRIVES = frozenset("D U Z N P ForceDown ForceUp ForceOff ForceUnknown ForcePrior".split())
MARKERS = ("M", "Marker")


@dataclass(slots=True)
class Waves:
    """The acts of each signal and character, over all tables."""

    acts: dict[str, dict[str, set[str]]] = field(default_factory=dict)
    characters: set[str] = field(default_factory=set)

    def quiet(self, signal: str, drives: bool = True) -> str | None:
        """A character at which a signal isn't looked at: X where it can be; without `drives` one that doesn't drive either."""
        known = self.acts.get(signal, {})
        for character in ["X", *sorted(known)]:
            acts = known.get(character)
            if acts is not None and not acts & LOOKS and (drives or not acts & DRIVES):
                return character
        return None


@dataclass(slots=True)
class Spec:
    """The variables of a text: what each is written as, in all categories, and where."""

    texts: dict[str, list[str]] = field(default_factory=dict)
    places: list[tuple[str, int, Statement]] = field(default_factory=list)
    kinds: dict[str, int | None] = field(default_factory=dict)
    used: set[str] = field(default_factory=set)

    def kind_of(self, name: str) -> int | None:
        """Whether a variable is a time (1) or a plain number (0)."""
        if name not in self.kinds:
            self.kinds[name] = times.ANY
            self.kinds[name] = self._kind(self.texts.get(name, []))
        return self.kinds[name]

    def _kind(self, texts: list[str]) -> int | None:
        kinds = set()
        for text in texts:
            try:
                reader = times.Reader(text, self.kind_of)
                value = reader.read() if reader.cut() else None
            except times.TimeStop:
                return times.ANY
            if value is None:
                return times.ANY
            if value.value != 0:
                kinds.add(value.kind)
        return kinds.pop() if len(kinds) == 1 else times.BOTH if kinds else times.ANY


def fit_spec(work: Work) -> Spec:
    """Writes variables by category, and gathers them."""
    spec = Spec()
    for block in work.statements:
        if work.keyword(block) != "Spec" or block.kids is None:
            continue
        for statement in block.kids:
            keyword = work.keyword(statement)
            if work.is_skipped(statement.start):
                continue
            if keyword == "Variable":
                _by_category(work, spec, statement)
            elif keyword == "Category":
                for variable in statement.kids or []:
                    _gather(work, spec, plain(work.texts[variable.start]), variable)
            else:
                work.stop(statement.key, f"fit has no rule for {work.shown(statement)} in a Spec")
    return spec


def _gather(work: Work, spec: Spec, name: str, variable: Statement) -> None:
    """Notes the texts of a variable."""
    parts = variable.kids if variable.kids is not None else [variable]
    for part in parts:
        for place in range(part.key, part.head_end):
            if work.texts[place][:1] == "'":
                spec.texts.setdefault(name, []).append(plain(work.texts[place]))
                spec.places.append((name, place, variable))


def _by_category(work: Work, spec: Spec, statement: Statement) -> None:
    """`Variable v { c = 'time'; }` becomes `Category c { v = 'time'; }`."""
    head = work.head(statement)
    if len(head) != 1 or statement.kids is None or any(not _category(work, part) for part in statement.kids):
        work.stop(statement.key, "fit has no rule for a Variable of this form")
        return
    name = head[0]
    work.change(statement.key, f"`Variable {name}` written by category", "the same values, of the same categories")
    for part in statement.kids:
        _gather(work, spec, plain(name), part)
        category = _category(work, part)
        if part.open < 0:
            work.put(part.start, part.head_end - 2, f"Category {category} {{ {name}")
            work.texts[part.end] = "; }"
        else:
            work.put(part.start, part.open, f"Category {category} {{ {name} ")
            work.texts[part.end] = "} }"
    work.blank(statement.start, statement.open + 1)
    work.blank(statement.end, statement.end + 1)


def _category(work: Work, part: Statement) -> str:
    """The category that a part of a Variable is about; nothing where it has another form."""
    head = work.texts[part.start : part.head_end]
    if head[:1] == ["Category"]:
        head = head[1:]
    if part.open >= 0:
        good = len(head) == 1 and all(work.keyword(choice) in CHOICES for choice in part.kids or [])
        return head[0] if good else ""
    return head[0] if len(head) == 3 and head[1] == "=" and head[2][:1] == "'" else ""


def fit_times(work: Work, spec: Spec) -> None:
    """Writes all times as the program reads them."""
    for block in work.statements:
        if work.keyword(block) == "Timing":
            for table in block.kids or []:
                if work.keyword(table) == "WaveformTable" and table.kids is not None:
                    _table_times(work, spec, table)
    _variable_times(work, spec)


def _table_times(work: Work, spec: Spec, table: Statement) -> None:
    labels = _labels(work, table)
    for statement in table.kids or []:
        keyword = work.keyword(statement)
        if keyword == "Period":
            _time(work, spec, statement.key + 1, labels, True)
        elif keyword == "Waveforms":
            for event in all_of(statement.kids or []):
                if event.open < 0 and work.texts[event.key][:1] == "'":
                    _time(work, spec, event.key, labels, True)
                    _unlabel(work, event)


def _labels(work: Work, table: Statement) -> dict[str, str | None]:
    """The time of each label of a table's events; None where events with other times have the same label."""
    labels: dict[str, str | None] = {}
    for event in all_of(table.kids or []):
        if event.key > event.start and work.texts[event.key][:1] == "'":
            name, text = plain(work.texts[event.start]), plain(work.texts[event.key])
            labels[name] = text if labels.get(name, text) == text else None
    return labels


def _unlabel(work: Work, event: Statement) -> None:
    if event.key > event.start:
        work.change(event.start, f"label `{work.texts[event.start]}:` of an event dropped", "times that name it have its value written in")
        work.blank(event.start, event.key)


def _time(work: Work, spec: Spec, place: int, labels: dict[str, str | None], is_time: bool) -> None:
    """Writes one time."""
    text = work.texts[place]
    if text[:1] != "'":
        return
    try:
        made = times.written(plain(text), spec.kind_of, work.unit, labels, is_time)
    except times.TimeStop as stop:
        work.stop(place, str(stop))
        return
    spec.used.update(made.names)
    if made.text != plain(text):
        work.texts[place] = f"'{made.text}'" + ("\n" * (text.count("\n") - made.text.count("\n")))
        for edit in made.edits:
            work.change(place, f"time {' '.join(edit.split())}", "it has the same value" if "in " + work.unit not in edit or not work.unit
                        else f"a plain number is {work.unit} in this text, as --unit says")


def _variable_times(work: Work, spec: Spec) -> None:
    """Writes the texts of variables; those of levels that no time needs go."""
    needed: set[str] = set()
    behind = list(spec.used)
    while behind:
        name = behind.pop()
        if name not in needed:
            needed.add(name)
            for text in spec.texts.get(name, []):
                reader = times.Reader(text, spec.kind_of)
                try:
                    if reader.cut() and reader.read():
                        behind += reader.names
                except times.TimeStop:
                    pass
    for name, place, variable in spec.places:
        if _is_level(plain(work.texts[place])) and name not in needed:
            _drop_level(work, variable)
        else:
            _time(work, spec, place, {}, False)


def _is_level(text: str) -> bool:
    """Whether a text has a unit of volts, amperes or the like."""
    reader = times.Reader(text, lambda name: None)
    try:
        reader.cut()
    except times.TimeStop:
        return reader.others
    return False


def _drop_level(work: Work, variable: Statement) -> None:
    if work.texts[variable.end]:
        work.drop(variable, LEVELS, f"variable `{work.texts[variable.start]}`, which is no time and which no time needs,")


def waves_of(work: Work, names: Names) -> Waves:
    """The acts of signals and characters, as they stand in the tables."""
    waves = Waves()
    for block in work.statements:
        if work.keyword(block) != "Timing":
            continue
        for statement in all_of(block.kids or []):
            if work.keyword(statement) == "Waveforms":
                for entry in statement.kids or []:
                    _waves_of_entry(work, names, waves, entry)
    return waves


def _waves_of_entry(work: Work, names: Names, waves: Waves, entry: Statement) -> None:
    members = names.members(work.texts[entry.start : entry.head_end]) or ()
    for wave in entry.kids or []:
        characters = "".join(work.texts[wave.start : wave.head_end])
        if wave.kids is None:
            continue
        waves.characters.update(characters)
        for number, character in enumerate(characters):
            acts = {act for event in wave.kids if (act := act_of(work, event, number, len(characters)))}
            for member in members:
                waves.acts.setdefault(member, {}).setdefault(character, set()).update(acts)


def act_of(work: Work, event: Statement, number: int, count: int) -> str:
    """The act of an event for one of its characters."""
    acts = [text for text in work.texts[event.key + 1 : event.head_end] if text and text != "/"]
    return acts[number] if len(acts) == count > 1 else acts[0] if acts else ""
