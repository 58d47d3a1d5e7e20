"""Data of assignments: flags such as `\\h`, `\\l`, `\\m` and `\\r2 01` written out as plain waveform characters."""

import re

from stilfloor.fit.bodies import ASSIGNING, CALLS, Bodies, Body
from stilfloor.fit.data_rules import Cursor, DataStop, Piece, Rules, note, short
from stilfloor.fit.digits import base, by_base, convert, digits_at
from stilfloor.fit.tokens import is_word, plain
from stilfloor.fit.tree import Assignment, Statement, all_of
from stilfloor.fit.work import Work

REPEAT = re.compile(r"r(\d+)")
MOST_REPEATS = 1 << 20
# (pieces of data that are kept in case they come again)
MOST_KNOWN = 1 << 16
# tokens that may stand in a block of plain assignments beside words, names and texts
PLAIN = frozenset("=;[].#%")
ARGUMENT = frozenset("=;[].")
ACTION = re.compile(r"[A-Za-z]")


def fit_data(work: Work, bodies: Bodies, rules: Rules) -> None:
    """Writes out the data of all bodies."""
    for body in bodies.all:
        for statement in all_of(body.kids):
            keyword = work.texts[statement.key]
            if keyword in CALLS:
                if statement.open >= 0:
                    _fit_block(work, rules, body, statement, ARGUMENT)
            elif keyword in ASSIGNING:
                _fit_block(work, rules, body, statement, PLAIN)
    _fit_late(work, rules)


def _fit_block(work: Work, rules: Rules, body: Body, statement: Statement, allowed: frozenset[str]) -> None:
    texts = work.tokens.texts[statement.open + 1 : statement.end]
    is_plain = "\\" not in texts and all(len(text) > 1 or text.isalnum() or text in allowed for text in set(texts))
    if is_plain and not rules.based and not (rules.letters and rules.letters.intersection("".join(texts))):
        if len(texts) <= 4 * texts.count(";") and not any("_" in text or text[:1] == "'" for text in texts[2::4]):
            return
        if not _has_odd_data(texts):
            return
    parts = work.assignments(statement)
    for part in parts:
        if part.equals >= 0:
            _fit_part(work, rules, body, statement, parts, part)


def _has_odd_data(texts: list[str]) -> bool:
    """Whether a time, a word with `_`, or an act with a number behind it stands where data do."""
    behind = False
    for number, text in enumerate(texts):
        if text in "=;":
            behind = text == "="
        elif behind and (text[0] == "'" or "_" in text or text.isdigit() and ACTION.fullmatch(texts[number - 1])):
            return True
    return False


def _fit_part(work: Work, rules: Rules, body: Body, statement: Statement, parts: list[Assignment], part: Assignment) -> None:
    """One assignment."""
    texts, start, behind, end = work.tokens.texts, part.start, part.equals + 1, part.end
    gaps = work.tokens.gaps[behind:end]
    is_argument = texts[statement.key] in CALLS
    key = (" ".join(texts[start:end]), "".join(gaps), is_argument)
    piece = rules.memory.get(key)
    if piece is None:
        if len(rules.memory) > MOST_KNOWN:
            rules.memory.clear()
        piece = rules.memory[key] = _piece(rules, tuple(texts[start : part.equals]), texts[behind:end], gaps, is_argument)
    if piece.stop:
        work.stop(part.start, piece.stop)
        return
    if piece.joined and (other := _shared(work, rules, parts, part)):
        work.stop(part.start, f"`\\j` joins what is assigned twice to the signal `{other}` here, and the program keeps the later character alone")
        return
    if piece.late:
        reference = tuple(texts[start : part.equals])
        attributes = rules.names.attributes_of(reference)
        rules.late.append((body, part.start, reference, attributes.single if attributes else {}))
    for what, why in piece.notes:
        work.change(start, what, why)
    if piece.notes:
        work.put(behind, end, piece.text)


def _shared(work: Work, rules: Rules, parts: list[Assignment], part: Assignment) -> str:
    """A signal of an assignment that another one of the block assigns too."""
    own = set(rules.names.members(work.texts[part.start : part.equals]) or ())
    for other in parts:
        if other is not part and other.equals >= 0:
            for member in rules.names.members(work.texts[other.start : other.equals]) or ():
                if member in own:
                    return member
    return "" if own else "".join(work.texts[part.start : part.equals])


def _piece(rules: Rules, reference: tuple[str, ...], tokens: list[str], gaps: list[str], is_argument: bool) -> Piece:
    """Data written out."""
    cursor = Cursor(tokens, gaps, rules.names.members(reference), rules.names.attributes_of(reference))
    cursor.automatic = rules.mapped.get(plain("".join(reference)), {})
    try:
        _refuse(cursor, is_argument)
        _read(rules, cursor, is_argument)
        by_base(rules, cursor, is_argument)
    except DataStop as stop:
        return Piece(stop=str(stop))
    text = "".join(cursor.pieces)
    return Piece(text, list(cursor.notes), "", cursor.joined, cursor.late)


def _refuse(cursor: Cursor, is_argument: bool) -> None:
    """Stops at data that have times of their own, and at `#` and `%` in arguments."""
    words = [text for text in cursor.tokens if is_word(text)]
    has_flag = "\\" in cursor.tokens
    if any(text[:1] == "'" for text in cursor.tokens):
        raise DataStop("these data have times of their own (raw events), and a table's waveforms don't")
    alternate = len(words) > 1 and len(words) == len(cursor.tokens) and len(words) % 2 == 0
    if alternate and not has_flag and not is_argument and cursor.members is not None and len("".join(words)) != len(cursor.members):
        if all(ACTION.fullmatch(word) for word in words[::2]) and all(word.isdigit() for word in words[1::2]):
            raise DataStop("these data have times of their own (raw events), and a table's waveforms don't")
    if is_argument and ("%" in cursor.tokens or "#" in cursor.tokens):
        sign = "%" if "%" in cursor.tokens else "#"
        raise DataStop(f"`{sign}` in an argument depends on what the signals have when this runs: write the characters that they have then")


def _read(rules: Rules, cursor: Cursor, is_argument: bool) -> None:
    """Reads data up to their end."""
    place = 0
    while place < len(cursor.tokens):
        text = cursor.tokens[place]
        if text == "\\":
            place = _flag(rules, cursor, place, is_argument)
        elif cursor.mode in "hd":
            place = digits_at(cursor, place)
        else:
            place = _characters_at(rules, cursor, place)
    if cursor.mode in "hd":
        convert(rules, cursor, is_argument)


def _characters_at(rules: Rules, cursor: Cursor, place: int) -> int:
    """Plain characters at a place."""
    text = cursor.tokens[place]
    cursor.pieces.append((" " if cursor.gaps[place] and cursor.pieces else "") + _spelled(rules, cursor, text))
    return place + 1


def _spelled(rules: Rules, cursor: Cursor, text: str) -> str:
    """Characters with their map and their other names."""
    if cursor.is_mapped and text not in "#%":
        made = cursor.attributes
        if made is None or made.unread or not made.single:
            raise DataStop("`\\m` maps these data, and the text has no WFCMap for them that fit can read")
        text = "".join(made.single.get(character, character) for character in text)
    elif cursor.is_mapped:
        if cursor.attributes is None or cursor.attributes.unread:
            raise DataStop("`\\m` maps these data, and the text has no WFCMap for them that fit can read")
        cursor.late = True
    elif cursor.automatic and any(character in cursor.automatic for character in text):
        mapped = "".join(cursor.automatic.get(character, character) for character in text)
        note(cursor, f"characters `{short(text)}` written `{short(mapped)}`",
             "no table has them for these signals, and their WFCMap says what they are")
        text = mapped
    if rules.renamed and any(character in rules.renamed for character in text):
        made_text = "".join(rules.renamed.get(character, character) for character in text)
        note(cursor, f"characters `{short(text)}` written `{short(made_text)}`", "a waveform character is only a name of its waveform")
        return made_text
    if not is_word(text) and text not in "#%" or "_" in text:
        raise DataStop(f"the program has no waveform character `{text}`, and no table of the text has one either")
    return text


def _flag(rules: Rules, cursor: Cursor, place: int, is_argument: bool) -> int:
    """A `\\` and what it does; the place behind it."""
    word = cursor.tokens[place + 1] if place + 1 < len(cursor.tokens) else ""
    if repeat := REPEAT.fullmatch(word):
        return _repeat(rules, cursor, place, int(repeat[1][:9]))
    if cursor.mode in "hd" and word[:1] in "hdw":
        convert(rules, cursor, is_argument, place + 2 < len(cursor.tokens))
    behind = place + 2
    if word == "w":
        cursor.mode = "w"
        note(cursor, "`\\w` dropped", "characters are read as they are")
    elif word[:1] in ("h", "d"):
        cursor.mode = word[0]
        base(cursor, word, behind)
    elif word[:1] == "l":
        _length(cursor, word, behind)
    elif word == "m":
        cursor.is_mapped = True
        note(cursor, "`\\m` written out", "the characters that its WFCMap gives")
    elif word == "j":
        cursor.joined = True
        note(cursor, "`\\j` dropped", "no signal is assigned twice here, so it joins nothing")
    elif word[:1] == "e":
        raise DataStop("`\\e` has events of its own, and fit has no rule for it")
    else:
        raise DataStop(f"fit has no rule for `\\{word}` in data")
    return behind


def _length(cursor: Cursor, word: str, behind: int) -> None:
    """`\\l` before characters says nothing; with a number it is a length."""
    rest = cursor.tokens[behind:]
    if word != "l" or not rest or rest[0].isdigit() and len(rest) > 1:
        raise DataStop("`\\l` with a number is a length, and fit has no rule for it")
    note(cursor, "`\\l` dropped", "characters are read as they are")


def _repeat(rules: Rules, cursor: Cursor, place: int, count: int) -> int:
    """`\\rN unit`: the unit goes as far as no blank stands; of several characters it is written out."""
    start = end = place + 2
    while end < len(cursor.tokens) and cursor.tokens[end] != "\\" and (end == start or not cursor.gaps[end]):
        end += 1
    unit = cursor.tokens[start:end]
    if not unit:
        raise DataStop("nothing stands behind this repeat, so it repeats nothing")
    if count > MOST_REPEATS:
        raise DataStop(f"a repeat of {count} is more than the program's {MOST_REPEATS}")
    if cursor.mode in "hd":
        cursor.digits += "".join(unit) * count
        return end
    text = "".join(_spelled(rules, cursor, one) for one in unit)
    if len(text) == 1:
        cursor.pieces.append(f"\\r{count} {text} ")
        return end
    if count * len(text) > MOST_REPEATS * 16:
        raise DataStop("this repeat has more characters than a text may have bytes")
    note(cursor, f"`\\r{count} {short(text)}` written out", "the same characters")
    cursor.pieces.append(text * count)
    return end


def _fit_late(work: Work, rules: Rules) -> None:
    """`\\m #`: where no caller's data have a character that the map changes, it maps nothing."""
    for body, place, reference, single in rules.late:
        members = set(rules.names.members(reference) or ())
        for _, call in body.callers:
            for part in work.assignments(call):
                text = "".join(work.texts[part.equals + 1 : part.end]) if part.equals >= 0 else ""
                touched = members.intersection(rules.names.members(work.texts[part.start : part.equals]) or ())
                if touched and any(character in single and single[character] != character for character in text):
                    work.stop(place, f"`\\m #` maps what a caller gives in {work.line(part.start)}, and fit has no rule for it: "
                                     "write the mapped characters there")
                    break
