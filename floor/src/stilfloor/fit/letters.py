"""Waveform characters that the program has no form for."""

from stilfloor.fit.bodies import ASSIGNING, CALLS
from stilfloor.fit.data_rules import Rules
from stilfloor.fit.tree import Statement, all_of
from stilfloor.fit.work import Work

FRESH = "CABDEFGIJKMOQRSWYabcdefgijkmnopqrsuvwyz23456789HLNPTUVXZhltx01"


def fit_letters(work: Work, rules: Rules) -> None:
    """Gives characters that the program has no form for another one that the text has nowhere."""
    strange = sorted((character for character in rules.waves.characters if not (character.isalnum() and character.isascii())),
                     key=lambda character: (character != "-", character))
    if not strange:
        return
    used = rules.waves.characters | _characters(work) | set(rules.renamed.values())
    free = [letter for letter in FRESH if letter not in used]
    for character in strange:
        if not free:
            _stop_letter(work, character)
            continue
        rules.renamed[character] = free.pop(0)
        for acts in rules.waves.acts.values():
            if character in acts:
                acts[rules.renamed[character]] = acts[character]
    for wave in _wave_statements(work):
        head = "".join(work.texts[wave.start : wave.head_end])
        if any(character in rules.renamed for character in head):
            made = "".join(rules.renamed.get(character, character) for character in head)
            _note_letter(work, wave.start, head, made)
            work.put(wave.start, wave.head_end, made)


def _note_letter(work: Work, place: int, head: str, made: str) -> None:
    work.change(place, f"characters `{head}` written `{made}`", "a waveform character is only a name of its waveform, and nothing else has this one")


def _stop_letter(work: Work, character: str) -> None:
    for wave in _wave_statements(work):
        if character in work.texts[wave.start : wave.head_end]:
            work.stop(wave.start, f"the program has no waveform character `{character}`, and the text uses all letters and digits as others")


def _wave_statements(work: Work) -> list[Statement]:
    found: list[Statement] = []
    for block in work.statements:
        for statement in all_of(block.kids or []) if work.keyword(block) == "Timing" else []:
            if work.keyword(statement) == "Waveforms":
                found += [wave for entry in statement.kids or [] for wave in entry.kids or [] if wave.open >= 0]
    return found


def _characters(work: Work) -> set[str]:
    """All characters of words in data."""
    words: set[str] = set()
    for block in work.statements:
        if work.keyword(block) in ("Pattern", "MacroDefs", "Procedures"):
            for statement in all_of(block.kids or []):
                for part in work.assignments(statement) if work.texts[statement.key] in ASSIGNING or work.texts[statement.key] in CALLS else []:
                    if part.equals >= 0:
                        words.update(work.texts[part.equals + 1 : part.end])
    return set("".join(words))
