"""Rules for the blocks outside patterns: what no cycle depends on goes, and names are written as the program reads them."""

import re
from collections.abc import Iterator
from fractions import Fraction

from stilfloor.fit.tokens import is_name, is_word, plain
from stilfloor.fit.tree import Statement
from stilfloor.fit.work import Work

LEVELS = "levels alone are simulated, and no look depends on a load or a supply"
KNOWN = "all groups of a text are known everywhere"
DESIGN = "it describes the design, not the vectors"
REMARK = "it is a remark for tools"
CONSTANTS = "constants are written where they are used, and nothing that is left uses the others"
# what goes at the top of a text, and in a PatternExec, a burst and an entry of its list
TOP = {"DCLevels": LEVELS, "DCSets": LEVELS, "DCSequence": LEVELS, "Termination": LEVELS, "ClockStructures": DESIGN,
       "CompressorStructures": DESIGN, "Environment": "it has no vectors", "PatternFileType": REMARK, "X": REMARK}
KEPT = frozenset("STIL Header UserKeywords UserFunctions Include Signals SignalGroups Spec Selector Timing ScanStructures MacroDefs "
                 "Procedures PatternBurst PatternExec Pattern Variables".split())
EXEC = frozenset("Category Selector Timing PatternBurst".split())
CHAIN_NAMES = ("ScanIn", "ScanOut")
INTEGER = re.compile(r"\s*([-+*/()]|\d+|\"[^\"]*\"|[A-Za-z_]\w*)", re.ASCII)


def gather_keywords(work: Work) -> None:
    """Notes the words of UserKeywords; statements that begin with one behind it are told, since `stil` skips them."""
    for statement in work.statements:
        if work.keyword(statement) == "UserKeywords" and statement.open < 0:
            for word in work.head(statement):
                work.skipped.setdefault(word, statement.key)
    if not work.skipped:
        return
    kept: list[Statement] = []
    for statement in work.statements:
        if not _told(work, statement):
            kept.append(statement)
    work.tree.statements = kept


def _told(work: Work, statement: Statement) -> bool:
    """Whether a statement is skipped, which is told; those of its block that are skipped leave the tree."""
    if work.is_skipped(statement.start):
        work.change(statement.start, f"{work.shown(statement)} skipped by `stil`", "its first word is one of UserKeywords: see that it has no vectors",
                    False)
        return True
    if statement.kids:
        statement.kids = [kid for kid in statement.kids if not _told(work, kid)]
    return False


def fit_blocks(work: Work) -> None:
    """All blocks but Spec, Timing, bursts and those with patterns."""
    fit_top(work)
    fit_signals(work)
    fit_chains(work)
    fit_execs(work)


def fit_top(work: Work) -> None:
    """The statements outside all blocks."""
    for statement in work.statements:
        keyword = work.keyword(statement)
        if keyword in TOP:
            work.drop(statement, TOP[keyword])
        elif keyword not in KEPT:
            work.stop(statement.key, f"fit has no rule for {work.shown(statement)} outside blocks")
    _forget(work)


def _forget(work: Work) -> None:
    """Takes statements that are gone out of the tree."""
    work.tree.statements = [statement for statement in work.statements if work.texts[statement.end]]


def fit_signals(work: Work) -> None:
    """Attributes of signals and groups, and names that aren't words."""
    for block in work.statements:
        keyword = work.keyword(block)
        if keyword not in ("Signals", "SignalGroups"):
            continue
        for statement in block.kids or []:
            for attribute in [kid for kid in statement.kids or [] if work.keyword(kid) == "Termination"]:
                work.drop(attribute, LEVELS)
            if keyword == "Signals":
                quote(work, statement.start, statement.head_end - 1, False)


def quote(work: Work, start: int, end: int, is_cell: bool) -> None:
    """Puts a name that isn't a word into double quotes, `si[1]` and `u1.b_reg` too; a range stays outside."""
    texts = work.texts[start:end]
    if len(texts) < 2 or not is_name(texts[0]) or any(work.tokens.gaps[start + 1 : end]) and "." in texts:
        return
    base, indices = texts, []
    if "[" in texts:
        base, indices = texts[: texts.index("[")], texts[texts.index("[") :]
    is_range = "." in indices
    if len(base) == 1 and (is_range or is_cell or not indices):
        return
    if not all(is_word(text) or text in ".[]/" for text in texts[1:]):
        return
    inside = base if is_range or is_cell else texts
    name = '"' + "".join(map(plain, inside)) + '"'
    work.change(start, f"`{''.join(texts)}` written `{name}{''.join(texts[len(inside):])}`", "the same name")
    work.put(start, start + len(inside), name)


def fit_chains(work: Work) -> None:
    """Scan structures: groups of chains go, names and lists are written as the program reads them."""
    for block in work.statements:
        if work.keyword(block) != "ScanStructures":
            continue
        for statement in list(block.kids or []):
            keyword = work.keyword(statement)
            if keyword == "ScanChain" and statement.kids is not None:
                for part in statement.kids:
                    _fit_chain(work, part)
            elif keyword == "ScanChainGroups":
                work.drop(statement, "it names groups of chains for tools; the V of a Shift says what is shifted")
            elif keyword != "ScanChain":
                work.stop(statement.key, f"fit has no rule for {work.shown(statement)} in ScanStructures")


def _fit_chain(work: Work, part: Statement) -> None:
    keyword = work.keyword(part)
    if keyword in CHAIN_NAMES and part.open < 0:
        quote(work, part.key + 1, part.end, False)
    elif keyword == "ScanCells" and part.open < 0:
        for start, end in list(_cells(work, part.key + 1, part.end)):
            quote(work, start, end, True)
    elif keyword == "ScanCells":
        _fit_cells(work, part)


def _fit_cells(work: Work, part: Statement) -> None:
    """`ScanCells { a; b; }` becomes `ScanCells a b;`."""
    cells = part.kids or []
    if part.open != part.key + 1 or any(cell.open >= 0 for cell in cells):
        work.stop(part.key, "fit has no rule for ScanCells of this form; write `ScanCells \"c0\" \"c1\" ..;`")
        return
    work.change(part.key, "`ScanCells { .. }` written as a list", "the same cells in the same order")
    for cell in cells:
        for start, end in list(_cells(work, cell.start, cell.end)):
            quote(work, start, end, True)
        work.texts[cell.end] = " "
    work.texts[part.open] = " "
    work.texts[part.end] = ";"


def _cells(work: Work, start: int, end: int) -> Iterator[tuple[int, int]]:
    """The cells of a list: from where to where each goes."""
    first = start
    for place in range(start, end):
        text, before = work.texts[place], work.texts[place - 1] if place > first else ""
        if place > first and (text == "!" or before == "!" or is_name(text) and (is_name(before) or before == "]") and before != "."):
            yield first, place
            first = place
    if first < end:
        yield first, end


def fit_execs(work: Work) -> None:
    """What a PatternExec names beside categories, selector, timing and burst."""
    for block in work.statements:
        if work.keyword(block) != "PatternExec":
            continue
        for statement in list(block.kids or []):
            keyword = work.keyword(statement)
            if keyword in TOP:
                work.drop(statement, TOP[keyword])
            elif keyword == "SignalGroups" and statement.open < 0:
                work.drop(statement, KNOWN)
            elif keyword == "Variables" and statement.open < 0:
                work.drop(statement, "no statement that is left uses a variable")
            elif keyword not in EXEC:
                work.stop(statement.key, f"fit has no rule for {work.shown(statement)} in a PatternExec")


def constants_of(work: Work) -> dict[str, str]:
    """The expressions of the integer constants that Variables blocks declare; blocks that nothing uses go."""
    found: dict[str, str] = {}
    for block in work.statements:
        if work.keyword(block) == "Variables":
            for statement in block.kids or []:
                head = [text for text in work.head(statement) if text != ":"]
                if work.keyword(statement) == "IntegerConst" and len(head) > 2 and head[1] == "=" and statement.open < 0:
                    found[plain(head[0])] = plain(" ".join(head[2:]))
            work.drop(block, CONSTANTS)
    _forget(work)
    return found


def integer(text: str, constants: dict[str, str], deep: int = 0) -> int | None:
    """The value of an integer expression of constants; None where it isn't known."""
    tokens: list[str] = []
    place = 0
    while place < len(text.rstrip()):
        found = INTEGER.match(text, place)
        if not found:
            return None
        tokens.append(found[1])
        place = found.end()
    value = _sum(tokens, constants, deep)
    return int(value) if value is not None and not tokens and value.denominator == 1 else None


def _sum(tokens: list[str], constants: dict[str, str], deep: int) -> Fraction | None:
    value = _product(tokens, constants, deep)
    while value is not None and tokens[:1] in (["+"], ["-"]):
        sign = tokens.pop(0)
        other = _product(tokens, constants, deep)
        value = None if other is None else value + other if sign == "+" else value - other
    return value


def _product(tokens: list[str], constants: dict[str, str], deep: int) -> Fraction | None:
    value = _factor(tokens, constants, deep)
    while value is not None and tokens[:1] in (["*"], ["/"]):
        sign = tokens.pop(0)
        other = _factor(tokens, constants, deep)
        if other is None or sign == "/" and (other == 0 or (value / other).denominator != 1):
            return None
        value = value * other if sign == "*" else value / other
    return value


def _factor(tokens: list[str], constants: dict[str, str], deep: int) -> Fraction | None:
    if not tokens or deep > 64:
        return None
    text = tokens.pop(0)
    if text.isdigit():
        return Fraction(int(text)) if len(text) <= 20 else None
    if text == "(":
        value = _sum(tokens, constants, deep + 1)
        return value if tokens and tokens.pop(0) == ")" else None
    if plain(text) in constants:
        known = integer(constants[plain(text)], constants, deep + 1)
        return None if known is None else Fraction(known)
    return None
