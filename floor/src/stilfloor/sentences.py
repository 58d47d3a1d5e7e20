"""What the program refuses, in plain sentences that say what to do, with the file and the line."""

import re

from stilfloor.faults import REFUSED, TOOL, UNREADABLE, Fault
from stilfloor.plans import Plan, read_plan, read_rows, read_text
from stilfloor.records import bare

# a refusal is all that the program prints, and its line ends with the first line feed outside quotes: a name in quotes may have some
WORDS = re.compile(r"""(?:"[^"]*"|'[^']*')(?= |$)|\S+""")
OF_STIL = re.compile(r"refused stil (\w+) (.*) (\d+)", re.DOTALL)

STIL = {
    "BadByte": "this byte can stand in no token; write it inside quotes or a comment, or take it out (is the file compressed?)",
    "OpenQuote": "a quote begins here and never ends; close it with the same quote",
    "OpenComment": "a comment or an annotation begins here and never ends; close it with `*/` or `*}`",
    "OpenBlock": "the block that is opened here is never closed; add `}` at its end",
    "OpenStatement": "this statement isn't ended; put `;` or a block in braces behind it",
    "StrayClose": "this `}` closes nothing; take it out, or look for a missing `{` above it",
    "TooDeep": "blocks nest at most sixteen deep; take a level out",
    "NoHeader": "the first statement must be `STIL 1.0;` or `STIL 1.0 { .. }`; put it in front",
    "NoExec": "the text has no PatternExec, so nothing would run; add one that names a PatternBurst",
    "Shape": "this statement hasn't the form that stands here; see docs/language.md for its forms",
    "LeftOut": "this is a part of STIL that the program doesn't read; take it out, or write it by the statements that it reads",
    "OutOfRange": "a number here is beyond its limit; see the limits in docs/language.md",
    "Twice": "this stands a second time where it may stand once; give it another name, or take one out",
    "UnknownName": "a name here is declared nowhere; look for a misspelling, or declare it",
    "Cyclic": "this needs itself by way of the names that it uses; break the circle",
    "TooLarge": "this makes the program larger than its limits; split it, or use loops",
    "TooManyCycles": "there are more cycles here than the limit; split the executive, or make its loops shorter",
    "NoTable": "this vector has no waveform table; put `W table;` in front of it",
    "NoWave": "a signal has a character here that its waveform table doesn't define for it; add it to the table's Waveforms",
    "NoPeriod": "this waveform table has no period; write `Period '100ns';` in it, or inherit one",
    "EventOutside": "an event lies outside its cycle; its time must be at least 0 and below the period",
    "EventOrder": "an event comes before the one that is written in front of it; write the events of a waveform in rising order",
    "NotWhole": "this time is no whole number of femtoseconds; round it",
    "BadExpr": "this is no time expression; write numbers with units, names and + - * / with parentheses",
    "ZeroDivisor": "this divides by 0; look at the values of the variables that it names",
    "ShiftForm": "this can't stand where it does: a Shift stands in a macro or procedure outside its Loops, with one `#` a signal, and "
                 "arguments hold no `#` or `%`",
    "Width": "there are not as many characters here as the reference has signals; write one for each, or a multiple in arguments",
    "NoData": "a `#` or `%` here has no character left to take; give the Call or Macro an argument for this signal that is long enough",
}

NET = {
    "Line": "this line is none of `INPUT(net)`, `OUTPUT(net)` and `net = GATE(net, ..)`; correct it, or begin it with `#`",
    "OutOfRange": "a netlist names at most 65,536 nets; cut the design into parts",
    "Arity": "the gate of `{}` has a number of inputs that its kind can't have: NOT, BUF and DFF have one",
    "Twice": "the net `{}` is driven a second time here; take one driver out",
    "Missing": "the net `{}` is used here and nothing drives it; add its gate, or `INPUT({})`",
    "Loop": "the net `{}` lies on a loop of gates or behind one; put a DFF into the loop",
}

PLAN = {
    "Shape": "this row has none of the forms of a plan, or `lot` isn't first and once; see docs/formats/plan.md",
    "OutOfRange": "a number in this row is beyond its range; see docs/formats/plan.md",
    "UnknownName": "this row names a die, a signal or a net that isn't there; look for a misspelling, and put a die's row in front of "
                   "rows about it",
    "Twice": "this row says a second time what an earlier row says; take one out",
    "SkewOutside": "this skew moves an event out of its cycle; make it smaller",
}

SAVED = {
    "BadMagic": "these bytes are no saved program; write one with `stil save`",
    "BadVersion": "this is a saved program of another version; write it again with `stil save`",
    "Torn": "the saved program ends too early, at byte {}; write it again with `stil save`",
    "BadCode": "the saved program breaks a condition at byte {}; write it again with `stil save`",
}

BARE = {
    "usage:": "the program doesn't know these words",
    "out": "there was no memory; give the program more, or split what it is given",
    "no": "the plan has no die; add a row `die,0,NAME,FILE,,`",
}


def refusal(output: str, status: int, program: str, plan: str = "") -> Fault:
    """The fault that a refused command's output and status stand for, at the file and line that it is about."""
    line = output.removesuffix("\n")
    words = [bare(word) for word in WORDS.findall(line)]
    of_stil = OF_STIL.fullmatch(line)
    if of_stil:
        return _of_stil(of_stil[1], [bare(word) for word in WORDS.findall(of_stil[2])], int(of_stil[3]), program)
    if words[:2] == ["refused", "net"]:
        return _of_net(words[2:])
    if words[:2] == ["refused", "plan"]:
        return _of_plan(words[2:], plan)
    if words[:2] == ["refused", "saved"]:
        text = SAVED.get(words[2], words[2]).format(words[3])
        return Fault(REFUSED, f"{text} ({words[2]})", program)
    if words[:2] == ["read", "fault"]:
        return Fault(UNREADABLE, "the file can't be read; look at its name and the folder where you stand", _file_of(output))
    if words[:2] == ["too", "long"]:
        return Fault(REFUSED, "this has more than 16,777,216 bytes, which is the limit; split it", _file_of(output))
    if words[:2] == ["too", "few"]:
        return Fault(REFUSED, f"the plan uses site {int(words[3]) - 1}, and there are {words[4]} sites, from 0 on", plan)
    text = BARE.get(words[0] if words else "", "")
    return Fault(REFUSED if text else TOOL, text or f"the program ended with status {status}", plan or program)


def _file_of(output: str) -> str:
    """The file of a refusal that is its two words and the name of a file, of any bytes."""
    printed = output.removesuffix("\n").split(" ", 2)[-1]
    name = bare(printed) or printed
    return name.encode("latin-1").decode("utf-8", "surrogateescape")


def _of_stil(kind: str, around: list[str], line: int, program: str) -> Fault:
    block, name = around[0], around[-1]
    text = STIL.get(kind, "the program refuses this")
    where = "" if block == "-" else f", in {block}" + ("" if name == "-" else f" `{name}`")
    return _of_kind(kind, f"{text} ({kind}{where})", program, line)


def _of_kind(kind: str, text: str, file: str, line: int) -> Fault:
    fault = Fault(REFUSED, text, file, line)
    fault.kind = kind
    return fault


def _of_net(words: list[str]) -> Fault:
    file, kind, argument = words
    text = NET.get(kind, "the program refuses this netlist").format(argument, argument)
    line = int(argument) if kind == "Line" else line_of_net(file, kind, argument)
    return Fault(REFUSED, f"{text} ({kind})", file, line)


def line_of_net(file: str, kind: str, net: str) -> int:
    """The line of a netlist that a refusal is about: a net's gate, its second driver, or its first use."""
    try:
        lines = read_text(file).split("\n")
    except Fault:
        return 0
    driver = re.compile(r"\s*(?:INPUT\s*\(\s*%s\s*\)|%s\s*=)" % (re.escape(net), re.escape(net)), re.IGNORECASE)
    use = re.compile(r"[(,]\s*%s\s*[,)]" % re.escape(net))
    found = [number for number, line in enumerate(lines, 1) if driver.match(line)]
    if kind == "Missing":
        found = [number for number, line in enumerate(lines, 1) if use.search(line)]
    if not found:
        return 0
    return found[1] if kind == "Twice" and len(found) > 1 else found[0]


def _of_plan(words: list[str], file: str) -> Fault:
    kind, argument = words
    if kind == "Unbound":
        text = f"the signal `{argument}` has no net that it can have in some netlist: add `bind,{argument},NET,,,`, or `bind,{argument},-,,,` "
        return _of_kind(f"Unbound {argument}", text + "to leave it free (Unbound)", file, _line_of_bind(file, argument))
    try:
        plan: Plan = read_rows(read_text(file), file)
        line = plan.lines[int(argument) - 1]
    except (Fault, IndexError):
        line = int(argument)
    return _of_kind(kind, f"{PLAN.get(kind, 'the program refuses this row')} ({kind})", file, line)


def _line_of_bind(file: str, signal: str) -> int:
    try:
        plan = read_plan(file)
    except Fault:
        return 0
    return next((line for row, line in zip(plan.rows, plan.lines) if row[0] == "bind" and row[1] == signal), 0)
