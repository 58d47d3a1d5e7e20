"""Texts, saved programs and plans of `tools/hostile`, which are large, slow, or at a limit."""
import struct

# how many bytes a file may have
MOST_BYTES = 16777216

# One signal, which a table drives down for 0 and up for 1.
SIGNAL = """STIL 1.0;
Signals { a In; }
Timing { WaveformTable w { Period '10ns'; Waveforms { a { 01 { '0ns' D/U; } } } } }
PatternBurst b { PatList { p; } }
"""
EXEC = "PatternExec { PatternBurst b; }\n"
# many executives of one burst
EXECUTIVES = "".join(f"PatternExec e{k} {{ PatternBurst b; }}\n" for k in range(64))


def as_bytes(content: str | bytes) -> bytes:
    """The bytes of a text."""
    return content if isinstance(content, bytes) else content.encode()


def doubled(name: str, body: str, depth: int) -> str:
    """Macros of which each runs the one before it twice: the last runs the body 2^depth times."""
    lines = [f"{name}0 {{ {body} }}"]
    for k in range(depth):
        lines.append(f"{name}{k + 1} {{ Macro {name}{k}; Macro {name}{k}; }}")
    return "MacroDefs {\n" + "\n".join(lines) + "\n}\n"


def times(name: str, count: int) -> str:
    """Macros of `doubled` that run the body so often."""
    return " ".join(f"Macro {name}{k};" for k in range(count.bit_length()) if count >> k & 1)


def line_of(text: str, part: str) -> int:
    """The line of a text on which a part begins."""
    return text[:text.index(part)].count("\n") + 1


def short(number: int) -> bytes:
    """Two bytes of a saved program."""
    return struct.pack("<H", number)


def word(number: int) -> bytes:
    """Four bytes of a saved program."""
    return struct.pack("<I", number)


def run_of(row: int) -> bytes:
    """The instruction of a saved program that runs a row once."""
    return b"\x01\0" + short(0) + word(row) + word(0) + word(1)


def rows_text(more: bool) -> str:
    """2^18 rows of 1,024 signals that differ in four of them, and maybe one more."""
    letters = "0123456789abcdefghijklmnopqrstuv"
    sizes = [32, 32, 16, 16]
    text = "STIL 1.0;\nSignals { s[0..1023] In; }\n"
    text += "Timing { WaveformTable w { Period '10ns'; Waveforms { s { " + letters + " { '0ns' D; } } } } }\n"
    text += "MacroDefs {\nm0 { " + " ".join(f"V {{ s[0]={c}; }}" for c in letters) + " }\n"
    for k in (1, 2, 3):
        text += f"m{k} {{ " + " ".join(f"C {{ s[{k}]={c}; }} Macro m{k - 1};" for c in letters[:sizes[k]]) + " }\n"
    text += "}\nPattern p { W w; Macro m3;" + (" V { s[4]=0; }" if more else "") + " }\n"
    return text + "PatternBurst b { PatList { p; } }\n" + EXEC


def walked_text(more: bool) -> str:
    """2^26 statements, and maybe one more: a body of two, 2^24 times, by calls that are statements too."""
    last = "BreakPoint;\n" + ("Vector { }\n" if more else "")
    return SIGNAL + EXEC + doubled("m", "BreakPoint; BreakPoint;", 24) + "Pattern p {\nMacro m24;\n" + last + "}\n"


def shift_text(signals: int) -> str:
    """A Shift of 2^20 passes over so many signals."""
    names = [f"s[{k}]" for k in range(signals)]
    text = f"STIL 1.0;\nSignals {{ s[0..{signals - 1}] In; }}\n"
    text += "Timing { WaveformTable w { Period '10ns'; Waveforms { s { 01 { '0ns' D/U; } } } } }\nProcedures { q {\nShift {\nV { "
    text += " ".join(f"{name}=#;" for name in names) + " } } } }\nPattern p { W w; Call q { "
    text += " ".join(f"{name}=\\r1048576 1;" for name in names) + " } }\n"
    return text + "PatternBurst b { PatList { p; } }\n" + EXEC


def saved(name: str, runs: int) -> bytes:
    """The bytes of the program of `save_text` in version 2."""
    head = b"\xD7STP" + short(2) + short(0)
    waves = short(0) + b"0\x01" + struct.pack("<Q", 0) + b"\x01" + short(0) + b"1\x01" + struct.pack("<Q", 0) + b"\x02"
    table = short(1) + short(1) + b"w" + struct.pack("<Q", 10000000) + word(2) + waves
    execs = short(1) + short(len(name)) + name.encode() + short(0) + word(runs + 1)
    code = (run_of(0) + run_of(1)) * (runs // 2) + b"\x04" + 15 * b"\0"
    return head + short(1) + b"\0" + short(1) + b"a" + table + word(2) + b"\0" + b"0" + b"\0" + b"1" + execs + code


def save_text(name: str, runs: int) -> str:
    """A text of an executive of this name and of so many vectors, of which each differs from the one before it."""
    body = doubled("m", "V { a=0; } V { a=1; }", 21)
    return SIGNAL + body + f"Pattern p {{ W w; {times('m', runs // 2)} }}\nPatternExec {name} {{ PatternBurst b; }}\n"


def waves_saved(count: int) -> tuple[bytes, bytes]:
    """A saved program of 1,024 signals and so many waves without events, in tables of 62 for each signal."""
    letters = b"0123456789ABCDEFGHIJKLMNOPQRSTUVWXYZabcdefghijklmnopqrstuvwxyz"
    signals = b"".join(b"\0" + short(4) + b"%04d" % k for k in range(1024))
    full = [short(k) + bytes([c]) + b"\0" for k in range(1024) for c in letters]
    tables, left = b"", count
    number = 0
    while left > 0:
        some = min(left, len(full))
        tables += short(4) + b"t%03d" % number + struct.pack("<Q", 1000) + word(some) + b"".join(full[:some])
        left -= some
        number += 1
    front = b"\xD7STP" + short(1) + short(0) + short(1024) + signals + short(number) + tables
    return front, front + word(0) + short(1) + short(0) + short(0) + word(1) + b"\x04" + 15 * b"\0"


def cells_saved(count: int, last: bytes) -> tuple[bytes, bytes]:
    """A saved program with a chain of so many cells, of which the last has this name: what is before the last, and the whole."""
    front = b"\xD7STP" + short(1) + short(0) + short(1) + b"\0" + short(1) + b"a" + short(0) + word(0) + short(1) + short(0) + short(1)
    front += short(1) + b"c" + short(0) + word(count) + word(count) + (short(1) + b"f") * (count - 1)
    return front, front + short(len(last)) + last + word(1) + b"\x04" + 15 * b"\0"


def many_rows_text() -> str:
    """2^22 rows of five signals, each in a vector of its own."""
    letters = "0123456789abcdefghijklmnopqrstuv"
    text = "STIL 1.0;\nSignals { s[0..4] In; }\n"
    text += "Timing { WaveformTable w { Period '10ns'; Waveforms { s { " + letters + " { } } } } }\n"
    text += "MacroDefs {\nm0 { " + " ".join(f"V {{ s[0]={c}; }}" for c in letters) + " }\n"
    for k, size in ((1, 32), (2, 32), (3, 32), (4, 4)):
        text += f"m{k} {{ " + " ".join(f"C {{ s[{k}]={c}; }} Macro m{k - 1};" for c in letters[:size]) + " }\n"
    return text + "}\nPattern p { W w; Macro m4; }\nPatternBurst b { PatList { p; } }\n" + EXEC


def taken_text(passes: int) -> str:
    """A Shift of so many passes, each of a C that takes a character: with W, Call and its argument, Shift, V and what it assigns, six
    statements and signals and two a pass."""
    data = "\\r1048576 1 " * (passes >> 20) + f"\\r{passes & 0xFFFFF} 0"
    return SIGNAL + EXEC + "Procedures { q { Shift { C { a=#; } } } }\nPattern p { W w; Call q { a=" + data + "; }\nV { a=1; } }\n"


def filled(front: str, unit: str, back: str) -> str:
    """A text of as many bytes as a file may have, or few less: the front, a unit again and again, and the back."""
    return front + unit * ((MOST_BYTES - len(front) - len(back)) // len(unit)) + back


def code_of(number: int) -> str:
    """The name of a variable of a dump."""
    return "".join(chr(33 + digit) for digit in ([number] if number < 94 else [number % 94, number // 94]))


def drilled(number: int) -> tuple[int, int]:
    """The vectors of a drill, and how many of them look for a 1, which the die whose first flip-flop is stuck at 0 doesn't show."""
    return 500 * number, sum((i * i + number) % 7 < 3 for i in range(499 * number))


def longest_text() -> tuple[str, int]:
    """A text of as many bytes as may be, and how many vectors it has, which are all of two rows in turn."""
    head = SIGNAL + EXEC + "Pattern p { W w;\n"
    pair = "V { a=0; } V { a=1; }\n"
    pairs = (MOST_BYTES - len(head) - 2) // len(pair)
    text = head + pairs * pair + "}\n"
    return text + (MOST_BYTES - len(text)) * " ", 2 * pairs


def most_dies() -> tuple[str, str]:
    """A plan of as many dies as may be, at sixteen sites, and the datalog of its lot, in which each passes within two cycles."""
    plan = "lot,256,1,8,,\n" + "".join(f"die,{k % 16},d{k // 16},n.bench,,\n" for k in range(4096))
    record = "try 1 cycles 2 fails 0\nverdict pass\nbin 1\n"
    sites = "".join(f"site {site}\n" + "".join(f"die d{k}\n{record}" for k in range(256)) for site in range(16))
    return plan, sites + "total 1 4096\n"


def macros_text(names: list[str]) -> str:
    """A text of macros of these names, of which one is called."""
    macros = "".join(f"{name} {{ }}\n" for name in names)
    return SIGNAL + EXEC + "MacroDefs {\n" + macros + f"}}\nPattern p {{ W w; V {{ a=1; }} Macro {names[0]}; }}\n"


def twice_text(last: str, deep: int) -> str:
    """Procedures that are called twice each, one in another, of which the last has these statements."""
    calls = "".join(f"q{k + 1} {{ Call q{k}; Call q{k}; }}\n" for k in range(deep))
    return SIGNAL + EXEC + f"Procedures {{\nq0 {{ {last} }}\n{calls}}}\nPattern p {{ W w; Call q{deep}; }}\n"


def wide_shift_text(passes: int) -> str:
    """A Shift of so many passes over 1,024 signals."""
    names = [f"s[{k}]" for k in range(1024)]
    text = "STIL 1.0;\nSignals { s[0..1023] In; }\n"
    text += "Timing { WaveformTable w { Period '10ns'; Waveforms { s { 01 { '0ns' D/U; } } } } }\nProcedures { q { Shift { V { "
    text += " ".join(f"{name}=#;" for name in names) + " } } } }\nPattern p { W w; Call q { "
    text += " ".join(f"{name}=\\r{passes} 1;" for name in names) + " } }\n"
    return text + "PatternBurst b { PatList { p; } }\n" + EXEC


def loops_text(inner: str) -> str:
    """Twenty Loops one in another, by macros, round statements that are called."""
    macros = "e { }\nf { C { a=0; } }\ng { C { a=1; } }\n" + f"m0 {{ {inner} }}\n"
    macros += "".join(f"m{k + 1} {{ Loop 2 {{ Macro m{k}; }} }}\n" for k in range(20))
    return SIGNAL + EXEC + f"MacroDefs {{\n{macros}}}\nPattern p {{ W w; C {{ a=0; }} Macro m20; V {{ }} }}\n"


def categories_text(many: int, specs: bool) -> str:
    """An executive that names so many categories, of one Spec or of as many."""
    categories = [f"Category c{k} {{ }}\n" for k in range(many)]
    blocks = "".join(f"Spec s{k} {{ {one} }}" for k, one in enumerate(categories)) if specs else "Spec s { " + "".join(categories) + "}\n"
    names = " ".join(f"Category c{k};" for k in range(many))
    return SIGNAL + blocks + f"Pattern p {{ W w; V {{ a=1; }} }}\nPatternExec {{ {names} PatternBurst b; }}\n"


def times_text() -> str:
    """64 executives of a waveform whose times are expressions of 1 MiB together."""
    events = " ".join(f"'{k}ns{26000 * '+0ns'}' {'DU'[k % 2]};" for k in range(10))
    text = "STIL 1.0;\nSignals { a In; }\nTiming { WaveformTable w { Period '10ns'; Waveforms { a { 0 { " + events + " } } } } }\n"
    return text + "PatternBurst b { PatList { p; } }\nPattern p { W w; V { a=0; } }\n" + EXECUTIVES


def group_text() -> str:
    """64 executives of vectors that assign a group whose text has 1 MiB."""
    text = SIGNAL.replace("Timing", "SignalGroups { g = 'a" + (1 << 19) * "+a" + "'; }\nTiming")
    return text + "Pattern p { W w; " + 100 * "V { g=1; } " + "}\n" + EXECUTIVES


def chains_text() -> str:
    """64 executives that name one chain of as many cells as may be."""
    chain = "ScanChain c { ScanLength 1048576; ScanIn a; ScanOut y; ScanCells x[0..1048575]; }"
    text = SIGNAL.replace("a In;", "a In; y Out;") + f"ScanStructures {{ {chain} }}\n"
    return text + "Pattern p { W w; V { a=0; } }\n" + EXECUTIVES


def numbers(cycles: int, rows: int, instructions: int, pages: int, executives: int = 1) -> str:
    """What `check` prints of a text."""
    return f"ok execs {executives} cycles {cycles} rows {rows} instructions {instructions} pages {pages}\n"
