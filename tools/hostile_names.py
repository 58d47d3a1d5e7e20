"""A hundred names that some program could take for more than a name: words of a shell, of a template, of a script, of a page; options,
ways out of a folder, line feeds, bytes that are no text. Each can be the name of a file.

Where one of them is run, it makes a file of the name MARK in the folder where it is run."""

MARK = "RUN"
TOUCH = f"touch {MARK}"

# what a shell, GNU parallel, yosys, make, a batch system, a page, a spreadsheet or an editor could run or take for something else
WORDS = [
    f"$({TOUCH})", f"`{TOUCH}`", f";{TOUCH};", f"|{TOUCH}", f"&{TOUCH}&", f"'; {TOUCH}; '", f'"; {TOUCH}; "', f"\n{TOUCH}\n", f"a\n{TOUCH}\nb",
    f'{{= system("{TOUCH}") =}}', f"{{= `{TOUCH}` =}}", f'{{=1 system("{TOUCH}")=}}', "{}", "{1}", "{2}", "{#}", "{%}", "{= uq() =}",
    f'a"; exec -- {TOUCH}; "b', f"; exec -- {TOUCH}", f"!{TOUCH}", f"\n!{TOUCH}\n", "<<EOT", "+", "%u", "%x", "%A_%a", "%s%n", "%(a)s",
    "-", "--", "-rf", "--help", "-o", "--top=x", "-p", "--plan=x", "--resume", "-e", "-x", "..a", "a..", "...", "....", ".hidden", "~", "~root",
    "*", "?", "[a]", "[!a]*", "{a,b}", "$HOME", "${IFS}", "$0", "$@", "\\", "\\n", "\\\\", "a\\", "'", '"', "''", '""', "`", "$", "#a", "a#b", "!a",
    "a b", " a", "a ", "a\tb", "a\rb", "\n", "a\nb", "\x01", "\x1b[31m", "\x7f", "é", "日本", "‮a", "a\udcffb", "\udcc3(", "a,b", '"a,b"',
    "=1+1", "@a", "+1", "<b>a", "<script>a", "&amp;", "-->", "]]>", "$\\frac$", "$a_$", "_a", "^a", "a:1:1: error: b", "::error::a",
]
NAMES = list(dict.fromkeys(WORDS))
assert len(NAMES) == 100 and not any("/" in name for name in NAMES)


def plain(name: str) -> bool:
    """Whether a plan can have it as the name of a die or a file: visible bytes of ASCII."""
    return bool(name) and all(0x21 <= ord(character) <= 0x7E for character in name)


def printing(name: str) -> bool:
    """Whether a plan and a STIL text can have it as the name of a signal: printing bytes of ASCII without a double quote."""
    return bool(name) and all(0x20 <= ord(character) <= 0x7E and character != '"' for character in name)
