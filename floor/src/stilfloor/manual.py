"""The command's page of the manual and its completions, made of its parser.

`python3 -m stilfloor.manual FORM` prints one of these: `man`, `bash`, `zsh` or `fish`. `make install` puts them in their places.
"""

import argparse
import sys
from collections.abc import Callable, Iterator
from dataclasses import dataclass

from stilfloor.cli import parser_of


@dataclass(frozen=True)
class Word:
    """A word of the command with those in front of it, its parser, what it does in a few words, and the words that may stand behind it."""

    path: tuple[str, ...]
    parser: argparse.ArgumentParser
    what: str
    behind: tuple[str, ...]

    @property
    def options(self) -> list[str]:
        """Its options, each by its longest spelling."""
        return [max(action.option_strings, key=len) for action in self.parser._actions if action.option_strings]


def words_of(parser: argparse.ArgumentParser, path: tuple[str, ...] = (), what: str = "") -> Iterator[Word]:
    """The command itself and all of its words, a word in front of those behind it."""
    choices = next((action for action in parser._actions if isinstance(action, argparse._SubParsersAction)), None)
    yield Word(path, parser, what, tuple(choices.choices) if choices else ())
    if choices:
        told = {choice.dest: str(choice.help) for choice in choices._choices_actions}
        for name, below in choices.choices.items():
            yield from words_of(below, (*path, name), told.get(name, ""))


def _roff(text: str) -> str:
    """A line of a page of the manual, in which nothing is an order of the typesetter."""
    text = text.replace("\\", "\\e").replace("-", "\\-")
    return "\\&" + text if text[:1] in (".", "'") else text


def _usage(parser: argparse.ArgumentParser) -> str:
    return " ".join(parser.format_usage().split()).removeprefix("usage: ")


def _described(parser: argparse.ArgumentParser) -> Iterator[str]:
    """The arguments of a word, each with its help."""
    for action in parser._actions:
        if isinstance(action, (argparse._HelpAction, argparse._SubParsersAction)) or not action.help:
            continue
        value = "" if action.nargs == 0 else str(action.metavar or action.dest.upper())
        head = ", ".join(action.option_strings) + (f" {value}" if action.option_strings and value else "") or value
        yield f".TP\n.B {_roff(head)}\n{_roff(action.help % {'default': action.default} if '%(' in action.help else action.help)}"


def _literal(text: str) -> str:
    return ".nf\n" + "\n".join(_roff(line) for line in text.splitlines()) + "\n.fi"


def man_page() -> str:
    """The page of the manual."""
    command, *words = words_of(parser_of())
    lines = [".TH STILFLOOR 1", ".SH NAME", "stilfloor \\- netlists in, pictures and suspects out, beside the program stil", ".SH SYNOPSIS",
             ".B stilfloor", "WORD ..", ".SH DESCRIPTION", _roff(str(command.parser.description)), ".SH WORDS"]
    for word in words:
        lines += [f".SS {_roff(' '.join(word.path))}", _roff(str(word.parser.description)), ".PP", _roff(_usage(word.parser)), *_described(word.parser)]
        example = str(word.parser.epilog).split("\n\n", 1)[0].removeprefix("example:\n")
        lines += [".PP", "Example:", _literal(example)]
    status = str(command.parser.epilog).rsplit("exit status:\n", 1)[-1]
    lines += [".SH EXIT STATUS", _literal(status), ".SH ENVIRONMENT", ".TP\n.B STIL", "the program stil, where another one than that beside the"
              " package or on the path is wanted", ".SH SEE ALSO", "stil(1), lots(1)"]
    return "\n".join(lines) + "\n"


def _paths(words: list[Word], between: str) -> str:
    return between.join(f'"{" ".join(word.path)}"' for word in words if word.path)


def bash() -> str:
    """The completion of bash: words, options, and files."""
    words = list(words_of(parser_of()))
    cases = "\n".join(f'    "{" ".join(word.path)}") found="{" ".join((*word.behind, *word.options))}" files={int(not word.behind)} ;;' for word in words)
    return f"""# Completes the words and options of stilfloor, and files, in bash.
_stilfloor() {{
    local word=${{COMP_WORDS[COMP_CWORD]}} said= each found= files=0
    for each in "${{COMP_WORDS[@]:1:COMP_CWORD-1}}"; do
        case "${{said:+$said }}$each" in
        {_paths(words, " | ")}) said="${{said:+$said }}$each" ;;
        esac
    done
    case $said in
{cases}
    esac
    COMPREPLY=($(compgen -W "$found" -- "$word"))
    [ "$files" = 1 ] || return
    compopt -o filenames 2> /dev/null
    while IFS= read -r each; do COMPREPLY+=("$each"); done < <(compgen -f -- "$word")
}}
complete -F _stilfloor stilfloor
"""


def zsh() -> str:
    """The completion of zsh."""
    words = list(words_of(parser_of()))
    cases = "\n".join(f'        ("{" ".join(word.path)}") found=({" ".join((*word.behind, *word.options))}); files={int(not word.behind)} ;;'
                      for word in words)
    return f"""#compdef stilfloor
# Completes the words and options of stilfloor, and files, in zsh.
_stilfloor() {{
    local said= each files=0
    local -a found
    for each in ${{words[2,CURRENT-1]}}; do
        case "${{said:+$said }}$each" in
            ({_paths(words, "|")}) said="${{said:+$said }}$each" ;;
        esac
    done
    case $said in
{cases}
    esac
    compadd -a found
    (( files )) && _files
}}
_stilfloor "$@"
"""


def fish() -> str:
    """The completion of fish."""
    lines = ["# Completes the words and options of stilfloor, and files, in fish.",
             "function __stilfloor_said --description 'whether these words are the ones that were said, options left out'",
             "    set -l words (string match -v -- '-*' (commandline -opc)[2..-1])",
             "    test (count $words) -ge (count $argv); or return 1",
             "    test (count $argv) -eq 0; or test \"$words[1..(count $argv)]\" = \"$argv\"",
             "end"]
    for word in words_of(parser_of()):
        condition = "__stilfloor_said " + " ".join(word.path)
        if word.behind:
            last = f"test (count (string match -v -- '-*' (commandline -opc))) -eq {len(word.path) + 1}"
            lines.append(f'complete -c stilfloor -f -n "{condition.strip()}; and {last}" -a "{" ".join(word.behind)}"')
        for option in word.options:
            kind = "-l " + option[2:] if option.startswith("--") else "-s " + option[1:]
            lines.append(f'complete -c stilfloor -n "{condition.strip()}" {kind}')
    return "\n".join(lines) + "\n"


FORMS: dict[str, Callable[[], str]] = {"man": man_page, "bash": bash, "zsh": zsh, "fish": fish}


def main(words: list[str]) -> int:
    """Prints the form that is asked for."""
    if len(words) != 1 or words[0] not in FORMS:
        print(f"usage: python3 -m stilfloor.manual {' | '.join(FORMS)}", file=sys.stderr)
        return 2
    sys.stdout.write(FORMS[words[0]]())
    return 0


if __name__ == "__main__":
    sys.exit(main(sys.argv[1:]))
