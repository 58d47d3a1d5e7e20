"""Refusals in plain sentences with their lines, warnings, and the tools that read these lines."""

import json
import pathlib
import re
import shutil
import subprocess

import pytest

from conftest import EXAMPLES, TEXTS, TOP, Lot
from stilfloor import sentences
from stilfloor.cli import main
from stilfloor.lint import lint_plan, lint_text

EDITORS = TOP / "floor" / "editors"
KNOWN = TOP / "crates" / "front_cases" / "data"
P1 = (EXAMPLES / "p1.stil").read_text()


def known_texts() -> list[tuple[str, str, str]]:
    """The titles, what is wanted, and the texts of the known cases."""
    found = []
    for file in sorted(KNOWN.glob("*.txt")):
        for part in re.split(r"(?m)^== ", file.read_text(encoding="latin-1"))[1:]:
            head, _, text = part.partition("\n")
            title, _, wanted = head.rpartition(" | ")
            found.append((f"{file.stem}: {title}", wanted.removeprefix("code "), text))
    return found


def lines_of(folder: pathlib.Path, text: str, name: str = "t.stil") -> list[str]:
    """What is told of a text, without the file's name."""
    file = folder / name
    file.write_text(text, encoding="latin-1", newline="")
    lines = list(lint_text(str(file)))
    assert all(line.startswith(f"{file}:") for line in lines)
    return [line.removeprefix(f"{file}:") for line in lines]


@pytest.mark.skipif(not KNOWN.exists(), reason="the known texts of the language aren't there")
def test_each_kind_of_refusal_has_its_sentence_at_its_line(tmp_path: pathlib.Path) -> None:
    told: set[str] = set()
    for title, wanted, text in known_texts():
        kind, _, line = wanted.partition(" ")[0], "", wanted.rpartition(" ")[2]
        if kind not in sentences.STIL or kind in told:
            continue
        file = tmp_path / "t.stil"
        file.write_text(text, encoding="latin-1", newline="")
        found = list(lint_text(str(file)))
        assert len(found) == 1 and re.match(rf"{file}:{line}:\d+: error: .* \({kind}(, in .*)?\)", found[0]), title
        if kind not in TOLD_MORE:
            assert sentences.STIL[kind] in found[0], title
        told.add(kind)
    assert told >= set(sentences.STIL) - {"TooManyCycles", "TooLarge", "NoHeader", "OpenComment", "BadByte", "OpenQuote"}


# kinds of which more is told than their sentence
TOLD_MORE = ("OutOfRange", "LeftOut", "UnknownName", "NoWave", "Shape", "OpenStatement")
OTHERS = {"NoHeader": "Signals { a In; }\n", "OpenComment": "STIL 1.0;\n/* never", "BadByte": "STIL 1.0;\n\n\x80", "OpenQuote": "STIL 1.0;\n'",
          "TooManyCycles": P1.replace("V { y=X; }", "Loop 281474976710656 { V { y=X; } }"), "OpenBlock": "STIL 1.0;\nSignals {\n",
          "StrayClose": "STIL 1.0;\n}\n", "OpenStatement": "STIL 1.0;\nSignals\n"}


@pytest.mark.parametrize("kind", OTHERS)
def test_refusals_of_tokens_and_sizes_have_their_sentences(tmp_path: pathlib.Path, kind: str) -> None:
    line, = lines_of(tmp_path, OTHERS[kind])
    assert f"1: error: {sentences.STIL[kind]} ({kind}" in line


def test_the_examples_are_accepted_without_a_warning() -> None:
    for file in TEXTS:
        lines = list(lint_text(str(file)))
        if file.name == "preshift.after.stil":
            # (its first scan character is looked at by a vector before the Shift, as in the text that it was made of)
            assert [line.split(": ")[1] for line in lines] == ["warning"] and "the first scan character of `_so`" in lines[0]
        else:
            assert lines == []


def test_what_is_likely_not_meant_is_warned_of(tmp_path: pathlib.Path) -> None:
    scan = (EXAMPLES / "s27scan" / "s27scan.stil").read_text()
    line, *_ = lines_of(tmp_path, scan.replace("ScanLength 3", "ScanLength 4"))
    assert line.startswith("15:1: warning: the chain `c1` has ScanLength 4, and 3 cells are listed")
    line, = lines_of(tmp_path, P1.replace("'40ns'", "'40'"))
    assert line.startswith("7:1: warning: the time '40' has a number without a unit")
    assert lines_of(tmp_path, P1.replace("'100ns'", "'50ns*2'")) == lines_of(tmp_path, P1.replace("'40ns'", "'0'")) == []
    line, = lines_of(tmp_path, P1.replace("y=H;", "y=X;").replace("y=L;", ""))
    assert line.startswith("2:1: warning: no vector looks at the output `y`")
    line, = lines_of(tmp_path, P1.replace("V { a=0; y=H; }", "C { y=L; }\nV { a=0; y=H; }"))
    assert line.startswith("11:1: warning: no vector makes the look L")
    line, = lines_of(tmp_path, P1.replace("V { y=X; }", "V { y=X; }\nStop;\nV { y=H; }"))
    assert line.startswith("15:1: warning: no vector makes the look H")


PLANS = {
    "lot,256,1,16,\n": (1, "Shape"), "lot,0,1,16,,\n": (1, "OutOfRange"), "lot,256,1,16,,\n\nfault,0,a,n,1,\n": (3, "UnknownName"),
    "lot,256,1,16,,\nclock,CK,,,,\nclock,CK,,,,\n": (3, "Twice"), "": (0, "Shape"),
    "lot,256,1,16,,\n\"die\",0,\"a\",examples/s27/s27.bench,,\nfault,0,a,nowhere,1,\n": (3, "UnknownName"),
    "lot,256,1,16,,\ndie,40,a,examples/s27/s27.bench,,\n": (0, "uses site 40"),
}


@pytest.mark.parametrize("text", PLANS)
def test_a_plan_alone_is_judged_by_its_rows(tmp_path: pathlib.Path, monkeypatch: pytest.MonkeyPatch, text: str) -> None:
    monkeypatch.chdir(TOP)
    file = tmp_path / "lot.csv"
    file.write_text(text)
    told, = lint_plan(str(file), None)
    line, why = PLANS[text]
    assert told.startswith(f"{file}:{max(line, 1)}:1: error: ") and why in told


def test_a_plan_is_bound_to_a_program_where_one_is_given(s27: Lot, capsys: pytest.CaptureFixture[str]) -> None:
    plan = pathlib.Path(s27.plan)
    assert main(["lint", s27.stil, "--plan", s27.plan]) == 0
    plan.write_text(plan.read_text().replace("bind,SO,G7,,,\n", ""))
    assert main(["lint", "--plan", s27.plan]) == 0
    assert main(["lint", s27.stil, "--plan", s27.plan]) == 1
    assert "the signal `SO` has no net" in capsys.readouterr().out
    plan.write_text(plan.read_text() + "skew,0,G0,99999999999,,\nbind,SO,-,,,\n")
    assert main(["lint", s27.stil, "--plan", s27.plan]) == 1
    assert f"{plan}:8:1: error: this skew moves" in capsys.readouterr().out


NETS = {"INPUT(a)\ny = FROB(a)\n": (2, "Line"), "INPUT(a)\nOUTPUT(y)\ny = NOT(a, a)\n": (3, "Arity"), "INPUT(a)\na = NOT(a)\n": (2, "Twice"),
        "INPUT(a)\nOUTPUT(y)\ny = AND(a, b)\n": (3, "Missing"), "INPUT(a)\ny = AND(a, z)\nz = NOT(y)\n": (2, "Loop")}


@pytest.mark.parametrize("text", NETS)
def test_a_netlist_of_a_plan_is_told_by_its_line(tmp_path: pathlib.Path, text: str) -> None:
    bench, plan = tmp_path / "n.bench", tmp_path / "lot.csv"
    bench.write_text(text)
    plan.write_text(f"lot,256,1,16,,\ndie,0,a,{bench},,\n")
    told, = lint_plan(str(plan), None)
    line, kind = NETS[text]
    assert told.startswith(f"{bench}:{line}:1: error: ") and f"({kind})" in told


def test_files_that_are_not_there_and_saved_programs_are_told(tmp_path: pathlib.Path) -> None:
    assert "can't be read" in list(lint_text(str(tmp_path / "none.stil")))[0]
    torn = tmp_path / "torn.sav"
    torn.write_bytes(b"\xd7STP\x02")
    plan = tmp_path / "lot.csv"
    plan.write_text("lot,256,1,16,,\n")
    told, = lint_plan(str(plan), str(torn))
    assert told == f"{torn}:1:1: error: the saved program ends too early, at byte 5; write it again with `stil save` (Torn)"


def test_the_lines_are_read_by_a_github_matcher() -> None:
    pattern, = json.loads((EDITORS / "github-matcher.json").read_text())["problemMatcher"][0]["pattern"]
    found = re.match(pattern["regexp"], "a/b.stil:12:1: warning: the chain `c` has: two")
    assert found and [found[pattern[part]] for part in ("file", "line", "column", "severity", "message")] == [
        "a/b.stil", "12", "1", "warning", "the chain `c` has: two"]


@pytest.mark.skipif(not shutil.which("vim"), reason="vim isn't there: its errorformat is left out")
def test_the_lines_are_read_by_vim(tmp_path: pathlib.Path) -> None:
    (tmp_path / "errors").write_text("a.stil:12:1: error: some words\nb.stil:3:1: warning: others\n")
    script = (f"source {EDITORS}/stilfloor.vim | cgetfile errors | call writefile(map(getqflist(), "
              "'bufname(v:val.bufnr) . v:val.lnum . v:val.type . v:val.text'), 'out') | qa!")
    subprocess.run(["vim", "-u", "NONE", "-N", "-es", "-c", "command -nargs=* CompilerSet setlocal <args>", "-c", script.replace("|", "|")],
                   cwd=tmp_path, check=False, timeout=300)
    assert (tmp_path / "out").read_text() == "a.stil12esome words\nb.stil3wothers\n"


def test_the_hooks_call_the_command_and_take_no_file_for_an_option() -> None:
    for name in ("pre-commit-config.yaml", "github-workflow.yml"):
        assert "floor/stilfloor lint --\n" in (EDITORS / name).read_text()
    assert "sed -z 's,^,./,'" in (EDITORS / "github-workflow.yml").read_text()
    done = subprocess.run([str(TOP / "floor" / "stilfloor"), "lint", "examples/p1.stil"], cwd=TOP, check=False, capture_output=True)
    assert (done.returncode, done.stdout) == (0, b"")
