"""A name stays a name to the words that test_names.py leaves, to the wrappers of both programs, and to what installs them."""

import argparse
import io
import json
import os
import pathlib
import re
import shutil
import subprocess
from typing import Any

import pytest

import test_names
from conftest import DATA, EXAMPLES, TOP, Lot, needs_iverilog
from fit_texts import Program, V
from hostile_names import MARK, NAMES, TOUCH, plain, printing
from named import UTF8, copied, nothing_runs, told
from stilfloor import plan_time, server, tester
from stilfloor.cli import parser_of
from stilfloor.faults import shown

_nothing_runs = pytest.fixture(autouse=True)(nothing_runs)

# each word, and a test that gives it such names
FED = {
    "netlist": "test_names_of_verilog_files_are_no_words_of_a_script", "learn": "test_names_of_files_are_names_to_every_word",
    "fit": "test_names_of_fitted_files_are_names", "testbench": "test_names_of_testbenches_are_names",
    "diagnose": "test_names_of_files_are_names_to_every_word", "lint": "test_names_of_files_are_names_to_every_word",
    "plot lot": "test_names_of_files_are_names_to_every_word", "plot fails": "test_names_of_files_are_names_to_every_word",
    "plot grade": "test_names_of_files_are_names_to_every_word", "plot events": "test_names_of_files_are_names_to_every_word",
    "plot shmoo": "test_names_of_files_are_names_to_every_word", "report": "test_names_of_files_are_names_to_every_word",
    "export": "test_names_of_files_are_names_to_every_word", "atpg": "test_names_of_a_scan_test_are_names",
    "from-vcd": "test_names_of_dumps_and_tables_and_in_them_are_names", "vectors": "test_names_of_dumps_and_tables_and_in_them_are_names",
    "coverage": "test_names_of_a_scan_test_are_names", "server": "test_names_of_open_texts_are_names",
    "plan-time": "test_names_of_what_is_timed_are_names",
}
# folders in which a checkout, what is installed and the scripts of farm/ may lie
PLACES = ["-rf", "a=b", "a b", f"$({TOUCH})", f"`{TOUCH}`", f"'; {TOUCH}; '", f'"; {TOUCH}; "', f'{{= system("{TOUCH}") =}}', "end\n", "é", "*"]


def words_of(parser: argparse.ArgumentParser) -> list[str]:
    """The words of a parser, each with those behind it."""
    found = [action for action in parser._actions if isinstance(action, argparse._SubParsersAction)]
    return [f"{name} {rest}".strip() for action in found for name, inner in action.choices.items() for rest in words_of(inner) or [""]]


def test_each_word_is_given_such_names() -> None:
    assert set(words_of(parser_of())) == set(FED)
    assert all(hasattr(test_names, test) or test in globals() for test in FED.values())


def test_names_of_fitted_files_are_names(tmp_path: pathlib.Path, capsys: pytest.CaptureFixture[str]) -> None:
    pathlib.Path("kept").write_text("kept")
    for name in NAMES:
        file, folder = f"./{name}.stil", pathlib.Path(f"./{name}")
        folder.mkdir()
        (folder / f"{name}.inc").write_text(f"Pattern q {{ W w; X t; {V} }}\n")
        include = f'Include "{name}.inc";' if printing(name) and "\\" not in name else ""
        pathlib.Path(file).write_text(Program(pattern=f"X t; {V}", behind=include).text())
        pathlib.Path(f"./{name}.out").symlink_to("kept")
        words = ["fit", file, f"--include=./{name}", "-o", f"./{name}.out"]
        if name not in UTF8:
            assert "takes names of UTF-8 alone" in told(words, capsys, 3)
            continue
        lines = told(words, capsys).removesuffix("\n").split("\n")
        files = (shown(file), shown(f"./{name}/{name}.inc"))
        assert len(lines) == (3 if include else 1) and all(re.match(r":\d+: fitted: ", line.removeprefix(front)) for line in lines
                                                           for front in files if line.startswith(front)), lines
        assert all(line.startswith(files) for line in lines) and pathlib.Path(f"./{name}.out").read_text().startswith("STIL 1.0;")
    assert pathlib.Path("kept").read_text() == "kept" and not list(tmp_path.glob(".stilfloor*"))


def test_what_lint_adds_to_a_refusal_is_told_by_such_names(capsys: pytest.CaptureFixture[str]) -> None:
    text = Program(pattern=f"X t; {V}", behind="Environment { }").text()
    for name in UTF8:
        file = f"./{name}.stil"
        pathlib.Path(file).write_text(text)
        lines = told(["lint", file], capsys, 1).removesuffix("\n").split("\n")
        assert len(lines) > 2 and all(re.match(r":\d+:\d+: (error|note): ", line.removeprefix(shown(file))) for line in lines), lines


def test_a_warning_about_such_a_file_is_no_error(capsys: pytest.CaptureFixture[str]) -> None:
    text = (EXAMPLES / "s27scan" / "s27scan.stil").read_text()
    changed = re.sub(r"ScanLength \d+", "ScanLength 2", text)
    for name in UTF8:
        pathlib.Path(f"./{name}.stil").write_text(changed if changed != text else text.replace("'100ns'", "'100000000'"))
        assert ": warning: " in told(["lint", f"./{name}.stil"], capsys)


def test_names_of_testbenches_are_names(tmp_path: pathlib.Path, capsys: pytest.CaptureFixture[str], s27: Lot) -> None:
    before = {path.name for path in tmp_path.iterdir()}
    for name in NAMES:
        copied(tmp_path, {".stil": s27.stil, ".csv": s27.plan}, name)
        words = ["testbench", f"./{name}.stil", f"./{name}.csv", "-o", f"./{name}"]
        if name not in UTF8:
            assert "takes names of UTF-8 alone" in told(words, capsys, 3)
            continue
        printed = told(words, capsys)
        assert f"./{name}/testbench.v\n" in printed and f"./{name}/die.v\n" in printed
        for more in ([f"--rtl={name} ", "--files", f"./{name}.v"], [f"--die={name}x"]):
            line, = told([*words, *more], capsys, 1).removesuffix("\n").split("\n")
            assert ":1:1: error: " in line or line.startswith("stilfloor: error: "), line
        assert ": error: " in told([*words, "--rtl=top", "--files", f"./{name}.v"], capsys, 3 if shutil.which("iverilog") else 4)
    made = {f"{name}{end}" for name in NAMES for end in (".stil", ".csv", "") if end or name in UTF8}
    assert {path.name for path in tmp_path.iterdir()} - before == made


@needs_iverilog
def test_names_of_designs_are_no_words_of_a_simulator(tmp_path: pathlib.Path, capsys: pytest.CaptureFixture[str], s27: Lot) -> None:
    for name in [name for name in UTF8 if name not in ("-", "--")][::9]:
        copied(tmp_path, {".stil": s27.stil, ".csv": s27.plan, ".l.v": DATA / "cells.v"}, name)
        pathlib.Path(f"./{name}.v").write_text("module top(input CK, output G17);\nassign G17 = CK;\nendmodule\n")
        words = ["testbench", f"./{name}.stil", f"./{name}.csv", "-o", f"./{name}"]
        assert told([*words, "--run"], capsys).startswith("agree, ")
        assert f"./{name}/waves.vcd\n" in told([*words, "--waves"], capsys)
        line = told([*words, f"--net={name}", "--waves"], capsys, 1).removesuffix("\n")
        assert "\n" not in line and "has no net" in line
        assert ": error: " in told([*words, "--rtl=top", "--files", f"./{name}.v", "--libs", f"./{name}.l.v"], capsys, 1)
        assert ": error: " in told([*words, "--rtl", f"t{name}", "--files", f"./{name}.v"], capsys, 1)


def test_a_link_in_a_testbenchs_folder_is_not_followed(tmp_path: pathlib.Path, capsys: pytest.CaptureFixture[str], s27: Lot) -> None:
    words = ["testbench", s27.stil, s27.plan, "-o", "out"]
    told(words, capsys)
    pathlib.Path("kept").write_text("kept")
    for name in ("testbench.v.unfinished", "die.v", "testbench.rows", "testbench.log", "waves.vcd"):
        pathlib.Path("out", name).unlink(missing_ok=True)
        pathlib.Path("out", name).symlink_to("../kept")
    told(words, capsys)
    assert pathlib.Path("kept").read_text() == "kept"


def test_names_of_what_is_timed_are_names(tmp_path: pathlib.Path, capsys: pytest.CaptureFixture[str], s27: Lot,
                                          monkeypatch: pytest.MonkeyPatch) -> None:
    monkeypatch.setattr(plan_time, "ENOUGH", 0.01)
    monkeypatch.setattr(plan_time, "ALL", 0.01)
    monkeypatch.setenv("LOTS", str(TOP / "lots"))
    for name in NAMES[::6]:
        copied(tmp_path, {".stil": s27.stil, ".csv": s27.plan}, name)
        words = ["plan-time", f"./{name}.stil", f"./{name}.csv", "--grade"]
        printed = told(words, capsys, 0 if name in UTF8 else 3)
        assert "of a processor for 58 faults" in printed if name in UTF8 else "takes names of UTF-8 alone" in printed


def answered(messages: list[tuple[str, object]]) -> list[dict[str, Any]]:
    """What the server says to an editor that says this, by the protocol."""
    bodies = [json.dumps({"jsonrpc": "2.0", "id": number, "method": method, "params": params}).encode()
              for number, (method, params) in enumerate([*messages, ("shutdown", None), ("exit", None)])]
    out = io.BytesIO()
    assert server.serve(io.BytesIO(b"".join(b"Content-Length: %d\r\n\r\n" % len(body) + body for body in bodies)), out) == 0
    return [json.loads(body) for body in server.messages(io.BytesIO(out.getvalue()))]


def test_names_of_open_texts_are_names() -> None:
    for name in UTF8:
        signal = name if printing(name) and "[" not in name else "a"
        text = f'STIL 1.0;\nSignals {{ "{signal}" In; }}\nPattern p {{ V {{ "{signal}"=1; }} }}\n'
        uri: dict[str, Any] = {"textDocument": {"uri": name}}
        place = {**uri, "position": {"line": 1, "character": 11}}
        said = answered([("initialize", {}), ("textDocument/didOpen", {"textDocument": {"uri": name, "version": 0, "text": text}}),
                         *((f"textDocument/{word}", place) for word in ("hover", "definition", "completion", "documentSymbol")),
                         ("textDocument/didClose", uri)])
        found: dict[int, Any] = {message["id"]: message.get("result") for message in said if "id" in message}
        assert f"signal `{signal}`" in found[2]["contents"]["value"] and found[3][0]["uri"] == name
        assert signal in [item["label"] for item in found[4]["items"]] and found[5][0]["children"][0]["name"] == signal
        assert {message["params"]["uri"] for message in said if "method" in message} == {name}


@pytest.mark.parametrize("statement", test_names.FEEDS)
def test_fit_reads_a_refusal_to_the_first_line_feed_outside_quotes(capsys: pytest.CaptureFixture[str], statement: str) -> None:
    pathlib.Path("t.stil").write_text(f"STIL 1.0;\n{statement.removesuffix('}')}\n")
    line, = told(["fit", "t.stil", "-o", "out"], capsys, 1).removesuffix("\n").split("\n")
    assert re.match(r"t\.stil:[2-4]:1: error: .*\((OpenBlock|Shape), in ", line), line


def ran(words: list[str], **more: Any) -> tuple[int, str]:
    """The status of a command, and what it prints."""
    done = subprocess.run(words, check=False, stdin=subprocess.DEVNULL, stdout=subprocess.PIPE, stderr=subprocess.STDOUT, **more)
    return done.returncode, os.fsdecode(done.stdout)


def installed(folder: pathlib.Path) -> None:
    """Puts both commands into a folder as `make install` does."""
    (folder / "bin").mkdir(parents=True)
    (folder / "lib" / "stil").mkdir(parents=True)
    for name, end in (("stil", ""), ("lots", "-lots")):
        text = "".join((TOP / "tools" / part).read_text() for part in ("installed", "words", "launch"))
        (folder / "bin" / name).write_text(text.replace("name=stil\n", f"name={name}\n", 1))
        (folder / "bin" / name).chmod(0o755)
        shutil.copy(TOP / "tools" / f"help{end}", folder / "lib" / "stil" / f"help{end}")
        program = tester.find_program() if name == "stil" else plan_time.find_lots()
        (folder / "lib" / "stil" / name).symlink_to(program)


def test_names_of_files_are_names_to_the_wrappers(tmp_path: pathlib.Path, s27: Lot) -> None:
    installed(tmp_path / "there")
    stil, lots = (str(tmp_path / "there" / "bin" / name) for name in ("stil", "lots"))
    for name in NAMES:
        copied(tmp_path, {"": s27.stil, ".csv": s27.plan}, name)
        status, printed = ran([stil, "check", f"./{name}"])
        assert (status, printed[:3]) == ((0, "ok ") if name in UTF8 else (1, "usa")), (name, printed)
        status, printed = ran([lots, "parts", f"./{name}.csv"])
        assert (status, printed) == (0, "1\n") if name in UTF8 else status == 1, (name, printed)
        if name in UTF8:
            assert ran([stil, "check", f"{name}/none"]) == (2, f"read fault {told_by_stil(f'{name}/none')}\n")
        assert ran([stil, "help", f"none{name}"]) == (1, f"stil: there is no command none{name}; stil --help names them\n")


def told_by_stil(name: str) -> str:
    """A name as the program prints it: in quotes where some byte isn't visible."""
    return name if plain(name) else f'"{name}"'


@pytest.mark.parametrize("place", PLACES)
def test_the_wrappers_run_in_a_folder_of_any_name(tmp_path: pathlib.Path, place: str) -> None:
    checkout = tmp_path / place
    checkout.mkdir()
    for name in ("tools", "crates", "crates.txt", "release"):
        (checkout / name).symlink_to(TOP / name)
    for name in ("stil", "lots"):
        shutil.copy(TOP / name, checkout)
    installed(tmp_path / f"{place}there")
    text = str(EXAMPLES / "p1.stil")
    # (a path that begins with a dash is a word of the shell that the system starts)
    for folder in (f"./{place}" if place.startswith("-") else place, f"./{place}there/bin"):
        assert ran([f"{folder}/stil", "check", text]) == (0, "ok execs 1 cycles 3 rows 3 instructions 4 pages 1\n")
        status, printed = ran([f"{folder}/stil", "help", "check"])
        assert status == 0 and printed.startswith("stil check FILE\n")
        status, printed = ran([f"{folder}/lots", "help", "none"])
        assert (status, printed) == (1, "lots: there is no command none; lots --help names them\n")


def test_what_is_installed_lies_in_a_folder_of_any_name(tmp_path: pathlib.Path) -> None:
    """The folder to install into, and the one of the checkout, are no words of make or of its shell."""
    checkout = tmp_path / f"$(shell {TOUCH})`{TOUCH}`'; {TOUCH}; '\"; {TOUCH}; \"$({TOUCH})"
    checkout.mkdir()
    for name in ("tools", "farm", "completions", "editors", "floor"):
        shutil.copytree(TOP / name, checkout / name, ignore=shutil.ignore_patterns("tests", "__pycache__", ".mypy_cache"))
    for name in ("crates", "release", "docs", "examples", "crates.txt", "README.md", "Makefile", "stil", "lots", "LICENSE-MIT", "LICENSE-APACHE"):
        (checkout / name).symlink_to(TOP / name)
    status, printed = ran(["make", "-s", "dist", f"DIST=made $({TOUCH})`{TOUCH}`"], cwd=checkout)
    assert status == 0, printed
    made = checkout / f"made $({TOUCH})`{TOUCH}`"
    assert ran([str(made / "stil-x86_64-linux-gnu" / "bin" / "stil"), "check", str(EXAMPLES / "p1.stil")])[0] == 0
    assert [path.name for path in made.glob("*.tar.gz")] == ["stil-x86_64-linux-gnu.tar.gz"]
    status, printed = ran([str(checkout / "tools" / "vsix"), str(made)])
    assert status == 0 and printed.startswith(str(made))
    assert not list(checkout.rglob(MARK))
