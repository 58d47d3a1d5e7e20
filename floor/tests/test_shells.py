"""What the wrappers `stil` and `lots` say on a terminal, and that they are nothing but the program elsewhere."""

import os
import pathlib
import pty
import re
import resource
import signal
import subprocess
import time
from dataclasses import dataclass, field

import pytest

from conftest import EXAMPLES, TOP
from stilfloor import tester

STIL, LOTS = str(TOP / "stil"), str(TOP / "lots")
SCAN, PLAN = str(EXAMPLES / "s27scan" / "s27scan.stil"), str(EXAMPLES / "s27scan" / "lot.csv")
BAD = "STIL 1.0;\nSignals { a In; }\nPatternExec { PatternBurst nothing; }\n"


@dataclass
class Ran:
    """What a run on a terminal left: its status, what the terminal shows, and the file that took its output."""

    status: int
    shown: str
    file: bytes = field(default=b"")


def read_all(terminal: int) -> str:
    """What was written on a terminal until nobody has it open any more."""
    shown = b""
    while True:
        try:
            piece = os.read(terminal, 4096)
        except OSError:
            piece = b""
        if not piece:
            os.close(terminal)
            return shown.decode().replace("\r\n", "\n")
        shown += piece


def on_terminal(folder: pathlib.Path, words: list[str], out: str = "", before: bytes = b"", given: bytes = b"") -> Ran:
    """Runs words with standard error on a terminal, and standard output there too or behind what a file has."""
    master, slave = pty.openpty()
    path = folder / (out or "none")
    if out:
        path.write_bytes(before)
    stream = open(path, "ab") if out else None
    ran = subprocess.Popen(words, cwd=TOP, stdin=subprocess.PIPE, stdout=stream or slave, stderr=slave)
    os.close(slave)
    if ran.stdin:
        ran.stdin.write(given)
        ran.stdin.close()
    shown = read_all(master)
    if stream:
        stream.close()
    return Ran(ran.wait(60), shown, path.read_bytes() if out else b"")


@pytest.fixture
def bad(tmp_path: pathlib.Path) -> str:
    """A text that is refused."""
    (tmp_path / "bad.stil").write_text(BAD)
    return str(tmp_path / "bad.stil")


def test_a_refusal_in_a_file_is_said_on_the_terminal_too(tmp_path: pathlib.Path, bad: str) -> None:
    status, output = tester.run(["save", bad])
    for before in (b"", b"what was there\n"):
        ran = on_terminal(tmp_path, [STIL, "save", bad], "x.saved", before)
        assert (ran.status, ran.file) == (status, before + output) == (4, before + output)
        assert ran.shown.startswith(output.decode() + "stil: the text was refused") and "what was there" not in ran.shown
    ran = on_terminal(tmp_path, [STIL, "lot", SCAN, PLAN], "x.datalog")
    assert (ran.status, ran.shown, ran.file) == (0, "", (EXAMPLES / "s27scan" / "lot.datalog").read_bytes())


def test_a_refusal_over_two_lines_is_said_whole(tmp_path: pathlib.Path) -> None:
    (tmp_path / "two.stil").write_text('STIL 1.0;\n"a\nb" { }\n')
    ran = on_terminal(tmp_path, [STIL, "save", str(tmp_path / "two.stil")], "x.saved")
    assert ran.status == 4 and ran.shown.startswith(ran.file.decode()) and ran.file.count(b"\n") == 2


def test_a_pipe_and_a_log_are_left_alone(bad: str) -> None:
    done = subprocess.run([STIL, "save", bad], cwd=TOP, capture_output=True, check=False)
    assert (done.returncode, done.stdout, done.stderr) == (4, tester.run(["save", bad])[1], b"")
    master, slave = pty.openpty()
    ran = subprocess.Popen([STIL, "save", bad], cwd=TOP, stdout=subprocess.PIPE, stderr=slave)
    os.close(slave)
    assert ran.communicate()[0] == done.stdout and (ran.returncode, read_all(master)) == (4, "")


@pytest.mark.parametrize("words, status, said", [
    ([STIL], 1, "stil: stil --help names the commands, and stil help COMMAND says more of one\n"),
    ([STIL, "nothing"], 1, "stil: stil --help names the commands"),
    ([STIL, "dump", SCAN, PLAN, "99"], 1, "SITE is a number from 0 to 63"),
    ([STIL, "dump", SCAN, PLAN, "9"], 12, "no die 9\nstil: the plan has no die, or none at the site: a row `die,SITE,NAME,FILE,,` gives it one\n"),
    ([STIL, "grade", SCAN, "none.csv"], 2, "read fault none.csv\nstil: a file could not be read\n"),
    ([LOTS, "part", PLAN, "1"], 1, "lots part PLAN K N\n"),
    ([LOTS, "merge", PLAN, SCAN], 14, "lots: a file is no text of its part\n")])
def test_a_terminal_is_told_what_a_status_means(tmp_path: pathlib.Path, words: list[str], status: int, said: str) -> None:
    ran = on_terminal(tmp_path, words)
    assert ran.status == status and said in ran.shown
    plain = subprocess.run(words, cwd=TOP, capture_output=True, text=True, check=False)
    assert plain.returncode == status and ran.shown.startswith(plain.stdout) and plain.stderr == ""


def test_a_plan_without_dies_gets_a_sentence(tmp_path: pathlib.Path) -> None:
    (tmp_path / "lot.csv").write_text("lot,256,1,16,,\n")
    ran = on_terminal(tmp_path, [STIL, "grade", SCAN, str(tmp_path / "lot.csv")])
    assert ran.status == 12 and "gives it one" in ran.shown


def test_a_dash_is_standard_input(tmp_path: pathlib.Path) -> None:
    text, plan = pathlib.Path(SCAN).read_bytes(), pathlib.Path(PLAN).read_bytes()
    wanted = (EXAMPLES / "s27scan" / "lot.datalog").read_bytes()
    for words, given in (["lot", "-", PLAN], text), (["lot", SCAN, "-"], plan):
        done = subprocess.run([STIL, *words], cwd=TOP, input=given, capture_output=True, check=False)
        assert (done.returncode, done.stdout) == (0, wanted)
        assert on_terminal(tmp_path, [STIL, *words], "x.datalog", given=given).file == wanted
    assert subprocess.run([LOTS, "parts", "-"], cwd=TOP, input=plan, capture_output=True, check=False).stdout == b"1\n"


@pytest.mark.parametrize("command, name", [(STIL, "stil"), (LOTS, "lots")])
def test_each_command_has_a_part_of_the_help_with_an_example(command: str, name: str) -> None:
    usage = subprocess.run([tester.find_program()], capture_output=True, text=True, check=False).stdout if name == "stil" else ""
    words = [form.split()[0] for form in usage.removeprefix("usage: ").split(" | ")] if usage else ["parts", "part", "merge", "grade", "merge-grade"]
    for word in words:
        done = subprocess.run([command, "help", word], cwd=TOP, capture_output=True, text=True, check=False)
        assert done.returncode == 0 and done.stdout.startswith(f"{name} {word} ") and "\nexample:\n" in done.stdout
    done = subprocess.run([command, "help", "nothing"], cwd=TOP, capture_output=True, text=True, check=False)
    assert (done.returncode, done.stdout) == (1, "") and "--help" in done.stderr
    whole = subprocess.run([command, "--help"], cwd=TOP, capture_output=True, text=True, check=False).stdout
    assert subprocess.run([command, "help"], cwd=TOP, capture_output=True, text=True, check=False).stdout == whole


@pytest.mark.parametrize("words, done, said", [
    (["quick", tester.find_program()], r"\d+ of \d+ cases, 0 differ", r"\d+ agree, 0 differ; \d+ are of what can't be had on real files"),
    (["hostile", "files", tester.find_program()], r"\[files, 1 of 1\] \d+ cases are done, \d+:\d\d gone", r"\d+ agree, 0 differ")],
    ids=["quick", "hostile"])
def test_a_tool_shows_how_far_it_is(tmp_path: pathlib.Path, words: list[str], done: str, said: str) -> None:
    ran = on_terminal(tmp_path, [str(TOP / "tools" / words[0]), *words[1:]], "said")
    assert ran.status == 0 and re.fullmatch(said, ran.file.decode().splitlines()[-1].split(", and are")[0])
    assert len(re.findall(done, ran.shown)) > 5 and ran.shown.endswith("\r\x1b[K")


def limited() -> None:
    """Bounds the size of files, with the signal for it as a shell leaves it."""
    signal.signal(signal.SIGXFSZ, signal.SIG_DFL)
    resource.setrlimit(resource.RLIMIT_FSIZE, (1024, 1024))


@pytest.mark.parametrize("command, status", [([tester.find_program()], -signal.SIGXFSZ), ([STIL], 3),
                                             (["sh", "-c", "trap '' XFSZ; exec \"$@\"", "sh", tester.find_program()], 3)],
                         ids=["by itself", "by the wrapper", "with the signal ignored"])
def test_a_limit_on_files_is_a_fault_of_writing(tmp_path: pathlib.Path, command: list[str], status: int) -> None:
    text = str(EXAMPLES / "two_timings" / "pipe.stil")
    with open(tmp_path / "cut", "wb") as out:
        ran = subprocess.run([*command, "cycles", text], cwd=TOP, stdout=out, stderr=subprocess.PIPE, preexec_fn=limited, check=False)
    front = (tmp_path / "cut").read_bytes()
    assert (ran.returncode, ran.stderr, len(front)) == (status, b"", 1024)
    assert tester.run(["cycles", text])[1].startswith(front)


SIGNALS = [signal.SIGTERM, signal.SIGINT, signal.SIGHUP]


def take_signals() -> None:
    """Takes signals again that whoever started this process ignores."""
    for number in SIGNALS:
        signal.signal(number, signal.SIG_DFL)


@pytest.mark.parametrize("number", SIGNALS)
def test_a_signal_ends_the_program_too(tmp_path: pathlib.Path, number: signal.Signals) -> None:
    (tmp_path / "long.stil").write_text(EXAMPLES.joinpath("p1.stil").read_text().replace("V { y=X; }", "Loop 200000000000 { V { y=X; } }"))
    (tmp_path / "lot.csv").write_text(f"lot,256,1,16,,\nbind,a,-,,,\nbind,y,-,,,\ndie,0,d,{tmp_path}/n.bench,,\n")
    (tmp_path / "n.bench").write_text("INPUT(a)\nOUTPUT(y)\ny = NOT(a)\n")
    master, slave = pty.openpty()
    with open(tmp_path / "out", "wb") as out:
        # (what runs in the background, or by nohup, is started with signals that are ignored)
        ran = subprocess.Popen([STIL, "lot", str(tmp_path / "long.stil"), str(tmp_path / "lot.csv")], cwd=TOP, stdout=out, stderr=slave,
                               preexec_fn=take_signals)
    os.close(slave)
    child = program_below(ran.pid)
    time.sleep(0.3)
    ran.send_signal(number)
    assert ran.wait(60) == -number
    os.close(master)
    assert not os.path.exists(f"/proc/{child}")


def program_below(parent: int) -> int:
    """The process of the program that a wrapper has started, as soon as it is there."""
    for _ in range(600):
        for child in pathlib.Path(f"/proc/{parent}/task/{parent}/children").read_text().split():
            path = pathlib.Path(f"/proc/{child}/cmdline")
            if path.exists() and path.read_bytes().split(b"\0")[1:2] == [b"lot"]:
                return int(child)
        time.sleep(0.1)
    raise AssertionError("the wrapper starts no program")
