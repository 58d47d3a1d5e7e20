"""A name stays a name: a hundred of them that some program could take for more, as files, folders, modules, nets, signals and dies."""

import csv
import io
import json
import os
import pathlib
import re
import shutil
import subprocess
from typing import Any

import pytest

from conftest import DATA, EXAMPLES, TOP, Lot, dies_of, needs_yosys
from hostile_names import MARK, NAMES, plain, printing
from named import UTF8, nothing_runs, told
from stilfloor import netlist, plans, records, sentences, tester
from stilfloor.faults import shown

SIGNALS = [name for name in dict.fromkeys(NAMES) if printing(name) and "[" not in name and name != "CK"]
NETS = [name for name in NAMES if plain(name) and not set(name) & set("(),=#")]
DIES = [name for name in NAMES if plain(name)]
GRADE = str(EXAMPLES / "s27scan" / "lot.grade")


_nothing_runs = pytest.fixture(autouse=True)(nothing_runs)


def quoted(name: str) -> str:
    """A name in the quotes of STIL."""
    return f'"{name}"'


def lot_of_names(folder: pathlib.Path) -> Lot:
    """A text with two signals of each name, a scan chain and cells of these names, a netlist of such nets, and a die of each name."""
    ins, outs = [f"{name}i" for name in SIGNALS], [f"{name}o" for name in SIGNALS]
    chain = SIGNALS[3]
    cells = [f"{name}c" for name in SIGNALS if "!" not in name][:40]
    signals = "".join(f"  {quoted(name)} In;\n" for name in ins) + "".join(f"  {quoted(name)} Out;\n" for name in outs)
    drive = "".join(f"{quoted(name)} {{ 01 {{ '0ns' D/U; }} }}" for name in ins)
    look = "".join(f"{quoted(name)} {{ LHTX {{ '40ns' L/H/T/X; }} }}" for name in outs)
    vectors = "".join(f"  V {{ {''.join(f'{quoted(name)}={bit};' for name in ins)}"
                      f"{''.join(f'{quoted(name)}=L;' for name in outs)} \"CK\"=0; \"SI\"=0; \"SO\"=X; }}\n" for bit in "01")
    text = f"""STIL 1.0;
Signals {{
{signals}  "CK" In; "SI" In {{ ScanIn; }} "SO" Out {{ ScanOut; }}
}}
ScanStructures {{ ScanChain {quoted(chain)} {{ ScanLength {len(cells)}; ScanIn "SI"; ScanOut "SO"; ScanCells {' '.join(map(quoted, cells))}; }} }}
Timing {{ WaveformTable {quoted(SIGNALS[5])} {{ Period '100ns'; Waveforms {{ {drive}{look}
  "CK" {{ 0P {{ '0ns' D; '45ns' D/U; '55ns' D; }} }} "SI" {{ 01 {{ '0ns' D/U; }} }} "SO" {{ LHTX {{ '40ns' L/H/T/X; }} }} }} }} }}
Procedures {{ {quoted(SIGNALS[7])} {{ W {quoted(SIGNALS[5])}; Shift {{ V {{ "CK"=P; "SI"=#; "SO"=#; }} }} }} }}
Pattern {quoted(SIGNALS[6])} {{
  W {quoted(SIGNALS[5])};
{vectors}  Call {quoted(SIGNALS[7])} {{ "SI"={'01' * (len(cells) // 2)}; "SO"={'X' * len(cells)}; }}
  Call {quoted(SIGNALS[7])} {{ "SI"={'01' * (len(cells) // 2)}; "SO"={'LH' * (len(cells) // 2)}; }}
}}
PatternBurst {quoted(SIGNALS[8])} {{ PatList {{ {quoted(SIGNALS[6])}; }} }}
PatternExec {quoted(SIGNALS[9])} {{ PatternBurst {quoted(SIGNALS[8])}; }}
"""
    (folder / "p.stil").write_text(text)
    nets = [f"{name}i" for name in NETS]
    bench = [*(f"INPUT({net})" for net in [*nets, "SI"]), *(f"OUTPUT({name}o)" for name in NETS), "OUTPUT(q0)"]
    bench += [f"{name}o = BUFF({name}i)" for name in NETS]
    bench += ["q0 = DFF(SI)"]
    (folder / "n.bench").write_text("\n".join(bench) + "\n")
    rows = [["lot", "256", "1", "130"], ["clock", "CK"], ["bind", "SO", "q0"]]
    rows += [["bind", name, "-"] for name in [*ins, *outs] if name[:-1] not in NETS]
    for number, name in enumerate(DIES):
        rows.append(["die", str(number % 16), name, "n.bench"])
        if number % 2:
            rows.append(["fault", str(number % 16), name, f"{NETS[number % len(NETS)]}o", "1"])
    (folder / "lot.csv").write_text(plans.write_rows(rows))
    status, output = tester.run(["lot", "p.stil", "lot.csv"], str(folder))
    assert status == 0, output
    (folder / "lot.datalog").write_bytes(output)
    return Lot(folder, "n.bench", "p.stil", "lot.csv")


def test_names_within_files_are_names_to_every_word(tmp_path: pathlib.Path, capsys: pytest.CaptureFixture[str]) -> None:
    lot_of_names(tmp_path)
    dies = dies_of("lot.datalog")
    assert sorted(die.name for die in dies) == sorted(DIES)
    signals = {fail.signal for die in dies for fail in die.tries[0].kept}
    assert signals >= {f"{name}o" for name in set(NETS) & set(SIGNALS)}
    for words in (["lint", "p.stil", "--plan", "lot.csv"], ["lint", "--plan", "lot.csv"]):
        assert ": error: " not in told(words, capsys)
    table = told(["export", "lot.datalog", "--csv"], capsys)
    assert {row["signal"].removeprefix("'") for row in csv.DictReader(io.StringIO(table))} == signals
    assert {die["die"] for die in json.loads(told(["export", "lot.datalog", "--json"], capsys))} == set(DIES)
    text = told(["diagnose", "p.stil", "lot.csv", "lot.datalog"], capsys)
    assert all(f" die {name} try 1 " in text for name in DIES)
    assert f"{NETS[1]}o stuck at 1" in text
    told(["learn", "p.stil", "lot.csv", "-o", "learnt.stil"], capsys)
    for words in (["lot", "lot.datalog"], ["fails", "lot.datalog", "--program", "p.stil"], ["events", "p.stil", "--to", "3", "--datalog", "lot.datalog"],
                  ["shmoo", "p.stil", "lot.csv", "--strobe", "40ns..50ns/10ns"]):
        for ending in ("png", "svg"):
            told(["plot", *words, "-o", f"p.{ending}"], capsys)
    (tmp_path / "grade").write_bytes(tester.run(["grade", "p.stil", "lot.csv"])[1])
    words = ["report", "p.stil", "lot.csv", "lot.datalog", "lot.datalog", "-o", "report", "--title", "\n".join(UTF8), "--grade", "grade", "--pairs", "2"]
    told(words, capsys)
    page = (tmp_path / "report" / "index.html").read_text()
    assert "<script>a" not in page and "<b>a" not in page and "&lt;script&gt;a" in page
    assert re.findall("<script[^>]*>", page) == ["<script>"] and page.count("</script>") == 1


def test_a_grade_of_such_nets_is_read(tmp_path: pathlib.Path, capsys: pytest.CaptureFixture[str]) -> None:
    lot = lot_of_names(tmp_path)
    (tmp_path / "grade").write_bytes(tester.run(["grade", lot.stil, lot.plan])[1])
    with records.grade("grade") as faults:
        assert {fault.net for fault in faults} >= {f"{name}o" for name in NETS}
    told(["plot", "grade", "grade", "-o", "g.svg"], capsys)


def farmed(folder: pathlib.Path, plan: str, datalog: str) -> None:
    """Makes a working folder of a lot in one part, which is done."""
    (folder / "1").mkdir(parents=True)
    shutil.copy(plan, folder / "plan.csv")
    shutil.copy(datalog, folder / "1" / "text")
    (folder / "1" / "status").write_text("0\n")
    (folder / "said").write_text(json.dumps({"kind": "lot", "parts": 1}))


def test_names_of_files_are_names_to_every_word(tmp_path: pathlib.Path, capsys: pytest.CaptureFixture[str], s27: Lot) -> None:
    """Twenty folders in one another at a time, with files of these names."""
    log = EXAMPLES / "s27scan" / "lot.datalog"
    for front in range(0, len(NAMES), 20):
        folder = pathlib.Path(*NAMES[front : front + 20])
        folder.mkdir(parents=True)
        for name in NAMES[front : front + 20]:
            stil, plan, datalog = (f"./{folder}/{name}{end}" for end in (".stil", ".csv", ".datalog"))
            shutil.copy(s27.stil, stil)
            shutil.copy(s27.plan, plan)
            shutil.copy(log, datalog)
            told(["export", datalog, "--csv", "-o", f"{datalog}.csv"], capsys)
            assert (tmp_path / f"{datalog}.csv").read_text().startswith("site,die,")
        fine = all(part in UTF8 for part in (*folder.parts, name))
        status = 0 if fine else 3
        assert ("takes names of UTF-8 alone" in told(["lint", stil, "--plan", plan], capsys, status)) != fine
        told(["learn", stil, plan, "-o", f"{stil}.learnt"], capsys)
        assert ("stuck at" in told(["diagnose", stil, plan, datalog], capsys, status)) == fine
        told(["report", stil, plan, datalog, "-o", f"./{folder}/{name}.report"], capsys, status)
        farmed(pathlib.Path(f"./{folder}/{name}.farm"), plan, datalog)
        told(["report", stil, plan, "--follow", f"./{folder}/{name}.farm", "-o", f"./{folder}/{name}.followed"], capsys, status)
        told(["plot", "lot", datalog, "-o", f"{datalog}.svg"], capsys)
        told(["plot", "fails", datalog, "-o", f"{datalog}.png"], capsys)
        told(["plot", "events", stil, "-o", f"{stil}.svg", "--datalog", datalog], capsys, status)
        told(["plot", "shmoo", stil, plan, "-o", f"{stil}.png", "--period", "100ns..100ns/1ns"], capsys, status)
        shutil.copy(GRADE, f"{folder}/{name}.grade")
        told(["plot", "grade", f"./{folder}/{name}.grade", "-o", f"./{folder}/{name}.svg"], capsys)


@pytest.mark.parametrize("front", range(0, len(NAMES), 20))
def test_files_that_are_not_there_are_told_on_one_line(front: int, capsys: pytest.CaptureFixture[str]) -> None:
    for name in set(NAMES[front : front + 20]) - {"-", "--"}:
        for words in (["lint", "--", name], ["lint", f"--plan={name}"], ["learn", "--", name, name], ["export", "--csv", "--", name],
                      ["plot", "lot", "--", name], ["plot", "fails", "--", name], ["plot", "grade", "--", name], ["plot", "events", "--", name],
                      ["diagnose", "--", name, name, name], ["netlist", "--", name], ["fit", f"-o{name}x", "--", name],
                      ["testbench", f"-o{name}x", "--", name, name], ["plan-time", "--", name, name], ["coverage", "--", name, name],
                      ["from-vcd", f"--clock={name}", "--", name], ["vectors", f"--clock={name}", "--", name],
                      ["report", f"--follow={name}", "-o", "r", "--", name, name], ["report", f"--grade={name}", "-o", "r", "--", name, name, name],
                      ["plot", "shmoo", "--strobe", "1ns..2ns/1ns", "--", name, name]):
            line, = told(words, capsys, 1 if words[:2] == ["lint", "--"] and name in UTF8 else 3).removesuffix("\n").split("\n")
            assert line.startswith(f"{shown(name)}:1:1: error: "), (words, line)


@needs_yosys
def test_names_of_verilog_files_are_no_words_of_a_script(tmp_path: pathlib.Path, capsys: pytest.CaptureFixture[str]) -> None:
    files = []
    for number, name in enumerate(NAMES):
        folder = pathlib.Path(f"./{name}")
        folder.mkdir()
        (folder / "part.vh").write_text(f"assign y = ~a[{number}];\n")
        files.append(f"./{name}/{name}.v")
        pathlib.Path(files[-1]).write_text(f'module m{number}(input [99:0] a, output y);\n`include "part.vh"\nendmodule\n')
    uses = "".join(f"m{number} u{number}(a, y[{number}]);\n" for number in range(len(NAMES)))
    pathlib.Path("top.v").write_text(f"module top(input [99:0] a, output [99:0] y);\n{uses}endmodule\n")
    # (iverilog looks for what each file includes in the folders of all of them)
    printed = told(["netlist", "top.v", *files, "-o", "out", "--unchecked"], capsys)
    assert "100 gates" in printed or "gates" in printed
    bench = pathlib.Path("out/top.bench").read_text()
    assert "y[99] = NOT(a[99])" in bench and bench.split("\n")[1] == "INPUT(a[0])"


@needs_yosys
def test_a_fault_in_such_a_file_is_told_by_its_name(tmp_path: pathlib.Path, capsys: pytest.CaptureFixture[str]) -> None:
    for name in NAMES[::9]:
        pathlib.Path(f"{name}.v").write_text("module t(input a, output q);\nassign q = ; endmodule\n")
        line = told(["netlist", "-o", "out", f"./{name}.v"], capsys, 1).split("\n")[0]
        assert line.startswith(f"{shown(f'./{name}.v')}:2:1: error: yosys: "), line
        pathlib.Path(f"{name}.v").write_text("module t(input c, input d,\noutput reg q = 1); always @(posedge c) q <= d; endmodule\n")
        line = told(["netlist", "-o", "out", f"./{name}.v"], capsys, 1).split("\n")[0]
        assert line.startswith(f"{shown(f'./{name}.v')}:2:1: error: `q` has the initial value"), line


@needs_yosys
def test_names_of_modules_and_nets_are_names(tmp_path: pathlib.Path, capsys: pytest.CaptureFixture[str]) -> None:
    """An escaped name of Verilog has any visible bytes, and ends with a blank."""
    parts = [name for name in NAMES if plain(name)] + ["../../x", "/abs/x", "a/b", "_pi", "_po", "_so", "SE", "SI1"]
    uses = "".join(f"\\{name} \\{name} (.c(c), .\\{name} (a[{number}]), .y(y[{number}]));\n" for number, name in enumerate(parts))
    modules = "".join(f"module \\{name} (input c, input \\{name} , output reg y);\nwire \\{name}w ; assign \\{name}w = ~\\{name} ;\n"
                      f"always @(posedge c) y <= \\{name}w ; endmodule\n" for name in parts)
    last = len(parts) - 1
    pathlib.Path("top.v").write_text(f"{modules}module top(input c, input [{last}:0] a, output [{last}:0] y);\n{uses}endmodule\n")
    told(["netlist", "top.v", "-o", "out", "--scan", "2", "--pins", "--unchecked"], capsys)
    assert sorted(path.name for path in tmp_path.iterdir()) == ["out", "top.v"]


@needs_yosys
def test_names_of_libraries_and_held_inputs_are_names(tmp_path: pathlib.Path, capsys: pytest.CaptureFixture[str]) -> None:
    for name in NAMES[::11]:
        for end, source in ((".lib", "cells.lib"), (".v", "s27cells.v"), (".l.v", "cells.v")):
            shutil.copy(DATA / source, f"{name}{end}")
        words = ["netlist", f"./{name}.v", "--liberty", f"./{name}.lib", "--as-written", "--libs", f"./{name}.l.v", "-o", "out", "--force"]
        assert "200 random vectors agree" in told([*words, "--hold", "RN=1"], capsys) or not shutil.which("iverilog")
        assert "is no input of" in told([*words, f"--hold={name}=1"], capsys, 1)
        assert "is no identifier" in told([*words, f"--top={name}"], capsys, 2)
        (tmp_path / f"{name}.lib").write_text("library (")
        assert f"{shown(f'./{name}.lib')}:" in told(words, capsys, 1)


def test_names_of_dumps_and_tables_and_in_them_are_names(tmp_path: pathlib.Path, capsys: pytest.CaptureFixture[str]) -> None:
    head = "$timescale 1ns $end\n$scope module tb $end\n$var reg 1 ! CK $end\n"
    parts = [name for name in NAMES if plain(name) and not name.startswith("$end")]
    variables = "".join(f"$var reg 1 c{number} \\{name} $end\n" for number, name in enumerate(parts))
    for name in NAMES:
        pathlib.Path(f"./{name}.vcd").write_text(f"{head}{variables}$upscope $end\n$enddefinitions $end\n#0\n0!\n#5\n1!\n#7\n0!\n#15\n1!\n")
        pathlib.Path(f"./{name}.json").write_text(json.dumps([{name.encode("utf-8", "replace").decode(): 0}]))
    for name in NAMES[::9]:
        status = 0 if plain(name) and '"' not in name else 1
        line = told(["from-vcd", "--clock=CK", f"--out={name}", "-o", "out.stil", "--", f"./{name}.vcd"], capsys, status)
        assert line.count("\n") == 1
        told(["from-vcd", f"--clock={name}", f"--scope={name}", "--", f"./{name}.vcd"], capsys, 1)
        told(["vectors", f"--clock={name}", "-o", "out.stil", "--", f"./{name}.json"], capsys, 0 if printing(name) else 1)
        made = told(["vectors", "--clock=CK", "-o", "out.stil", "--", f"./{name}.json"], capsys, 0 if printing(name) else 1)
        assert made.count("\n") == 1
    assert ": error: `" in told(["from-vcd", "--clock=CK", "./-o.vcd"], capsys, 1)


@pytest.mark.skipif(not shutil.which("cadical"), reason="cadical isn't there: scan tests are left out")
def test_names_of_a_scan_test_are_names(tmp_path: pathlib.Path, capsys: pytest.CaptureFixture[str], s27: Lot) -> None:
    for name in NAMES[::24]:
        for end, source in ((".bench", s27.bench), (".stil", s27.stil), (".csv", s27.plan)):
            shutil.copy(source, f"{name}{end}")
        words = ["atpg", f"./{name}.bench", f"./{name}.csv", "--loads", "1", "-o", f"./{name}.out"]
        assert "faults are found" in told(words, capsys)
        assert pathlib.Path(f"./{name}.out").read_text().startswith("STIL 1.0")
        assert "faults 58: " in told(["coverage", f"./{name}.out", f"./{name}.csv", "--plot", f"./{name}.svg", "-o", f"./{name}.txt"], capsys) + \
            pathlib.Path(f"./{name}.txt").read_text()
        for word in (name, f"none{name}"):
            told(["coverage", f"--grade={word}", "--", f"./{name}.out", f"./{name}.csv"], capsys, 3)
            line = told(["atpg", f"--program={word}", "--", word, word], capsys, 1 if word.startswith("none") else 3 if pathlib.Path(word).exists() else 1)
            assert line.count("\n") == 1 and ": error: " in line


@needs_yosys
@pytest.mark.parametrize("name", ["../../x", "/abs/x", "..", "-rf", 'a"b', "$(touch${IFS}RUN)", "a;touch", "`touch${IFS}RUN`", "{1}", "a'b", "a\\b"])
def test_a_top_module_writes_within_its_folder_alone(tmp_path: pathlib.Path, capsys: pytest.CaptureFixture[str], name: str) -> None:
    (tmp_path / "deep" / "er").mkdir(parents=True)
    os.chdir(tmp_path / "deep" / "er")
    pathlib.Path("top.v").write_text(f"module \\{name} (input c, input d, output reg q); always @(posedge c) q <= d; endmodule\n")
    before = sorted(tmp_path.rglob("*"))
    if "/" in name:
        assert "can't name files, as it has a slash" in told(["netlist", "top.v", "-o", "out"], capsys, 1)
        assert sorted(tmp_path.rglob("*")) == before
        return
    told(["netlist", "top.v", "-o", "out"], capsys)
    assert {path.parent.name for path in set(tmp_path.rglob("*")) - set(before)} == {"er", "out"}
    assert tester.run(["check", f"out/{name}.stil"])[0] == 0


@needs_yosys
@pytest.mark.parametrize("top", NAMES[::7] + ["a b", "t; exec -- touch RUN", "", "1a"])
def test_a_top_is_an_identifier(tmp_path: pathlib.Path, capsys: pytest.CaptureFixture[str], top: str) -> None:
    if re.fullmatch(r"[A-Za-z_][A-Za-z0-9_$]*", top):
        return
    assert "is no identifier" in told(["netlist", str(DATA / "alu.v"), f"--top={top}"], capsys, 2)


def test_a_file_of_a_yosys_script_runs_nothing(tmp_path: pathlib.Path) -> None:
    name = f'counter.v"; exec -- touch {MARK}; read_verilog "counter.v'
    (tmp_path / name).write_text((DATA / "counter.v").read_text())
    if shutil.which("yosys"):
        assert netlist.make(netlist.Start([name]), "out")[0].name == "counter"


def test_a_link_that_lies_in_the_way_is_replaced_and_not_followed(tmp_path: pathlib.Path, capsys: pytest.CaptureFixture[str]) -> None:
    (tmp_path / "kept").write_text("kept")
    (tmp_path / "dies.csv").symlink_to("kept")
    told(["export", str(EXAMPLES / "s27scan" / "lot.datalog"), "--csv", "-o", "dies.csv"], capsys)
    assert (tmp_path / "kept").read_text() == "kept" and (tmp_path / "dies.csv").read_text().startswith("site,")


def test_the_command_takes_no_module_from_where_one_stands(tmp_path: pathlib.Path) -> None:
    for name in ("numpy", "argparse", "matplotlib", "stilfloor"):
        (tmp_path / f"{name}.py").write_text(f"open({MARK!r}, 'w')\n")
    done = subprocess.run([str(TOP / "floor" / "stilfloor"), "--version"], check=False, capture_output=True, text=True)
    assert done.returncode == 0 and done.stdout.startswith("stilfloor ")


def test_the_command_runs_in_a_folder_of_any_name(tmp_path: pathlib.Path) -> None:
    place = tmp_path.joinpath("a:b", "$(touch RUN)", "{= system('touch RUN') =}", "end\n")
    place.mkdir(parents=True)
    (place / "floor").symlink_to(TOP / "floor")
    shutil.copy(TOP / "floor" / "stilfloor", place / "stilfloor")
    (place / "src").symlink_to(TOP / "floor" / "src")
    for name in ("s27scan.stil", "s27scan.bench", "lot.datalog"):
        shutil.copy(EXAMPLES / "s27scan" / name, place)
    (place / "lot.csv").write_text((EXAMPLES / "s27scan" / "lot.csv").read_text().replace("examples/s27scan/", ""))
    shutil.copy(tester.find_program(), place / "stil")
    words = [str(place / "stilfloor"), "diagnose", "s27scan.stil", "lot.csv", "lot.datalog", "--jobs", "2", "--json"]
    done = subprocess.run(words, cwd=place, env={**os.environ, "STIL": str(place / "stil")}, check=False, capture_output=True, text=True)
    assert done.returncode == 0 and '"net": "G9", "value": 1' in done.stdout, done


FEEDS = ['"a\nb" { }', '"a\n\nb c" { }', "Signals { \"a'\nb\" In; }", "'a\nb' { }", '"a\nb" "c\nd" { }', 'Pattern "c\nd" { W; }']


@pytest.mark.parametrize("statement", FEEDS)
def test_a_refusal_ends_with_the_first_line_feed_outside_quotes(tmp_path: pathlib.Path, capsys: pytest.CaptureFixture[str], statement: str) -> None:
    (tmp_path / "t.stil").write_text(f"STIL 1.0;\n\n\n{statement}\n")
    line, *_ = told(["lint", "t.stil"], capsys, 1).split("\n")
    assert re.match(r"t\.stil:[45]:1: error: .*\((LeftOut|Shape), in ", line), line


def test_a_fault_of_the_kind_is_read_of_names_with_quotes() -> None:
    fault = sentences.refusal('refused stil LeftOut "a\nb" "c d" 7\n', 4, "f.stil")
    assert (fault.line, fault.file) == (7, "f.stil") and "in a\nb `c d`" in fault.text and "\\x0a" in fault.told()
    assert sentences.refusal('read fault "no\ny"q.stil"\n', 2, "p").file == 'no\ny"q.stil'
    assert sentences.refusal('read fault "q"\n', 2, "p").file == '"q"'


def check_task() -> dict[str, Any]:
    """The task of VS Code that asks `stil check`."""
    lines = (TOP / "editors" / "vscode" / "tasks.json").read_text().splitlines()
    tasks = json.loads("\n".join(line for line in lines if not line.startswith("//")))["tasks"]
    found: dict[str, Any] = next(task for task in tasks if task["label"] == "stil check")
    return found


def in_task(name: str) -> str:
    """What the task of VS Code prints of a file."""
    task = check_task()
    words = [task["command"], *(word.replace("${file}", name) for word in task["args"])]
    (pathlib.Path("bin")).mkdir(exist_ok=True)
    if not os.path.lexists("bin/stil"):
        os.symlink(tester.find_program(), "bin/stil")
    env = {**os.environ, "PATH": f"{os.getcwd()}/bin:{os.environ['PATH']}"}
    return subprocess.run(words, env=env, check=False, capture_output=True).stdout.decode()


def test_the_task_of_an_editor_reads_each_refusal(tmp_path: pathlib.Path) -> None:
    task = check_task()
    pattern = re.compile(task["problemMatcher"]["pattern"]["regexp"])
    for name in UTF8:
        (tmp_path / f"{name}.stil").write_text('STIL 1.0;\n"a\nb" { }\n')
        file = f"{tmp_path}/{name}.stil"
        found = pattern.match(in_task(file)) if "\n" not in name else re.match(pattern.pattern, in_task(file), re.DOTALL)
        assert found and (found[1], found[3]) == (file, "2"), name


@pytest.mark.skipif(not shutil.which("vim"), reason="vim isn't there: its compiler is left out")
@pytest.mark.parametrize("name", ["t", "a b", "'; touch RUN; '", "$(touch RUN)", "a,b", "#a", "%u"])
def test_vim_reads_each_refusal(tmp_path: pathlib.Path, name: str) -> None:
    (tmp_path / f"{name}.stil").write_text('STIL 1.0;\n"a\nb" { }\n')
    in_task(str(tmp_path / "none"))
    env = {**os.environ, "PATH": f"{tmp_path}/bin:{os.environ['PATH']}"}
    script = (f"source {TOP}/editors/vim/compiler/stil.vim | silent make! | call writefile(map(filter(getqflist(), 'v:val.valid'), "
              "'bufname(v:val.bufnr) . \"|\" . v:val.lnum . \"|\" . v:val.text'), 'out') | qa!")
    subprocess.run(["vim", "-u", "NONE", "-N", "-es", "-c", "command -nargs=* CompilerSet setlocal <args>", "-c", script, f"{name}.stil"],
                   check=False, timeout=300, env=env, capture_output=True)
    assert (tmp_path / "out").read_text() == f'{name}.stil|2|LeftOut "a b" -\n'
