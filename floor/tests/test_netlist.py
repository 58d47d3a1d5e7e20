"""Netlists of Verilog: beside a simulation of it, and what a bench die can't be."""

import pathlib
import random
import re
import subprocess

import pytest

from conftest import DATA, dies_of, needs_iverilog, needs_yosys
from stilfloor import netlist, plans, saved, tester
from stilfloor.cli import main
from stilfloor.faults import Fault, Faults

pytestmark = needs_yosys


def make(path: pathlib.Path, verilog: str, chains: int = 0, name: str = "t") -> tuple[str, str, str]:
    """The netlist, STIL text and plan of a Verilog text."""
    file = path / f"{name}.v"
    file.write_text(verilog)
    bench, stil, plan = netlist.make(netlist.Start([str(file)], None, chains), str(path))[1]
    return bench, stil, plan


BENCH = """module bench;
    reg clk = 0; reg [{wide}:0] in; reg [{wide}:0] vectors [0:{last}]; integer i;
    {wires}
    {top} die (.clk(clk){ports});
    initial begin
        $readmemb("vectors", vectors);
        for (i = 0; i <= {last}; i = i + 1) begin
            in = vectors[i]; #40 $display("%b", {{{outs}}}); #5 clk = 1; #10 clk = 0; #45;
        end
    end
endmodule
"""


def simulated(folder: pathlib.Path, top: str, ins: dict[str, int], outs: dict[str, int], vectors: list[str]) -> list[str]:
    """What iverilog shows at the outputs, 5 ns before each rising edge; each name has its number of bits."""
    ports, place = "", sum(ins.values())
    for name, width in ins.items():
        ports += f", .{name}(in[{place - 1}:{place - width}])"
        place -= width
    ports += "".join(f", .{name}({name})" for name in outs)
    wires = " ".join(f"wire [{width - 1}:0] {name};" for name, width in outs.items())
    (folder / "vectors").write_text("\n".join(vectors) + "\n")
    text = BENCH.format(wide=sum(ins.values()) - 1, last=len(vectors) - 1, wires=wires, top=top, ports=ports, outs=", ".join(outs))
    (folder / "bench.v").write_text(text)
    subprocess.run(["iverilog", "-o", "sim", "bench.v", str(DATA / f"{top}.v")], cwd=folder, check=True)
    return subprocess.run(["vvp", "-n", "sim"], cwd=folder, check=True, capture_output=True, text=True).stdout.split()


def bits(name: str, width: int) -> list[str]:
    """The names of a port's bits, the highest first."""
    return [name] if width == 1 else [f"{name}[{place}]" for place in reversed(range(width))]


@needs_iverilog
@pytest.mark.parametrize("top, ins, outs", [
    ("counter", {"rst": 1, "en": 1}, {"q": 4, "carry": 1, "version": 2}),
    ("alu", {"rst": 1, "load": 1, "op": 2, "a": 4, "b": 4}, {"y": 5, "zero": 1})])
def test_a_netlist_shows_what_iverilog_shows(tmp_path: pathlib.Path, top: str, ins: dict[str, int], outs: dict[str, int]) -> None:
    random_bits = random.Random(3)
    width = sum(ins.values())
    vectors = ["1" + "0" * (width - 1)] * 2
    vectors += [str(int(random_bits.random() < 0.05)) + "".join(random_bits.choice("01") for _ in range(width - 1)) for _ in range(198)]
    shown = simulated(tmp_path, top, ins, outs, vectors)
    assert len(shown) == 200 and sum(line.count("x") for line in shown[2:]) == 0
    stil, plan = netlist.make(netlist.Start([str(DATA / f"{top}.v")], None, 0, 0), str(tmp_path))[1][1:]
    text = pathlib.Path(stil).read_text()
    inputs = " + ".join(f'"{name}"' for port, size in ins.items() for name in bits(port, size))
    outputs = " + ".join(f'"{name}"' for port, size in outs.items() for name in bits(port, size))
    lines = "".join(f"  V {{ '{inputs}'={drive}; '{outputs}'={look.translate(str.maketrans('01xz', 'LHXX'))}; }}\n"
                    for drive, look in zip(vectors, shown))
    pathlib.Path(stil).write_text(text.rstrip()[:-1] + lines + "}\n")
    datalog = tester.run(["lot", stil, plan])[1].decode()
    assert "try 1 cycles 200 fails 0\nverdict pass\n" in datalog


REFUSED = {
    "an asynchronous set or reset": "module t(input c, input r, input d, output reg q); always @(posedge c or negedge r)\n"
                                    "if (!r) q <= 0; else q <= d; endmodule",
    "asynchronous": "module t(input c, input s, input r, input d, output reg q); always @(posedge c or posedge s or posedge r)\n"
                    "if (r) q <= 0; else if (s) q <= 1; else q <= d; endmodule",
    "is a latch": "module t(input g, input d, output reg q);\nalways @* if (g) q = d; endmodule",
    "a second clock": "module t(input c, input e, input d, output reg q, output reg r); always @(posedge c) q <= d;\n"
                      "always @(posedge e) r <= q; endmodule",
    "the falling edge": "module t(input c, input d, output reg q, output reg r); always @(posedge c) q <= d;\n"
                        "always @(negedge c) r <= q; endmodule",
    "is made inside": "module t(input c, input e, input d, output reg q);\nalways @(posedge (c & e)) q <= d; endmodule",
    "the initial value": "module t(input c, input d,\noutput reg q = 1); always @(posedge c) q <= d; endmodule",
    "a tristate": "module t(input e, input d, output q);\nassign q = e ? d : 1'bz; endmodule",
    "an inout": "module t(input e,\ninout d, output q); bufif1(d, q, e); assign q = d; endmodule",
    "a loop of gates": "module t(input s, input r, output q, output p);\nassign q = ~(r | p); assign p = ~(s | q); endmodule",
    "nothing drives": "module t(input a, output q);\nwire b; assign q = a & b; endmodule",
    "is not part of the design": "module t(input a, output q);\nother u (a, q); endmodule",
    "syntax error": "module t(input a, output q);\nassign q = ; endmodule",
}


@pytest.mark.parametrize("why", REFUSED)
def test_what_a_bench_die_cannot_be_is_refused_by_name(tmp_path: pathlib.Path, why: str) -> None:
    with pytest.raises(Fault) as refused:
        make(tmp_path, REFUSED[why])
    assert why in refused.value.told() and refused.value.status == 1
    assert re.match(rf"{tmp_path}/t\.v:\d+:1: error: ", refused.value.told())
    assert not (tmp_path / "t.bench").exists()


def test_the_line_is_that_of_the_register(tmp_path: pathlib.Path) -> None:
    with pytest.raises(Faults) as refused:
        make(tmp_path, "module t(input c, input e, input d, output reg q, output reg r);\n"
                       "always @(posedge c) q <= d;\nalways @(negedge c) r <= q;\nendmodule\n")
    assert [(fault.line, "`r`" in fault.text) for fault in refused.value.faults] == [(3, True)]


def test_all_that_is_refused_is_told_at_once(tmp_path: pathlib.Path) -> None:
    with pytest.raises(Faults) as refused:
        make(tmp_path, REFUSED["the initial value"].replace("endmodule", "always @* if (d) z = c; endmodule").replace("q = 1", "q = 1, output reg z"))
    assert len(refused.value.faults) == 2


def test_constants_become_ties_that_the_text_drives(tmp_path: pathlib.Path) -> None:
    bench, stil, plan = make(tmp_path, "module t(input a, output [3:0] q); assign q = {a, 1'b1, 1'b0, 1'b1}; endmodule")
    text = pathlib.Path(bench).read_text()
    assert "INPUT(tie0)" in text and "INPUT(tie1)" in text and text.count("BUFF(tie1)") == 2 and "q[3] = BUFF(a)" in text
    assert '"tie1"=1;' in pathlib.Path(stil).read_text()
    kept = pathlib.Path(make(tmp_path, "module k(output [1:0] q); reg [1:0] m = 2'b01; assign q = m; endmodule", 0, "k")[0]).read_text()
    assert "q[0] = BUFF(tie1)" in kept and "q[1] = BUFF(tie0)" in kept
    assert tester.run(["lot", stil, plan])[0] == 0


def test_names_that_are_taken_get_a_number(tmp_path: pathlib.Path) -> None:
    bench, _, _ = make(tmp_path, "module t(input c, input SE, input tie1, output reg SI1, output k); always @(posedge c) SI1 <= SE & tie1;\n"
                                 "assign k = 1; endmodule", 1)
    inputs = re.findall(r"INPUT\((.*)\)", pathlib.Path(bench).read_text())
    assert len(set(inputs)) == len(inputs) == 5 and {"SE", "tie1", "SE_1", "tie1_1", "SI1_1"} == set(inputs)


def test_scan_chains_are_as_even_as_can_be(made_alu: object) -> None:
    lot = made_alu
    code = saved.code_of(lot.stil)  # type: ignore[attr-defined]
    chains = code.executives[0].chains
    assert [chain.length for chain in chains] == [8, 7] and [len(chain.cells) for chain in chains] == [8, 7]
    assert len({cell for chain in chains for cell in chain.cells}) == 15


def test_more_chains_than_registers_are_refused(tmp_path: pathlib.Path) -> None:
    with pytest.raises(Fault, match="2 scan chains are asked for, and the design has 1 flip-flops"):
        make(tmp_path, "module t(input c, input d, output reg q); always @(posedge c) q <= d; endmodule", 2)


def test_the_word_writes_three_files_and_not_over_others(tmp_path: pathlib.Path, capsys: pytest.CaptureFixture[str]) -> None:
    words = ["netlist", str(DATA / "counter.v"), "--scan", "1", "-o", str(tmp_path / "new")]
    assert main(words) == 0
    told = capsys.readouterr()
    paths = told.out.split()
    assert [pathlib.Path(path).name for path in paths] == ["counter.bench", "counter.stil", "counter.csv"] and "in chains of 4" in told.err
    assert plans.read_plan(paths[2]).dies[0].netlist == paths[0]
    datalog = tmp_path / "datalog"
    datalog.write_bytes(tester.run(["lot", paths[1], paths[2]])[1])
    assert dies_of(str(datalog))[0].tries[0].cycles == 16 * 5 + 4
    assert main(words) == 3 and "--force" in capsys.readouterr().err
    assert main([*words, "--force"]) == 0
    assert main(["netlist", str(tmp_path / "none.v")]) == 3


def test_the_top_module_can_be_named(tmp_path: pathlib.Path) -> None:
    file = tmp_path / "two.v"
    file.write_text("module a(input x, output y); assign y = ~x; endmodule\nmodule b(input x, output z); assign z = x; endmodule\n")
    bench, _ = netlist.make(netlist.Start([str(file)], "a"), str(tmp_path))
    assert bench.name == "a" and bench.outputs == ["y"]
