"""Netlists in cells as they are written, pins, held inputs, and netlists beside the Verilog that they are made of."""

import pathlib
import random
import re

import pytest

from conftest import DATA, Lot, needs_iverilog, needs_yosys
from stilfloor import learn, netlist, plans, records
from stilfloor.cli import main
from stilfloor.diagnose import Doctor
from stilfloor.faults import Fault, Faults
from stilfloor.liberty import tristates
from stilfloor.testbench.nets import read_netlist

pytestmark = needs_yosys
LIBRARY = str(DATA / "cells.lib")
CELLS = str(DATA / "cells.v")
RESET = """module acc(input clk, input rst_n, input en, input [3:0] d, output reg [4:0] q);
  always @(posedge clk or negedge rst_n) if (!rst_n) q <= 5'd3; else if (en) q <= q + d;
endmodule
"""


def in_cells(folder: pathlib.Path, verilog: str, **more: object) -> netlist.Bench:
    """The netlist of a text in cells."""
    (folder / "t.v").write_text(verilog)
    start = netlist.Start([str(folder / "t.v")], liberty=LIBRARY, as_written=True, libraries=[CELLS])
    for name, value in more.items():
        setattr(start, name, value)
    return netlist.make(start, str(folder / "out"), True)[0]


def refused(folder: pathlib.Path, verilog: str, **more: object) -> str:
    """What is told of a text that is refused."""
    with pytest.raises(Fault) as caught:
        in_cells(folder, verilog, **more)
    assert caught.value.status == 1 and not (folder / "out").exists()
    told = caught.value.told().split("\n")
    assert all(re.match(rf"{folder}/t\.v:\d+:1: error: ", line) for line in told), told
    return "\n".join(told)


@needs_iverilog
def test_each_net_keeps_its_name(tmp_path: pathlib.Path) -> None:
    text = (DATA / "s27cells.v").read_text()
    bench = in_cells(tmp_path, text, held={"RN": "1"})
    read = read_netlist(str(tmp_path / "out" / "s27cells.bench"))
    nets = {f"G{number}" for number in range(18) if number != 4} - {"G4"}
    assert set(read.inputs) | set(read.gates) == nets | {"RN"} and read.registers == ["G5", "G6", "G7"]
    assert read.gates["G9"] == ("NAND", ["G16", "G15"]) and read.gates["G5"] == ("DFF", ["G10"])
    assert bench.told == ["200 random vectors agree with the Verilog, by iverilog: 200 of 200 values of outputs were known"]
    head = (tmp_path / "out" / "s27cells.bench").read_text().split("\n")
    assert head[1].startswith("# RN is held at 1: ") and head[2] == "# of the clock's tree these cells are left out: c1, c2"


@needs_iverilog
def test_cells_are_their_functions(tmp_path: pathlib.Path) -> None:
    bench = in_cells(tmp_path, """module t(input CK, input R, input S, input E, input I, input a, input b, output [6:0] y);
  wire one, q, qn;
  ONE o (.Y(one)); AOI21 u1 (.A(a), .B(b), .C(q), .Y(y[0])); MUX2 u2 (.A(a), .B(qn), .S(b), .Y(y[1]));
  HALF u3 (.A(a), .B(q), .S(y[2]), .C(y[3])); DFFR f (.D(y[2]), .CK(CK), .RN(R), .Q(q), .QN(qn));
  DFFS g (.D(y[0]), .SE(E), .SI(I), .RN(R), .SN(S), .CK(CK), .Q(y[4])); BUFX u4 (.A(one), .Y(y[5])); assign y[6] = y[4];
endmodule
""", held={"R": "1", "S": "1"})
    read = read_netlist(str(tmp_path / "out" / "t.bench"))
    assert read.gates["y[1]"] == ("OR", ["u2/Y.1", "u2/Y.2"]) and read.gates["y[3]"] == ("AND", ["a", "q"])
    assert read.gates["qn"] == ("NOT", ["f/state"]) and read.gates["f/state"] == ("DFF", ["y[2]"]) and read.gates["one"] == ("BUFF", ["tie1"])
    assert read.gates["y[4]"][0] == "DFF" and read.gates["y[6]"] == ("BUFF", ["y[4]"])
    assert re.fullmatch(r"200 random vectors agree with the Verilog, by iverilog: 1,[34]\d\d of 1,400 values of outputs were known", bench.told[0])
    again = in_cells(tmp_path, (tmp_path / "t.v").read_text(), held={"R": "1", "S": "1"}, libraries=[])
    assert "by their Liberty functions" in again.told[0]
    made = netlist.Start([str(tmp_path / "t.v")], liberty=LIBRARY, held={"R": "1", "S": "1"}, libraries=[CELLS])
    assert "agree with the Verilog" in netlist.make(made, str(tmp_path / "new"))[0].told[0]


@needs_iverilog
def test_a_library_that_says_otherwise_is_seen(tmp_path: pathlib.Path) -> None:
    (tmp_path / "other.v").write_text(pathlib.Path(CELLS).read_text().replace("nand (Y", "and (Y"))
    text = refused(tmp_path, (DATA / "s27cells.v").read_text(), held={"RN": "1"}, libraries=[str(tmp_path / "other.v")])
    assert "the netlist is another circuit than the Verilog: in vector " in text and "--unchecked" in text
    (tmp_path / "other.v").write_text("module INV (input A, output Y; endmodule\n")
    with pytest.raises(Faults) as caught:
        in_cells(tmp_path, (DATA / "s27cells.v").read_text(), held={"RN": "1"}, libraries=[str(tmp_path / "other.v")])
    assert f"{tmp_path}/other.v:1:1: error: iverilog: " in caught.value.told() and "--unchecked writes it uncompared" in caught.value.told()


@pytest.mark.parametrize("cells, why", [
    ("DFFR f (.D(a), .CK(CK), .RN(b), .Q(y));", "the flip-flop `f` has an asynchronous set or reset by `b`: "),
    ("DFFN f (.D(a), .CK(CK), .Q(y));", "takes the falling edge of `CK`"),
    ("wire n; INV i (.A(CK), .Y(n)); DFFR f (.D(a), .CK(n), .RN(1'b1), .Q(y));", "takes the falling edge of `CK`"),
    ("wire n; AND2 i (.A(CK), .B(a), .Y(n)); DFFR f (.D(a), .CK(n), .RN(1'b1), .Q(y));", "the clock of the flip-flop `f` is made inside"),
    ("wire m; DFFR f (.D(a), .CK(CK), .RN(1'b1), .Q(m)); DFFR g (.D(m), .CK(b), .RN(1'b1), .Q(y));", "has a second clock `"),
    ("LATCH l (.D(a), .G(b), .Q(y));", "the cell `LATCH` of `l` is a latch"),
    ("TBUF l (.A(a), .E(b), .Y(y));", "the cell `TBUF` of `l` has an output that can be off"),
    ("DARK l (.A(a), .Y(y));", "the cell `DARK` of `l` has no function"),
    ("NONE l (.A(a), .Y(y));", "`\\NONE' referenced in module"),
    ("NAND2 l (.A(a), .Y(y));", "nothing drives"),
    ("reg r; always @(posedge CK or posedge b) if (b) r <= 0; else r <= a; assign y = r;", "asynchronous set or reset")])
def test_what_cells_cannot_be_is_refused_by_name(tmp_path: pathlib.Path, cells: str, why: str) -> None:
    assert why in refused(tmp_path, f"module t(input CK, input a, input b, output y);\n{cells}\nendmodule\n")


def test_an_output_that_can_be_off_is_seen_in_the_library() -> None:
    assert tristates(pathlib.Path(LIBRARY).read_text()) == {"TBUF"}
    assert tristates('cell("A") { x : "three_state }"; } /* cell (B) { */ pin (Y) { three_state : "E"; } cell (C) { pin (Y) { three_state : E; } }') == {"C"}


@needs_iverilog
def test_a_reset_is_held_and_told(tmp_path: pathlib.Path, capsys: pytest.CaptureFixture[str]) -> None:
    (tmp_path / "acc.v").write_text(RESET)
    words = ["netlist", str(tmp_path / "acc.v"), "--scan", "1", "-o", str(tmp_path / "out")]
    assert main(words) == 1 and "where a test holds `rst_n` at 1, --hold rst_n=1 says so" in capsys.readouterr().err
    assert main([*words, "--hold", "rst_n=0"]) == 1 and "is held where its asynchronous end `rst_n` resets it" in capsys.readouterr().err
    assert main([*words, "--hold", "clk=0", "--hold", "rst_n=1"]) == 1 and "`clk` is the clock, so it can't be held" in capsys.readouterr().err
    assert main([*words, "--hold", "no=0"]) == 1 and "--hold names `no`, which is no input of `acc`" in capsys.readouterr().err
    assert main([*words, "--hold", "rst_n"]) == 2 and main([*words, "--hold", "rst_n=0", "--hold", "rst_n=1"]) == 2
    capsys.readouterr()
    assert main([*words, "--hold", "rst_n=1"]) == 0
    told = capsys.readouterr().err
    assert "rst_n is held at 1\n" in told and "1,000 of 1,000 values of outputs were known" in told
    text, plan = (tmp_path / "out" / "acc.stil").read_text(), str(tmp_path / "out" / "acc.csv")
    assert "\"rst_n\" { 1 { '0ns' U; } }" in text and '"rst_n"=1;' in text and '"rst_n"' not in text[text.index('"_pi" ='):].split(";")[0]
    assert learn.learn(str(tmp_path / "out" / "acc.stil"), plan).counts["X"] == 0


def test_a_reset_that_is_made_inside_is_settled_by_what_is_held(tmp_path: pathlib.Path) -> None:
    text = "module t(input c, input rst, input test, input d, output reg q);\nwire r = rst & !test;\n" \
           "always @(posedge c or posedge r) if (r) q <= 0; else q <= d; endmodule\n"
    (tmp_path / "t.v").write_text(text)
    for held, ends in (({"test": "1"}, 0), ({"rst": "0"}, 0), ({"rst": "1"}, 1), ({"rst": "1", "test": "0"}, 1)):
        start = netlist.Start([str(tmp_path / "t.v")], held=held)
        if ends:
            with pytest.raises(Fault, match="asynchronous"):
                netlist.make(start, str(tmp_path / "out"), True)
        else:
            assert netlist.make(start, str(tmp_path / "out"), True)[0].held == held


@needs_iverilog
def test_a_circuit_that_yosys_reads_otherwise_is_refused(tmp_path: pathlib.Path, capsys: pytest.CaptureFixture[str]) -> None:
    words = ["netlist", str(DATA / "packed.sv"), "-o", str(tmp_path / "out")]
    assert main(words) == 1 and not (tmp_path / "out").exists()
    assert "the netlist is another circuit than the Verilog" in capsys.readouterr().err
    assert main([*words, "--unchecked"]) == 0
    assert "nothing was compared with the Verilog, as --unchecked says" in capsys.readouterr().err


def test_where_iverilog_is_missing_nothing_is_compared(tmp_path: pathlib.Path, monkeypatch: pytest.MonkeyPatch) -> None:
    from stilfloor import compared

    monkeypatch.setattr(compared.shutil, "which", lambda name: None if name == "iverilog" else name)
    bench = netlist.make(netlist.Start([str(DATA / "counter.v")]), str(tmp_path))[0]
    assert bench.told == ["nothing was compared with the Verilog, as iverilog isn't there"]


@needs_iverilog
def test_a_netlist_is_proved_to_be_its_verilog(tmp_path: pathlib.Path, monkeypatch: pytest.MonkeyPatch, capsys: pytest.CaptureFixture[str]) -> None:
    (tmp_path / "acc.v").write_text(RESET)
    words = ["netlist", str(tmp_path / "acc.v"), "--scan", "1", "--hold", "rst_n=1", "--equiv", "--force", "-o", str(tmp_path / "out")]
    assert main(words) == 0
    assert "yosys' equiv proves that it is the Verilog as yosys reads it, at " in capsys.readouterr().err
    bench = in_cells(tmp_path, (DATA / "s27cells.v").read_text(), held={"RN": "1"}, is_proved=True, has_pins=True, chains=1)
    assert bench.told[1].endswith(" all outputs among them")
    made = netlist.compare

    def otherwise(bench: netlist.Bench, sources: netlist.Sources) -> str:
        told = made(bench, sources)
        gate = next(gate for gate in bench.gates if gate.kind in ("XOR", "XNOR"))
        gate.kind = {"XOR": "XNOR", "XNOR": "XOR"}[gate.kind]
        return told

    monkeypatch.setattr(netlist, "compare", otherwise)
    assert main(words) == 1 and "unproved that both have by name: the netlist may be another circuit" in capsys.readouterr().err
    assert main([*words, "--unchecked"]) == 2


BENCHES = "module die(input clk, input d, output reg q); always @(posedge clk) q <= d; endmodule\n{more}" \
          "module bench; reg clk, d; wire q; die u(clk, d, q); {uses} initial begin clk = 0; d = 1; end endmodule\n"


def test_a_test_bench_is_not_the_top(tmp_path: pathlib.Path) -> None:
    file = tmp_path / "t.v"
    file.write_text(BENCHES.format(more="", uses=""))
    bench = netlist.make(netlist.Start([str(file)]), str(tmp_path))[0]
    assert bench.name == "die" and bench.told[0] == "the module `die` is the top: what is above it has no ports, as a test bench"
    with pytest.raises(Fault, match="the module `bench` has no ports and no gates: name the top module by --top"):
        netlist.make(netlist.Start([str(file)], "bench"), str(tmp_path))
    file.write_text(BENCHES.format(more="module two(input a, output y); assign y = a; endmodule\n", uses="wire y; two v(d, y);"))
    with pytest.raises(Fault, match="several could be the top: name one of `die`, `two` by --top"):
        netlist.make(netlist.Start([str(file)]), str(tmp_path))
    assert netlist.make(netlist.Start([str(file)], "two"), str(tmp_path))[0].name == "two"
    file.write_text("module none; endmodule\n")
    with pytest.raises(Fault, match="has no ports and no gates"):
        netlist.make(netlist.Start([str(file)]), str(tmp_path))


@pytest.fixture(scope="module")
def pinned(tmp_path_factory: pytest.TempPathFactory) -> Lot:
    """s27 in cells with pins as nets and a chain, and values learnt from its good die."""
    folder = tmp_path_factory.mktemp("pinned")
    start = netlist.Start([str(DATA / "s27cells.v")], None, 1, 24, liberty=LIBRARY, as_written=True, has_pins=True, held={"RN": "1"})
    _, (bench, stil, plan) = netlist.make(start, str(folder))
    learnt = folder / "learnt.stil"
    learnt.write_text(learn.learn(stil, plan).text, encoding="latin-1")
    return Lot(folder, bench, str(learnt), plan)


def test_stuck_pins_stand_in_the_best_class(pinned: Lot) -> None:
    pins = [net for net in read_netlist(pinned.bench).gates if re.fullmatch(r"[uf]\d+/[A-Z]+", net)]
    assert "u12/B" in pins and "u8/A" in pins and "u9/A" not in pins
    faults = [(pin, value) for pin in pins for value in "01"]
    random.Random(1).shuffle(faults)
    rows = []
    for number, (pin, value) in enumerate(faults):
        rows += [["die", str(number % 16), f"d{number}", pinned.bench], ["fault", str(number % 16), f"d{number}", pin, value]]
    plan, datalog = pinned.run(rows, 256)
    doctor = Doctor(pinned.stil, plan)
    found: list[str] = []
    with records.datalog(datalog) as dies:
        for die in dies:
            diagnosis = doctor.see(die) if len(found) < 20 else None
            if diagnosis:
                pin, value = faults[int(die.name[1:])]
                assert diagnosis.exact and f"{pin} stuck at {value}" in map(str, diagnosis.classes[0].members)
                found.append(pin)
    assert len(found) == 20


def test_pins_of_gates_have_the_names_of_their_nets(tmp_path: pathlib.Path) -> None:
    (tmp_path / "t.v").write_text("module t(input c, input a, input b, output reg q, output y); assign y = a & b; always @(posedge c) q <= a; endmodule\n")
    bench = netlist.make(netlist.Start([str(tmp_path / "t.v")], has_pins=True), str(tmp_path))[0]
    gates = read_netlist(str(tmp_path / "t.bench")).gates
    assert gates == {"q": ("DFF", ["q/D"]), "y": ("AND", sorted(gates["y"][1])), "y/A": ("BUFF", ["a"]), "q/D": ("BUFF", ["a"])} or \
        gates == {"q": ("DFF", ["q/D"]), "y": ("AND", ["b", "y/B"]), "y/B": ("BUFF", ["a"]), "q/D": ("BUFF", ["a"])}
    assert plans.read_plan(str(tmp_path / "t.csv")).clock == "c" and bench.clock == "c"
