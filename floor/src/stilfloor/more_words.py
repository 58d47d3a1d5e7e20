"""Further words of the command: netlists, the language server, and how long something will take."""

import argparse
import os
import sys
from collections.abc import Callable

from stilfloor.faults import USAGE, Fault

# adds a word with its help, an example, and what it does
Add = Callable[..., argparse.ArgumentParser]


def add_words(words: "argparse._SubParsersAction[argparse.ArgumentParser]", add: Add) -> None:
    """Adds them."""
    _add_tests(words, add)
    _add_vectors(words, add)
    _add_coverage(words, add)
    add(words, "server", "serve an editor: a language server on standard input and output",
        "stilfloor server\n  docs/editors.md says how Vim, Neovim, Emacs and VS Code start it", server)
    word = add(words, "plan-time", "say how long a lot or a grade will take, by running a little of it for some seconds",
               "stilfloor plan-time examples/s27scan/s27scan.stil examples/s27scan/lot.csv --grade", plan_time)
    word.add_argument("program", metavar="PROGRAM", help="the STIL text or saved program")
    word.add_argument("plan", metavar="PLAN", help="the plan of the lot")
    word.add_argument("--grade", action="store_true", help="the grade of the plan's first die, and not the lot")
    word.add_argument("--processors", type=_some, default=os.cpu_count() or 1, metavar="N", help="on so many processors (all that are here)")


def add_netlist_options(word: argparse.ArgumentParser) -> None:
    """Adds what `netlist` takes of cells, pins, held inputs and of being compared."""
    word.add_argument("--liberty", metavar="FILE.lib", help="the cells of a netlist in cells, by their Liberty functions")
    word.add_argument("--as-written", action="store_true", help="take a netlist in cells as it stands: each net keeps its name")
    word.add_argument("--pins", action="store_true", help="give each pin at a net with several readers a net of its own, as u12/A")
    word.add_argument("--hold", action="append", default=[], metavar="NET=0|1", help="an input that the test holds, as a reset at rest; may come again")
    word.add_argument("--libs", nargs="+", action="extend", default=[], metavar="L.v", help="the cells' Verilog, beside which the netlist is simulated")
    word.add_argument("--equiv", action="store_true", help="also prove by yosys' equiv that it is the Verilog as yosys reads it")
    word.add_argument("--unchecked", action="store_true", help="write the netlist without simulating it beside the Verilog")


def netlist(words: argparse.Namespace) -> int:
    """The word `netlist`."""
    from stilfloor.holds import holds_of
    from stilfloor.netlist import Start, make

    if words.equiv and words.unchecked:
        raise Fault(USAGE, "--equiv and --unchecked exclude each other")
    if words.libs and not words.liberty:
        raise Fault(USAGE, "--libs are the Verilog of the cells that --liberty FILE.lib has")
    start = Start(words.files, words.top, words.scan, words.vectors, words.seed, words.liberty, words.as_written, words.pins,
                  holds_of(words.hold), words.libs, not words.unchecked, words.equiv)
    bench, paths = make(start, words.folder, words.force)
    registers = sum(gate.kind == "DFF" for gate in bench.gates)
    lines = [f"{bench.name}: {len(bench.gates)} gates, of which {registers} flip-flops"
             + (f", in chains of {', '.join(str(len(chain.cells)) for chain in bench.chains)}" if bench.chains else "")
             + (f"; constants are driven at {', '.join(bench.ties)}" if bench.ties else "")]
    lines += [f"{net} is held at {value}" for net, value in bench.held.items()]
    for line in [*lines, *bench.told]:
        print(line, file=sys.stderr)
    for path in paths:
        print(path)
    return 0


def _add_tests(words: "argparse._SubParsersAction[argparse.ArgumentParser]", add: Add) -> None:
    word = add(words, "atpg", "make a scan test of a netlist that finds each stuck net, or prove of it that nothing does",
               "stilfloor atpg alu/alu.bench alu/alu.csv -o alu/test.stil", atpg)
    word.add_argument("netlist", metavar="NETLIST.bench", help="a netlist with scan chains, as `netlist --scan N` makes it")
    word.add_argument("plan", metavar="PLAN", help="the plan that binds it")
    word.add_argument("--program", metavar="FILE.stil", help="the netlist's STIL text (NETLIST.stil)")
    word.add_argument("--loads", type=_some, metavar="N", help="at most N loads")
    word.add_argument("--seed", type=int, default=1, metavar="S", help="the seed of random loads (1)")
    word.add_argument("--compact", action="store_true", help="make few loads: one for several faults, and none that others make needless")
    word.add_argument("--seconds", type=_some, default=10, metavar="N", help="how long one question to the solver may take (10)")
    word.add_argument("--resume", action="store_true", help="go on with what an earlier run left in OUT.stil.work")
    word.add_argument("-o", dest="out", metavar="OUT.stil", help="where the test goes (NETLIST.test.stil)")


def _add_coverage(words: "argparse._SubParsersAction[argparse.ArgumentParser]", add: Add) -> None:
    word = add(words, "coverage", "count stuck nets: found sure, found by an unknown alone, refuted, open, and why",
               "stilfloor coverage alu/alu.test.stil alu/alu.csv --plot coverage.png", coverage)
    word.add_argument("program", metavar="PROGRAM", help="the STIL text or saved program")
    word.add_argument("plan", metavar="PLAN", help="the plan, whose first die it is")
    word.add_argument("--grade", metavar="FILE", help="what `stil grade PROGRAM PLAN` printed, where it is there already")
    form = word.add_mutually_exclusive_group()
    form.add_argument("--csv", action="store_true", help="a table with a row each fault")
    form.add_argument("--json", action="store_true", help="the counts and all faults as JSON")
    word.add_argument("--plot", metavar="FILE", help="a picture of coverage over cycles, as PNG, SVG or PDF")
    word.add_argument("--seconds", type=_some, default=10, metavar="N", help="how long one question to the solver may take (10)")
    word.add_argument("-o", dest="out", metavar="FILE", help="where it goes (standard output)")


def coverage(words: argparse.Namespace) -> int:
    """The word `coverage`."""
    import tempfile

    from stilfloor import drawing
    from stilfloor.cli import put
    from stilfloor.coverage import shown
    from stilfloor.coverage.count import Counting

    with tempfile.TemporaryDirectory() as room:
        made = Counting(words.program, words.plan, room, words.seconds).count(words.grade)
    if words.plot:
        drawing.store(shown.figure_of(made), words.plot)
    text = shown.csv_of(made) if words.csv else shown.json_of(made) if words.json else "".join(f"{line}\n" for line in shown.lines_of(made))
    put(words.out, iter([text]))
    return 0


def _add_vectors(words: "argparse._SubParsersAction[argparse.ArgumentParser]", add: Add) -> None:
    word = add(words, "from-vcd", "write a simulation's dump as a STIL text: inputs by cycle, outputs as looks",
               "stilfloor from-vcd bench/waves.vcd --clock ck -o again.stil", from_vcd)
    word.add_argument("file", metavar="DUMP", help="a value change dump (VCD)")
    _add_cycles(word)
    word.add_argument("--netlist", metavar="NETLIST.bench", help="its inputs and outputs are those of this netlist")
    word.add_argument("--scope", metavar="SCOPE", help="the scope of the signals, as top.dut (the outermost one that has the clock)")
    word = add(words, "vectors", "write a table as a STIL text: a column each signal, a row each cycle",
               "stilfloor vectors table.csv --clock ck -o table.stil", vectors)
    word.add_argument("file", metavar="TABLE", help="a .csv with a heading, or a .json with a list of objects")
    _add_cycles(word)


def _add_cycles(word: argparse.ArgumentParser) -> None:
    word.add_argument("--clock", required=True, metavar="CK", help="the clock")
    word.add_argument("--period", metavar="T", help="how long a cycle is, as 100ns")
    word.add_argument("--strobe", metavar="T", help="when outputs are looked at in a cycle, as 40ns")
    word.add_argument("--in", dest="inputs", nargs="+", action="extend", default=[], metavar="NAME", help="inputs")
    word.add_argument("--out", dest="outputs", nargs="+", action="extend", default=[], metavar="NAME", help="outputs")
    word.add_argument("-o", dest="out", metavar="OUT.stil", help="where the text goes (standard output)")


def _put_vectors(words: argparse.Namespace, is_dump: bool) -> int:
    from stilfloor.cli import put
    from stilfloor.vectors.table import Table
    from stilfloor.vectors.text import text_of, time_of
    from stilfloor.vectors.vcd import Reading, Wish

    period, strobe = (time_of(word, option) if word else None for word, option in ((words.period, "--period"), (words.strobe, "--strobe")))
    if period == 0:
        raise Fault(USAGE, "--period wants a time above 0")
    wish = Wish(words.clock, period, strobe, words.inputs, words.outputs)
    if is_dump:
        wish.netlist, wish.scope = words.netlist, words.scope
    made = Reading(words.file, wish).vectors() if is_dump else Table(words.file, wish).vectors()
    pieces = list(text_of(made))
    put(words.out, iter(pieces), "latin-1")
    print(f"{len(made.rows):,} cycles, {len(made.inputs)} inputs, {len(made.outputs)} outputs", file=sys.stderr)
    return 0


def from_vcd(words: argparse.Namespace) -> int:
    """The word `from-vcd`."""
    return _put_vectors(words, True)


def vectors(words: argparse.Namespace) -> int:
    """The word `vectors`."""
    return _put_vectors(words, False)


def atpg(words: argparse.Namespace) -> int:
    """The word `atpg`."""
    from stilfloor.atpg.word import make_test
    from stilfloor.atpg.work import Wish

    out = words.out or words.netlist.removesuffix(".bench") + ".test.stil"
    wish = Wish(out, words.loads, words.seed, words.compact, words.seconds, words.resume)
    for line in make_test(words.netlist, words.plan, words.program, wish):
        print(line)
    return 0


def _some(text: str) -> int:
    """A number from 1 on."""
    if not (text.isascii() and text.isdigit() and 1 <= int(text[:9]) and len(text) < 9):
        raise argparse.ArgumentTypeError(f"`{text}` is no number from 1 on")
    return int(text)


def plan_time(words: argparse.Namespace) -> int:
    """The word `plan-time`."""
    from stilfloor.plan_time import tell

    for line in tell(words.program, words.plan, words.grade, words.processors):
        print(line)
    return 0


def server(words: argparse.Namespace) -> int:
    """The word `server`."""
    from stilfloor.server import main

    return main()
