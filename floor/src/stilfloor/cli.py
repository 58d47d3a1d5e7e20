"""The command `stilfloor`: its words, their help, and its exit statuses."""

import argparse
import contextlib
import io
import os
import re
import sys
from collections.abc import Callable, Iterator
from typing import IO, TYPE_CHECKING

from stilfloor import __version__
from stilfloor.faults import REFUSED, STATUSES, TOOL, UNREADABLE, USAGE, Fault, shown
from stilfloor.more_words import add_netlist_options, add_words, netlist
from stilfloor.names import replacing

if TYPE_CHECKING:
    from stilfloor.diagnose import Diagnosis, Doctor

Word = Callable[[argparse.Namespace], int]
MOST_PAIRED = 100
# the modules of Python that words need, and Debian's packages that have them
PACKAGES = {"numpy": "python3-numpy", "matplotlib": "python3-matplotlib", "PIL": "python3-pil", "pandas": "python3-pandas"}


def _add(words: "argparse._SubParsersAction[argparse.ArgumentParser]", name: str, what: str, example: str,
         does: Word | None = None) -> argparse.ArgumentParser:
    """A word with its help, an example and the exit statuses."""
    parser = words.add_parser(name, help=what, description=what[0].upper() + what[1:] + ".", epilog=f"example:\n  {example}\n\n{STATUSES}",
                              formatter_class=argparse.RawDescriptionHelpFormatter)
    if does:
        parser.set_defaults(does=does)
    return parser


def _number(text: str) -> int:
    """A number that isn't below 0."""
    if not (text.isascii() and text.isdigit() and len(text) <= 20):
        raise argparse.ArgumentTypeError(f"`{text}` is no number from 0 on")
    return int(text)


def parser_of() -> argparse.ArgumentParser:
    """The parser of all words."""
    parser = argparse.ArgumentParser(
        prog="stilfloor", description="Netlists in, pictures and suspects out, beside the program stil.",
        epilog="`stilfloor WORD --help` says more of a word, with an example. The program is found by the variable STIL, in the\n"
               f"checkout of this package, or on the path.\n\n{STATUSES}",
        formatter_class=argparse.RawDescriptionHelpFormatter)
    parser.add_argument("--version", action="version", version=f"stilfloor {__version__}")
    words = parser.add_subparsers(metavar="WORD", required=True)
    _add_making(words)
    _add_finding(words)
    _add_showing(words)
    add_words(words, _add)
    return parser


def _add_making(words: "argparse._SubParsersAction[argparse.ArgumentParser]") -> None:
    word = _add(words, "netlist", "make a netlist of Verilog, with a STIL text and a plan to begin with",
                "stilfloor netlist alu.v --scan 2 -o alu\n  writes alu/alu.bench, alu/alu.stil and alu/alu.csv", netlist)
    word.add_argument("files", nargs="+", metavar="FILE.v", help="Verilog, and SystemVerilog where its name ends with .sv")
    word.add_argument("--top", metavar="T", help="the top module, where several could be it")
    word.add_argument("--scan", type=_number, default=0, metavar="N", help="put the flip-flops into N scan chains")
    word.add_argument("--vectors", type=_number, default=16, metavar="N", help="random vectors, or loads, to begin with (16)")
    word.add_argument("--seed", type=int, default=1, metavar="S", help="the seed of the random vectors (1)")
    add_netlist_options(word)
    word.add_argument("-o", dest="folder", default=".", metavar="DIR", help="the folder to write into (where you stand)")
    word.add_argument("--force", action="store_true", help="write over files that are there")
    word = _add(words, "learn", "take expected values from the plan's first die: looks written L become what it shows",
                "stilfloor learn alu/alu.stil alu/alu.csv -o alu/learnt.stil", learn)
    word.add_argument("program", metavar="PROGRAM", help="a STIL text with L where a value is wanted")
    word.add_argument("plan", metavar="PLAN", help="a plan whose first die is good; its faults and stops don't count")
    word.add_argument("-o", dest="out", metavar="FILE", help="where the text goes (standard output)")
    word = _add(words, "fit", "write a text of an ATPG tool, or of the whole standard, so that stil takes it, or say where the test would change",
                "stilfloor fit examples/dialects/tetramax.before.stil -o fitted.stil", fit)
    word.add_argument("file", metavar="FILE.stil", help="a STIL text that the program refuses")
    word.add_argument("-o", dest="out", required=True, metavar="OUT.stil", help="where the fitted text goes, with as many lines")
    word.add_argument("--include", action="append", default=[], metavar="DIR", help="a folder in which included files are looked for")
    word.add_argument("--unit", default="", choices=("s", "ms", "us", "ns", "ps", "fs"), help="the unit of times that are written without one")
    _add_testbench(words)


def _add_testbench(words: "argparse._SubParsersAction[argparse.ArgumentParser]") -> None:
    word = _add(words, "testbench", "write a program as a Verilog testbench round a die of the plan, or round a design of your own",
                "stilfloor testbench examples/s27scan/s27scan.stil examples/s27scan/lot.csv --die c --run -o bench\n"
                "  stilfloor testbench alu.stil alu.csv --rtl alu --files alu.v --run -o bench", testbench)
    word.add_argument("program", metavar="PROGRAM", help="the STIL text or saved program")
    word.add_argument("plan", metavar="PLAN", help="the plan of the lot")
    word.add_argument("--site", type=_number, metavar="S", help="the site whose die it is (that of the first die that fits)")
    word.add_argument("--die", metavar="D", help="the die's name (the first one that fits)")
    word.add_argument("--rtl", metavar="TOP", help="this module of your own in the die's place")
    word.add_argument("--files", nargs="+", action="extend", default=[], metavar="F.v",
                      help="the files of that module, SystemVerilog where a name ends with .sv")
    word.add_argument("--libs", nargs="+", action="extend", default=[], metavar="L.v",
                      help="files of which only the modules that are used are taken")
    word.add_argument("--run", action="store_true", help="run it by iverilog: beside `stil lot`, or for the fails of your own module")
    word.add_argument("--waves", action="store_true", help="run it, and write DIR/waves.vcd")
    word.add_argument("--net", action="append", default=[], metavar="NET", help="a net that is in the waves, too; may come again")
    word.add_argument("-o", dest="folder", required=True, metavar="DIR", help="the folder to write into")


def _add_finding(words: "argparse._SubParsersAction[argparse.ArgumentParser]") -> None:
    word = _add(words, "diagnose", "name the stuck nets that explain the fails of each failing die best",
                "stilfloor diagnose examples/s27scan/s27scan.stil examples/s27scan/lot.csv examples/s27scan/lot.datalog --die c", diagnose)
    _add_lot(word)
    word.add_argument("--site", type=_number, metavar="S", help="only dies at this site")
    word.add_argument("--die", metavar="D", help="only dies of this name")
    word.add_argument("--most", type=_number, default=3, metavar="N", help="how many classes are told where none explains a die (3)")
    word.add_argument("--pairs", type=_number, default=MOST_PAIRED, metavar="N",
                      help=f"for how many kinds of fails that no single net explains pairs are tried ({MOST_PAIRED})")
    word.add_argument("--json", action="store_true", help="the same as JSON")
    word = _add(words, "lint", "say what is refused of a STIL text or a plan, and what is likely not meant",
                "stilfloor lint examples/s27scan/s27scan.stil\n  stilfloor lint --plan examples/s27scan/lot.csv", lint)
    word.add_argument("files", nargs="*", metavar="FILE.stil", help="STIL texts")
    word.add_argument("--plan", metavar="PLAN", help="a plan; with one FILE.stil it is bound to that program")


def _add_lot(word: argparse.ArgumentParser, several: bool = False) -> None:
    word.add_argument("program", metavar="PROGRAM", help="the STIL text or saved program")
    word.add_argument("plan", metavar="PLAN", help="the plan of the lot")
    if several:
        word.add_argument("datalogs", nargs="*", metavar="DATALOG", help="what `stil lot PROGRAM PLAN` printed, - for standard input; several are lots in turn")
    else:
        word.add_argument("datalog", metavar="DATALOG", help="what `stil lot PROGRAM PLAN` printed, - for standard input")
    word.add_argument("--jobs", type=_number, default=os.cpu_count() or 1, metavar="N", help="processes that make a dictionary (all processors)")


def _add_showing(words: "argparse._SubParsersAction[argparse.ArgumentParser]") -> None:
    word = _add(words, "plot", "draw what the program printed, as PNG, SVG or PDF", "stilfloor plot lot examples/s27scan/lot.datalog -o lot.png")
    kinds = word.add_subparsers(metavar="KIND", required=True)
    kind = _add(kinds, "lot", "bins over sites, with dies that were tried again marked", "stilfloor plot lot lot.datalog -o lot.png", plot_lot)
    kind.add_argument("datalog", metavar="DATALOG")
    kind = _add(kinds, "fails", "the fail map of a lot, of a site or of a die, and the Pareto of failing cells",
                "stilfloor plot fails lot.datalog --program scan.stil --die c -o fails.svg", plot_fails)
    kind.add_argument("datalog", metavar="DATALOG")
    kind.add_argument("--program", metavar="PROGRAM", help="gives all cells and the loads; without it rows are cycles")
    kind.add_argument("--site", type=_number, metavar="S", help="only dies at this site")
    kind.add_argument("--die", metavar="D", help="only dies of this name")
    kind = _add(kinds, "grade", "coverage over cycles", "stil grade scan.stil lot.csv | stilfloor plot grade - -o grade.pdf", plot_grade)
    kind.add_argument("grade", metavar="GRADE", help="what `stil grade` printed, - for standard input")
    kind = _add(kinds, "events", "waves with looks as marks", "stilfloor plot events scan.stil --from 3 --to 6 -o waves.svg", plot_events)
    kind.add_argument("program", metavar="PROGRAM", help="a STIL text")
    kind.add_argument("--from", dest="first", type=_number, default=0, metavar="K", help="the first cycle (0)")
    kind.add_argument("--to", dest="last", type=_number, metavar="K", help="the last cycle (31 behind the first)")
    kind.add_argument("--bits", action="store_true", help="a line for each bit of a bus")
    kind.add_argument("--datalog", metavar="DATALOG", help="looks beside what a die of it has seen: the first one that fails, else the first")
    kind.add_argument("--site", type=_number, metavar="S", help="only dies at this site")
    kind.add_argument("--die", metavar="D", help="only dies of this name")
    kind = _add(kinds, "shmoo", "pass and fail over periods and strobes, by a lot for each pair of the text with its times changed",
                "stilfloor plot shmoo examples/skew/hold.stil examples/skew/lot.csv --period 60ns..140ns/5ns --strobe 0ns..120ns/5ns", plot_shmoo)
    kind.add_argument("program", metavar="PROGRAM", help="a STIL text whose times are plain numbers")
    kind.add_argument("plan", metavar="PLAN", help="the plan of the lot")
    kind.add_argument("--period", metavar="A..B/STEP", help="periods of the first table, as 80ns..120ns/5ns; all times are scaled with it")
    kind.add_argument("--strobe", metavar="A..B/STEP", help="times of the first look, as 20ns..60ns/5ns; all looks are moved with it")
    kind.add_argument("--site", type=_number, metavar="S", help="only dies at this site")
    kind.add_argument("--die", metavar="D", help="only dies of this name")
    for name in ("lot", "fails", "grade", "events", "shmoo"):
        kinds.choices[name].add_argument("-o", dest="out", default=f"{name}.png", metavar="FILE", help=f"the picture ({name}.png)")
    word = _add(words, "report", "write one HTML page about a lot, or about several of one plan",
                "stilfloor report scan.stil lot.csv lot.datalog -o report", report)
    _add_lot(word, True)
    word.add_argument("--grade", metavar="GRADE", help="what `stil grade PROGRAM PLAN` printed, for the coverage")
    word.add_argument("--follow", metavar="FOLDER", help="in place of a DATALOG: the parts that are done in the working folder of farm/lot")
    word.add_argument("--every", type=_number, default=0, metavar="S", help="with --follow: look every S seconds for more, until all are done")
    word.add_argument("--pairs", type=_number, default=20, metavar="N",
                      help="for how many kinds of fails that no single net explains pairs are tried (20)")
    word.add_argument("-o", dest="folder", required=True, metavar="DIR", help="the folder for index.html")
    word.add_argument("--title", metavar="TEXT", help="the page's heading (the datalog's name)")
    word = _add(words, "export", "turn a datalog into a table for other tools", "stilfloor export lot.datalog --csv --table dies -o dies.csv", export)
    word.add_argument("datalog", metavar="DATALOG")
    form = word.add_mutually_exclusive_group(required=True)
    form.add_argument("--csv", action="store_true", help="one table with a heading")
    form.add_argument("--json", action="store_true", help="a list of dies, one a line")
    word.add_argument("--table", choices=("fails", "tries", "dies"), default="fails", help="which table --csv writes (fails)")
    word.add_argument("-o", dest="out", metavar="FILE", help="where it goes (standard output)")


def say(text: str) -> None:
    """Tells something beside the output."""
    print(text, file=sys.stderr)


def learn(words: argparse.Namespace) -> int:
    """The word `learn`."""
    from stilfloor.learn import learn as learnt_from

    learnt = learnt_from(words.program, words.plan)
    put(words.out, iter([learnt.text]), "latin-1")
    for note in learnt.notes:
        say(note)
    counts = learnt.counts
    total = sum(counts.values())
    say(f"{total} looks learnt: {counts['L']} low, {counts['H']} high, {counts['T']} off, {counts['X']} unknown; {learnt.runs} runs")
    return 0


def fit(words: argparse.Namespace) -> int:
    """The word `fit`."""
    from stilfloor.fit.command import fit_file

    changes = fit_file(words.file, words.out, words.include, words.unit)
    sys.stderr.writelines(f"{change.told()}\n" for change in changes)
    return 0


def testbench(words: argparse.Namespace) -> int:
    """The word `testbench`."""
    from stilfloor.testbench.make import Wish
    from stilfloor.testbench.word import answer

    if bool(words.files) != bool(words.rtl):
        raise Fault(USAGE, "--rtl TOP and --files F.v .. belong together")
    if words.net and not words.waves or words.libs and not words.rtl:
        raise Fault(USAGE, "--net belongs to --waves, and --libs to --rtl")
    wish = Wish(words.program, words.plan, words.site, words.die, words.rtl, words.files, words.libs, words.waves, words.net)
    told = answer(wish, words.folder, words.run)
    for line in told.notes:
        say(line)
    for line in told.lines:
        print(line)
    return told.status


def put(path: str | None, pieces: Iterator[str], encoding: str = "utf-8") -> None:
    """Writes pieces into a file, or to standard output."""
    try:
        if path is None:
            for piece in pieces:
                sys.stdout.buffer.write(piece.encode(encoding))
            sys.stdout.flush()
            return
        with replacing(path, encoding) as out:
            out.writelines(pieces)
    except BrokenPipeError:
        raise
    except OSError as error:
        raise Fault(UNREADABLE, f"{error.strerror}", path or "standard output") from error


def diagnose(words: argparse.Namespace) -> int:
    """The word `diagnose`."""
    from stilfloor import records
    from stilfloor.belonging import Owner
    from stilfloor.diagnose import Doctor, as_json
    from stilfloor.diagnose import diagnose as diagnosed

    doctor = Doctor(words.program, words.plan, words.jobs, words.most, words.pairs)
    owner = Owner(doctor.plan, doctor.code)
    with records.datalog(words.datalog) as dies:
        found = diagnosed(doctor, owner.held(dies), words.site, words.die)
        put(None, as_json(found) if words.json else _told(found, doctor))
    for line in doctor.notes if words.json else []:
        say(line)
    for line in doctor.site_lines():
        print(line, file=sys.stderr if words.json else sys.stdout)
    if doctor.left and words.pairs:
        say(f"pairs of stuck nets weren't tried for {doctor.left} kinds of fails more: --pairs N tries more")
    return 0


def _told(found: "Iterator[Diagnosis]", doctor: "Doctor") -> Iterator[str]:
    """The lines of diagnoses, in front of which stands what is to be known before."""
    for diagnosis in found:
        yield from (note + "\n" for note in doctor.notes)
        doctor.notes.clear()
        yield diagnosis.text() + "\n"


def lint(words: argparse.Namespace) -> int:
    """The word `lint`."""
    from stilfloor.fit.command import places
    from stilfloor.lint import lint_plan, lint_text

    if not words.files and not words.plan:
        raise Fault(2, "lint needs a FILE.stil, or --plan PLAN")
    lines: list[str] = []
    for file in words.files:
        told = list(lint_text(file))
        lines += told + (places(file) if lines_refuse(told, words.files) else [])
    if words.plan:
        lines += lint_plan(words.plan, words.files[0] if len(words.files) == 1 and not lines_refuse(lines, words.files) else None)
    for line in lines:
        print(line)
    return REFUSED if lines_refuse(lines, [*words.files, words.plan or ""]) else 0


def lines_refuse(lines: list[str], files: list[str]) -> bool:
    """Whether a line tells of an error; of these files it is known how long their names are, whatever stands in them."""
    names = "|".join(re.escape(shown(file)) for file in sorted(files, key=len, reverse=True))
    kinds = re.compile(rf"(?:{names}|.*?):\d+:\d+: (error|warning|note): ")
    return any(found[1] == "error" for found in map(kinds.match, lines) if found)


def plot_lot(words: argparse.Namespace) -> int:
    """The word `plot lot`."""
    from stilfloor import drawing, records

    lot = drawing.LotCounts()
    with records.datalog(words.datalog) as dies:
        for die in dies:
            lot.add(die)
    drawing.store(drawing.lot_figure(lot), words.out)
    return 0


def plot_fails(words: argparse.Namespace) -> int:
    """The word `plot fails`."""
    from stilfloor import drawing, records, saved
    from stilfloor.failmaps import Gathered, axes_of

    gathered = Gathered(axes_of(saved.code_of(words.program) if words.program else None))
    count = 0
    with records.datalog(words.datalog) as dies:
        for die in dies:
            if (words.site is None or die.site == words.site) and (words.die is None or die.name == words.die):
                gathered.add(die)
                count += die.verdict.kind == "fail"
    drawing.store(drawing.fails_figure(gathered, f"{count} failing {'die' if count == 1 else 'dies'}"), words.out)
    note = gathered.cut.note(gathered.failing)
    if note:
        say(note)
    return 0


def plot_grade(words: argparse.Namespace) -> int:
    """The word `plot grade`."""
    from stilfloor import drawing, records

    with records.grade(words.grade) as faults:
        every = list(faults)
    figure = drawing.grade_figure(every, faults.good, words.grade)
    if faults.good is not None:
        say(f"{shown(words.grade)}: the good die fails from cycle {faults.good} on: its program, netlist and plan aren't of each other")
    drawing.store(figure, words.out)
    return 0


def plot_events(words: argparse.Namespace) -> int:
    """The word `plot events`."""
    from stilfloor import drawing, saved, waves
    from stilfloor.wave_figure import wave_figure

    if not words.datalog and (words.site is not None or words.die is not None):
        raise Fault(USAGE, "--site and --die belong to --datalog")
    last = words.first + 31 if words.last is None else words.last
    code = saved.code_of(words.program)
    gathered = waves.gather(waves.cycles_between(words.program, last, code), [name for _, name in code.signals], words.first)
    if not gathered.starts:
        raise Fault(REFUSED, f"the program has no cycle from {words.first} to {last}", words.program)
    seen = waves.seen_in(words.datalog, code, words.site, words.die) if words.datalog else None
    title = f"{shown(words.program)}, cycles {words.first} to {words.first + len(gathered.starts) - 1}" + (f"\n{seen.words}" if seen else "")
    drawing.store(wave_figure(gathered, title, seen, words.bits), words.out)
    return 0


def plot_shmoo(words: argparse.Namespace) -> int:
    """The word `plot shmoo`."""
    from stilfloor import drawing, shmoo
    from stilfloor.shmoo_figure import shmoo_figure

    if not words.period and not words.strobe:
        raise Fault(USAGE, "plot shmoo needs --period A..B/STEP, --strobe A..B/STEP, or both")
    periods, strobes = (shmoo.steps_of(text, option) if text else [] for text, option in ((words.period, "--period"), (words.strobe, "--strobe")))
    made = shmoo.run(words.program, words.plan, periods, strobes, (words.site, words.die))
    cells = [cell for row in made.cells for cell in row]
    limit = "dies have no delays: what shows is edges, windows and skews of sites alone"
    dies = max(cell.dies for cell in cells)
    drawing.store(shmoo_figure(made, f"{shown(words.program)}, {dies} {'die' if dies == 1 else 'dies'}\n{limit}"), words.out)
    say(f"{sum(not cell.broken and cell.passing == cell.dies for cell in cells)} of {len(cells)} pass; {limit}")
    return 0


def report(words: argparse.Namespace) -> int:
    """The word `report`."""
    from stilfloor.report import Wish, make_report

    if bool(words.datalogs) == bool(words.follow):
        raise Fault(USAGE, "report needs a DATALOG, or several, or else --follow FOLDER")
    if words.every and not words.follow:
        raise Fault(USAGE, "--every belongs to --follow")
    wish = Wish(words.program, words.plan, words.datalogs, words.folder, words.title or "", words.grade or "", words.follow or "", words.every,
                words.jobs, words.pairs)
    for path, page in make_report(wish):
        say(f"{page.lot.count} dies, {page.failing} fail, {page.explained} explained")
        print(path, flush=True)
    return 0


def export(words: argparse.Namespace) -> int:
    """The word `export`."""
    from stilfloor import records
    from stilfloor.export import write_csv, write_json

    with records.datalog(words.datalog) as dies, _target(words.out) as out:
        if words.csv:
            write_csv(dies, out, words.table)
        else:
            write_json(dies, out)
    return 0


@contextlib.contextmanager
def _target(path: str | None) -> Iterator[IO[str]]:
    """A file to be written, or standard output, which stays open."""
    if path is None:
        yield sys.stdout
        sys.stdout.flush()
        return
    with replacing(path) as out:
        yield out


def main(words: list[str] | None = None) -> int:
    """Runs the command with its words; the exit status."""
    for stream, errors in ((sys.stdout, "surrogateescape"), (sys.stderr, "backslashreplace")):
        if isinstance(stream, io.TextIOWrapper):
            # (a name of any bytes is printed as these bytes, and shown where it is told)
            stream.reconfigure(encoding="utf-8", errors=errors)
    told = parser_of().parse_args(words)
    try:
        status = int(told.does(told))
        sys.stdout.flush()
        return status
    except Fault as fault:
        sys.stdout.flush()
        say(fault.told())
        return fault.status
    except ModuleNotFoundError as error:
        if error.name not in PACKAGES:
            raise
        say(Fault(TOOL, f"Python's {error.name} isn't there, and this needs it: `apt-get install {PACKAGES[error.name]}`").told())
        return TOOL
    except BrokenPipeError:
        # (whoever read the output is gone; nothing more can be told there)
        os.dup2(os.open(os.devnull, os.O_WRONLY), sys.stdout.fileno())
        return UNREADABLE
    except KeyboardInterrupt:
        return 130
