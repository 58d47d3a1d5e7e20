"""The words of stilfloor for `tools/fuzz`: what each is given, and one run of it in a process of its own."""
import contextlib
import importlib.util
import io
import json
import os
import pathlib
import pkgutil
import random
import signal
import sys
import traceback
from collections.abc import Callable
from typing import NoReturn

from fuzz_lots import Lot, code_or_text, texts
from fuzz_mutants import Files, changed, mutant, number, rarely, some
from hostile_names import NAMES
from programs import top

sys.path.insert(0, str(top / "floor/src"))
DEBIANS = "/usr/bin/python3"
# a run ends by itself behind so many seconds, if it hasn't before
WAITED = 900
DATA = top / "floor/tests/data"
LIBRARY = ["--liberty", "cells.lib", "--as-written", "--libs", "cells.v"]
TABLE = b"CK,a,b,y\n0,0,1,X\n1,0,1,L\n0,1,1,X\n1,1,1,H\n"
ROWS = json.dumps([{"CK": 0, "a": 1, "y": "X"}, {"CK": 1, "a": 1, "y": "H"}]).encode()
# the words of a run, its files, and which of them may be mutants
Run = tuple[list[str], Files, list[str]]


def name() -> str:
    """A name that a word may be given."""
    return random.choice([*NAMES, "a", "CK", "ck", "G9", "d0", "good", "c", "top", "n.bench"])


def lot_words(lot: Lot) -> Run:
    """A program, its plan and its datalog."""
    files = {**code_or_text(lot), "p.log": lot.made["p.log"]}
    return ["p.stil", "p.csv", "p.log"], files, [*files, "p.log", "p.log"]


def of_lot(*words: str) -> Callable[[Lot], Run]:
    """Words in front of a program and its plan."""
    def made(lot: Lot) -> Run:
        files = code_or_text(lot)
        return [*words, "p.stil", "p.csv"], files, list(files)
    return made


def netlist(lot: Lot) -> Run:
    """Verilog, in cells now and then."""
    is_cells = random.random() < 0.4
    source = random.choice(["s27cells.v"] if is_cells else ["alu.v", "counter.v", "mac.v", "packed.sv"])
    names = [source, *(["cells.lib", "cells.v"] if is_cells else [])]
    files = {path: (DATA / path).read_bytes() for path in names}
    words = ["netlist", source, "-o", "out", *(LIBRARY if is_cells else []), *some(["--hold", "RN=1"])]
    words += some(["--scan", "1"], ["--scan", "2"]) + some(["--pins"], ["--vectors", "3"]) + some(["--unchecked"], ["--equiv"])
    return words + rarely(["--top", name()], ["--hold", f"{name()}={number()}"], ["--scan", number()]), files, names


def learn(lot: Lot) -> Run:
    """The word `learn`."""
    words, files, names = of_lot("learn")(lot)
    return words + some(["-o", "out.stil"]), files, names


def fit(lot: Lot) -> Run:
    """A text of another dialect."""
    files = {"p.stil": random.choice([*texts(), lot.files["p.stil"]]), "more.inc": lot.files["p.stil"]}
    words = ["fit", "p.stil", "-o", "out.stil", *some(["--unit", "ns"], ["--include", "."]), *rarely(["--include", name()])]
    return words, files, ["p.stil"]


def testbench(lot: Lot) -> Run:
    """A testbench, run most of the time."""
    words, files, names = of_lot("testbench")(lot)
    words += ["-o", "out", *some(["--run"], ["--run"], ["--waves"], ["--waves"]), *rarely(["--net", name(), "--waves"])]
    return words + rarely(["--site", number()], ["--die", name()], ["--site", "1"]), files, names


def diagnose(lot: Lot) -> Run:
    """The word `diagnose`."""
    words, files, names = lot_words(lot)
    return ["diagnose", *words, "--jobs", "1", "--pairs", "2", *some(["--json"]), *rarely(["--most", number()], ["--die", name()])], files, names


def lint(lot: Lot) -> Run:
    """A text, a plan, or both; a text of another dialect now and then."""
    files = dict(lot.files)
    if random.random() < 0.3:
        files["p.stil"] = random.choice(texts())
    words = random.choice([["p.stil"], ["--plan", "p.csv"], ["p.stil", "--plan", "p.csv"]])
    return ["lint", *words], files, list(files)


def plot(lot: Lot) -> Run:
    """A picture of a kind."""
    words, files, names = lot_words(lot)
    files["p.grade"] = lot.made["p.grade"]
    kind = random.choice(["lot", "fails", "grade", "events", "shmoo"])
    one = rarely(["--site", number()], ["--die", name()])
    steps = [f"{random.choice(['40', '0', '90', number()])}ns..{random.choice(['50', '120', number()])}ns/{random.choice(['10', '40', number()])}ns"]
    given = {"lot": ["p.log"], "fails": ["p.log", *some(["--program", "p.stil"]), *one], "grade": ["p.grade"],
             "events": ["p.stil", *some(["--from", number()], ["--to", number()], ["--bits"], ["--datalog", "p.log", *one])],
             "shmoo": ["p.stil", "p.csv", *random.choice([["--period", *steps], ["--strobe", *steps]]), *one]}
    return ["plot", kind, *given[kind], "-o", random.choice(["p.svg", "p.svg", "p.png", "p.pdf", "p.x"])], files, [*names, "p.grade"]


def report(lot: Lot) -> Run:
    """A report, of a working folder in parts now and then."""
    words, files, names = lot_words(lot)
    files |= {"p.grade": lot.made["p.grade"], "farm/plan.csv": files["p.csv"], "farm/said": b'{"kind": "lot", "parts": 2}',
              "farm/1/text": lot.made["1.log"], "farm/1/status": b"0\n", "farm/2/text": lot.made["2.log"], "farm/2/status": b"0\n"}
    follows = random.random() < 0.3
    names += [path for path in files if path.startswith("farm/")] if follows else ["p.grade"]
    words = [*words[:2], "--follow", "farm"] if follows else [*words, *some(["p.log"]), *some(["--grade", "p.grade"])]
    return ["report", *words, "-o", "out", "--jobs", "1", "--pairs", "2", *some(["--title", name()])], files, names


def export(lot: Lot) -> Run:
    """A table of a datalog."""
    form = random.choice([["--json"], ["--csv"], ["--csv", "--table", "tries"], ["--csv", "--table", "dies"]])
    return ["export", "p.log", *form, *some(["-o", "out.csv"])], {"p.log": lot.made["p.log"]}, ["p.log"]


def atpg(lot: Lot) -> Run:
    """A scan test of few loads."""
    net = random.choice(lot.nets)
    words = ["atpg", net, "p.csv", "--program", "p.stil", "--loads", "2", "--seconds", "1", "-o", "out.stil", *some(["--compact"], ["--resume"])]
    return words, dict(lot.files), list(lot.files)


def coverage(lot: Lot) -> Run:
    """Coverage, of a grade that is there now and then."""
    words, files, names = of_lot("coverage")(lot)
    files["p.grade"] = lot.made["p.grade"]
    more = some(["--grade", "p.grade"], ["--csv"], ["--json"], ["--plot", "p.svg"])
    return [*words, "--seconds", "1", *more], files, [*names, *(["p.grade"] if "--grade" in more else [])]


def from_vcd(lot: Lot) -> Run:
    """A dump."""
    net = random.choice(lot.nets)
    words = ["from-vcd", "dump.vcd", "--clock", random.choice(["CK", "ck", "a"]), *some(["-o", "out.stil"])]
    words += some(["--period", "100ns"], ["--strobe", "40ns"], ["--netlist", net])
    words += rarely(["--in", name()], ["--out", name()], ["--scope", name()], ["--period", f"{number()}ns"])
    return words, {net: lot.files[net], "dump.vcd": lot.made["dump.vcd"]}, [net, "dump.vcd"]


def vectors(lot: Lot) -> Run:
    """A table."""
    table = random.choice(["t.csv", "t.json"])
    words = ["vectors", table, "--clock", "CK", *some(["--period", "100ns"], ["--out", "y"])]
    return words + some(["-o", "out.stil"]) + rarely(["--in", "a", name()], ["--clock", name()]), {"t.csv": TABLE, "t.json": ROWS}, [table]


def plan_time(lot: Lot) -> Run:
    """How long a lot or a grade will take."""
    words, files, names = of_lot("plan-time")(lot)
    return words + some(["--grade"], ["--processors", number()]), files, names


def asked_by_editor(text: bytes) -> list[tuple[str, object]]:
    """What an editor says of a text, each with its method."""
    uri: dict[str, object] = {"uri": f"file:///{name()}".encode(errors="replace").decode(), "version": 1}
    position = {"line": random.randrange(40), "character": random.randrange(30)}
    place: dict[str, object] = {"textDocument": uri, "position": position}
    edit = {"range": {"start": position, "end": {"line": 20, "character": 0}}, "text": mutant(text)[:99].decode("latin-1")}
    opened = {"textDocument": uri | {"text": text.decode("latin-1"), "languageId": "stil"}}
    asked: list[tuple[str, object]] = [("initialize", {}), ("textDocument/didOpen", opened), ("textDocument/hover", place)]
    asked.append(("textDocument/didChange", {"textDocument": uri, "contentChanges": [edit]}))
    asked += [(f"textDocument/{word}", place) for word in ("definition", "documentSymbol", "completion", "hover", "didSave", "didClose")]
    return [*asked, ("shutdown", None), ("exit", None)]


def server(lot: Lot) -> Run:
    """What an editor says, which stands in the file `input`."""
    text = random.choice([*texts(), lot.files["p.stil"]])
    asked = asked_by_editor(mutant(text) if random.random() < 0.5 else text)
    said = [{"jsonrpc": "2.0", "id": count, "method": method, "params": params} for count, (method, params) in enumerate(asked)]
    bodies = [mutant(body) if random.random() < 0.1 else body for body in (json.dumps(message).encode() for message in said)]
    content = b"".join(b"Content-Length: %d\r\n\r\n" % len(body) + body for body in bodies)
    return ["server"], {"input": content}, ["input"] if random.random() < 0.2 else []


# each word, and how often it has its turn beside the others
WORDS: dict[Callable[[Lot], Run], int] = {
    netlist: 4, learn: 8, fit: 16, testbench: 8, diagnose: 12, lint: 16, plot: 12, report: 8, export: 12, atpg: 4, coverage: 4, from_vcd: 12, vectors: 12,
    plan_time: 1, server: 4}


def load() -> bool:
    """Loads the package once, with all that it takes from elsewhere; whether that is there, in this Python or in Debian's."""
    if not importlib.util.find_spec("numpy"):
        if os.path.realpath(sys.executable) != os.path.realpath(DEBIANS) and os.access(DEBIANS, os.X_OK):
            os.execv(DEBIANS, [DEBIANS, *sys.argv])
        return False
    os.environ.update(MPLBACKEND="agg", OPENBLAS_NUM_THREADS="1")
    import stilfloor
    for found in pkgutil.walk_packages(stilfloor.__path__, "stilfloor."):
        if "__main__" not in found.name:
            importlib.import_module(found.name)
    for module in ("matplotlib.backends.backend_svg", "matplotlib.backends.backend_agg", "matplotlib.backends.backend_pdf", "PIL.Image"):
        with contextlib.suppress(ModuleNotFoundError):
            importlib.import_module(module)
    return True


def command(lot: Lot) -> tuple[list[str], Files]:
    """The words of a run, and its files, of which one or two are mutants most of the time."""
    word, = random.choices(list(WORDS), list(WORDS.values()))
    words, files, names = word(lot)
    return words, files if random.random() < 0.15 else changed(files, names)


def renamed(words: list[str], files: Files) -> tuple[list[str], Files]:
    """A run of which one file that its words name has another name now and then."""
    told = [path for path in files if path in words and not path.endswith((".bench", ".inc"))]
    if not told or random.random() < 0.7:
        return words, files
    old = random.choice(told)
    other = random.choice(NAMES) + pathlib.Path(old).suffix
    made = {other if path == old else path: content for path, content in files.items()}
    return [f"./{other}" if word == old else word for word in words], made


def child(words: list[str], room: pathlib.Path, limited: Callable[[], None]) -> NoReturn:
    """Is the run: a process of its own, whose words stand before its files."""
    status = 70
    try:
        os.setpgid(0, 0)
        os.chdir(room)
        for place, (path, how) in enumerate((("input" if "server" in words[:1] else os.devnull, os.O_RDONLY),
                                             ("../printed", os.O_WRONLY | os.O_CREAT | os.O_TRUNC), ("../told", os.O_WRONLY | os.O_CREAT | os.O_TRUNC))):
            os.dup2(os.open(path, how), place)
        sys.stdin, sys.stdout, sys.stderr = (io.TextIOWrapper(open(place, "rb" if place == 0 else "wb", closefd=False)) for place in range(3))
        signal.signal(signal.SIGTERM, signal.SIG_DFL)
        signal.alarm(WAITED)
        limited()
        from stilfloor.cli import main
        status = main(words)
    except SystemExit as ended:
        status = ended.code if isinstance(ended.code, int) else 1
    except BaseException:
        traceback.print_exc()
    finally:
        with contextlib.suppress(Exception):
            sys.stdout.flush()
        with contextlib.suppress(Exception):
            sys.stderr.flush()
        os._exit(status)


def ran(words: list[str], room: pathlib.Path, limited: Callable[[], None]) -> int:
    """The status of a run; a signal that ended it is below 0. What it leaves of processes is ended."""
    number = os.fork()
    if number == 0:
        child(words, room, limited)
    _, status = os.waitpid(number, 0)
    with contextlib.suppress(ProcessLookupError, PermissionError):
        os.killpg(number, signal.SIGKILL)
    return os.waitstatus_to_exitcode(status)
