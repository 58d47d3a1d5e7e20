"""The command `tools/witness`."""

import argparse
import os
import sys
from collections.abc import Callable, Iterator
from concurrent.futures import ProcessPoolExecutor
from typing import TypeVar

from stilfloor.faults import Fault
from stilfloor.testbench import simulator
from stilfloor.witness import lots
from stilfloor.witness.runs import Found, Tally, run_seed

Work = TypeVar("Work")

EXAMPLE = """example:
  tools/witness 40            the seeds 1 to 40
  tools/witness 41-1000       the seeds 41 to 1000
  tools/witness --examples    all lots of examples/
  tools/witness --cases crates/worked_cases/data/lots.txt
"""


def parser_of() -> argparse.ArgumentParser:
    """The parser of the command's words."""
    parser = argparse.ArgumentParser(
        prog="tools/witness", formatter_class=argparse.RawDescriptionHelpFormatter, epilog=EXAMPLE,
        description="Runs dies by iverilog as testbenches and says where `stil lot` prints something else. The exit status is 0 where all agree.")
    parser.add_argument("seeds", nargs="?", type=_seeds, metavar="SEEDS", help="N for the seeds 1 to N, or A-B: a random die for each")
    parser.add_argument("--examples", action="store_true", help="the lots of examples/")
    parser.add_argument("--cases", nargs="+", default=[], metavar="CASES",
                        help="files of worked cases, or folders of folders, each with a lot and its words in WORDS")
    parser.add_argument("--jobs", type=int, default=os.cpu_count() or 1, metavar="N", help="so many at once (all processors)")
    parser.add_argument("--verbose", action="store_true", help="say of each die that was run how it ended")
    return parser


def _seeds(text: str) -> range:
    """The seeds of a word."""
    first, mark, last = text.partition("-")
    if not first.isdigit() or mark and not last.isdigit():
        raise argparse.ArgumentTypeError(f"`{text}` is neither a number of seeds nor two seeds with a `-` between")
    return range(int(first), int(last) + 1) if mark else range(1, int(first) + 1)


def main(words: list[str] | None = None) -> int:
    """Runs the command with its words; the exit status."""
    told = parser_of().parse_args(words)
    if told.seeds is None and not told.examples and not told.cases:
        parser_of().error("say which SEEDS, --examples or --cases")
    try:
        simulator.check_tools()
        tallies = [
            _tally(run_seed, list(told.seeds or ()), told),
            _tally(lots.run_lot, lots.of_examples() if told.examples else [], told),
            _tally(lots.run_lot, list(lots.open_lots(told.cases)), told)]
    except Fault as fault:
        print(fault.told(), file=sys.stderr)
        return fault.status
    return 1 if any(tally.differing for tally in tallies) else 0


def _tally(run: Callable[[Work], list[Found]], work: list[Work], told: argparse.Namespace) -> Tally:
    """Runs all of some work, in several processes, and says what came of it."""
    tally = Tally()
    for found in _all(run, work, max(1, told.jobs)):
        tally.add(found)
        if told.verbose:
            print(found, flush=True)
    if work:
        print("\n".join(tally.lines()), flush=True)
    return tally


def _all(run: Callable[[Work], list[Found]], work: list[Work], jobs: int) -> Iterator[Found]:
    """What comes of each piece of work, in order."""
    if jobs == 1 or len(work) < 2:
        for piece in work:
            yield from run(piece)
        return
    with ProcessPoolExecutor(min(jobs, len(work))) as pool:
        for some in pool.map(run, work):
            yield from some
