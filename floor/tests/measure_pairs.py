"""Measures pairs of stuck nets: of dies with two nets stuck that no single net explains, in how many do both stand in the told pairs.

Usage: measure_pairs.py FOLDER [N]. Takes N (50) such dies of the ALU and of a multiplier with sum, draws nets and values at random, and prints
for each design how many were found, how many pairs were told, and seconds of a processor.
"""

import pathlib
import random
import sys
import time

from stilfloor import learn, netlist, plans, records, tester
from stilfloor.dictionary import Die, Suspect, dictionary_of, nets_of
from stilfloor.pairs import Pairing

DATA = pathlib.Path(__file__).parent / "data"


def prepare(design: str, folder: pathlib.Path) -> Die:
    """A program of a design with learnt values, and its kind of die."""
    _, (bench, stil, plan_file) = netlist.make(netlist.Start([str(DATA / f"{design}.v")], None, 2, 24), str(folder), True)
    learnt = folder / f"{design}.learnt.stil"
    learnt.write_text(learn.learn(stil, plan_file).text, encoding="latin-1")
    plan = plans.read_plan(plan_file)
    return Die(str(learnt), bench, plan, [], plan.kept)


def doubles(die: Die, folder: pathlib.Path, count: int) -> list[tuple[tuple[Suspect, Suspect], records.Try]]:
    """Dies with two nets stuck, drawn at random, with their tries."""
    choice, nets = random.Random(11), nets_of(die.netlist)
    twos = []
    rows = [["lot", "256", "1", str(die.kept)], *die.plan.binding()]
    for number in range(count):
        first, second = choice.sample(nets, 2)
        twos.append((Suspect(first, choice.randrange(2)), Suspect(second, choice.randrange(2))))
        rows.append(["die", "0", f"d{number}", die.netlist])
        rows += [["fault", "0", f"d{number}", suspect.net, str(suspect.value)] for suspect in twos[-1]]
    plan = folder / "doubles.csv"
    plan.write_text(plans.write_rows(rows))
    output = tester.run(["lot", die.program, str(plan)])[1]
    return list(zip(twos, (made.tries[0] for made in records.Datalog(output.decode("latin-1").splitlines(True)))))


def measure(design: str, folder: pathlib.Path, count: int) -> None:
    """Prints the line of a design."""
    die = prepare(design, folder)
    made = dictionary_of(die, 4)
    pairing = Pairing(die, made)
    tried = [(two, attempt) for two, attempt in doubles(die, folder, 6 * count) if attempt.fails and made.same(attempt) is None][:count]
    found = told = 0
    begin = time.process_time()
    for two, attempt in tried:
        answer = pairing.find(attempt)
        sets = [(set(pair.first), set(pair.second)) for pair in answer.pairs]
        found += any(two[0] in first and two[1] in second or two[1] in first and two[0] in second for first, second in sets)
        told += bool(sets)
        print(f"  {two[0]}, {two[1]}: {attempt.fails} fails, {answer.count} pairs in {len(sets)} lines, {answer.tried} tried", file=sys.stderr)
    print(f"{design}: of {len(tried)} dies both nets stand in the told pairs of {found}, some pair is told of {told}; "
          f"{time.process_time() - begin:.1f} seconds beside the lots", flush=True)


if __name__ == "__main__":
    for name in ("alu", "mac"):
        measure(name, pathlib.Path(sys.argv[1]), int(sys.argv[2]) if len(sys.argv) > 2 else 50)
