"""Measures a report: 4,096 dies at sixteen sites with 256 kept fails each, as many as a plan may keep, of the ALU with two scan chains.

Usage: measure_report.py FOLDER. Each die has a break of a chain and up to two stuck nets more, so that few fail alike and most are
explained by no single net. Prints seconds and the largest memory.
"""

import pathlib
import random
import resource
import subprocess
import sys
import time

from stilfloor import learn, netlist, plans, tester
from stilfloor.dictionary import nets_of

DATA = pathlib.Path(__file__).parent / "data"


def prepare(folder: pathlib.Path) -> list[str]:
    """The program, the plan and the datalog."""
    _, (bench, stil, plan_file) = netlist.make(netlist.Start([str(DATA / "alu.v")], None, 2, 600), str(folder), True)
    learnt = folder / "learnt.stil"
    learnt.write_text(learn.learn(stil, plan_file).text, encoding="latin-1")
    nets, bits = nets_of(bench), random.Random(7)
    binding = plans.read_plan(plan_file).binding()
    rows = [["lot", "4096", "1", "256"], *binding]
    for number in range(4096):
        site, name = str(number % 16), f"d{number}"
        rows.append(["die", site, name, bench])
        stuck = {bits.choice(["SE", "SI1", "SI2"]): "0"} | {net: bits.choice("01") for net in bits.sample(nets, 2)}
        rows += [["fault", site, name, net, value] for net, value in stuck.items()]
    plan, datalog = folder / "lot.csv", folder / "lot.datalog"
    plan.write_text(plans.write_rows(rows))
    datalog.write_bytes(tester.run(["lot", str(learnt), str(plan)])[1])
    return [str(learnt), str(plan), str(datalog)]


def main() -> None:
    """Prepares, and runs the report in a process of its own."""
    folder = pathlib.Path(sys.argv[1])
    words = prepare(folder)
    lines = sum(1 for line in open(words[2], encoding="latin-1") if line.startswith("fail "))
    before = resource.getrusage(resource.RUSAGE_CHILDREN)
    begin = time.monotonic()
    subprocess.run([sys.executable, "-m", "stilfloor", "report", *words, "-o", str(folder / "report")], check=True)
    after = resource.getrusage(resource.RUSAGE_CHILDREN)
    busy = after.ru_utime + after.ru_stime - before.ru_utime - before.ru_stime
    print(f"{lines} fails, {time.monotonic() - begin:.1f} seconds, {busy:.1f} of them of a processor, at most {after.ru_maxrss / 1024:.0f} MiB")


if __name__ == "__main__":
    main()
