"""The word `atpg`."""

import os
import sys
import tempfile
import time

from stilfloor.atpg.setting import setting_of
from stilfloor.atpg.solver import check_tools
from stilfloor.atpg.work import Wish, Work
from stilfloor.faults import REFUSED, Fault
from stilfloor.names import replacing


def make_test(bench: str, plan: str, program: str | None, wish: Wish) -> list[str]:
    """Makes a scan test and writes it; the lines that say what isn't found, and last the file."""
    check_tools()
    if program is None:
        program = bench.removesuffix(".bench") + ".stil"
    if not os.path.exists(program):
        raise Fault(REFUSED, "the netlist's STIL text isn't there: name it by --program", program)
    began = time.monotonic()
    setting = setting_of(bench, plan, program)
    with tempfile.TemporaryDirectory() as room:
        work = Work(setting, wish, room)
        text = work.run()
    with replacing(wish.out, "latin-1") as out:
        out.write(text)
    work.forget()
    counts = work.counts()
    lines = []
    for fault in work.faults:
        verdict = work.done.verdicts[work.classes.of(fault)]
        if verdict == "refuted":
            lines.append(f"refuted {fault[0]} {fault[1]}")
        elif verdict != "found":
            lines.append(f"open {fault[0]} {fault[1]}: {verdict}")
    print(f"{counts['found']:,} of {len(work.faults):,} faults are found ({len(work.heads):,} classes), {counts['refuted']:,} refuted, "
          f"{counts['open']:,} open; {len(work.done.loads)} loads, {time.monotonic() - began:.1f} seconds", file=sys.stderr)
    return [*lines, wish.out]
