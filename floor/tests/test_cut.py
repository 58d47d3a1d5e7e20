"""Dies with more fails than a plan keeps: they are counted, what isn't known of them is grey, and nothing is ranked by it."""

import io
import pathlib
from collections import Counter

import numpy
import pytest
from PIL import Image

from conftest import DATA, Lot, dies_of, needs_yosys
from stilfloor import drawing, failmaps, netlist, plans, saved, tester
from stilfloor.cli import main
from stilfloor.dictionary import nets_of


def lots(alu: Lot, kept: int) -> tuple[str, str, str, str]:
    """A lot of dies with a stuck net each, with so many kept fails and with all of them: their plans and datalogs."""
    rows = []
    for number, net in enumerate(nets_of(alu.bench)):
        rows += [["die", str(number % 4), f"d{number}", alu.bench], ["fault", str(number % 4), f"d{number}", net, str(number % 2)]]
    return *alu.run(rows, kept=kept, name=f"cut{kept}"), *alu.run(rows, kept=1024, name="uncut")


def gathered(alu: Lot, datalog: str) -> failmaps.Gathered:
    """The fails of a datalog by the program's loads and cells."""
    made = failmaps.Gathered(failmaps.axes_of(saved.code_of(alu.stil)))
    for die in dies_of(datalog):
        made.add(die)
    return made


def test_what_is_counted_is_ranked_by_what_is_known_alike(made_alu: Lot) -> None:
    for kept in (4, 12, 40):
        _, cut, _, uncut = lots(made_alu, kept)
        some, every = gathered(made_alu, cut), gathered(made_alu, uncut)
        dies = {die.name: die for die in dies_of(cut)}
        known = [die for die in dies.values() if die.tries[0].fails > len(die.tries[0].kept)]
        assert some.cut.count == len(known) > 3 and every.cut.count == 0
        columns, basis = some.ranked()
        assert basis and every.ranked() == (every.columns, "")
        reached, wanted = min(some.cut.rows), set()
        for die in dies_of(uncut):
            for fail in die.tries[0].kept:
                if every.axes.row(fail.cycle) < reached if "reach" in basis else dies[die.name] not in known:
                    wanted.add((every.axes.column(fail), die.name))
        assert Counter(column for column, _ in wanted) == columns
        assert columns == +columns and (columns or not every.whole)


def test_the_share_of_what_is_not_known_rises_with_the_loads(made_alu: Lot) -> None:
    _, cut, _, uncut = lots(made_alu, 12)
    some = gathered(made_alu, cut)
    unknown = some.unknown(some.rows())
    assert unknown[0] < unknown[-1] == pytest.approx(sum(count for row, count in some.cut.rows.items() if row + 1 < some.rows()) / some.failing)
    assert (numpy.diff(unknown) >= 0).all() and not gathered(made_alu, uncut).unknown(9).any()


def test_the_map_of_a_die_is_grey_behind_its_last_kept_fail(made_alu: Lot) -> None:
    _, cut, _, _ = lots(made_alu, 4)
    some = gathered(made_alu, cut)
    die = next(die for die in dies_of(cut) if some.reach(die) is not None)
    reach = some.reach(die) or 0
    places = {(some.axes.row(fail.cycle), some.axes.column(fail)) for fail in die.tries[0].kept}
    pixels = numpy.array(Image.open(io.BytesIO(failmaps.picture(places, some.rows(), len(some.axes.columns), reach))))
    assert (pixels[reach + 1 :] == failmaps.GREY).all() and not (pixels[: reach + 1] == failmaps.GREY).any() and (pixels == 0).sum() == len(places)


def test_report_and_plot_say_how_many_dies_are_cut_off_and_what_to_set(made_alu: Lot, tmp_path: pathlib.Path,
                                                                       capsys: pytest.CaptureFixture[str]) -> None:
    plan, cut, _, uncut = lots(made_alu, 12)
    some = gathered(made_alu, cut)
    most = max(die.tries[0].fails for die in dies_of(cut))
    note = (f"{some.cut.count} of {some.failing} failing dies have more fails than the 12 that the plan keeps: what lies behind the last kept fail of "
            f"each of them isn't known (grey); raise the plan's number of kept fails, which is the F of its row lot,B,TRIES,F,,, to {most}")
    assert some.cut.note(some.failing) == note
    assert main(["report", made_alu.stil, plan, cut, "-o", str(tmp_path / "cut")]) == 0
    page = (tmp_path / "cut" / "index.html").read_text()
    assert page.count(note.replace("'", "&#x27;")) == 2 and "grey: behind the last kept fail of" in page
    capsys.readouterr()
    assert main(["plot", "fails", cut, "--program", made_alu.stil, "-o", str(tmp_path / "cut.svg")]) == 0
    assert capsys.readouterr().err == note + "\n"
    assert "grey: behind the last kept fail of" in (tmp_path / "cut.svg").read_text()
    assert main(["plot", "fails", uncut, "--program", made_alu.stil, "-o", str(tmp_path / "uncut.svg")]) == 0
    assert capsys.readouterr().err == "" and "grey" not in (tmp_path / "uncut.svg").read_text()


def test_a_lot_that_keeps_the_most_is_said_to(made_alu: Lot) -> None:
    cut = failmaps.Cut()
    die = dies_of(lots(made_alu, 4)[1])[0]
    die.tries[0].fails = 5000
    cut.add(die.tries[0], 3)
    assert cut.note(9).endswith("to 1024, which is the most")


def test_a_map_without_a_program_is_grey_too(made_alu: Lot, tmp_path: pathlib.Path) -> None:
    _, cut, _, _ = lots(made_alu, 4)
    made = failmaps.Gathered(failmaps.axes_of(None))
    for die in dies_of(cut):
        made.add(die)
    drawing.store(drawing.fails_figure(made, "dies"), str(tmp_path / "p.svg"))
    assert "cycles up to" in (tmp_path / "p.svg").read_text() or "of which all fails are kept" in (tmp_path / "p.svg").read_text()


@needs_yosys
@pytest.mark.parametrize("chains, vectors", [(0, 16), (2, 16), (2, 600)])
def test_netlist_keeps_as_many_fails_as_its_loads_can_have(tmp_path: pathlib.Path, chains: int, vectors: int) -> None:
    _, (_, stil, plan) = netlist.make(netlist.Start([str(DATA / "alu.v")], None, chains, vectors), str(tmp_path))
    code = saved.code_of(stil)
    cells = sum(len(chain.cells) for chain in code.executives[0].chains)
    outputs = sum(direction == "Out" and not name.startswith("SO") for direction, name in code.signals)
    assert plans.read_plan(plan).kept == min(1024, vectors * (cells + outputs))
    status, output = tester.run(["lot", stil, plan])
    assert status == 0 and output.count(b"\nfail ") == min(1024, int(output.split(b" fails ")[1].split(b"\n")[0]))
