"""Pictures that aren't empty, in each format, and the report in a browser without a net."""

import base64
import itertools
import pathlib
import re
import struct
import subprocess

import numpy
import pytest
from matplotlib.image import imread

from conftest import CHROMIUM, EXAMPLES, Lot, dies_of, needs_chromium
from stilfloor import drawing, failmaps, saved, shmoo_figure, tester, wave_figure, waves
from stilfloor.cli import main
from stilfloor.dictionary import nets_of
from stilfloor.report_style import SCRIPT, policy

SCAN = EXAMPLES / "s27scan"
WORDS = {
    "lot": ["lot", str(SCAN / "lot.datalog")],
    "fails": ["fails", str(SCAN / "lot.datalog"), "--program", str(SCAN / "s27scan.stil")],
    "fails of a die": ["fails", str(SCAN / "lot.datalog"), "--site", "2", "--die", "c"],
    "grade": ["grade", str(SCAN / "lot.grade")],
    "events": ["events", str(SCAN / "s27scan.stil"), "--from", "2", "--to", "5"],
}


@pytest.mark.parametrize("kind", WORDS)
def test_a_picture_is_not_empty(tmp_path: pathlib.Path, kind: str) -> None:
    png = str(tmp_path / "p.png")
    assert main(["plot", *WORDS[kind], "-o", png]) == 0
    pixels = imread(png)
    assert pixels.shape[0] > 200 and pixels.shape[1] > 400
    colours = numpy.unique(pixels.reshape(-1, pixels.shape[2]), axis=0)
    inked = (pixels[:, :, :3].min(axis=2) < 0.9).mean()
    assert len(colours) > 8 and 0.005 < inked < 0.9


@pytest.mark.parametrize("ending, front", [("svg", b"<?xml"), ("pdf", b"%PDF")])
def test_pictures_are_svg_and_pdf_too(tmp_path: pathlib.Path, ending: str, front: bytes) -> None:
    path = tmp_path / f"p.{ending}"
    assert main(["plot", *WORDS["lot"], "-o", str(path)]) == 0
    data = path.read_bytes()
    assert data.startswith(front) and len(data) > 3000


def test_other_endings_and_cycles_that_are_not_there_are_refused(tmp_path: pathlib.Path, capsys: pytest.CaptureFixture[str]) -> None:
    assert main(["plot", *WORDS["lot"], "-o", str(tmp_path / "p.gif")]) == 3
    assert "ends with .png, .svg or .pdf" in capsys.readouterr().err
    assert main(["plot", "events", str(SCAN / "s27scan.stil"), "--from", "70", "-o", str(tmp_path / "p.png")]) == 1
    assert "no cycle from 70 to 101" in capsys.readouterr().err


def test_waves_are_those_of_the_events(tmp_path: pathlib.Path) -> None:
    text = (EXAMPLES / "p1.stil").read_text()
    path = tmp_path / "p.stil"
    path.write_text(text.replace("L/H/X; }", "l/h/X; }").replace("01 { '0ns' D/U; }", "01NPZ { '0ns' D/U/N/P/Z; }").replace("V { y=X; }", "V { a=P; y=X; }"))
    found = waves.gather(waves.cycles_between(str(path), 9), ["y", "a"])
    assert list(found.traces) == ["y", "a"] and found.tables == ["w"] * 3
    assert found.traces["a"].drives == [(0, "D"), (100_000_000, "U"), (200_000_000, "U")]
    looks = [(look.at, look.until, look.act, look.cycle) for look in found.traces["y"].looks]
    assert looks == [(40_000_000, 100_000_000, "h", 0), (140_000_000, 200_000_000, "l", 1), (240_000_000, None, "X", 2)] and found.end == 300_000_000


def test_fails_lie_at_their_load_and_cell() -> None:
    gathered = failmaps.Gathered(failmaps.axes_of(saved.code_of(str(SCAN / "s27scan.stil"))))
    for die in dies_of(str(SCAN / "lot.datalog")):
        gathered.add(die)
    assert [failmaps.name_of(key) for key in gathered.axes.columns] == ["c1 f5", "c1 f6", "c1 f7", "G17"]
    assert dict(gathered.places) == {(1, 3): 1, (2, 1): 1} and gathered.axes.by_load and gathered.rows() == 3
    assert gathered.pareto(5) == [("c1 f6", 1), ("G17", 1)]


def test_large_maps_are_gathered_into_small_pictures() -> None:
    places = {(row, row) for row in range(0, 100_000, 97)}
    width, height = struct.unpack(">II", failmaps.picture(places, 100_000, 100_000)[16:24])
    assert width <= 512 and height <= 256


def lot_of(alu: Lot) -> tuple[str, str]:
    """A lot at four sites: dies that pass, that fail, that pass when tried again, that are stopped, and two stuck nets."""
    nets = nets_of(alu.bench)
    rows = [["die", str(number % 4), f"d{number}", alu.bench] for number in range(40)]
    rows += [["fault", str(number % 4), f"d{number}", nets[7 * number % len(nets)], str(number % 2)] for number in range(0, 40, 3)]
    rows += [["fault", str(number % 4), f"d{number}", nets[5 * number % len(nets)], "1"] for number in (6, 9, 12)]
    rows += [["fault", "1", "d25", "zero", "1", "1"], ["stop", "2", "d26", "1", "0"]]
    return alu.run(rows, tries=2, name="report")


@pytest.fixture(scope="module")
def page(made_alu: Lot, tmp_path_factory: pytest.TempPathFactory) -> pathlib.Path:
    """The report of that lot."""
    plan, datalog = lot_of(made_alu)
    folder = tmp_path_factory.mktemp("report")
    assert main(["report", made_alu.stil, plan, datalog, "-o", str(folder), "--title", "ALU lot"]) == 0
    return folder / "index.html"


def test_a_report_has_each_failing_die_and_needs_no_net(page: pathlib.Path, made_alu: Lot) -> None:
    text = page.read_text()
    dies = dies_of(str(made_alu.folder / "report.datalog"))
    failing = [die for die in dies if die.verdict.kind == "fail"]
    for die in failing:
        assert f"site {die.site}, die {die.name}</h3>" in text
    assert len(re.findall(r'<img class="map"', text)) == len(failing) > 8
    assert "die d26<" in text and "stopped 0 plan" in text and "die d25</h3>" not in text
    assert not re.search(r"""(src|href)=["']?https?:|url\(["']?https?:|<link""", text)
    assert re.findall(r"<script[^>]*>", text) == ["<script>"] and f"<script>{SCRIPT}</script>" in text and policy() in text
    maps = [base64.b64decode(code) for code in re.findall(r"data:image/png;base64,([^\"]+)", text) if len(code) > 40]
    assert all(data.startswith(b"\x89PNG") for data in maps[:len(failing)])


@needs_chromium
def test_a_report_is_shown_by_a_browser(page: pathlib.Path, tmp_path: pathlib.Path) -> None:
    shot = tmp_path / "shot.png"
    words = [str(CHROMIUM), "--headless", "--no-sandbox", "--disable-gpu", f"--user-data-dir={tmp_path / 'profile'}", "--host-resolver-rules=MAP * ~NOTFOUND"]
    subprocess.run([*words, f"--screenshot={shot}", "--window-size=1200,1600", page.as_uri()], check=True, capture_output=True, timeout=600)
    pixels = imread(str(shot))
    assert pixels.shape[:2] == (1600, 1200) and (pixels[:, :, :3].min(axis=2) < 0.9).mean() > 0.01
    shown = subprocess.run([*words, "--dump-dom", page.as_uri()], check=True, capture_output=True, text=True, timeout=600).stdout
    assert "<h1>ALU lot</h1>" in shown and shown.count('class="die"') == page.read_text().count('class="die"')


def lab(colour: str, cones: list[list[float]]) -> numpy.ndarray:
    """A colour as an eye without one kind of cones has it, in a space where distances are those that one sees (CIELAB)."""
    levels = numpy.array([int(colour[place : place + 2], 16) for place in (1, 3, 5)]) / 255
    light = numpy.clip(numpy.array(cones) @ numpy.where(levels <= 0.04045, levels / 12.92, ((levels + 0.055) / 1.055) ** 2.4), 0, 1)
    xyz = numpy.array([[0.4124, 0.3576, 0.1805], [0.2126, 0.7152, 0.0722], [0.0193, 0.1192, 0.9505]]) @ light / [0.9505, 1, 1.089]
    x, y, z = numpy.where(xyz > 0.008856, numpy.cbrt(xyz), 7.787 * xyz + 16 / 116)
    return numpy.array([116 * y - 16, 500 * (x - y), 200 * (y - z)])


@pytest.mark.parametrize("colours", [drawing.COLOURS, shmoo_figure.COLOURS, (wave_figure.HELD, wave_figure.FAILED, wave_figure.UNKNOWN)])
def test_colours_are_told_apart_without_red_or_green(colours: tuple[str, ...]) -> None:
    for cones in ([[0.11238, 0.88762, 0], [0.11238, 0.88762, 0], [0.00401, -0.00401, 1]],
                  [[0.29275, 0.70725, 0], [0.29275, 0.70725, 0], [-0.02234, 0.02234, 1]]):
        assert min(numpy.linalg.norm(lab(one, cones) - lab(other, cones)) for one, other in itertools.combinations(colours, 2)) > 15


def test_a_report_of_a_lot_without_a_fail_says_so(s27: Lot, tmp_path: pathlib.Path) -> None:
    plan, datalog = s27.run([["die", "0", "a", s27.bench]])
    assert main(["report", s27.stil, plan, datalog, "-o", str(tmp_path / "r")]) == 0
    assert "No die fails." in (tmp_path / "r" / "index.html").read_text()


def test_a_grade_from_the_program_is_drawn(s27: Lot, tmp_path: pathlib.Path) -> None:
    listing = tmp_path / "grade"
    listing.write_bytes(tester.run(["grade", s27.stil, s27.plan])[1])
    assert main(["plot", "grade", str(listing), "-o", str(tmp_path / "g.svg")]) == 0
    assert "41 of 58" in (tmp_path / "g.svg").read_text()
