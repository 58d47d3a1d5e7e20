"""The page about lots: what it is made of, what it counts, what unfolds, and what its script does in a browser."""

import html
import json
import os
import pathlib
import re
import shutil
import subprocess
from collections import Counter
from collections.abc import Iterator

import pytest

from conftest import CHROMIUM, EXAMPLES, TOP, Lot, dies_of, needs_chromium
from stilfloor import plans, report_style, saved, tester
from stilfloor.belonging import Cycles
from stilfloor.cli import main
from stilfloor.dictionary import nets_of

SCAN = EXAMPLES / "s27scan"


def systematic(alu: Lot, name: str, every: int) -> tuple[str, str]:
    """A lot of 48 dies at eight sites: each so-many-th has `zero` stuck, some break a chain at site 5, some have a net of their own."""
    nets = nets_of(alu.bench)
    rows = [["die", str(number % 8), f"d{number}", alu.bench] for number in range(48)]
    for number in range(48):
        site, die = str(number % 8), f"d{number}"
        if number % every == 0:
            rows.append(["fault", site, die, "zero", "1"])
        elif number % 8 == 5:
            rows.append(["fault", site, die, "left[2]_shift", "0"])
        elif number % 11 == 1:
            rows.append(["fault", site, die, nets[5 * number % len(nets)], "1"])
        elif number % 13 == 2:
            rows += [["fault", site, die, "n_17", "0"], ["fault", site, die, "n_30", "1"]]
        elif number % 17 == 3:
            rows.append(["fault", site, die, "zero", "1", "1"])
    return alu.run(rows, tries=2, name=name)


@pytest.fixture(scope="module")
def two_lots(made_alu: Lot, tmp_path_factory: pytest.TempPathFactory) -> tuple[pathlib.Path, str, list[str]]:
    """The page of two lots with a grade, their plan and their datalogs."""
    grade = made_alu.folder / "grade"
    plan, first = systematic(made_alu, "lot1", 9)
    grade.write_bytes(tester.run(["grade", made_alu.stil, plan])[1])
    second = systematic(made_alu, "lot2", 3)[1]
    folder = tmp_path_factory.mktemp("lots")
    assert main(["report", made_alu.stil, plan, first, second, "-o", str(folder), "--grade", str(grade)]) == 0
    return folder / "index.html", plan, [first, second]


def seen(text: str) -> str:
    """What a reader sees of markup, on one line."""
    return html.unescape(" ".join(re.sub(r"<[^>]+>", " ", text).split()))


def section(text: str, name: str) -> str:
    """A section of the page."""
    return text.split(f'<h2 id="{name}">')[1].split("<h2 ")[0]


def test_it_says_what_it_is_made_of_and_its_links_lead_somewhere(two_lots: tuple[pathlib.Path, str, list[str]], made_alu: Lot) -> None:
    text = two_lots[0].read_text()
    for file in (made_alu.stil, two_lots[1], *two_lots[2]):
        total = subprocess.run(["sha256sum", file], capture_output=True, text=True, check=True).stdout[:16]
        assert f"<code>{file}</code></td><td class=\"left\"><code>{total}</code>" in text
    assert re.search(r"Made on \d{4}-\d\d-\d\d \d\d:\d\d UTC by stilfloor \d", text)
    assert set(re.findall(r'href="#([\w]+)"', text)) <= set(re.findall(r' id="(\w+)"', text))
    marks = re.findall(r' id="(d\d+)"', text)
    assert len(set(marks)) == len(marks) == text.count("<tr data-die=")


def test_first_pass_yield_stands_beside_the_final_one(two_lots: tuple[pathlib.Path, str, list[str]]) -> None:
    text = two_lots[0].read_text()
    every = [dies_of(file) for file in two_lots[2]]
    dies = [die for lot in every for die in lot]
    passing = sum(die.verdict.kind == "pass" for die in dies)
    first = sum(die.tries[0].verdict.kind == "pass" for die in dies)
    assert passing > first > 0
    assert f"{passing} of {len(dies)} dies pass, {100 * passing / len(dies):.1f} percent; in their first try {first} do" in text
    again = [f"lot {number}, site {die.site}, die {die.name}" for number, lot in enumerate(every, 1) for die in lot
             if die.verdict.kind == "pass" and len(die.tries) > 1]
    assert all(name in section(text.replace("</nav>", '<h2 id="top">'), "top") for name in again) and len(again) == passing - first
    for lot in every:
        share = 100 * sum(die.verdict.kind == "pass" for die in lot) / len(lot)
        assert f"<td>{share:.1f}</td>" in section(text, "lots")


def test_test_time_is_that_of_the_cycles_that_ran(two_lots: tuple[pathlib.Path, str, list[str]], made_alu: Lot) -> None:
    cycles = Cycles(saved.code_of(made_alu.stil))
    dies = [die for file in two_lots[2] for die in dies_of(file)]
    ran = [sum(attempt.cycles for attempt in die.tries) for die in dies]
    times = [sum(cycles.begins(attempt.cycles) for attempt in die.tries) for die in dies]
    assert len({attempt.cycles for die in dies for attempt in die.tries}) == 1 and max(ran) == 2 * min(ran)
    table = seen(section(two_lots[0].read_text(), "time"))
    assert f"cycles a die {sum(ran) / len(ran):,.0f} {min(ran):,} {max(ran):,}" in table
    first = next(die for die in dies if die.verdict.kind == "fail")
    cycles_of, time = sum(attempt.cycles for attempt in first.tries), sum(cycles.begins(attempt.cycles) for attempt in first.tries)
    assert f"fails; {cycles_of:,} cycles, {time / 1e9:,.3f} us</p>" in two_lots[0].read_text().replace(" are kept;", ";").replace(", of which 64;", ";")
    assert f"{sum(times) / len(times) / 1e9:,.3f} us {min(times) / 1e9:,.3f} us {max(times) / 1e9:,.3f} us" in table


def test_times_follow_the_periods_of_tables_and_executives() -> None:
    cycles = Cycles(saved.code_of(str(EXAMPLES / "two_timings" / "pipe.stil")))
    listing = tester.run(["cycles", str(EXAMPLES / "two_timings" / "pipe.stil")])[1].decode().splitlines()
    starts = [int(line.split()[1]) for line in listing if line[0].isdigit()]
    assert [cycles.begins(number) for number in range(len(starts))] == starts
    assert cycles.begins(len(starts)) == int(listing[-1].split()[2])


def test_coverage_is_that_of_the_grade_and_another_one_is_refused(two_lots: tuple[pathlib.Path, str, list[str]], made_alu: Lot, tmp_path: pathlib.Path,
                                                                  capsys: pytest.CaptureFixture[str]) -> None:
    found, of = re.findall(r"(\d+) of (\d+) stuck-at faults are found by the program", two_lots[0].read_text())[0]
    assert (made_alu.folder / "grade").read_text().endswith(f"faults {of} found {found}\n")
    words = ["report", made_alu.stil, two_lots[1], two_lots[2][0], "-o", str(tmp_path / "r")]
    assert main([*words, "--grade", str(SCAN / "lot.grade")]) == 1
    assert f"{SCAN / 'lot.grade'}:2:1: error: this can't be a grade of the plan" in capsys.readouterr().err


def test_suspects_are_ranked_over_dies_with_their_sites(two_lots: tuple[pathlib.Path, str, list[str]]) -> None:
    text = section(two_lots[0].read_text(), "suspects")
    rows = re.findall(r'<td data-value="(\d+)">\d+</td><td>([\d.]+)</td>(.*?)</tr>', text)
    counts = [int(count) for count, _, _ in rows]
    assert counts == sorted(counts, reverse=True) and len(counts) > 4
    sites = Counter(int(number) % 8 for every in (9, 3) for number in range(0, 48, every))
    assert counts[0] == sum(sites.values()) and "zero stuck at 1" in rows[0][2]
    assert ", ".join(f"{site} ({count})" for site, count in sorted(sites.items())) in seen(rows[0][2])


def test_what_stands_at_few_sites_alone_is_told_with_its_dies_there(two_lots: tuple[pathlib.Path, str, list[str]]) -> None:
    text = seen(section(two_lots[0].read_text(), "few"))
    assert re.search(r"\d+ class chain c1 at or before left\[2\] .* 5 \(\d+ of 12\) first die", text)


def test_a_broken_chain_is_told_as_one(two_lots: tuple[pathlib.Path, str, list[str]], made_alu: Lot, capsys: pytest.CaptureFixture[str]) -> None:
    text = two_lots[0].read_text()
    assert "<code>chain c1 at or before left[2]</code> <details><summary>0 leaves it: 1 stuck net</summary>" in text
    assert main(["diagnose", made_alu.stil, two_lots[1], two_lots[2][0], "--site", "5"]) == 0
    assert "a broken scan chain explains it\n  1.000 chain c1 at or before left[2] (0 leaves it; 1 stuck net)\n" in capsys.readouterr().out


def test_the_trend_tells_what_a_class_explains_lot_by_lot(two_lots: tuple[pathlib.Path, str, list[str]]) -> None:
    assert re.search(r"zero stuck at 1 6 16", seen(section(two_lots[0].read_text(), "lots")))


def test_names_behind_the_first_ones_unfold(two_lots: tuple[pathlib.Path, str, list[str]], made_alu: Lot, tmp_path: pathlib.Path) -> None:
    from stilfloor.report_parts import folded

    told = folded([f"n{number}" for number in range(26)])
    assert "<summary>and 18 more</summary>, n8, n9, " in told and told.count("n25") == 1


def test_maps_have_the_borders_of_chains_where_names_have_no_room() -> None:
    from stilfloor.drawing import map_figure
    from stilfloor.failmaps import Axes, Gathered

    columns = {(f"c{place // 100}", f"f{place}") if place < 300 else ("", f"o{place}"): place for place in range(340)}
    gathered = Gathered(Axes(columns, None, 20))
    axes = map_figure(gathered, "map").axes[0]
    assert [label.get_text() for label in axes.get_xticklabels()] == ["c0", "c1", "c2", "outputs"]
    assert [line.get_xdata()[0] for line in axes.lines] == [99.5, 199.5, 299.5]
    few = map_figure(Gathered(Axes(dict(list(columns.items())[290:310]), None, 20)), "map").axes[0]
    assert len(few.get_xticklabels()) == 20 and few.get_xticklabels()[0].get_text() == "c2 f290"


def test_a_die_counts_once_where_places_are_gathered() -> None:
    from stilfloor.failmaps import Axes, Gathered
    from stilfloor.records import Die, Fail, Try

    gathered = Gathered(Axes({("", f"o{place}"): place for place in range(64)}, None, 64), 16)
    fails = [Fail(cycle, 0, f"o{place}", "L", "1") for cycle in range(64) for place in range(64)]
    gathered.add(Die(0, "a", [Try(1, 64, len(fails), fails)]))
    assert gathered.matrix().shape == (4, 4) and (gathered.matrix() == 1).all() and not gathered.is_sum


TRY_SCRIPT = """
<script>
addEventListener("load", async () => {
await document.querySelector("img.map").decode();
const told = {}, form = document.getElementById("filter"), shown = () => [...document.querySelectorAll("#rows tr")].filter((row) => !row.hidden);
const set = (name, value) => { form.elements[name].value = value; form.dispatchEvent(new Event("input")); };
told.all = shown().length;
set("site", "5"); told.site = [shown().length, [...document.querySelectorAll(".die")].filter((die) => !die.hidden).length]; set("site", "");
set("suspect", "zero stuck at 1"); told.suspect = shown().length; set("suspect", "");
const heads = [...document.querySelectorAll("#dies ~ table.sorted th")], fails = heads.find((head) => head.textContent === "fails");
const column = () => shown().map((row) => Number(row.cells[heads.indexOf(fails)].textContent));
fails.click(); told.rising = column(); fails.click(); told.falling = column();
const over = (element, x, y) => {
  const box = element.getBoundingClientRect();
  element.dispatchEvent(new MouseEvent("mousemove", { bubbles: true, clientX: box.left + x * box.width, clientY: box.top + y * box.height }));
  return document.getElementById("tip").textContent;
};
const whole = document.getElementById("all"), [left, top_, right, bottom] = JSON.parse(whole.dataset.box);
told.whole = over(whole.querySelector("svg"), left + (right - left) * 0.01, top_ + (bottom - top_) * 0.98);
told.map = over(document.querySelector("img.map"), 0.999, 0.001);
told.wide = [...document.querySelectorAll("body *")].filter((one) => one.getBoundingClientRect().right > innerWidth + 1 && !one.closest("svg"))
  .map((one) => one.outerHTML.slice(0, 99));
const width = (one) => one.getBoundingClientRect().width;
told.folded = [...document.querySelectorAll("td details")].map((one) => width(one) < width(one.querySelector("summary")) + 2);
told.width = [innerWidth, document.documentElement.scrollWidth];
parent.postMessage(JSON.stringify(told), "*");
});
</script>
"""


FRAME = """<!doctype html><html><body><iframe src="t.html" width="420" height="2000" style="border:0"></iframe>
<script>addEventListener("message", (event) => { document.documentElement.dataset.told = event.data; });</script></body></html>
"""


@pytest.fixture(scope="module")
def in_browser(two_lots: tuple[pathlib.Path, str, list[str]], tmp_path_factory: pytest.TempPathFactory) -> Iterator[dict]:
    """What the page does in a browser of 420 pixels' width, where a script more is let run."""
    folder = tmp_path_factory.mktemp("browser")
    text = two_lots[0].read_text()
    policy = f'<meta http-equiv="Content-Security-Policy" content="{report_style.policy()}">'
    assert policy in text
    (folder / "t.html").write_text(text.replace(policy, "").replace("</body>", TRY_SCRIPT + "</body>"))
    (folder / "frame.html").write_text(FRAME)
    words = [str(CHROMIUM), "--headless", "--no-sandbox", "--disable-gpu", "--hide-scrollbars", f"--user-data-dir={folder / 'profile'}",
             "--host-resolver-rules=MAP * ~NOTFOUND", "--virtual-time-budget=20000", "--dump-dom", (folder / "frame.html").as_uri()]
    shown = subprocess.run(words, check=True, capture_output=True, text=True, timeout=600).stdout
    yield json.loads(html.unescape(re.findall(r'data-told="([^"]*)"', shown)[0]))


@needs_chromium
def test_dies_are_chosen_by_site_and_suspect_and_sorted(in_browser: dict, two_lots: tuple[pathlib.Path, str, list[str]]) -> None:
    failing = [die for file in two_lots[2] for die in dies_of(file) if die.verdict.kind != "pass"]
    at_five = sum(die.site == 5 for die in failing)
    assert in_browser["all"] == len(failing) and in_browser["site"] == [at_five, at_five]
    assert 0 < in_browser["suspect"] < len(failing)
    assert in_browser["rising"] == sorted(die.tries[-1].fails for die in failing) == in_browser["falling"][::-1]


@needs_chromium
def test_names_are_folded_until_they_are_asked_for(in_browser: dict) -> None:
    assert len(in_browser["folded"]) > 5 and all(in_browser["folded"])


@needs_chromium
def test_the_pointer_tells_cell_load_and_dies(in_browser: dict, made_alu: Lot) -> None:
    code = saved.code_of(made_alu.stil)
    chain = code.executives[0].chains[0]
    assert re.fullmatch(rf"{re.escape(chain.name)} {re.escape(chain.cells[0])}, load \d+: (no die|1 die|\d+ dies)", in_browser["whole"])
    assert re.fullmatch(r"\S+, load 0: (fails|no fail|not known)", in_browser["map"])


@needs_chromium
def test_nothing_is_cut_at_420_pixels(in_browser: dict) -> None:
    assert in_browser["width"] == [420, 420] and in_browser["wide"] == []


def farm_folder(alu: Lot, folder: pathlib.Path, parts: int) -> tuple[str, pathlib.Path]:
    """A working folder of a lot, as farm/ makes it, in which no part is done yet."""
    plan, _ = systematic(alu, "farmed", 9)
    (folder / "said").write_text(json.dumps({"kind": "lot", "parts": parts, "start": "/", "stil": "", "lots": ""}))
    shutil.copy(plan, folder / "plan.csv")
    return plan, folder


def do_part(alu: Lot, plan: str, folder: pathlib.Path, number: int, parts: int) -> None:
    """Runs a part, with the sites that it has there."""
    rows = plans.read_plan(plan).rows
    sites = sorted({int(row[1]) for row in rows if row[0] == "die"})[number - 1 :: parts]
    mine = [[row[0], str(sites.index(int(row[1]))), *row[2:]] if row[0] in ("die", "fault") else row for row in rows
            if row[0] not in ("die", "fault") or int(row[1]) in sites]
    (folder / str(number)).mkdir()
    (folder / str(number) / "plan.csv").write_text(plans.write_rows(mine))
    status, output = tester.run(["lot", alu.stil, str(folder / str(number) / "plan.csv")])
    (folder / str(number) / "text").write_bytes(output)
    (folder / str(number) / "status").write_text(f"{status}\n")


def test_a_farm_is_followed(made_alu: Lot, tmp_path: pathlib.Path, capsys: pytest.CaptureFixture[str]) -> None:
    (tmp_path / "farm.x").mkdir()
    plan, folder = farm_folder(made_alu, tmp_path / "farm.x", 3)
    words = ["report", made_alu.stil, plan, "--follow", str(folder), "-o", str(tmp_path / "r")]
    page = tmp_path / "r" / "index.html"
    assert main(words) == 0 and "0 of 3 parts are there so far" in page.read_text()
    do_part(made_alu, plan, folder, 2, 3)
    assert main(words) == 0
    text = page.read_text()
    assert "1 of 3 parts are there so far: what follows is of them alone, and without the dies of sites 0, 2, 3, 5, 6" in text
    assert set(re.findall(r"site (\d), die", text)) == {"1", "4", "7"} and "<td data-value=\"4\">site 4</td>" in text
    for number in (1, 3):
        do_part(made_alu, plan, folder, number, 3)
    assert main([*words, "--every", "1"]) == 0
    text = page.read_text()
    assert "parts are there so far" not in text and "http-equiv=\"refresh\"" not in text
    whole = dies_of(str(made_alu.folder / "farmed.datalog"))
    assert f"{sum(die.verdict.kind == 'pass' for die in whole)} of 48 dies pass" in text
    capsys.readouterr()
    (folder / "plan.csv").write_text("lot,1,1,1,,\n")
    assert main(words) == 1 and "is another one" in capsys.readouterr().err
    assert main([*words[:4], str(tmp_path), "-o", str(tmp_path / "r")]) == 3 and "no working folder of a farm" in capsys.readouterr().err
    assert main([*words[:3], "-o", str(tmp_path / "r")]) == 2 and "report needs a DATALOG" in capsys.readouterr().err


@pytest.mark.skipif(not (TOP / "farm" / "lot").exists(), reason="farm/ isn't there")
def test_the_working_folder_of_farm_is_read(made_alu: Lot, tmp_path: pathlib.Path) -> None:
    plan, _ = systematic(made_alu, "farmed", 9)
    program = tmp_path / "stil"
    program.write_text(f'#!/bin/sh\ncase $PWD in */3/*) exit 99 ;; esac\nexec {tester.find_program()} "$@"\n')
    program.chmod(0o755)
    done = subprocess.run(["python3", str(TOP / "farm" / "lot"), "--retries", "1", made_alu.stil, plan, "3"], cwd=tmp_path, check=False,
                          capture_output=True, env={**os.environ, "STIL": str(program)})
    folder, = tmp_path.glob("farm.*")
    assert done.returncode, done.stderr
    assert main(["report", made_alu.stil, plan, "--follow", str(folder), "-o", str(tmp_path / "r")]) == 0
    text = (tmp_path / "r" / "index.html").read_text()
    assert "2 of 3 parts are there so far" in text and "without the dies of sites 2, 5" in text
