"""One page about lots: yield, bins, sites, test time, coverage, suspects over dies, and each failing die with its fail map and suspects."""

import base64
import os
import shutil
import tempfile
import time
from collections import Counter
from collections.abc import Iterator
from dataclasses import dataclass, field
from html import escape
from typing import IO

from stilfloor import drawing, failmaps, records, report_parts, report_tables
from stilfloor.belonging import Owner
from stilfloor.diagnose import Diagnosis, Doctor
from stilfloor.faults import REFUSED, UNREADABLE, Fault, shown
from stilfloor.names import replacing
from stilfloor.pairs import FEW_TRIED
from stilfloor.report_follow import farm_of
from stilfloor.report_parts import cell
from stilfloor.report_style import SCRIPT, STYLE, policy

# how many places the map of all fails has at most
MOST_PLACES = 1 << 17


@dataclass(slots=True)
class Wish:
    """What a page is made of: the program, the plan, and datalogs of it, or the working folder of a farm, looked at every so many seconds.

    Besides a grade where there is one, how the page is headed, and where it goes.
    """

    program: str
    plan: str
    datalogs: list[str]
    folder: str
    title: str = ""
    grade: str = ""
    follow: str = ""
    every: int = 0
    jobs: int = 1
    pairs: int = 0


class Page:
    """What is gathered of lots while their datalogs are read, die by die; the parts of failing dies go to a file of their own."""

    def __init__(self, doctor: Doctor, owner: Owner, several: bool, parts: IO[str]) -> None:
        self.doctor = doctor
        self.several = several
        self.lot = drawing.LotCounts()
        self.gathered = failmaps.Gathered(failmaps.axes_of(doctor.code), MOST_PLACES)
        self.lots: list[report_tables.LotCount] = []
        self.sites: dict[int, report_tables.SiteTable] = {}
        self.times = report_tables.Times(owner.cycles)
        self.suspects = report_tables.Suspects()
        self.rows: list[str] = []
        self.recovered: list[str] = []
        self.failing = 0
        self.explained = 0
        self.bins: Counter[int] = Counter()
        self.parts = parts

    def begin(self, name: str) -> None:
        """Goes on with the next lot."""
        self.lots.append(report_tables.LotCount(name))

    def add(self, die: records.Die) -> None:
        """Counts a die, and writes its part where it fails."""
        self.lot.add(die)
        self.lots[-1].add(die)
        ran = self.times.add(die)
        self.sites.setdefault(die.site, report_tables.SiteTable()).add(die)
        places = self.gathered.add(die)
        diagnosis = self.doctor.see(die)
        if die.verdict.kind == "pass":
            if len(die.tries) > 1:
                self.recovered.append(self._named(die))
            return
        self.bins[die.bin] += 1
        if diagnosis:
            self.failing += 1
            self.explained += diagnosis.explained
            self.lots[-1].failing += 1
        self._write(die, diagnosis, places, ran)

    def _named(self, die: records.Die) -> str:
        front = f"lot {len(self.lots)}, " if self.several else ""
        return f"{front}site {die.site}, die {die.name}"

    def _write(self, die: records.Die, diagnosis: Diagnosis | None, places: set[tuple[int, int]], ran: str) -> None:
        """The row and the part of a die that doesn't pass."""
        mark = f"d{len(self.rows) + 1}"
        what = f"bin {die.bin}: {escape(str(die.verdict))}"
        if diagnosis:
            what = _short(diagnosis)
            self.suspects.add(die.site, mark, diagnosis, {column for _, column in places})
            if diagnosis.exact:
                self.lots[-1].suspects[diagnosis.classes[0].text().partition(" ")[2]] += 1
        lot = cell(len(self.lots)) if self.several else ""
        self.rows.append(f'<tr data-die="{mark}" data-site="{die.site}" data-bin="{die.bin}" data-lot="{len(self.lots)}">'
                         f'<td><a href="#{mark}">{escape(die.name)}</a></td>{lot}{cell(die.site)}{cell(die.bin)}{cell(len(die.tries))}'
                         f"{cell(die.tries[-1].fails)}{cell(what, True)}</tr>")
        self.parts.write(self._part(die, diagnosis, places, mark, ran) if diagnosis else
                         f'<div class="die" id="{mark}"><div></div><div><h3>{escape(self._named(die))}</h3><p>{what}; {ran}</p></div></div>\n')

    def _part(self, die: records.Die, diagnosis: Diagnosis, places: set[tuple[int, int]], mark: str, ran: str) -> str:
        """A failing die: its map, and its suspects."""
        data = failmaps.picture(places, self.gathered.rows(), len(self.gathered.axes.columns), self.gathered.reach(die))
        kept = len(die.tries[-1].kept)
        more = "" if kept == diagnosis.fails else f", of which {kept} are kept"
        suspects = "".join(f"<li>{line}</li>" for line in report_parts.told_lines(diagnosis))
        kind = "" if diagnosis.explained else ' class="none"'
        return (f'<div class="die" id="{mark}"><div class="framed"><img class="map" alt="fail map" '
                f'src="data:image/png;base64,{base64.b64encode(data).decode()}"></div>'
                f"<div><h3>{escape(self._named(die))}</h3>"
                f"<p>bin {die.bin}, {len(die.tries)} {'try' if len(die.tries) == 1 else 'tries'}, {diagnosis.fails} fails{more}; {ran}</p>"
                f"<p{kind}>{escape(diagnosis.sentence)}</p><ul>{suspects}</ul></div></div>\n")


def _short(diagnosis: Diagnosis) -> str:
    """What is found of a die in a few words."""
    if diagnosis.exact:
        return report_parts.told_class(diagnosis.classes[0])
    if diagnosis.pairs and diagnosis.pairs.pairs:
        pair = diagnosis.pairs.pairs[0]
        front = "a pair:" if diagnosis.pairs.count == 1 else f"{diagnosis.pairs.count} pairs, as"
        return f"{front} {report_parts.folded([shown(str(pair.first[0]))])} with {report_parts.folded([shown(str(pair.second[0]))])}"
    return f"nearest: {report_parts.folded([diagnosis.classes[0].text()])}" if diagnosis.classes else "nothing is near"


@dataclass(slots=True)
class Frame:
    """What stands on a page beside its dies: its heading, its files, notes in front, and a grade."""

    title: str
    files: list[tuple[str, str]]
    notes: list[str] = field(default_factory=list)
    grade: str = ""
    refresh: int = 0


def head(page: Page, frame: Frame) -> str:
    """The page in front of its failing dies."""
    again = f'<meta http-equiv="refresh" content="{frame.refresh}">' if frame.refresh else ""
    sections = list(_sections(page, frame))
    links = "".join(f'<li><a href="#{name}">{title}</a></li>' for name, title, _ in sections)
    lines = [f'<!doctype html><html lang="en"><head><meta charset="utf-8"><meta name="viewport" content="width=device-width, initial-scale=1">'
             f'<meta http-equiv="Content-Security-Policy" content="{policy()}">{again}<title>{escape(frame.title)}</title><style>{STYLE}</style>'
             f"{report_parts.borders(page.gathered)}</head><body>",
             f"<h1>{escape(frame.title)}</h1>", f"<nav><ul>{links}</ul></nav>", report_parts.made_of(frame.files),
             *(f'<p class="none">{escape(shown(note))}</p>' for note in frame.notes), report_tables.summary(page), cut_note(page)]
    lines += [f'<p class="none">{escape(line)}</p>' for line in [*page.doctor.notes, *page.doctor.site_lines()]]
    lines += [f'<h2 id="{name}">{title}</h2>{content}' for name, title, content in sections]
    return "\n".join(lines) + "\n" + report_parts.axes_data(page.gathered)


def _sections(page: Page, frame: Frame) -> Iterator[tuple[str, str, str]]:
    """The sections of a page: the mark of each, its title, and what stands in it."""
    if page.several:
        yield "lots", "Lots", report_tables.lots_table(page.lots)
    yield "bins", "Bins and sites", report_tables.bins_table(page.lot) + report_tables.sites_table(page.sites) + (
        f'<div class="figures">{drawing.svg_of(drawing.lot_figure(page.lot))}</div>' if page.lot.count else "")
    yield "time", "Test time", page.times.told()
    if frame.grade:
        yield "coverage", "Coverage", report_tables.coverage(frame.grade, page.doctor.plan)
    yield "suspects", "Suspects", page.suspects.told(page.failing)
    yield "few", "At few sites alone", page.suspects.few(page)
    if page.gathered.columns:
        yield "fails", "All fails", (cut_note(page) + report_parts.whole_map(page.gathered)
                                     + f'<div class="figures">{drawing.svg_of(drawing.pareto_figure(page.gathered))}</div>')
    yield "dies", "Dies that don't pass", report_tables.dies_table(page) + legend(page)


def cut_note(page: Page) -> str:
    """What is said of dies with more fails than are kept."""
    note = page.gathered.cut.note(page.gathered.failing)
    return f'<p class="none">{escape(note)}.</p>' if note else ""


def legend(page: Page) -> str:
    """What is said in front of the dies."""
    axes = page.gathered.axes
    row = "load" if axes.by_load else "cycle"
    borders = "; blue lines are the borders of chains" if 1 < len(page.gathered.chains()) <= report_parts.MOST_RUNS else ""
    left = page.doctor.left
    pairs = (f" Pairs of stuck nets weren't tried for {left} {'kind' if left == 1 else 'kinds'} of fails that no single one explains: --pairs N tries more."
             if left else "")
    return (f'<p class="note">In a fail map each row is a {row}, from the top down ({page.gathered.rows()}), and each column a scan cell, chain by '
            f"chain from scan-in to scan-out, then an output ({len(axes.columns)}){borders}. A score is the part of fails "
            "that a die and a suspect have in common; suspects in one line are told apart by no look of this program. A pair is told where a die with "
            "one net of each side stuck has the very fails; other pairs, which weren't tried, may have them too. Grey is what lies behind the last "
            f"kept fail of a die that has more.{pairs}</p>")


def make_report(wish: Wish) -> Iterator[tuple[str, Page]]:
    """Writes `index.html` into the folder; its path, and what was gathered. Of a farm that is followed it does so for more parts each time."""
    doctor = Doctor(wish.program, wish.plan, wish.jobs, most_pairs=wish.pairs, each=FEW_TRIED)
    owner = Owner(doctor.plan, doctor.code)
    names = [os.path.basename(file) for file in wish.datalogs] or [os.path.basename(os.path.normpath(wish.follow))]
    files = [("program", wish.program), ("plan", wish.plan), *(("datalog", file) for file in wish.datalogs),
             *((what, file) for what, file in (("grade", wish.grade), ("farm", wish.follow)) if file)]
    frame = Frame(shown(wish.title or ", ".join(names)), files, grade=wish.grade)
    if wish.follow:
        yield from _follow(wish, doctor, owner, frame)
        return
    with tempfile.TemporaryFile("w+", encoding="utf-8") as parts:
        page = Page(doctor, owner, len(names) > 1, parts)
        for file in wish.datalogs:
            page.begin(file)
            with records.datalog(file) as dies:
                for die in owner.held(dies):
                    page.add(die)
        yield write(page, frame, wish.folder), page


def _follow(wish: Wish, doctor: Doctor, owner: Owner, frame: Frame) -> Iterator[tuple[str, Page]]:
    """The page of the parts of a farm that are there so far, and of more of them each time where it is to go on."""
    farm = farm_of(wish.follow, doctor.plan)
    before: list[int] | None = None
    while True:
        there = farm.there()
        if there != before:
            before = there
            doctor.sites.clear()
            frame.notes = [note for note in [farm.note(there)] if note]
            frame.refresh = wish.every if frame.notes else 0
            with tempfile.TemporaryFile("w+", encoding="utf-8") as parts:
                page = Page(doctor, owner, False, parts)
                page.begin(wish.follow)
                for die in (die for number in there for die in farm.dies(number, owner)):
                    page.add(die)
                yield write(page, frame, wish.folder), page
        if not wish.every or len(there) == farm.parts:
            return
        time.sleep(wish.every)
        if not os.path.isdir(wish.follow):
            raise Fault(REFUSED, f"the working folder is gone, and the page has {len(there)} of {farm.parts} parts: make it anew of the whole datalog",
                        wish.follow)


def write(page: Page, frame: Frame, folder: str) -> str:
    """Writes the page into a folder; its path."""
    path = os.path.join(folder, "index.html")
    try:
        os.makedirs(folder, exist_ok=True)
    except OSError as error:
        raise Fault(UNREADABLE, f"{error.strerror}", folder) from error
    with replacing(path) as out:
        out.write(head(page, frame))
        page.parts.seek(0)
        shutil.copyfileobj(page.parts, out)
        out.write("" if page.failing else "<p>No die fails.</p>")
        out.write(f'<div id="tip" hidden></div><script>{SCRIPT}</script></body></html>\n')
    return path
