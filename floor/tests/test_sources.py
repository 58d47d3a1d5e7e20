"""The wrappers keep the sum of the sources, and see each change of them all the same."""

import os
import pathlib
import shutil
import subprocess
import time

import pytest

from conftest import TOP

PROGRAM = "#!/bin/sh\necho ran\n"


def tree(folder: pathlib.Path) -> pathlib.Path:
    """A small tree with one crate below the program, which lies in release/ as a script of these sources."""
    for name in ("start", "sources", "words", "launch", "help"):
        (folder / "tools").mkdir(exist_ok=True)
        shutil.copy2(TOP / "tools" / name, folder / "tools" / name)
    shutil.copy2(TOP / "stil", folder / "stil")
    (folder / "crates.txt").write_text("below:\nstil: below\n")
    for crate in ("below", "stil"):
        (folder / "crates" / crate / "src").mkdir(parents=True)
    source(folder).write_text("fn first() {}\n")
    (folder / "release").mkdir()
    program = folder / "release" / "stil-x86_64-linux-gnu"
    program.write_text(PROGRAM)
    program.chmod(0o755)
    taken = subprocess.run([folder / "tools" / "sources", "stil"], capture_output=True, check=True)
    (folder / "release" / "SOURCES").write_bytes(taken.stdout)
    return folder


def source(folder: pathlib.Path) -> pathlib.Path:
    """The one source of the crate below."""
    return folder / "crates" / "below" / "src" / "lib.rt"


def runs(folder: pathlib.Path) -> bool:
    """Whether the program in release/ is taken; else it would be built, for which nothing is there."""
    words = [str(folder / "stil"), "check", "text"]
    ran = subprocess.run(words, capture_output=True, text=True, env={"PATH": "/usr/bin:/bin"})
    assert ran.returncode in (0, 70), ran.stderr
    return ran.returncode == 0


@pytest.fixture
def kept(tmp_path: pathlib.Path) -> pathlib.Path:
    """Such a tree whose sum was taken longer ago than its last change."""
    folder = tree(tmp_path)
    time.sleep(2.1)
    assert runs(folder)
    assert (folder / "crates" / "stil" / "out" / "sum").exists()
    return folder


def test_kept_sum_is_taken(kept: pathlib.Path) -> None:
    summed = kept / "tools" / "sources"
    summed.write_text("#!/bin/sh\nexit 1\n")
    assert runs(kept)


def test_changed_source_with_older_time_is_seen(kept: pathlib.Path) -> None:
    times = source(kept).stat()
    source(kept).write_text("fn other() {}\n")
    os.utime(source(kept), (times.st_atime, times.st_mtime - 3600))
    assert not runs(kept)
    source(kept).write_text("fn first() {}\n")
    assert runs(kept)


def test_added_source_is_seen(kept: pathlib.Path) -> None:
    (source(kept).parent / "more.rt").write_text("fn more() {}\n")
    assert not runs(kept)


def test_source_taken_away_is_seen(kept: pathlib.Path) -> None:
    source(kept).unlink()
    assert not runs(kept)


def test_added_folder_of_definitions_is_seen(kept: pathlib.Path) -> None:
    specs = kept / "crates" / "below" / "specs"
    specs.mkdir()
    (specs / "Lib.antt").write_text("pub mod Rows\n")
    assert not runs(kept)


def test_changed_edges_are_seen(kept: pathlib.Path) -> None:
    (kept / "crates.txt").write_text("below:\nstil: below\nbelow_that:\n")
    assert runs(kept)
    (kept / "crates.txt").write_text("stil:\n")
    assert not runs(kept)
