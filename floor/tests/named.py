"""What the tests of names stand on: names that are texts, what a word prints of them, and that none of them is run."""

import pathlib
from collections.abc import Iterator

import pytest

from conftest import TOP
from hostile_names import MARK, NAMES
from stilfloor.cli import main

UTF8 = [name for name in NAMES if not any(0xD800 <= ord(character) <= 0xDFFF for character in name)]


def nothing_runs(tmp_path: pathlib.Path, monkeypatch: pytest.MonkeyPatch) -> Iterator[None]:
    """Stands in a folder of its own, where nothing may be made by a name that is run."""
    monkeypatch.chdir(tmp_path)
    yield
    assert not [path for path in (*tmp_path.rglob(MARK), pathlib.Path("/") / MARK, TOP / MARK) if path.exists()]


def told(words: list[str], capsys: pytest.CaptureFixture[str], status: int = 0) -> str:
    """What a word prints, which is no traceback, and of which each line is one of its own."""
    try:
        ended = main(words)
    except SystemExit as ending:
        ended = int(str(ending.code))
    printed = capsys.readouterr()
    assert ended == status, (words, printed)
    return printed.out + printed.err


def copied(folder: pathlib.Path, sources: dict[str, str | pathlib.Path], name: str) -> None:
    """Copies files to one name with their endings, which a name of any bytes has too."""
    for ending, source in sources.items():
        (folder / f"{name}{ending}").write_bytes(pathlib.Path(source).read_bytes())
