"""The pages: links lead somewhere, indices are whole, numbers of versions agree."""

import json
import re
import subprocess

from conftest import TOP
from stilfloor import __version__

LINK = re.compile(r"\]\(([^)#\s]+)(?:#[^)]*)?\)")
PAGES = [TOP / "README.md", TOP / "CHANGELOG.md", TOP / "tools" / "README.md", TOP / "release" / "README.md", *sorted((TOP / "docs").rglob("*.md"))]


def test_each_link_leads_to_a_file() -> None:
    for page in PAGES:
        lost = [link for link in LINK.findall(page.read_text()) if not link.startswith("http") and not (page.parent / link).exists()]
        assert not lost, (page.name, lost)


def test_the_first_page_is_short() -> None:
    assert len((TOP / "README.md").read_text().splitlines()) <= 160


def test_each_tool_has_its_line() -> None:
    tracked = subprocess.run(["git", "ls-files", "tools"], cwd=TOP, capture_output=True, text=True, check=True).stdout.split()
    tools = {name.removeprefix("tools/") for name in tracked} - {"README.md"}
    rows = [line.split("|")[1] for line in (TOP / "tools" / "README.md").read_text().splitlines() if line.startswith("| `")]
    named = {name for row in rows for name in re.findall(r"`([^`]+)`", row)}
    assert named == tools


def test_a_version_is_one_number() -> None:
    version = (TOP / "release/VERSION").read_text().strip()
    first = next(line for line in (TOP / "CHANGELOG.md").read_text().splitlines() if line.startswith("## "))
    assert re.fullmatch(r"\d+\.\d+\.\d+", version) and first == f"## {version}"
    assert f'version = "{version}"' in (TOP / "floor" / "pyproject.toml").read_text()
    assert __version__ == version == json.loads((TOP / "editors" / "vscode" / "package.json").read_text())["version"]
    assert f"Version {version} " in (TOP / "README.md").read_text()


def test_a_tag_of_a_version_is_its_number() -> None:
    told = subprocess.run(["git", "tag", "--points-at", "HEAD", "v*"], cwd=TOP, capture_output=True, text=True, check=True).stdout.split()
    assert set(told) <= {f"v{(TOP / 'release/VERSION').read_text().strip()}"}


def test_the_decisions_have_an_index() -> None:
    text = (TOP / "docs" / "DECISIONS.md").read_text()
    sections = re.findall(r"^## (.+)$", text, re.MULTILINE)
    index = text[: text.index("\n## ")]
    assert sections and all(section.strip("`") in index for section in sections)
