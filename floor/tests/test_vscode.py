"""The extension for VS Code: its files against its manifest, and its grammar over the examples."""

import json
import pathlib
import re
import subprocess
import zipfile
from dataclasses import dataclass
from typing import Any
from xml.etree import ElementTree

import pytest

from conftest import TEXTS, TOP
from stilfloor import declared

SPACE = {"v": "http://schemas.microsoft.com/developer/vsx-schema/2011"}
GRAMMAR = json.loads((TOP / "editors" / "textmate" / "stil.tmLanguage.json").read_text())


@pytest.fixture(scope="module")
def extension(tmp_path_factory: pytest.TempPathFactory) -> zipfile.ZipFile:
    """The extension that `make vsix` makes."""
    folder = tmp_path_factory.mktemp("vsix")
    subprocess.run(["make", "-s", "vsix", f"DIST={folder}"], cwd=TOP, check=True, capture_output=True)
    path, = folder.glob("*.vsix")
    return zipfile.ZipFile(path)


def test_all_that_the_manifest_names_is_there(extension: zipfile.ZipFile) -> None:
    names = set(extension.namelist())
    manifest = ElementTree.fromstring(extension.read("extension.vsixmanifest"))
    package = json.loads(extension.read("extension/package.json"))
    assets = {asset.attrib["Path"] for asset in manifest.findall(".//v:Asset", SPACE)}
    assert assets <= names and "extension/package.json" in assets
    told = manifest.find(".//v:Identity", SPACE)
    assert told is not None
    assert (told.attrib["Id"], told.attrib["Version"], told.attrib["Publisher"]) == (package["name"], package["version"], package["publisher"])
    assert package["version"] == (TOP / "release/VERSION").read_text().strip()
    contributed = package["contributes"]
    files = [item["path"] for item in contributed["grammars"]] + [item["configuration"] for item in contributed["languages"]]
    assert {f"extension/{file.removeprefix('./')}" for file in files} <= names
    types = ElementTree.fromstring(extension.read("[Content_Types].xml"))
    known = {kind.attrib["Extension"] for kind in types}
    assert {pathlib.PurePath(name).suffix for name in names - {"[Content_Types].xml"}} <= known
    assert {item["language"] for item in contributed["grammars"]} == {item["id"] for item in contributed["languages"]}


def test_the_tasks_have_their_matchers_and_no_shell(extension: zipfile.ZipFile) -> None:
    matchers = {item["name"]: item for item in json.loads(extension.read("extension/package.json"))["contributes"]["problemMatchers"]}
    lines = (TOP / "editors" / "vscode" / "tasks.json").read_text().splitlines()
    tasks = json.loads("\n".join(line for line in lines if not line.startswith("//")))["tasks"]
    assert all(task["type"] == "process" for task in tasks)
    named = {task["problemMatcher"] for task in tasks if isinstance(task["problemMatcher"], str)}
    assert named == {"$stilfloor"} and "stilfloor" in matchers
    for name, line in (("stilfloor", "a b.stil:12:1: warning: the chain `c`: two"), ("stil", "a b.stil:refused stil UnknownName Pattern p 12")):
        pattern = matchers[name]["pattern"]
        found = re.match(pattern["regexp"], line)
        assert found and found[pattern["file"]] == "a b.stil" and found[pattern["line"]] == "12"


@dataclass
class Rule:
    """A rule that is open: what ends it, its name, and the rules inside."""

    end: str
    name: str
    inside: list[dict[str, Any]]


def rules(patterns: list[dict[str, Any]]) -> list[dict[str, Any]]:
    """Patterns with those that they include in their places."""
    found: list[dict[str, Any]] = []
    for pattern in patterns:
        if "include" in pattern:
            inner = GRAMMAR["repository"][pattern["include"].removeprefix("#")]
            found += rules(inner["patterns"]) if "patterns" in inner and "begin" not in inner else [inner]
        else:
            found.append(pattern)
    return found


def first(line: str, place: int, stack: list[Rule]) -> tuple[re.Match[str] | None, dict[str, Any] | None]:
    """The first match from a place on: of the open rule's end, or of a rule inside; of two at one place the former one."""
    best: re.Match[str] | None = re.compile(stack[-1].end).search(line, place) if stack[-1].end else None
    chosen = None
    for rule in stack[-1].inside:
        found = re.compile(rule.get("match") or rule["begin"]).search(line, place)
        if found and (best is None or found.start() < best.start()):
            best, chosen = found, rule
    return best, chosen


def scopes(text: str) -> list[tuple[str, str]]:
    """What each part of a text that a rule names is called, as an editor that reads the grammar would have it."""
    named: list[tuple[str, str]] = []
    stack = [Rule("", "", rules(GRAMMAR["patterns"]))]
    for line in text.splitlines():
        place = 0
        while True:
            found, rule = first(line, place, stack)
            end = found.start() if found else len(line)
            named.append((line[place:end], stack[-1].name))
            if not found:
                break
            if rule is None:
                stack.pop()
            elif "begin" in rule:
                stack.append(Rule(rule["end"], str(rule.get("name") or rule.get("contentName", "")), rules(rule.get("patterns", []))))
            else:
                named.append((found[0], rule["name"]))
            place = max(found.end(), place + (rule is not None and found.end() == place))
    return [(part, name) for part, name in named if part.strip()]


@pytest.mark.parametrize("file", TEXTS, ids=lambda file: file.name)
def test_the_grammar_reads_the_examples(file: pathlib.Path) -> None:
    found = scopes(file.read_text())
    assert not [part for part, name in found if name.startswith("invalid")]
    for keyword in ("Signals", "WaveformTable", "PatternBurst", "PatternExec"):
        assert (keyword, "storage.type.block.stil") in found
    assert [part for part, name in found if name == "constant.other.data.stil"] and [part for part, name in found if name.startswith("keyword.control")]


def test_the_grammar_marks_what_is_left_out_and_quotes_and_comments() -> None:
    found = scopes("Include \"a\";\n// Loop\n/* Loop\nLoop */ Loop 2 {\nV { a = \\h 1F; b = LH# ; }\n")
    names = dict((part.strip(), name) for part, name in found)
    assert names["Include"] == "invalid.illegal.left-out.stil" and names["\\h"] == "invalid.illegal.left-out.stil"
    loops = [name for part, name in found if "Loop" in part]
    assert loops == ["comment.line.double-slash.stil", "comment.block.stil", "comment.block.stil", "keyword.control.stil"]
    assert names["#"] == "variable.parameter.stil"
    coloured = {name for name in dict(scopes("\n".join(f"{word} {{" for word in declared.KEYWORDS))).values()}
    assert coloured <= {"storage.type.block.stil", "keyword.control.stil", "keyword.other.stil", "storage.modifier.stil", ""}
