"""The language server, by its protocol and by the editors that are there."""

import json
import os
import pathlib
import queue
import shutil
import subprocess
import sys
import threading
import time
from typing import Any

import pytest

from conftest import EXAMPLES, TOP
from stilfloor import declared, tester
from stilfloor.document import Document

P1 = (EXAMPLES / "p1.stil").read_text()
CHAINS = (EXAMPLES / "two_chains" / "chains.stil").read_text()
SERVER = [str(TOP / "floor" / "stilfloor"), "server"]
NAME = "file:///t.stil"


class Client:
    """An editor that has a text open."""

    def __init__(self) -> None:
        self.run = subprocess.Popen([sys.executable, "-m", "stilfloor", "server"], stdin=subprocess.PIPE, stdout=subprocess.PIPE,
                                    env={**os.environ, "PYTHONPATH": str(TOP / "floor" / "src"), "STIL": tester.find_program()})
        self.told: "queue.Queue[dict[str, Any]]" = queue.Queue()
        self.kept: list[dict[str, Any]] = []
        self.number = self.version = 0
        threading.Thread(target=self._read, daemon=True).start()

    def _read(self) -> None:
        assert self.run.stdout
        while head := self.run.stdout.readline():
            length = int(head.split(b":")[1])
            self.run.stdout.readline()
            self.told.put(json.loads(self.run.stdout.read(length)))

    def write(self, body: bytes) -> None:
        assert self.run.stdin
        self.run.stdin.write(b"Content-Length: %d\r\n\r\n" % len(body) + body)
        self.run.stdin.flush()

    def send(self, method: str, params: object, **more: object) -> None:
        self.write(json.dumps({"jsonrpc": "2.0", "method": method, "params": params, **more}).encode())

    def wait(self, wanted: Any, seconds: float = 60) -> dict[str, Any]:
        """The first message for which a question is so."""
        for message in self.kept:
            if wanted(message):
                self.kept.remove(message)
                return message
        end = time.monotonic() + seconds
        while True:
            message = self.told.get(timeout=max(0.01, end - time.monotonic()))
            if wanted(message):
                return message
            self.kept.append(message)

    def ask(self, method: str, params: object) -> Any:
        """The answer to a question."""
        self.number += 1
        self.send(method, params, id=self.number)
        message = self.wait(lambda it: it.get("id") == self.number)
        return message.get("result", message.get("error"))

    def open(self, text: str) -> None:
        self.ask("initialize", {"capabilities": {}})
        self.send("initialized", {})
        self.send("textDocument/didOpen", {"textDocument": {"uri": NAME, "languageId": "stil", "version": 0, "text": text}})

    def change(self, *changes: dict[str, object]) -> None:
        self.version += 1
        self.send("textDocument/didChange", {"textDocument": {"uri": NAME, "version": self.version}, "contentChanges": list(changes)})

    def diagnostics(self, seconds: float = 60) -> list[dict[str, Any]]:
        """What is told of the version that is open."""
        message = self.wait(lambda it: it.get("method") == "textDocument/publishDiagnostics" and it["params"].get("version") == self.version, seconds)
        return list(message["params"]["diagnostics"])

    def at(self, method: str, line: int, character: int) -> Any:
        return self.ask(f"textDocument/{method}", {"textDocument": {"uri": NAME}, "position": {"line": line, "character": character}})

    def end(self) -> int:
        assert self.run.stdin
        self.ask("shutdown", None)
        self.send("exit", None)
        return self.run.wait(30)


@pytest.fixture
def client() -> Any:
    """A client that is ended behind the test."""
    made = Client()
    yield made
    made.run.kill()
    made.run.wait()


def span(line: int, start: int, end: int) -> dict[str, dict[str, int]]:
    return {"start": {"line": line, "character": start}, "end": {"line": line, "character": end}}


def test_a_text_is_judged_while_it_is_typed(client: Client) -> None:
    client.open(P1)
    assert client.diagnostics() == []
    client.change({"range": span(10, 4, 5), "text": "nobody"})
    found, = client.diagnostics()
    assert found["range"] == span(10, 0, len("V { nobody=0; y=H; }")) and found["severity"] == 1 and "(UnknownName, in Pattern `p`)" in found["message"]
    column = P1.splitlines()[6].index("40ns")
    client.change({"range": span(10, 4, 10), "text": "a"}, {"range": span(6, column, column + 4), "text": "40"})
    assert client.diagnostics() == []
    found, = client.diagnostics()
    assert found["severity"] == 2 and found["message"].startswith("the time '40' has a number without a unit")
    client.change({"text": P1[: P1.index("W w;") + 2]})
    found, = client.diagnostics()
    assert found["severity"] == 1 and "OpenBlock" in found["message"] or "OpenStatement" in found["message"]
    assert client.end() == 0


def test_positions_are_those_of_utf_16(client: Client) -> None:
    text = P1.replace("Signals { a In; y Out; }", "Signals { /* \U0001f600 \u00e9 */ a In; y Out; }\r\n")
    client.open(text)
    line = text.splitlines()[1]
    column = line.index(" a In") + 2
    assert client.at("hover", 1, column)["contents"]["value"].startswith("signal `a`: In\n\ndeclared in line 2")
    assert client.at("definition", 11, 4) == [{"uri": NAME, "range": span(1, column, column + 1)}]
    client.change({"range": span(1, column, column + 1), "text": "\U0001f600"}, {"range": span(1, column, column + 2), "text": "b"})
    assert client.at("hover", 1, column)["contents"]["value"].startswith("signal `b`: In")
    document = Document("a\U0001f600b\n\u00e9")
    for place in range(len(document.text) + 1):
        assert document.place(document.position(place)) == place
    assert document.position(2) == {"line": 0, "character": 3} and document.place({"line": 0, "character": 2}) == 1
    assert document.place({"line": 9, "character": 9}) == len(document.text) and document.place({"line": 0, "character": 99}) == 3


HOVERS = [("si = 'sa", 0, "group `si`: 'sa + sb'"), ("WaveformTable w {", 14, "waveform table `w`: period '100ns', waveforms for"),
          ("W w;", 2, "waveform table `w`"), ('Call "load_unload"', 7, "procedure `load_unload`: 3 statements, takes scan data"),
          ("ScanIn sa", 7, "signal `sa`: In"), ("PatList { scan", 10, "pattern `scan`"), ("ScanChain a", 10, "scan chain `a`: ScanLength 3")]


@pytest.mark.parametrize("part, offset, said", HOVERS)
def test_a_name_is_told_and_found(client: Client, part: str, offset: int, said: str) -> None:
    text = CHAINS if part in CHAINS else CHAINS.replace("Call load_unload", 'Call "load_unload"')
    assert part in text
    client.open(text)
    document = Document(text)
    at = document.position(text.index(part) + offset)
    hover = client.at("hover", at["line"], at["character"])
    assert said in hover["contents"]["value"]
    found, = client.at("definition", at["line"], at["character"])
    kind, name = said.split("`")[0].strip(), said.split("`")[1]
    meant, = (each for each in declared.names_of(text).of(name, kind) if each.kind == kind)
    assert found["range"] == document.range(meant.start, meant.end)


def test_the_names_of_a_text_are_its_symbols(client: Client) -> None:
    client.open(CHAINS)
    found = client.ask("textDocument/documentSymbol", {"textDocument": {"uri": NAME}})
    named = {symbol["name"]: [child["name"] for child in symbol["children"]] for symbol in found}
    assert named["Signals"] == ["ck", "se", "sa", "sb", "y", "oa", "ob"] and named["Procedures"] == ["load_unload", "capture"]
    assert "Pattern scan" in named and named["ScanStructures"] == ["a", "b"]


def test_what_may_go_on_is_offered(client: Client) -> None:
    client.open(CHAINS + "Pattern q { W ")
    line = len(CHAINS.splitlines())

    def labels(character: int) -> list[str]:
        return [item["label"] for item in client.at("completion", line, character)["items"]]

    assert labels(14) == ["w"]
    client.change({"text": CHAINS + "Pattern q { Call "})
    assert labels(17) == ["load_unload", "capture"]
    client.change({"text": CHAINS + "PatternBurst q { PatList { "})
    assert labels(27) == ["scan", "b", "q"]
    client.change({"text": CHAINS + "Pattern q { "})
    assert {"Vector", "Macro", "sa", "si", "w"} <= set(labels(12))


def test_a_text_that_is_half_typed_keeps_its_names() -> None:
    for cut in range(0, len(CHAINS), 7):
        text = CHAINS[:cut] + " {\n" + CHAINS[cut:]
        names = [each.name for each in declared.names_of(text).all()]
        assert cut > CHAINS.index("Pattern scan") or "scan" in names or cut == 0, cut
        declared.names_of(CHAINS[:cut])
    assert [each.name for each in declared.names_of("STIL 1.0;\nSignals { a In; bee").all()] == ["a", "bee"]


def test_keywords_are_those_of_the_grammar() -> None:
    grammar = (TOP / "editors" / "textmate" / "stil.tmLanguage.json").read_text()
    assert all(word in grammar for word in declared.KEYWORDS)


def test_what_is_no_question_is_refused(client: Client) -> None:
    client.open(P1)
    assert client.ask("textDocument/nothing", {})["code"] == -32601
    assert client.ask("textDocument/hover", {})["code"] == -32602
    assert client.ask("textDocument/hover", {"textDocument": {"uri": "file:///other"}, "position": {"line": 0, "character": 0}})["code"] == -32602
    assert client.at("hover", 999, 9) is None
    client.write(b"{ this is no JSON")
    assert client.wait(lambda it: it.get("id", 0) is None)["error"]["code"] == -32700
    client.send("textDocument/didClose", {"textDocument": {"uri": NAME}})
    assert client.end() == 0
    done = subprocess.run(SERVER, input=b"Content-Length: x\r\n\r\n", capture_output=True, check=False)
    assert done.returncode == 3 and b"Content-Length" in done.stderr and b"Traceback" not in done.stderr
    assert subprocess.run(SERVER, input=b"", capture_output=True, check=False).returncode == 1


def large(size: int) -> str:
    """A text of so many characters, with vectors over forty signals."""
    signals = "".join(f"i{k} In; o{k} Out; " for k in range(20))
    groups = "pi = '" + "+".join(f"i{k}" for k in range(20)) + "'; po = '" + "+".join(f"o{k}" for k in range(20)) + "';"
    text = (f"STIL 1.0;\nSignals {{ {signals} }}\nSignalGroups {{ {groups} }}\nTiming {{ WaveformTable w {{ Period '100ns'; Waveforms {{ "
            "pi { 01 { '0ns' D/U; } } po { LHX { '40ns' L/H/X; } } } } }\nPatternBurst b { PatList { p; } }\n"
            "PatternExec { PatternBurst b; }\nPattern p { W w;\n")
    line = "V {{ pi={:020b}; po=" + "LHXLH" * 4 + "; }}\n"
    return text + "".join(line.format(number) for number in range((size - len(text)) // len(line.format(0)))) + "}\n"


def test_a_text_of_a_mebibyte_is_judged_within_two_seconds_a_change(client: Client) -> None:
    text = large(1 << 20)
    client.open(text)
    client.diagnostics(120)
    took = []
    for letter in "xyz":
        begun = time.monotonic()
        client.change({"range": span(9000, 0, 0), "text": letter})
        assert client.at("hover", 6, 8) is not None
        found = client.diagnostics()
        took.append(time.monotonic() - begun)
        assert found and found[0]["severity"] == 1
    # (where others use the processors too, the clock goes on without this process)
    begun, used = time.monotonic(), time.process_time()
    declared.names_of(text)
    busy = (time.monotonic() - begun) / (time.process_time() - used)
    assert min(took) < 2 * max(1.0, busy), took


LUA = """
local path, out, rtp = unpack(vim.json.decode(os.getenv('TEST')))
vim.g.stilfloor = { rtp .. '/floor/stilfloor' }
dofile(rtp .. '/editors/neovim/stil.lua')
vim.cmd('edit ' .. vim.fn.fnameescape(path))
local shown = {}
vim.wait(30000, function() return #vim.diagnostic.get(0) > 0 end, 50)
shown.diagnostics = vim.tbl_map(function(it) return { it.lnum, it.severity, it.message } end, vim.diagnostic.get(0))
vim.api.nvim_win_set_cursor(0, { 11, 4 })
local asked = vim.lsp.util.make_position_params()
local answers = vim.lsp.buf_request_sync(0, 'textDocument/hover', asked, 30000)
shown.hover = select(2, next(answers)).result.contents.value
vim.lsp.buf.definition()
vim.wait(30000, function() return vim.api.nvim_win_get_cursor(0)[1] ~= 11 end, 50)
shown.definition = vim.api.nvim_win_get_cursor(0)
vim.api.nvim_buf_set_lines(0, 11, 12, true, { 'V { a=1; y=L; }' })
vim.wait(30000, function() return #vim.diagnostic.get(0) == 0 end, 50)
shown.behind = #vim.diagnostic.get(0)
local file = io.open(out, 'w')
file:write(vim.json.encode(shown))
file:close()
vim.cmd('qall!')
"""


@pytest.mark.skipif(not shutil.which("nvim"), reason="nvim isn't there: the server in Neovim is left out")
def test_neovim_shows_what_the_server_tells(tmp_path: pathlib.Path) -> None:
    text, out, script = tmp_path / "a text.stil", tmp_path / "out", tmp_path / "test.lua"
    text.write_text(P1.replace("a=1; y=L", "a=1; z=L"))
    script.write_text(LUA)
    subprocess.run(["nvim", "--headless", "-u", "NONE", "-i", "NONE", "-c", f"luafile {script}"], cwd=tmp_path, check=False, timeout=150,
                   capture_output=True, env={**os.environ, "TEST": json.dumps([str(text), str(out), str(TOP)]), "XDG_STATE_HOME": str(tmp_path)})
    shown = json.loads(out.read_text())
    found, = shown["diagnostics"]
    assert found[:2] == [11, 1] and "(UnknownName, in Pattern `p`)" in found[2]
    assert shown["hover"].startswith("signal `a`: In") and shown["definition"] == [2, 10] and shown["behind"] == 0


LISP = """
(require 'package)
(add-to-list 'package-directory-list "/usr/share/emacs/site-lisp/elpa")
(package-initialize)
(setq stilfloor-command (list (concat (getenv "TOP") "/floor/stilfloor") "server"))
(load (concat (getenv "TOP") "/editors/emacs/stil-mode.el"))
(defun waited (what) (let ((left 600)) (while (and (> left 0) (not (funcall what))) (accept-process-output nil 0.05) (setq left (1- left)))))
(defvar shown nil)
(find-file (getenv "TEXT"))
(setq eglot-sync-connect 60 eglot-connect-timeout 60 eglot-autoreconnect nil)
(apply #'eglot (eglot--guess-contact))
(waited (lambda () (flymake-start) (flymake-diagnostics)))
(push (format "%s" major-mode) shown)
(push (mapconcat (lambda (it) (format "%d %s" (line-number-at-pos (flymake-diagnostic-beg it)) (flymake-diagnostic-text it)))
                 (flymake-diagnostics) "; ") shown)
(goto-char (point-min)) (forward-line 10) (forward-char 4)
(push (plist-get (plist-get (jsonrpc-request (eglot-current-server) :textDocument/hover (eglot--TextDocumentPositionParams)) :contents)
                 :value) shown)
(call-interactively #'xref-find-definitions)
(push (format "%d" (line-number-at-pos)) shown)
(with-temp-file (getenv "OUT") (insert (json-encode (nreverse shown))))
(kill-emacs 0)
"""


@pytest.mark.skipif(not shutil.which("emacs") or not list(pathlib.Path("/usr/share").glob("emacs/site-lisp/elpa*/eglot*")),
                    reason="emacs or elpa-eglot isn't there: the server in Emacs is left out")
def test_emacs_shows_what_the_server_tells(tmp_path: pathlib.Path) -> None:
    text, out, script = tmp_path / "text.stil", tmp_path / "out", tmp_path / "test.el"
    text.write_text(P1.replace("a=1; y=L", "a=1; z=L"))
    script.write_text(LISP)
    done = subprocess.run(["emacs", "-Q", "--batch", "-l", str(script)], cwd=tmp_path, check=False, timeout=150, capture_output=True, text=True,
                          env={**os.environ, "TEXT": str(text), "OUT": str(out), "TOP": str(TOP), "HOME": str(tmp_path)})
    assert out.exists(), done.stderr
    mode, found, hover, line = json.loads(out.read_text())
    assert mode == "stil-mode" and found.startswith("12 ") and "UnknownName" in found and hover.startswith("signal `a`: In") and line == "2"
