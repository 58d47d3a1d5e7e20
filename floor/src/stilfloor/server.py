"""The language server: STIL texts in an editor, by the Language Server Protocol on standard input and output.

Told are refusals and warnings of `lint`, what a name is and where it is declared, the names of a text, and keywords and names to go on
with. The protocol's messages are JSON behind a line with their length.
"""

import json
import re
import sys
import threading
from collections.abc import Callable, Iterator
from dataclasses import dataclass, field
from typing import IO, Any

from stilfloor import __version__
from stilfloor.declared import BEHIND, KEYWORDS, Asked, Block, Declared, Names, names_of, word_at
from stilfloor.document import Document
from stilfloor.faults import UNREADABLE, Fault
from stilfloor.judging import Diagnostic, Judge, Wanted

MOST_BYTES = 1 << 28
PARSE, REQUEST, METHOD, PARAMS, INSIDE = -32700, -32600, -32601, -32602, -32603
# the protocol's numbers for kinds of symbols and of completions
SYMBOLS = {"signal": 8, "group": 18, "waveform table": 23, "scan chain": 13, "macro": 12, "procedure": 12, "pattern": 6, "category": 3,
           "variable": 13}
COMPLETIONS = {"signal": 5, "group": 6, "waveform table": 22, "scan chain": 6, "macro": 3, "procedure": 3, "pattern": 2, "variable": 6}
KEYWORD = 14
BLOCK = 3
PLAIN = re.compile(r"[A-Za-z_]\w*", re.ASCII)
BEGUN = re.compile(r'(?:(\w+)[ \t]+)?("?\w*)\Z')
LISTED = re.compile(r"\bPatList[ \t\n\r]*\{[^{}]*\Z")

Params = dict[str, Any]


class Refused(Exception):
    """A question that can't be answered, with the protocol's number."""

    def __init__(self, number: int, why: str) -> None:
        super().__init__(why)
        self.number = number


def messages(stream: IO[bytes]) -> Iterator[bytes]:
    """The messages of a stream one by one, up to its end."""
    while True:
        length = -1
        while line := stream.readline(4096):
            if not line.strip():
                break
            key, _, value = line.partition(b":")
            if key.strip().lower() == b"content-length" and value.strip().isdigit() and len(value) < 20:
                length = int(value)
        if not line:
            return
        if not 0 <= length <= MOST_BYTES:
            raise Fault(UNREADABLE, "this is no message of an editor: its head has no Content-Length that can be read", "standard input")
        body = stream.read(length)
        if len(body) < length:
            return
        yield body


@dataclass
class Open:
    """An open text, and its names where they were asked for."""

    document: Document
    found: Names | None = None

    def names(self) -> Names:
        """Its names."""
        if self.found is None:
            self.found = names_of(self.document.text)
        return self.found


@dataclass
class Server:
    """A server with its open texts by their names."""

    out: IO[bytes]
    texts: dict[str, Open] = field(default_factory=dict)
    is_shut: bool = False
    is_left: bool = False
    complaints: set[str] = field(default_factory=set)
    lock: threading.Lock = field(default_factory=threading.Lock)

    def __post_init__(self) -> None:
        self.judge = Judge(self.tell, self.complain)
        self.judge.start()

    def send(self, message: dict[str, object]) -> None:
        """Writes a message."""
        body = json.dumps({"jsonrpc": "2.0", **message}).encode()
        with self.lock:
            self.out.write(b"Content-Length: %d\r\n\r\n" % len(body) + body)
            self.out.flush()

    def tell(self, name: str, version: int, found: list[Diagnostic]) -> None:
        """Tells what there is to say of a text, where it hasn't changed since."""
        text = self.texts.get(name)
        if text and text.document.version == version:
            shown = [diagnostic.shown() for diagnostic in found]
            self.send({"method": "textDocument/publishDiagnostics", "params": {"uri": name, "version": version, "diagnostics": shown}})

    def complain(self, why: str) -> None:
        """Shows once why nothing can be told."""
        if why not in self.complaints:
            self.complaints.add(why)
            self.send({"method": "window/showMessage", "params": {"type": 1, "message": why}})

    def take(self, body: bytes) -> None:
        """Takes a message, and answers it where it asks."""
        try:
            message = json.loads(body)
        except (ValueError, RecursionError) as error:
            self.send({"id": None, "error": {"code": PARSE, "message": f"this is no JSON: {error}"}})
            return
        if not isinstance(message, dict) or not isinstance(message.get("method"), str):
            return
        asks, number = "id" in message, message.get("id")
        try:
            answer = self.answer(message["method"], message.get("params") or {})
        except Refused as refused:
            if asks:
                self.send({"id": number, "error": {"code": refused.number, "message": str(refused)}})
            return
        if asks:
            self.send({"id": number, "result": answer})

    def answer(self, method: str, params: Params) -> object:
        """The answer to a question, or nothing behind a notice."""
        does = METHODS.get(method)
        if not does:
            raise Refused(METHOD, f"the method {method} isn't known")
        if self.is_shut and method != "exit":
            raise Refused(REQUEST, "the server was shut down")
        try:
            return does(self, params)
        except (KeyError, TypeError, AttributeError, IndexError, ValueError) as error:
            raise Refused(PARAMS, f"the words of {method} can't be read: {type(error).__name__} {error}") from error

    def open_text(self, params: Params) -> Open:
        """The text that a question is about."""
        name = params["textDocument"]["uri"]
        if name not in self.texts:
            raise Refused(PARAMS, f"{name} isn't open")
        return self.texts[name]

    def asked(self, params: Params) -> tuple[Open, Asked | None]:
        """The text and the word at the position that a question is about."""
        text = self.open_text(params)
        document, place = text.document, text.document.place(params["position"])
        number = document.position(place)["line"]
        start = document.starts[number]
        return text, word_at(document.text, place, start, start + len(document.line(number)))


def initialize(server: Server, params: Params) -> object:
    """What the server can do."""
    able = {"positionEncoding": "utf-16", "textDocumentSync": {"openClose": True, "change": 2, "save": True}, "hoverProvider": True,
            "definitionProvider": True, "documentSymbolProvider": True, "completionProvider": {"triggerCharacters": ['"']}}
    return {"capabilities": able, "serverInfo": {"name": "stilfloor", "version": __version__}}


def nothing(server: Server, params: Params) -> object:
    """Takes a notice that changes nothing."""
    return None


def leave(server: Server, params: Params) -> object:
    """Ends the server."""
    server.is_left = True
    return None


def shutdown(server: Server, params: Params) -> object:
    """Takes no further question."""
    server.is_shut = True
    server.judge.end()
    return None


def opened(server: Server, params: Params) -> object:
    """Takes a text that is opened."""
    item = params["textDocument"]
    document = Document(str(item["text"]), int(item.get("version", 0)))
    server.texts[item["uri"]] = Open(document)
    server.judge.ask(item["uri"], Wanted(document, True))
    return None


def changed(server: Server, params: Params) -> object:
    """Takes changes of a text."""
    text = server.open_text(params)
    item = params["textDocument"]
    text.document = text.document.changed(params["contentChanges"], int(item.get("version") or text.document.version + 1))
    text.found = None
    server.judge.ask(item["uri"], Wanted(text.document, False))
    return None


def saved(server: Server, params: Params) -> object:
    """Judges a text that was saved."""
    server.judge.ask(params["textDocument"]["uri"], Wanted(server.open_text(params).document, True))
    return None


def closed(server: Server, params: Params) -> object:
    """Forgets a text."""
    name = params["textDocument"]["uri"]
    server.judge.ask(name, None)
    server.texts.pop(name, None)
    server.send({"method": "textDocument/publishDiagnostics", "params": {"uri": name, "diagnostics": []}})
    return None


def hover(server: Server, params: Params) -> object:
    """What a name is, and where it is declared."""
    text, asked = server.asked(params)
    found = text.names().of(asked.word, asked.kind) if asked else []
    if not asked or not found:
        return None
    lines = [f"{each.kind} `{each.name}`" + (f": {each.what}" if each.what else "")
             + f"\n\ndeclared in line {text.document.position(each.start)['line'] + 1}" for each in found[:8]]
    return {"contents": {"kind": "markdown", "value": "\n\n".join(lines)}, "range": text.document.range(asked.start, asked.end)}


def definition(server: Server, params: Params) -> object:
    """Where a name is declared."""
    text, asked = server.asked(params)
    found = text.names().of(asked.word, asked.kind) if asked else []
    return [{"uri": params["textDocument"]["uri"], "range": text.document.range(each.start, each.end)} for each in found]


def _symbol(document: Document, each: Declared) -> dict[str, object]:
    return {"name": each.name, "detail": each.what[:200], "kind": SYMBOLS.get(each.kind, BLOCK), "range": document.range(each.start, each.until),
            "selectionRange": document.range(each.start, each.end)}


def _block_symbol(document: Document, block: Block, found: list[Declared]) -> dict[str, object]:
    whole = document.range(block.start, min(block.closed + 1, len(document.text)))
    chosen = document.range(*block.named) if block.name else document.range(block.start, block.start + len(block.keyword))
    inside = [_symbol(document, each) for each in found if each.start >= block.opened]
    return {"name": f"{block.keyword} {block.name}".strip(), "kind": BLOCK, "range": whole, "selectionRange": chosen, "children": inside}


def symbols(server: Server, params: Params) -> object:
    """The blocks of a text, with the names that each declares."""
    text = server.open_text(params)
    return [_block_symbol(text.document, block, found) for block, found in text.names().blocks if block.keyword]


def completion(server: Server, params: Params) -> object:
    """Keywords and names that may go on at a position; behind a word that wants a kind of names those alone."""
    text = server.open_text(params)
    document, place = text.document, text.document.place(params["position"])
    front = document.text[max(0, place - 4096) : place]
    begun = BEGUN.search(front)
    before, part = (begun[1] or "", begun[2]) if begun else ("", "")
    kinds = {"pattern", "pattern burst"} if LISTED.search(front) else {BEHIND[before]} if before in BEHIND else None
    span = document.range(place - len(part), place)
    items = [_item(each.name, each.kind, each.what, span) for each in text.names().all() if not kinds or each.kind in kinds]
    if not kinds:
        items += [{"label": word, "kind": KEYWORD, "textEdit": {"range": span, "newText": word}} for word in KEYWORDS]
    return {"isIncomplete": False, "items": items}


def _item(name: str, kind: str, what: str, span: object) -> dict[str, object]:
    written = name if PLAIN.fullmatch(name) else f'"{name}"'
    return {"label": name, "kind": COMPLETIONS.get(kind, 9), "detail": f"{kind} {what}".strip()[:200], "filterText": written,
            "textEdit": {"range": span, "newText": written}}


METHODS: dict[str, Callable[[Server, Params], object]] = {
    "initialize": initialize, "initialized": nothing, "shutdown": shutdown, "exit": leave, "$/cancelRequest": nothing, "$/setTrace": nothing,
    "workspace/didChangeConfiguration": nothing, "textDocument/didOpen": opened, "textDocument/didChange": changed,
    "textDocument/didSave": saved, "textDocument/didClose": closed, "textDocument/hover": hover, "textDocument/definition": definition,
    "textDocument/documentSymbol": symbols, "textDocument/completion": completion}


def serve(given: IO[bytes], out: IO[bytes]) -> int:
    """Answers messages until `exit` or their end; the exit status is 0 where the server was shut down before."""
    server = Server(out)
    for body in messages(given):
        server.take(body)
        if server.is_left:
            break
    server.judge.end()
    return 0 if server.is_shut else 1


def main() -> int:
    """The word `server`."""
    return serve(sys.stdin.buffer, sys.stdout.buffer)
