"""Judges texts that are open in an editor, beside its questions: the refusal at once, the warnings of `lint` when nothing is typed."""

import os
import re
import subprocess
import sys
import tempfile
import threading
from collections.abc import Callable
from dataclasses import dataclass, field

from stilfloor import tester
from stilfloor.document import Document, Range
from stilfloor.faults import Fault
from stilfloor.sentences import refusal

# how many seconds nothing is typed before a text is judged
PAUSE = 0.1
# a text of more characters is looked through for warnings when it is opened or saved, and not while one types
MOST_TYPED = 1 << 18
LINE = re.compile(r":(\d+):\d+: (error|warning): (.*)", re.DOTALL)
SEVERITY = {"error": 1, "warning": 2}


@dataclass(slots=True)
class Diagnostic:
    """A line about a text, as an editor shows it."""

    range: Range
    severity: int
    message: str

    def shown(self) -> dict[str, object]:
        """What the protocol has of it."""
        return {"range": self.range, "severity": self.severity, "source": "stilfloor", "message": self.message}


# takes the name of a text, its version, and what is told of it
Tell = Callable[[str, int, list[Diagnostic]], None]


@dataclass(slots=True)
class Wanted:
    """A text that is to be judged, and whether it has just been opened or saved."""

    document: Document
    is_kept: bool


@dataclass
class Judge:
    """Judges the newest of each text in a thread of its own; `tell` takes what there is to tell, `complain` why nothing can be told."""

    tell: Tell
    complain: Callable[[str], None]
    waiting: dict[str, Wanted] = field(default_factory=dict)
    news: threading.Condition = field(default_factory=threading.Condition)
    is_ended: bool = False

    def start(self) -> None:
        """Begins to judge."""
        threading.Thread(target=self._work, daemon=True).start()

    def ask(self, name: str, wanted: Wanted | None) -> None:
        """Has a text judged in place of what it was before; without one it isn't judged any more."""
        with self.news:
            before = self.waiting.pop(name, None)
            if wanted:
                wanted.is_kept |= before is not None and before.is_kept
                self.waiting[name] = wanted
            self.news.notify()

    def end(self) -> None:
        """Ends the thread."""
        with self.news:
            self.is_ended = True
            self.news.notify()

    def _taken(self) -> tuple[str, Wanted] | None:
        """The next text, as soon as nothing is typed any more."""
        with self.news:
            while not self.is_ended and (not self.waiting or self.news.wait(PAUSE)):
                if not self.waiting:
                    self.news.wait()
            if self.is_ended:
                return None
            name = next(iter(self.waiting))
            return name, self.waiting.pop(name)

    def _is_stale(self, name: str) -> bool:
        with self.news:
            return self.is_ended or name in self.waiting

    def _work(self) -> None:
        while taken := self._taken():
            try:
                self._judge(*taken)
            except Fault as fault:
                self.complain(fault.told())
            except OSError as error:
                self.complain(f"stilfloor: error: a text can't be judged: {error}")

    def _judge(self, name: str, wanted: Wanted) -> None:
        document = wanted.document
        with tempfile.TemporaryDirectory(prefix="stilfloor-") as room:
            file = os.path.join(room, "text.stil")
            with open(file, "w", encoding="utf-8", errors="surrogatepass", newline="") as out:
                out.write(document.text)
            status, output = tester.run(["check", file])
            told = [refusal(output.decode("latin-1"), status, file).told()] if status else []
            self.tell(name, document.version, read_lines(document, file, told))
            if not status and (wanted.is_kept or len(document.text) <= MOST_TYPED):
                lines = self._lint(name, file)
                if lines:
                    self.tell(name, document.version, read_lines(document, file, lines))

    def _lint(self, name: str, file: str) -> list[str]:
        """The lines of `lint`, or none where the text has changed meanwhile."""
        # (the program is found once)
        folder = os.path.dirname(os.path.dirname(os.path.abspath(__file__)))
        paths = [folder, *filter(None, [os.environ.get("PYTHONPATH")])]
        more = {"PYTHONPATH": os.pathsep.join(paths), "PYTHONIOENCODING": "latin-1:replace", "STIL": tester.find_program()}
        run = subprocess.Popen([sys.executable, "-m", "stilfloor", "lint", "--", file], stdin=subprocess.DEVNULL, stdout=subprocess.PIPE,
                               stderr=subprocess.DEVNULL, encoding="latin-1", env={**os.environ, **more})
        while True:
            try:
                return str(run.communicate(timeout=PAUSE)[0]).splitlines()
            except subprocess.TimeoutExpired:
                if self._is_stale(name):
                    run.kill()
                    run.communicate()
                    return []


def read_lines(document: Document, file: str, lines: list[str]) -> list[Diagnostic]:
    """What lines say of a text that stands in a file."""
    found = []
    for line in lines:
        said = LINE.match(line.removeprefix(file))
        if line.startswith(file) and said:
            # (the program speaks in bytes, and the editor's text was handed to it in UTF-8)
            message = said[3].encode("latin-1", "replace").decode("utf-8", "replace")
            found.append(Diagnostic(document.words_of_line(int(said[1])), SEVERITY[said[2]], message))
    return found
