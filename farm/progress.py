"""What is said while parts run: a bar on a terminal, and each part that is run again."""
import subprocess
import sys
import time
from typing import Any
from work import Work

# how often it is looked, in seconds; and with how many parts that are missing less often
LOOK, MANY, SELDOM = 0.5, 256, 5
BAR = 30


def clock(seconds: float) -> str:
    """Seconds as people read them."""
    minutes, rest = divmod(int(seconds), 60)
    hours, minutes = divmod(minutes, 60)
    return f"{hours}:{minutes:02}:{rest:02}" if hours else f"{minutes}:{rest:02}"


def reason(status: int) -> str:
    """Why a part gave no answer."""
    return f"its program was ended by signal {status - 128}" if status > 128 else f"its program ended with status {status}"


class Progress:
    """The parts that are missing of a working folder, since when they run, and how often each was begun."""

    def __init__(self, work: Work) -> None:
        self.work, self.begun = work, time.monotonic()
        self.missing = work.missing()
        self.first = len(self.missing)
        self.tries = {k: self.size(k) for k in self.missing}
        self.seen = 0.0
        self.is_drawn = False

    def size(self, k: int) -> int:
        """How long the list of a part's tries is."""
        path = self.work.of(k, "tries")
        return path.stat().st_size if path.exists() else 0

    def again(self) -> None:
        """Tells the parts that were begun once more since the last look."""
        for k in self.missing:
            size = self.size(k)
            if size == self.tries[k]:
                continue
            count = self.work.of(k, "tries").read_text().count("\n")
            self.tries[k] = size
            failed = self.work.of(k, "failed")
            if count > 1 and failed.exists():
                self.say(f"part {k} is run again (try {count}): {reason(int(failed.read_text()))}")

    def say(self, text: str) -> None:
        """Says something, in place of the bar."""
        front = "\r\033[K" if self.is_drawn else ""
        print(f"{front}farm: {text}", file=sys.stderr, flush=True)
        self.is_drawn = False

    def draw(self) -> None:
        """Draws the bar: parts that are done, time gone and, as far as it can be told, time left."""
        parts, left = self.work.parts, len(self.missing)
        gone, ran = time.monotonic() - self.begun, self.first - left
        rest = f"{clock(gone * left / ran)} left" if ran else "the time left isn't known yet"
        full = BAR * (parts - left) // parts
        bar = "#" * full + " " * (BAR - full)
        print(f"\r\033[K[{bar}] {parts - left} of {parts} parts, {clock(gone)} gone, {rest}", end="", file=sys.stderr, flush=True)
        self.is_drawn = True

    def look(self, is_last: bool = False) -> None:
        """Looks what has changed, where it is time for that."""
        every = SELDOM if len(self.missing) > MANY else LOOK
        if not is_last and time.monotonic() - self.seen < every:
            return
        self.seen = time.monotonic()
        try:
            self.again()
            self.missing = [k for k in self.missing if self.work.status(k) is None]
        except (OSError, ValueError):
            # (a part writes just now what is read here)
            return
        if sys.stderr.isatty():
            self.draw()

    def end(self) -> None:
        """Looks for the last time, and leaves the bar's line."""
        self.look(True)
        if self.is_drawn:
            print(file=sys.stderr, flush=True)
            self.is_drawn = False


def watched(progress: Progress, ran: "subprocess.Popen[Any]") -> int:
    """Waits for a process, looks now and then, and answers its status."""
    while True:
        progress.look()
        try:
            return ran.wait(LOOK)
        except subprocess.TimeoutExpired:
            pass
