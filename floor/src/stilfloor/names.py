"""Names of files, nets and signals as they are told and written: a name stays a name, on one line, whatever it holds."""

import os
import re
import tempfile
from collections.abc import Iterator
from contextlib import contextmanager
from typing import IO

from stilfloor.faults import TOOL, UNREADABLE, Fault

PLAIN = re.compile(r"[A-Za-z0-9_/][A-Za-z0-9_./-]*")
IDENTIFIER = re.compile(r"[A-Za-z_][A-Za-z0-9_$]*")
UNQUOTED = re.compile(r'[^\x20-\x7e]|["\\]')


def remark(text: str) -> str:
    """A text that can stand in a remark of a netlist and between the double quotes of a STIL text."""
    return UNQUOTED.sub("_", text)


@contextmanager
def plain_room() -> Iterator[str]:
    """A folder for some time whose name is letters, digits, dots and dashes, so that it can stand in a script."""
    for place in (tempfile.gettempdir(), "/tmp", "/var/tmp"):
        if PLAIN.fullmatch(place) and os.access(place, os.W_OK):
            with tempfile.TemporaryDirectory(dir=place) as room:
                yield room
            return
    raise Fault(TOOL, "there is no folder for files of a short life with a plain name: let the variable TMPDIR name one")


@contextmanager
def replacing(path: str, encoding: str | None = "utf-8") -> Iterator[IO]:
    """A file that takes the place of `path` when all is written, so that nothing is half written; without an encoding it takes bytes.

    A device or a pipe is written as it is. A link is replaced, and what it leads to stays.
    """
    mode = "wb" if encoding is None else "w"
    newline = None if encoding is None else ""
    try:
        if os.path.exists(path) and not os.path.isfile(path):
            with open(path, mode, encoding=encoding, newline=newline) as out:
                yield out
            return
        handle, made = tempfile.mkstemp(prefix=".stilfloor.", dir=os.path.dirname(path) or ".")
        try:
            with open(handle, mode, encoding=encoding, newline=newline) as out:
                yield out
            os.chmod(made, 0o666 & ~_mask())
            os.replace(made, path)
        except BaseException:
            os.unlink(made)
            raise
    except BrokenPipeError:
        raise
    except OSError as error:
        raise Fault(UNREADABLE, f"{error.strerror}", path) from error


def _mask() -> int:
    """The bits that new files don't have."""
    mask = os.umask(0)
    os.umask(mask)
    return mask
