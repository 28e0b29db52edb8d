"""A case: words and an input, and as a folder of files also the output and the status that are due.

    words    one word a line; no line for no words
    input    the bytes of standard input; missing where it is empty
    stdout   the bytes that are due
    status   the exit status that is due
    streams  unreadable, unwritable or pieces; missing for an input that is read and an output that is written as usual
    needs    the flags of built.py that have to be set for it, or `without FLAG`, one a line; missing for none
"""

from dataclasses import dataclass, field
from pathlib import Path


@dataclass
class Case:
    """Words (str, or bytes where they are no text), an input, how its streams are, and the flags that the case needs."""

    name: str
    words: list
    data: bytes = b""
    streams: str = ""
    needs: list = field(default_factory=list)


def made_case(case):
    """A case that is given as a function that makes it, or whose input is; else the same."""
    case = case() if callable(case) else case
    return Case(case.name, case.words, case.data(), case.streams, case.needs) if callable(case.data) else case


def decoded(word):
    """A word as str where it is UTF-8, else as bytes."""
    try:
        return word.decode("utf-8")
    except UnicodeDecodeError:
        return word


def encoded(word):
    """The bytes of a word."""
    return word.encode("utf-8") if isinstance(word, str) else word


def lines_of(path):
    """The lines of a file, without their line feeds; none where there is no file."""
    return path.read_bytes().split(b"\n")[:-1] if path.exists() else []


def load(folder):
    """The case of a folder, with the output and the status that it has there."""
    folder = Path(folder)
    words = [decoded(word) for word in lines_of(folder / "words")]
    data = (folder / "input").read_bytes() if (folder / "input").exists() else b""
    needs = [flag.decode("ascii") for flag in lines_of(folder / "needs")]
    streams = b"".join(lines_of(folder / "streams")).decode("ascii")
    case = Case(folder.name, words, data, streams, needs)
    return case, int((folder / "status").read_text()), (folder / "stdout").read_bytes()


def save(folder, case, status, output):
    """Writes a case as a folder of files."""
    folder = Path(folder)
    folder.mkdir(parents=True, exist_ok=True)
    (folder / "words").write_bytes(b"".join(encoded(word) + b"\n" for word in case.words))
    if case.data:
        (folder / "input").write_bytes(case.data)
    (folder / "stdout").write_bytes(output)
    (folder / "status").write_text(f"{status}\n")
    if case.streams:
        (folder / "streams").write_text(case.streams + "\n")
    if case.needs:
        (folder / "needs").write_text("".join(flag + "\n" for flag in case.needs))
