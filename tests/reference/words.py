"""The words of a command: a table of forms. Words that are in no form are bad."""

import re
from typing import NamedTuple

NAME = re.compile(r"[A-Za-z][A-Za-z0-9_]{0,31}\Z")
NUMBER = re.compile(r"(0|[1-9][0-9]*)\Z")


class Command(NamedTuple):
    """A command's name and its parts: names, numbers and lists of numbers."""

    name: str
    parts: dict


def name(word):
    """A name of at most 32 bytes, or None."""
    return word if NAME.match(word) else None


def number(low, high):
    """A reader of a decimal number in this range without a leading zero."""
    def read(word):
        if not NUMBER.match(word) or len(word) > 10 or not low <= int(word) <= high:
            return None
        return int(word)

    return read


def numbers(word):
    """Numbers of variants with commas between, or None."""
    found = [number(1, 4_294_967_295)(part) for part in word.split(",")]
    return None if None in found else found


BLOCK = ("block", number(1, 1024))
WORKERS = ("workers", number(1, 16))
GENERATED = [("n", number(0, 1024)), ("m", number(2, 4_294_967_295)), ("seed", number(0, 4_294_967_295))]

# A word that stands as it is, or the name of a part with its reader.
FORMS = [
    ("derive", []),
    ("pme", [("op", name), ("first", name)]),
    ("pme", [("op", name), ("first", name), ("second", name)]),
    ("worksheet", [("op", name), ("number", number(1, 4_294_967_295))]),
    ("check", []),
    ("verify", []),
    ("make", GENERATED),
    ("run", ["--block", BLOCK, "--workers", WORKERS]),
    ("run", ["--block", BLOCK, "--workers", WORKERS, "--variants", ("variants", numbers)]),
    ("run", ["--block", BLOCK, "--workers", WORKERS, "--trace"]),
    ("run", ["--block", BLOCK, "--workers", WORKERS, "--variants", ("variants", numbers), "--trace"]),
    ("selfrun", GENERATED + ["--block", BLOCK, "--workers", WORKERS]),
]


def read_words(words):
    """The command that these words spell, or None. A word is a str, or bytes where it is no text."""
    for command, form in FORMS:
        if len(words) == 1 + len(form) and words[0] == command and all(isinstance(word, str) for word in words):
            parts = parts_of(form, words[1:])
            if parts is not None:
                return Command(command, parts)
    return None


def parts_of(form, words):
    """The parts that a form's words have, or None where one of them isn't as it has to be."""
    parts = {}
    for due, word in zip(form, words):
        if isinstance(due, str):
            if word != due:
                return None
            parts[due] = True
        else:
            part, reader = due
            parts[part] = reader(word)
            if parts[part] is None:
                return None
    return parts
