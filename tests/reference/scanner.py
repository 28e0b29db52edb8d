"""Tokens and lines of a text.

A token is a str: a Name begins with a letter, a Number with a digit, and everything else is a Sign.
"""

import re
from typing import NamedTuple

from .faults import Fault

BLANKS = b" \t\r"
DIGITS_AND_BLANKS = b"0123456789 \t\r"
TOKEN = re.compile(rb"[A-Za-z][A-Za-z0-9_]*|[0-9]+|[(),:=+\-*']")
NAME_LIMIT = 32
GREAT = 10 ** 19


class Line(NamedTuple):
    """A line that has tokens, with its number from 1."""

    number: int
    tokens: list

    def is_word(self, word):
        """Whether the line begins with this word."""
        return self.tokens[0] == word


class Text(NamedTuple):
    """The lines with tokens, and the end's line: the number of line feeds plus 1."""

    lines: list
    end: int


def is_name(token):
    """Whether a token is a Name, of any length."""
    return "A" <= token[0] <= "Z" or "a" <= token[0] <= "z"


def is_number(token):
    """Whether a token is a Number, of any spelling."""
    return "0" <= token[0] <= "9"


def is_well_spelled(token):
    """Whether a token is no name of more than 32 bytes and no number with a leading zero and a second digit."""
    if is_name(token):
        return len(token) <= NAME_LIMIT
    return token[0] != "0" or len(token) == 1


def value(token):
    """The value of a well spelled Number; numbers of more than 19 digits all count as 10 ** 19."""
    return int(token) if len(token) <= 19 else GREAT


def tokens_of(line, number):
    """The tokens of a line's bytes; BadByte where a byte outside a comment is in no token and no blank."""
    code = line.split(b"#", 1)[0]
    if not code.translate(None, DIGITS_AND_BLANKS):
        return code.decode("ascii").split()
    tokens = []
    at = 0
    while at < len(code):
        if code[at] in BLANKS:
            at += 1
            continue
        found = TOKEN.match(code, at)
        if found is None:
            raise Fault("BadByte", number)
        tokens.append(found.group().decode("ascii"))
        at = found.end()
    return tokens


def scan(data):
    """The text's lines that have tokens, or BadByte for the first bad byte of the whole input."""
    raw = data.split(b"\n")
    lines = []
    for number, line in enumerate(raw, 1):
        tokens = tokens_of(line, number)
        if tokens:
            lines.append(Line(number, tokens))
    return Text(lines, len(raw))


def before(text, word):
    """The text before the first line that begins with this word, whose number is then the end's line, and the
    lines from there on; where there is no such line, the whole text and no lines."""
    for at, line in enumerate(text.lines):
        if line.is_word(word):
            return Text(text.lines[:at], line.number), text.lines[at:]
    return text, []
