"""A cursor over the lines of a text: what every reader goes by."""

from .faults import Fault
from .scanner import is_well_spelled


class Cursor:
    """The lines that are left, and the end's line."""

    def __init__(self, lines, end):
        self.lines = lines
        self.at = 0
        self.end = end

    def next(self):
        """The next line with tokens, or None at the end."""
        if self.at == len(self.lines):
            return None
        self.at += 1
        return self.lines[self.at - 1]

    def due(self):
        """The next line, where one is due; Syntax at the end's line where there is none."""
        line = self.next()
        if line is None:
            raise Fault("Syntax", self.end)
        return line

    def word_next(self, word):
        """Whether the next line begins with this word."""
        return self.at < len(self.lines) and self.lines[self.at].is_word(word)

    def more_due(self, line):
        """Behind this line another one of its block is due: Syntax at the end's line where the text ends on it."""
        if line.number == self.end:
            raise Fault("Syntax", self.end)


def wants(line, is_of_form):
    """Syntax where a line isn't of its form, or has a name that is too long or a number with a leading zero."""
    if not is_of_form or not all(map(is_well_spelled, set(line.tokens))):
        raise Fault("Syntax", line.number)


def close(cursor):
    """Reads the bare line `end`."""
    line = cursor.due()
    wants(line, line.tokens == ["end"])
