"""Matrices as text, both ways."""

from .cursor import close, wants
from .faults import Fault
from .model import Matrix
from .scanner import is_name, is_number, value

SIDE_LIMIT = 1024


def is_heading(line, word):
    """Whether a line is `WORD NAME ROWS COLS`."""
    tokens = line.tokens
    return (len(tokens) == 4 and tokens[0] == word and is_name(tokens[1])
            and is_number(tokens[2]) and is_number(tokens[3]))


def read_rows(cursor, rows, cols, modulus):
    """Reads the rows of a matrix and its line `end`."""
    due = rows if cols else 0
    cells = [read_row(cursor, cols, modulus) for _ in range(due)]
    close(cursor)
    return Matrix(rows, cols, cells if cols else [[] for _ in range(rows)])


def read_row(cursor, cols, modulus):
    """Reads a line of `cols` numbers below the modulus."""
    line = cursor.due()
    is_end = line.tokens == ["end"]
    different = set(line.tokens)
    wants(line, is_end or all(map(is_number, different)))
    cursor.more_due(line)
    if is_end or len(line.tokens) != cols:
        raise Fault("RowLength", line.number)
    values = {token: value(token) for token in different}
    if max(values.values()) >= modulus:
        raise Fault("EntryRange", line.number)
    return [values[token] for token in line.tokens]


def matrix_text(name, matrix):
    """The normal text of a matrix."""
    rows = [" ".join(map(str, row)) for row in matrix.cells if row]
    return "\n".join([f"matrix {name} {matrix.rows} {matrix.cols}", *rows, "end", ""])
