"""Matrices of whole numbers in files of other programs: Matrix Market, LinBox's SMS, CSV.

A matrix is a list of rows, each a list of whole numbers of any size and sign. What isn't a whole number is refused.
"""

import csv
import io
import os
import re
import sys
from fractions import Fraction

FORMATS = ("mtx", "mtx-coordinate", "sms", "csv")
BY_ENDING = {"mtx": "mtx", "mm": "mtx", "sms": "sms", "csv": "csv"}
# A text that names a matrix of more rows or columns than a job may have is refused before its zeros are made.
MOST = 1024
NUMBER = re.compile(r"[+-]?(\d+(\.\d*)?|\.\d+)([eEdD][+-]?\d{1,4})?")
FIELDS = ("integer", "unsigned-integer", "real", "double", "pattern")
SYMMETRIES = ("general", "symmetric", "skew-symmetric")


class Refused(Exception):
    """A sentence about what can't be done."""


def whole(text, place):
    """The whole number that a text spells; 2.0 and 1e3 are whole, 2.5 isn't."""
    if re.fullmatch(r"[+-]?\d+", text):
        return int(text)
    if not NUMBER.fullmatch(text):
        raise Refused(f"{place}: {text!r} isn't a whole number")
    number = Fraction(text.lower().replace("d", "e"))
    if number.denominator != 1:
        raise Refused(f"{place}: {text} isn't a whole number")
    return number.numerator


def counted(text, place):
    """A number of rows, columns, entries, or of a row or column."""
    if not re.fullmatch(r"\d+", text):
        raise Refused(f"{place}: {text!r} is no count")
    return int(text)


def zeros(rows, cols, place):
    """A matrix of zeros, where a job may have one of its size."""
    if rows > MOST or cols > MOST:
        raise Refused(f"{place}: {rows} rows and {cols} columns; a job's matrix has at most {MOST} of each")
    return [[0] * cols for _ in range(rows)]


class Lines:
    """The lines of a text that aren't blank, each as its words, with a name for each line's place."""

    def __init__(self, name, text, comment=None):
        numbered = enumerate(text.splitlines(), 1)
        self.lines = [(number, line.split()) for number, line in numbered
                      if line.strip() and not (comment and line.lstrip().startswith(comment))]
        self.name, self.at = name, 0

    def next(self, count, what):
        """The place and the words of the next line, which has to have so many."""
        if self.at == len(self.lines):
            raise Refused(f"{self.name}: the text ends where {what} is due")
        number, words = self.lines[self.at]
        self.at += 1
        place = f"{self.name}: line {number}"
        if len(words) != count:
            raise Refused(f"{place}: {len(words)} words where {what} is due")
        return place, words

    def end(self):
        """Refuses a text that goes on."""
        if self.at < len(self.lines):
            raise Refused(f"{self.name}: line {self.lines[self.at][0]}: nothing more is due")


class Sparse:
    """A matrix whose entries are put one by one, each once."""

    def __init__(self, rows, cols, place):
        self.matrix, self.rows, self.cols, self.given = zeros(rows, cols, place), rows, cols, set()

    def put(self, i, j, number, place):
        """Puts the entry in row i and column j, counted from 1."""
        if not (1 <= i <= self.rows and 1 <= j <= self.cols):
            raise Refused(f"{place}: ({i}, {j}) is outside of {self.rows} rows and {self.cols} columns")
        if (i, j) in self.given:
            raise Refused(f"{place}: ({i}, {j}) is given twice")
        self.given.add((i, j))
        self.matrix[i - 1][j - 1] = number

    def put_with_mirror(self, i, j, number, symmetry, place):
        """Puts an entry and, where the file gives one half of the matrix, that of the other half."""
        self.put(i, j, number, place)
        if symmetry != "general" and i != j:
            self.put(j, i, -number if symmetry == "skew-symmetric" else number, place)
        elif symmetry == "skew-symmetric" and number:
            raise Refused(f"{place}: the diagonal of a skew-symmetric matrix is 0")


def matrix_market(name, text):
    """A matrix of a Matrix Market file, array or coordinate."""
    first = text.split("\n", 1)[0].split()
    if len(first) != 5 or first[0] != "%%MatrixMarket" or first[1].lower() != "matrix":
        raise Refused(f"{name}: the first line isn't '%%MatrixMarket matrix LAYOUT FIELD SYMMETRY'")
    layout, field, symmetry = (word.lower() for word in first[2:])
    if layout not in ("array", "coordinate"):
        raise Refused(f"{name}: the layout {layout} is neither array nor coordinate")
    if field not in FIELDS:
        raise Refused(f"{name}: the field {field} is none of {', '.join(FIELDS)}")
    if symmetry not in SYMMETRIES:
        raise Refused(f"{name}: the symmetry {symmetry} is none of {', '.join(SYMMETRIES)}")
    lines = Lines(name, text, "%")
    if layout == "array":
        return market_array(lines, field, symmetry)
    return market_coordinates(lines, field, symmetry)


def market_array(lines, field, symmetry):
    """All entries column by column; of a symmetric matrix those on and below the diagonal, of a skew one those below."""
    place, words = lines.next(2, "the line of rows and columns")
    if field == "pattern":
        raise Refused(f"{lines.name}: an array has no pattern")
    rows, cols = (counted(word, place) for word in words)
    square(rows, cols, symmetry, place)
    matrix = Sparse(rows, cols, place)
    for j in range(1, cols + 1):
        first = {"general": 1, "symmetric": j, "skew-symmetric": j + 1}[symmetry]
        for i in range(first, rows + 1):
            place, (word,) = lines.next(1, f"the entry ({i}, {j})")
            matrix.put_with_mirror(i, j, whole(word, place), symmetry, place)
    lines.end()
    return matrix.matrix


def market_coordinates(lines, field, symmetry):
    """The entries that are named by row and column; the others are 0. Those of a pattern are 1."""
    place, words = lines.next(3, "the line of rows, columns and entries")
    rows, cols, count = (counted(word, place) for word in words)
    square(rows, cols, symmetry, place)
    matrix = Sparse(rows, cols, place)
    for _ in range(count):
        place, (i, j, *value) = lines.next(2 if field == "pattern" else 3, "an entry")
        number = whole(value[0], place) if value else 1
        matrix.put_with_mirror(counted(i, place), counted(j, place), number, symmetry, place)
    lines.end()
    return matrix.matrix


def square(rows, cols, symmetry, place):
    """Refuses a symmetric matrix that isn't square."""
    if symmetry != "general" and rows != cols:
        raise Refused(f"{place}: a {symmetry} matrix of {rows} rows has {cols} columns")


def by_scipy(path):
    """The matrix of a Matrix Market file of integers as scipy reads it, where it is installed; else None. What it doesn't
    read, or reads as numbers that are rounded, is left to the reader above, which names the line."""
    try:
        from scipy.io import mminfo, mmread
        rows, cols, _, layout, field, _ = mminfo(path)
        if field != "integer" or rows > MOST or cols > MOST:
            return None
        read = mmread(path)
        if layout == "array":
            return [[int(entry) for entry in row] for row in read]
        matrix = Sparse(rows, cols, path)
        for i, j, number in zip(read.row, read.col, read.data):
            matrix.put(int(i) + 1, int(j) + 1, int(number), path)
        return matrix.matrix
    except Exception:  # whatever it says, the reader above tells it by its line
        return None


def sms(name, text):
    """A matrix of an SMS file: rows, columns and a letter, entries by row and column from 1, and a line of three zeros."""
    lines = Lines(name, text)
    place, (rows, cols, _) = lines.next(3, "the line of rows, columns and a letter")
    matrix = Sparse(counted(rows, place), counted(cols, place), place)
    while True:
        place, (i, j, word) = lines.next(3, "an entry or the line 0 0 0")
        if (i, j, word) == ("0", "0", "0"):
            lines.end()
            return matrix.matrix
        matrix.put(counted(i, place), counted(j, place), whole(word, place), place)


def between_commas(text, place):
    """The whole number between two commas; one that blanks or other signs part is told what is due."""
    if re.search(r"[\s;|]", text):
        raise Refused(f"{place}: {text!r} isn't a whole number; the file is read as CSV, with a comma between two numbers")
    return whole(text, place)


def comma_separated(name, text):
    """A matrix with a line for each row and a comma between each two numbers."""
    reader = csv.reader(io.StringIO(text, newline=""))
    matrix = []
    for row in reader:
        if any(cell.strip() for cell in row):
            place = f"{name}: line {reader.line_num}"
            matrix.append([between_commas(cell.strip(), place) for cell in row])
            if len(row) != len(matrix[0]):
                raise Refused(f"{place}: {len(row)} numbers in a row; the first one has {len(matrix[0])}")
    if len(matrix) > MOST or (matrix and len(matrix[0]) > MOST):
        raise Refused(f"{name}: a job's matrix has at most {MOST} rows and columns")
    return matrix


def guessed(path, text):
    """The format of a file by the ending of its name, else by its first line."""
    ending = path.rsplit(".", 1)[-1].lower()
    if ending in BY_ENDING:
        return BY_ENDING[ending]
    if text.startswith("%%MatrixMarket"):
        return "mtx"
    return "sms" if re.match(r"\s*\d+\s+\d+\s+[A-Za-z]\s*\n", text) else "csv"


def read_text(path):
    """The text of a file, or of standard input for -."""
    try:
        data = sys.stdin.buffer.read() if path == "-" else open(path, "rb").read()
    except OSError as wrong:
        raise Refused(f"{path}: {wrong.strerror}") from None
    try:
        return data.decode("utf-8-sig")
    except UnicodeDecodeError:
        raise Refused(f"{path}: the file is no text") from None


def read_matrix(path, kind=None):
    """The matrix of a file in the given format, or in the one that its name or its first line tells."""
    text = read_text(path)
    kind = kind or guessed(path, text)
    if kind.startswith("mtx"):
        return (path != "-" and by_scipy(path)) or matrix_market(path, text)
    return {"sms": sms, "csv": comma_separated}[kind](path, text)


def matrix_file(matrix, cols, kind):
    """The text of a file in the given format; `cols` says how many columns a matrix without rows has."""
    rows = len(matrix)
    named = [(i, j, entry) for i, row in enumerate(matrix, 1) for j, entry in enumerate(row, 1) if entry]
    if kind == "csv":
        return "".join(",".join(map(str, row)) + "\n" for row in matrix)
    if kind == "sms":
        lines = [f"{rows} {cols} M", *(f"{i} {j} {entry}" for i, j, entry in named), "0 0 0"]
    elif kind == "mtx-coordinate":
        lines = ["%%MatrixMarket matrix coordinate integer general", f"{rows} {cols} {len(named)}",
                 *(f"{i} {j} {entry}" for i, j, entry in named)]
    else:
        lines = ["%%MatrixMarket matrix array integer general", f"{rows} {cols}",
                 *(str(row[j]) for j in range(cols) for row in matrix)]
    return "\n".join(lines) + "\n"


def printed_text(text):
    """Prints a text; 0, or 1 where it can't be written."""
    try:
        sys.stdout.write(text)
        sys.stdout.flush()
        return 0
    except OSError as wrong:  # who has ended before all was read says why; what Python still holds goes nowhere
        if not isinstance(wrong, BrokenPipeError):
            print(f"the output could not be written: {wrong.strerror}", file=sys.stderr)
        os.dup2(os.open(os.devnull, os.O_WRONLY), sys.stdout.fileno())
        return 1
