"""Inputs at each limit, one on each side. They are the same in every run.

Each group yields names, words and inputs; an input that is large is a function that makes it.
"""

from case import Case

RUN = ["run", "--block", "1", "--workers", "1"]
INPUT_LIMIT = 67_108_864

MUL = """operation mul
dims m n k
work W general m n
known A general m k
known B general k n
equation X = W + A * B
end
"""
SQUARE = """operation square
dims n
work W general n n
known A general n n
known B general n n
equation X = W + A * B
end
"""
LU = """operation lu
dims n
work W general n n
equation lu X = W
end
"""


def text(*parts, modulus=7):
    """A job text with these parts behind its first two lines."""
    return ("flame 1\nmodulus " + str(modulus) + "\n" + "".join(parts)).encode("ascii")


def matrix(name, rows, cols, entry="0"):
    """A matrix block with one entry everywhere."""
    row = " ".join([entry] * cols) + "\n" if cols else ""
    return f"matrix {name} {rows} {cols}\n" + row * rows + "end\n"


def identity(name, n):
    """The block of an identity matrix."""
    rows = "".join(" ".join("1" if i == j else "0" for j in range(n)) + "\n" for i in range(n))
    return f"matrix {name} {n} {n}\n" + rows + "end\n"


def counts():
    """One more than there may be, and just as many: operations, matrices, statements, dimensions, known operands,
    prints."""
    operations = [MUL.replace("mul", f"mul{number}") for number in range(17)]
    matrices = [matrix(f"M{number}", number % 3, number % 2) for number in range(33)]
    ones = "".join(matrix(name, 1, 1, "1") for name in "ABC")
    one_print = [f"print M{number}\n" for number in range(32)]
    knowns = [f"known K{number} general n n\n" for number in range(7)]
    for count in (16, 17):
        yield f"{count} operations", RUN, text(*operations[:count])
        yield f"{count} operations derived", ["derive"], text(*operations[:count])
        yield f"{count} statements", RUN, text(MUL, ones, "do mul C A B\n" * count, "print C\n")
    yield "32 matrices and prints", RUN, text(*matrices[:32], *one_print)
    yield "33 matrices", RUN, text(*matrices)
    yield "33rd matrix is named twice", RUN, text(*matrices[:32], matrices[0])
    for count in (6, 7):
        dims = "dims " + " ".join(f"d{number}" for number in range(count)) + "\n"
        yield f"{count} dimensions", ["derive"], text(
            "operation q\n", dims, "work W general d0 d1\nequation X = W\nend\n")
        yield f"{count} known operands", ["derive"], text(
            "operation q\ndims n\nwork W general n n\n", *knowns[:count], "equation X = W + K0 * K1\nend\n")
    six = "operation q\ndims n\nwork W general n n\n" + "".join(knowns[:6])
    yield "7th known is malformed", ["derive"], text(six, "known K7 general n\nequation X = W\nend\n")
    yield "six known operands in a Sylvester equation", ["derive"], text(
        "operation q\ndims m n k l\nwork W general m n\nknown T lower m m\nknown U unitupper n n\n"
        "known A general m k\nknown B general k n\nknown C general m l\nknown D general l n\n"
        "equation T * X - X * U = W + A * B - C * D\nend\n")


def great_families():
    """Operations with many tasks in the cut of a pair of dimensions."""
    square = "known A general m m\nknown B general m n\nknown C general m n\nknown D general n n\n"
    terms = "W + A * B + C * D\nend\n"
    head = "operation q\ndims m n\nwork W general m n\n"
    yield "family of 16 tasks of two terms", ["derive"], text(head, square, "equation X = ", terms)
    yield "family of 28 tasks", ["derive"], text(
        head, "known T lower m m\nknown U upper n n\n", square, "equation T * X + X * U = ", terms)
    yield "family of two terms without a dimension of their own", ["derive"], text(
        "operation q\ndims m k\nwork W general m m\nknown A general m k\nknown B general k m\n"
        "equation X = W + A * B - A * B\nend\n")


def most_variants():
    """The operation with the most variants, 1960, that a search over some thousands found."""
    yield "1960 variants", ["derive"], text(
        "operation q\ndims n k\nwork W general n n\nknown T upper n n\nknown U lower n n\nknown A general n n\n"
        "known B symmetric n n\nknown C general k n\nequation T * X - X * U = W + A' * B + C' * C\nend\n")


def names_and_numbers():
    """Names of 32 and 33 bytes, and numbers at the limits of the modulus and of entries."""
    for length in (32, 33):
        name = "n" * length
        yield f"names of {length} bytes", RUN, text(matrix(name, 1, 1), f"print {name}\n")
        yield f"first word of {length} bytes", RUN, text(f"{name} A 1 1\n")
    for modulus in (0, 1, 2, 4294967295, 4294967296, 2 ** 64 + 2, 10 ** 30):
        yield f"modulus {modulus}", RUN, text(matrix("A", 1, 1, "1"), "print A\n", modulus=modulus)
    for entry in (4294967294, 4294967295, 2 ** 64, 2 ** 64 + 1, 10 ** 5000):
        name = entry if entry < 10 ** 30 else "of 5001 digits"
        yield f"entry {name}", RUN, text(matrix("A", 1, 1, "1" + "0" * 5000 if entry == 10 ** 5000 else str(entry)),
                                         "print A\n", modulus=4294967295)


def sizes():
    """Rows, columns and entries at their limits."""
    for rows, cols in ((1024, 1), (1, 1024), (1024, 0), (0, 1024), (1025, 0), (0, 1025), (1025, 1), (1, 1025)):
        yield f"{rows} by {cols}", RUN, text(matrix("A", rows, cols, "3"), "print A\n")
    for number in (2 ** 32, 2 ** 32 + 1, 2 ** 64, 10 ** 40):
        yield f"{number} rows", RUN, text(f"matrix A {number} 1\nend\n")
    yield "4194304 entries", RUN, lambda: text(full(), matrix("E", 0, 1024), "print E\n")
    yield "4194305 entries", RUN, lambda: text(full(), matrix("E", 1, 1), "print E\n")
    for modulus in (4294967291, 4294967295):
        yield f"1024 great products modulo {modulus}", ["run", "--block", "32", "--workers", "1"], text(
            MUL, matrix("A", 1, 1024, str(modulus - 1)), matrix("B", 1024, 1, str(modulus - 1)), matrix("W", 1, 1),
            "do mul W A B\nprint W\n", modulus=modulus)
    yield "1024 by 1024 from an inner dimension of 1", ["run", "--block", "32", "--workers", "1"], lambda: text(
        MUL, matrix("A", 1024, 1, "5"), matrix("B", 1, 1024, "3"), matrix("W", 1024, 1024, "1"),
        "do mul W A B\nprint W\n", modulus=11)


def full():
    """Four matrices of 1024 by 1024, which have as many entries as there may be."""
    return "".join(matrix(name, 1024, 1024) for name in "ABCD")


def bytes_of_input():
    """An input of as many bytes as there may be, and of one more."""
    job = text(MUL, "".join(matrix(name, 1, 1, "1") for name in "ABC"), "do mul C A B\nprint C\n")
    for size in (INPUT_LIMIT, INPUT_LIMIT + 1):
        yield f"{size} blanks", RUN, lambda size=size: b" " * size
        yield f"{size} bytes, a job and blanks", RUN, lambda size=size: job + b" " * (size - len(job))
    yield f"{INPUT_LIMIT} bytes, a comment and a job", RUN, lambda: (
        b"#" * (INPUT_LIMIT - len(job) - 1) + b"\n" + job)
    yield f"{INPUT_LIMIT + 1} blanks for bad words", ["derive", "x"], lambda: b" " * (INPUT_LIMIT + 1)
    yield f"{INPUT_LIMIT + 1} bad bytes", ["derive"], lambda: b"@" * (INPUT_LIMIT + 1)
    yield "1000000 line feeds", ["derive"], lambda: b"\n" * 1_000_000


def steps():
    """Parts and steps at their limits."""
    cube = SQUARE + "".join(matrix(name, 32, 32) for name in "ABC")
    more = SQUARE + "".join(matrix(name, 32, 32) for name in "ABC") + "".join(matrix(name, 1, 1) for name in "DEF")
    yield "262144 steps", RUN, text(cube, "do square C A B\n" * 8, "print C\n")
    yield "262145 steps", RUN, text(more, "do square C A B\n" * 8, "do square F D E\n", "print C\n")
    yield "lu of 32 parts", RUN, text(LU, identity("A", 32), "do lu A\nprint A\n")
    yield "lu of 33 parts", RUN, text(LU, identity("A", 33), "do lu A\nprint A\n")
    yield "33 parts in statement 2", RUN, text(
        MUL, LU, identity("B", 2), matrix("A", 33, 1), matrix("C", 33, 2), matrix("D", 1, 2),
        "do lu B\ndo mul C A D\nprint A\n")
    for block, size in ((2, 64), (2, 65), (31, 992), (31, 993)):
        yield f"{size} rows in blocks of {block}", ["run", "--block", str(block), "--workers", "1"], text(
            MUL, matrix("A", size, 1, "2"), matrix("B", 1, 1, "3"), matrix("C", size, 1, "1"),
            "do mul C A B\nprint C\n")


def limit_cases():
    """All cases at limits, those that take longest first."""
    for group in (bytes_of_input, sizes, steps, counts, great_families, most_variants, names_and_numbers):
        for name, words, data in group():
            yield Case(f"limit: {name}", words, data)
