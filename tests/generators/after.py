"""Inputs of `verify`: jobs with right and wrong `after` blocks behind them."""

from reference.meaning import meaning
from reference.model import BadPivot, Matrix
from reference.structures import inside

from .entries import random_matrix
from .faulty import GREAT_NUMBERS
from .jobs import job_rows, matrix_rows
from .spelling import Row, spelled


def right_matrices(rng, job):
    """What stands after each statement, by the meaning of the job so far; random matrices behind a bad pivot."""
    found = []
    statements = job.statements
    for count in range(1, len(statements) + 1):
        job.statements = statements[:count]
        matrices = meaning(job)
        work = job.matrices[statements[count - 1].work]
        found.append(random_matrix(rng, work.rows, work.cols, job.modulus) if isinstance(matrices, BadPivot)
                     else matrices[statements[count - 1].work])
    job.statements = statements
    return found


def changed_entry(rng, job, statement, matrix):
    """The matrix with one entry changed, often at an end or outside the work operand's structure."""
    places = [(i, j) for i in range(matrix.rows) for j in range(matrix.cols)]
    structure = statement.operation.work.structure
    outside = [place for place in places if not inside(structure, *place)]
    if not places:
        return matrix
    i, j = rng.choice(rng.choice((places, places[-1:], places[:1], outside or places)))
    cells = [row[:] for row in matrix.cells]
    cells[i][j] = (cells[i][j] + rng.randrange(1, job.modulus)) % job.modulus
    return Matrix(matrix.rows, matrix.cols, cells)


def blocks(job, matrices):
    """The rows of the `after` blocks, one list for each statement."""
    return [matrix_rows(job.names[statement.work], matrix, "after")
            for statement, matrix in zip(job.statements, matrices)]


def garbled(rng, job, parts):
    """Changes the blocks: one missing, renamed, of another shape, surplus, out of order or garbled."""
    change = rng.randrange(9)
    at = rng.randrange(len(parts)) if parts else None
    if at is None or change == 0:
        name = rng.choice(job.names or ["A"])
        parts.append(rng.choice((
            [Row("after", "after", name, "0", "0"), Row("matend", "end")], [Row("other", "print", name)],
            [Row("other", "end")], [Row("other", "3")])))
    elif change == 1:
        del parts[at]
    elif change == 2:
        parts[at][0].tokens[1] = rng.choice(job.names + ["other", parts[at][0].tokens[1].swapcase()])
    elif change == 3:
        parts[at][0].tokens[rng.choice((2, 3))] = rng.choice(("0", "1", "2", "3", "1025", *GREAT_NUMBERS))
    elif change == 4:
        other = rng.randrange(len(parts))
        parts[at], parts[other] = parts[other], parts[at]
    elif change == 5:
        parts.insert(at, [row.copy() for row in parts[at]])
    else:
        garble_row(rng, rng.choice(parts[at]), job.modulus)


def garble_row(rng, row, modulus):
    """Changes the tokens of one row."""
    spot = rng.randrange(len(row.tokens))
    change = rng.randrange(5)
    if change == 0:
        row.tokens[spot] = rng.choice((str(modulus), str(modulus + 1), *GREAT_NUMBERS))
    elif change == 1:
        row.tokens.append(rng.choice(("0", "end", "-", "q" * 33)))
    elif change == 2 and len(row.tokens) > 1:
        del row.tokens[spot]
    elif change == 3:
        row.tokens[spot] = rng.choice(("end", "01", "x", "after", "matrix", "+"))
    else:
        row.tokens = rng.choice((["end"], ["after"], ["end", "end"]))


def verify_input(rng, job, wrong):
    """The text of a job and the blocks behind it. `wrong` is none, entry or garbled."""
    matrices = right_matrices(rng, job)
    if wrong == "entry" and matrices:
        for _ in range(rng.choice((1, 1, 2))):
            at = rng.randrange(len(matrices))
            matrices[at] = changed_entry(rng, job, job.statements[at], matrices[at])
    parts = blocks(job, matrices)
    if wrong == "garbled":
        garbled(rng, job, parts)
    rows = job_rows(job) + [row for part in parts for row in part]
    text = spelled(rng, rows)
    if wrong == "garbled" and rng.random() < 0.2:
        text = text[:rng.randrange(len(text) + 1)]
    return text
