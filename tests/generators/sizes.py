"""Great and thin matrices in every form: on each side of the sizes where code branches, and at the limit of a text.

Square factors have 128 or 129 rows, and products an inner dimension of 204, 205 or 1024; beside them stand matrices of
few rows or columns. For square matrices of 1024 rows the reference would take minutes: there the solution comes first,
factors have few entries in each row, and what is due is known from them.
"""

import random
from functools import partial

from case import Case
from reference.matrix_text import matrix_text
from reference.meaning import meaning
from reference.model import Factor, Job, Matrix, Operand, Operation, Statement, Term

from .after import blocks
from .entries import partner_matrix, planted, random_matrix, triangular_matrix
from .jobs import job_rows
from .spelling import plain
from .words import PARTS, words_under

MODULUS = 4294967291
GREATEST = 1024
# The rows of factors that are multiplied again, which takes the program some time.
LESS = 300
FACTORS = (128, 129)
# Rows of systems whose equations go in groups of twelve and by threes, with none, one or two left; and on each side of a buffer.
GROUPS = (12, 13, 14, 32, 33)
INNER = (204, 205, 1024)
# Rows that go in two parts, each greater than a buffer holds.
FAR = (258, 1024)
# Rows and columns that both go in two parts of more than 64.
WIDE = (130, 66)
# Columns on each side of 64 and 128, of a product that `verify` looks at.
COLUMNS = (64, 65, 129)


def words(n, parts):
    """The words of a run that cuts a length of n into so many parts, the last of which is short for most n."""
    return words_under(-(-n // parts))


def job_of(made, m, work, knowns):
    """A job of one statement, which prints its work matrix."""
    names = [made.work.name] + [operand.name for operand in made.knowns]
    return Job(m, [made], names, [work, *knowns], [Statement(made, 0, list(range(1, len(names))))], [0])


def product(rows, cols, inner, rng, m):
    """`X = W + A * B`."""
    knowns = [Operand("A", "general", 0, 2), Operand("B", "general", 2, 1)]
    made = Operation("q", ["m", "n", "k"], Operand("W", "general", 0, 1), knowns, "assign",
                     terms=[Term(False, Factor(0, False), Factor(1, False))])
    shapes = ((rows, cols), (rows, inner), (inner, cols))
    work, *matrices = (random_matrix(rng, r, c, m) for r, c in shapes)
    return job_of(made, m, work, matrices)


def solve_operation(form, structure, primed):
    """`T * X = W` or `X * T = W`, perhaps with the transpose of T."""
    t = 0 if form == "left" else 1
    return Operation("q", ["n", "m"], Operand("W", "general", 0, 1), [Operand("T", structure, t, t)], form,
                     t=Factor(0, primed))


def solve(form, structure, rows, cols, rng, m):
    """A job that solves by a factor of this structure."""
    n = rows if form == "left" else cols
    made = solve_operation(form, structure, form == "right")
    return job_of(made, m, random_matrix(rng, rows, cols, m), [triangular_matrix(rng, n, m, False)])


def sylvester(rows, cols, rng, m):
    """`T * X - X * U = W`."""
    made = Operation("q", ["n", "m"], Operand("W", "general", 0, 1),
                     [Operand("T", "lower", 0, 0), Operand("U", "lower", 1, 1)], "sylvester",
                     t=Factor(0, False), u=Factor(1, False), minus=True)
    t = triangular_matrix(rng, rows, m, False)
    u = partner_matrix(rng, t, "lower", cols, m, True, False)
    return job_of(made, m, random_matrix(rng, rows, cols, m), [t, u])


def factored(form, structure):
    """`lu X = W` or `ldl X = W`."""
    return Operation("q", ["n"], Operand("W", structure, 0, 0), [], form)


def factor_job(form, n, rng, m):
    """A job that factors a matrix of n rows."""
    made = factored(form, "lower" if form == "ldl" else "general")
    return job_of(made, m, planted(rng, made, [], n, n, m, False)[0], [])


def makers():
    """A name, the greatest size, and what makes the job from a generator and a modulus: square factors of n rows in
    each form with few columns or rows beside them, inner dimensions, and thin matrices."""
    for n in FACTORS:
        yield f"left of {n} rows", n, partial(solve, "left", "lower", n, 2)
        yield f"left of {n} rows, upwards", n, partial(solve, "left", "unitupper", n, 2)
        yield f"right of {n} columns", n, partial(solve, "right", "upper", 2, n)
        yield f"sylvester of {n} rows", n, partial(sylvester, n, 2)
        yield f"sylvester of {n} columns", n, partial(sylvester, 2, n)
        for form in ("lu", "ldl"):
            yield f"{form} of {n} rows", n, partial(factor_job, form, n)
    for n in GROUPS:
        yield f"left of {n} rows, upwards", n, partial(solve, "left", "unitupper", n, 3)
        yield f"right of {n} columns", n, partial(solve, "right", "lower", 3, n)
    for structure, other in (("unitlower", "lower"), ("diagonal", "upper")):
        yield f"left of {FAR[0]} rows, {structure}", FAR[0], partial(solve, "left", structure, FAR[0], 2)
        yield f"right of {FAR[0]} columns, {other}", FAR[0], partial(solve, "right", other, 2, FAR[0])
    yield f"sylvester of {FAR[0]} rows", FAR[0], partial(sylvester, FAR[0], 2)
    yield f"sylvester of {FAR[0]} columns", FAR[0], partial(sylvester, 2, FAR[0])
    rows, cols = WIDE
    yield f"left of {rows} by {cols}", rows, partial(solve, "left", "lower", rows, cols)
    yield f"right of {cols} by {rows}", rows, partial(solve, "right", "upper", cols, rows)
    yield f"sylvester of {rows} by {cols}", rows, partial(sylvester, rows, cols)
    yield f"product of {rows} by {cols}", rows, partial(product, rows, cols, cols)
    for inner in INNER:
        yield f"inner dimension of {inner}", inner, partial(product, 3, 5, inner)
    for rows, cols in [(2, cols) for cols in COLUMNS] + [(GREATEST, 2), (2, GREATEST)]:
        yield f"{rows} by {cols}", max(rows, cols), partial(product, rows, cols, 3)


def made_job(name, maker):
    """The job of this name."""
    return maker(random.Random(f"sizes:{name}"), MODULUS)


def run_text(name, maker):
    """The text of a job."""
    return plain(job_rows(made_job(name, maker)))


def behind(job, after):
    """The text of a job of one statement with this matrix behind it."""
    return plain(job_rows(job) + [row for part in blocks(job, [after]) for row in part])


def verify_text(name, maker, change):
    """The text of a job with what it leaves behind it, to whose last entry a number is added."""
    job = made_job(name, maker)
    after = meaning(job)[0].copy()
    after.cells[-1][-1] = (after.cells[-1][-1] + change) % MODULUS
    return behind(job, after)


def sparse_factor(rng, n, m, is_lower):
    """For each row, from column to entry: ones or units on the diagonal, and entries beside it and farther off."""
    rows = [{i: 1 if is_lower else rng.randrange(1, m)} for i in range(n)]
    for i in range(1, n):
        for other in {i - 1, max(i - 700, 0), i // 2}:
            row, col = (i, other) if is_lower else (other, i)
            rows[row][col] = rng.randrange(m)
    return rows


def packed(n, lower, upper):
    """The matrix with the entries of the first factor below the diagonal and of the second from it on."""
    cells = [[0] * n for _ in range(n)]
    for i in range(n):
        for j, entry in [*lower[i].items(), *upper[i].items()]:
            cells[i][j] = entry
    return Matrix(n, n, cells)


def multiplied(left, right, cols, m):
    """The product of two matrices that are given by rows; the second has so many columns."""
    cells = [[0] * cols for _ in left]
    for i, row in enumerate(left):
        for k, a in row.items():
            for j, b in right[k].items():
                cells[i][j] = (cells[i][j] + a * b) % m
    return Matrix(len(left), cols, cells)


def transposed(rows):
    """The transpose of a square matrix that is given by rows."""
    found = [{} for _ in rows]
    for i, row in enumerate(rows):
        for j, entry in row.items():
            found[j][i] = entry
    return found


def known_solve(form, n, rng, m):
    """A job that solves by a lower factor of n rows, or from the right by its transpose, and what it leaves."""
    lower = sparse_factor(rng, n, m, True)
    column = random_matrix(rng, n, 1, m)
    work = multiplied(lower, [dict(enumerate(row)) for row in column.cells], 1, m)
    t = packed(n, lower, [{}] * n)
    if form == "left":
        return job_of(solve_operation(form, "lower", False), m, work, [t]), column
    turned = [Matrix(1, n, [[row[0] for row in matrix.cells]]) for matrix in (work, column)]
    return job_of(solve_operation(form, "lower", True), m, turned[0], [t]), turned[1]


def known_factors(form, n, rng, m):
    """A job that factors a matrix with known factors, and what it leaves."""
    lower = sparse_factor(rng, n, m, True)
    if form == "lu":
        upper = sparse_factor(rng, n, m, False)
        return job_of(factored(form, "general"), m, multiplied(lower, upper, n, m), []), packed(n, lower, upper)
    pivots = [{i: rng.randrange(1, m)} for i in range(n)]
    scaled = [{j: entry * pivots[i][i] % m for j, entry in row.items()} for i, row in enumerate(transposed(lower))]
    work, after = multiplied(lower, scaled, n, m), packed(n, lower, pivots)
    for i in range(n):
        # What stands above the diagonal isn't read, and stays.
        for j in range(i + 1, n):
            work.cells[i][j] = after.cells[i][j] = (i + j) % m
    return job_of(factored(form, "lower"), m, work, []), after


def known(form, n, what):
    """Of a job of n rows with this form, whose result is known beforehand: its text, its result as text, or its text
    with the result behind it. The modulus is small, so that texts stay short."""
    maker = known_solve if form in ("left", "right") else known_factors
    job, after = maker(form, n, random.Random(f"sizes:{form}"), 101)
    if what == "result":
        return 0, matrix_text("W", after).encode("ascii")
    return behind(job, after) if what == "verify" else plain(job_rows(job))


def size_cases():
    """Each job, run and verified, with what is due; None where the reference says it. Texts and what is known are
    functions that make them."""
    for form, verified, parts in (("lu", LESS, PARTS), ("ldl", LESS, 3), ("left", GREATEST, 1), ("right", GREATEST, 31)):
        yield (Case(f"size: {form} of {GREATEST} rows in {parts} parts, run", words(GREATEST, parts),
                    partial(known, form, GREATEST, "run")), partial(known, form, GREATEST, "result"))
        yield (Case(f"size: {form} of {verified} rows, verify", ["verify"], partial(known, form, verified, "verify")),
               (0, b"verified 1\n"))
    for form in ("lu", "ldl", "left", "right"):
        for rows in FAR:
            yield (Case(f"size: {form} of {rows} rows in 2 parts, run", words(rows, 2), partial(known, form, rows, "run")),
                   partial(known, form, rows, "result"))
    for name, size, maker in makers():
        for parts in (1, 2, 8):
            case = Case(f"size: {name} in {parts} parts, run", words(size, parts), partial(run_text, name, maker))
            yield case, None
        yield Case(f"size: {name}, verify", ["verify"], partial(verify_text, name, maker, 0)), (0, b"verified 1\n")
        yield Case(f"size: {name}, verify last entry", ["verify"], partial(verify_text, name, maker, 1)), None
