"""Every structure of every operand in every form, with and without a prime: once each, in jobs of sixteen statements.

The modulus is 101. A matrix for T has a diagonal of 2 to 10 and one for U of 20 to 30, so all pivots have inverses but
where both are unit structures and subtracted; those statements stand in jobs of their own.
"""

import random
from itertools import product as cartesian

from case import Case
from reference.meaning import meaning
from reference.model import BadPivot, Factor, Job, Matrix, Operand, Operation, Statement, Term
from reference.structures import STRUCTURES, TRIANGULAR, UNIT, WORK_STRUCTURES

from .after import blocks
from .jobs import job_rows
from .spelling import plain
from .words import words_under

MODULUS = 101
ROWS, COLS = 5, 4
# Of one entry, in several parts of which the last is short for rows or columns or both, and one for all.
BLOCKS = (1, 2, 3, 4, 1024)
# The matrices that all statements read: square ones of both sizes, and one that isn't square.
KNOWN_SHAPES = ((ROWS, ROWS), (COLS, COLS), (ROWS, ROWS), (ROWS, COLS), (COLS, ROWS))
PRIMES = (False, True)


def products():
    """`X = W + F * G` and `X = W - F * G` for every pair of structures and primes, on a work operand of each
    structure that may be one in turn."""
    pairs = cartesian(STRUCTURES, PRIMES, STRUCTURES, PRIMES)
    for number, (first, first_primed, second, second_primed) in enumerate(pairs):
        work = Operand("W", WORK_STRUCTURES[number % 3], 0, 0)
        knowns = [Operand("A", first, 0, 0), Operand("B", second, 0, 0)]
        term = Term(number % 2 == 1, Factor(0, first_primed), Factor(1, second_primed))
        yield Operation("q", ["n"], work, knowns, "assign", terms=[term]), [0, 2]


def two_terms():
    """Two products of general operands that aren't square, with every choice of signs and primes."""
    for minus, second_minus, a, b in cartesian(PRIMES, repeat=4):
        knowns = [Operand("A", "general", *((1, 0) if a else (0, 1))),
                  Operand("B", "general", *((0, 1) if b else (1, 0)))]
        terms = [Term(minus, Factor(0, a), Factor(1, b)), Term(second_minus, Factor(1, not b), Factor(0, not a))]
        made = Operation("q", ["m", "k"], Operand("W", "general", 0, 0), knowns, "assign", terms=terms)
        yield made, [4 if a else 3, 3 if b else 4]


def solves():
    """`T * X = W` and `X * T = W` for every structure and prime of T and every structure of W."""
    for form, structure, primed, work in cartesian(("left", "right"), TRIANGULAR, PRIMES, WORK_STRUCTURES):
        if work == "general":
            t = 0 if form == "left" else 1
            dims, operand = ["n", "m"], Operand("W", work, 0, 1)
        else:
            t, dims, operand = 0, ["n"], Operand("W", work, 0, 0)
        yield Operation("q", dims, operand, [Operand("T", structure, t, t)], form, t=Factor(0, primed)), [t]


def sylvester(bad):
    """The Sylvester equation for every structure and prime of T and U and both signs; with `bad` those alone in
    which T and U are unit and subtracted."""
    for t, t_primed, u, u_primed, minus in cartesian(TRIANGULAR, PRIMES, TRIANGULAR, PRIMES, PRIMES):
        if (t in UNIT and u in UNIT and minus) == bad:
            knowns = [Operand("T", t, 0, 0), Operand("U", u, 1, 1)]
            yield Operation("q", ["n", "m"], Operand("W", "general", 0, 1), knowns, "sylvester",
                            t=Factor(0, t_primed), u=Factor(1, u_primed), minus=minus), [0, 1]


def with_terms():
    """Each form with a term, `op(T) * C`, that goes into the right side before the solution."""
    forms = ("left", "right", "sylvester", "lu", "ldl")
    for form, minus, primed in cartesian(forms, PRIMES, PRIMES):
        square = form in ("lu", "ldl")
        cols = 0 if square else 1
        work = Operand("W", "lower" if form == "ldl" else "general", 0, cols)
        t, u, c = Operand("T", "lower", 0, 0), Operand("U", "upper", 1, 1), Operand("C", "general", 0, cols)
        has_u = form in ("right", "sylvester")
        made = Operation("q", ["n"] if square else ["n", "m"], work, [t, u, c] if has_u else [t, c], form)
        made.terms = [Term(minus, Factor(0, primed), Factor(2 if has_u else 1, False))]
        if form in ("left", "sylvester"):
            made.t = Factor(0, primed)
        if form == "right":
            made.t = Factor(1, primed)
        if form == "sylvester":
            made.u, made.minus = Factor(1, not primed), minus
        yield made, [0, 1, 3] if has_u else [0, 2 if square else 3]


def shape_of(operand, made, knowns):
    """The shape of an operand, from the known matrices that share its dimensions; ROWS and COLS else."""
    sizes = {0: ROWS, 1: COLS}
    for known, number in zip(made.knowns, knowns):
        sizes[known.rows], sizes[known.cols] = KNOWN_SHAPES[number]
    return sizes[operand.rows], sizes[operand.cols]


def known_matrix(rng, number):
    """A matrix that all statements read."""
    rows, cols = KNOWN_SHAPES[number]
    low, high = (20, 30) if number == 1 else (2, 10)
    return Matrix(rows, cols, [
        [rng.randrange(low, high + 1) if i == j else rng.randrange(MODULUS) for j in range(cols)]
        for i in range(rows)])


def grid_job(seed, chosen):
    """A job with one statement for each of these operations."""
    rng = random.Random(seed)
    job = Job(MODULUS, names=[f"K{number}" for number in range(len(KNOWN_SHAPES))],
              matrices=[known_matrix(rng, number) for number in range(len(KNOWN_SHAPES))])
    for number, (made, knowns) in enumerate(chosen):
        made.name = f"q{number}"
        rows, cols = shape_of(made.work, made, knowns)
        job.operations.append(made)
        job.names.append(f"W{number}")
        job.matrices.append(Matrix(rows, cols, [[rng.randrange(MODULUS) for _ in range(cols)] for _ in range(rows)]))
        job.statements.append(Statement(made, len(job.matrices) - 1, knowns))
        job.prints.append(len(job.matrices) - 1)
    return job


def wrong_afters(job, matrices):
    """The matrices after each statement, once right, once with the last entry of the last one changed, and once with
    the first entry outside a structure changed."""
    yield "right", matrices
    last = matrices[-1].copy()
    last.cells[-1][-1] = (last.cells[-1][-1] + 1) % MODULUS
    yield "last entry", matrices[:-1] + [last]
    for at, statement in enumerate(job.statements):
        structure = statement.operation.work.structure
        if structure != "general":
            i, j = (0, 1) if structure == "lower" else (1, 0)
            other = matrices[at].copy()
            other.cells[i][j] = (other.cells[i][j] + 1) % MODULUS
            yield "outside a structure", matrices[:at] + [other] + matrices[at + 1:]
            return


def verified_cases(name, job):
    """The job with matrices behind it, right and wrong ones."""
    done = meaning(job)
    if isinstance(done, BadPivot):
        return
    for what, afters in wrong_afters(job, [done[statement.work] for statement in job.statements]):
        behind = [row for part in blocks(job, afters) for row in part]
        yield Case(f"{name}, verify {what}", ["verify"], plain(job_rows(job) + behind))


def grid_cases(built):
    """Each job, run under several block sizes, once derived, and where that is built verified."""
    groups = (("products", products(), 16), ("two terms", two_terms(), 16), ("solves", solves(), 16),
              ("sylvester", sylvester(False), 16), ("sylvester without inverse", sylvester(True), 1),
              ("with terms", with_terms(), 16))
    for name, operations, size in groups:
        operations = list(operations)
        for at in range(0, len(operations), size):
            job = grid_job(f"{name}:{at}", operations[at:at + size])
            data = plain(job_rows(job))
            for block in BLOCKS:
                yield Case(f"grid: {name} from {at}, run, block {block}", words_under(block), data)
            yield Case(f"grid: {name} from {at}, derive", ["derive"], data)
            if built.verify:
                yield from verified_cases(f"grid: {name} from {at}", job)
