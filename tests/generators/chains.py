"""Jobs whose statements depend on each other: matrices that one leaves are read and written by others, also where
statements fail, so that steps of several statements use the same blocks; and matrices without rows or columns."""

import random

from case import Case
from reference.algebra import Bound
from reference.matrix_text import matrix_text
from reference.model import Job, Matrix, Statement

from .blocks import LOW
from .entries import non_unit, random_matrix, triangular_matrix
from .jobs import JobMaker, job_rows
from .limits import LU, MUL, text
from .operations import FORMS
from .pivots import operation as pivot_operation
from .spelling import plain
from .words import words_under

MODULI = (4294967291, 101, 4294967295, 6)
# Primes so great that hardly a pivot of random matrices is bad.
GREAT_PRIMES = (4294967291, 2147483647)
LENGTHS = (5, 7, 12)
CHAINS = 60
EMPTIES = 24
OPERATIONS = (
    LU + MUL + LOW + LOW.replace("operation low", "operation upp").replace("lower", "upper")
    + "operation sub\ndims n\nwork W general n n\nknown F general n n\nknown G general n n\n"
      "equation lu X = W - F * G\nend\n")


def chain_job(rng, m, lengths, bad, reuse):
    """A job of many statements on few matrices; where no pivot is to be bad, none that meets one."""
    maker = JobMaker(rng, lengths, bad, reuse)
    maker.job.modulus = m
    for form in FORMS:
        maker.add_operation(form)
    for _ in range(16):
        if maker.add_statement(rng.choice(maker.job.operations)) and maker.failed and not bad:
            maker.job.statements.pop()
            maker.failed = False
    maker.job.prints = list(range(len(maker.current)))
    return maker.job


def chains():
    """Square matrices of one size, which nearly all statements share."""
    for number in range(CHAINS):
        rng = random.Random(f"chains:{number}")
        n = LENGTHS[number % len(LENGTHS)]
        moduli, bad = (MODULI, 0.2) if number % 4 == 0 else (GREAT_PRIMES, 0)
        job = chain_job(rng, rng.choice(moduli), (n,), bad, rng.choice((0.5, 0.7, 0.9)))
        yield f"{number}, {n} rows", plain(job_rows(job)), (1, 2, n // 2 + 1, n)


def failing_factors(rng, m, n, place):
    """A matrix whose LU has its first bad pivot at this place."""
    after = triangular_matrix(rng, n, m, False)
    after.cells[place][place] = non_unit(rng, m)
    return Bound(pivot_operation("lu", None, False), [], m).left_side(after)


def failing_triangle(rng, m, n, place):
    """A matrix whose diagonal has its first bad pivot at this place."""
    matrix = triangular_matrix(rng, n, m, False)
    matrix.cells[place][place] = non_unit(rng, m)
    return matrix


# Statements on A, whose LU fails, on triangular matrices T and S, of which S has a bad pivot, and on others.
FAILURES = {
    "alone": ("lu A",),
    "before independent ones": ("lu A", "low B T", "mul C D D", "lu E"),
    "behind independent ones": ("low B T", "mul C D D", "lu A", "lu E"),
    "before one that fails": ("lu A", "low B S"),
    "before two that fail": ("lu A", "low B T", "low D S", "upp C S"),
    "behind one that fails": ("mul C D D", "low B S", "lu A"),
    "before one that reads it": ("lu A", "low B A", "mul C A A"),
    "before one that reads it and fails": ("lu A", "sub Z A N"),
    "before one that writes it": ("lu A", "mul A D D", "lu A"),
    "before one that writes what it read": ("low B S", "mul S D D", "low D T"),
    "behind one that writes it": ("mul A N N", "lu A", "mul B A A"),
    "behind a solve that it reads": ("low A U", "lu A", "low B S"),
}


def failures():
    """A factorisation that fails, at the first, the second and the last diagonal block, beside other statements."""
    n = 6
    for number, (what, statements) in enumerate(FAILURES.items()):
        for place in (0, 2, 3, 5):
            m = MODULI[(number + place) % len(MODULI)]
            rng = random.Random(f"failures:{what}:{place}")
            matrices = {name: random_matrix(rng, n, n, m) for name in "BCDE"}
            matrices["A"] = failing_factors(rng, m, n, place)
            matrices["E"] = Bound(pivot_operation("lu", None, False), [], m).left_side(triangular_matrix(rng, n, m, False))
            matrices["T"] = triangular_matrix(rng, n, m, False)
            matrices["S"] = failing_triangle(rng, m, n, n - 1 - place)
            matrices["U"] = Matrix(n, n, [[int(i == j) for j in range(n)] for i in range(n)])
            matrices["Z"], matrices["N"] = Matrix.zero(n, n), Matrix.zero(n, n)
            data = text(OPERATIONS, *(matrix_text(*one) for one in matrices.items()),
                        *(f"do {statement}\n" for statement in statements),
                        *(f"print {name}\n" for name in matrices), modulus=m)
            yield f"fails {what} at {place}", data, (1, 2, 3, 4, 6)


def empties():
    """Matrices of which many have no rows or no columns."""
    for number in range(EMPTIES):
        rng = random.Random(f"empties:{number}")
        job = chain_job(rng, rng.choice(MODULI), (0, 0, 1, 3), number % 4 // 3, 0.6)
        yield f"empty {number}", plain(job_rows(job)), (1, 2, 1024)
    for form in ("left", "right"):
        for place in (0, 1, 2, None):
            rng = random.Random(f"empties:{form}:{place}")
            t = triangular_matrix(rng, 3, 7, False)
            if place is not None:
                t.cells[place][place] = 0
            made = pivot_operation(form, "lower", False)
            work = Matrix.zero(3, 0) if form == "left" else Matrix.zero(0, 3)
            job = Job(7, [made], ["W", "T"], [work, t], [Statement(made, 0, [1])], [0])
            yield f"{form} solve of an empty matrix, bad pivot at {place}", plain(job_rows(job)), (1, 2, 3)


def chain_cases():
    """Each job under each of its block sizes."""
    for group in (chains, failures, empties):
        for name, data, blocks in group():
            for block in blocks:
                yield Case(f"chain: {name}, block {block}", words_under(block), data)
