"""Bad pivots at the first, a middle and the last place, in every form that has pivots, in the first and in a later
statement, and with moduli that are prime and not."""

import random

from case import Case
from reference.algebra import Bound
from reference.model import Factor, Job, Operand, Operation, Statement, Term

from .entries import non_unit, partner_matrix, random_matrix, triangular_matrix
from .jobs import job_rows
from .spelling import plain
from .words import words_under

ROWS, COLS = 5, 3
BLOCKS = (1, 2, 3, 5)
FORMS = (
    ("left", "lower", False), ("left", "upper", False), ("left", "lower", True), ("left", "diagonal", False),
    ("right", "lower", False), ("right", "upper", False), ("right", "upper", True), ("lu", None, False),
    ("ldl", None, False), ("sylvester", "lower", False), ("sylvester", "lower", True),
    ("sylvester", "unitupper", False),
)


def operation(form, structure, changed):
    """An operation of this form; `changed` primes T, or subtracts in a Sylvester equation."""
    general = Operand("W", "general", 0, 1)
    if form == "lu":
        return Operation("q", ["n"], Operand("W", "general", 0, 0), [], form)
    if form == "ldl":
        return Operation("q", ["n"], Operand("W", "lower", 0, 0), [], form)
    if form == "sylvester":
        knowns = [Operand("T", structure, 0, 0), Operand("U", "lower", 1, 1)]
        return Operation("q", ["n", "m"], general, knowns, form, t=Factor(0, False), u=Factor(1, False), minus=changed)
    t = 0 if form == "left" else 1
    return Operation("q", ["n", "m"], general, [Operand("T", structure, t, t)], form, t=Factor(0, changed))


def bad_knowns(rng, made, m, places):
    """Matrices for T and U with a bad pivot at the first of these places, and at the second one too."""
    if made.form in ("lu", "ldl"):
        return []
    n = ROWS if made.form in ("left", "sylvester") else COLS
    t = triangular_matrix(rng, n, m, False)
    if made.form != "sylvester":
        for place in places:
            t.cells[place % n][place % n] = non_unit(rng, m)
        return [t]
    is_unit = made.knowns[0].structure == "unitupper"
    u = partner_matrix(rng, t, made.knowns[0].structure, COLS, m, made.minus, False)
    for place in places:
        at = min(place, COLS - 1)
        of_t = 1 if is_unit else t.cells[place][place]
        u.cells[at][at] = (non_unit(rng, m) - of_t) * (-1 if made.minus else 1) % m
    return [t, u]


def bad_work(rng, made, m, place):
    """A work matrix; for `lu` and `ldl` the product of factors of which the pivot at this place is bad."""
    if made.form not in ("lu", "ldl"):
        return random_matrix(rng, ROWS, COLS, m)
    after = triangular_matrix(rng, ROWS, m, False)
    after.cells[place][place] = non_unit(rng, m)
    return Bound(made, [], m).left_side(after)


def pivot_job(seed, form, m, places, statement):
    """A job whose statement of this number has the bad pivot; those before it are products."""
    rng = random.Random(seed)
    made = operation(*form)
    add = Operation("add", ["n"], Operand("W", "general", 0, 0), [Operand("A", "general", 0, 0)], "assign",
                    terms=[Term(False, Factor(0, False), Factor(0, True))])
    job = Job(m, [made, add])

    def matrix(value):
        job.names.append(f"M{len(job.names)}")
        job.matrices.append(value)
        return len(job.names) - 1

    for _ in range(statement - 1):
        knowns = [matrix(random_matrix(rng, 2, 2, m))]
        job.statements.append(Statement(add, matrix(random_matrix(rng, 2, 2, m)), knowns))
    knowns = [matrix(known) for known in bad_knowns(rng, made, m, places)]
    job.statements.append(Statement(made, matrix(bad_work(rng, made, m, places[0])), knowns))
    job.prints = list(range(len(job.names)))
    return job


def crossed_job(m, minus, pairs):
    """A Sylvester equation with bad pivots at these places."""
    rng = random.Random(f"crossed:{m}:{minus}:{pairs}")
    made = operation("sylvester", "lower", minus)
    t = triangular_matrix(rng, ROWS, m, False)
    u = partner_matrix(rng, t, "lower", COLS, m, minus, False)
    for i, j in pairs:
        u.cells[j][j] = (non_unit(rng, m) - t.cells[i][i]) * (-1 if minus else 1) % m
    return Job(m, [made], ["W", "T", "U"], [random_matrix(rng, ROWS, COLS, m), t, u], [Statement(made, 0, [1, 2])], [0])


def crossed_cases():
    """Bad pivots of which the first by rows isn't the first by columns, and under some block sizes not the first by
    blocks."""
    for m in (101, 4294967291, 4294967295):
        for minus in (False, True):
            for pairs in (((0, 2), (1, 0)), ((2, 1), (3, 0)), ((1, 2), (2, 1), (4, 0))):
                data = plain(job_rows(crossed_job(m, minus, pairs)))
                for block in BLOCKS:
                    name = f"sylvester {'-' if minus else '+'} modulo {m} at {pairs}, block {block}"
                    yield Case(f"pivot: {name}", words_under(block), data)


def pivot_cases():
    """Cases for each form, place and modulus: under blocks of one entry, in which the place is one of several, of which the
    last is short, and of which there is one."""
    for number, form in enumerate(FORMS):
        for m in (101, 6, 4294967295):
            for places in ((0, 4), (2, 3), (4,)):
                statement = 1 + (number + places[0]) % 3
                name = f"{form[0]} {form[1]} {form[2]} modulo {m} at {places[0]}"
                job = pivot_job(name, form, m, places, statement)
                data = plain(job_rows(job))
                for block in BLOCKS:
                    yield Case(f"pivot: {name}, block {block}", words_under(block), data)
    yield from crossed_cases()
