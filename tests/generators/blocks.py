"""Parts and steps at their limits, and which refusal comes first."""

import random
from functools import partial

from case import Case
from reference.job_text import read_job
from reference.model import Job, Matrix, Statement
from reference.scanner import scan
from reference.steps import STEP_LIMIT, step_count

from .limits import LU, MUL, RUN, SQUARE, identity, matrix, text
from .operations import FORMS, operation, operation_rows
from .spelling import plain
from .words import PARTS, words_under

STEP_JOBS = 12

# The dimensions of `mul`, declared in another order than they are met in.
TURNED = MUL.replace("operation mul", "operation turned").replace("dims m n k", "dims k n m")
LOW = "operation low\ndims n m\nwork W general n m\nknown T lower n n\nequation T * X = W\nend\n"
UNIT = LOW.replace("operation low", "operation unit").replace("lower", "unitlower")
SQR = "operation sqr\ndims n k\nwork W lower n n\nknown A general n k\nequation X = W + A * A'\nend\n"


def product_of(name, rows, cols, inner):
    """The matrices of a product with these lengths, and its statement."""
    shapes = (("C", rows, cols), ("A", rows, inner), ("B", inner, cols))
    return "".join(matrix(one, r, c, "1") for one, r, c in shapes) + f"do {name} C A B\nprint C\n"


def parts():
    """Each dimension on both sides of the limit of parts, alone and with others; the first declared one is named."""
    for block in (1, 3):
        least, most = PARTS * block, PARTS * block + 1
        for shape in ((most, 1, 1), (1, most, 1), (1, 1, most), (most, most, 1), (1, most, most), (most, 1, most),
                      (most, 0, 0), (0, most, 0), (0, 0, most), (least, 1, 1), (1, least, 1), (1, 1, least),
                      (least, 0, 1), (least - 1, 2, least)):
            for name, block_text in (("mul", MUL), ("turned", TURNED)):
                if name == "mul" or shape.count(most) > 1:
                    named = " by ".join(map(str, shape))
                    yield f"{name} of {named} in blocks of {block}", words_under(block), text(
                        block_text, product_of(name, *shape))
    yield "33 rows and another dimension of one operand", RUN, text(
        SQR, matrix("W", 1, 1), matrix("A", 1, 33, "1"), "do sqr W A\n")
    yield "1024 rows in blocks of 31", words_under(31), text(MUL, product_of("mul", 1024, 1, 1))
    yield "1024 rows in blocks of 32", words_under(32), text(MUL, product_of("mul", 1024, 1, 1))
    yield "33 parts of what no statement reads", RUN, text(
        LU, MUL, matrix("A", 33, 33), matrix("B", 0, 33), identity("C", 2), "do lu C\nprint C\n")


def order_of_refusals():
    """Parts before steps, both before pivots, the first statement first, and faults of the text before all."""
    wide, tall = matrix("A", 1, 33), matrix("B", 33, 1)
    small = matrix("C", 1, 1) + matrix("D", 33, 33)
    zeros = matrix("Z", 2, 2)
    yield "33 parts in both statements", RUN, text(MUL, wide, tall, small, "do mul C A B\ndo mul D B A\nprint C\n")
    yield "33 parts in statement 3", RUN, text(MUL, LU, wide, tall, small, identity("E", 32),
                                               "do lu E\ndo lu C\ndo mul D B A\nprint C\n")
    yield "a bad pivot and then 33 parts", RUN, text(MUL, LU, wide, tall, small, zeros, "do lu Z\ndo mul C A B\n")
    cube = SQUARE + MUL + "".join(matrix(name, 32, 32) for name in "EFG") + wide + tall + small
    most = "do square G E F\n" * 8
    yield "too many steps and then 33 parts", RUN, text(cube, most, "do mul C A B\n")
    yield "too many steps and a bad pivot", RUN, text(
        LU, cube, zeros, "do lu Z\n", most, "print G\n")
    yield "33 parts and then a fault", RUN, text(MUL, wide, tall, small, "do mul C A B\nprint X\n")
    yield "too many steps and then a fault", RUN, text(LU, cube, zeros, most, "do lu Z\nprint G\nprint G\n")
    yield "33 parts verified", ["verify"], text(
        MUL, wide, tall, matrix("C", 1, 1), "do mul C A B\n", matrix("C", 1, 1).replace("matrix", "after"))
    yield "33 parts derived", ["derive"], text(MUL, wide, tall, small, "do mul C A B\n")


def operation_of(block):
    """The operation that a text states."""
    return read_job(scan(text(block))).operations[0]


def square_steps(made):
    """The steps of a statement of this operation in which each dimension has as many parts as it may have."""
    job = Job(7, matrices=[Matrix.zero(PARTS, PARTS)])
    return step_count(job, Statement(made, 0, [0] * len(made.knowns)), 1)


def filler(rest):
    """The matrices and the statements of products with just so many steps under blocks of one entry."""
    cubes, rest = divmod(rest, PARTS ** 3)
    layers, rest = divmod(rest, PARTS ** 2)
    rows, ones = divmod(rest, PARTS)
    shapes = (("C", PARTS, PARTS, PARTS, cubes), ("L", PARTS, PARTS, layers, 1), ("R", PARTS, 1, rows, 1),
              ("O", 1, 1, ones, 1))
    matrices = statements = ""
    for name, m, n, k, times in shapes:
        if times and k:
            matrices += matrix(name + "w", m, n) + matrix(name + "a", m, k) + matrix(name + "b", k, n)
            statements += f"do mul {name}w {name}a {name}b\n" * times
    return matrices, statements


def step_job(made, steps):
    """A job with a statement of this operation, on identity matrices, and just so many steps in all."""
    names = [f"M{number}" for number in range(len(made.knowns) + 1)]
    own = "".join(identity(name, PARTS) for name in names)
    return text(MUL, plain(operation_rows(made)).decode("ascii"), own, *filler(steps - square_steps(made)),
                f"do q {' '.join(names)}\nprint M0\n")


def step_operation(number):
    """The form and the operation of one of these jobs."""
    form = FORMS[number % len(FORMS)]
    return form, operation(random.Random(f"steps:{number}"), "q", form, terms=1 + number // len(FORMS))


def solve_text(form, structure):
    """The text of an operation that solves from the left, or from the right, by a factor of this structure."""
    dim, equation = ("n", "T * X = W") if form == "left" else ("m", "X * T = W")
    return (f"operation q\ndims n m\nwork W general n m\nknown T {structure} {dim} {dim}\n"
            f"equation {equation}\nend\n")


def solve_steps():
    """Solves by a factor of each structure, with as many steps as there may be and one more: the step that tests pivots
    counts where the factor has pivots to be tested."""
    for form in ("left", "right"):
        for structure in ("lower", "unitlower", "upper", "unitupper", "diagonal"):
            block = solve_text(form, structure)
            own = square_steps(operation_of(block))
            for more in (0, 1):
                yield f"{form} by {structure} among {STEP_LIMIT + more} steps", RUN, text(
                    MUL, block, identity("T", PARTS), identity("W", PARTS), *filler(STEP_LIMIT + more - own),
                    "do q W T\nprint W\n")


def steps():
    """Just as many steps as there may be, and one more, with a statement of each form among them; the step for the
    pivots is counted."""
    for number in range(STEP_JOBS):
        form, made = step_operation(number)
        for more in (0, 1):
            yield f"{form} {number} among {STEP_LIMIT + more} steps", RUN, partial(step_job, made, STEP_LIMIT + more)
    rest = filler(STEP_LIMIT - square_steps(operation_of(UNIT)))
    for name, block in (("unit", UNIT), ("low", LOW)):
        yield f"{name} at the limit of steps", RUN, text(
            MUL, block, identity("T", PARTS), identity("W", PARTS), *rest, f"do {name} W T\nprint W\n")
    yield "262144 steps on blocks of up to two", words_under(2), text(
        MUL, matrix("A", 64, 63, "3"), matrix("B", 63, 63, "4"), matrix("C", 64, 63, "5"), "do mul C A B\n" * 8, "print C\n")


def block_cases():
    """All these cases, those that take longest first."""
    for group in (steps, solve_steps, parts, order_of_refusals):
        for name, words, data in group():
            yield Case(f"blocks: {name}", words, data)
