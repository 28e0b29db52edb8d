"""Checks the expressions that the reference prints: on small matrices, cut at every place, each has the value that the block
holds by the definition of states.

    python3 tests/check_expressions.py [--all]

Without `--all` the operations of a few random jobs and of every ninth structure and prime are looked at, with it all of them.
"""

import random
import sys
from itertools import combinations_with_replacement, product as cartesian
from pathlib import Path

HERE = Path(__file__).resolve().parent
sys.path.insert(0, str(HERE))

from evaluate import Whole  # noqa: E402
from generators.expressions import ALL, grid_operations  # noqa: E402
from generators.limits import text as job_text  # noqa: E402
from generators.operations import FORMS, operation  # noqa: E402
from reference.families import counts_of, splits  # noqa: E402
from reference.issue import family_of  # noqa: E402
from reference.job_text import read_job  # noqa: E402
from reference.model import Matrix  # noqa: E402
from reference.partitioned import pme_text, row_by_row  # noqa: E402
from reference.scanner import scan  # noqa: E402
from reference.solutions import Bad, solve  # noqa: E402
from reference.worksheet_text import worksheet_text  # noqa: E402
from reference.worksheets import made  # noqa: E402

PRIMES = (101, 4294967291)
STEP = 9
TRIES = 40


def chosen_operations(step):
    """The operations that are looked at: named ones, each structure and prime in each form, or every so manieth, and random
    ones."""
    rng = random.Random(step)
    drawn = [operation(rng, "q", FORMS[number % len(FORMS)]) for number in range(60)]
    return [*read_job(scan(job_text(ALL))).operations, *list(grid_operations())[::step], *drawn]


def small_statement(rng, operation, prime):
    """The lengths of an operation's dimensions, its matrices and what the work matrix becomes; again where that has a bad
    pivot, and None where it always has: where two factors with the same diagonal are subtracted."""
    for _ in range(TRIES):
        lengths = [rng.choice((1, 2, 2, 3)) for _ in operation.dims]
        matrices = [Matrix(lengths[one.rows], lengths[one.cols], [
            [rng.randrange(prime) for _ in range(lengths[one.cols])] for _ in range(lengths[one.rows])])
            for one in operation.operands()]
        try:
            return lengths, matrices, solve(operation, matrices[1:], matrices[0], prime)
        except Bad:
            pass
    return None


def cuts(lengths, split, parts):
    """The edges of the parts of each dimension, the split ones cut in every way into so many parts, which may be empty."""
    inner = [combinations_with_replacement(range(length + 1), parts - 1) if dim in split else [()]
             for dim, length in enumerate(lengths)]
    for chosen in cartesian(*inner):
        yield [(0, *edges, length) for edges, length in zip(chosen, lengths)]


def product_sum(whole, task, i, j):
    """What the product of an update is at an entry of the whole matrix, added or subtracted as it is."""
    operation, bound = whole.operation, whole.bound
    x = whole.named("X", None, False)[0].cells
    if task.kind == "term":
        term = operation.terms[task.term - 1]
        f, g = bound.factor(term.first).cells, bound.factor(term.second).cells
        inner = whole.part(operation.factor_dims(term.first)[1], task.k)
        return (-1 if term.minus else 1) * sum(f[i][k] * g[k][j] for k in inner)
    inner = whole.part(operation.work.rows if task.kind == "left" else operation.work.cols, task.k)
    if task.kind == "right":
        factor = bound.factor(operation.t if operation.form == "right" else operation.u).cells
        return (1 if operation.minus else -1) * sum(x[i][k] * factor[k][j] for k in inner)
    if operation.form in ("lu", "ldl"):
        low, up, mid = (whole.named("X", seen, False)[0].cells for seen in "lud")
        if operation.form == "lu":
            return -sum(low[i][k] * up[k][j] for k in inner)
        return -sum(low[i][k] * mid[k][k] * low[j][k] for k in inner)
    t = bound.factor(operation.t).cells
    return -sum(t[i][k] * x[k][j] for k in inner)


def held(whole, i, j, done):
    """What a block holds by these tasks on the entries in the structure: the solution where it is solved for, and else the old
    block with the products of the tasks."""
    work = whole.operation.work
    rows, cols = whole.part(work.rows, i), whole.part(work.cols, j)
    solved = any(task.kind == "solve" for task in done)
    found = {}
    for at, place in whole.places(i, j):
        r, c = rows[at], cols[place]
        if solved or not done:
            found[at, place] = (whole.after if solved else whole.matrices[work.name]).cells[r][c]
        else:
            old = whole.matrices[work.name].cells[r][c]
            found[at, place] = (old + sum(product_sum(whole, task, r, c) for task in done)) % whole.modulus
    return found


def agrees(whole, text, i, j, due):
    """Whether the text of a block's expression has these entries."""
    value = whole.value(text, i, j)
    return all(value.cells[at][place] == entry for (at, place), entry in due.items())


def check_pme(operation, prime, statement):
    """Along each split, cut at every place, the expressions have the values of the solution's blocks: with all tasks done, so
    that a block without a task to solve for it holds the sum of all products."""
    lengths, matrices, after = statement
    for split in splits(operation):
        lines = pme_text(operation, split).split("\n")
        blocks = row_by_row(operation, counts_of(operation, split, 2))
        for edges in cuts(lengths, split, 2):
            whole = Whole(operation, matrices, after, prime, edges)
            for line, (i, j) in zip(lines[1:], blocks):
                name, text = line.split(" = ")
                rows, cols = whole.part(operation.work.rows, i), whole.part(operation.work.cols, j)
                due = {(at, place): after.cells[rows[at]][cols[place]] for at, place in whole.places(i, j)}
                assert name == f"X[{i},{j}]" and agrees(whole, text, i, j, due), (line, lengths, edges)


def check_worksheets(rng, operation, prime, statement):
    """By some variants, the comments of a worksheet's states have the values that the blocks hold, for parts of any length."""
    lengths, matrices, after = statement
    count = family_of(operation).count()
    for number in {1, count, rng.randrange(1, count + 1)}:
        variant = family_of(operation).at(number)
        sheet = made(operation, variant)
        lines = [line for line in worksheet_text(operation, sheet).split("\n") if line.startswith(("before", "after"))]
        every = list(cuts(lengths, variant[0], 3))
        for edges in rng.sample(every, min(3, len(every))):
            whole = Whole(operation, matrices, after, prime, edges)
            for line, state in zip(lines, [*sheet.before, *sheet.after], strict=True):
                text = line.split(" # ")[1]
                due = held(whole, state.row, state.col, state.done)
                assert agrees(whole, text, state.row, state.col, due), (line, lengths, edges)


def main():
    """Checks all chosen operations."""
    for number, one in enumerate(chosen_operations(1 if "--all" in sys.argv else STEP)):
        rng, prime = random.Random(f"expressions:{number}"), PRIMES[number % len(PRIMES)]
        statement = small_statement(rng, one, prime)
        if statement:
            check_pme(one, prime, statement)
            check_worksheets(rng, one, prime, statement)
    print("the printed expressions have the values that blocks hold")


if __name__ == "__main__":
    main()
