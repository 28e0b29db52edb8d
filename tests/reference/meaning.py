"""What a job means: its matrices after all statements, or the first statement with a bad pivot."""

from .algebra import Bound
from .model import BadPivot
from .solutions import Bad, solve


def meaning(job):
    """The last matrices, or BadPivot."""
    matrices = list(job.matrices)
    for number, statement in enumerate(job.statements, 1):
        knowns = [matrices[known] for known in statement.knowns]
        try:
            matrices[statement.work] = solve(
                statement.operation, knowns, matrices[statement.work], job.modulus)
        except Bad as bad:
            return BadPivot(number, *bad.place)
    return matrices


def first_difference(job, afters):
    """The first statement and place where a given `after` matrix isn't due; None where all are right.
    Each statement is held against the matrices that those before it are said to have left."""
    matrices = list(job.matrices)
    for number, (statement, after) in enumerate(zip(job.statements, afters), 1):
        bound = Bound(statement.operation, [matrices[known] for known in statement.knowns], job.modulus)
        place = bound.first_difference(matrices[statement.work], after)
        if place is not None:
            return number, *place
        matrices[statement.work] = after
    return None
