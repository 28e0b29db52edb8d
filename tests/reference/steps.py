"""Steps of a run under a block size, as far as they are counted."""

from .faults import Refusal
from .tasks import block_order, block_tasks, has_pivots

PART_LIMIT = 32
STEP_LIMIT = 262_144


def part_counts(job, statement, block):
    """The number of parts of each dimension of a statement's operation."""
    operation = statement.operation
    counts = [0] * len(operation.dims)
    for operand, number in zip(operation.operands(), [statement.work, *statement.knowns]):
        matrix = job.matrices[number]
        counts[operand.rows] = -(-matrix.rows // block)
        counts[operand.cols] = -(-matrix.cols // block)
    return counts


def step_count(job, statement, block):
    """The number of a statement's steps."""
    operation, counts = statement.operation, part_counts(job, statement, block)
    blocks = block_order(operation, counts)
    return int(has_pivots(operation)) + sum(
        1 for i, j in blocks for _ in block_tasks(operation, counts, i, j))


def refuse_too_many(job, block):
    """TooManyParts for the first statement and dimension that has too many, then TooManySteps."""
    for number, statement in enumerate(job.statements, 1):
        for dim, count in enumerate(part_counts(job, statement, block)):
            if count > PART_LIMIT:
                raise Refusal(
                    f"TooManyParts statement {number} dimension {statement.operation.dims[dim]}")
    if steps_of(job, block) > STEP_LIMIT:
        raise Refusal("TooManySteps")


def steps_of(job, block):
    """The number of steps of all statements; those of one operation on as many parts are counted once."""
    counted = {}
    keys = [(statement.operation.name, *part_counts(job, statement, block)) for statement in job.statements]
    for key, statement in zip(keys, job.statements):
        if key not in counted:
            counted[key] = step_count(job, statement, block)
    return sum(counted[key] for key in keys)
