"""The partitioned matrix expression of an operation along a split: what each block holds in the end, and the tasks that get it
there."""

from .expressions import expression
from .families import counts_of
from .faults import Refusal
from .structures import inside
from .tasks import block_tasks, needs, tasks


def row_by_row(operation, counts):
    """The blocks of the work operand's structure, rows and columns ascending."""
    return [(i, j) for i in range(counts[operation.work.rows]) for j in range(counts[operation.work.cols])
            if inside(operation.work.structure, i, j)]


def split_of(operation, names):
    """The dimensions of these names; NoSplit where one isn't there or the second isn't declared after the first."""
    if not set(names) <= set(operation.dims):
        raise Refusal("NoSplit")
    split = tuple(map(operation.dims.index, names))
    if list(split) != sorted(set(split)):
        raise Refusal("NoSplit")
    return split


def pme_text(operation, split):
    """What `pme` prints."""
    counts = counts_of(operation, split, 2)
    every = tasks(operation, counts)
    lines = [" ".join(["pme", operation.name, "split", *(operation.dims[dim] for dim in split)])]
    for i, j in row_by_row(operation, counts):
        lines.append(f"X[{i},{j}] = {expression(operation, i, j, list(block_tasks(operation, counts, i, j)))}")
    lines.append(f"tasks {len(every)}")
    for number, task in enumerate(every, 1):
        needed = [str(place) for place, other in enumerate(every, 1) if needs(operation, task, other)]
        lines.append(" ".join([str(number), task.text(), *(["needs", *needed] if needed else [])]))
    return "\n".join([*lines, "end", ""])
