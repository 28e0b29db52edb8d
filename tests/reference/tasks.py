"""Block tasks of an operation: which exist, what they need, their classes and their order.

Dimensions are cut into parts, `counts` says how many each has. A task's indices are numbers of parts.
"""

from typing import NamedTuple

from .structures import inside, transposed

KIND_ORDER = {"term": 0, "left": 1, "right": 2, "solve": 3}


class Task(NamedTuple):
    """A task of block (i, j). `term` is 1 or 2 for a product of the equation's terms, else 0; `k` is its inner
    index, 0 for a solve."""

    kind: str
    term: int
    i: int
    j: int
    k: int

    def text(self):
        if self.kind == "solve":
            return f"solve({self.i},{self.j})"
        return f"{self.kind}{self.term or ''}({self.i},{self.j},{self.k})"


def factor_structure(operation, factor):
    """The structure of a factor, transposed where it is primed."""
    structure = operation.knowns[factor.known].structure
    return transposed(structure) if factor.primed else structure


def inner_dim(operation, task):
    """The dimension of a task's inner index, or None for a solve."""
    if task.kind == "term":
        return operation.factor_dims(operation.terms[task.term - 1].first)[1]
    return {"left": operation.work.rows, "right": operation.work.cols, "solve": None}[task.kind]


def indices(operation, task):
    """A task's indices, each with its dimension."""
    pairs = [(operation.work.rows, task.i), (operation.work.cols, task.j)]
    if task.kind != "solve":
        pairs.append((inner_dim(operation, task), task.k))
    return pairs


def has_left(operation, i, j, k):
    """Whether the update Left(i, j, k) is there, for a block in the work operand's structure."""
    form = operation.form
    if form == "lu":
        return k < min(i, j)
    if form == "ldl":
        return k < j
    return (form in ("left", "sylvester") and i != k and inside(factor_structure(operation, operation.t), i, k)
            and inside(operation.work.structure, k, j))


def has_right(operation, i, j, k):
    """Whether the update Right(i, j, k) is there, for a block in the work operand's structure."""
    if operation.form not in ("right", "sylvester"):
        return False
    factor = operation.t if operation.form == "right" else operation.u
    return (k != j and inside(factor_structure(operation, factor), k, j)
            and inside(operation.work.structure, i, k))


def block_tasks(operation, counts, i, j):
    """The tasks of one block, in order."""
    for number, term in enumerate(operation.terms, 1):
        first, second = (factor_structure(operation, factor) for factor in (term.first, term.second))
        for k in range(counts[operation.factor_dims(term.first)[1]]):
            if inside(first, i, k) and inside(second, k, j):
                yield Task("term", number, i, j, k)
    for k in range(counts[operation.work.rows]):
        if has_left(operation, i, j, k):
            yield Task("left", 0, i, j, k)
    for k in range(counts[operation.work.cols]):
        if has_right(operation, i, j, k):
            yield Task("right", 0, i, j, k)
    if operation.form != "assign":
        yield Task("solve", 0, i, j, 0)


def block_order(operation, counts):
    """The blocks of the work operand's structure in canonical order."""
    rows, cols = list(range(counts[operation.work.rows])), list(range(counts[operation.work.cols]))
    if operation.form in ("left", "sylvester"):
        if factor_structure(operation, operation.t) in ("upper", "unitupper"):
            rows.reverse()
    if operation.form in ("right", "sylvester"):
        factor = operation.t if operation.form == "right" else operation.u
        if factor_structure(operation, factor) in ("lower", "unitlower"):
            cols.reverse()
    return [(i, j) for i in rows for j in cols if inside(operation.work.structure, i, j)]


def tasks(operation, counts):
    """All tasks in canonical order."""
    return [task for i, j in block_order(operation, counts) for task in block_tasks(operation, counts, i, j)]


def blocks_read(operation, task):
    """The blocks of the solution that an update reads."""
    i, j, k = task.i, task.j, task.k
    if task.kind == "right":
        return [(i, k)]
    if task.kind == "left":
        return {"lu": [(i, k), (k, j)], "ldl": [(i, k), (k, k), (j, k)]}.get(operation.form, [(k, j)])
    return []


def needs(operation, a, b):
    """Whether task a needs task b."""
    if a.kind == "solve":
        if (a.i, a.j) == (b.i, b.j):
            return a != b
        diagonal = min(a.i, a.j)
        return (operation.form in ("lu", "ldl") and a.i != a.j and b.kind == "solve"
                and (b.i, b.j) == (diagonal, diagonal))
    return b.kind == "solve" and (b.i, b.j) in blocks_read(operation, a)


def task_class(operation, coarse, task, part_of):
    """The class of a task under a coarser cut: the coarse update with its indices where `coarse`, the set of the
    coarse tasks, has it, else the coarse solve. `part_of(dim, index)` gives the coarse part."""
    i, j = part_of(operation.work.rows, task.i), part_of(operation.work.cols, task.j)
    if task.kind != "solve":
        update = Task(task.kind, task.term, i, j, part_of(inner_dim(operation, task), task.k))
        if update in coarse:
            return update
    return Task("solve", 0, i, j, 0)


def has_pivots(operation):
    """Whether a statement of this operation has a step of its own for the pivots."""
    if operation.form == "sylvester":
        return True
    return operation.form in ("left", "right") and operation.knowns[operation.t.known].structure not in (
        "unitlower", "unitupper")
