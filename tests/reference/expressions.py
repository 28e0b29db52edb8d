"""What a block of the work matrix holds, as the text of an expression, by the tasks of the block that are done."""

from .tasks import KIND_ORDER


def block(name, i, j):
    """A block of an operand or of a view of the solution."""
    return f"{name}[{i},{j}]"


def factor_block(operation, factor, i, j):
    """Block (i, j) of a factor, which is transposed where it is primed."""
    return block(operation.knowns[factor.known].name + ("'" if factor.primed else ""), i, j)


def right_factor(operation):
    """The triangular factor on the right-hand side of X."""
    return operation.t if operation.form == "right" else operation.u


def product_text(operation, task):
    """The product that an update adds or subtracts."""
    i, j, k = task.i, task.j, task.k
    if task.kind == "term":
        term = operation.terms[task.term - 1]
        factors = [factor_block(operation, term.first, i, k), factor_block(operation, term.second, k, j)]
    elif task.kind == "right":
        factors = [block("X", i, k), factor_block(operation, right_factor(operation), k, j)]
    elif operation.form == "lu":
        factors = [block("X.l", i, k), block("X.u", k, j)]
    elif operation.form == "ldl":
        factors = [block("X.l", i, k), block("X.d", k, k), block("X.l'", k, j)]
    else:
        factors = [factor_block(operation, operation.t, i, k), block("X", k, j)]
    return "*".join(factors)


def is_subtracted(operation, task):
    """Whether an update subtracts its product: terms have signs of their own, and what stands on the left side of the equation
    is subtracted, but added where it is subtracted there."""
    if task.kind == "term":
        return operation.terms[task.term - 1].minus
    return not (task.kind == "right" and operation.minus)


def wrapped(operation, i, j, total):
    """The text of a block that is solved or factored, from that of the sum."""
    form = operation.form
    if form == "lu":
        if i == j:
            return f"lu({total})"
        return f"inv({block('X.l', i, i)})*({total})" if i < j else f"({total})*inv({block('X.u', j, j)})"
    if form == "ldl":
        if i == j:
            return f"ldl({total})"
        transposed = block("X.l'", j, j)
        return f"({total})*inv({block('X.d', j, j)}*{transposed})"
    t = factor_block(operation, operation.t, *((j, j) if form == "right" else (i, i)))
    if form == "left":
        return f"inv({t})*({total})"
    if form == "right":
        return f"({total})*inv({t})"
    return f"sylvester({t},{'-' if operation.minus else ''}{factor_block(operation, operation.u, j, j)},{total})"


def expression(operation, i, j, done):
    """What block (i, j) holds when these tasks of the block are done."""
    total = block(operation.work.name, i, j)
    for task in sorted(done, key=lambda task: (KIND_ORDER[task.kind], task.term, task.k)):
        if task.kind != "solve":
            total += (" - " if is_subtracted(operation, task) else " + ") + product_text(operation, task)
    return wrapped(operation, i, j, total) if any(task.kind == "solve" for task in done) else total
