"""The first bad pivot of a statement, and else its one solution, form by form, by plain substitution."""

from .algebra import Bound, diagonal, dot, inverse, is_unit
from .model import Matrix
from .structures import UNIT, inside


class Bad(Exception):
    """A pivot without inverse at this place."""

    def __init__(self, row, col):
        super().__init__(row, col)
        self.place = (row, col)


def solve(operation, knowns, work, modulus):
    """What the work matrix holds after the statement; Bad where it has a bad pivot."""
    bound = Bound(operation, knowns, modulus)
    right = bound.right_side(work)
    solution = SOLVERS[operation.form](bound, right)
    structure = operation.work.structure
    return Matrix(work.rows, work.cols, [
        [solution.cells[i][j] if inside(structure, i, j) else work.cells[i][j] for j in range(work.cols)]
        for i in range(work.rows)])


def assign(_bound, right):
    """X = R."""
    return right


def checked_pivots(bound, factor):
    """The diagonal of a triangular factor whose entries all have to be units, unless its structure is unit."""
    pivots = diagonal(bound.factor(factor))
    if bound.structure(factor) not in UNIT:
        for i, pivot in enumerate(pivots):
            if not is_unit(pivot, bound.modulus):
                raise Bad(i, i)
    return pivots


def order(structure, length, ascending):
    """The indices in which substitution goes: ascending for these structures, else descending."""
    return range(length) if structure in ascending else range(length - 1, -1, -1)


def left(bound, right):
    """T * X = R, column by column."""
    operation, m = bound.operation, bound.modulus
    pivots = checked_pivots(bound, operation.t)
    t = bound.factor(operation.t).cells
    rows = order(bound.structure(operation.t), right.rows, ("lower", "unitlower", "diagonal"))
    x = Matrix.zero(right.rows, right.cols)
    inverses = [inverse(pivot, m) for pivot in pivots]
    for j in range(right.cols):
        col = [0] * right.rows
        for i in rows:
            if inside(operation.work.structure, i, j):
                col[i] = (right.cells[i][j] - dot(t[i], col)) * inverses[i] % m
                x.cells[i][j] = col[i]
    return x


def right(bound, right_side):
    """X * T = R, row by row."""
    operation, m = bound.operation, bound.modulus
    pivots = checked_pivots(bound, operation.t)
    t = columns(bound.factor(operation.t))
    cols = order(bound.structure(operation.t), right_side.cols, ("upper", "unitupper", "diagonal"))
    x = Matrix.zero(right_side.rows, right_side.cols)
    inverses = [inverse(pivot, m) for pivot in pivots]
    for i in range(right_side.rows):
        row = x.cells[i]
        for j in cols:
            if inside(operation.work.structure, i, j):
                row[j] = (right_side.cells[i][j] - dot(row, t[j])) * inverses[j] % m
    return x


def columns(matrix):
    """The columns of a matrix, as lists."""
    return [[row[j] for row in matrix.cells] for j in range(matrix.cols)]


def sylvester(bound, right_side):
    """T * X + X * U = R, or with a difference, entry by entry."""
    operation, m = bound.operation, bound.modulus
    sign = -1 if operation.minus else 1
    t, u = bound.factor(operation.t), bound.factor(operation.u)
    pivots = [[(a + sign * b) % m for b in diagonal(u)] for a in diagonal(t)]
    for i, row in enumerate(pivots):
        for j, pivot in enumerate(row):
            if not is_unit(pivot, m):
                raise Bad(i, j)
    u_columns = columns(u)
    rows = order(bound.structure(operation.t), right_side.rows, ("lower", "unitlower", "diagonal"))
    cols = order(bound.structure(operation.u), right_side.cols, ("upper", "unitupper", "diagonal"))
    x = Matrix.zero(right_side.rows, right_side.cols)
    x_columns = [[0] * right_side.rows for _ in range(right_side.cols)]
    for i in rows:
        for j in cols:
            done = dot(t.cells[i], x_columns[j]) + sign * dot(x.cells[i], u_columns[j])
            entry = (right_side.cells[i][j] - done) * inverse(pivots[i][j], m) % m
            x.cells[i][j] = x_columns[j][i] = entry
    return x


def lu(bound, right_side):
    """L * U = R, where L has a diagonal of 1, packed into one matrix."""
    m, n = bound.modulus, right_side.rows
    lower = [[int(i == k) for k in range(n)] for i in range(n)]
    upper_columns = [[0] * n for _ in range(n)]
    for k in range(n):
        for j in range(k, n):
            upper_columns[j][k] = (right_side.cells[k][j] - dot(lower[k][:k], upper_columns[j][:k])) % m
        pivot = upper_columns[k][k]
        if not is_unit(pivot, m):
            raise Bad(k, k)
        for i in range(k + 1, n):
            rest = right_side.cells[i][k] - dot(lower[i][:k], upper_columns[k][:k])
            lower[i][k] = rest * inverse(pivot, m) % m
    return Matrix(n, n, [[lower[i][j] if i > j else upper_columns[j][i] for j in range(n)] for i in range(n)])


def ldl(bound, right_side):
    """L * D * L' = R on the lower entries, L with a diagonal of 1, packed into one matrix."""
    m, n = bound.modulus, right_side.rows
    packed = Matrix.zero(n, n)
    cells = packed.cells
    for k in range(n):
        # The products L[k][p] * D[p], for the row that is to be done.
        scaled = [cells[k][p] * cells[p][p] for p in range(k)]
        cells[k][k] = (right_side.cells[k][k] - dot(scaled, cells[k][:k])) % m
        if not is_unit(cells[k][k], m):
            raise Bad(k, k)
        for i in range(k + 1, n):
            cells[i][k] = (right_side.cells[i][k] - dot(cells[i][:k], scaled)) * inverse(cells[k][k], m) % m
    return packed


SOLVERS = {"assign": assign, "left": left, "right": right, "sylvester": sylvester, "lu": lu, "ldl": ldl}
