"""Moduli, residues and matrices, and matrices that give a statement a known solution or a bad pivot."""

from reference.algebra import Bound, combined, product, is_unit, view
from reference.model import Matrix
from reference.structures import UNIT, inside

MODULI = (2, 3, 4, 5, 6, 7, 8, 9, 15, 101, 256, 1001, 65521, 65536, 2147483647, 2147483648, 4294967291, 4294967294,
          4294967295)


def modulus(rng):
    """A modulus: one of the kept ones, at times any."""
    return rng.choice(MODULI) if rng.random() < 0.8 else rng.randrange(2, 4294967296)


def residue(rng, m, style):
    """A residue by a style: any, small, great or zero ones."""
    if style == "great":
        return m - 1
    if style == "small":
        return rng.choice((0, 0, 1, m - 1))
    return rng.randrange(m)


def random_matrix(rng, rows, cols, m):
    """A matrix of residues."""
    style = rng.choice(("any", "any", "any", "any", "small", "great"))
    return Matrix(rows, cols, [[residue(rng, m, style) for _ in range(cols)] for _ in range(rows)])


def unit(rng, m):
    """A residue with an inverse."""
    while True:
        a = rng.randrange(1, m)
        if is_unit(a, m):
            return a


def non_unit(rng, m):
    """A residue without inverse: 0, or where the modulus isn't prime perhaps another one."""
    tries = [rng.randrange(m) for _ in range(20)]
    return rng.choice([a for a in tries if not is_unit(a, m)] or [0])


def place(rng, length):
    """An index at the beginning, at the end or between."""
    return rng.choice((0, length - 1, length // 2, rng.randrange(length)))


def triangular_matrix(rng, n, m, bad):
    """A matrix whose diagonal has units, or with `bad` one residue without inverse."""
    matrix = random_matrix(rng, n, n, m)
    for i in range(n):
        matrix.cells[i][i] = unit(rng, m)
    if bad and n:
        at = place(rng, n)
        matrix.cells[at][at] = non_unit(rng, m)
        for i in range(at + 1, n):
            if rng.random() < 0.3:
                matrix.cells[i][i] = non_unit(rng, m)
    return matrix


def partner_matrix(rng, t, t_structure, n, m, minus, bad):
    """A matrix for U, so that each diagonal entry of T with each of U has a sum, or difference, with an inverse, as
    far as that is found; with `bad` one of them has none."""
    matrix = random_matrix(rng, n, n, m)
    sign = -1 if minus else 1
    pivots = [view(t_structure, t).cells[i][i] for i in range(t.rows)]
    for j in range(n):
        for _ in range(40):
            a = rng.randrange(m)
            if all(is_unit((pivot + sign * a) % m, m) for pivot in pivots):
                matrix.cells[j][j] = a
                break
    if bad and n and pivots:
        at, pivot = place(rng, n), pivots[place(rng, len(pivots))]
        matrix.cells[at][at] = sign * (non_unit(rng, m) - pivot) % m
    return matrix


def planted(rng, operation, knowns, rows, cols, m, bad):
    """A work matrix, and what it holds after the statement where the pivots of T and U have inverses; for `lu` and
    `ldl` with `bad` the second has a pivot without one. Both are the same outside the structure."""
    after = random_matrix(rng, rows, cols, m)
    if operation.form in ("lu", "ldl"):
        after = triangular_matrix(rng, rows, m, bad)
    bound = Bound(operation, knowns, m)
    zero = Matrix.zero(rows, cols)
    right = combined(bound.left_side(after), bound.right_side(zero), True, m)
    structure = operation.work.structure
    work = Matrix(rows, cols, [
        [right.cells[i][j] if inside(structure, i, j) else after.cells[i][j] for j in range(cols)]
        for i in range(rows)])
    return work, after
