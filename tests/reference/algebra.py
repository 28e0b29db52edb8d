"""Matrices modulo m: views, sums, products, the first bad pivot and the solution of each form.

Everything here is entrywise and on whole matrices. The solutions go by plain substitution, one entry after another.
"""

from math import gcd
from operator import mul

from .model import Matrix
from .structures import inside, transposed, viewed


def view(structure, matrix):
    """The view of a stored matrix through a structure."""
    if structure == "general":
        return matrix
    return Matrix(matrix.rows, matrix.cols, [
        [viewed(structure, matrix.cells, i, j) for j in range(matrix.cols)] for i in range(matrix.rows)])


def transpose(matrix):
    """The transpose."""
    return Matrix(matrix.cols, matrix.rows, [
        [matrix.cells[i][j] for i in range(matrix.rows)] for j in range(matrix.cols)])


def dot(row, col):
    """The sum of the products of two lists, which are equally long."""
    return sum(map(mul, row, col))


def product(a, b, modulus):
    """The product of two matrices; its entries are 0 for an inner dimension of 0."""
    cols = transpose(b).cells
    return Matrix(a.rows, b.cols, [[dot(row, col) % modulus for col in cols] for row in a.cells])


def combined(a, b, minus, modulus):
    """The sum of two matrices, or their difference."""
    sign = -1 if minus else 1
    return Matrix(a.rows, a.cols, [
        [(x + sign * y) % modulus for x, y in zip(p, q)] for p, q in zip(a.cells, b.cells)])


def is_unit(a, modulus):
    """Whether a residue has an inverse."""
    return gcd(a, modulus) == 1


def inverse(a, modulus):
    """The residue whose product with a unit is 1."""
    return pow(a, -1, modulus)


class Bound:
    """An operation with the matrices bound to its known operands."""

    def __init__(self, operation, knowns, modulus):
        self.operation = operation
        self.knowns = knowns
        self.modulus = modulus

    def factor(self, factor):
        """The view of a factor, transposed where it is primed."""
        seen = view(self.operation.knowns[factor.known].structure, self.knowns[factor.known])
        return transpose(seen) if factor.primed else seen

    def structure(self, factor):
        """The structure of a factor, transposed where it is primed."""
        structure = self.operation.knowns[factor.known].structure
        return transposed(structure) if factor.primed else structure

    def right_side(self, work):
        """The work matrix with all terms added or subtracted."""
        total = work
        for term in self.operation.terms:
            product_of_term = product(self.factor(term.first), self.factor(term.second), self.modulus)
            total = combined(total, product_of_term, term.minus, self.modulus)
        return total

    def left_side(self, after):
        """The left side of the equation for the matrix that the work operand holds afterwards."""
        operation, m = self.operation, self.modulus
        if operation.form == "lu":
            return product(view("unitlower", after), view("upper", after), m)
        if operation.form == "ldl":
            lower = view("unitlower", after)
            return product(product(lower, view("diagonal", after), m), transpose(lower), m)
        x = solution_view(operation.work.structure, after)
        if operation.form == "assign":
            return x
        if operation.form == "right":
            return product(x, self.factor(operation.t), m)
        left = product(self.factor(operation.t), x, m)
        if operation.form == "left":
            return left
        return combined(left, product(x, self.factor(operation.u), m), operation.minus, m)

    def first_difference(self, work, after):
        """The first place, row by row, where `after` isn't what the statement makes of `work`; None where it is."""
        left, right = self.left_side(after), self.right_side(work)
        for i in range(work.rows):
            for j in range(work.cols):
                if inside(self.operation.work.structure, i, j):
                    agrees = left.cells[i][j] == right.cells[i][j]
                else:
                    agrees = after.cells[i][j] == work.cells[i][j]
                if not agrees:
                    return i, j
        return None


def solution_view(structure, after):
    """X: the stored matrix with zeros outside the work operand's structure."""
    return Matrix(after.rows, after.cols, [
        [entry if inside(structure, i, j) else 0 for j, entry in enumerate(row)]
        for i, row in enumerate(after.cells)])


def diagonal(matrix):
    """The diagonal of a square matrix."""
    return [matrix.cells[i][i] for i in range(matrix.rows)]
