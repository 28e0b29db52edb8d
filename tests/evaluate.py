"""Evaluates the text of an expression of blocks, for checks of the reference against itself.

A dimension may be cut anywhere, also so that parts are empty. A block whose entries aren't all in the work operand's structure
is read on those entries alone: `places` lists them, sums are taken there, and what is solved for is zero elsewhere. Solves go
by elimination of one unknown after another, whatever the factors look like; the modulus has to be a prime.
"""

import re
from types import SimpleNamespace

from reference.algebra import Bound, product, solution_view, transpose, view
from reference.model import Matrix
from reference.solutions import ldl, lu
from reference.structures import inside

TOKEN = re.compile(r"([A-Za-z]\w*)(?:\.([lud]))?('?)\[(\d+),(\d+)\]|(inv|lu|ldl|sylvester)\(|[()*,]| \+ | - |-")
VIEWS = {"l": "unitlower", "u": "upper", "d": "diagonal"}


class Whole:
    """A statement's matrices before and after it, with the edges of the parts of each dimension."""

    def __init__(self, operation, matrices, after, modulus, edges):
        self.operation = operation
        self.modulus = modulus
        self.edges = edges
        self.after = after
        self.matrices = {operand.name: matrix for operand, matrix in zip(operation.operands(), matrices)}
        self.operands = {operand.name: operand for operand in operation.operands()}
        self.bound = Bound(operation, matrices[1:], modulus)

    def part(self, dim, index):
        """The indices of a part."""
        return range(self.edges[dim][index], self.edges[dim][index + 1])

    def named(self, name, seen, primed):
        """A matrix by its name, or a view of the solution, with the dimensions of its rows and columns."""
        work = self.operation.work
        if seen:
            matrix, dims = view(VIEWS[seen], self.after), (work.rows, work.cols)
        elif name == "X":
            matrix, dims = solution_view(work.structure, self.after), (work.rows, work.cols)
        else:
            operand = self.operands[name]
            matrix, dims = self.matrices[name], (operand.rows, operand.cols)
            matrix = matrix if operand is work else view(operand.structure, matrix)
        return (transpose(matrix), dims[::-1]) if primed else (matrix, dims)

    def block(self, name, seen, primed, i, j):
        """A block of such a matrix."""
        matrix, dims = self.named(name, seen, primed)
        rows, cols = self.part(dims[0], i), self.part(dims[1], j)
        return Matrix(len(rows), len(cols), [[matrix.cells[r][c] for c in cols] for r in rows])

    def places(self, i, j):
        """The entries of a block of the work operand that are in its structure."""
        work = self.operation.work
        rows, cols = self.part(work.rows, i), self.part(work.cols, j)
        return [(at, place) for at, r in enumerate(rows) for place, c in enumerate(cols) if inside(work.structure, r, c)]

    def value(self, text, i, j):
        """The value of the expression of block (i, j)."""
        return Evaluator(self, text, self.places(i, j)).whole()


class Evaluator:
    """The tokens of an expression, taken from the left."""

    def __init__(self, matrices, text, places):
        self.matrices = matrices
        self.modulus = matrices.modulus
        self.places = places
        self.tokens = list(TOKEN.finditer(text))
        assert "".join(token.group() for token in self.tokens) == text, text
        self.at = 0

    def next(self):
        """The text of the next token; empty at the end."""
        return self.tokens[self.at].group() if self.at < len(self.tokens) else ""

    def take(self, text):
        """Takes this token where it is the next one."""
        taken = self.next() == text
        self.at += taken
        return taken

    def want(self, text):
        """Takes this token, which is due."""
        assert self.take(text), (text, self.at, [token.group() for token in self.tokens])

    def sum_to(self, close):
        """A sum and the sign that closes it."""
        total = self.sum()
        self.want(close)
        return total

    def value(self):
        """The value of an expression."""
        for word, factored in (("lu(", lu), ("ldl(", ldl)):
            if self.take(word):
                return self.factored(factored, self.sum_to(")"))
        if self.take("sylvester("):
            t = self.product_to(",")
            minus = self.take("-")
            u = self.product_to(",")
            return self.solved(self.sum_to(")"), t, u, minus)
        if self.take("inv("):
            t = self.product_to(")")
            self.want("*")
            self.want("(")
            return self.solved(self.sum_to(")"), t, None, False)
        if self.take("("):
            total = self.sum_to(")")
            self.want("*")
            self.want("inv(")
            return self.solved(total, None, self.product_to(")"), False)
        return self.sum()

    def whole(self):
        """The value of the whole text."""
        found = self.value()
        assert self.at == len(self.tokens)
        return found

    def product_to(self, close):
        """A product and the sign that closes it."""
        found = self.product()
        self.want(close)
        return found

    def sum(self):
        """A sum, on the entries in the structure."""
        total = self.product()
        cells = [row[:] for row in total.cells]
        while self.next() in (" + ", " - "):
            sign = 1 if self.take(" + ") else -1
            self.take(" - ")
            for row, other in zip(cells, self.product().cells, strict=True):
                row[:] = [(a + sign * b) % self.modulus for a, b in zip(row, other, strict=True)]
        here = set(self.places)
        return Matrix(total.rows, total.cols, [
            [entry if (i, j) in here else 0 for j, entry in enumerate(row)] for i, row in enumerate(cells)])

    def product(self):
        """A product of blocks."""
        found = self.block()
        while self.take("*"):
            other = self.block()
            assert found.cols == other.rows
            found = product(found, other, self.modulus)
        return found

    def block(self):
        """A block."""
        name, seen, primed, i, j, _ = self.tokens[self.at].groups()
        self.at += 1
        return self.matrices.block(name, seen, bool(primed), int(i), int(j))

    def factored(self, factor, total):
        """The packed factors of a block."""
        return factor(SimpleNamespace(modulus=self.modulus), total)

    def solved(self, total, t, u, minus):
        """The Y with `t * Y + Y * u = total`, or `-`, on the entries in the structure; without t or u that product is none."""
        unknown = {place: at for at, place in enumerate(self.places)}
        rows = []
        for i, j in self.places:
            row = [0] * (len(unknown) + 1)
            row[-1] = total.cells[i][j]
            for k in range(t.cols if t else 0):
                if (k, j) in unknown:
                    row[unknown[k, j]] += t.cells[i][k]
            for k in range(u.rows if u else 0):
                if (i, k) in unknown:
                    row[unknown[i, k]] += (-1 if minus else 1) * u.cells[k][j]
            rows.append(row)
        found = eliminated(rows, self.modulus)
        cells = [[0] * total.cols for _ in range(total.rows)]
        for (i, j), at in unknown.items():
            cells[i][j] = found[at]
        return Matrix(total.rows, total.cols, cells)


def eliminated(rows, prime):
    """The one solution of a system of equations, each a list of coefficients with its right side behind them."""
    for at in range(len(rows)):
        pivot = next(number for number in range(at, len(rows)) if rows[number][at] % prime)
        rows[at], rows[pivot] = rows[pivot], rows[at]
        factor = pow(rows[at][at], -1, prime)
        rows[at] = [entry * factor % prime for entry in rows[at]]
        for number, row in enumerate(rows):
            if number != at and row[at] % prime:
                rows[number] = [(a - row[at] * b) % prime for a, b in zip(row, rows[at])]
    return [row[-1] for row in rows]
