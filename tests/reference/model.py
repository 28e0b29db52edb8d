"""Operations, jobs and matrices as values."""

from dataclasses import dataclass, field
from typing import NamedTuple, Optional


class Operand(NamedTuple):
    """An operand with the numbers of its row and column dimension, from 0."""

    name: str
    structure: str
    rows: int
    cols: int


class Factor(NamedTuple):
    """A known operand by its number from 0, perhaps transposed."""

    known: int
    primed: bool


class Term(NamedTuple):
    """Adds or subtracts the product of two factors."""

    minus: bool
    first: Factor
    second: Factor


@dataclass
class Operation:
    """A valid operation. `form` is assign, left, right, sylvester, lu or ldl; `t`, `u` and `minus` are its
    triangular factors and sign, where the form has them."""

    name: str
    dims: list = field(default_factory=list)
    work: Optional[Operand] = None
    knowns: list = field(default_factory=list)
    form: str = "assign"
    t: Optional[Factor] = None
    u: Optional[Factor] = None
    minus: bool = False
    terms: list = field(default_factory=list)

    def operands(self):
        """The work operand and then the known ones, in declared order."""
        return [self.work] + self.knowns

    def factor_dims(self, factor):
        """The row and column dimension of a factor."""
        operand = self.knowns[factor.known]
        return (operand.cols, operand.rows) if factor.primed else (operand.rows, operand.cols)


@dataclass
class Matrix:
    """Rows, columns and the stored entries, row by row."""

    rows: int
    cols: int
    cells: list

    @staticmethod
    def zero(rows, cols):
        """A matrix of zeros."""
        return Matrix(rows, cols, [[0] * cols for _ in range(rows)])

    def copy(self):
        """A matrix of its own with the same entries."""
        return Matrix(self.rows, self.cols, [row[:] for row in self.cells])


class Statement(NamedTuple):
    """An operation with the numbers of the matrices for its work operand and its known operands."""

    operation: Operation
    work: int
    knowns: list


@dataclass
class Job:
    """A job; matrices are given by their numbers from 0, and `prints` lists such numbers."""

    modulus: int
    operations: list = field(default_factory=list)
    names: list = field(default_factory=list)
    matrices: list = field(default_factory=list)
    statements: list = field(default_factory=list)
    prints: list = field(default_factory=list)


class BadPivot(NamedTuple):
    """The first pivot without inverse: a statement from 1, a row and a column from 0."""

    statement: int
    row: int
    col: int
