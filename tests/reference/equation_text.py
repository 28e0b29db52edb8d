"""The line `equation LEFTSIDE = W TERMS` of an operation."""

from typing import NamedTuple, Optional

from .cursor import wants
from .faults import Fault
from .model import Factor, Term
from .scanner import is_name
from .structures import TRIANGULAR

TERM_LIMIT = 2


class Named(NamedTuple):
    """A name in an equation, perhaps with a prime."""

    name: str
    primed: bool


class Left(NamedTuple):
    """The left side of an equation."""

    form: str
    t: Optional[Named] = None
    u: Optional[Named] = None
    minus: bool = False


class Spelled(NamedTuple):
    """An equation as it is spelled: its left side, the first name of the right side, and its terms, each with
    its sign and two names."""

    left: Left
    first: str
    terms: list

    def factors(self):
        """All names that stand as T, U or a factor."""
        sides = [named for named in (self.left.t, self.left.u) if named]
        return sides + [named for _, f, g in self.terms for named in (f, g)]


class Tokens:
    """The tokens of one line, taken from the left."""

    def __init__(self, tokens):
        self.left = list(tokens)

    def take(self, token):
        """Takes this token where it is the next one."""
        if self.left and self.left[0] == token:
            self.left.pop(0)
            return True
        return False

    def take_sign(self):
        """Takes `+` or `-` and answers it, or None."""
        return self.left.pop(0) if self.left and self.left[0] in "+-" else None

    def take_named(self):
        """Takes a name and the prime that may follow it, or answers None."""
        if not self.left or not is_name(self.left[0]):
            return None
        name = self.left.pop(0)
        return Named(name, self.take("'"))


def spelled_left(tokens):
    """The left side that these tokens spell, or None."""
    if tokens == ["X"]:
        return Left("assign")
    if tokens in (["lu", "X"], ["ldl", "X"]):
        return Left(tokens[0])
    for at, sign in enumerate(tokens):
        if sign in ("+", "-"):
            t, u = triangular_left(tokens[:at]), triangular_right(tokens[at + 1:])
            return Left("sylvester", t, u, sign == "-") if t and u else None
    if triangular_left(tokens):
        return Left("left", triangular_left(tokens))
    if triangular_right(tokens):
        return Left("right", triangular_right(tokens))
    return None


def triangular_left(tokens):
    """The T of `T * X`, or None."""
    rest = Tokens(tokens)
    named = rest.take_named()
    return named if named and rest.left == ["*", "X"] else None


def triangular_right(tokens):
    """The T of `X * T`, or None."""
    rest = Tokens(tokens)
    if not (rest.take("X") and rest.take("*")):
        return None
    named = rest.take_named()
    return named if named and not rest.left else None


def spelled_right(tokens):
    """The first name and the terms of the right side that these tokens spell, or None."""
    if not tokens or not is_name(tokens[0]):
        return None
    rest = Tokens(tokens[1:])
    terms = []
    while rest.left:
        sign = rest.take_sign()
        first = rest.take_named() if sign else None
        second = rest.take_named() if first and rest.take("*") else None
        if not second:
            return None
        terms.append((sign == "-", first, second))
    return tokens[0], terms


def spelled(tokens):
    """The equation that a line's tokens spell, or None."""
    if tokens[0] != "equation" or tokens.count("=") != 1:
        return None
    at = tokens.index("=")
    left, right = spelled_left(tokens[1:at]), spelled_right(tokens[at + 1:])
    return Spelled(left, *right) if left and right else None


def read_equation(cursor, operation):
    """Reads the equation's line into the operation, whose dims and operands are there."""
    line = cursor.due()
    equation = spelled(line.tokens)
    wants(line, equation)
    cursor.more_due(line)
    operands = {operand.name: operand for operand in operation.operands()}
    names = [equation.first] + [named.name for named in equation.factors()]
    if not all(name in operands for name in names):
        raise Fault("NameUnknown", line.number)
    if len(equation.terms) > TERM_LIMIT:
        raise Fault("TooManyTerms", line.number)
    if not dimensions_agree(equation, operands, operation.work):
        raise Fault("Shape", line.number)
    if not is_form(equation, operands, operation):
        raise Fault("Form", line.number)
    fill(operation, equation)


def dims_of(named, operands):
    """The row and column dimension of a named operand, exchanged by a prime."""
    operand = operands[named.name]
    return (operand.cols, operand.rows) if named.primed else (operand.rows, operand.cols)


def dimensions_agree(equation, operands, work):
    """Whether the dimensions of each product and of the two sides agree. X has those of the work operand."""
    solution = (work.rows, work.cols)
    first = operands[equation.first]
    products = [(dims_of(f, operands), dims_of(g, operands)) for _, f, g in equation.terms]
    if equation.left.t:
        t = dims_of(equation.left.t, operands)
        products.append((solution, t) if equation.left.form == "right" else (t, solution))
    if equation.left.u:
        products.append((solution, dims_of(equation.left.u, operands)))
    return (first.rows, first.cols) == solution and all(
        a[1] == b[0] and (a[0], b[1]) == solution for a, b in products)


def is_form(equation, operands, operation):
    """Whether the conditions of the form are met, the right side begins with the work operand, which is no
    factor, and each known operand and each dimension is used."""
    work, left = operation.work, equation.left
    sides = [named for named in (left.t, left.u) if named]
    used = {named.name for named in equation.factors()}
    dims = {dim for operand in operands.values() for dim in (operand.rows, operand.cols)}
    return (
        all(operands[named.name].structure in TRIANGULAR for named in sides)
        and (left.form != "sylvester" or work.structure == "general")
        and (left.form != "lu" or (work.structure == "general" and work.rows == work.cols))
        and (left.form != "ldl" or work.structure == "lower")
        and equation.first == work.name
        and used == {operand.name for operand in operation.knowns}
        and len(dims) == len(operation.dims)
    )


def fill(operation, equation):
    """Puts a valid equation into its operation, with known operands by number."""
    numbers = {operand.name: number for number, operand in enumerate(operation.knowns)}

    def factor(named):
        return Factor(numbers[named.name], named.primed) if named else None

    left = equation.left
    operation.form, operation.minus = left.form, left.minus
    operation.t, operation.u = factor(left.t), factor(left.u)
    operation.terms = [Term(minus, factor(f), factor(g)) for minus, f, g in equation.terms]
