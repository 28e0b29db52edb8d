"""Random valid operations, and their rows."""

from reference.model import Factor, Operand, Operation, Term
from reference.structures import STRUCTURES, TRIANGULAR, WORK_STRUCTURES

from .spelling import Row, fresh_name

FORMS = ("assign", "left", "right", "sylvester", "lu", "ldl")
DIMS_OF_FORM = {"lu": 1, "ldl": 1}


class Maker:
    """An operation in the making: dimensions are numbers, and known operands are added as factors want them."""

    def __init__(self, rng, form, plain=False):
        self.rng = rng
        self.form = form
        # With `plain` all operands are general.
        self.plain = plain
        self.dims = 0
        self.knowns = []

    def new_dim(self):
        self.dims += 1
        return self.dims - 1

    def work(self):
        """The structure and the dimensions of the work operand."""
        rng = self.rng
        structure = "general" if self.plain or self.form in ("sylvester", "lu") else rng.choice(WORK_STRUCTURES)
        if self.form == "ldl":
            structure = "lower"
        rows = self.new_dim()
        square = structure != "general" or self.form == "lu" or rng.random() < 0.2
        return structure, rows, rows if square else self.new_dim()

    def factor(self, rows, cols, structures):
        """A factor of this shape whose operand has one of these structures: an operand that is there, or a new one."""
        rng = self.rng
        fitting = [
            (number, primed) for number, (structure, r, c) in enumerate(self.knowns) for primed in (False, True)
            if structure in structures and (rows, cols) == ((c, r) if primed else (r, c))]
        if fitting and (len(self.knowns) == 6 or rng.random() < 0.35):
            return Factor(*rng.choice(fitting))
        primed = rng.random() < 0.35
        self.knowns.append((rng.choice(structures), cols, rows) if primed else (rng.choice(structures), rows, cols))
        return Factor(len(self.knowns) - 1, primed)

    def product_factor(self, rows, cols):
        """A factor of a term."""
        any_structure = rows == cols and not self.plain and self.rng.random() < 0.75
        return self.factor(rows, cols, STRUCTURES if any_structure else ("general",))

    def term(self, rows, cols, inner):
        """A term whose product has this shape and inner dimension."""
        return Term(self.rng.random() < 0.5, self.product_factor(rows, inner), self.product_factor(inner, cols))


def operation(rng, name, form, terms=None, plain=False):
    """A random valid operation of this form; `terms` says how many terms it has, `plain` that all is general."""
    maker = Maker(rng, form, plain)
    structure, rows, cols = maker.work()
    made = Operation(name, form=form)
    if form in ("left", "sylvester"):
        made.t = maker.factor(rows, rows, TRIANGULAR)
    if form == "right":
        made.t = maker.factor(cols, cols, TRIANGULAR)
    if form == "sylvester":
        made.u = maker.factor(cols, cols, TRIANGULAR)
        made.minus = rng.random() < 0.5
    count = rng.choice((0, 0, 1, 1, 2) if form != "assign" else (0, 1, 1, 2, 2)) if terms is None else terms
    for _ in range(count):
        inner = rng.choice((rows, cols, None, None, maker.dims - 1))
        made.terms.append(maker.term(rows, cols, maker.new_dim() if inner is None else inner))
    named(rng, maker, made, structure, rows, cols)
    return made


def named(rng, maker, made, structure, rows, cols):
    """Names the dimensions and operands, and puts both in a random order."""
    order = list(range(maker.dims))
    rng.shuffle(order)
    place = {dim: at for at, dim in enumerate(order)}
    made.dims = []
    for _ in order:
        made.dims.append(fresh_name(rng, made.dims))
    names = []
    for _ in range(len(maker.knowns) + 1):
        names.append(fresh_name(rng, names + ["X"], words=("end", "known", "lu", "ldl", "x", "W", "equation")))
    made.work = Operand(names[-1], structure, place[rows], place[cols])
    knowns = [Operand(name, kind, place[r], place[c]) for name, (kind, r, c) in zip(names, maker.knowns)]
    shuffled = list(range(len(knowns)))
    rng.shuffle(shuffled)
    made.knowns = [knowns[number] for number in shuffled]

    def moved(factor):
        return Factor(shuffled.index(factor.known), factor.primed) if factor else None

    made.t, made.u = moved(made.t), moved(made.u)
    made.terms = [Term(term.minus, moved(term.first), moved(term.second)) for term in made.terms]


def factor_tokens(made, factor):
    """A factor's name and its prime."""
    return [made.knowns[factor.known].name] + (["'"] if factor.primed else [])


def equation_tokens(made):
    """The tokens of the equation's line."""
    left = ["X"]
    if made.form in ("lu", "ldl"):
        left = [made.form, "X"]
    if made.form == "right":
        left = ["X", "*", *factor_tokens(made, made.t)]
    if made.form in ("left", "sylvester"):
        left = [*factor_tokens(made, made.t), "*", "X"]
    if made.form == "sylvester":
        left += ["-" if made.minus else "+", "X", "*", *factor_tokens(made, made.u)]
    right = [made.work.name]
    for term in made.terms:
        right += ["-" if term.minus else "+", *factor_tokens(made, term.first), "*",
                  *factor_tokens(made, term.second)]
    return ["equation", *left, "=", *right]


def operand_row(made, role, operand):
    """The row of an operand."""
    return Row(role, role, operand.name, operand.structure, made.dims[operand.rows], made.dims[operand.cols])


def operation_rows(made):
    """The rows of an operation block."""
    return [
        Row("operation", "operation", made.name),
        Row("dims", "dims", *made.dims),
        operand_row(made, "work", made.work),
        *(operand_row(made, "known", operand) for operand in made.knowns),
        Row("equation", *equation_tokens(made)),
        Row("opend", "end"),
    ]
