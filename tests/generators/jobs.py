"""Random jobs: operations, matrices, statements that chain, and prints."""

from reference.model import Job, Statement
from reference.solutions import Bad, solve
from reference.structures import UNIT

from .entries import modulus, partner_matrix, planted, random_matrix, triangular_matrix
from .operations import FORMS, operation, operation_rows
from .spelling import Row, fresh_name

MATRIX_LIMIT = 32


def length(rng, scale):
    """The length of a dimension; a scale may be a choice of lengths."""
    if not isinstance(scale, str):
        return rng.choice(scale)
    if scale == "small":
        return rng.choice((0, 1, 1, 2, 2, 3))
    if scale == "middle":
        return rng.choice((0, 1, 2, 3, 4, 5, 6, 7, 8, 9, 10, 11, 12))
    if scale == "large":
        return rng.choice((1, 9, 17, 31, 32, 33, 34, 40))
    return rng.choice((1, 33, 63, 64, 65, 97, 100))


class JobMaker:
    """A job in the making. `current` has the matrices as they stand after the statements so far, and `failed` says
    that one of them had a bad pivot; `expected` counts the statements whose solution was known beforehand."""

    def __init__(self, rng, scale, bad=0.1, reuse=0.5):
        self.rng = rng
        self.scale = scale
        self.bad = bad
        self.reuse = reuse
        self.job = Job(modulus(rng))
        self.current = []
        self.failed = False

    def add_operation(self, form, terms=None, plain=False):
        """Adds a random operation of this form and answers it."""
        names = [made.name for made in self.job.operations]
        made = operation(self.rng, fresh_name(self.rng, names), form, terms, plain)
        self.job.operations.append(made)
        return made

    def add_matrix(self, matrix):
        """Adds a matrix and answers its number."""
        self.job.names.append(fresh_name(self.rng, self.job.names))
        self.job.matrices.append(matrix)
        self.current.append(matrix)
        return len(self.current) - 1

    def fitting(self, operand, lengths, barred):
        """The matrices that fit an operand beside the lengths so far."""
        found = []
        for number, matrix in enumerate(self.current):
            rows = lengths.get(operand.rows, matrix.rows)
            cols = lengths.get(operand.cols, matrix.cols)
            square = operand.rows != operand.cols or matrix.rows == matrix.cols
            if (rows, cols) == (matrix.rows, matrix.cols) and square and number not in barred:
                found.append(number)
        return found

    def choose(self, operand, lengths, barred):
        """A matrix that is there for this operand, or None for a new one; the lengths grow by it."""
        found = self.fitting(operand, lengths, barred)
        number = self.rng.choice(found + found[-2:]) if found and self.rng.random() < self.reuse else None
        rows, cols = (length(self.rng, self.scale) for _ in range(2)) if number is None else (
            self.current[number].rows, self.current[number].cols)
        lengths.setdefault(operand.rows, rows)
        lengths.setdefault(operand.cols, cols)
        return number

    def add_statement(self, made):
        """Adds a statement of an operation; False where no matrices are left for it."""
        lengths = {}
        work = self.choose(made.work, lengths, [])
        knowns = [self.choose(operand, lengths, [work]) for operand in made.knowns]
        if len(self.current) + [work, *knowns].count(None) > MATRIX_LIMIT:
            return False
        bad = self.rng.random() < self.bad
        knowns = self.new_knowns(made, knowns, lengths, bad)
        after = None
        if work is None:
            rows, cols = lengths[made.work.rows], lengths[made.work.cols]
            bound = [self.current[number] for number in knowns]
            matrix, after = planted(self.rng, made, bound, rows, cols, self.job.modulus, bad)
            work = self.add_matrix(matrix)
        self.job.statements.append(Statement(made, work, knowns))
        self.step(made, work, knowns, after)
        return True

    def new_knowns(self, made, knowns, lengths, bad):
        """The numbers of the known matrices, new ones where none was chosen; T comes before U."""
        found = list(knowns)
        sides = [factor.known for factor in (made.t, made.u) if factor]
        for known in sides + [known for known in range(len(knowns)) if known not in sides]:
            if found[known] is None:
                operand = made.knowns[known]
                rows, cols = lengths[operand.rows], lengths[operand.cols]
                found[known] = self.add_matrix(self.new_known(made, known, found, rows, cols, bad))
        return found

    def new_known(self, made, known, found, rows, cols, bad):
        """A matrix for a known operand: as T or U with fitting pivots, else any."""
        rng, m = self.rng, self.job.modulus
        if made.u and known == made.u.known and known != made.t.known:
            structure = made.knowns[made.t.known].structure
            return partner_matrix(rng, self.current[found[made.t.known]], structure, rows, m, made.minus, bad)
        if made.t and known == made.t.known:
            return triangular_matrix(rng, rows, m, bad and made.knowns[known].structure not in UNIT)
        return random_matrix(rng, rows, cols, m)

    def step(self, made, work, knowns, after):
        """Does the statement, so that later ones see what it leaves; a solution known beforehand has to come out."""
        if self.failed:
            return
        bound = [self.current[number] for number in knowns]
        try:
            result = solve(made, bound, self.current[work], self.job.modulus)
        except Bad:
            self.failed = True
            return
        assert after is None or result == after, "the reference's solution isn't the planted one"
        self.current[work] = result

    def add_prints(self):
        """Prints the matrices that were worked on, and at times others, in a random order."""
        worked = {statement.work for statement in self.job.statements}
        chosen = [number for number in range(len(self.current))
                  if self.rng.random() < (0.9 if number in worked else 0.2)]
        self.rng.shuffle(chosen)
        self.job.prints = chosen


def forms_of(rng, every_form):
    """The forms that a job's operations are taken from."""
    if every_form:
        return rng.choice((FORMS, FORMS, ("assign",), (rng.choice(FORMS),)))
    return FORMS if rng.random() < 0.12 else ("assign",)


def random_job(rng, scale, every_form, statements=None, bad=0.1):
    """A random job with some operations and about so many statements."""
    maker = JobMaker(rng, scale, bad, reuse=rng.choice((0.2, 0.5, 0.8)))
    forms = forms_of(rng, every_form)
    for _ in range(rng.choice((1, 1, 2, 3, 4, 16))):
        maker.add_operation(rng.choice(forms))
    wanted = rng.choice((0, 1, 1, 2, 3, 4, 5, 6, 16)) if statements is None else statements
    for _ in range(wanted):
        maker.add_statement(rng.choice(maker.job.operations))
    for _ in range(rng.choice((0, 0, 1, 3))):
        if len(maker.current) < MATRIX_LIMIT:
            rows, cols = length(rng, "small"), length(rng, "small")
            maker.add_matrix(random_matrix(rng, rows, cols, maker.job.modulus))
    maker.add_prints()
    return maker


def chained_job(rng, scale):
    """A system that is solved by its factors: `lu`, then a unit lower and an upper solve with the packed result."""
    maker = JobMaker(rng, scale, bad=0.15, reuse=0)
    factors = maker.add_operation("lu", terms=0)
    solves = [maker.add_operation("left", terms=0) for _ in range(2)]
    for made, structure in zip(solves, ("unitlower", "upper")):
        made.work = made.work._replace(structure="general")
        made.knowns = [made.knowns[0]._replace(structure=structure)]
        made.t = made.t._replace(primed=False)
    maker.add_statement(factors)
    n = maker.current[0].rows
    cols = [n if made.work.rows == made.work.cols else None for made in solves]
    right = maker.add_matrix(random_matrix(
        rng, n, n if n in cols else length(rng, scale), maker.job.modulus))
    for made in solves:
        maker.job.statements.append(Statement(made, right, [0]))
        maker.step(made, right, [0], None)
    maker.add_prints()
    return maker


def matrix_rows(name, matrix, role="matrix"):
    """The rows of a matrix block, or of an `after` block."""
    rows = [Row("row", *row) for row in matrix.cells] if matrix.cols else []
    return [Row(role, role, name, matrix.rows, matrix.cols), *rows, Row("matend", "end")]


def job_rows(job):
    """The rows of a job."""
    rows = [Row("header", "flame", "1"), Row("modulus", "modulus", job.modulus)]
    for made in job.operations:
        rows += operation_rows(made)
    for name, matrix in zip(job.names, job.matrices):
        rows += matrix_rows(name, matrix)
    for made, work, knowns in job.statements:
        bound = [job.names[number] for number in (work, *knowns)]
        rows.append(Row("do", "do", made.name, *bound))
    return rows + [Row("print", "print", job.names[number]) for number in job.prints]
