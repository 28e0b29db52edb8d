"""Does a job by its steps, each of which sees only the blocks that it is said to read and the one that it writes: for checks
of the reference against itself."""

from reference.algebra import inverse
from reference.edges import accesses
from reference.structures import inside, viewed
from reference.tasks import factor_structure, has_pivots

DOWNWARDS = ("upper", "unitupper")


class Seen:
    """The rows of a matrix, of which only the entries of some blocks may be read."""

    def __init__(self, cells, number, block, allowed):
        self.parts = cells, number, block, allowed

    def __getitem__(self, i):
        return SeenRow(i, *self.parts)


class SeenRow:
    """One of these rows."""

    def __init__(self, i, cells, number, block, allowed):
        self.parts = i, cells, number, block, allowed

    def __getitem__(self, j):
        i, cells, number, block, allowed = self.parts
        assert (number, i // block, j // block) in allowed, "a block is read that isn't among the reads"
        return cells[i][j]


class Replay:
    """The matrices and the lists of pivots of a job while its steps are done."""

    def __init__(self, job, block):
        self.job = job
        self.block = block
        self.cells = [[row[:] for row in matrix.cells] for matrix in job.matrices]
        self.pivots = {}

    def run(self, steps):
        """Does all steps."""
        for step, access in zip(steps, accesses(self.job, self.block, steps)):
            self.allowed = access.reads | {access.write}
            self.statement, self.number = self.job.statements[step.statement - 1], step.statement
            self.operation = self.statement.operation
            self.work = self.seen(self.statement.work)
            if step.task is None:
                self.test_pivots()
            else:
                self.do(step.task)

    def seen(self, number):
        """The rows of a matrix, as the step sees them."""
        return Seen(self.cells[number], number, self.block, self.allowed)

    def part(self, index, length):
        """The indices of a part of a dimension of this length."""
        return range(index * self.block, min((index + 1) * self.block, length))

    def factor(self, factor, i, j):
        """An entry of a factor."""
        number = self.statement.knowns[factor.known]
        i, j = (j, i) if factor.primed else (i, j)
        return viewed(self.operation.knowns[factor.known].structure, self.seen(number), i, j)

    def x(self, i, j):
        """An entry of the solution, as it is so far."""
        return self.work[i][j] if inside(self.operation.work.structure, i, j) else 0

    def put(self, i, j, value):
        """Writes an entry of the work matrix."""
        self.cells[self.statement.work][i][j] = value % self.job.modulus

    def sign(self):
        """The sign of the second product of a Sylvester equation."""
        return -1 if self.operation.minus else 1

    def test_pivots(self):
        """Makes the list of the inverses."""
        made, m, matrix = self.operation, self.job.modulus, self.job.matrices[self.statement.work]
        rows, cols = range(matrix.rows), range(matrix.cols)
        if made.form == "sylvester":
            ts, us = [self.factor(made.t, i, i) for i in rows], [self.factor(made.u, j, j) for j in cols]
            found = {(i, j): inverse(t + self.sign() * u, m) for i, t in enumerate(ts) for j, u in enumerate(us)}
        else:
            found = {i: inverse(self.factor(made.t, i, i), m) for i in (rows if made.form == "left" else cols)}
        self.pivots[self.number] = found

    def inverse_at(self, place):
        """An inverse of the list, or 1 where there is none."""
        if not has_pivots(self.operation):
            return 1
        assert ("pivots", self.number) in self.allowed, "the list of pivots is read"
        return self.pivots[self.number][place]

    def do(self, task):
        """Does a task on its block of the work matrix."""
        matrix = self.job.matrices[self.statement.work]
        rows, cols = self.part(task.i, matrix.rows), self.part(task.j, matrix.cols)
        if task.kind == "solve":
            self.solve(rows, cols)
            return
        if task.kind == "term":
            factor = self.operation.terms[task.term - 1].first
            known = self.job.matrices[self.statement.knowns[factor.known]]
            length = known.rows if factor.primed else known.cols
        else:
            length = matrix.rows if task.kind == "left" else matrix.cols
        for i in rows:
            for j in cols:
                if inside(self.operation.work.structure, i, j):
                    added = sum(self.summand(task, i, j, k) for k in self.part(task.k, length))
                    self.put(i, j, self.work[i][j] + added)

    def summand(self, task, i, j, k):
        """What an update adds to an entry for one inner index."""
        made = self.operation
        if task.kind == "term":
            term = made.terms[task.term - 1]
            return (-1 if term.minus else 1) * self.factor(term.first, i, k) * self.factor(term.second, k, j)
        if task.kind == "right":
            return -(self.sign() if made.form == "sylvester" else 1) * self.x(i, k) * self.factor(
                made.t if made.form == "right" else made.u, k, j)
        if made.form == "lu":
            return -self.work[i][k] * self.work[k][j]
        if made.form == "ldl":
            return -self.work[i][k] * self.work[k][k] * self.work[j][k]
        return -self.factor(made.t, i, k) * self.x(k, j)

    def solve(self, rows, cols):
        """Solves for the entries of a block, one after another, or factors it."""
        made, m = self.operation, self.job.modulus
        if made.form in ("left", "sylvester") and factor_structure(made, made.t) in DOWNWARDS:
            rows = rows[::-1]
        right = {"right": made.t, "sylvester": made.u}.get(made.form)
        if right and factor_structure(made, right) not in (*DOWNWARDS, "diagonal"):
            cols = cols[::-1]
        done = set()
        for i in rows:
            for j in cols:
                if inside(made.work.structure, i, j):
                    rest = self.work[i][j] - self.of_block(i, j, rows, cols, done)
                    self.put(i, j, rest * self.last_factor(i, j, m))
                    done.add((i, j))

    def of_block(self, i, j, rows, cols, done):
        """The products within a block that have to be taken off an entry; where factors overlap, up to the entry."""
        made = self.operation
        if made.form in ("lu", "ldl"):
            inner = [k for k in (cols if i >= j else rows) if k < min(i, j)]
            if made.form == "lu":
                return sum(self.work[i][k] * self.work[k][j] for k in inner)
            return sum(self.work[i][k] * self.work[k][k] * self.work[j][k] for k in inner)
        total = 0
        if made.form in ("left", "sylvester"):
            total += sum(self.factor(made.t, i, k) * self.x(k, j) for k in rows if (k, j) in done)
        if made.form in ("right", "sylvester"):
            factor = made.t if made.form == "right" else made.u
            sign = self.sign() if made.form == "sylvester" else 1
            total += sign * sum(self.x(i, k) * self.factor(factor, k, j) for k in cols if (i, k) in done)
        return total

    def last_factor(self, i, j, m):
        """What an entry is multiplied with in the end."""
        form = self.operation.form
        if form in ("lu", "ldl"):
            return inverse(self.work[j][j], m) if i > j else 1
        return self.inverse_at({"left": i, "right": j, "sylvester": (i, j)}[form])
