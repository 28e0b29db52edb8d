"""The job that `make` prints and `selfrun` runs: a product of triangular factors, its LU, and a system solved with it."""

from .algebra import dot
from .job_text import read_job
from .matrix_text import matrix_text
from .model import Matrix
from .scanner import scan
from .steps import refuse_too_many, steps_of

OPERATIONS = """operation prod
dims n
work W general n n
known L unitlower n n
known U upper n n
equation X = W + L * U
end
operation lu
dims n
work W general n n
equation lu X = W
end
operation ulow
dims n m
work W general n m
known T unitlower n n
equation T * X = W
end
operation upp
dims n m
work W general n m
known T upper n n
equation T * X = W
end
"""
STATEMENTS = """do prod S F F
do lu S
do ulow B S
do upp B S
print S
print B
"""


class Draws:
    """The numbers that are drawn from a seed."""

    def __init__(self, seed, modulus):
        self.x = seed % 65537
        self.modulus = modulus

    def draw(self):
        """The next number, below the modulus."""
        self.x = (75 * self.x + 74) % 65537
        return self.x % self.modulus


def drawn_matrices(n, modulus, seed):
    """F, whose diagonal entries are 1 and take no draw, and B."""
    draws = Draws(seed, modulus)
    f = [[1 if i == j else draws.draw() for j in range(n)] for i in range(n)]
    b = [[draws.draw() for _ in range(n)] for _ in range(n)]
    return Matrix(n, n, f), Matrix(n, n, b)


def generated_text(n, modulus, seed):
    """The text of the job."""
    f, b = drawn_matrices(n, modulus, seed)
    matrices = "".join(matrix_text(*one) for one in (("F", f), ("S", Matrix.zero(n, n)), ("B", b)))
    return f"flame 1\nmodulus {modulus}\n{OPERATIONS}{matrices}{STATEMENTS}"


def refuse_or_count(n, block):
    """The number of the job's steps, which depends on its size alone; a Refusal where a limit is passed."""
    job = read_job(scan(generated_text(0, 2, 0).encode("ascii")))
    job.matrices = [Matrix(n, n, [])] * len(job.matrices)
    refuse_too_many(job, block)
    return steps_of(job, block)


def sums(n, modulus, seed):
    """The sums of the entries of S and B after the job. S is then F. B has become X with `L * U * X = B`, L and U being the
    views of F, so the sums of the rows of X solve the same equation for the sums of the rows of B."""
    f, b = drawn_matrices(n, modulus, seed)
    rows = [sum(row) % modulus for row in b.cells]
    for i in range(n):
        rows[i] = (rows[i] - dot(f.cells[i][:i], rows[:i])) % modulus
    for i in reversed(range(n)):
        # The diagonal of U is 1.
        rows[i] = (rows[i] - dot(f.cells[i][i + 1:], rows[i + 1:])) % modulus
    return sum(map(sum, f.cells)) % modulus, sum(rows) % modulus


def summary_text(n, modulus, seed, block, workers):
    """What `selfrun` prints."""
    count = refuse_or_count(n, block)
    of_s, of_b = sums(n, modulus, seed)
    return (f"selfrun {n} {modulus} {seed} block {block} workers {workers}\ntasks {count}\n"
            f"sum S {of_s}\nsum B {of_b}\n")
