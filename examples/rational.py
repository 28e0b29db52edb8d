"""The rational solution of A * X = B, from solutions modulo several primes.

  python3 examples/rational.py A B

Prints a line for each row, with a comma between columns; 1 with a sentence on standard error where there is no solution.
"""

import os
import subprocess
import sys
from fractions import Fraction
from math import isqrt, prod
from pathlib import Path

ROOT = Path(__file__).resolve().parents[1]
FLAME = os.environ.get("FLAME") or str(ROOT / "flame")
sys.path.insert(0, str(ROOT / "scripts"))
sys.dont_write_bytecode = True
from matrix_files import Refused, read_matrix  # noqa: E402
from printed import matrices  # noqa: E402


def solved(files, prime):
    """The solution modulo a prime, or None where A has no inverse modulo it."""
    for words in ["-m", str(prime)], ["-m", str(prime), "--exchange"]:
        job = subprocess.run([ROOT / "scripts" / "matrix-to-job", "solve", *files, *words], capture_output=True)
        if job.returncode:
            sentence = job.stderr.decode()
            if "A has no inverse modulo" in sentence:
                return None
            sys.exit(sentence.rstrip("\n"))
        run = subprocess.run([FLAME, "run", "--block", "32", "--workers", "1"], input=job.stdout, capture_output=True)
        if run.returncode not in (0, 3, 4):
            sys.exit(f"{FLAME} ended with status {run.returncode}")
        if run.returncode != 4:  # else a pivot is 0 modulo the prime, and the equations are taken in another order
            return matrices(run.stdout.decode())[0].rows
    return None


def primes():
    """The primes below 2^32, from the greatest down."""
    return (one for one in range(2**32 - 1, 2, -2) if all(one % d for d in range(3, isqrt(one) + 1, 2)))


def fraction(residue, modulus):
    """The fraction with a small numerator and denominator that is the residue modulo the modulus, by Euclid's algorithm."""
    above, below = (modulus, 0), (residue, 1)
    while below[0] > isqrt(modulus // 2):
        above, below = below, tuple(x - above[0] // below[0] * y for x, y in zip(above, below))
    return Fraction(*below)


def rational(files):
    """The rows of the solution."""
    a, b = map(read_matrix, files)
    x, modulus, without = [[0] * len(row) for row in b], 1, 1
    for prime in primes():
        new = solved(files, prime)
        if new is None:  # Hadamard's bound: a determinant that so many primes divide is 0
            without *= prime
            if without > prod(isqrt(sum(y * y for y in row)) + 1 for row in a):
                raise Refused("A has no inverse")
            continue
        # The Chinese remainder theorem: x stays what it is modulo the primes before, and becomes new modulo this one.
        factor = pow(modulus, -1, prime)
        x = [[old + modulus * ((one - old) * factor % prime) for old, one in zip(*rows)] for rows in zip(x, new)]
        modulus *= prime
        found = [[fraction(one, modulus) for one in row] for row in x]
        if all([sum(map(lambda c, y: c * y, row, column)) for column in zip(*found)] == right for row, right in zip(a, b)):
            return found


if len(sys.argv) != 3:
    sys.exit(__doc__)
try:
    print(*(",".join(map(str, row)) for row in rational(sys.argv[1:])), sep="\n")
except Refused as refused:
    sys.exit(f"rational: {refused}")
