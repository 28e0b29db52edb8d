"""Times each kernel beside the plain product loop, in alternating runs, and prints a table of rates."""

import os
import resource
import subprocess
import sys

MODULI = [4294967291, 2147483647]
SIZE = 1024
TRIANGLES = ["lower", "unitlower", "upper", "unitupper"]


class Row:
    """A kernel on n by n matrices: its words, how many multiply-adds a run counts, and the rate that is asked of it."""

    each = None

    def __init__(self, words, n=SIZE, count=1.0, asked=None, of="update"):
        self.words, self.n, self.asked, self.of = words.split(), n, asked, of
        self.name = words if n == SIZE else f"{words}, n = {n}"
        self.adds = n**3 * count
        # Small matrices go so often that a run takes as long as one of a great matrix.
        self.repeats = max(1, round(0.3e9 / self.adds))


class Inverses(Row):
    """The inverses of n pivots, each of which takes as long as hundreds of multiply-adds."""

    each = "inverse"

    def __init__(self, words, n=SIZE):
        super().__init__(words, n)
        self.adds, self.repeats = n, max(1, round(1e6 / n))


def rows_of():
    """The rows of the table. What is asked is a share of the rate of update, or a number of units."""
    rows = [Row("unit"), Row("update", asked=4, of="unit")]
    rows += [Row("update " + words, asked=0.7) for words in ("general general'", "general' general", "general' general'")]
    for word in TRIANGLES:
        rows += [Row(f"update {word} general", count=0.5, asked=0.7), Row(f"update general {word}", count=0.5, asked=0.7)]
    rows += [Row("update symmetric general", asked=0.7), Row("update general symmetric", asked=0.7)]
    rows += [Row("update general general lower", count=0.5), Row("update_ldl", asked=0.25)]
    for side in ("solve_left", "solve_right"):
        rows += [Row(f"{side} {word}{prime}", count=0.5, asked=0.4) for word in TRIANGLES for prime in ("", "'")]
    rows += [Row("solve_right_ldl", count=0.5), Row("solve_sylvester lower upper", asked=0.25)]
    rows += [Row("factor_lu", count=1 / 3, asked=0.3), Row("factor_ldl", count=1 / 6, asked=0.25)]
    rows += [Row("update", n=n, asked=share) for n, share in ((64, 0.45), (128, 0.65), (256, 0.8))]
    rows += [Row(name, n=64, count=count) for name, count in (("factor_lu", 1 / 3), ("factor_ldl", 1 / 6))]
    rows += [Inverses("pivots lower")]
    return rows


def user_seconds(program, row, modulus, repeats):
    """The user time of a run of the program, in seconds."""
    words = [row.words[0], str(row.n), str(modulus), str(repeats), *row.words[1:]]
    before = resource.getrusage(resource.RUSAGE_CHILDREN).ru_utime
    subprocess.run([program, *words], stdout=subprocess.DEVNULL, check=True)
    return resource.getrusage(resource.RUSAGE_CHILDREN).ru_utime - before


def rates(program, rows, modulus, rounds):
    """The rate of each row in G multiply-adds a second, of its best run, less the best run with no repeats."""
    best = {row: [float("inf")] * 2 for row in rows}
    for _ in range(rounds):
        for row in rows:
            for at, repeats in enumerate((0, row.repeats)):
                best[row][at] = min(best[row][at], user_seconds(program, row, modulus, repeats))
    return {row: row.adds * row.repeats / max(run - idle, 1e-9) / 1e9 for row, (idle, run) in best.items()}


def print_table(rows, rate, modulus):
    unit, update = (next(rate[row] for row in rows if row.name == name) for name in ("unit", "update"))
    print(f"modulo {modulus}, load {os.getloadavg()[0]:.1f}")
    print(f"{'kernel':36} {'G/s':>7} {'units':>7} {'of update':>9} {'asked':>10}")
    for row in rows:
        if row.each:
            print(f"{row.name:36} {1 / rate[row]:7.0f} ns for each {row.each}")
            continue
        units, share = rate[row] / unit, rate[row] / update
        asked = ""
        if row.asked:
            met = (units if row.of == "unit" else share) >= row.asked
            asked = f"{row.asked}{'u' if row.of == 'unit' else ' '} {'yes' if met else 'NO'}"
        print(f"{row.name:36} {rate[row]:7.2f} {units:7.2f} {share:9.2f} {asked:>10}")


if __name__ == "__main__":
    all_rows = rows_of()
    wanted = sys.argv[3:]
    chosen = [row for row in all_rows if not wanted or row.name in ("unit", "update") or row.words[0] in wanted]
    for number in MODULI:
        print_table(chosen, rates(sys.argv[1], chosen, number, int(sys.argv[2]) if sys.argv[2:] else 7), number)
