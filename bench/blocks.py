"""Times `run` under block sizes beside the kernel `update`, and prints what is found beside what is asked.

    python3 bench/blocks.py KERNEL_BENCH FLAME DATA [ROUNDS [N]]

All times are user times, the best of alternating rounds. From that of a job that of the same job without its statements is
taken off, so that reading the text doesn't count; nothing is printed. Cutting and gathering are what `run` takes for
statements `X = W`, which have no step, beyond what `verify` takes to read the same matrices.
"""

import hashlib
import os
import random
import subprocess
import sys
from dataclasses import dataclass
from pathlib import Path

MODULI = (4294967291, 2147483647)
BLOCKS = (32, 64, 128, 256)
STEPS = 262_144
# Asked: the best rate as a share of update's, that of the smallest blocks as a share of the best, a share of an LU, the
# microseconds of a step, and the memory in matrices and bytes a step.
BEST = {"product": 0.75, "solve": 0.6, "lu": 0.5}
LEAST_OF_BEST = 0.25
CUT_SHARE = 0.03
STEP_MICROSECONDS = 2
MATRICES, STEP_BYTES = 3, 200

MUL = ("operation mul\ndims m n k\nwork W general m n\nknown A general m k\nknown B general k n\n"
       "equation X = W + A * B\nend\n")
SOLVE = "operation solve\ndims n m\nwork W general n m\nknown A lower n n\nequation A * X = W\nend\n"
LU = "operation lu\ndims n\nwork W general n n\nequation lu X = W\nend\n"
KEEP = "operation keep\ndims n\nwork W general n n\nequation X = W\nend\n"


@dataclass(frozen=True)
class Job:
    """A job: its operation, the names of its matrices, its statements, and which part of n^3 multiply-adds they come to."""

    name: str
    operation: str
    matrices: str
    statements: str
    count: float = 0


JOBS = (Job("product", MUL, "WAB", "do mul W A B\n", 1), Job("solve", SOLVE, "WA", "do solve W A\n", 1 / 2),
        Job("lu", LU, "W", "do lu W\n", 1 / 3))
CUTS = Job("cuts", KEEP, "WABC", "".join(f"do keep {name}\n" for name in "WABC"))
STEP_JOB = Job("steps", MUL, "WAB", "do mul W A B\n" * 8)


def matrix_text(name, n, entry):
    """The text of a square matrix."""
    rows = (" ".join(str(entry(i, j)) for j in range(n)) for i in range(n))
    return f"matrix {name} {n} {n}\n" + "\n".join(rows) + "\nend\n"


def write_job(data, job, modulus, n, entry):
    """Writes a job, the same without its statements, and with a print of what it leaves."""
    text = f"flame 1\nmodulus {modulus}\n{job.operation}"
    text += "".join(matrix_text(name, n, entry) for name in job.matrices)
    for end, behind in (("", job.statements), ("-idle", ""), ("-printed", job.statements + "print W\n")):
        (data / f"blocks-{job.name}{end}.flame").write_text(text + behind)


def path_of(data, job, end=""):
    return data / f"blocks-{job.name}{end}.flame"


def words_of(block):
    return ["run", "--block", str(block), "--workers", "1"]


def used(program, words, source=os.devnull):
    """The user seconds and the peak memory, in bytes, of a run. A process counts the memory of the one that it was forked
    from, so a small one of this script starts it: less than its 20 MB are not seen."""
    command = [sys.executable, __file__, "one", str(source), program, *words]
    seconds, memory = subprocess.run(command, stdout=subprocess.PIPE, text=True, check=True).stdout.split()
    return float(seconds), int(memory)


def print_used(source, program, *words):
    """Runs the program, and prints its user seconds and its peak memory, in bytes."""
    with open(source, "rb") as given:
        running = subprocess.Popen([program, *words], stdin=given, stdout=subprocess.DEVNULL)
        _, status, usage = os.wait4(running.pid, 0)
    running.returncode = os.waitstatus_to_exitcode(status)
    if running.returncode != 0:
        sys.exit(f"{program} {' '.join(words)} < {source} ended with status {running.returncode}")
    print(usage.ru_utime, usage.ru_maxrss * 1024)


def best_of(rounds, runs):
    """For each named run its least user seconds, in rounds in which each goes once, and its greatest memory."""
    seconds, memory = dict.fromkeys(runs, float("inf")), dict.fromkeys(runs, 0)
    for _ in range(rounds):
        for name, run in runs.items():
            took, held = used(*run)
            seconds[name], memory[name] = min(seconds[name], took), max(memory[name], held)
    return seconds, memory


def runs_of(bench, flame, data, modulus, n):
    """All runs of a table by what they are for."""
    runs = {("update", repeats): (bench, ["update", str(n), str(modulus), str(repeats)]) for repeats in (0, 1)}
    for block in BLOCKS:
        for job in (*JOBS, CUTS):
            for end in ("", "-idle"):
                runs[job.name + end, block] = (flame, words_of(block), path_of(data, job, end))
    for job in (*JOBS, CUTS):
        runs[job.name, "read"] = (flame, ["verify"], path_of(data, job, "-idle"))
    for end in ("", "-idle"):
        runs["steps" + end, 1] = (flame, words_of(1), path_of(data, STEP_JOB, end))
    return runs


def at_least(asked, found, unit=""):
    """What is asked, and whether it is met."""
    return f"at least {asked:g}{unit}: {'yes' if found >= asked else 'NO'}"


def at_most(asked, found, unit=""):
    """What is asked, and whether it is met."""
    return f"at most {asked:g}{unit}: {'yes' if found <= asked else 'NO'}"


def print_rates(seconds, n):
    """The rates of each job under each block size."""
    update = n**3 / (seconds["update", 1] - seconds["update", 0]) / 1e9
    print(f"update: {update:.2f} G multiply-adds a second")
    print(f"{'job':10}{'block':>6}{'seconds':>10}{'G/s':>8}{'of update':>11}  asked")
    for job in JOBS:
        took = {block: max(seconds[job.name, block] - seconds[job.name + "-idle", block], 1e-9) for block in BLOCKS}
        rate = {block: job.count * n**3 / took[block] / 1e9 for block in BLOCKS}
        best = max(rate, key=rate.get)
        for block in BLOCKS:
            asked = []
            if block == best:
                asked.append(at_least(BEST[job.name], rate[block] / update, " of update"))
            if block == BLOCKS[0]:
                share = rate[block] / rate[best]
                asked.append(at_least(LEAST_OF_BEST, share, " of the best") + f" ({share:.2f})")
            print(f"{job.name:10}{block:6}{took[block]:10.3f}{rate[block]:8.2f}{rate[block] / update:11.2f}  "
                  + "; ".join(asked))


def print_cuts(seconds):
    """Cutting and gathering a matrix as a share of its LU, and the time of a step."""
    for block in BLOCKS:
        cut = (seconds["cuts", block] - seconds["cuts", "read"]) / len(CUTS.matrices)
        share = cut / max(seconds["lu", block] - seconds["lu", "read"], 1e-9)
        print(f"cutting and gathering, blocks of {block}: {cut * 1000:.1f} ms, {share:.3f} of an LU, "
              + at_most(CUT_SHARE, share))
    step = (seconds["steps", 1] - seconds["steps-idle", 1]) / STEPS * 1e6
    print(f"a step on blocks of one entry: {step:.2f} microseconds, {at_most(STEP_MICROSECONDS, step)}")


def steps_of(name, parts):
    """The steps of a job of one statement on matrices of so many parts."""
    return {"product": parts**3, "solve": 1 + parts**2 * (parts + 1) // 2,
            "lu": parts * (parts + 1) * (2 * parts + 1) // 6, "cuts": 0}[name]


def print_memory(memory, data, n):
    """The peak memory less the text, beside what is asked."""
    print(f"{'job':10}{'block':>6}{'peak MB':>9}{'text MB':>9}{'rest MB':>9}  asked, in MB")
    rows = [(job, block, n, steps_of(job.name, -(-n // block))) for job in (*JOBS, CUTS) for block in BLOCKS]
    for job, block, rows_of_matrix, steps in [*rows, (STEP_JOB, 1, 32, STEPS)]:
        peak, text = memory[job.name, block], path_of(data, job).stat().st_size
        matrices = len(job.matrices) * rows_of_matrix**2 * 8
        asked = round((MATRICES * matrices + STEP_BYTES * steps) / 1e6, 1)
        print(f"{job.name:10}{block:6}{peak / 1e6:9.1f}{text / 1e6:9.1f}{(peak - text) / 1e6:9.1f}  "
              + at_most(asked, (peak - text) / 1e6))


def check(flame, data, n):
    """Whether each job prints the same under each block size and as one block."""
    for job in JOBS:
        digests = set()
        for block in (*BLOCKS, n):
            with open(path_of(data, job, "-printed"), "rb") as given:
                printed = subprocess.run([flame, *words_of(block)], stdin=given, stdout=subprocess.PIPE, check=True).stdout
            digests.add(hashlib.sha256(printed).digest())
        print(f"{job.name}: {'the same matrix under each block size' if len(digests) == 1 else 'DIFFERENT MATRICES'}")


def main():
    bench, flame, data = sys.argv[1:3] + [Path(sys.argv[3])]
    rounds = int(sys.argv[4]) if len(sys.argv) > 4 else 5
    n = int(sys.argv[5]) if len(sys.argv) > 5 else 1024
    for modulus in MODULI:
        rng = random.Random(modulus)
        for job in JOBS:
            write_job(data, job, modulus, n, lambda i, j: rng.randrange(1, modulus))
        write_job(data, CUTS, modulus, n, lambda i, j: int(i == j))
        write_job(data, STEP_JOB, modulus, 32, lambda i, j: rng.randrange(modulus))
        print(f"modulo {modulus}, {n} rows, best of {rounds} rounds, load {os.getloadavg()[0]:.1f}")
        seconds, memory = best_of(rounds, runs_of(bench, flame, data, modulus, n))
        print_rates(seconds, n)
        print_cuts(seconds)
        print_memory(memory, data, n)
        check(flame, data, n)


if __name__ == "__main__":
    if sys.argv[1] == "one":
        print_used(*sys.argv[2:])
    else:
        main()
