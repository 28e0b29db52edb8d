"""Times runs by several workers, and prints what is found beside what is asked.

    python3 bench/threads.py FLAME DATA [ROUNDS [N]]

Times of runs are those of the clock, the best of alternating rounds. From that of a job that of the same job without its
statements is taken off, so that reading the text doesn't count, and from that of `selfrun` what it takes where it is refused
for too many parts, so that making the job doesn't. A step's cost is user and system time of all workers. What the program
prints isn't looked at.
"""

import os
import random
import subprocess
import sys
import time
from pathlib import Path

MODULUS = 4294967291
WORKERS = (1, 2, 4, 16)
BLOCKS = (64, 128)
SIDE, TIMES = 32, 8
STEPS = TIMES * SIDE**3
# Asked: how much faster four workers are than one, how much slower sixteen may be than four, the microseconds of a step, the
# memory beside the matrices and a step's bytes.
GAIN, SLOWER, STEP_MICROSECONDS, TIMES_MATRICES, STEP_BYTES = 2.8, 1.3, 3, 3, 400
REFUSED = 3

MUL = ("operation mul\ndims m n k\nwork W general m n\nknown A general m k\nknown B general k n\n"
       "equation X = W + A * B\nend\n")
LU = "operation lu\ndims n\nwork W general n n\nequation lu X = W\nend\n"


def matrix(rng, name, n):
    """The text of a square matrix."""
    lines = (" ".join(str(rng.randrange(MODULUS)) for _ in range(n)) for _ in range(n))
    return f"matrix {name} {n} {n}\n" + "\n".join(lines) + "\nend\n"


def job_text(operation, names, n, statements):
    """The text of a job of square matrices with these statements."""
    rng = random.Random(1)
    return f"flame 1\nmodulus {MODULUS}\n{operation}" + "".join(matrix(rng, name, n) for name in names) + statements


def run_words(block, workers):
    return ["run", "--block", str(block), "--workers", str(workers)]


def self_words(n, block, workers):
    return ["selfrun", str(n), str(MODULUS), "1", "--block", str(block), "--workers", str(workers)]


def started(program, words, source):
    """A run that has begun."""
    with open(source, "rb") as given:
        return subprocess.Popen([program, *words], stdin=given, stdout=subprocess.DEVNULL)


def used(program, words, source=os.devnull, status=0, copies=1):
    """The seconds by the clock, the user and system seconds, and the peak memory in bytes of as many runs at once."""
    begun = time.monotonic()
    running = [started(program, words, source) for _ in range(copies)]
    seconds, memory = 0.0, 0
    for one in running:
        _, ended, usage = os.wait4(one.pid, 0)
        one.returncode = os.waitstatus_to_exitcode(ended)
        if one.returncode != status:
            sys.exit(f"{program} {' '.join(words)} < {source} ended with status {one.returncode}")
        seconds, memory = seconds + usage.ru_utime + usage.ru_stime, max(memory, usage.ru_maxrss * 1024)
    return time.monotonic() - begun, seconds, memory


def best_of(rounds, runs):
    """For each named run its least seconds by the clock and of all processors, and its greatest memory."""
    found = {name: (float("inf"), float("inf"), 0) for name in runs}
    for _ in range(rounds):
        for name, run in runs.items():
            clock, seconds, memory = used(*run)
            before = found[name]
            found[name] = min(before[0], clock), min(before[1], seconds), max(before[2], memory)
    return found


def asked(found, limit, unit, least):
    """What is asked, and whether it is met."""
    met = found >= limit if least else found <= limit
    return f"at {'least' if least else 'most'} {limit:g} {unit}: {'yes' if met else 'NO'}"


def jobs(n):
    """Each job's name, its words by workers, its input, what is taken off, and the bytes of its matrices."""
    for block in BLOCKS:
        yield f"mul {n} --block {block}", lambda workers, block=block: run_words(block, workers), "mul", 3
        yield f"lu {n} --block {block}", lambda workers, block=block: run_words(block, workers), "lu", 1
    yield f"selfrun {n} --block 128", lambda workers: self_words(n, 128, workers), None, 3


def runs_of(flame, data, n):
    """All runs by what they are for."""
    runs = {"idle mul": (flame, run_words(64, 1), data / "threads-mul-idle.flame"),
            "idle lu": (flame, run_words(64, 1), data / "threads-lu-idle.flame"),
            "idle None": (flame, self_words(n, (n - 1) // 32, 1), os.devnull, REFUSED),
            "idle steps": (flame, run_words(1, 1), data / "threads-steps-idle.flame")}
    for name, words, job, _ in jobs(n):
        source = data / f"threads-{job}.flame" if job else os.devnull
        for workers in WORKERS:
            runs[name, workers] = (flame, words(workers), source)
        runs[name, "processes"] = (flame, words(1), source, 0, 4)
    for workers in WORKERS:
        runs["steps", workers] = (flame, run_words(1, workers), data / "threads-steps.flame")
    return runs


def print_job(found, name, job, matrices, n, steps):
    """What a job takes by each number of workers."""
    idle = found[f"idle {job}"][0]
    clock = {workers: found[name, workers][0] - idle for workers in WORKERS}
    limit = 4 * clock[1] / (found[name, "processes"][0] - idle)
    times = "".join(f"{clock[workers]:9.3f} s" for workers in WORKERS)
    print(f"{name:24}{times}{found[name, 4][0]:10.3f} s{limit:8.2f}")
    gain, slower = clock[1] / clock[4], clock[16] / clock[4]
    peak, due = found[name, 4][2], TIMES_MATRICES * matrices * n * n * 8 + STEP_BYTES * steps
    print(f"{'':8}4 workers {gain:.2f} times one, {asked(gain, GAIN, 'times', True)}; 16 workers {slower:.2f} of 4, "
          f"{asked(slower, SLOWER, '', False)}")
    print(f"{'':8}peak {peak / 1e6:.0f} MB, {asked(peak / 1e6, due / 1e6, 'MB', False)} (16 workers "
          f"{found[name, 16][2] / 1e6:.0f} MB, one {found[name, 1][2] / 1e6:.0f} MB)")


def write_jobs(data, n):
    """Writes the texts of the jobs, in a process of its own: what a run has at most counts what the process that starts it has."""
    child = os.fork()
    if child:
        if os.waitpid(child, 0)[1]:
            sys.exit(f"the jobs can't be written to {data}")
        return
    for name, operation, names, side, do in (("mul", MUL, "WAB", n, "do mul W A B\n"), ("lu", LU, "A", n, "do lu A\n"),
                                             ("steps", MUL, "WAB", SIDE, "do mul W A B\n" * TIMES)):
        (data / f"threads-{name}.flame").write_text(job_text(operation, names, side, do))
        (data / f"threads-{name}-idle.flame").write_text(job_text(operation, names, side, ""))
    os._exit(0)


def main():
    flame, data = sys.argv[1], Path(sys.argv[2])
    rounds, n = [int(given) for given in sys.argv[3:]] + [5, 1024][len(sys.argv[3:]):]
    write_jobs(data, n)
    print(f"{os.cpu_count()} processors, load {os.getloadavg()[0]:.1f}, best of {rounds} rounds")
    found = best_of(rounds, runs_of(flame, data, n))
    print(f"{'beyond reading the job':24}" + "".join(f"{workers:>9} w" for workers in WORKERS) + "   whole, 4   limit")
    for name, _, job, matrices in jobs(n):
        block = int(name.split()[-1])
        parts = -(-n // block)
        print_job(found, name, job, matrices, n, 4 * parts**3)
    print(f"{STEPS} steps of products of one entry, beyond reading the job")
    for workers in WORKERS:
        clock, seconds = (found["steps", workers][k] - found["idle steps"][k] for k in (0, 1))
        cost = seconds / STEPS * 1e6
        print(f"{workers:4} workers {clock:7.3f} s by the clock, {clock / STEPS * 1e6:6.2f} us a step; of all processors "
              f"{cost:6.2f} us a step" + (f", {asked(cost, STEP_MICROSECONDS, 'us', False)}" if workers == 2 else ""))
    peak = found["steps", 4][2]
    due = 3 * 3 * SIDE * SIDE * 8 + STEP_BYTES * STEPS
    print(f"peak of 4 workers {peak / 1e6:.0f} MB, {asked(peak / 1e6, due / 1e6, 'MB', False)}")


if __name__ == "__main__":
    main()
