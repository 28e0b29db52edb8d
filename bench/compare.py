"""Times jobs by flame and by other programs that read the same text, one after the other in each round."""

import os
import random
import subprocess
import sys
import time
from pathlib import Path

ROOT = Path(__file__).resolve().parents[1]
# Everything goes by one thread, but for flame where more workers are asked for.
ALONE = {"OMP_NUM_THREADS": "1", "OPENBLAS_NUM_THREADS": "1"}
NOT_OFFERED = 3
TASKS = {"product": "multiply", "solve": "solve", "lu": "factor"}


def csv_of(path, rows, cols, modulus, rng):
    """Writes a matrix of residues that are drawn."""
    path.write_text("".join(",".join(str(rng.randrange(modulus)) for _ in range(cols)) + "\n" for _ in range(rows)))
    return str(path)


def jobs(n, modulus, folder):
    """The text of a job for each task, and with the same matrices and prints but without statements."""
    rng = random.Random(1)
    first, square = (csv_of(folder / f"{name}.csv", n, n, modulus, rng) for name in ("first", "square"))
    right = csv_of(folder / "right.csv", n, 1, modulus, rng)
    files = {"product": [first, square], "solve": [first, right], "lu": [first]}
    made = {}
    for task, kind in TASKS.items():
        words = [ROOT / "scripts" / "matrix-to-job", kind, *files[task], "-m", str(modulus)]
        text = subprocess.run(words, stdout=subprocess.PIPE, check=True).stdout
        idle = b"".join(line for line in text.splitlines(keepends=True) if not line.startswith(b"do "))
        made[task] = text, idle
    return made


def once(command, text):
    """The seconds of a run, what it printed, and what it told on standard error; None where it doesn't offer the task."""
    begin = time.perf_counter()
    done = subprocess.run(command, input=text, capture_output=True, env={**os.environ, **ALONE})
    seconds = time.perf_counter() - begin
    if done.returncode == NOT_OFFERED and command[1] in TASKS:
        return None
    if done.returncode != 0:
        sys.exit(f"{' '.join(command)} ended with status {done.returncode}: {(done.stderr or done.stdout).decode()[:200]}")
    return seconds, done.stdout, done.stderr


def measured(task, texts, rounds, flame, peers):
    """For each program the best seconds of the whole run and of computing alone, and whether it printed what flame printed."""
    text, idle = texts
    best, printed = {}, None

    def take(name, whole, alone):
        old = best.get(name, (whole, alone))
        best[name] = min(old[0], whole), min(old[1], alone)

    reading, running = [], []
    same = {}
    for _ in range(rounds):
        whole, printed, _ = once(flame, text)
        running.append(whole)
        reading.append(once(flame, idle)[0])
        for peer in peers:
            answer = once([peer, task], text)
            if answer:
                name = Path(peer).name
                take(name, answer[0], float(answer[2].split()[-1]))
                same[name] = answer[1] == printed
    # Of flame's run what the same text without statements takes is taken off.
    best["flame"] = min(running), max(min(running) - min(reading), 1e-9)
    return best, same


def main():
    """Prints the table."""
    n, modulus, rounds, workers = (int(word) for word in sys.argv[1:5])
    folder, program, peers = Path(sys.argv[5]), sys.argv[6], sys.argv[7:]
    block = max(32, -(-n // 32))
    flame = [program, "run", "--block", str(block), "--workers", str(workers)]
    print(f"n {n} modulus {modulus}, best of {rounds}, flame by blocks of {block} and {workers} workers, others by one thread")
    print("the ratio is the seconds of the program for one of flame: below 1 it is faster than flame")
    print(f"{'task':8} {'program':8} {'whole s':>10} {'ratio':>7} {'alone s':>10} {'ratio':>7}  result")
    for task, texts in jobs(n, modulus, folder).items():
        best, same = measured(task, texts, rounds, flame, peers)
        for name in ["flame", *(Path(peer).name for peer in peers)]:
            if name not in best:
                print(f"{task:8} {name:8} not offered")
                continue
            # Below a millisecond the difference of two runs says nothing.
            ratios = [f"{one / other:.2f}" if other > 0.001 else "-" for one, other in zip(best[name], best["flame"])]
            result = "" if name == "flame" else "the same" if same[name] else "another" + (
                " (rows or columns exchanged)" if task == "lu" else ": WRONG")
            print(f"{task:8} {name:8} {best[name][0]:10.4f} {ratios[0]:>7} {best[name][1]:10.4f} {ratios[1]:>7}  {result}".rstrip())
    return 0


if __name__ == "__main__":
    sys.exit(main())
