"""Times `worksheet` and `check`, and prints what is found beside what is asked.

    python3 bench/worksheets.py FLAME DATA [ROUNDS]

Times are user and system times of a run, from a file to a file, the least of some rounds. From each is taken off what the program
takes without words, which is its start-up: loading it, and ending with bad words before it reads its input. A worksheet that was
made has to be right, or the script ends.
"""

import os
import subprocess
import sys
from pathlib import Path

from derive import HEAD, TEN, longest_named, operation_text
from steps import best_of

# Asked: the seconds of all worksheets of the ten operations, made and checked.
SECONDS = 1
BAD_WORDS, WRONG = 2, 7
INPUT_LIMIT = 67_108_864
# How often a short run goes whose time is told by itself, and a long one.
SHORT, LONG = 20, 2
# The bytes of a name: as many as it may have, those with which the largest worksheet is about half as long, and one.
NAMES = (32, 7, 1)
LU = operation_text(*TEN[1])


def spent(program, words, source, target, status=0):
    """The user and system seconds of a run, which ends with this status."""
    with open(source, "rb") as given, open(target, "wb") as taken:
        running = subprocess.Popen([program, *words], stdin=given, stdout=taken)
        _, ended, usage = os.wait4(running.pid, 0)
    running.returncode = os.waitstatus_to_exitcode(ended)
    if running.returncode != status:
        sys.exit(f"{program} {' '.join(words)} < {source} ended with status {running.returncode}")
    return usage.ru_utime + usage.ru_stime


def least(rounds, *run):
    """The least seconds of some runs."""
    return min(spent(*run) for _ in range(rounds))


class Bench:
    """The program, a folder for its files, the rounds of a run, and the seconds of a start-up."""

    def __init__(self, program, data, rounds):
        self.program, self.rounds = program, rounds
        self.job, self.sheet, self.behind, self.verdict = (
            Path(data) / f"worksheets.{end}" for end in ("flame", "out", "checked", "verdict"))
        self.started = least(SHORT, program, [], os.devnull, self.verdict, BAD_WORDS)

    def make(self, name, number, rounds):
        """The seconds in which a worksheet is made, beyond the start-up."""
        return least(rounds, self.program, ["worksheet", name, str(number)], self.job, self.sheet) - self.started

    def check(self, rounds):
        """The seconds in which the worksheet that was made last is checked behind its job, beyond the start-up."""
        self.behind.write_bytes(self.job.read_bytes() + self.sheet.read_bytes())
        took = least(rounds, self.program, ["check"], self.behind, self.verdict) - self.started
        if self.verdict.read_bytes() != b"right\n":
            sys.exit(f"the worksheet in {self.sheet} isn't right")
        return took

    def variants(self):
        """The number of variants of each operation of the job."""
        spent(self.program, ["derive"], self.job, self.sheet)
        words = [line.split() for line in self.sheet.read_text().split("\n")]
        names = [line[1] for line in words if line[:1] == ["operation"]]
        return dict(zip(names, (int(line[1]) for line in words if line[:1] == ["variants"])))


def measure_every(bench):
    """Prints what all worksheets of the ten operations take, which stand in one job."""
    bench.job.write_text(HEAD + "".join(operation_text(*operation) for operation in TEN))
    runs, total, slowest = 0, 0.0, (0.0, "")
    for name, count in bench.variants().items():
        made, checked, size = 0.0, 0.0, 0
        for number in range(1, count + 1):
            took = bench.make(name, number, bench.rounds), bench.check(bench.rounds)
            made, checked, size = made + took[0], checked + took[1], size + bench.sheet.stat().st_size
            slowest = max(slowest, (sum(took), f"{name} {number}"))
        print(f"{name}: {count} worksheets, {size} bytes; made in {made * 1000:.1f} ms, checked in {checked * 1000:.1f} ms")
        runs, total = runs + 2 * count, total + made + checked
    print(f"all worksheets made and checked: {total:.3f} s in {runs} runs beyond their start-up, at most {SECONDS} s: "
          f"{'yes' if total <= SECONDS else 'NO'}; with {bench.started * 1000:.2f} ms of start-up each "
          f"{total + runs * bench.started:.3f} s")
    print(f"slowest: {slowest[1]}, {slowest[0] * 1000:.2f} ms made and checked")


def measure_largest(bench):
    """Prints what the last worksheet of the operation with the longest expressions takes, by the length of its names."""
    for length in NAMES:
        name, _, block = longest_named(length)
        bench.job.write_text(HEAD + block)
        number = bench.variants()[name]
        made = least(SHORT, bench.program, ["worksheet", name, str(number)], bench.job, bench.sheet)
        bench.check(1)
        checked = least(SHORT, bench.program, ["check"], bench.behind, bench.verdict)
        family = least(SHORT, bench.program, ["derive"], bench.job, bench.verdict)
        plain = least(SHORT, "cat", [], bench.behind, bench.verdict)
        took = f"made in {made * 1000:.2f} ms, checked in {checked * 1000:.2f} ms, its family printed in {family * 1000:.2f} ms"
        print(f"largest, names of {length} bytes, variant {number}: {bench.sheet.stat().st_size} bytes; {took}, cat "
              f"{plain * 1000:.2f} ms, all with their start-up, which is {bench.started * 1000:.2f} ms of the program")


def great_texts(sheet):
    """Each with its name, the text in front of what is repeated, that, the text behind it, and the status of its check."""
    head, tail = sheet.split("update ", 1)
    yield "comments", HEAD + LU, "# a line that says nothing\n", sheet, 0
    yield "updates", HEAD + LU + head, "update solve(1,1)\n", "update " + tail, WRONG
    yield "states", HEAD + LU + head, "before 2 2 : left(2,2,0)\n", "update " + tail, WRONG
    head, tail = sheet.split("invariant ", 1)
    yield "tasks", HEAD + LU + head + "invariant ", "solve(0,0) ", tail, WRONG


def measure_great(bench):
    """Prints what a check of a text takes that is as long as an input may be, and of one of half its size."""
    bench.job.write_text(HEAD + LU)
    bench.make("lu", 5, 1)
    for name, head, repeated, tail, status in great_texts(bench.sheet.read_text()):
        for size in (INPUT_LIMIT, INPUT_LIMIT // 2):
            bench.behind.write_text(head + repeated * ((size - len(head) - len(tail)) // len(repeated)) + tail)
            size = bench.behind.stat().st_size / 1e6
            seconds, memory = best_of(LONG, {"check": (bench.program, ["check"], bench.behind, status),
                                             "wc": ("wc", ["-w"], bench.behind)})
            print(f"check of {name}: {size:.1f} MB in {seconds['check']:.3f} s, {size / seconds['check']:.0f} MB a second (wc -w "
                  f"{size / seconds['wc']:.0f}), with {memory['check'] / 1e6:.0f} MB of memory")
    bench.behind.unlink()


def main():
    rounds = int(sys.argv[3]) if len(sys.argv) > 3 else 3
    print(f"{os.cpu_count()} processors, load {os.getloadavg()[0]:.1f}, best of {rounds} rounds")
    bench = Bench(sys.argv[1], sys.argv[2], rounds)
    measure_every(bench)
    measure_largest(bench)
    measure_great(bench)


if __name__ == "__main__":
    main()
