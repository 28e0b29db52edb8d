"""Runs the built program once for each of its allocations, and makes that one fail: tests/memory.py PROGRAM [EVERY].

What is due is the status 5 and no output; or, where the program does without that allocation, as for a thread that can't be
started, what it prints with ample memory. With EVERY only each so many-th allocation is tried. It wants a C compiler, `cc`, for `fail_allocation.c`, and glibc; without these it says so and tries nothing."""

import os
import shutil
import subprocess
import sys
import tempfile
from concurrent.futures import ThreadPoolExecutor
from pathlib import Path

HERE = Path(__file__).resolve().parent
SECONDS = 60
# More allocations than any case has.
MOST = 100_000

MUL = """flame 1
modulus 7
operation mul
dims m n k
work W general m n
known A general m k
known B general k n
equation X = W + A * B
end
"""
PRODUCT = """matrix W 2 2
0 0
0 0
end
matrix A 2 2
1 1
2 3
end
matrix B 2 2
1 1
1 1
end
do mul W A B
print W
"""
LU = """flame 1
modulus 101
operation lu
dims n
work A general n n
equation lu X = A
end
"""
FACTORED = """matrix A 3 3
2 1 1
4 5 3
2 4 8
end
do lu A
print A
"""
BAD_PIVOT = """matrix A 3 3
2 1 1
4 2 3
2 4 8
end
do lu A
print A
"""
AFTER = """after A 3 3
2 1 1
2 3 1
1 1 6
end
"""


# What is put for what in a worksheet of `lu`: a wrong place of each kind, then faults.
CHANGES = (
    ("solve(0,0) solve(0,1) solve(1,0)", "solve(0,1) solve(0,0)"), ("invariant solve(0,0)", "invariant"),
    ("left(1,1,0)\nguard", "left(1,1,0) solve(1,1)\nguard"),
    ("invariant solve(0,0) solve(0,1) solve(1,0) left(1,1,0)", "invariant"), ("guard n", "guard n n"),
    ("start n first", "start n last"), ("take n first", "take n last"), ("before 2 2", "before 1 2"), ("update solve(2,1)\n", ""),
    ("update left(2,2,1)\n", "update left(2,2,1)\n" * 2), ("give n first", "give n first n last"),
    ("after 2 2 :", "after 2 2 : #"), ("worksheet lu", "worksheet qr"), ("split n", "split m"),
    ("split n forward", "split n forward n forward"), ("guard n", "guard n ;"), ("update solve(2,1)", "update solve(2,3)"),
    ("give n", "give"))


def worksheet_cases():
    """Words and an input of `worksheet` and `check`: worksheets along one dimension and along two, operations and variants that
    aren't there, a worksheet that is right, cut, and changed in each way."""
    for words, data in ((["lu", "5"], LU + FACTORED), (["mul", "54"], MUL + PRODUCT), (["lu", "6"], LU), (["qr", "1"], LU)):
        yield ["worksheet", *words], data
    right = (HERE / "cases" / "check-lu-5" / "input").read_text()
    for data in (right, right[:-5], *(right.replace(found, put) for found, put in CHANGES)):
        yield ["check"], data


def cases():
    """Words and an input."""
    yield from worksheet_cases()
    for workers in ("1", "2", "3", "16"):
        run = ["run", "--block", "1", "--workers", workers]
        yield run, MUL + PRODUCT
        yield [*run, "--trace"], LU + FACTORED
        yield run, LU + BAD_PIVOT
        yield ["selfrun", "2", "101", "1", "--block", "1", "--workers", workers], ""
    yield ["derive"], MUL + PRODUCT
    yield ["pme", "lu", "n"], LU + FACTORED
    yield ["pme", "lu", "m"], LU + FACTORED
    yield ["verify"], LU + FACTORED + AFTER
    yield ["verify"], LU + FACTORED + AFTER.replace("6", "7")
    yield ["make", "2", "101", "1"], ""
    yield ["run", "--block", "1", "--workers", "2", "--variants", "9"], LU + FACTORED
    yield ["run", "--block", "1", "--workers", "2"], "flame 1\nmodulus 1\n"
    yield ["run", "--block", "0", "--workers", "2"], ""


def answer(program, library, case, number):
    """The status and the output, and whether there was an allocation with this number, from 1, which then failed."""
    words, data = case
    env = dict(os.environ, LD_PRELOAD=str(library), FAIL_ALLOC=str(number))
    done = subprocess.run([program, *words], input=data.encode("ascii"), capture_output=True, env=env, timeout=SECONDS)
    return (done.returncode, done.stdout), b"allocation failed" in done.stderr


def is_due(found, ample):
    """The program gave up, or answered as it does with ample memory, but for the order in which steps went."""
    if found == (5, b""):
        return True
    parts = [(status, text.partition(b"\nschedule ")[0]) for status, text in (found, ample)]
    return parts[0] == parts[1]


def tried(program, library, case, numbers):
    """For each allocation that was made to fail, whether the answer was due; and at how many the program gave up."""
    ample, _ = answer(program, library, case, 0)
    outcomes, given_up = [], 0
    for number in numbers:
        found, failed = answer(program, library, case, number)
        if not failed:
            break
        given_up += found == (5, b"")
        outcomes.append(is_due(found, ample))
        if not outcomes[-1]:
            print("failed:", *case[0], "at allocation", number, "status", found[0], found[1][:80])
    if not given_up:
        print("failed:", *case[0], "gave up at no allocation")
        outcomes.append(False)
    return outcomes


def main(program, every=1):
    if not shutil.which("cc"):
        print("failing allocations are left out: there is no C compiler")
        return 0
    with tempfile.TemporaryDirectory() as folder:
        library = Path(folder) / "fail_allocation.so"
        made = subprocess.run(["cc", "-O1", "-shared", "-fPIC", "-o", str(library), str(HERE / "fail_allocation.c")],
                              capture_output=True)
        if made.returncode:
            print("failing allocations are left out: the C compiler refuses fail_allocation.c")
            return 0
        with ThreadPoolExecutor() as pool:
            found = pool.map(lambda pair: tried(program, library, pair[1], range(1 + pair[0] % min(every, 4), MOST, every)),
                             enumerate(cases()))
            outcomes = [outcome for case in found for outcome in case]
    passed = sum(outcomes)
    print(f"failing allocations: {passed} passed, {len(outcomes) - passed} failed")
    return 0 if passed == len(outcomes) else 1


if __name__ == "__main__":
    sys.exit(main(sys.argv[1], *map(int, sys.argv[2:])))
