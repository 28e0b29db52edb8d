"""Times `derive` on ten common operations and on those with the largest families, or looks for the latter."""

import itertools
import os
import resource
import subprocess
import sys
import time

HEAD = "flame 1\nmodulus 101\n"

# Name, dimensions, work operand, known operands, equation.
TEN = [
    ("mul", "m n k", "general m n", ["A general m k", "B general k n"], "X = W + A * B"),
    ("lu", "n", "general n n", [], "lu X = W"),
    ("ldl", "n", "lower n n", [], "ldl X = W"),
    ("low", "n m", "general n m", ["T lower n n"], "T * X = W"),
    ("ulow", "n m", "general n m", ["T unitlower n n"], "T * X = W"),
    ("upp", "n m", "general n m", ["T upper n n"], "T * X = W"),
    ("inv", "n", "lower n n", ["T lower n n"], "T * X = W"),
    ("syl", "m n", "general m n", ["T lower m m", "U upper n n"], "T * X + X * U = W"),
    ("sqr", "n k", "lower n n", ["A general n k"], "X = W + A * A'"),
    ("prod", "n", "general n n", ["L unitlower n n", "U upper n n"], "X = W + L * U"),
]

SYLVESTER = "T * X + X * U = W + A * B + C * D"
FULL = ["A general n n", "B general n n"]
THIN = ["A general n k", "B general k n"]
OTHER = ["C general n k", "D general k n"]

# The three largest that `search` finds.
LARGEST = [
    ("first", "n k", "general n n", ["T lower n n", "U upper n n"] + FULL + OTHER, SYLVESTER),
    ("second", "n k", "general n n", ["T upper n n", "U lower n n"] + FULL + OTHER, SYLVESTER),
    ("third", "n k", "general n n", ["T lower n n", "U upper n n"] + THIN + OTHER, SYLVESTER),
]


def operation_text(name, dims, work, knowns, equation):
    """The block of an operation in a job."""
    lines = ["operation " + name, "dims " + dims, "work W " + work]
    lines += ["known " + known for known in knowns] + ["equation " + equation, "end"]
    return "\n".join(lines) + "\n"


def longest_named(length):
    """The operation with the longest expressions and worksheets, whose names have so many bytes: its name, its dimensions and its
    block. It has as many variants as any that `search` finds."""
    o, n, k, w, t, u, a, b, c, d = (letter * length for letter in "onkwtuabcd")
    knowns = [f"{t} upper {n} {n}", f"{u} lower {n} {n}", f"{a} general {n} {n}", f"{b} general {n} {n}",
              f"{c} general {k} {n}", f"{d} general {n} {k}"]
    lines = [f"operation {o}", f"dims {n} {k}", f"work {w} general {n} {n}", *(f"known {known}" for known in knowns),
             f"equation {t}' * X - X * {u}' = {w} - {a}' * {b}' - {c}' * {d}'", "end"]
    return o, (n, k), "\n".join(lines) + "\n"


def best(command, source, target, runs=40):
    """The least wall time of a command, in milliseconds, from a file to a file."""
    least = float("inf")
    for _ in range(runs):
        with open(source, "rb") as given, open(target, "wb") as taken:
            begin = time.perf_counter()
            subprocess.run(command, stdin=given, stdout=taken, check=True)
            least = min(least, time.perf_counter() - begin)
    return least * 1000


def least_memory(command, source):
    """The least address space, in kilobytes, in which a run doesn't want for memory."""
    low, high = 0, 1 << 16
    while high - low > 64:
        middle = (low + high) // 2
        limit = middle * 1024
        with open(source, "rb") as given:
            ended = subprocess.run(
                command,
                stdin=given,
                stdout=subprocess.DEVNULL,
                stderr=subprocess.DEVNULL,
                preexec_fn=lambda: resource.setrlimit(resource.RLIMIT_AS, (limit, limit)),
            )
        low, high = (low, middle) if ended.returncode == 0 else (middle, high)
    return high


def measure(label, operations, program, data):
    """Prints the times and the memory of `derive` on a job of these operations, beside those of `cat` on its text."""
    job, text, copy = (os.path.join(data, "derive." + end) for end in ("flame", "out", "copy"))
    with open(job, "w") as out:
        out.write(HEAD + "".join(operation_text(*operation) for operation in operations))
    derive = best([program, "derive"], job, text)
    plain = best(["cat"], text, copy)
    size = os.path.getsize(text)
    with open(text) as printed:
        variants = sum(int(line.split()[1]) for line in printed if line.startswith("variants "))
    memory = least_memory([program, "derive"], job)
    print(
        f"{label}: {variants} variants, {size} bytes; derive {derive:.2f} ms, cat {plain:.2f} ms, "
        f"address space {memory} kB"
    )


def run(program, data):
    """Measures a job that has no operation, the ten, and the largest."""
    measure("no operation", [], program, data)
    measure("ten operations", TEN, program, data)
    measure("the three largest", LARGEST, program, data)
    for operation in LARGEST:
        measure("largest, " + operation[0], [operation], program, data)


def candidates():
    """Operations of all forms by what families depend on: which blocks are zero, and which dimensions are one."""
    full, half = ["general", "lower", "upper", "diagonal"], ["lower", "upper", "diagonal"]
    for work, square in [("general", False), ("general", True), ("lower", True), ("upper", True)]:
        row, col = "n", "n" if square else "m"
        forms = ["X"] + [f"{t} *" for t in half] + [f"* {t}" for t in half]
        if work == "general":
            forms += [f"{t} + {u}" for t in half for u in half]
        if square and work != "upper":
            forms.append("lu X" if work == "general" else "ldl X")
        inner = [row] if square else [row, col]
        for form in forms:
            for dims in (inner + list("kl")[:further] for further in range(3)):
                terms = []
                for dim in dims:
                    left = full if dim == row else ["general"]
                    right = full if dim == col else ["general"]
                    terms += [(dim, f, g) for f in left for g in right]
                for count in range(3):
                    for chosen in itertools.combinations_with_replacement(terms, count):
                        if {dim for dim, _, _ in chosen} | set(inner) == set(dims):
                            yield work, row, col, form, dims, chosen


def stated(work, row, col, form, dims, terms):
    """Such an operation as a text has it."""
    knowns, left = [], form
    if form.endswith(" *"):
        knowns, left = [f"T {form[:-2]} {row} {row}"], "T * X"
    elif form.startswith("* "):
        knowns, left = [f"T {form[2:]} {col} {col}"], "X * T"
    elif " + " in form:
        first, second = form.split(" + ")
        knowns, left = [f"T {first} {row} {row}", f"U {second} {col} {col}"], "T * X + X * U"
    right = "W"
    for (first, second), (dim, f, g) in zip(["AB", "CD"], terms):
        knowns += [f"{first} {f} {row} {dim}", f"{second} {g} {dim} {col}"]
        right += f" + {first} * {second}"
    return "op", " ".join(dims), f"{work} {row} {col}", knowns, f"{left} = {right}"


def search(program):
    """Derives all candidates, sixteen a job, and prints those with the most variants, and with the longest texts."""
    found = []
    operations = [stated(*candidate) for candidate in candidates()]
    for begin in range(0, len(operations), 16):
        part = operations[begin : begin + 16]
        job = HEAD + "".join(operation_text(f"o{at}", *op[1:]) for at, op in enumerate(part))
        text = subprocess.run([program, "derive"], input=job, capture_output=True, text=True, check=True).stdout
        families = text.split("operation ")[1:]
        assert len(families) == len(part), job
        for op, family in zip(part, families):
            found.append((int(family.split("\n")[1].split()[1]), len("operation " + family), op[1:]))
    print(f"{len(operations)} operations")
    for key, label in [(0, "most variants"), (1, "most bytes")]:
        print(label)
        for entry in sorted(found, key=lambda entry: -entry[key])[:6]:
            print(" ", *entry)


if __name__ == "__main__":
    if sys.argv[1] == "search":
        search(sys.argv[2])
    else:
        run(sys.argv[2], sys.argv[3])
