"""Makes texts of jobs, times the program on them, and checks what it prints."""

import random
import resource
import subprocess
import sys
import time

OPERATION = (
    "operation add\ndims m n k\nwork W general m n\nknown A general m k\nknown B general n k\n"
    "equation X = W + A * B'\nend\n"
)


def matrix_text(name, rows, cols, entries):
    lines = [f"matrix {name} {rows} {cols}"]
    if cols:
        lines += [" ".join(map(str, row)) for row in entries]
    return "\n".join(lines) + "\nend\n"


def job_text(modulus, n, inner, draw):
    work = [[draw() for _ in range(n)] for _ in range(n)]
    first = [[draw() for _ in range(inner)] for _ in range(n)]
    second = [[draw() for _ in range(inner)] for _ in range(n)]
    text = f"flame 1\nmodulus {modulus}\n{OPERATION}"
    text += matrix_text("W", n, n, work)
    text += matrix_text("A", n, inner, first)
    text += matrix_text("B", n, inner, second)
    return text + "do add W A B\nprint W\n"


def many_text(modulus, draw):
    """A job with as many operations, matrices and statements as a text may have."""
    text = f"flame 1\nmodulus {modulus}\n"
    text += "".join(OPERATION.replace("operation add", f"operation add{i}") for i in range(16))
    for i in range(32):
        text += matrix_text(f"M{i}", 8, 8, [[draw() for _ in range(8)] for _ in range(8)])
    text += "".join(f"do add{i} M{i} M{i + 1} M{i + 16}\n" for i in range(16))
    return text + "".join(f"print M{i}\n" for i in range(32))


def make(n, modulus, folder):
    """A job with inner dimension n, one with inner dimension 0, whose run is all text, and one of many parts."""
    rng = random.Random(1)

    def draw():
        return rng.randrange(modulus)

    texts = {
        "product": job_text(modulus, n, n, draw),
        "text": job_text(modulus, n, 0, draw),
        "many": many_text(modulus, draw),
    }
    for name, text in texts.items():
        with open(f"{folder}/{name}.flame", "w") as out:
            out.write(text)


def rows_of(lines, at):
    _, name, rows, cols = lines[at].split()
    rows, cols = int(rows), int(cols)
    count = rows if cols else 0
    return name, [list(map(int, line.split())) for line in lines[at + 1 : at + 1 + count]], at + count + 2


def timed(program, path):
    """The seconds of the best of three runs, and what was printed."""
    best = None
    for _ in range(3):
        with open(path, "rb") as source:
            begin = time.perf_counter()
            done = subprocess.run(
                [program, "run", "--block", "1", "--workers", "1"], stdin=source, stdout=subprocess.PIPE
            )
            seconds = time.perf_counter() - begin
        if done.returncode != 0:
            sys.exit(f"the program ended with status {done.returncode}")
        best = seconds if best is None else min(best, seconds)
    return best, done.stdout


def word_count_seconds(path):
    """The seconds that `wc -w` takes for a file, the best of three."""
    best = None
    for _ in range(3):
        begin = time.perf_counter()
        subprocess.run(["wc", "-w", path], stdout=subprocess.DEVNULL, check=True)
        seconds = time.perf_counter() - begin
        best = seconds if best is None else min(best, seconds)
    return best


def times_vector(matrix, vector, modulus):
    return [sum(map(int.__mul__, row, vector)) % modulus for row in matrix]


def check(modulus, text, printed):
    lines = text.split("\n")
    at = lines.index("end") + 1
    _, work, at = rows_of(lines, at)
    _, first, at = rows_of(lines, at)
    _, second, at = rows_of(lines, at)
    _, result, _ = rows_of(printed.decode().split("\n"), 0)
    rng = random.Random(2)
    for _ in range(3):
        vector = [rng.randrange(modulus) for _ in range(len(work[0]))]
        turned = [sum(row[j] * x for row, x in zip(second, vector)) % modulus for j in range(len(second[0]))]
        added = times_vector(first, turned, modulus)
        due = [(x + y) % modulus for x, y in zip(times_vector(work, vector, modulus), added)]
        if times_vector(result, vector, modulus) != due:
            return False
    return True


def measure(n, modulus, folder, program):
    product, alone = f"{folder}/product.flame", f"{folder}/text.flame"
    with open(product) as source:
        text = source.read()
    with open(alone) as source:
        text_alone = source.read()
    text_seconds, text_printed = timed(program, alone)
    seconds, printed = timed(program, product)
    memory = resource.getrusage(resource.RUSAGE_CHILDREN).ru_maxrss / 1024
    many_seconds, _ = timed(program, f"{folder}/many.flame")
    moved = len(text_alone) + len(text_printed)
    rate = moved / text_seconds / 1e6
    # The run of the product moves more text: its time is taken off at the rate of the text.
    loop = seconds - (len(text) + len(printed)) / (rate * 1e6)
    print(f"n {n} modulus {modulus}: {len(text) / 1e6:.1f} MB of text")
    print(f"whole run {seconds:.3f} s, of which the product {loop:.3f} s")
    print(f"product {n ** 3 / loop / 1e9:.2f} G multiply-adds a second")
    print(f"reading and printing {rate:.0f} MB a second; wc -w of the same file {len(text) / word_count_seconds(product) / 1e6:.0f}")
    print(f"memory {memory:.0f} MB at most")
    print(f"16 operations, 32 matrices and 16 statements {many_seconds * 1000:.1f} ms")
    good = check(modulus, text, printed)
    print("result right" if good else "result WRONG")
    sys.exit(0 if good else 1)


if __name__ == "__main__":
    size, number, place = int(sys.argv[2]), int(sys.argv[3]), sys.argv[4]
    if sys.argv[1] == "make":
        make(size, number, place)
    else:
        measure(size, number, place, sys.argv[5])
