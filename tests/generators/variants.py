"""Jobs that are run by variants, with and without their traces: jobs of other cases under every variant where families are
small and under drawn ones where they are great, known results, and refusals in their order."""

import random
from functools import partial

from case import Case
from reference.issue import family_of
from reference.job_text import read_job
from reference.scanner import scan
from reference.steps import STEP_LIMIT

from .blocks import LOW, STEP_JOBS, UNIT, step_job, step_operation
from .chains import chain_cases
from .families import OPERATIONS, operation_text
from .grids import grid_cases
from .limits import LU, MUL, SQUARE, identity, matrix, text
from .pivots import pivot_cases
from .sizes import makers, run_text
from .words import words_under

LDL = "operation ldl\ndims n\nwork W lower n n\nequation ldl X = W\nend\n"
INV = "operation inv\ndims n\nwork W lower n n\nknown T lower n n\nequation T * X = W\nend\n"
SYL = ("operation syl\ndims m n\nwork W general m n\nknown T lower m m\nknown U upper n n\n"
       "equation T * X + X * U = W\nend\n")
# Operations whose families are known by their numbers of variants, each with a statement on identity matrices.
KNOWN_FAMILIES = (("lu", LU, 5), ("ldl", LDL, 3), ("low", LOW, 22), ("inv", INV, 4), ("syl", SYL, 24), ("mul", MUL, 54))
KNOWNS = {"lu": "", "ldl": "", "low": " T", "inv": " T", "syl": " T U", "mul": " T U"}
GREATEST = 4_294_967_295
# A word has less than 131,072 bytes.
MOST_GIVEN = 65_536
# So many rounds go through all variants of a solve or a Sylvester equation without terms.
ALL = 24
ROUNDS = {"products": 12, "two": 12, "solves": ALL, "sylvester": ALL, "with": 12}


def words_by(block, numbers=None, trace=True):
    """The words of a run by variants of these numbers."""
    chosen = ["--variants", ",".join(map(str, numbers))] if numbers else []
    return words_under(block) + chosen + (["--trace"] if trace else [])


def numbers_of(job, turn, rng):
    """A variant for each statement. In as many turns as the family has variants, or all turns if these are fewer, each turn
    takes another one."""
    counts = [family_of(statement.operation).count() for statement in job.statements]
    return [1 + (turn + rng.randrange(count)) % count for count in counts]


def turned(name, data, turn, blocks, trace):
    """The case of a job in its turn: by other variants than in the turns before."""
    job = read_job(scan(data))
    numbers = numbers_of(job, turn, random.Random(name))
    block = random.Random(f"{name}:{turn}").choice(blocks)
    named = ",".join(map(str, numbers)) + f", block {block}" + (", trace" if trace else "")
    return Case(f"variants: {name}, {named}", words_by(block, numbers, trace), data)


def turns(name, data, count, blocks):
    """So many turns of a job, most with a trace."""
    for turn in range(count):
        yield partial(turned, name, data, turn, blocks, turn % 4 != 3)


def distinct(cases):
    """The jobs of cases that are run, each once, by the name without the block size."""
    names = {}
    for case in cases:
        if case.words[:1] == ["run"]:
            names.setdefault(case.data, case.name.rsplit(", ", 1)[0])
    return [(name, data) for data, name in names.items()]


def other_jobs(built):
    """The jobs of grids, chains and pivots; those with bad pivots have no trace, whatever the variants are."""
    for name, data in distinct(grid_cases(built)):
        count = ROUNDS[name.split()[1]] if "without" not in name else 1
        yield from turns(name, data, count, (1, 2, 2, 3, 3, 4))
    for number, (name, data) in enumerate(distinct(chain_cases())):
        if "fails" in name:
            yield from turns(name, data, 3, (1, 2, 3))
        else:
            yield from turns(name, data, 5, (2, 3, 4) if number % 4 else (1, 2, 3))
    for name, data in distinct(pivot_cases()):
        yield from turns(name, data, 2, (1, 2, 3))


def size_jobs():
    """Great and thin matrices in a few parts; a Sylvester equation of more rows takes the reference too long."""
    for name, size, maker in makers():
        if size < 200 or "left" in name or "inner" in name:
            blocks = [-(-size // parts) for parts in (3, 5, 8)]
            yield partial(made_and_turned, f"size: {name}", partial(run_text, name, maker), blocks, True)


def great_lists():
    """As many steps as there may be, with a statement of each form among them, by some variants."""
    for number in range(STEP_JOBS):
        form, made = step_operation(number)
        make = partial(step_job, made, STEP_LIMIT)
        yield partial(made_and_turned, f"{form} {number} among {STEP_LIMIT} steps", make, [1], False)


def made_and_turned(name, make, blocks, trace):
    """The case of a job that is made where it is run."""
    return turned(name, make(), 0, blocks, trace)


# The most variants that a search over some thousands of operations found.
MOST = ("n k", "general n n", ("T upper n n", "U lower n n", "A general n n", "B symmetric n n", "C general k n"),
        "T * X + X * U = W + A' * B + C' * C")


def great_families():
    """Operations of hundreds of variants: the first, the last and drawn ones, and one more than there are."""
    for number, (name, parts) in enumerate([*OPERATIONS.items(), ("most variants", MOST)]):
        for turn in range(6):
            yield partial(great_family, f"great family, {name}", number, parts, turn)


def great_family(name, number, parts, turn):
    """A statement on identity matrices of four rows by some variant of a great family."""
    made = operation_text(f"q{number}", *parts)
    knowns = [known.split()[0] for known in parts[2]]
    data = text(made, *(identity(one, 4) for one in ["W", *knowns]),
                f"do q{number} W {' '.join(knowns)}\nprint W\n", modulus=101)
    count = family_of(read_job(scan(data)).operations[0]).count()
    chosen = (1, count, count + 1, *random.Random(name).sample(range(2, count), 3))[turn]
    return Case(f"variants: {name}, {chosen} of {count}", words_by(2 - turn % 2, [chosen]), data)


def known_families():
    """Each known family: its last variant, and one more, which isn't there, in a job that has the greater families, too."""
    blocks = [block for _, block, _ in KNOWN_FAMILIES]
    for name, _, count in KNOWN_FAMILIES:
        job = text(*blocks, identity("W", 2), identity("T", 2), identity("U", 2), f"do {name} W{KNOWNS[name]}\nprint W\n",
                   modulus=101)
        for number in (1, count):
            yield f"{name} by variant {number}", words_by(1, [number]), job, None
        for number in (count + 1, GREATEST):
            yield f"{name} by variant {number}", words_by(1, [number]), job, (3, b"refused NoVariant statement 1\n")


def known_results():
    """One result under all variants."""
    factors = text(LU, "matrix A 2 2\n2 1\n4 5\nend\n", "do lu A\nprint A\n", modulus=101)
    for number in range(1, 6):
        for block in (1, 2):
            yield f"lu by variant {number}, block {block}", words_by(block, [number], False), factors, (
                0, b"matrix A 2 2\n2 1\n2 3\nend\n")
    matrices = "matrix T 3 3\n1 0 0\n1 2 0\n0 1 3\nend\nmatrix U 1 1\n1\nend\nmatrix W 3 1\n2\n4\n5\nend\n"
    solved = text(SYL, matrices, "do syl W T U\nprint W\n")
    for number in range(1, 25):
        for block in (1, 2) if number % 6 == 0 else (1,):
            yield f"syl by variant {number}, block {block}", words_by(block, [number], False), solved, (
                0, b"matrix W 3 1\n1\n1\n1\nend\n")
    bad = text(SYL, "matrix T 1 1\n1\nend\nmatrix U 1 1\n6\nend\nmatrix W 1 1\n3\nend\n", "do syl W T U\nprint W\n")
    for numbers in (None, [1], [24]):
        for trace in (False, True):
            yield f"a bad pivot by {numbers}, {trace}", words_by(1, numbers, trace), bad, (
                4, b"no inverse statement 1 row 0 column 0\n")


# Statements on W, T and U of 2 by 2, on A, B and C whose inner dimension has 33 parts under blocks of one entry, on Z, which
# has a bad pivot, and eight products of 32 by 32 by 32 parts and one more step.
STATEMENTS = {"good": "do lu W\n", "parts": "do mul C A B\n", "bad": "do lu Z\n",
              "steps": "do square G E F\n" * 8 + "do mul W T U\n"}
LENGTHS = {"good": 1, "parts": 1, "bad": 1, "steps": 9}


def refused_job(*names, fault=""):
    """A job of these statements, and how many they are."""
    matrices = (identity("W", 2) + identity("T", 2) + identity("U", 2) + matrix("A", 1, 33) + matrix("B", 33, 1)
                + matrix("C", 1, 1) + matrix("Z", 2, 2) + "".join(matrix(name, 32, 32) for name in "EFG"))
    data = text(LU, MUL, SQUARE, matrices, *(STATEMENTS[name] for name in names), "print W\nprint Z\n", fault)
    return data, sum(LENGTHS[name] for name in names)


def refusals():
    """Each cause of a refusal alone, and each pair of causes in either order of their statements: of several the first of
    these is told: a fault of the text, the number of variants, a variant that isn't there, parts, steps, a bad pivot."""
    causes = ("parts", "steps", "bad")
    groups = [(name,) for name in ("good", *causes)]
    groups += [(a, b) for a in causes for b in causes if a != b]
    groups += [("good", "parts"), ("steps", "parts", "bad"), ("bad", "good", "steps")]
    for names in groups:
        data, count = refused_job(*names)
        named = " and ".join(names)
        for trace in (False, True):
            yield f"{named}{', trace' if trace else ''}", words_by(1, None, trace), data, None
        for given in sorted({count - 1, count + 1, 2 * count} - {0}):
            for number in (1, 55):
                yield f"{named}, {given} variants {number}", words_by(1, [number] * given), data, (
                    3, f"refused VariantCount given {given} due {count}\n".encode("ascii"))
        for at in sorted({0, count // 2, count - 1}):
            numbers = [1] * at + [55] * (count - at)
            yield f"{named}, no variant from {at + 1} on", words_by(1, numbers), data, (
                3, f"refused NoVariant statement {at + 1}\n".encode("ascii"))
            numbers = [1] * at + [GREATEST] + [1] * (count - at - 1)
            yield f"{named}, no variant at {at + 1}", words_by(1, numbers, False), data, (
                3, f"refused NoVariant statement {at + 1}\n".encode("ascii"))
    for fault in ("print W\n", "print Q\n", "print\n", "@\n", "modulus 7\n"):
        data, count = refused_job("bad", "parts", "steps", fault=fault)
        for numbers in ([1] * (count + 1), [55] * count, [1] * count):
            yield f"a fault, {fault!r} and {len(numbers)} variants {numbers[0]}", words_by(1, numbers), data, None
    yield "33 parts in the second dimension", words_by(1, [1], False), text(
        MUL.replace("dims m n k", "dims n k m"), matrix("A", 2, 33), matrix("B", 33, 2), matrix("C", 2, 2),
        "do mul C A B\n"), (3, b"refused TooManyParts statement 1 dimension k\n")
    yield "the pivots are a step too many", words_by(1, [1] * 8 + [22]), text(
        SQUARE, LOW, *(matrix(name, 32, 32) for name in "ABC"), identity("T", 32), identity("W", 32),
        "do square C A B\n" * 8, "do low W T\nprint W\n"), (3, b"refused TooManySteps\n")


def counts():
    """The number of variants beside that of the statements, from 0 to 16, and up to the most that a word has room for."""
    ones = "".join(matrix(name, 1, 1, "1") for name in "ABC")
    for due in (0, 1, 2, 15, 16):
        job = text(MUL, ones, "do mul C A B\n" * due, "print C\n")
        for given in sorted({1, due - 1, due, due + 1, 17, 256 + due, MOST_GIVEN} - {-1, 0}):
            known = None if given == due else (3, f"refused VariantCount given {given} due {due}\n".encode("ascii"))
            numbers = [54 if given <= 17 else 1] * given
            yield f"{given} variants for {due} statements", words_by(1, numbers, given % 2 == 0), job, known


def sixteen_times():
    """As many statements as there may be by the last variant of the greatest family, and by one more."""
    knowns = [known.split()[0] for known in MOST[2]]
    data = text(operation_text("q", *MOST), *(identity(name, 3) for name in ["W", *knowns]),
                f"do q W {' '.join(knowns)}\n" * 16, "print W\n", modulus=101)
    yield "16 statements by variant 1960", words_by(2, [1960] * 16), data, None
    for at in (1, 16):
        numbers = [1960] * (at - 1) + [1961] + [1960] * (16 - at)
        yield f"16 statements by variant 1960, 1961 at {at}", words_by(2, numbers), data, (
            3, f"refused NoVariant statement {at}\n".encode("ascii"))


def products_text():
    """Eight products of as many parts as there may be, which have as many steps as there may be."""
    return text(MUL, *(matrix(name, 32, 32) for name in "ABC"), "do mul C A B\n" * 8, "print C\n")


def products_trace():
    """Its trace by variant 1, in which the rows go one after another, and so within a row do the blocks. A block of C is
    written 256 times."""
    side, count = 32, 32 ** 3
    total = 8 * count
    lines = ["matrix C 32 32", *[" ".join(["0"] * 32)] * 32, "end", "trace", f"tasks {total}"]
    tasks = [f"term1({i},{j},{k})" for i in range(side) for j in range(side) for k in range(side)]
    for statement in range(8):
        lines += [f"{statement * count + at} {statement + 1} {task}" for at, task in enumerate(tasks, 1)]
    lines.append(f"edges {total - side * side}")
    for number in range(1, total + 1):
        following = number + 1 if number % side else number + count - side + 1
        if following <= total:
            lines.append(f"{number} {following} output")
    lines.append(f"schedule {2 * total}")
    for number in range(1, total + 1):
        lines += [f"start {number}", f"finish {number}"]
    return 0, ("\n".join([*lines, "end"]) + "\n").encode("ascii")


def great_traces():
    """Traces of thousands of steps, and the greatest one."""
    yield "262144 steps", words_by(1, None), products_text(), products_trace
    yield "16 times lu of 22 parts", words_by(1, [1, 2, 3, 4, 5, 4, 3, 2, 1, 3, 5, 2, 4, 1, 5, 3]), text(
        LU, identity("A", 22), "do lu A\n" * 16, "print A\n", modulus=101), None
    for number in (1, 3, 5):
        yield f"lu of 20 parts by variant {number}", words_by(3, [number]), text(
            LU, identity("A", 59), "do lu A\nprint A\n", modulus=101), None
    yield "lu of 32 parts", words_by(1, [4]), text(LU, identity("A", 32), "do lu A\nprint A\n", modulus=101), None
    yield "ldl of 32 parts", words_by(1, [3]), text(LDL, identity("A", 32), "do ldl A\nprint A\n", modulus=101), None
    yield "syl of 20 parts", words_by(1, [14]), text(
        SYL, *(identity(name, 20) for name in "TUW"), "do syl W T U\nprint W\n", modulus=101), None
    for number in (54, 23):
        yield f"mul of 16 parts by variant {number}", words_by(2, [number]), text(
            MUL, *(identity(name, 31) for name in "TUW"), "do mul W T U\nprint W\n", modulus=101), None
    yield "low of 32 parts backward", words_by(1, [22]), text(
        LOW, identity("T", 32), identity("W", 32), "do low W T\nprint W\n", modulus=101), None
    for name, block, place in (("low", LOW, 21), ("unit", UNIT, 4)):
        yield f"{name} on the last of 32 matrices", words_by(1, [place]), text(
            block, *(matrix(f"M{number}", 32, 32) for number in range(30)), identity("T", 32), matrix("W", 32, 1, "3"),
            f"do {name} W T\nprint W\n", modulus=101), None
    yield "16 solves of matrices that follow each other", words_by(1, [1, 22] * 8), text(
        LOW, *(identity(f"M{number}", 3) for number in range(17)),
        *(f"do low M{number + 1} M{number}\n" for number in range(16)), "print M16\n", modulus=101), None
    yield "a solve without pivots", words_by(2, [9]), text(
        UNIT, identity("T", 33), identity("W", 33), "do unit W T\nprint W\n", modulus=101), None


def variant_cases(built):
    """Each case, or a function that makes it, with what is due or a function that makes it; None where the reference says
    it. Those that take longest come first."""
    for group in (great_traces, sixteen_times, refusals, counts, known_families, known_results):
        for name, words, data, known in group():
            yield Case(f"variants: {name}", words, data), known
    for group in (great_lists(), size_jobs(), great_families(), other_jobs(built)):
        for make in group:
            yield make, None
