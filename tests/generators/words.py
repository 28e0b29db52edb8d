"""Words, good and bad."""

from reference.issue import family_of
from reference.steps import part_counts, steps_of

BAD_NUMBERS = ("0", "01", "+1", "-1", " 1", "1 ", "1.0", "", "x", "1025", "4294967297", "18446744073709551617",
               "9" * 400, "1_0", "0x1", "\u0661", "\uff11", "1\t", "1,1", "1e1")
# Small ones more often, since they cut into many parts.
BLOCKS = (1,) * 8 + (2,) * 3 + (3, 3, 4, 5, 7, 8, 9, 10, 16, 31, 32, 33, 64, 99, 100, 101, 255, 256, 999, 1000, 1023,
                                1024)


# How many parts a dimension of a statement may have.
PARTS = 32
# Of so many steps a trace is printed; the reference takes a second for ten times as many.
TRACED = 2000


def run_words(rng):
    """The words of a run with one worker and any block size."""
    return words_under(rng.choice(BLOCKS) if rng.random() < 0.7 else rng.randrange(1, 1025))


def block_words(rng, job):
    """The words of a run of this job: one block, several, a short last one, blocks of one entry, the smallest that there
    may be, and at times the greatest that are too small."""
    matrices = [job.matrices[number] for _, work, knowns in job.statements for number in (work, *knowns)]
    longest = max((length for matrix in matrices for length in (matrix.rows, matrix.cols)), default=0)
    least, too_small = max(1, -(-longest // PARTS)), (longest - 1) // PARTS
    if too_small > 0 and rng.random() < 0.1:
        return words_under(too_small)
    block = rng.choice((least, least, longest - 1, longest, longest + 1, -(-longest // 2), -(-longest // 3),
                        rng.randrange(least, longest + 2), rng.choice(BLOCKS)))
    return words_under(min(max(block, least), 1024))


def words_under(block):
    """The words of a run under this block size."""
    return ["run", "--block", str(block), "--workers", "1"]


def variant_words(rng, job, block):
    """Variants for the statements of a job, at times one too few or too many, or one that isn't there; and perhaps the
    trace, where it isn't too long."""
    counts = [family_of(statement.operation).count() for statement in job.statements]
    numbers = [rng.choice((1, count, rng.randrange(1, count + 1), rng.randrange(1, count + 1))) for count in counts]
    chance = rng.random()
    if chance < 0.04:
        numbers.append(rng.choice((1, 4294967295)))
    elif chance < 0.08:
        numbers = numbers[1:]
    elif chance < 0.12 and numbers:
        at = rng.randrange(len(numbers))
        numbers[at] = rng.choice((counts[at] + 1, counts[at] + 7, 4294967295))
    words = ["--variants", ",".join(map(str, numbers))] if numbers and rng.random() < 0.75 else []
    is_short = all(max(part_counts(job, statement, block)) <= PARTS for statement in job.statements) and (
        steps_of(job, block) <= TRACED)
    return words + (["--trace"] if is_short and rng.random() < 0.6 else [])


def any_variant_words(rng, statements):
    """Variants for about so many statements, whatever their operations are, and perhaps the trace."""
    numbers = ",".join(str(rng.choice((1, 1, 2, 3, 50))) for _ in range(rng.choice((1, statements, statements + 1))))
    return rng.choice(([], ["--variants", numbers], ["--trace"], ["--variants", numbers, "--trace"]))


def generator_words(rng):
    """The words of `make` or `selfrun`: any seed and modulus, and a size that may be cut into few enough parts."""
    n = rng.choice((0, 1, 2, 3, 4, 5, 6, 7, 9, 12, 17, 31, 32, 33, 40, 64, 65, 100, rng.randrange(200)))
    m = rng.choice((2, 3, 4, 6, 101, 65536, 65537, 4294967291, 4294967295, rng.randrange(2, 4294967296)))
    seed = rng.choice((0, 1, 65536, 65537, 4294967295, rng.randrange(4294967296)))
    words = [str(number) for number in (n, m, seed)]
    if rng.random() < 0.4:
        return ["make", *words]
    least = max(1, -(-n // PARTS))
    block = rng.choice((least, max(1, least - 1), least + 1, max(1, n // 3), max(1, n), n + 1))
    return ["selfrun", *words, "--block", str(block), "--workers", "1"]


def other_commands(rng):
    """Words of every command, or near to one."""
    return rng.choice((
        ["derive"], ["check"], ["verify"], ["pme", "lu", "n"], ["pme", "mul", "m", "n"], ["worksheet", "lu", "1"],
        ["make", "2", "101", "1"], ["selfrun", "2", "101", "1", "--block", "1", "--workers", "1"],
        ["run"], ["run", "--block", "1"], ["run", "--workers", "1"], ["run", "--workers", "1", "--block", "1"],
        ["run", "--block", "1", "--workers", "2"], ["run", "--block", "1", "--workers", "16"],
        ["run", "--block", "1", "--workers", "17"], ["run", "--block", "1", "--workers", "0"],
        ["run", "--block=1", "--workers=1"], ["run", "-block", "1", "-workers", "1"],
        ["run", "--block", "1", "--workers", "1", "--trace"], ["run", "--block", "1", "--workers", "1", "--variants"],
        ["run", "--block", "1", "--workers", "1", "--variants", "1"],
        ["run", "--block", "1", "--workers", "1", "--variants", "1", "--trace"],
        ["run", "--block", "1", "--workers", "1", "--trace", "--variants", "1"],
        ["derive", "derive"], ["derive", "extra"], ["derive", ""], ["Derive"], ["DERIVE"], ["deriv"], ["derive "],
        [" derive"], ["--derive"], [], [""], ["", "derive"], ["verify", "x"], ["check", "json"], ["audit"],
        ["invert", "A", "lower", "--block", "1", "--workers", "1"], ["--version"], ["-"], ["--"], ["version"],
        [b"\xff"], [b"derive\xff"], ["derive", b"\xfe"], [b"\xc3\x28", "--block", "1", "--workers", "1"],
        ["run", "--block", b"1\xff", "--workers", "1"], ["run", "--block", "1", "--workers", "1", b"\x80"],
    ))


def any_words(rng):
    """Words with a fault, at times without one."""
    chance = rng.random()
    if chance < 0.45:
        return other_commands(rng)
    words = run_words(rng) if chance < 0.9 else ["derive"]
    change = rng.randrange(8)
    at = rng.randrange(len(words))
    if change == 0:
        words.insert(rng.randrange(len(words) + 1), rng.choice(("", "1", "extra", "--trace", "--block", "x")))
    elif change == 1:
        del words[at]
    elif change == 2:
        other = rng.randrange(len(words))
        words[at], words[other] = words[other], words[at]
    elif change == 3:
        words[at] += rng.choice((" ", "x", "0", "\u00e9", "_"))
    elif change == 4:
        words[at] = words[at].upper()
    elif len(words) > 2 and change in (5, 6):
        words[2] = rng.choice(BAD_NUMBERS)
    elif len(words) > 4:
        words[4] = rng.choice(BAD_NUMBERS)
    return words
