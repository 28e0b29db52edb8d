"""The commands that take no input: `make` and `selfrun`, by sizes, moduli and seeds, whatever the input is; and the job that
is made, run by variants."""

import random

from case import Case
from reference.due import due
from reference.generated_job import generated_text

from .variants import words_by

SIZES = (0, 1, 2, 3, 5, 8, 33, 64, 100)
MODULI = (2, 3, 101, 65535, 65536, 65537, 65538, 2147483648, 4294967291, 4294967295)
# A draw leaves 65536 as it is; 65537 counts as 0, and so does the greatest seed.
SEEDS = (0, 1, 2, 74, 65535, 65536, 65537, 65538, 131073, 4294901760, 4294967294, 4294967295)
# The block sizes under which each size is run: of 32 parts and 33, with a short last part, as one part.
BLOCKS = {0: (1, 1024), 1: (1, 2, 1024), 2: (1, 2, 3), 3: (1, 2), 5: (1, 2, 3), 31: (1,), 32: (1, 5), 33: (1, 2, 32),
          64: (1, 2, 7), 65: (2, 3), 100: (3, 4, 9, 50), 256: (8, 7, 100, 256), 300: (9, 10, 11), 1000: (31, 32, 300),
          1024: (1, 31, 32, 128, 1024)}
INPUTS = (b"", b"@", b"flame 1\nmodulus 7\n", b"derive\n" * 1000)


def made(n, m, seed, data=b""):
    """The case of `make`."""
    return Case(f"make: {n} {m} {seed}", ["make", str(n), str(m), str(seed)], data)


def run_alone(n, m, seed, block, data=b""):
    """The case of `selfrun`."""
    return Case(f"selfrun: {n} {m} {seed}, block {block}",
                ["selfrun", str(n), str(m), str(seed), "--block", str(block), "--workers", "1"], data)


def made_cases():
    """Each size, modulus and seed with some of the others."""
    rng = random.Random("make")
    for n in SIZES:
        yield made(n, rng.choice(MODULI), rng.choice(SEEDS), rng.choice(INPUTS))
    for m in MODULI:
        yield made(rng.choice(SIZES[:6]), m, rng.choice(SEEDS), rng.choice(INPUTS))
    for seed in SEEDS:
        yield made(4, rng.choice(MODULI), seed, rng.choice(INPUTS))
        yield made(40, 4294967295, seed)
    for m in (2, 65537, 4294967295):
        yield made(1024, m, m)
    yield made(1023, 101, 7)


def alone_cases():
    """Each size under its block sizes, and small sizes by each modulus and seed."""
    rng = random.Random("selfrun")
    for n, blocks in reversed(BLOCKS.items()):
        for block in blocks:
            yield run_alone(n, rng.choice(MODULI), rng.choice(SEEDS), block, rng.choice(INPUTS))
    for m in MODULI:
        for seed in rng.sample(SEEDS, 4):
            n = rng.randrange(1, 13)
            yield run_alone(n, m, seed, rng.randrange(1, n + 2))
    for block in (32, 64):
        yield run_alone(256, 4294967291, 1, block)


def run_cases():
    """The job that is made, run by variants with its trace."""
    rng = random.Random("made and run")
    for n in (0, 1, 2, 3, 4, 6, 9):
        for turn in range(3):
            numbers = [rng.randrange(1, 6), 1 + (turn + n) % 5, rng.randrange(1, 23), rng.randrange(1, 23)]
            data = generated_text(n, rng.choice(MODULI), rng.choice(SEEDS)).encode("ascii")
            yield Case(f"made and run: {n} by {numbers}", words_by(rng.randrange(1, 4), numbers), data)


def generated_cases(built):
    """All these cases, those that take longest first, with what is due where it is known otherwise."""
    groups = [alone_cases, made_cases, *([run_cases] if built.variants else [])]
    yield from ((case, None) for case in {case.name: case for group in groups for case in group()}.values())
    for case in (made(3, 101, 5), run_alone(3, 101, 5, 2)):
        # An input that can't be read isn't looked at, and an output that can't be written is told.
        for streams, known in (("unreadable", due(case.words, b"", built)), ("unwritable", (6, b"")), ("pieces", None)):
            yield Case(f"{case.name}, {streams}", case.words, b"flame 1\n" * 10, streams), known
