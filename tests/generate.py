"""The seeded generator: case number I of seed S is the same on every machine."""

import random

from case import Case
from generators.after import verify_input
from generators.faulty import PLANTERS, faulty
from generators.jobs import chained_job, job_rows, random_job
from generators.operations import FORMS, operation, operation_rows
from generators.sheets import changed, drawn_sheet, garbled_row, sheet_rows
from generators.spelling import Row, fresh_name, spelled
from generators.words import any_variant_words, any_words, block_words, generator_words, run_words, variant_words

SCALES = ("small",) * 8 + ("middle",) * 10 + ("large",) * 2 + ("great",)
KINDS = tuple(PLANTERS)


def run_case(rng, built, _ordinal):
    """A job that is run."""
    scale = rng.choice(SCALES)
    statements = rng.choice((1, 1, 2)) if scale in ("large", "great") else None
    if built.run_every_form and rng.random() < 0.2:
        maker = chained_job(rng, scale)
    else:
        maker = random_job(rng, scale, built.run_every_form, statements)
    words = block_words(rng, maker.job)
    if built.variants:
        words += variant_words(rng, maker.job, int(words[2]))
    return words, spelled(rng, job_rows(maker.job))


def derive_case(rng, built, _ordinal):
    """Operations whose families are printed, perhaps with a whole job behind them."""
    rows = [Row("header", "flame", "1"), Row("modulus", "modulus", "7")]
    names = []
    plain = not built.derive_every_form and rng.random() < 0.85
    for _ in range(rng.choice((0, 1, 1, 2, 2, 3, 5))):
        names.append(fresh_name(rng, names))
        form = "assign" if plain else rng.choice(FORMS)
        rows += operation_rows(operation(rng, names[-1], form, plain=plain))
    if rng.random() < 0.2:
        rows = job_rows(random_job(rng, "small", built.run_every_form).job)
    return ["derive"], spelled(rng, rows)


def faulty_case(rng, built, ordinal):
    """A text with one or two faults; the kinds of the first go round."""
    maker = random_job(rng, rng.choice(("small", "small", "middle")), rng.random() < 0.6, rng.choice((1, 2, 3, 5)))
    kinds = [KINDS[ordinal % len(KINDS)]]
    if rng.random() < 0.4:
        kinds.append(rng.choice(KINDS))
    commands = [run_words(rng), ["derive"]] + ([["verify"]] if built.verify else [])
    if built.variants:
        commands[0] += any_variant_words(rng, 1)
    named = rng.choice(maker.job.operations)
    commands += [["pme", named.name, rng.choice(named.dims)]] if built.pme else []
    commands += [["worksheet", named.name, rng.choice(("1", "2", "50"))]] if built.worksheet else []
    commands += [["check"]] if built.check else []
    return rng.choice(commands), faulty(rng, job_rows(maker.job), kinds)


def words_case(rng, built, _ordinal):
    """Words that are mostly bad, with an input that wouldn't be refused."""
    job = random_job(rng, "small", built.run_every_form, 1, bad=0).job
    return any_words(rng), rng.choice((spelled(rng, job_rows(job)), b""))


def verify_case(rng, built, _ordinal):
    """A job with the matrices after each statement."""
    maker = random_job(rng, rng.choice(("small", "middle", "middle")), True, rng.choice((0, 1, 2, 3, 5)), bad=0.03)
    if rng.random() < 0.2:
        maker = chained_job(rng, "middle")
    return ["verify"], verify_input(rng, maker.job, rng.choice(("none", "entry", "garbled")))


def generator_case(rng, _built, _ordinal):
    """The job that is made from a seed, printed or run."""
    return generator_words(rng), rng.choice((b"", b"@", b"flame 1\n"))


def some_operations(rng):
    """Some operations, mostly small ones, with different names, and their rows behind the first two lines of a job."""
    made, names = [], []
    for _ in range(rng.choice((1, 1, 2, 3))):
        names.append(fresh_name(rng, names))
        made.append(operation(rng, names[-1], rng.choice(FORMS), terms=rng.choice((0, 0, 1, 1, 2))))
    rows = [Row("header", "flame", "1"), Row("modulus", "modulus", "7")]
    return made, rows + [row for one in made for row in operation_rows(one)]


def pme_case(rng, _built, _ordinal):
    """Words of `pme`: mostly an operation with one or two of its dimensions in order."""
    made, rows = some_operations(rng)
    one = rng.choice(made)
    dims = rng.sample(one.dims, min(len(one.dims), rng.choice((1, 2, 2))))
    if rng.random() < 0.8:
        dims.sort(key=one.dims.index)
    chance = rng.random()
    if chance < 0.1:
        dims[-1] = rng.choice((*rng.choice(made).dims, one.work.name, dims[0], "q"))
    name = one.name if rng.random() < 0.93 else rng.choice((one.name.swapcase(), one.work.name, "q"))
    return ["pme", name, *dims], spelled(rng, rows)


def worksheet_case(rng, _built, _ordinal):
    """Words of `worksheet`: mostly an operation and a variant that it may have."""
    made, rows = some_operations(rng)
    one = rng.choice(made)
    number = rng.choice((1, 2, 3, rng.randrange(1, 30), rng.randrange(1, 300), 4294967295))
    name = one.name if rng.random() < 0.93 else rng.choice((one.name.swapcase(), one.work.name, "q"))
    return ["worksheet", name, str(number)], spelled(rng, rows)


def check_case(rng, _built, _ordinal):
    """A worksheet to be checked, unchanged or with some changes, at times with a fault or cut."""
    made, rows = some_operations(rng)
    one = rng.choice(made)
    sheet = changed(rng, one, drawn_sheet(rng, one), rng.choice((0, 0, 1, 1, 1, 2, 3)))
    if rng.random() < 0.05:
        sheet.operation = rng.choice((*(other.name for other in made), "q"))
    rows += sheet_rows(one, sheet)
    chance = rng.random()
    if chance < 0.25:
        garbled_row(rng, one, rows)
    text = spelled(rng, [row for row in rows if row.tokens])
    if chance > 0.93:
        text = text[:rng.randrange(len(text) + 1)]
    return ["check"], text


# How many of some twenty cases are of each sort.
SORTS = ((run_case, 8), (faulty_case, 6), (derive_case, 4), (words_case, 2))
SORTS_WITH_VERIFY = ((run_case, 7), (faulty_case, 5), (derive_case, 3), (words_case, 2), (verify_case, 3))
SORTS_WITH_GENERATOR = ((run_case, 9), (faulty_case, 5), (derive_case, 3), (words_case, 2), (verify_case, 3),
                        (generator_case, 1))


def sorts_of(built):
    """The sorts, each with how many of its cases there are."""
    others = [(sort, count) for sort, count, is_built in (
        (pme_case, 2, built.pme), (worksheet_case, 1, built.worksheet), (check_case, 6, built.check)) if is_built]
    if built.generator:
        return (*SORTS_WITH_GENERATOR, *others)
    return SORTS_WITH_VERIFY if built.verify else SORTS


def generated_case(seed, index, built):
    """The case of this number."""
    rng = random.Random(f"{seed}:{index}")
    sorts = [sort for sort, count in sorts_of(built) for _ in range(count)]
    sort = sorts[index % len(sorts)]
    # The how manieth case of its sort this is.
    ordinal = index // len(sorts) * sorts.count(sort) + index % len(sorts) - sorts.index(sort)
    words, data = sort(rng, built, ordinal)
    return Case(f"{sort.__name__.removesuffix('_case')}-{seed}-{index}", words, data)
