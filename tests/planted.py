"""Bodies that give up: for each, the cases of a run that it would fail.

A program may always answer that memory ran out, so a body that gives up on some inputs breaks no contract. Each entry
of BODIES says on which inputs such a body gives up (or errs otherwise); this script counts the generated cases of
`tests/run.sh` among them, and of the fixed ones those of families, sizes, blocks, chains, pivots, variants, words, the
generator, expressions and worksheets, names the first ones, and ends with 1 where a body has none. `planted_steps.py` has those
that err in steps, `planted_sheets.py` those that err in expressions, worksheets and checks.

    python3 tests/planted.py [--count N] [--whole]
"""

import argparse
import os
import sys
from concurrent.futures import ProcessPoolExecutor
from dataclasses import dataclass
from functools import lru_cache, partial
from pathlib import Path

HERE = Path(__file__).resolve().parent
sys.path.insert(0, str(HERE))

from built import BUILT, WHOLE  # noqa: E402
from case import made_case  # noqa: E402
from generate import generated_case  # noqa: E402
from generators.blocks import block_cases  # noqa: E402
from generators.chains import chain_cases  # noqa: E402
from generators.expressions import pme_cases  # noqa: E402
from generators.families import family_cases  # noqa: E402
from generators.generated import generated_cases  # noqa: E402
from generators.operations import FORMS  # noqa: E402
from generators.pivots import pivot_cases  # noqa: E402
from generators.sheet_faults import sheet_fault_cases  # noqa: E402
from generators.sizes import size_cases  # noqa: E402
from generators.spellings import spelling_cases  # noqa: E402
from generators.variants import variant_cases  # noqa: E402
from generators.worksheets import check_cases, worksheet_cases  # noqa: E402
from planted_sheets import sheet_bodies  # noqa: E402
from planted_steps import STEP_BODIES  # noqa: E402
from reference.due import due  # noqa: E402
from reference.faults import Fault  # noqa: E402
from reference.job_text import read_job  # noqa: E402
from reference.scanner import before, scan  # noqa: E402
from reference.steps import part_counts, steps_of  # noqa: E402


@dataclass
class Seen:
    """A case with what is due, and its job where its text has no fault."""

    words: list
    data: bytes
    status: int
    output: bytes
    job: object

    def does(self, command):
        """Whether the case runs this command and is answered with an outcome."""
        return self.words[:1] == [command] and self.job is not None and self.status in (0, 4, 7, 8)

    def statements(self):
        """The statements of a run that is done."""
        return self.job.statements if self.does("run") else []

    def factors(self):
        """Each operand that is a factor of a term in a run, with its matrix."""
        return [(statement.operation.knowns[factor.known], self.job.matrices[statement.knowns[factor.known]])
                for statement in self.statements() for term in statement.operation.terms
                for factor in (term.first, term.second)]

    def derived(self):
        """The operations whose families are printed."""
        return self.job.operations if self.does("derive") else []

    def refused_line(self):
        """The kind and the line of a refused text, or None."""
        parts = self.output.decode("ascii").split()
        return (parts[1], int(parts[3])) if self.status == 3 and parts[2:3] == ["line"] else None


    def block(self):
        """The block size of a run that is done."""
        return int(self.words[2])

    def parts(self, forms=FORMS):
        """For each statement of these forms in a run that is done, the parts of its operation's dimensions."""
        return [part_counts(self.job, statement, self.block()) for statement in self.statements()
                if statement.operation.form in forms]

    def bad_place(self):
        """The statement, row and column of a bad pivot, or None."""
        return tuple(map(int, self.output.split()[3::2])) if self.status == 4 else None


def has_factor(structure):
    """A body that gives up where a factor has this structure."""
    return lambda seen: any(operand.structure == structure for operand, _ in seen.factors())


def has_form(form):
    """A body that gives up where a statement has this form."""
    return lambda seen: any(statement.operation.form == form for statement in seen.statements())


def counts(seen):
    """For each derived operation its form and the number of its variants."""
    if not seen.derived():
        return []
    found = [int(line.split()[1]) for line in seen.output.decode().split("\n") if line.startswith("variants ")]
    return list(zip((made.form for made in seen.derived()), found))


def has_family(form, least):
    """A body that gives up where a family of this form has at least so many variants."""
    return lambda seen: any(made == form and count >= least for made, count in counts(seen))


def has_rows(form, least):
    """A body that gives up where a statement of this form has a work matrix with at least so many rows or columns."""
    return lambda seen: any(
        statement.operation.form == form and longest(seen, statement) >= least for statement in seen.statements())


def longest(seen, statement):
    """The rows or the columns of a statement's work matrix, whichever are more."""
    work = seen.job.matrices[statement.work]
    return max(work.rows, work.cols)


def verifies(form):
    """A body that gives up where a matrix of this form is found right."""
    return lambda seen: seen.does("verify") and seen.status == 0 and any(
        statement.operation.form == form for statement in seen.job.statements)


def verifies_long(least, at):
    """A body that gives up where a matrix with at least so many rows (0) or columns (1) is found right."""
    return lambda seen: seen.does("verify") and seen.status == 0 and any(
        (seen.job.matrices[s.work].rows, seen.job.matrices[s.work].cols)[at] >= least for s in seen.job.statements)


BODIES = {
    "statements with a factor of more than three rows": lambda s: any(m.rows > 3 for _, m in s.factors()),
    "statements with an inner dimension above 204": lambda s: any(m.rows > 204 for _, m in s.factors()),
    "statements with a lower factor": has_factor("lower"),
    "statements with a unitlower factor": has_factor("unitlower"),
    "statements with an upper factor": has_factor("upper"),
    "statements with a unitupper factor": has_factor("unitupper"),
    "statements with a diagonal factor": has_factor("diagonal"),
    "statements with a symmetric factor": has_factor("symmetric"),
    "families of more than three dimensions": lambda s: any(len(made.dims) > 3 for made in s.derived()),
    "families of two terms": lambda s: any(len(made.terms) == 2 for made in s.derived()),
    "families of no term": lambda s: any(not made.terms for made in s.derived()),
    "copies of more than eight rows": lambda s: any(s.job.matrices[t.work].rows > 8 for t in s.statements()),
    "matrices of 40 by 33 or more": lambda s: any(
        s.job.matrices[t.work].rows * s.job.matrices[t.work].cols >= 1320 for t in s.statements()),
    "operations with four dimensions": lambda s: any(len(made.dims) == 4 for made in s.derived()) or any(
        len(t.operation.dims) == 4 for t in s.statements()),
    "derive of two operations": lambda s: len(s.derived()) > 1,
    "run of four statements": lambda s: len(s.statements()) > 3,
    "run with a block above 1": lambda s: s.does("run") and s.words[2] != "1",
    "run with eight matrices": lambda s: s.does("run") and len(s.job.matrices) > 7,
    "families of more than six variants": lambda s: any(count > 6 for _, count in counts(s)),
    "derive of more than 1,000 variants": lambda s: sum(count for _, count in counts(s)) > 1000,
    "more than three prints": lambda s: s.does("run") and len(s.job.prints) > 3,
    "a bad byte behind line 20": lambda s: (s.refused_line() or ("", 0))[0] == "BadByte" and s.refused_line()[1] > 20,
    "refusals of inputs above 400 bytes": lambda s: s.refused_line() and len(s.data) > 400,
    "main: the status is dropped": lambda s: s.status != 0,
    "main: words behind the fifth are dropped": lambda s: s.status == 2 and len(s.words) > 5
    and s.words[:2] == ["run", "--block"] and s.words[3:5] == ["--workers", "1"],
    "main: derive always runs out of memory": lambda s: s.does("derive"),
    "main: unreadable words end with 0": lambda s: any(isinstance(word, bytes) for word in s.words),
    "main: no words end with 0": lambda s: not s.words,
}

FORM_BODIES = {
    "statements of the form right": has_form("right"),
    "statements of the form left": has_form("left"),
    "statements of the form sylvester": has_form("sylvester"),
    "statements of the form lu": has_form("lu"),
    "statements of the form ldl": has_form("ldl"),
    "a bad pivot behind statement 1": lambda s: s.status == 4 and s.output.split()[3] != b"1",
    "a bad pivot behind row 0": lambda s: s.status == 4 and s.output.split()[5] != b"0",
    "verify that finds all right": lambda s: s.does("verify") and s.status == 0,
    "verify that finds a difference": lambda s: s.status == 8,
    "verify of another statement than the first": lambda s: s.status == 8 and s.output.split()[2] != b"1",
}


BODIES |= {f"families of the form {form}": has_family(form, 1) for form in FORMS}
# A search found no family of the form ldl with more than 80.
BODIES |= {f"families of the form {form} from {least} variants on": has_family(form, least)
           for form in FORMS if form != "ldl" for least in (100, 300)}
BODIES |= {f"families of the form {form} with four dimensions": (
    lambda s, form=form: any(made.form == form and len(made.dims) == 4 for made in s.derived()))
    for form in ("assign", "left", "right", "sylvester")}
FORM_BODIES |= {f"statements of the form {form} from {least} rows or columns on": has_rows(form, least)
                for form in FORMS for least in (128, 129)}
FORM_BODIES |= {f"statements of the form {form} with 1,024 rows or columns": has_rows(form, 1024)
                for form in ("assign", "left", "right", "lu", "ldl")}
FORM_BODIES |= {f"verify of the form {form}": verifies(form) for form in FORMS}
FORM_BODIES |= {f"verify from {least} {'columns' if at else 'rows'} on": verifies_long(least, at)
                for least in (65, 129, 1024) for at in (0, 1)}


def is_short(seen, statement):
    """Whether the last part of some dimension is shorter than others."""
    lengths = [length for number in (statement.work, *statement.knowns)
               for length in (seen.job.matrices[number].rows, seen.job.matrices[number].cols)]
    return any(length > seen.block() and length % seen.block() for length in lengths)


def is_cut(*forms):
    """A body that gives up where a statement of one of these forms has several parts along two dimensions or, with one
    dimension, along it."""
    return lambda seen: any(sum(count > 1 for count in counts) >= min(2, len(counts)) for counts in seen.parts(forms))


def is_cut_coarsely(form, least):
    """A statement of this form in several parts, of which the first has more rows than this."""
    cut = is_cut(form)
    return lambda s: s.does("run") and s.block() > least and cut(s)


def has_short_part(form):
    """A body that gives up where a statement of this form has a short last part."""
    return lambda seen: any(s.operation.form == form and is_short(seen, s) for s in seen.statements())


def misplaces(form):
    """A body that names the place of a bad pivot in its block, or gives up where it isn't in the first one."""
    return lambda seen: seen.bad_place() is not None and max(seen.bad_place()[1:]) >= seen.block() and (
        seen.job.statements[seen.bad_place()[0] - 1].operation.form == form)


def has_steps(least):
    """A body that gives up where a run that is done has at least so many steps."""
    return lambda seen: bool(seen.statements()) and steps_of(seen.job, seen.block()) >= least


def feeds(seen):
    """Whether a statement of a run that is done reads what one before it left, in several blocks."""
    statements = seen.statements() if seen.status == 0 else []
    return any(first.work in second.knowns and max(part_counts(seen.job, second, seen.block())) > 1
               for at, first in enumerate(statements) for second in statements[at + 1:])


def overwrites(seen):
    """Whether a statement of a run that is done writes what one before it read, in several blocks."""
    statements = seen.statements() if seen.status == 0 else []
    return any(second.work in first.knowns and max(part_counts(seen.job, second, seen.block())) > 1
               for at, first in enumerate(statements) for second in statements[at + 1:])


def refused(*words):
    """A body that doesn't refuse an input, or gives up on it, of which this is refused."""
    return lambda seen: seen.status == 3 and seen.output.decode().split()[1:1 + len(words)] == list(words)


BLOCK_BODIES = {
    "blocks of one entry": lambda s: s.does("run") and s.block() == 1 and s.parts() and max(map(max, s.parts())) > 1,
    "32 parts": lambda s: any(max(counts) == 32 for counts in s.parts()),
    "an empty matrix beside others in several parts": lambda s: any(0 in c and max(c) > 1 for c in s.parts()),
    "one block for a whole job": lambda s: s.parts() and max(map(max, s.parts())) == 1,
    "statements that read what others left": feeds,
    "statements that write what others read": overwrites,
    "too many parts": refused("TooManyParts"),
    "too many parts behind statement 1": lambda s: refused("TooManyParts")(s) and s.output.split()[3] != b"1",
    "too many steps": refused("TooManySteps"),
}
BLOCK_BODIES |= {f"runs of {least} steps": has_steps(least) for least in (100, 1000, 10_000, 262_144)}
BLOCK_BODIES |= {f"statements of the form {form} in several parts": is_cut(form) for form in FORMS}
BLOCK_BODIES |= {f"blocks of more than {least} rows of the form {form} in several parts": is_cut_coarsely(form, least)
                 for form in FORMS for least in (39, 64)}
BLOCK_BODIES |= {f"blocks of more than 128 rows of the form {form} in several parts": is_cut_coarsely(form, 128)
                 for form in ("lu", "ldl")}
BLOCK_BODIES |= {f"statements of the form {form} with a short last part": has_short_part(form) for form in FORMS}
BLOCK_BODIES |= {f"a bad pivot of the form {form} behind the first block": misplaces(form)
                 for form in FORMS if form != "assign"}


@lru_cache
def chosen_cases(built, count):
    """The generated cases by their numbers, and the fixed ones of families, sizes, blocks, chains and pivots, and by what is
    built of variants, words, the generator, expressions and worksheets, each with what is due if it is known; made once, before
    the processes of the pool begin."""
    drawn = [(partial(generated_case, "1", index, built), None) for index in range(count)]
    fixed = [*family_cases(), *block_cases(), *chain_cases(), *pivot_cases(), *spelling_cases(built),
             *pme_cases(built), *worksheet_cases(built), *check_cases(built), *sheet_fault_cases(built)]
    known = [*size_cases(), *(variant_cases(built) if built.variants else ()),
             *(generated_cases(built) if built.generator else ())]
    return drawn + [(partial(made_case, case), None) for case in fixed] + [
        (partial(made_case, case), due_for_it) for case, due_for_it in known]


def seen(built, count, number):
    """A case as it is looked at: its name, and the bodies that it refuses."""
    make, known = chosen_cases(built, count)[number]
    case = make()
    known = known() if callable(known) else known
    status, output = known or due(case.words, case.data, built)
    job = None
    try:
        text = scan(case.data)
        behind = {"verify": "after", "check": "worksheet"}.get("".join(map(str, case.words)))
        job = read_job(before(text, behind)[0] if behind else text)
    except Fault:
        pass
    one = Seen(case.words, case.data, status, output, job)
    bodies = {**BODIES, **FORM_BODIES, **BLOCK_BODIES, **(STEP_BODIES if built.variants and built.generator else {}),
              **sheet_bodies(built)}
    return case.name, [name for name, gives_up in bodies.items() if gives_up(one)]


def main():
    """Prints a line for each body: how many cases refuse it, and the first of them."""
    parser = argparse.ArgumentParser()
    parser.add_argument("--count", type=int, default=900)
    parser.add_argument("--whole", action="store_true")
    arguments = parser.parse_args()
    built = WHOLE if arguments.whole else BUILT
    cases = chosen_cases(built, arguments.count)
    with ProcessPoolExecutor(len(os.sched_getaffinity(0))) as pool:
        found = list(pool.map(partial(seen, built, arguments.count), range(len(cases)), chunksize=10))
    missed = 0
    bodies = list(BODIES) + (list(FORM_BODIES) if built.run_every_form and built.verify else [])
    bodies += list(BLOCK_BODIES) if built.block_sizes else []
    bodies += list(STEP_BODIES) if built.variants and built.generator else []
    for body in bodies + list(sheet_bodies(built)):
        cases = [name for name, refused in found if body in refused]
        missed += not cases
        print(f"{body}: {len(cases)} cases, {', '.join(cases[:3])}")
    return 1 if missed else 0


if __name__ == "__main__":
    sys.exit(main())
