"""The status and the text that are due for words and an input."""

from .families import family_text
from .faults import Fault, Refusal
from .generated_job import generated_text, summary_text
from .issue import chosen_variants, family_of
from .job_text import read_after, read_job
from .matrix_text import matrix_text
from .meaning import first_difference, meaning
from .model import BadPivot
from .partitioned import pme_text, split_of
from .scanner import before, scan
from .steps import refuse_too_many
from .trace_text import trace_text
from .verdicts import first_wrong
from .words import read_words
from .worksheet_text import read_worksheet, worksheet_text
from .worksheets import made

INPUT_LIMIT = 67_108_864


def due(words, data, built):
    """The exit status and the bytes of the output. `built` says what the program has by now."""
    command = read_words(words)
    if command is None or not built.has(command):
        return 2, b"bad words\n"
    try:
        if command.name in WITHOUT_INPUT:
            status, text = WITHOUT_INPUT[command.name](command)
        elif len(data) > INPUT_LIMIT:
            raise Refusal("TooLong")
        else:
            status, text = COMMANDS[command.name](command, scan(data), built)
    except (Fault, Refusal) as refused:
        status, text = 3, refused.text() + "\n"
    return status, text.encode("ascii")


def derive(_command, text, built):
    """The family of each operation."""
    job = read_job(text)
    if not built.derive_every_form:
        for operation in job.operations:
            refuse_other_families(operation)
    return 0, "".join(family_text(operation, built.derive_every_form) for operation in job.operations)


def refuse_other_families(operation):
    """NotBuilt where an operation isn't of the form Assign with general operands."""
    plain = all(operand.structure == "general" for operand in operation.operands())
    if operation.form != "assign" or not plain:
        raise Refusal(f"NotBuilt operation {operation.name}")


def operation_named(job, name):
    """The operation of this name; NoOperation where there is none."""
    for operation in job.operations:
        if operation.name == name:
            return operation
    raise Refusal("NoOperation")


def pme(command, text, _built):
    """The partitioned matrix expression of an operation along a split."""
    operation = operation_named(read_job(text), command.parts["op"])
    names = [command.parts[part] for part in ("first", "second") if part in command.parts]
    return 0, pme_text(operation, split_of(operation, names))


def worksheet(command, text, _built):
    """The worksheet of an operation's variant."""
    operation = operation_named(read_job(text), command.parts["op"])
    variant = family_of(operation).at(command.parts["number"])
    if variant is None:
        raise Refusal("NoVariant")
    return 0, worksheet_text(operation, made(operation, variant))


def check(_command, text, _built):
    """Whether the worksheet behind a job is right, or its first wrong place."""
    of_job, rest = before(text, "worksheet")
    job = read_job(of_job)
    sheet = read_worksheet(rest, text.end, job)
    wrong = first_wrong(operation_named(job, sheet.operation), sheet)
    return (7, "wrong {} found {} due {}\n".format(*wrong)) if wrong else (0, "right\n")


def run(command, text, built):
    """The printed matrices of a job and perhaps its trace, or its first bad pivot."""
    job = read_job(text)
    if not built.run_every_form:
        for number, statement in enumerate(job.statements, 1):
            if statement.operation.form != "assign":
                raise Refusal(f"NotBuilt statement {number}")
    if built.variants:
        chosen = chosen_variants(job, command.parts.get("variants"))
    if built.block_sizes:
        refuse_too_many(job, command.parts["block"])
    matrices = meaning(job)
    if isinstance(matrices, BadPivot):
        return 4, "no inverse statement {} row {} column {}\n".format(*matrices)
    trace = trace_text(job, command.parts["block"], chosen) if "--trace" in command.parts else ""
    return 0, "".join(matrix_text(job.names[number], matrices[number]) for number in job.prints) + trace


def verify(_command, text, _built):
    """Whether each statement's equation holds for the matrices that stand behind the job."""
    of_job, rest = before(text, "after")
    job = read_job(of_job)
    difference = first_difference(job, read_after(rest, text.end, job))
    if difference is not None:
        return 8, "differs statement {} row {} column {}\n".format(*difference)
    return 0, f"verified {len(job.statements)}\n"


def make(command):
    """The generated job."""
    return 0, generated_text(*(command.parts[part] for part in ("n", "m", "seed")))


def selfrun(command):
    """What a run of the generated job comes to."""
    return 0, summary_text(*(command.parts[part] for part in ("n", "m", "seed", "block", "workers")))


COMMANDS = {"derive": derive, "pme": pme, "worksheet": worksheet, "check": check, "run": run, "verify": verify}
# These read no input.
WITHOUT_INPUT = {"make": make, "selfrun": selfrun}
