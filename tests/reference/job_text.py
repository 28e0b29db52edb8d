"""Whole jobs from text, and the matrices that stand behind a job for `verify`."""

from .cursor import Cursor, wants
from .faults import Fault
from .matrix_text import SIDE_LIMIT, is_heading, read_rows
from .model import Job, Statement
from .operations import read_operation
from .scanner import is_name, is_number, value

SECTIONS = ("operation", "matrix", "do", "print")
OPERATION_LIMIT = 16
MATRIX_LIMIT = 32
STATEMENT_LIMIT = 16
ENTRY_LIMIT = 4_194_304
MODULUS_LIMIT = 4_294_967_295


def read_job(text):
    """The job that a text spells; Fault where it spells none."""
    cursor = Cursor(text.lines, text.end)
    read_header(cursor)
    job = Job(read_modulus(cursor))
    section = 0
    while True:
        line = cursor.next()
        if line is None:
            return job
        if line.tokens[0] not in SECTIONS[section:]:
            raise Fault("TrailingText", line.number)
        section = SECTIONS.index(line.tokens[0])
        READERS[section](cursor, line, job)


def read_header(cursor):
    """Reads the line `flame 1`."""
    line = cursor.next()
    if line is None:
        raise Fault("Header", cursor.end)
    if line.tokens != ["flame", "1"]:
        raise Fault("Header", line.number)
    cursor.more_due(line)


def read_modulus(cursor):
    """Reads the line `modulus M`."""
    line = cursor.due()
    tokens = line.tokens
    wants(line, len(tokens) == 2 and tokens[0] == "modulus" and is_number(tokens[1]))
    modulus = value(tokens[1])
    if not 2 <= modulus <= MODULUS_LIMIT:
        raise Fault("Modulus", line.number)
    return modulus


def read_operation_block(cursor, line, job):
    """Reads an operation block whose first line this is."""
    tokens = line.tokens
    wants(line, len(tokens) == 2 and is_name(tokens[1]))
    cursor.more_due(line)
    if len(job.operations) == OPERATION_LIMIT:
        raise Fault("Limit", line.number)
    if tokens[1] in [operation.name for operation in job.operations]:
        raise Fault("NameTwice", line.number)
    job.operations.append(read_operation(cursor, tokens[1]))


def read_matrix_block(cursor, line, job):
    """Reads a matrix block whose first line this is."""
    wants(line, is_heading(line, "matrix"))
    cursor.more_due(line)
    if len(job.matrices) == MATRIX_LIMIT:
        raise Fault("Limit", line.number)
    name, rows, cols = line.tokens[1], value(line.tokens[2]), value(line.tokens[3])
    if name in job.names:
        raise Fault("NameTwice", line.number)
    entries = sum(matrix.rows * matrix.cols for matrix in job.matrices) + rows * cols
    if rows > SIDE_LIMIT or cols > SIDE_LIMIT or entries > ENTRY_LIMIT:
        raise Fault("TooLarge", line.number)
    job.matrices.append(read_rows(cursor, rows, cols, job.modulus))
    job.names.append(name)


def read_statement(_cursor, line, job):
    """Reads a line `do OP MATRIX MATRIX ..`."""
    tokens = line.tokens
    wants(line, len(tokens) >= 2 and all(map(is_name, tokens)))
    if len(job.statements) == STATEMENT_LIMIT:
        raise Fault("Limit", line.number)
    operations = {operation.name: operation for operation in job.operations}
    if tokens[1] not in operations or not all(name in job.names for name in tokens[2:]):
        raise Fault("NameUnknown", line.number)
    operation = operations[tokens[1]]
    bound = [job.names.index(name) for name in tokens[2:]]
    if not fits(operation, [job.matrices[number] for number in bound]):
        raise Fault("Binding", line.number)
    if bound[0] in bound[1:]:
        raise Fault("Alias", line.number)
    job.statements.append(Statement(operation, bound[0], bound[1:]))


def fits(operation, matrices):
    """Whether these are as many matrices as operands, and each dimension has one length over them."""
    operands = operation.operands()
    if len(operands) != len(matrices):
        return False
    lengths = {}
    for operand, matrix in zip(operands, matrices):
        for dim, length in ((operand.rows, matrix.rows), (operand.cols, matrix.cols)):
            if lengths.setdefault(dim, length) != length:
                return False
    return True


def read_print(_cursor, line, job):
    """Reads a line `print MATRIX`."""
    tokens = line.tokens
    wants(line, len(tokens) == 2 and is_name(tokens[1]))
    if tokens[1] not in job.names:
        raise Fault("NameUnknown", line.number)
    number = job.names.index(tokens[1])
    if number in job.prints:
        raise Fault("NameTwice", line.number)
    job.prints.append(number)


READERS = (read_operation_block, read_matrix_block, read_statement, read_print)


def read_after(lines, end, job):
    """The matrices of the `after` blocks, one for each statement."""
    cursor = Cursor(lines, end)
    matrices = [read_after_block(cursor, job, statement) for statement in job.statements]
    line = cursor.next()
    if line is not None:
        raise Fault("TrailingText", line.number)
    return matrices


def read_after_block(cursor, job, statement):
    """Reads the block `after NAME ROWS COLS` of a statement's work matrix."""
    line = cursor.due()
    wants(line, is_heading(line, "after"))
    cursor.more_due(line)
    work = job.matrices[statement.work]
    _, name, rows, cols = line.tokens
    if name != job.names[statement.work] or (value(rows), value(cols)) != (work.rows, work.cols):
        raise Fault("Binding", line.number)
    return read_rows(cursor, work.rows, work.cols, job.modulus)
