"""Operation blocks of a job text."""

from .cursor import close, wants
from .equation_text import read_equation
from .faults import Fault
from .model import Operand, Operation
from .scanner import is_name
from .structures import STRUCTURES, WORK_STRUCTURES

DIMENSION_LIMIT = 6
KNOWN_LIMIT = 6


def read_operation(cursor, name):
    """Reads an operation block behind its first line."""
    operation = Operation(name)
    read_dims(cursor, operation)
    read_work(cursor, operation)
    while cursor.word_next("known"):
        read_known(cursor, operation)
    read_equation(cursor, operation)
    close(cursor)
    return operation


def read_dims(cursor, operation):
    """Reads the line `dims NAME ..`."""
    line = cursor.due()
    names = line.tokens[1:]
    wants(line, line.is_word("dims") and names and all(map(is_name, names)))
    cursor.more_due(line)
    if len(names) > DIMENSION_LIMIT:
        raise Fault("Limit", line.number)
    if len(set(names)) < len(names):
        raise Fault("NameTwice", line.number)
    operation.dims = names


def operand_form(line, word):
    """Whether a line is `WORD NAME STRUCTURE DIM DIM`."""
    tokens = line.tokens
    return len(tokens) == 5 and tokens[0] == word and all(map(is_name, tokens)) and tokens[2] in STRUCTURES


def read_operand(line, operation):
    """The operand of a line of the right form, with the faults that `work` and `known` share."""
    _, name, structure, rows, cols = line.tokens
    names = [operand.name for operand in operation.operands() if operand]
    if name == "X" or name in names:
        raise Fault("NameTwice", line.number)
    if rows not in operation.dims or cols not in operation.dims:
        raise Fault("NameUnknown", line.number)
    if structure != "general" and rows != cols:
        raise Fault("Shape", line.number)
    return Operand(name, structure, operation.dims.index(rows), operation.dims.index(cols))


def read_work(cursor, operation):
    """Reads the line `work NAME STRUCTURE DIM DIM`."""
    line = cursor.due()
    wants(line, operand_form(line, "work"))
    cursor.more_due(line)
    operand = read_operand(line, operation)
    if operand.structure not in WORK_STRUCTURES:
        raise Fault("Form", line.number)
    operation.work = operand


def read_known(cursor, operation):
    """Reads a line `known NAME STRUCTURE DIM DIM`."""
    line = cursor.due()
    wants(line, operand_form(line, "known"))
    cursor.more_due(line)
    if len(operation.knowns) == KNOWN_LIMIT:
        raise Fault("Limit", line.number)
    operation.knowns.append(read_operand(line, operation))
