"""Worksheets as text, both ways."""

from .cursor import Cursor, wants
from .equation_out import equation_text
from .expressions import expression
from .faults import Fault
from .scanner import is_name
from .tasks import Task
from .worksheets import State, Worksheet

DIRECTIONS = ("forward", "backward")
ENDS = ("first", "last")
PARTS = ("0", "1", "2")
# The kind, the term and the number of indices of each task by its word.
TASKS = {"term1": ("term", 1, 3), "term2": ("term", 2, 3), "left": ("left", 0, 3), "right": ("right", 0, 3),
         "solve": ("solve", 0, 2)}


def worksheet_text(operation, sheet):
    """A worksheet with its comments."""
    def dims(word, pairs):
        return " ".join([word, *(f"{operation.dims[dim]} {end}" for dim, end in pairs)])

    def states(word, made):
        return [f"{word} {state.text()} # {expression(operation, state.row, state.col, state.done)}" for state in made]

    lines = [
        f"worksheet {operation.name}", f"# 1a X = {operation.work.name}", f"# 1b {equation_text(operation)}",
        dims("split", zip(sheet.split, sheet.directions)),
        " ".join(["invariant", *(task.text() for task in sheet.invariant)]),
        " ".join(["guard", *(operation.dims[dim] for dim in sheet.guard)]),
        dims("start", sheet.start), dims("take", sheet.take), *states("before", sheet.before),
        *(f"update {task.text()}" for task in sheet.updates), dims("give", sheet.give), *states("after", sheet.after)]
    return "\n".join([*lines, "end", ""])


def read_worksheet(lines, end, job):
    """The worksheet that these lines spell."""
    cursor = Cursor(lines, end)
    operation = read_first(cursor, job)
    sheet = Worksheet(operation.name, *read_split(cursor, operation))
    sheet.invariant = tasks_of(read(cursor, "invariant", tasks_of))
    sheet.guard = numbers(cursor, operation, "guard", names_of)
    sheet.start = paired(cursor, operation, "start")
    sheet.take = paired(cursor, operation, "take")
    sheet.before = read_all(cursor, "before", state_of)
    sheet.updates = read_all(cursor, "update", task_of)
    sheet.give = paired(cursor, operation, "give")
    sheet.after = read_all(cursor, "after", state_of)
    line = cursor.due()
    wants(line, line.tokens == ["end"])
    behind = cursor.next()
    if behind is not None:
        raise Fault("Syntax", behind.number)
    return sheet


def read(cursor, word, parsed):
    """The tokens behind the word of a line, which begins with it and of which they are the form; another line is due behind
    it."""
    line = cursor.due()
    wants(line, line.is_word(word) and parsed(line.tokens[1:]) is not None)
    cursor.more_due(line)
    return line.tokens[1:]


def read_all(cursor, word, parsed):
    """What the lines that begin with this word spell."""
    found = []
    while cursor.word_next(word):
        found.append(parsed(read(cursor, word, parsed)))
    return found


def read_first(cursor, job):
    """The operation of the first line."""
    name = read(cursor, "worksheet", lambda tokens: tokens if len(tokens) == 1 and is_name(tokens[0]) else None)[0]
    for operation in job.operations:
        if operation.name == name:
            return operation
    raise Fault("NameUnknown", cursor.lines[cursor.at - 1].number)


def read_split(cursor, operation):
    """The split and its directions; SplitOrder where the second dimension isn't declared after the first."""
    pairs = numbers(cursor, operation, "split", pairs_of(DIRECTIONS))
    split, directions = tuple(dim for dim, _ in pairs), tuple(direction for _, direction in pairs)
    if list(split) != sorted(set(split)):
        raise Fault("SplitOrder", cursor.lines[cursor.at - 1].number)
    return split, directions


def numbers(cursor, operation, word, parsed):
    """What a line of dimensions spells, the dimensions by their numbers; NameUnknown where one isn't declared."""
    found = parsed(read(cursor, word, parsed))
    names = [one[0] if isinstance(one, tuple) else one for one in found]
    if not set(names) <= set(operation.dims):
        raise Fault("NameUnknown", cursor.lines[cursor.at - 1].number)
    dims = [operation.dims.index(name) for name in names]
    return [(dim, *one[1:]) if isinstance(one, tuple) else dim for dim, one in zip(dims, found)]


def paired(cursor, operation, word):
    """The dimensions of a line, each with its end."""
    return numbers(cursor, operation, word, pairs_of(ENDS))


def names_of(tokens):
    """One name or two, or None."""
    return tokens if len(tokens) in (1, 2) and all(map(is_name, tokens)) else None


def pairs_of(words):
    """A reader of one name or two, each with one of these words behind it."""
    def parsed(tokens):
        names = names_of(tokens[::2])
        if names is None or len(tokens) % 2 or not set(tokens[1::2]) <= set(words):
            return None
        return list(zip(names, tokens[1::2]))

    return parsed


def tasks_of(tokens):
    """The tasks that tokens spell, any number of them, or None."""
    found, rest = [], list(tokens)
    while rest:
        kind, term, count = TASKS.get(rest[0], (None, 0, 0))
        spelled, rest = rest[1:2 * count + 2], rest[2 * count + 2:]
        signs = ["(", *[","] * (count - 1), ")"]
        if kind is None or spelled[::2] != signs or not set(spelled[1::2]) <= set(PARTS):
            return None
        found.append(Task(kind, term, *map(int, spelled[1::2]), *[0] * (3 - count)))
    return found


def task_of(tokens):
    """The one task that tokens spell, or None."""
    found = tasks_of(tokens)
    return found[0] if found and len(found) == 1 else None


def state_of(tokens):
    """The state that tokens spell behind the line's word, or None."""
    done = tasks_of(tokens[3:])
    if done is None or len(tokens) < 3 or not set(tokens[:2]) <= set(PARTS) or tokens[2] != ":":
        return None
    return State(int(tokens[0]), int(tokens[1]), done)
