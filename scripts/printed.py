"""What flame prints: matrices, families, expressions, worksheets and traces, as values."""

import re
from typing import NamedTuple

from matrix_files import Refused

REFUSALS = ("refused ", "no inverse ", "bad words", "differs ")


class Printed(NamedTuple):
    """A matrix with its name and its number of columns, which a matrix without rows doesn't tell."""

    name: str
    cols: int
    rows: list


class Step(NamedTuple):
    """A step of a trace: its number and that of its statement, from 1, and its task."""

    number: int
    statement: int
    task: str


class Trace(NamedTuple):
    """The steps, the edges (from, to, kinds) and the events (start or finish, number) of a run."""

    steps: list
    edges: list
    events: list


class Variant(NamedTuple):
    """A line of a family: its number, the directions by dimension, and the tasks that are done, as they are printed."""

    number: int
    directions: dict
    tasks: list
    text: str


class Block(NamedTuple):
    """What is said of a block: its row and column, its tasks as they are printed, and the lines to be written into it."""

    row: int
    col: int
    tasks: list
    lines: list


class Pme(NamedTuple):
    """A partitioned matrix expression: its first line, and its blocks."""

    title: str
    blocks: list


class Sheet(NamedTuple):
    """A worksheet: what stands behind the words that come once (and behind 1a and 1b), the states, and the updates."""

    said: dict
    before: list
    updates: list
    after: list


def refuse_refusal(text):
    """Refuses what flame prints where it has no result."""
    first = text.split("\n", 1)[0]
    if first.startswith(REFUSALS):
        raise Refused(f"flame answered: {first}")


def matrices(text):
    """The matrices that a run printed; a trace behind them isn't looked at."""
    refuse_refusal(text)
    lines, at, found = text.splitlines(), 0, []
    while at < len(lines) and lines[at] != "trace":
        head = re.fullmatch(r"matrix (\w+) (\d+) (\d+)", lines[at])
        if not head:
            raise Refused(f"line {at + 1}: {lines[at]!r} isn't the beginning of a printed matrix")
        name, rows, cols = head[1], int(head[2]), int(head[3])
        count = rows if cols else 0
        body = lines[at + 1:at + 1 + count]
        if lines[at + 1 + count:at + 2 + count] != ["end"]:
            raise Refused(f"line {at + 1}: the matrix {name} isn't printed whole")
        found.append(Printed(name, cols, [row_of(line, cols, name) for line in body] if cols else [[]] * rows))
        at += count + 2
    return found


def row_of(line, cols, name):
    """The numbers of a row."""
    words = line.split(" ")
    if len(words) != cols or not all(word.isdigit() for word in words):
        raise Refused(f"the matrix {name} has a row {line!r}, and {cols} numbers are due")
    return [int(word) for word in words]


def trace(text):
    """The trace behind the printed matrices."""
    refuse_refusal(text)
    lines = text.splitlines()
    if "trace" not in lines:
        raise Refused("there is no trace; run the job with --trace")
    lines = [line.split(" ") for line in lines[lines.index("trace") + 1:]]
    try:
        steps, lines = counted_lines(lines, "tasks")
        edges, lines = counted_lines(lines, "edges")
        events, lines = counted_lines(lines, "schedule")
        return Trace([Step(int(number), int(statement), task) for number, statement, task in steps],
                     [(int(one), int(other), kinds) for one, other, *kinds in edges],
                     [(event, int(number)) for event, number in events])
    except (ValueError, IndexError):
        raise Refused("the trace isn't whole") from None


def counted_lines(lines, word):
    """The lines behind one that gives their number, and the rest."""
    first, count = lines[0]
    if first != word or len(lines) <= int(count):
        raise ValueError(word)
    return lines[1:int(count) + 1], lines[int(count) + 1:]


def families(text):
    """The families that `derive` printed, by the names of their operations."""
    refuse_refusal(text)
    found = {}
    for line in text.splitlines():
        head, _, tasks = line.partition(" :")
        words = head.split(" ")
        if words[0] == "operation":
            family = found[words[1]] = []
        elif words[0] != "variants":
            directions = dict(zip(words[2::2], words[3::2]))
            family.append(Variant(int(words[0]), directions, tasks.split(), line))
    return found


def expression(text):
    """The partitioned matrix expression that `pme` printed."""
    refuse_refusal(text)
    lines = text.splitlines()
    if not lines or not lines[0].startswith("pme ") or lines[-1] != "end":
        raise Refused("there is no partitioned matrix expression; `flame pme OP D` prints one")
    found = {}
    for line in lines[1:]:
        head = re.match(r"X\[(\d+),(\d+)\] = ", line)
        if head:
            found[head[1], head[2]] = Block(int(head[1]), int(head[2]), [], [line])
        task = re.match(r"\d+ \w+\((\d+),(\d+)[,)]", line)
        if task and (task[1], task[2]) in found:
            found[task[1], task[2]].tasks.append(line)
            found[task[1], task[2]].lines.append(line)
    return Pme(lines[0], list(found.values()))


def sheet(text):
    """The worksheet that `worksheet` printed, or one that stands behind a job. A state's comment is its expression where it has
    a block of an operand."""
    refuse_refusal(text)
    said, states, updates, lines = {}, {"before": [], "after": []}, [], text.splitlines()
    starts = [at for at, line in enumerate(lines) if line.split()[:1] == ["worksheet"]]
    for line in lines[starts[0]:] if starts else []:
        body, _, comment = line.partition("#")
        state = re.match(r"\s*(before|after)\s+(\d)\s+(\d)\s*:(.*)", body)
        word, _, rest = " ".join(body.split()).partition(" ")
        if state:
            tasks, comment = state[4].split(), comment.strip()
            block = [f"({state[2]},{state[3]}) {comment}".strip() if "[" in comment else f"({state[2]},{state[3]})", *tasks]
            states[state[1]].append(Block(int(state[2]), int(state[3]), tasks, block))
        elif word == "update":
            updates.append(rest)
        elif word:
            said[word] = rest
        elif comment.strip().startswith(("1a ", "1b ")):
            said[comment.strip()[:2]] = comment.strip()[3:]
    due = {"worksheet", "split", "invariant", "guard", "start", "take", "give", "end"}
    if not starts or not due <= set(said) or not states["before"] or not states["after"]:
        raise Refused("there is no whole worksheet; `flame worksheet OP V` prints one")
    return Sheet(said, states["before"], updates, states["after"])
