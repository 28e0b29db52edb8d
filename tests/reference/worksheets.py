"""Worksheets: the one of a variant, and which ones are valid."""

from dataclasses import dataclass, field
from typing import NamedTuple

from .families import FORWARD, classes, counts_of, variants
from .partitioned import row_by_row
from .tasks import block_tasks, needs, tasks


class State(NamedTuple):
    """A line `before` or `after`: a block and the tasks of it that are done."""

    row: int
    col: int
    done: list

    def text(self):
        return " ".join([f"{self.row} {self.col} :", *(task.text() for task in self.done)])


@dataclass
class Worksheet:
    """A worksheet. Dimensions are numbers from 0; `start`, `take` and `give` are lists of dimensions, each with `first` or
    `last`."""

    operation: str
    split: tuple
    directions: tuple
    invariant: list = field(default_factory=list)
    guard: list = field(default_factory=list)
    start: list = field(default_factory=list)
    take: list = field(default_factory=list)
    before: list = field(default_factory=list)
    updates: list = field(default_factory=list)
    give: list = field(default_factory=list)
    after: list = field(default_factory=list)


def due_ends(split, directions):
    """For each split dimension the end from which its parts are taken."""
    return [(dim, "first" if direction == FORWARD else "last") for dim, direction in zip(split, directions)]


def due_states(operation, split, directions, kept, middle_is_done):
    """For each block of the cut with three parts its tasks whose class, the middle part being done or remaining, is kept."""
    coarse = set(tasks(operation, counts_of(operation, split, 2)))
    counts = counts_of(operation, split, 3)
    chosen = dict(zip(split, directions))
    return [State(i, j, [task for task in block_tasks(operation, counts, i, j)
                         if classes(operation, chosen, coarse, task, middle_is_done) in kept])
            for i, j in row_by_row(operation, counts)]


def due_updates(operation, split, directions, kept):
    """The tasks of the states after that aren't in those before, in canonical order."""
    before, after = ({task for state in due_states(operation, split, directions, kept, middle_is_done) for task in state.done}
                     for middle_is_done in (False, True))
    return [task for task in tasks(operation, counts_of(operation, split, 3)) if task in after - before]


def made(operation, variant):
    """The worksheet of a variant."""
    split, directions, kept = variant
    ends = due_ends(split, directions)
    before, after = (due_states(operation, split, directions, kept, middle_is_done) for middle_is_done in (False, True))
    return Worksheet(operation.name, split, directions, list(kept), list(split), ends, ends, before,
                     due_updates(operation, split, directions, kept), ends, after)


def is_valid(operation, sheet):
    """Whether a worksheet is that of a variant, but for the order of its updates, none of which stands before one that it
    needs."""
    known = [kept for split, directions, kept in variants(operation)
             if (split, directions) == (sheet.split, sheet.directions)]
    if sheet.invariant not in known:
        return False
    due = made(operation, (sheet.split, sheet.directions, sheet.invariant))
    early = any(needs(operation, task, other) for at, task in enumerate(sheet.updates) for other in sheet.updates[at:])
    same = [(one.guard, one.start, one.take, one.before, sorted(one.updates), one.give, one.after) for one in (sheet, due)]
    return same[0] == same[1] and not early
