"""The verdict of a check: the first wrong place of a worksheet, with what is found there and what is due."""

from itertools import zip_longest

from .families import classes, counts_of, is_done
from .tasks import indices, needs, tasks
from .worksheets import due_ends, due_states, due_updates

NOTHING = "-"


def first_wrong(operation, sheet):
    """The place, what is found and what is due, as texts; None where the worksheet is right."""
    checks = (order, needed_outside, early, missing, undone, guard, ends("start"), ends("take"), states("before", False),
              updates, ends("give"), states("after", True))
    return next((found for found in (check(operation, sheet) for check in checks) if found), None)


def two_parts(operation, sheet):
    """The tasks of the cut with two parts."""
    return tasks(operation, counts_of(operation, sheet.split, 2))


def order(operation, sheet):
    """A task of the invariant that isn't there, or doesn't come after the one before it."""
    every = two_parts(operation, sheet)
    last = -1
    for task in sheet.invariant:
        if task not in every or every.index(task) <= last:
            return "invariant order", task.text(), NOTHING
        last = every.index(task)
    return None


def needed_outside(operation, sheet):
    """A task of the invariant that needs one outside it."""
    outside = [task for task in two_parts(operation, sheet) if task not in sheet.invariant]
    for task in sheet.invariant:
        for other in outside:
            if needs(operation, task, other):
                return "invariant F1", task.text(), other.text()
    return None


def sides(operation, sheet, task):
    """For each split index of a task whether it is on the done side."""
    chosen = dict(zip(sheet.split, sheet.directions))
    return [is_done(chosen, dim, index) for dim, index in indices(operation, task) if dim in chosen]


def early(operation, sheet):
    """A task of the invariant all of whose split indices are remaining."""
    for task in sheet.invariant:
        if not any(sides(operation, sheet, task)):
            return "invariant F2", task.text(), NOTHING
    return None


def missing(operation, sheet):
    """A task outside the invariant all of whose split indices are done."""
    for task in two_parts(operation, sheet):
        if task not in sheet.invariant and all(sides(operation, sheet, task)):
            return "invariant F3", NOTHING, task.text()
    return None


def undone(operation, sheet):
    """A task of the cut with three parts whose class is in the invariant before the middle part is done and isn't after."""
    chosen, coarse = dict(zip(sheet.split, sheet.directions)), set(two_parts(operation, sheet))
    for task in tasks(operation, counts_of(operation, sheet.split, 3)):
        remaining, done = (classes(operation, chosen, coarse, task, middle_is_done) for middle_is_done in (False, True))
        if remaining in sheet.invariant and done not in sheet.invariant:
            return "invariant F4", remaining.text(), done.text()
    return None


def guard(operation, sheet):
    """Another guard than the split dimensions in order."""
    if list(sheet.guard) != list(sheet.split):
        return "guard", *(" ".join(operation.dims[dim] for dim in dims) for dims in (sheet.guard, sheet.split))
    return None


def ends(line):
    """The check of the line `start`, `take` or `give`: other ends than those of the directions."""
    def check(operation, sheet):
        found, due = getattr(sheet, line), due_ends(sheet.split, sheet.directions)
        if found != due:
            return line, *(" ".join(f"{operation.dims[dim]} {end}" for dim, end in ends) for ends in (found, due))
        return None

    return check


def states(lines, middle_is_done):
    """The check of the lines `before` or `after`: another one than is due in its place, one too many, or one too few."""
    def check(operation, sheet):
        due = due_states(operation, sheet.split, sheet.directions, sheet.invariant, middle_is_done)
        for number, pair in enumerate(zip_longest(getattr(sheet, lines), due), 1):
            if pair[0] != pair[1]:
                return f"{lines} {number}", *(state.text() if state else NOTHING for state in pair)
        return None

    return check


def updates(operation, sheet):
    """An update that isn't due or stood before, or needs one that stands behind it; or one that is missing."""
    due = due_updates(operation, sheet.split, sheet.directions, sheet.invariant)
    for at, task in enumerate(sheet.updates):
        done = sheet.updates[:at]
        if task not in due or task in done:
            return f"update {at + 1}", task.text(), NOTHING
        for other in due:
            if needs(operation, task, other) and other not in done:
                return f"update {at + 1}", task.text(), other.text()
    for task in due:
        if task not in sheet.updates:
            return f"update {len(sheet.updates) + 1}", NOTHING, task.text()
    return None
