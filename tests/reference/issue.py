"""The steps of a job in the order in which one worker does them: by the variant of each statement, and within one
iteration of its loop in canonical order.
"""

from functools import lru_cache
from typing import NamedTuple, Optional

from .families import FORWARD, counts_of, variants
from .faults import Refusal
from .steps import part_counts
from .tasks import Task, has_pivots, task_class, tasks


class Step(NamedTuple):
    """A task of a statement, which is numbered from 1; no task for the step that tests pivots."""

    statement: int
    task: Optional[Task]

    def text(self):
        return f"{self.statement} {self.task.text() if self.task else 'pivots'}"


class Family:
    """The variants of an operation, made as far as they were asked for."""

    def __init__(self, operation):
        self.rest = variants(operation)
        self.made = []

    def at(self, number):
        """The variant of this number, from 1, or None where the family has fewer."""
        while len(self.made) < number:
            one = next(self.rest, None)
            if one is None:
                return None
            self.made.append(one)
        return self.made[number - 1]

    def count(self):
        """How many variants there are."""
        self.made += self.rest
        return len(self.made)


def family_of(operation):
    """The family of an operation; that of an equal one is made once."""
    return kept_family(Same(operation))


class Same:
    """An operation beside its text, by which it is told from others."""

    def __init__(self, operation):
        self.operation = operation
        self.text = repr(operation)

    def __eq__(self, other):
        return self.text == other.text

    def __hash__(self):
        return hash(self.text)


@lru_cache(maxsize=1000)
def kept_family(same):
    """The family of an operation."""
    return Family(same.operation)


def chosen_variants(job, numbers):
    """The variant of each statement, variant 1 where no numbers are given; VariantCount where they aren't as many as the
    statements, then NoVariant for the first statement whose family has no variant of its number."""
    if numbers is None:
        numbers = [1] * len(job.statements)
    if len(numbers) != len(job.statements):
        raise Refusal(f"VariantCount given {len(numbers)} due {len(job.statements)}")
    chosen = [family_of(statement.operation).at(number) for statement, number in zip(job.statements, numbers)]
    if None in chosen:
        raise Refusal(f"NoVariant statement {chosen.index(None) + 1}")
    return chosen


def parts_after(iterations, directions, counts):
    """To which of two parts each part goes after so many iterations: along a forward split dimension the first parts are
    done, along a backward one the last ones, and what is unsplit is one part."""
    def part_of(dim, index):
        if dim not in directions:
            return 0
        done = min(iterations, counts[dim])
        if directions[dim] == FORWARD:
            return 0 if index < done else 1
        return 1 if index >= counts[dim] - done else 0

    return part_of


def issued(operation, counts, variant):
    """The tasks of a statement in the order of a variant: after t = 0, 1, .. those whose class after t + 1 iterations is in
    the variant's set and whose class after t iterations isn't."""
    split, choice, kept = variant
    directions = dict(zip(split, choice))
    coarse, kept = set(tasks(operation, counts_of(operation, split, 2))), set(kept)
    every = tasks(operation, counts)

    def in_set(iterations):
        part_of = parts_after(iterations, directions, counts)
        return [task_class(operation, coarse, task, part_of) in kept for task in every]

    before = in_set(0)
    for t in range(max(counts[dim] for dim in split)):
        after = in_set(t + 1)
        yield from (task for task, was, now in zip(every, before, after) if now and not was)
        before = after


def issue(job, block, chosen):
    """The steps of a job under a block size, with a variant for each statement."""
    steps = []
    for number, (statement, variant) in enumerate(zip(job.statements, chosen), 1):
        if has_pivots(statement.operation):
            steps.append(Step(number, None))
        counts = part_counts(job, statement, block)
        steps += [Step(number, task) for task in issued(statement.operation, counts, variant)]
    return steps
