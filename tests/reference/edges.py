"""Conflicts of steps and direct edges between them, by the blocks that each step reads and writes.

A block is named by its matrix, row and column, a list of pivots by its statement.
"""

from bisect import bisect_right
from itertools import combinations
from typing import NamedTuple

from .steps import part_counts
from .tasks import has_pivots

# Of more steps than these not every pair is looked at.
FEW = 120

# The kinds of a conflict of an earlier step with a later one, in the order in which they are printed: whether the earlier
# one writes the block, and whether the later one does.
KINDS = {"flow": (True, False), "anti": (False, True), "output": (True, True)}


class Access(NamedTuple):
    """The block that a step writes, and those that it reads, without the one that it writes."""

    write: tuple
    reads: frozenset

    def touches(self, block, writing):
        """Whether the step writes the block, or reads it."""
        return self.write == block if writing else block in self.reads


class Blocks:
    """The blocks of a statement by the indices of its operands."""

    def __init__(self, number, statement, counts):
        self.number = number
        self.statement = statement
        self.operation = statement.operation
        self.counts = counts

    def work(self, i, j):
        """A block of the work matrix."""
        return self.statement.work, i, j

    def factor(self, factor, i, j):
        """The stored block from which block (i, j) of a factor is read, which is transposed where it is primed. Of a
        symmetric matrix the lower part is stored."""
        operand = self.operation.knowns[factor.known]
        i, j = (j, i) if factor.primed else (i, j)
        if operand.structure == "symmetric" and i < j:
            i, j = j, i
        return self.statement.knowns[factor.known], i, j

    def diagonal(self, factor):
        """The diagonal blocks of a factor."""
        return [self.factor(factor, i, i) for i in range(self.counts[self.operation.factor_dims(factor)[0]])]

    def pivots(self):
        """The list of pivots."""
        return "pivots", self.number


def update_reads(blocks, task):
    """The blocks that an update reads."""
    operation, i, j, k = blocks.operation, task.i, task.j, task.k
    if task.kind == "term":
        term = operation.terms[task.term - 1]
        return [blocks.factor(term.first, i, k), blocks.factor(term.second, k, j)]
    if task.kind == "right":
        return [blocks.work(i, k), blocks.factor(operation.t if operation.form == "right" else operation.u, k, j)]
    if operation.form == "lu":
        return [blocks.work(i, k), blocks.work(k, j)]
    if operation.form == "ldl":
        return [blocks.work(i, k), blocks.work(k, k), blocks.work(j, k)]
    return [blocks.factor(operation.t, i, k), blocks.work(k, j)]


def solve_reads(blocks, task):
    """The blocks that a solve reads: the diagonal ones that it solves with, and the list of pivots where there is one."""
    operation, i, j = blocks.operation, task.i, task.j
    if operation.form in ("lu", "ldl"):
        return [blocks.work(min(i, j), min(i, j))] if i != j else []
    reads = [blocks.factor(operation.t, i, i) if operation.form != "right" else blocks.factor(operation.t, j, j)]
    if operation.form == "sylvester":
        reads.append(blocks.factor(operation.u, j, j))
    return reads + ([blocks.pivots()] if has_pivots(operation) else [])


def access(blocks, task):
    """What a step reads and writes; the one without a task reads the diagonal blocks of T, and of U."""
    if task is None:
        factors = [factor for factor in (blocks.operation.t, blocks.operation.u) if factor]
        return Access(blocks.pivots(), frozenset(block for factor in factors for block in blocks.diagonal(factor)))
    reads = solve_reads(blocks, task) if task.kind == "solve" else update_reads(blocks, task)
    return Access(blocks.work(task.i, task.j), frozenset(reads))


def accesses(job, block, steps):
    """What each step reads and writes."""
    blocks = [Blocks(number, statement, part_counts(job, statement, block))
              for number, statement in enumerate(job.statements, 1)]
    return [access(blocks[step.statement - 1], step.task) for step in steps]


def kinds_on(block, first, second):
    """The kinds of the conflict of a step with a later one on a block."""
    return [kind for kind, (writes, rewrites) in KINDS.items()
            if first.touches(block, writes) and second.touches(block, rewrites)]


def edges_by_pairs(made):
    """The direct edges as they are defined: for each step and each later one, the kinds of their conflicts on blocks that no
    step strictly between them writes."""
    found = {}
    for (s, first), (t, second) in combinations(enumerate(made, 1), 2):
        for block in {first.write, second.write}:
            kinds = kinds_on(block, first, second)
            if kinds and not any(between.write == block for between in made[s:t - 1]):
                found.setdefault((s, t), []).extend(kinds)
    return {pair: [kind for kind in KINDS if kind in kinds] for pair, kinds in found.items()}


def edges_by_blocks(made):
    """The same, looked for block by block among the steps that read or write the block."""
    readers, writers = {}, {}
    for number, one in enumerate(made, 1):
        writers.setdefault(one.write, []).append(number)
        for block in one.reads:
            readers.setdefault(block, []).append(number)
    found = {}
    for block, writing in writers.items():
        users = {True: writing, False: readers.get(block, [])}
        for kind, (writes, rewrites) in KINDS.items():
            for s in users[writes]:
                # The first step behind s that writes the block: none behind that one has a direct edge from s on it.
                last = next(iter(writing[bisect_right(writing, s):][:1]), len(made))
                for t in users[rewrites][bisect_right(users[rewrites], s):bisect_right(users[rewrites], last)]:
                    found.setdefault((s, t), set()).add(kind)
    return {pair: [kind for kind in KINDS if kind in found[pair]] for pair in sorted(found)}


def direct_edges(made):
    """The direct edges of a list of steps by what each reads and writes."""
    return edges_by_pairs(made) if len(made) <= FEW else edges_by_blocks(made)
