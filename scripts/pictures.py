"""Pictures of loops: partitioned matrices with what is done, in hand and to come at each iteration, as SVG.

Which tasks there are, which blocks they read, and to which task of the cut in two a task of a finer cut belongs is said by
the reference program in tests/reference.
"""

import sys
from html import escape
from pathlib import Path

sys.path.insert(0, str(Path(__file__).resolve().parents[1] / "tests"))

from reference.issue import parts_after  # noqa: E402
from reference.structures import inside  # noqa: E402
from reference.tasks import Task, block_tasks, blocks_read, task_class, tasks  # noqa: E402

CELL, GAP, LEFT, TOP = 20, 26, 16, 22
LABEL = 70  # as wide as the label of an iteration may be
STATES = {"done": "#5aa469", "partly": "#bfe3c6", "hand": "#f2a541", "come": "#e9e9e9"}
LEGEND = (("done", "done"), ("partly", "some of its tasks done"), ("hand", "in hand in this iteration"),
          ("come", "to come"))
READ = "#2f5fb3"


def part_counts(operation, variant, parts):
    """So many parts of each split dimension, and one of each other."""
    return [parts if dim in variant.directions else 1 for dim in operation.dims]


def iterations(operation, variant, parts):
    """For each iteration the tasks that are done before it and those that it does."""
    directions = {operation.dims.index(dim): direction for dim, direction in variant.directions.items()}
    coarse = set(tasks(operation, part_counts(operation, variant, 2)))
    kept = {task for task in coarse if task.text() in variant.tasks}
    counts = part_counts(operation, variant, parts)
    every = tasks(operation, counts)

    def done(after):
        part_of = parts_after(after, directions, counts)
        return {task for task in every if task_class(operation, coarse, task, part_of) in kept}

    sets = [done(after) for after in range(parts + 1)]
    return [(before, after - before) for before, after in zip(sets, sets[1:])]


def factor_block(operation, factor, i, j):
    """The operand's number and the stored block from which block (i, j) of a factor is read."""
    structure = operation.knowns[factor.known].structure
    i, j = (j, i) if factor.primed else (i, j)
    return factor.known, *((j, i) if structure == "symmetric" and i < j else (i, j))


def known_reads(operation, task):
    """The blocks of known operands that a task reads, each as the operand's number, row and column."""
    if task.kind == "term":
        term = operation.terms[task.term - 1]
        return [factor_block(operation, term.first, task.i, task.k), factor_block(operation, term.second, task.k, task.j)]
    found = []
    if operation.t and operation.form in ("left", "sylvester") and task.kind in ("left", "solve"):
        found.append(factor_block(operation, operation.t, task.i, task.k if task.kind == "left" else task.i))
    factor = operation.u if operation.form == "sylvester" else operation.t
    if factor and operation.form in ("right", "sylvester") and task.kind in ("right", "solve"):
        found.append(factor_block(operation, factor, task.k if task.kind == "right" else task.j, task.j))
    return found


def work_reads(operation, task):
    """The blocks of the work matrix that a task reads beside its own."""
    if task.kind == "solve":
        if operation.form in ("lu", "ldl") and task.i != task.j:
            least = min(task.i, task.j)
            return [(least, least)]
        return []
    return blocks_read(operation, task)


def state(block, before, now):
    """How far a block of the work matrix is, by its tasks."""
    if now & block:
        return "hand"
    if block <= before:
        return "done"
    return "partly" if block & before else "come"


def listed(word, found):
    """Tasks behind a word."""
    return [f"{word}: {' '.join(task.text() for task in sorted(found))}"] if found else []


def cell(place, sizes, colour, read, title):
    """A block: its place and size, its colour, whether it is read, and the text that appears when it is pointed at."""
    (x, y), (width, height) = place, sizes
    pen = f'stroke="{READ}" stroke-width="2.5"' if read else 'stroke="#888" stroke-width="0.7"'
    inset = 1.5 if read else 0.5
    return (f'<rect x="{x + inset}" y="{y + inset}" width="{width - 2 * inset}" height="{height - 2 * inset}" '
            f'fill="{colour}" {pen}><title>{escape(title)}</title></rect>')


class Grid:
    """Where the blocks of an operand stand in a picture of so many parts."""

    def __init__(self, operand, counts, side, at):
        self.rows, self.cols = counts[operand.rows], counts[operand.cols]
        self.structure, self.side, self.at = operand.structure, side, at

    def cells(self):
        """Each block of the operand's structure with its place and size."""
        height, width = self.side / self.rows, self.side / self.cols
        stored = "lower" if self.structure == "symmetric" else self.structure
        for i in range(self.rows):
            for j in range(self.cols):
                if inside(stored, i, j):
                    yield i, j, (self.at[0] + j * width, self.at[1] + i * height), (width, height)


def work_picture(operation, counts, grid, before, now):
    """The work matrix at an iteration."""
    read = {block for task in now for block in work_reads(operation, task)}
    for i, j, place, sizes in grid.cells():
        block = set(block_tasks(operation, counts, i, j))
        how = state(block, before, now)
        title = [f"block ({i},{j})", *listed("done", block & before), *listed("in hand", block & now),
                 *listed("to come", block - before - now)]
        yield cell(place, sizes, STATES[how], (i, j) in read, "\n".join(title))


def known_picture(operation, number, grid, now):
    """A known operand at an iteration: which of its blocks are read."""
    read = {block[1:] for task in now for block in known_reads(operation, task) if block[0] == number}
    for i, j, place, sizes in grid.cells():
        yield cell(place, sizes, "white", (i, j) in read, f"block ({i},{j})" + (", read" if (i, j) in read else ""))


def iteration_picture(operation, counts, at, side, before, now):
    """The operands at an iteration, one above the other."""
    for number, operand in enumerate(operation.operands()):
        x, y = at[0], at[1] + number * (side + GAP)
        yield f'<text x="{x}" y="{y + 11}">{escape(operand.name)}</text>'
        grid = Grid(operand, counts, side, (x, y + 15))
        yield from (work_picture(operation, counts, grid, before, now) if number == 0
                    else known_picture(operation, number - 1, grid, now))


def variant_picture(operation, variant, parts, y):
    """A loop, an iteration beside the other, and how high the picture is."""
    side, counts = parts * CELL, part_counts(operation, variant, parts)
    lines = [f'<text x="{LEFT}" y="{y + 12}" font-weight="bold">{escape(f"{operation.name} {variant.text}")}</text>']
    for number, (before, now) in enumerate(iterations(operation, variant, parts)):
        x = LEFT + number * (max(side, LABEL) + GAP)
        lines.append(f'<text x="{x}" y="{y + 30}" fill="#555">iteration {number + 1}</text>')
        lines += iteration_picture(operation, counts, (x, y + 36), side, before, now)
    return lines, 36 + len(operation.operands()) * (side + GAP) + 14


def legend(y):
    """What the colours say."""
    x = LEFT
    for how, text in LEGEND:
        yield cell((x, y), (14, 14), STATES[how], False, text)
        yield f'<text x="{x + 19}" y="{y + 11}">{text}</text>'
        x += 40 + 7 * len(text)
    yield cell((x, y), (14, 14), "white", True, "read")
    yield f'<text x="{x + 19}" y="{y + 11}">read in this iteration</text>'


def picture(chosen, parts):
    """The SVG of loops, each an operation with a variant."""
    lines, y = list(legend(TOP - 12)), TOP + 16
    for operation, variant in chosen:
        more, height = variant_picture(operation, variant, parts, y)
        lines += more
        y += height
    longest = max([len(f"{operation.name} {variant.text}") for operation, variant in chosen], default=0)
    width = LEFT + max(parts * (max(parts * CELL, LABEL) + GAP), 8 * longest, 760)
    head = (f'<svg xmlns="http://www.w3.org/2000/svg" width="{width}" height="{y}" viewBox="0 0 {width} {y}" '
            'font-family="sans-serif" font-size="12">')
    return "\n".join([head, f'<rect width="{width}" height="{y}" fill="white"/>', *lines, "</svg>"]) + "\n"
