"""Worksheets as rows of tokens, and changed in all ways that a check tells: a line or a task that is dropped, doubled, exchanged
or renamed, a direction, an end or a dimension changed."""

from dataclasses import replace

from reference.families import counts_of, is_done, splits, variants
from reference.issue import family_of
from reference.tasks import Task, indices, needs, tasks
from reference.worksheets import State, made

from .spelling import Row

# Of so many tasks all sets are looked at for those that keep the first three rules.
FEW = 10
# Of so many variants one is drawn.
MOST = 60


def task_tokens(task):
    """A task's tokens."""
    word = f"term{task.term}" if task.kind == "term" else task.kind
    numbers = [task.i, task.j] if task.kind == "solve" else [task.i, task.j, task.k]
    return [word, "(", *(token for number in numbers for token in (str(number), ","))][:-1] + [")"]


def all_tokens(done):
    """The tokens of tasks."""
    return [token for task in done for token in task_tokens(task)]


def sheet_rows(operation, sheet):
    """The rows of a worksheet."""
    def dims(word, pairs):
        return Row(word, word, *(token for dim, end in pairs for token in (operation.dims[dim], end)))

    def states(word, lines):
        return [Row(word, word, line.row, line.col, ":", *all_tokens(line.done)) for line in lines]

    return [
        Row("worksheet", "worksheet", sheet.operation), dims("split", zip(sheet.split, sheet.directions)),
        Row("invariant", "invariant", *all_tokens(sheet.invariant)),
        Row("guard", "guard", *(operation.dims[dim] for dim in sheet.guard)),
        dims("start", sheet.start), dims("take", sheet.take), *states("before", sheet.before),
        *(Row("update", "update", *task_tokens(task)) for task in sheet.updates), dims("give", sheet.give),
        *states("after", sheet.after), Row("sheetend", "end")]


def drawn_sheet(rng, operation):
    """The worksheet of one of the first variants, of which the last ones are drawn more often where they are few."""
    family = family_of(operation)
    return made(operation, family.at(rng.choice((1, 3, rng.randrange(1, 12), rng.randrange(1, MOST)))) or family.made[-1])


def copied(sheet):
    """A worksheet with lists of its own."""
    lists = {name: list(getattr(sheet, name)) for name in ("invariant", "guard", "start", "take", "updates", "give")}
    states = {name: [State(one.row, one.col, list(one.done)) for one in getattr(sheet, name)] for name in ("before", "after")}
    return replace(sheet, **lists, **states)


def any_task(rng, operation, parts):
    """A task of the cut into so many parts along all dimensions, or any other one."""
    every = tasks(operation, [min(parts, 2)] * len(operation.dims)) if rng.random() < 0.7 else []
    if every:
        return rng.choice(every)
    kind, term = rng.choice((("term", 1), ("term", 2), ("left", 0), ("right", 0), ("solve", 0)))
    i, j, k = (rng.randrange(parts) for _ in range(3))
    return Task(kind, term, i, j, 0 if kind == "solve" else k)


def near_task(rng, task):
    """A task with one index, its term or its kind changed."""
    change = rng.choice(("i", "j", "k", "kind"))
    if change == "kind":
        kind, term = rng.choice((("term", 1), ("term", 2), ("left", 0), ("right", 0), ("solve", 0)))
        return Task(kind, term, task.i, task.j, 0 if kind == "solve" else task.k)
    moved = task._replace(**{change: (getattr(task, change) + rng.choice((1, 2))) % 3})
    return moved._replace(k=0) if task.kind == "solve" else moved


def change_list(rng, items, fresh, near=None):
    """Drops, doubles, exchanges or renames an item of a list, or puts a fresh one in."""
    change = rng.choice(("drop", "drop", "double", "swap", "swap", "rename", "rename", "insert"))
    at = rng.randrange(len(items)) if items else None
    if at is None or change == "insert":
        items.insert(rng.randrange(len(items) + 1), fresh())
    elif change == "drop":
        del items[at]
    elif change == "double":
        items.insert(rng.choice((at, rng.randrange(len(items) + 1))), items[at])
    elif change == "swap":
        other = rng.randrange(len(items))
        items[at], items[other] = items[other], items[at]
    else:
        items[at] = near(items[at]) if near and rng.random() < 0.7 else fresh()


def change_tasks(rng, operation, items, parts=3):
    """Changes a list of tasks."""
    change_list(rng, items, lambda: any_task(rng, operation, parts), lambda task: near_task(rng, task))


def any_set(rng, operation, sheet):
    """Another invariant along the same split: any set of tasks in order, one that keeps the first three rules alone, or that of
    another variant."""
    two = tasks(operation, counts_of(operation, sheet.split, 2))
    chance = rng.random()
    if chance < 0.4:
        return [task for task in two if rng.random() < 0.6]
    if chance < 0.7 and len(two) <= FEW:
        found = undone_sets(operation, sheet)
        return rng.choice(found) if found else list(two)
    return rng.choice([kept for split, _, kept in variants(operation) if split == sheet.split] or [list(two)])


def undone_sets(operation, sheet):
    """The sets that keep the first three rules and not the fourth, which are few."""
    two = tasks(operation, counts_of(operation, sheet.split, 2))
    chosen = dict(zip(sheet.split, sheet.directions))
    known = [kept for split, directions, kept in variants(operation) if (split, directions) == (sheet.split, sheet.directions)]
    sides = [[is_done(chosen, dim, index) for dim, index in indices(operation, task) if dim in chosen] for task in two]
    needed = [[place for place, other in enumerate(two) if needs(operation, task, other)] for task in two]
    found = []
    for number in range(2 ** len(two)):
        places = {place for place in range(len(two)) if number >> place & 1}
        if (all(set(needed[place]) <= places and any(sides[place]) for place in places)
                and all(place in places or not all(side) for place, side in enumerate(sides))):
            found.append([two[place] for place in sorted(places)])
    return [kept for kept in found if kept not in known]


def change_invariant(rng, operation, sheet):
    """Changes the invariant."""
    if rng.random() < 0.5:
        sheet.invariant = list(any_set(rng, operation, sheet))
    else:
        change_tasks(rng, operation, sheet.invariant, 2)


def change_split(rng, operation, sheet):
    """Turns a direction, or takes another split, which may be out of order."""
    if rng.random() < 0.5:
        at = rng.randrange(len(sheet.split))
        turned = [{"forward": "backward", "backward": "forward"}[one] if place == at else one
                  for place, one in enumerate(sheet.directions)]
        sheet.directions = tuple(turned)
        return
    split = rng.choice([*splits(operation), *(tuple(reversed(one)) for one in splits(operation)), sheet.split[:1] * 2])
    sheet.split = split
    sheet.directions = tuple(rng.choice(("forward", "backward")) for _ in split)


def change_dims(rng, operation, dims):
    """Changes a list of one or two dimensions, so that it has one or two again."""
    change_list(rng, dims, lambda: rng.randrange(len(operation.dims)))
    dims[2:] = []
    if not dims:
        dims.append(rng.randrange(len(operation.dims)))


def change_guard(rng, operation, sheet):
    """Changes the guard."""
    change_dims(rng, operation, sheet.guard)


def change_ends(rng, operation, sheet):
    """Changes the line `start`, `take` or `give`."""
    pairs = getattr(sheet, rng.choice(("start", "take", "give")))
    if rng.random() < 0.5:
        at = rng.randrange(len(pairs))
        pairs[at] = pairs[at][0], {"first": "last", "last": "first"}[pairs[at][1]]
        return
    dims = [dim for dim, _ in pairs]
    change_dims(rng, operation, dims)
    pairs[:] = [(dim, dict(pairs).get(dim, rng.choice(("first", "last")))) for dim in dims]


def change_states(rng, operation, sheet):
    """Changes the lines of a state, or the tasks of one of them."""
    lines = getattr(sheet, rng.choice(("before", "after")))

    def near(line):
        return rng.choice((State((line.row + 1) % 3, line.col, line.done), State(line.row, (line.col + 1) % 3, line.done)))

    if lines and rng.random() < 0.6:
        change_tasks(rng, operation, rng.choice(lines).done)
    else:
        change_list(rng, lines, lambda: State(rng.randrange(3), rng.randrange(3), []), near)


def change_updates(rng, operation, sheet):
    """Changes the updates."""
    chance = rng.random()
    if chance < 0.3:
        rng.shuffle(sheet.updates)
    elif chance < 0.4:
        sheet.updates.reverse()
    elif chance < 0.6 and len(sheet.updates) > 1:
        at = rng.randrange(len(sheet.updates) - 1)
        sheet.updates[at:at + 2] = reversed(sheet.updates[at:at + 2])
    else:
        change_tasks(rng, operation, sheet.updates)


def exchange_states(_rng, _operation, sheet):
    """Exchanges what is before and after."""
    sheet.before, sheet.after = sheet.after, sheet.before


CHANGES = (change_invariant, change_split, change_guard, change_ends, change_ends, change_states, change_states, change_states,
           change_updates, change_updates, change_updates, exchange_states)


def changed(rng, operation, sheet, count):
    """A worksheet with so many changes."""
    sheet = copied(sheet)
    for _ in range(count):
        rng.choice(CHANGES)(rng, operation, sheet)
    return sheet


def garbled_row(rng, operation, rows):
    """Changes a token or a line of the rows, so that mostly the text has a fault."""
    at = rng.randrange(len(rows))
    tokens = rows[at].tokens
    spot = rng.randrange(len(tokens))
    change = rng.randrange(9)
    words = ("worksheet", "split", "invariant", "guard", "start", "take", "before", "update", "give", "after", "end", "first",
             "last", "forward", "backward", "term1", "term2", "term3", "left", "right", "solve", "pivots", "(", ")", ",", ":",
             "0", "1", "2", "3", "00", "02", "12", "X", "q" * 33, operation.name, *operation.dims)
    if change == 0 and len(tokens) > 1:
        del tokens[spot]
    elif change == 1:
        tokens.insert(spot, tokens[spot])
    elif change == 2:
        tokens.insert(rng.randrange(len(tokens) + 1), rng.choice(words))
    elif change in (3, 4):
        tokens[spot] = rng.choice(words)
    elif change == 5:
        del rows[at]
    elif change == 6:
        rows.insert(rng.choice((at, rng.randrange(len(rows) + 1))), rows[at].copy())
    elif change == 7:
        other = rng.choice((min(at + 1, len(rows) - 1), rng.randrange(len(rows))))
        rows[at], rows[other] = rows[other], rows[at]
    elif tokens[spot][0].isalnum():
        tokens[spot] += rng.choice(("0", "q", "_"))
