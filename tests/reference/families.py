"""Families: the feasible sets of tasks along each split in each direction.

A set is a number in which the task at place p of the canonical order counts 2 ** p. All four rules say of a set that
a task is in it, that a task isn't, or that with one task another is in it; `rules` collects them. `filtered` looks at
every subset; `searched` walks only those that can still be completed, for operations with many tasks.
"""

from itertools import combinations, product as cartesian

from .tasks import indices, needs, task_class, tasks

FORWARD, BACKWARD = "forward", "backward"
# Up to this many tasks all subsets are looked at: one bit for each subset, so 2 ** 20 bits for each task.
FILTER_LIMIT = 20


def splits(operation):
    """All single dimensions in declared order, then all pairs."""
    dims = range(len(operation.dims))
    return [(dim,) for dim in dims] + list(combinations(dims, 2))


def counts_of(operation, split, parts):
    """`parts` for each split dimension and one part for each other."""
    return [parts if dim in split else 1 for dim in range(len(operation.dims))]


def is_done(directions, dim, part):
    """Whether a part of the cut with two parts is on the done side of a split dimension."""
    return part == (0 if directions[dim] == FORWARD else 1)


def middle_edge(directions, dim, middle_is_done):
    """The first of three parts that goes to the second of two where the middle part counts as done or remaining."""
    return 2 if (directions[dim] == FORWARD) == middle_is_done else 1


def classes(operation, directions, coarse, task, middle_is_done):
    """The class of a task of the cut with three parts, the middle one being done or remaining."""
    def part_of(dim, index):
        return int(dim in directions and index >= middle_edge(directions, dim, middle_is_done))

    return task_class(operation, coarse, task, part_of)


def rules(operation, split, directions):
    """The tasks in order, the places that have to be in a set, those that must not be, and the pairs (a, b) of
    places where b has to be in the set with a. `directions` gives each split dimension its direction."""
    two = tasks(operation, counts_of(operation, split, 2))
    place = {task: at for at, task in enumerate(two)}
    wanted, barred, implied = set(), set(), set()
    for task in two:
        sides = [is_done(directions, dim, index) for dim, index in indices(operation, task) if dim in split]
        if all(sides):
            wanted.add(place[task])
        if not any(sides):
            barred.add(place[task])
        implied |= {(place[task], place[other]) for other in two if needs(operation, task, other)}
    for task in tasks(operation, counts_of(operation, split, 3)):
        remaining = classes(operation, directions, place, task, False)
        done = classes(operation, directions, place, task, True)
        implied.add((place[remaining], place[done]))
    return two, wanted, barred, {(a, b) for a, b in implied if a != b}


def filtered(count, wanted, barred, implied):
    """All sets that keep the rules, ascending: a filter of every subset of `count` tasks.

    Bit s of a table says whether set s is kept so far, and bit s of member p whether p is in s."""
    size = 1 << count
    every = (1 << size) - 1
    member = [membership(place, size) for place in range(count)]
    table = every
    for place in wanted:
        table &= member[place]
    for place in barred:
        table &= every ^ member[place]
    for a, b in implied:
        table &= (every ^ member[a]) | member[b]
    return set_bits(table, size)


def membership(place, size):
    """The table whose bit s says whether bit `place` of s is set, for s below `size`."""
    half = 1 << place
    pattern, width = ((1 << half) - 1) << half, 2 * half
    while width < size:
        pattern |= pattern << width
        width *= 2
    return pattern


def set_bits(table, size):
    """The places of the set bits, ascending."""
    found = []
    for at, byte in enumerate(table.to_bytes((size + 7) // 8, "little")):
        if byte:
            found += [8 * at + bit for bit in range(8) if byte >> bit & 1]
    return found


def searched(count, wanted, barred, implied):
    """All sets that keep the rules, ascending, by choosing for one task after another, the greatest place first."""
    after = {place: closure(place, implied, 0, 1) for place in range(count)}
    before = {place: closure(place, implied, 1, 0) for place in range(count)}
    inside = set().union(*(after[place] for place in wanted)) if wanted else set()
    outside = set().union(*(before[place] for place in barred)) if barred else set()
    found = []

    def choose(place, inside, outside):
        if inside & outside:
            return
        if place < 0:
            found.append(sum(1 << member for member in inside))
            return
        if place not in inside:
            choose(place - 1, inside, outside | before[place])
        if place not in outside:
            choose(place - 1, inside | after[place], outside)

    choose(count - 1, inside, outside)
    return found


def closure(place, implied, source, target):
    """All places that are reached from one over the pairs, with itself."""
    reached, waiting = {place}, [place]
    while waiting:
        current = waiting.pop()
        new = {pair[target] for pair in implied if pair[source] == current} - reached
        reached |= new
        waiting += new
    return reached


def variants(operation, pairs=True):
    """All variants, one after another: the split, its directions, and the kept tasks in canonical order."""
    for split in splits(operation):
        if len(split) == 2 and not pairs:
            return
        for choice in cartesian((FORWARD, BACKWARD), repeat=len(split)):
            two, *conditions = rules(operation, split, dict(zip(split, choice)))
            sets = (filtered if len(two) <= FILTER_LIMIT else searched)(len(two), *conditions)
            for number in sets:
                yield split, choice, [task for at, task in enumerate(two) if number >> at & 1]


def family_text(operation, pairs=True):
    """The lines that `derive` prints for an operation."""
    family = list(variants(operation, pairs))
    lines = [f"operation {operation.name}", f"variants {len(family)}"]
    for number, (split, directions, kept) in enumerate(family, 1):
        named = " ".join(f"{operation.dims[dim]} {direction}" for dim, direction in zip(split, directions))
        lines.append(" ".join([f"{number} split {named} :", *(task.text() for task in kept)]))
    return "\n".join(lines + [""])
