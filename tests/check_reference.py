"""Checks the reference against what is known beforehand: the kept cases, counts of families, and two ways to find them.

    python3 tests/check_reference.py
"""

import random
import sys
from itertools import product as cartesian
from pathlib import Path

HERE = Path(__file__).resolve().parent
sys.path.insert(0, str(HERE))

from built import BUILT, WHOLE  # noqa: E402
from case import load  # noqa: E402
from generators.chains import GREAT_PRIMES, chain_job  # noqa: E402
from generators.limits import LU, MUL, identity, matrix, text  # noqa: E402
from generators.operations import FORMS, operation, operation_rows  # noqa: E402
from generators.spelling import plain  # noqa: E402
from generators.variants import numbers_of  # noqa: E402
from reference.due import due  # noqa: E402
from reference.edges import Access, accesses, edges_by_blocks, edges_by_pairs  # noqa: E402
from reference.families import FILTER_LIMIT, counts_of, filtered, rules, searched, splits  # noqa: E402
from reference.generated_job import generated_text, sums  # noqa: E402
from reference.issue import chosen_variants, family_of, issue  # noqa: E402
from reference.job_text import read_job  # noqa: E402
from reference.meaning import meaning  # noqa: E402
from reference.model import Factor, Job, Matrix, Operand, Operation, Statement  # noqa: E402
from reference.scanner import scan  # noqa: E402
from reference.steps import part_counts, step_count  # noqa: E402
from reference.structures import TRIANGULAR, WORK_STRUCTURES  # noqa: E402
from reference.tasks import Task, has_pivots, indices, inner_dim, needs, tasks  # noqa: E402
from replay import Replay  # noqa: E402

LDL = "operation ldl\ndims n\nwork W lower n n\nequation ldl X = W\nend\n"
LOW = "operation low\ndims n m\nwork W general n m\nknown T lower n n\nequation T * X = W\nend\n"
INV = "operation inv\ndims n\nwork W lower n n\nknown T lower n n\nequation T * X = W\nend\n"
SYL = ("operation syl\ndims m n\nwork W general m n\nknown T lower m m\nknown U upper n n\n"
       "equation T * X + X * U = W\nend\n")
PRODUCT = ("operation prod\ndims n\nwork W general n n\nknown L unitlower n n\nknown U upper n n\n"
           "equation X = W + L * U\nend\n")
SQR = "operation sqr\ndims n k\nwork W lower n n\nknown A general n k\nequation X = W + A * A'\nend\n"
SOLVE = "operation s\ndims n m\nwork W general n m\nknown T Q n n\nequation T * X = W\nend\n"
COUNTS = ((LU, 5), (LDL, 3), (LOW, 22), (INV, 4), (SYL, 24), (MUL, 54))

# Lines 1 to 5, 21 and 22 of the family of LOW.
LOW_LINES = {
    1: "1 split n forward : solve(0,0)",
    2: "2 split n forward : solve(0,0) left(1,0,0)",
    3: "3 split m forward : solve(0,0)",
    4: "4 split m backward : solve(0,1)",
    5: "5 split n forward m forward : solve(0,0)",
    21: "21 split n backward m forward : solve(0,0) left(1,0,0) solve(1,0)",
    22: "22 split n backward m backward : solve(0,1) left(1,1,0) solve(1,1)",
}


def family_lines(block):
    """The lines that `derive` prints for an operation block."""
    _, output = due(["derive"], ("flame 1\nmodulus 7\n" + block).encode(), WHOLE)
    return output.decode().split("\n")[:-1]


def check_families():
    """The known counts and lines of families."""
    for block, count in COUNTS:
        lines = family_lines(block)
        assert lines[1] == f"variants {count}" and len(lines) == count + 2, lines[:2]
    low = family_lines(LOW)
    assert all(low[number + 1] == line for number, line in LOW_LINES.items())


def check_searches():
    """The search finds what the filter of all subsets finds, for operations of every form."""
    rng = random.Random(1)
    for number in range(60):
        made = operation(rng, "q", FORMS[number % len(FORMS)])
        for split in splits(made):
            for choice in cartesian(("forward", "backward"), repeat=len(split)):
                two, *conditions = rules(made, split, dict(zip(split, choice)))
                if len(two) <= min(FILTER_LIMIT, 14):
                    assert filtered(len(two), *conditions) == searched(len(two), *conditions)


# To which of two parts each of three parts goes: by the direction, and whether the middle part is done.
COARSE = {("forward", False): (0, 1, 1), ("forward", True): (0, 0, 1),
          ("backward", False): (0, 0, 1), ("backward", True): (0, 1, 1)}


def coarse_class(made, two, directions, task, middle_is_done):
    """The class of a task of the cut with three parts, spelled out."""
    def part(dim, index):
        return COARSE[directions[dim], middle_is_done][index] if dim in directions else 0

    i, j = part(made.work.rows, task.i), part(made.work.cols, task.j)
    updates = [other for other in two if other.kind == task.kind != "solve" and other.term == task.term
               and (other.i, other.j, other.k) == (i, j, part(inner_dim(made, task), task.k))]
    return updates[0] if updates else Task("solve", 0, i, j, 0)


def is_feasible(made, split, directions, two, kept):
    """The four rules, each as it is said, on a set of tasks."""
    def is_remaining(task):
        return all(index == (1 if directions[dim] == "forward" else 0)
                   for dim, index in indices(made, task) if dim in split)

    def is_done(task):
        return all(index == (0 if directions[dim] == "forward" else 1)
                   for dim, index in indices(made, task) if dim in split)

    closed = all(b in kept for a in kept for b in two if needs(made, a, b))
    nothing_early = not any(is_remaining(task) for task in kept)
    all_done = all(task in kept for task in two if is_done(task))
    three = tasks(made, counts_of(made, split, 3))
    nothing_undone = all(coarse_class(made, two, directions, task, True) in kept for task in three
                         if coarse_class(made, two, directions, task, False) in kept)
    return closed and nothing_early and all_done and nothing_undone


def check_rules():
    """The filter keeps exactly the sets that keep the four rules, for small operations of every form."""
    rng = random.Random(3)
    for number in range(60):
        made = operation(rng, "q", FORMS[number % len(FORMS)], terms=rng.choice((0, 0, 1)))
        for split in splits(made):
            for choice in cartesian(("forward", "backward"), repeat=len(split)):
                directions = dict(zip(split, choice))
                two, *conditions = rules(made, split, directions)
                if len(two) > 8:
                    continue
                found = [number for number in range(2 ** len(two)) if is_feasible(
                    made, split, directions, two, {task for at, task in enumerate(two) if number >> at & 1})]
                assert found == filtered(len(two), *conditions)


# How many steps a statement on p by q by r parts has, where they are known in numbers; the operations of one dimension and
# those of triangular factors are square.
STEPS = {
    MUL: lambda p, q, r: p * q * r,
    PRODUCT: lambda p, _q, _r: p * (p + 1) * (2 * p + 1) // 6,
    LU: lambda p, _q, _r: p * (p + 1) * (2 * p + 1) // 6,
    LDL: lambda p, _q, _r: p * (p + 1) * (p + 2) // 6,
    SQR: lambda p, q, _r: p * (p + 1) // 2 * q,
    INV: lambda p, _q, _r: 1 + p * (p + 1) * (p + 2) // 6,
    SYL: lambda p, q, _r: 1 + p * q + p * (p - 1) // 2 * q + q * (q - 1) // 2 * p,
    SOLVE.replace("Q", "unitlower"): lambda p, q, _r: p * q + p * (p - 1) // 2 * q,
    SOLVE.replace("Q", "upper"): lambda p, q, _r: 1 + p * q + p * (p - 1) // 2 * q,
    SOLVE.replace("Q", "diagonal"): lambda p, q, _r: 1 + p * q,
}


# Known values of the numbers above, for square matrices in so many parts.
STEP_ROWS = ((2, (5, 5, 6, 7)), (8, (204, 204, 288, 289)))


def check_steps():
    """Known numbers of steps, for lengths that are cut evenly and others, and of 0."""
    blocks = (PRODUCT, LU, SOLVE.replace("Q", "unitlower"), SOLVE.replace("Q", "upper"))
    assert all(tuple(STEPS[block](p, p, p) for block in blocks) == known for p, known in STEP_ROWS)
    for block, known in STEPS.items():
        made = read_job(scan(b"flame 1\nmodulus 7\n" + block.encode())).operations[0]
        for parts in cartesian((0, 1, 2, 3, 8), repeat=len(made.dims)):
            shapes = [tuple(max(2 * parts[dim] - short, 0) for dim in (operand.rows, operand.cols))
                      for operand in made.operands() for short in (sum(parts) % 2,)]
            job = Job(7, matrices=[Matrix.zero(*shape) for shape in shapes])
            statement = Statement(made, 0, list(range(1, len(shapes))))
            p, q, r = (*parts, 0, 0)[:3]
            assert step_count(job, statement, 2) == known(p, q, r), (block, parts)


def bare_operations():
    """Every operation without terms but those of the form `X = W`, up to names: each structure and prime of T and of U, each
    structure of W, and a W of one dimension or of two."""
    for form, t, primed, work in cartesian(("left", "right"), TRIANGULAR, (False, True), (None, *WORK_STRUCTURES)):
        side = 0 if form == "left" or work else 1
        yield Operation("q", ["n", "m"][:1 if work else 2], Operand("W", work or "general", 0, 0 if work else 1),
                        [Operand("T", t, side, side)], form, t=Factor(0, primed))
    for t, primed, u, also_primed, cols in cartesian(TRIANGULAR, (False, True), TRIANGULAR, (False, True), (0, 1)):
        yield Operation("q", ["n", "m"][:cols + 1], Operand("W", "general", 0, cols),
                        [Operand("T", t, 0, 0), Operand("U", u, cols, cols)], "sylvester",
                        t=Factor(0, primed), u=Factor(1, also_primed))
    yield Operation("q", ["n"], Operand("W", "general", 0, 0), [], "lu")
    yield Operation("q", ["n"], Operand("W", "lower", 0, 0), [], "ldl")


def check_no_empty_family():
    """Each operation has a variant. Without terms that is tried on all of them. Terms change nothing: put all terms of each
    block with its solve into a set that keeps the rules, and it keeps them. For `X = R` the tasks that are done on all sides
    are such a set. So nothing is refused for want of variants where none is named."""
    assert all(family_of(made).at(1) for made in bare_operations())
    rng = random.Random(4)
    assert all(family_of(operation(rng, "q", FORMS[number % len(FORMS)])).at(1) for number in range(300))


def check_issue():
    """By each of some variants the steps of a statement are the one of its pivots and then all its tasks, each once and
    behind those that it needs; and the direct edges that are found block by block are those of all pairs."""
    for number in range(10):
        rng = random.Random(f"issue:{number}")
        job = chain_job(rng, 101, (3, 4, 5), 0.1, 0.6)
        for block in (1, 2, 3):
            chosen = chosen_variants(job, numbers_of(job, number, rng))
            steps = issue(job, block, chosen)
            for at, statement in enumerate(job.statements, 1):
                made = statement.operation
                own = [step.task for step in steps if step.statement == at]
                first, rest = own[:has_pivots(made)], own[has_pivots(made):]
                every = tasks(made, part_counts(job, statement, block))
                assert first == [None] * len(first) and sorted(rest) == sorted(every)
                if len(rest) < 100:
                    assert not any(needs(made, a, b) for place, a in enumerate(rest) for b in rest[place:])
            assert [step.statement for step in steps] == sorted(step.statement for step in steps)
            use = accesses(job, block, steps)
            assert not any(one.write in one.reads for one in use)
            if len(use) < 250:
                assert edges_by_pairs(use) == edges_by_blocks(use)


def check_replay():
    """A job that is done by its steps, of which each sees just the blocks that it is said to read, comes to what it means,
    by any variants and under any block size."""
    for number in range(12):
        rng = random.Random(f"replay:{number}")
        job = chain_job(rng, rng.choice(GREAT_PRIMES), rng.choice(((3,), (4, 5), (2, 3, 6))), 0, 0.6)
        for block in (1, 2, 3):
            replay = Replay(job, block)
            replay.run(issue(job, block, chosen_variants(job, numbers_of(job, number, rng))))
            assert replay.cells == [matrix.cells for matrix in meaning(job)]


def check_edges():
    """Direct edges of lists of steps on a few blocks."""
    def found(*steps):
        use = [Access(write, frozenset(reads)) for write, reads in steps]
        assert edges_by_pairs(use) == edges_by_blocks(use)
        return {pair: " ".join(kinds) for pair, kinds in edges_by_pairs(use).items()}

    assert found(("a", ""), ("b", "a"), ("a", "b")) == {(1, 2): "flow", (1, 3): "output", (2, 3): "flow anti"}
    assert found(("a", ""), ("a", ""), ("b", "a"), ("c", "a"), ("a", "")) == {
        (1, 2): "output", (2, 3): "flow", (2, 4): "flow", (2, 5): "output", (3, 5): "anti", (4, 5): "anti"}
    assert found(("b", "a"), ("a", ""), ("a", ""), ("c", "ab")) == {
        (1, 2): "anti", (1, 4): "flow", (2, 3): "output", (3, 4): "flow"}
    assert found(("a", "b"), ("b", "a"), ("a", "b")) == {(1, 2): "flow anti", (1, 3): "output", (2, 3): "flow anti"}
    assert found(("a", "c"), ("b", "c")) == {} == found()
    for number in range(60):
        rng = random.Random(f"edges:{number}")
        blocks = "abcdefg"[:rng.randrange(1, 8)]
        steps = [(rng.choice(blocks), rng.sample(blocks, rng.randrange(min(4, len(blocks) + 1)))) for _ in range(40)]
        found(*((write, set(reads) - {write}) for write, reads in steps))


def check_traces():
    """Known numbers of steps and edges, and the kinds of the edges."""
    def trace(data, block, numbers):
        job = read_job(scan(data))
        steps = issue(job, block, chosen_variants(job, numbers))
        edges = edges_by_pairs(accesses(job, block, steps))
        return len(steps), len(edges), [kind for kinds in edges.values() for kind in kinds]

    shapes = {"A": (2, 2), "B": (2, 2), "C": (2, 2), "D": (2, 1), "E": (1, 2)}
    data = text(MUL, *(matrix(name, *shape) for name, shape in shapes.items()), "do mul C A B\ndo mul A D E\n")
    count, edges, kinds = trace(data, 1, None)
    assert (count, edges, kinds.count("anti"), kinds.count("output"), kinds.count("flow")) == (12, 12, 8, 4, 0)
    for rows, block, known in ((4, 2, (5, 5)), (3, 2, (5, 5)), (3, 1, (14, 21))):
        assert trace(text(LU, identity("A", rows), "do lu A\n"), block, [5])[:2] == known


def check_sums():
    """What `selfrun` prints is what the meaning of the job that `make` prints comes to; known numbers of steps."""
    rng = random.Random(5)
    for number in range(40):
        n, m = rng.randrange(9), rng.choice((2, 3, 6, 101, 65537, 4294967291, 4294967295))
        job = read_job(scan(generated_text(n, m, number * 7919).encode("ascii")))
        matrices = meaning(job)
        assert matrices[1].cells == job.matrices[0].cells
        assert sums(n, m, number * 7919) == tuple(sum(map(sum, matrices[at].cells)) % m for at in job.prints)
    outputs = [due(["selfrun", "256", "4294967291", "1", "--block", block, "--workers", "1"], b"", WHOLE)[1].split(b"\n")
               for block in ("32", "64")]
    assert [lines[1] for lines in outputs] == [b"tasks 985", b"tasks 141"] and outputs[0][2:] == outputs[1][2:]


def check_operations():
    """A printed operation is read as the same one."""
    rng = random.Random(2)
    for number in range(200):
        made = operation(rng, "q", FORMS[number % len(FORMS)])
        read = read_job(scan(b"flame 1\nmodulus 7\n" + plain(operation_rows(made)))).operations
        assert read == [made], plain(operation_rows(made))


def check_kept():
    """The reference answers every kept case as its folder says, with everything built that it needs."""
    for path in sorted((HERE / "cases").glob("*/status")):
        case, status, output = load(path.parent)
        built = WHOLE if WHOLE.meets(case.needs) else BUILT
        found = due(case.words, case.data, built)
        assert not built.meets(case.needs) or found == (status, output), (case.name, found, status, output)


if __name__ == "__main__":
    for check in (check_kept, check_families, check_searches, check_rules, check_steps, check_no_empty_family, check_issue,
                  check_replay, check_edges, check_traces, check_sums, check_operations):
        check()
    print("the reference agrees with what is known beforehand")
