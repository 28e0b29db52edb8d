"""Bodies that err in steps, dependences, traces and generated jobs, or give up on them: see planted.py.

A body that prints another trace is refused by the cases in which it differs from the one that is due; these are looked for
among traces of few steps.
"""

from functools import cached_property

from reference.edges import KINDS, Access, accesses, edges_by_pairs, kinds_on
from reference.families import BACKWARD, FORWARD, counts_of
from reference.generated_job import OPERATIONS, STATEMENTS, Draws
from reference.issue import Step, chosen_variants, issue, issued, parts_after
from reference.matrix_text import matrix_text
from reference.model import Matrix
from reference.steps import part_counts
from reference.structures import UNIT
from reference.tasks import task_class, tasks
from reference.trace_text import trace_of
from reference.words import read_words

FEW_STEPS = 150


class Traced:
    """A run with the trace that it prints."""

    def __init__(self, seen):
        self.job = seen.job
        self.output = seen.output
        self.parts = read_words(seen.words).parts
        self.block = self.parts["block"]

    @cached_property
    def chosen(self):
        """The variants."""
        return chosen_variants(self.job, self.parts.get("variants"))

    @cached_property
    def steps(self):
        """The steps that are due."""
        return issue(self.job, self.block, self.chosen)

    @cached_property
    def use(self):
        """What each step reads and writes."""
        return accesses(self.job, self.block, self.steps)

    @cached_property
    def edges(self):
        """The direct edges that are due."""
        return edges_by_pairs(self.use)

    def prints_other(self, steps, edges):
        """Whether a body that prints these steps and edges errs."""
        return not self.output.endswith(trace_of(steps, edges).encode("ascii"))


def traced(seen):
    """The run of a case that prints a trace of few steps, or None."""
    has_trace = seen.status == 0 and seen.words[:1] == ["run"] and "--trace" in seen.words
    return Traced(seen) if has_trace and seen.output.count(b"\nstart ") <= FEW_STEPS else None


def by_edges(change):
    """A body that finds other edges: `change` makes them of the run."""
    def errs(seen):
        run = traced(seen)
        return run is not None and run.prints_other(run.steps, dict(sorted(change(run).items())))

    return errs


def by_steps(change):
    """A body that makes another list of steps: `change` makes it of the run."""
    def errs(seen):
        run = traced(seen)
        if run is None:
            return False
        steps = change(run)
        return run.prints_other(steps, edges_by_pairs(accesses(run.job, run.block, steps)))

    return errs


def by_reads(change):
    """A body in which steps read other blocks: `change` makes the blocks of a step, of the run, the step and its blocks."""
    return by_edges(lambda run: edges_by_pairs([
        Access(one.write, frozenset(change(run, step, one.reads))) for step, one in zip(run.steps, run.use)]))


def without_kind(kind):
    """The edges without one kind."""
    def change(run):
        kept = {pair: [other for other in kinds if other != kind] for pair, kinds in run.edges.items()}
        return {pair: kinds for pair, kinds in kept.items() if kinds}

    return by_edges(change)


def told_as(kind, other):
    """The edges with one kind told as another one."""
    def change(run):
        return {pair: [name for name in KINDS if name in {other if one == kind else one for one in kinds}]
                for pair, kinds in run.edges.items()}

    return by_edges(change)


def over_writes(run):
    """All conflicts, whether a step between them writes the block or not."""
    found = {}
    for s, first in enumerate(run.use, 1):
        for t, second in enumerate(run.use[s:], s + 1):
            kinds = {kind for block in (first.write, second.write) for kind in kinds_on(block, first, second)}
            if kinds:
                found[s, t] = [kind for kind in KINDS if kind in kinds]
    return found


def of_last_reader(run):
    """Of the steps that read a block before another writes it, the last one alone has an edge to that."""
    last = {}
    for (s, t), kinds in run.edges.items():
        if "anti" in kinds:
            last[t] = s
    return {(s, t): kinds for (s, t), kinds in run.edges.items() if kinds != ["anti"] or last[t] == s}


def to_first_reader(run):
    """Of the steps that read what one wrote, the first alone has an edge from it."""
    first = {}
    for (s, t), kinds in run.edges.items():
        if "flow" in kinds:
            first.setdefault(s, t)
    return {(s, t): kinds for (s, t), kinds in run.edges.items() if kinds != ["flow"] or first[s] == t}


def within_statements(run):
    """The edges within one statement."""
    return {(s, t): kinds for (s, t), kinds in run.edges.items()
            if run.steps[s - 1].statement == run.steps[t - 1].statement}


def reissued(run, order):
    """The steps of the run, with the tasks of each statement by `order`, a function of its operation, counts and variant."""
    steps = []
    for number, (statement, variant) in enumerate(zip(run.job.statements, run.chosen), 1):
        steps += [step for step in run.steps if step.statement == number and step.task is None]
        counts = part_counts(run.job, statement, run.block)
        steps += [Step(number, task) for task in order(statement.operation, counts, variant)]
    return steps


def by_order(order):
    """A body that lists the tasks of a statement by another order."""
    return by_steps(lambda run: reissued(run, order))


def unfinished(operation, counts, variant):
    """The tasks but those of the last iteration."""
    split, choice, kept = variant
    most = max(counts[dim] for dim in split)
    shorter = [min(count, most - 1) if dim in split else count for dim, count in enumerate(counts)]
    done = set(issued(operation, shorter, (split, choice, kept)))
    return [task for task in issued(operation, counts, variant) if task in done]


def forward_only(operation, counts, variant):
    """The tasks by the variant with all directions forward, where that lists them all."""
    split, choice, kept = variant
    if BACKWARD not in choice:
        return issued(operation, counts, variant)
    found = list(issued(operation, counts, (split, (FORWARD,) * len(split), kept)))
    return found + [task for task in tasks(operation, counts) if task not in found]


def one_dimension(operation, counts, variant):
    """The tasks by iterations that take all of the second split dimension at once."""
    split, choice, kept = variant
    if len(split) == 1:
        return issued(operation, counts, variant)
    coarse, kept = set(tasks(operation, counts_of(operation, split, 2))), set(kept)
    first = dict(zip(split[:1], choice))

    def in_set(iterations, task):
        def part_of(dim, index):
            if dim != split[1]:
                return parts_after(iterations, first, counts)(dim, index)
            return 0 if (choice[1] == FORWARD) == (iterations > 0) else 1

        return task_class(operation, coarse, task, part_of) in kept

    return [task for t in range(counts[split[0]]) for task in tasks(operation, counts)
            if in_set(t + 1, task) and not in_set(t, task)]


def backwards_within(operation, counts, variant):
    """The tasks of a statement with two neighbours of different blocks exchanged, the last two such."""
    found = list(issued(operation, counts, variant))
    for at in range(len(found) - 1, 0, -1):
        if (found[at].i, found[at].j) != (found[at - 1].i, found[at - 1].j):
            found[at - 1:at + 1] = [found[at], found[at - 1]]
            break
    return found


def without_pivots(_run, _step, reads):
    """The reads without lists of pivots."""
    return [block for block in reads if block[0] != "pivots"]


def without_unit_diagonals(run, step, reads):
    """The reads without the diagonal blocks of T and U of unit structure that a solve reads."""
    statement = run.job.statements[step.statement - 1]
    units = {number for operand, number in zip(statement.operation.knowns, statement.knowns) if operand.structure in UNIT}
    is_solve = step.task is not None and step.task.kind == "solve"
    return [block for block in reads if not (is_solve and block[0] in units)]


def unturned(structure):
    """The reads of factors of this structure, or of all that are primed, without turning the place."""
    def change(run, step, reads):
        statement = run.job.statements[step.statement - 1]
        turned = {number for operand, number in zip(statement.operation.knowns, statement.knowns)
                  if structure in (None, operand.structure)}
        if structure is None:
            factors = [factor for term in statement.operation.terms for factor in (term.first, term.second)]
            factors += [factor for factor in (statement.operation.t, statement.operation.u) if factor]
            turned = {statement.knowns[factor.known] for factor in factors if factor.primed}
        return [(block[0], block[2], block[1]) if block[0] in turned else block for block in reads]

    return by_reads(change)


def without_work(run, step, reads):
    """The reads without the blocks of the work matrix."""
    work = run.job.statements[step.statement - 1].work
    return [block for block in reads if block[0] != work]


def draws_on_the_diagonal(seen):
    """Whether a generator that draws for the diagonal of F errs."""
    if seen.words[:1] != ["make"] or seen.status != 0:
        return False
    n, m, seed = map(int, seen.words[1:])
    draws = Draws(seed, m)
    f, b = ([[draws.draw() for _ in range(n)] for _ in range(n)] for _ in range(2))
    for i in range(n):
        f[i][i] = 1
    matrices = "".join(matrix_text(name, Matrix(n, n, cells)) for name, cells in (("F", f), ("S", [[0] * n] * n), ("B", b)))
    return seen.output != f"flame 1\nmodulus {m}\n{OPERATIONS}{matrices}{STATEMENTS}".encode("ascii")


def prints_first(seen):
    """A body that prints matrices before it meets a bad pivot."""
    return seen.status == 4 and bool(seen.job.prints)


def given(seen):
    """The numbers of a run by variants that is done."""
    return read_words(seen.words).parts["variants"] if seen.does("run") and "--variants" in seen.words else []


def chosen_of(seen):
    """The variants of a run that is done."""
    return chosen_variants(seen.job, given(seen)) if given(seen) else []


def has_steps_in_trace(least):
    """A body that gives up on a trace of so many steps."""
    return lambda seen: seen.status == 0 and "--trace" in seen.words and seen.output.count(b"\nstart ") >= least


def has_size(command, least):
    """A body that gives up on a generated job of so many rows."""
    return lambda seen: seen.words[:1] == [command] and seen.status == 0 and int(seen.words[1]) >= least


def is_refused(kind, command):
    """A body that doesn't refuse this."""
    return lambda seen: seen.status == 3 and seen.words[:1] == [command] and seen.output.split()[1:2] == [kind]


STEP_BODIES = {
    "a trace without anti edges": without_kind("anti"),
    "a trace without output edges": without_kind("output"),
    "a trace without flow edges": without_kind("flow"),
    "an output edge told as flow": told_as("output", "flow"),
    "an anti edge told as output": told_as("anti", "output"),
    "edges over a step that writes between": by_edges(over_writes),
    "an anti edge from the last reader alone": by_edges(of_last_reader),
    "a flow edge to the first reader alone": by_edges(to_first_reader),
    "edges within one statement alone": by_edges(within_statements),
    "lists of pivots that no step reads": by_reads(without_pivots),
    "unit diagonal blocks that no solve reads": by_reads(without_unit_diagonals),
    "symmetric factors read at the place of the view": unturned("symmetric"),
    "primed factors read at the place of the transpose": unturned(None),
    "blocks of the work matrix that no step reads": by_reads(without_work),
    "a trace by variant 1": by_steps(lambda run: issue(run.job, run.block, chosen_variants(run.job, None))),
    "a trace in canonical order": by_order(lambda operation, counts, _: tasks(operation, counts)),
    "a trace that leaves out the last iteration": by_order(unfinished),
    "a backward split that takes the first part": by_order(forward_only),
    "a pair of dimensions that goes along the first alone": by_order(one_dimension),
    "tasks of one iteration in another order": by_order(backwards_within),
    "a trace without pivots": by_steps(lambda run: [step for step in run.steps if step.task is not None]),
    "a generator that draws for its diagonal": draws_on_the_diagonal,
    "matrices printed before a bad pivot": prints_first,
    "a trace of a run that fails": lambda seen: seen.status == 4 and "--trace" in seen.words,
    "another number of variants that isn't refused": is_refused(b"VariantCount", "run"),
    "a variant that isn't there": is_refused(b"NoVariant", "run"),
    "too many parts of a generated job": is_refused(b"TooManyParts", "selfrun"),
    "a variant above 100": lambda seen: max(given(seen), default=0) > 100,
    "16 variants": lambda seen: len(given(seen)) == 16,
    "a variant along two dimensions": lambda seen: any(len(split) == 2 for split, _, _ in chosen_of(seen)),
    "a backward variant": lambda seen: any(BACKWARD in choice for _, choice, _ in chosen_of(seen)),
    "a trace under blocks above 1": lambda seen: has_steps_in_trace(2)(seen) and seen.words[2] != "1",
    "a trace of no step": lambda seen: seen.status == 0 and b"\ntasks 0\n" in b"\n" + seen.output,
}
STEP_BODIES |= {f"a trace of {least} steps": has_steps_in_trace(least) for least in (100, 1000, 10_000, 262_144)}
STEP_BODIES |= {f"{command} of {least} rows": has_size(command, least)
                for command in ("make", "selfrun") for least in (0, 33, 129, 1024)}
STEP_BODIES |= {f"variants of the form {form}": (
    lambda seen, form=form: bool(given(seen)) and any(one.operation.form == form for one in seen.statements()))
    for form in ("assign", "left", "right", "sylvester", "lu", "ldl")}
