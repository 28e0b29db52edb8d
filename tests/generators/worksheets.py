"""Cases of `worksheet` and `check`: worksheets of named operations and of each structure, and what a check says of them when
they are changed, cut or spelled otherwise."""

import random
from functools import cache
from itertools import permutations, product as cartesian

from case import Case
from reference.issue import family_of
from reference.job_text import read_job
from reference.scanner import scan, tokens_of
from reference.tasks import tasks
from reference.worksheet_text import worksheet_text
from reference.worksheets import made

from .expressions import ALL, NAMED, grid_operations
from .families import OPERATIONS, operation_text
from .limits import INPUT_LIMIT, LU, text
from .operations import operation_rows
from .sheets import any_task, changed, copied, near_task, sheet_rows, undone_sets
from .spelling import Row, plain, spelled

GREATEST = 4_294_967_295
# Worksheets that are changed in each way: an operation's name and a variant.
LINES = (("lu", 5), ("ldl", 2), ("low", 12), ("syl", 20), ("mul", 30), ("inv", 4), ("minus", 17), ("plain", 1))
# So many random changes of each of them.
CHANGED = 20


@cache
def named_operations():
    """The named operations as values."""
    return {made.name: made for made in read_job(scan(text(ALL))).operations}


def sheet_of(name, number):
    """A named operation and the worksheet of one of its variants."""
    operation = named_operations()[name]
    return operation, made(operation, family_of(operation).at(number))


def behind(block, sheet):
    """The text of an operation and a worksheet, both as text."""
    return text(block) + (sheet if isinstance(sheet, bytes) else sheet.encode("ascii"))


def block_of(operation):
    """The text of an operation."""
    return plain(operation_rows(operation)).decode("ascii")


def checked(name, operation, sheet):
    """The case of a check of a worksheet, without comments."""
    return Case(f"check: {name}", ["check"], behind(block_of(operation), plain(sheet_rows(operation, sheet))))


def worksheet_cases(built):
    """All cases of `worksheet`, where it is built."""
    if not built.worksheet:
        return
    for name, operation in named_operations().items():
        count = family_of(operation).count()
        for number in (*range(1, count + 2), GREATEST):
            yield Case(f"worksheet: {name} {number}", ["worksheet", name, str(number)], text(ALL))
    for number, operation in enumerate(grid_operations()):
        if operation.form != "sylvester" or number % 3 == 0:
            chosen = 1 + 7 * number % family_of(operation).count()
            yield Case(f"worksheet: grid {number}, {chosen}", ["worksheet", operation.name, str(chosen)],
                       text(block_of(operation)))
    for number, (name, parts) in enumerate(OPERATIONS.items()):
        for chosen in (1, 90, 300):
            yield Case(f"worksheet: {name} {chosen}", ["worksheet", f"q{number}", str(chosen)],
                       text(operation_text(f"q{number}", *parts)))
    yield from refused_worksheet_cases()


def refused_worksheet_cases():
    """Operations and variants that aren't there, also beside each other and beside faults of the text."""
    for name in ("qr", "LU", "W", "X", "end"):
        for number in (1, GREATEST):
            yield Case(f"worksheet: no operation {name}, {number}", ["worksheet", name, str(number)], text(ALL))
    for name, data in (("a fault", text(ALL, "do lu A\n")), ("a bad byte", text(ALL, "@\n")), ("no end", text(LU)[:-4]),
                       ("a worksheet", behind(LU, worksheet_text(*sheet_of("lu", 5)))), ("no line feed", text(LU)[:-1]),
                       ("no operation", text()), ("nothing", b"")):
        for words in (("lu", "5"), ("lu", "6"), ("qr", "1")):
            yield Case(f"worksheet: {' '.join(words)} and {name}", ["worksheet", *words], data)
    yield Case("worksheet: too long", ["worksheet", "qr", "1"], lambda: b" " * (INPUT_LIMIT + 1))


def check_cases(built):
    """All cases of `check`, each once, where it is built."""
    if not built.check:
        return
    inputs = set()
    for group in (right_cases, cut_cases, line_cases, token_cases, set_cases, update_cases, state_cases, changed_cases,
                  spelled_cases, other_cases, number_cases):
        for case in group():
            if case.data not in inputs:
                yield case
            inputs.add(case.data)


def right_cases():
    """Printed worksheets: of the named operations, of each structure, and great ones."""
    for name, operation in named_operations().items():
        for number in range(1, family_of(operation).count() + 1, 2):
            yield Case(f"check: {name} {number}", ["check"], behind(ALL, worksheet_text(*sheet_of(name, number))))
    for number, operation in enumerate(grid_operations()):
        if number % 5 == 0:
            variant = family_of(operation).at(1 + number % 7) or family_of(operation).made[-1]
            yield Case(f"check: grid {number}", ["check"], behind(
                block_of(operation), worksheet_text(operation, made(operation, variant))))
    for number, (name, parts) in enumerate(OPERATIONS.items()):
        block = operation_text(f"q{number}", *parts)
        operation = read_job(scan(text(block))).operations[0]
        variant = family_of(operation).at(110) or family_of(operation).made[-1]
        yield Case(f"check: {name}", ["check"], behind(block, worksheet_text(operation, made(operation, variant))))


def cut_cases():
    """A worksheet that is cut in front of and behind each token, each line feed and each comment's sign."""
    for name, number, block in (("lu", 5, LU), ("syl", 20, NAMED["syl"][0])):
        printed = worksheet_text(*sheet_of(name, number))
        data = behind(block, printed)
        start = len(text(block))
        places = [at for at in range(start, len(data) + 1) if is_place(data, at, name == "lu")]
        for at in places:
            yield Case(f"check: {name} cut at {at - start}", ["check"], data[:at])
            if data[at - 1:at] == b"\n" and name == "lu":
                yield Case(f"check: {name} cut at {at - start} with a comment", ["check"], data[:at] + b" # end")
                yield Case(f"check: {name} without what is behind {at - start}", ["check"], data[:at] + b"end\n")


def is_place(data, at, with_tokens):
    """Whether a text is cut here: at a line feed or, with tokens, at the end of a token that isn't in a comment."""
    if data[at - 1:at] == b"\n" or data[at:at + 1] in (b"\n", b""):
        return True
    comment = b"#" in data[data.rindex(b"\n", 0, at) + 1:at]
    around = data[at - 1:at + 1]
    is_inner = all(chr(byte).isalnum() for byte in around)
    return with_tokens and not comment and not is_inner and not around.startswith(b" ")


def line_cases():
    """Each line of some worksheets dropped, doubled, exchanged with the next one, or moved to the end."""
    for name, number in LINES:
        operation, sheet = sheet_of(name, number)
        rows, block = sheet_rows(operation, sheet), block_of(operation)
        every = rows if name in ("lu", "low") else rows[1:8] + random.Random(name).sample(rows[8:], min(6, len(rows) - 8))
        for at, row in enumerate(rows):
            if row not in every:
                continue
            rest = rows[:at] + rows[at + 1:]
            changes = {"dropped": rest, "doubled": rows[:at] + rows[at:at + 1] + rows[at:],
                       "exchanged": rows[:at] + rows[at:at + 2][::-1] + rows[at + 2:]}
            if name == "lu":
                changes |= {"moved": rest[:-1] + [row, rest[-1]], "last": rest + [row]}
            for what, lines in changes.items():
                yield Case(f"check: {name} {number}, line {at + 1} {what}", ["check"], behind(block, plain(lines)))


def token_cases():
    """Each token of the lines of a worksheet dropped, doubled, or changed into others."""
    operation, sheet = sheet_of("low", 20)
    rows, block = sheet_rows(operation, sheet), block_of(operation)
    chosen = [at for at, row in enumerate(rows) if rows[at - 1].role != row.role or not at]
    for at in chosen:
        tokens = rows[at].tokens
        for spot, token in enumerate(tokens):
            others = {"digit": ("3", "02"), "sign": ("+",), "word": (token + "s", "m", "x" * 33)}
            kind = "digit" if token.isdigit() else "word" if token[0].isalpha() else "sign"
            for what, near in (("dropped", ()), ("doubled", (token, token)), *((other, (other,)) for other in others[kind])):
                row = Row(rows[at].role, *tokens[:spot], *near, *tokens[spot + 1:])
                lines = rows[:at] + ([row] if row.tokens else []) + rows[at + 1:]
                yield Case(f"check: low 20, line {at + 1}, token {spot + 1} {what[:9]}", ["check"], behind(block, plain(lines)))


def set_cases():
    """Each set of tasks as the invariant of lu, and where that is few those of other operations that keep all rules but the
    last; also out of order and with tasks that aren't there."""
    operation, sheet = sheet_of("lu", 3)
    two = tasks(operation, [2])
    for number in range(2 ** len(two)):
        other = copied(sheet)
        other.invariant = [task for at, task in enumerate(two) if number >> at & 1]
        yield checked(f"lu, set {number}", operation, other)
    rng = random.Random("sets")
    for name, operation in named_operations().items():
        family = family_of(operation)
        for number in range(1, family.count() + 1, 3):
            sheet = copied(made(operation, family.at(number)))
            if len(sheet.invariant) > 1:
                at = rng.randrange(len(sheet.invariant) - 1)
                other = copied(sheet)
                other.invariant[at:at + 2] = other.invariant[at + 1], other.invariant[at]
                yield checked(f"{name} {number}, tasks {at + 1} and {at + 2} exchanged", operation, other)
            sheet.invariant.insert(rng.randrange(len(sheet.invariant) + 1), any_task(rng, operation, 3))
            yield checked(f"{name} {number}, a task more", operation, sheet)
    for name, number in (("low", 5), ("syl", 5), ("minus", 8), ("low", 18), ("syl", 20)):
        operation, sheet = sheet_of(name, number)
        for at, kept in enumerate(undone_sets(operation, sheet)[:8]):
            other = copied(sheet)
            other.invariant = kept
            yield checked(f"{name} {number}, undone set {at}", operation, other)


def update_cases():
    """Updates in each order, where they are few, and with a task more, less or twice."""
    for name, number in (("lu", 5), ("ldl", 2), ("low", 9), ("inv", 4)):
        operation, sheet = sheet_of(name, number)
        for at, order in enumerate(list(permutations(sheet.updates))[:60]):
            other = copied(sheet)
            other.updates = list(order)
            yield checked(f"{name} {number}, order {at} of updates", operation, other)
    rng = random.Random("updates")
    for name, number in (*LINES, ("lu", 1), ("sqr", 4), ("sym", 9), ("prod", 3)):
        operation, sheet = sheet_of(name, number)
        for at in range(len(sheet.updates) + 1):
            inner, behind_it = sheet.updates[:at], sheet.updates[at:]
            doubled = inner + inner[-1:] + behind_it
            cases = {"less": inner, "twice": doubled, "dropped": inner + behind_it[1:],
                     "more": inner + [any_task(rng, operation, 3)] + behind_it,
                     "renamed": inner + [near_task(rng, task) for task in behind_it[:1]] + behind_it[1:]}
            for what, updates in cases.items():
                other = copied(sheet)
                other.updates = updates
                yield checked(f"{name} {number}, update {at + 1} {what}", operation, other)


def state_cases():
    """Each line of a state dropped, doubled or with other tasks, none of them or those of the other state."""
    for name, number in (("lu", 5), ("syl", 20), ("sqr", 2)):
        operation, sheet = sheet_of(name, number)
        for lines, at in cartesian(("before", "after"), range(len(sheet.before))):
            found = getattr(sheet, lines)
            line, other_line = found[at], getattr(sheet, "after" if lines == "before" else "before")[at]
            cases = {"dropped": [], "doubled": [line, line], "empty": [line._replace(done=[])], "turned": [
                line._replace(row=line.col, col=line.row)], "of the other state": [other_line],
                "backwards": [line._replace(done=line.done[::-1])], "short": [line._replace(done=line.done[:-1])],
                "long": [line._replace(done=line.done + line.done[:1])]}
            for what, put in cases.items():
                other = copied(sheet)
                getattr(other, lines)[at:at + 1] = put
                yield checked(f"{name} {number}, {lines} {at + 1} {what}", operation, other)


def changed_cases():
    """Worksheets with one, two or three changes of any kind, by a seed."""
    for name, number in (*LINES, ("mul", 1), ("low", 21), ("low", 22), ("syl", 24), ("sym", 20), ("upp", 22), ("prod", 6)):
        operation, sheet = sheet_of(name, number)
        for turn in range(CHANGED):
            rng = random.Random(f"{name}:{number}:{turn}")
            yield checked(f"{name} {number}, changes {turn}", operation, changed(rng, operation, sheet, 1 + turn % 3))


def commented(rng, printed):
    """Printed text with its comments changed, tokens apart or together, and lines without tokens."""
    rows = [Row("line", *tokens_of(line, 1)) for line in printed.encode("ascii").split(b"\n")]
    return spelled(rng, [row for row in rows if row.tokens])


def spelled_cases():
    """Worksheets with other blanks, comments and empty lines."""
    for turn, (name, number) in enumerate((*LINES, *LINES, *LINES)):
        operation, sheet = sheet_of(name, number)
        rng = random.Random(f"spelled:{turn}")
        sheet = changed(rng, operation, sheet, turn // len(LINES))
        printed = plain(sheet_rows(operation, sheet)).decode("ascii")
        yield Case(f"check: {name} {number}, spelled {turn}", ["check"],
                   commented(rng, text(ALL).decode("ascii") + printed) if turn % 2 else behind(ALL, commented(rng, printed)))


def other_cases():
    """A worksheet of another operation or variant, one that isn't there, two of them, and faults of the job beside those of the
    worksheet."""
    lu = worksheet_text(*sheet_of("lu", 5))
    for name in ("ldl", "low", "syl", "prod", "qr", "lu"):
        yield Case(f"check: that of lu for {name}", ["check"], behind(ALL, lu.replace("worksheet lu", f"worksheet {name}")))
    for first, second in cartesian(range(1, 6), repeat=2):
        lines, others = (worksheet_text(*sheet_of("lu", number)).split("\n") for number in (first, second))
        yield Case(f"check: lu, invariant {first} over {second}", ["check"], behind(LU, "\n".join(lines[:6] + others[6:])))
    job = "matrix A 1 1\n3\nend\ndo lu A\nprint A\n"
    texts = {
        "no worksheet": text(LU), "no worksheet, no line feed": text(LU)[:-1], "nothing": b"", "an empty worksheet": behind(
            LU, "worksheet"), "a bare worksheet": behind(LU, "worksheet\n"), "no operation": behind("", lu), "two": behind(
            LU, lu + lu), "a job behind": behind(LU, lu + job), "a whole job": behind(LU + job, lu),
        "a line behind": behind(LU, lu + "x\n"), "a comment behind": behind(LU, lu + "# x\n \n"), "a byte behind": behind(
            LU, lu + "@"), "a byte in a comment": behind(LU, lu.replace("# 1a", "# @")), "a byte": behind(
            LU, lu.replace("split n", "split n @")), "a fault of the job": behind(LU + "do lu A\n", lu.replace("guard n", "x")),
        "a cut job": behind(LU[:-4], lu), "a cut block": behind(LU + "matrix A 1 1\n", lu), "a cut row": behind(
            LU + "matrix A 1 1\n3\n", "x" + lu), "a name of a matrix": behind(LU + "matrix worksheet 0 0\nend\n", lu),
        "an operation worksheet": behind(LU.replace("operation lu", "operation worksheet"), lu.replace(
            "worksheet lu", "worksheet worksheet")), "a word before": behind(LU, "x " + lu), "other letters": behind(
            LU, lu.replace("worksheet", "Worksheet")), "a modulus of 1": b"flame 1\nmodulus 1\n" + lu.encode("ascii"),
        "no header": lu.encode("ascii"), "the header alone": b"flame 1\n" + lu.encode("ascii")}
    for name, data in texts.items():
        yield Case(f"check: {name}", ["check"], data)
    yield Case("check: too long", ["check"], lambda: b" " * (INPUT_LIMIT + 1))
    yield Case("check: a long worksheet", ["check"], lambda: behind(LU, lu + "#" * 1_000_000))
    yield Case("check: many lines", ["check"], behind(LU, lu.replace("give", "update solve(1,1)\n" * 5000 + "give")))
    yield Case("check: many states", ["check"], behind(LU, lu.replace("update solve(1,1)", "before 2 2 :\n" * 5000)))
    yield Case("check: many tasks", ["check"], behind(LU, lu.replace("invariant", "invariant" + " solve(0,0)" * 5000)))


def number_cases():
    """Indices on each side of their limits, tasks of other forms, and names and dimensions that aren't there."""
    lu = worksheet_text(*sheet_of("lu", 5))
    spellings = ("solve(0,3)", "solve(3,0)", "solve(0,00)", "solve(0)", "solve(0,0,0)", "left(1,1,3)", "left(1,1)", "pivots",
                 "term1(0,0,0)", "term2(0,0,0)", "term3(0,0,0)", "term(0,0,0)", "right(1,1,0)", "right(1,1)", "Solve(0,0)",
                 "solve (2 , 2)", "solve(2 2)", "solve((2,2))", "solve(2,2),", "solve", "solve 2 2", "solve(n,n)", "left(2,2,0)",
                 "term1(2,2,2)", "solve(2,18446744073709551618)", "solve(2,2) solve(2,1)", "")
    for at, spelled_task in enumerate(spellings):
        for line in ("invariant", "update", "before 2 2 :", "after 0 0 :"):
            first = next(one for one in lu.split("\n") if one.startswith(line))
            yield Case(f"check: task {at} in {line}", ["check"], behind(LU, lu.replace(first, f"{line} {spelled_task}")))
    places = ("3 0 :", "0 3 :", "00 0 :", "0 0", "0 0 : :", ": 0 0", "0 :", "0 0 0 :", "n n :", "0 , 0 :", "2 2 :", "")
    for at, place in enumerate(places):
        for line in ("before 0 0 :", "after 0 0 :"):
            word = line.split()[0]
            yield Case(f"check: place {at} in {word}", ["check"], behind(LU, lu.replace(line, f"{word} {place}", 1)))
    low, block = worksheet_text(*sheet_of("low", 12)), NAMED["low"][0]
    dims = ("n", "m", "n m", "m n", "n n", "m m", "k", "n k", "k n", "n m n", "")
    for at, names in enumerate(dims):
        yield Case(f"check: guard {at}", ["check"], behind(block, low.replace("guard n m", f"guard {names}")))
        for first, second in (("first", "last"), ("last", "first"), ("first", "first"), ("last", "last"), ("", "last"),
                              ("forward", "backward")):
            ends = " ".join(f"{name} {end}" for name, end in zip(names.split(), (first, second, "first")))
            for word in ("start", "take", "give"):
                line = next(one for one in low.split("\n") if one.startswith(word))
                yield Case(f"check: {word} {ends}", ["check"], behind(block, low.replace(line, f"{word} {ends}")))
            ways = ends.replace("first", "forward").replace("last", "backward")
            line = next(one for one in low.split("\n") if one.startswith("split"))
            yield Case(f"check: split {ways}", ["check"], behind(block, low.replace(line, f"split {ways}")))
