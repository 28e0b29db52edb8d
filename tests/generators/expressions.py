"""Cases of `pme`: operations of each form, structure, prime and sign along their splits, and what is refused."""

from case import Case
from reference.families import splits

from .blocks import LOW
from .families import OPERATIONS, operation_text
from .grids import products, solves, sylvester, two_terms, with_terms
from .limits import INPUT_LIMIT, LU, MUL, text
from .operations import operation_rows
from .spelling import plain
from .variants import INV, LDL, SYL

SQR = "operation sqr\ndims n k\nwork W lower n n\nknown A general n k\nequation X = W + A * A'\nend\n"
SYM = ("operation sym\ndims n m\nwork W general n m\nknown A symmetric n n\nknown B general n m\n"
       "equation X = W + A * B\nend\n")
ULOW = "operation ulow\ndims n m\nwork W general n m\nknown T unitlower n n\nequation T * X = W\nend\n"
UPP = "operation upp\ndims n m\nwork W general n m\nknown T upper n n\nequation T * X = W\nend\n"
PROD = ("operation prod\ndims n\nwork W general n n\nknown L unitlower n n\nknown U upper n n\n"
        "equation X = W + L * U\nend\n")
PLAIN = "operation plain\ndims m n\nwork W general m n\nequation X = W\nend\n"
MINUS = SYL.replace("operation syl", "operation minus").replace("T * X + X", "T * X - X")
# The operations by their names, each with its dimensions in declared order.
NAMED = {"mul": (MUL, "mnk"), "lu": (LU, "n"), "ldl": (LDL, "n"), "low": (LOW, "nm"), "ulow": (ULOW, "nm"), "upp": (UPP, "nm"),
         "inv": (INV, "n"), "syl": (SYL, "mn"), "minus": (MINUS, "mn"), "sqr": (SQR, "nk"), "prod": (PROD, "n"),
         "sym": (SYM, "nm"), "plain": (PLAIN, "mn")}
ALL = "".join(block for block, _ in NAMED.values())
LONG = "q" * 32


def grid_operations():
    """Each structure and prime in each form, named by their numbers."""
    groups = (products(), two_terms(), solves(), sylvester(False), sylvester(True), with_terms())
    for number, (made, _) in enumerate(one for group in groups for one in group):
        made.name = f"q{number}"
        yield made


def pme_case(name, made, split, rows):
    """The case of an operation along a split, in a text of these rows."""
    dims = [made.dims[dim] for dim in split]
    return Case(f"pme: {name} along {' '.join(dims)}", ["pme", made.name, *dims], text(plain(rows).decode("ascii")))


def grid_pme_cases():
    """Each operation with the one before it in its text: along all splits, or of a Sylvester equation along one in turn."""
    before = []
    for number, made in enumerate(grid_operations()):
        rows, every = operation_rows(made), splits(made)
        for split in [every[number % 3]] if made.form == "sylvester" else every:
            yield pme_case(f"grid {number}", made, split, before + rows)
        before = rows


def named_pme_cases():
    """The named operations in one text: along each two names of dimensions, in both orders, and twice the same."""
    for name, (_, dims) in NAMED.items():
        for first in (*dims, "x"):
            yield Case(f"pme: {name} {first}", ["pme", name, first], text(ALL))
            for second in (*dims, "x"):
                yield Case(f"pme: {name} {first} {second}", ["pme", name, first, second], text(ALL))


def great_pme_cases():
    """Operations of four dimensions and of two terms, along each pair of them."""
    for number, (name, parts) in enumerate(OPERATIONS.items()):
        dims = parts[0].split()
        data = text(operation_text(f"q{number}", *parts))
        for at, first in enumerate(dims):
            for second in ((), *((dim,) for dim in dims[at + 1:])):
                yield Case(f"pme: {name} along {' '.join((first, *second))}", ["pme", f"q{number}", first, *second], data)


def refused_pme_cases():
    """Operations and dimensions that aren't there, also beside each other and beside faults of the text."""
    names = {"no such operation": ("qr", "n"), "a dimension of another operation": ("lu", "m"), "other letters": ("LU", "n"),
             "an operand": ("lu", "W"), "the solution": ("lu", "X"), "neither": ("qr", "q"), "a word": ("lu", "end"),
             "a structure": ("lu", "general"), "two of another operation": ("lu", "m", "k")}
    for name, words in names.items():
        yield Case(f"pme: {name}", ["pme", *words], text(ALL))
    yield Case("pme: no operations", ["pme", "lu", "n"], text())
    yield Case("pme: an empty input", ["pme", "lu", "n"], b"")
    for name, data in (("a fault", text(ALL, "do lu A\n")), ("a bad byte", text(ALL, "@\n")), ("a worksheet", text(
            ALL, "worksheet lu\n")), ("no line feed", text(LU)[:-1]), ("no end", text(LU)[:-4])):
        for words in (("lu", "n"), ("qr", "n"), ("lu", "q")):
            yield Case(f"pme: {' '.join(words)} and {name}", ["pme", *words], data)
    yield Case("pme: too long", ["pme", "qr", "n"], lambda: b" " * (INPUT_LIMIT + 1))


def long_pme_cases():
    """Names of 32 bytes, and words as names."""
    block = (f"operation {LONG}\ndims {LONG} d{LONG[:31]}\nwork {LONG} general {LONG} d{LONG[:31]}\n"
             f"known a{LONG[:31]} lower {LONG} {LONG}\nknown b{LONG[:31]} symmetric d{LONG[:31]} d{LONG[:31]}\n"
             f"known c{LONG[:31]} general d{LONG[:31]} {LONG}\n"
             f"equation a{LONG[:31]}' * X = {LONG} - c{LONG[:31]}' * b{LONG[:31]} + c{LONG[:31]}' * b{LONG[:31]}'\nend\n")
    yield Case("pme: long names", ["pme", LONG, LONG, f"d{LONG[:31]}"], text(block))
    yield Case("pme: a name too long", ["pme", LONG, f"dd{LONG[:31]}"], text(block))
    words = ("operation end\ndims split pme\nwork inv general split pme\nknown lu unitupper split split\n"
             "known ldl diagonal pme pme\nequation lu * X - X * ldl' = inv\nend\n")
    yield Case("pme: words as names", ["pme", "end", "split", "pme"], text(words))


def pme_cases(built):
    """All cases of `pme`, where it is built."""
    if built.pme:
        for group in (named_pme_cases, grid_pme_cases, great_pme_cases, refused_pme_cases, long_pme_cases):
            yield from group()
