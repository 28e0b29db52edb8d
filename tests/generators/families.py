"""Operations with great families, one of each form, and of as many dimensions as an equation can use.

An equation of two terms uses at most four dimensions, and each that is declared has to be used: so an operation of five
or six is refused, which `limits.py` has a case of.
"""

from case import Case

from .limits import text

# The dimensions, the structure and dimensions of W, the known operands, and the equation. All but that of `ldl` have
# more than 100 variants, and of each other form but `assign` one has more than 300.
OPERATIONS = {
    "assign of four dimensions": (
        "m n k l", "general m n", ("A general m k", "B general k n", "C general l m", "D general l n"),
        "X = W + A * B - C' * D"),
    "left": (
        "n k", "general n n",
        ("T diagonal n n", "A unitupper n n", "B general n n", "C general k n", "D general k n"),
        "T' * X = W + A * B' + C' * D"),
    "left of four dimensions": (
        "n m k l", "general n m", ("T lower n n", "A general n k", "B general k m", "C general n l", "D general l m"),
        "T * X = W + A * B - C * D"),
    "right": (
        "n k", "general n n",
        ("T diagonal n n", "A unitupper n n", "B general n n", "C general k n", "D general k n"),
        "X * T' = W + A * B' + C' * D"),
    "right of four dimensions": (
        "n m k l", "general n m", ("T upper m m", "A general n k", "B general k m", "C general n l", "D general l m"),
        "X * T = W - A * B + C * D"),
    "sylvester": (
        "m n k", "general m n",
        ("T upper m m", "U lower n n", "A general m k", "B general k n", "C symmetric m m", "D general m n"),
        "T * X + X * U = W + A * B - C * D"),
    "lu": (
        "n k", "general n n", ("A general n n", "B general n n", "C general n k", "D general n k"),
        "lu X = W + A * B - C * D'"),
    "ldl": (
        "n k", "lower n n", ("A general n n", "B general n n", "C general k n", "D general k n"),
        "ldl X = W - A * B - C' * D"),
}


def operation_text(name, dims, work, knowns, equation):
    """The text of an operation block."""
    lines = [f"operation {name}", f"dims {dims}", f"work W {work}", *(f"known {known}" for known in knowns),
             f"equation {equation}", "end"]
    return "\n".join(lines) + "\n"


def family_cases():
    """Each operation by itself, and all of them in one text."""
    texts = []
    for number, (name, parts) in enumerate(OPERATIONS.items()):
        texts.append(operation_text(f"q{number}", *parts))
        yield Case(f"family: {name}", ["derive"], text(texts[-1]))
    yield Case("family: all of them", ["derive"], text(*texts))
