"""Texts with one or two faults: each function plants a fault of its kind into rows, where there is a place for it.

A planted fault isn't always the one that is due, since another line may have one before it; what is due is for the
reference to say. A function answers False where it found no place.
"""

from reference.structures import STRUCTURES

from .spelling import Row, WORDS, spelled

GREAT_NUMBERS = ("4294967296", "18446744073709551616", "18446744073709551617", "9" * 40)


def pick(rng, rows, *roles):
    """The place of a row of one of these roles, or None."""
    places = [at for at, row in enumerate(rows) if row.role in roles]
    return rng.choice(places) if places else None


def header(rng, rows):
    """The first line isn't `flame 1`."""
    if rng.random() < 0.3:
        rows.insert(0, Row("other", *rng.choice((["modulus", "7"], ["flame"], ["1"], ["do"]))))
    else:
        rows[0].tokens = rng.choice(
            (["flame", "2"], ["flame", "01"], ["flame"], ["flame", "1", "1"], ["Flame", "1"], ["flame", "1", "+"],
             ["flame", "one"], ["flame1"]))
    return True


def trailing_text(rng, rows):
    """A line that begins with no word of its section or a later one."""
    starts = [at for at, row in enumerate(rows) if row.role in ("operation", "matrix", "do", "print")]
    at = rng.choice(starts + [len(rows)])
    rows[at:at] = rng.choice((
        [Row("other", "modulus", "7")], [Row("other", "end")], [Row("other", "3")], [Row("other", "+")],
        [Row("other", "x" * 33)], [Row("other", "operation", "q")], [Row("other", "matrix", "q", "0", "0"),
         Row("other", "end")], [Row("other", "do", "q")], [Row("other", "Print", "q")], [Row("other", "known", "q")],
        [Row("other", "worksheet", "q")], [Row("other", "after", "q", "1", "1")], [Row("other", "equation")]))
    return True


def syntax(rng, rows):
    """A line isn't of its form, or another line is due."""
    at = rng.randrange(1, len(rows))
    tokens = rows[at].tokens
    spot = rng.randrange(len(tokens))
    change = rng.randrange(9)
    if change == 0:
        del tokens[spot]
    elif change == 1:
        tokens.insert(spot, tokens[spot])
    elif change == 2:
        tokens.insert(rng.randrange(len(tokens) + 1), random_token(rng))
    elif change == 3:
        tokens[spot] = random_token(rng)
    elif change == 4:
        tokens[spot] = ("0" if tokens[spot][0].isdigit() else "q" * 32) + tokens[spot]
    elif change == 5:
        tokens[-1] = "q" * rng.choice((32, 33, 34, 300))
    elif change == 6:
        other = rng.randrange(1, len(rows))
        rows[at], rows[other] = rows[other], rows[at]
    elif change == 7:
        rows.insert(at, rows[rng.randrange(1, len(rows))].copy())
    else:
        del rows[at]
    if at < len(rows) and not rows[at].tokens:
        del rows[at]
    return True


def random_token(rng):
    """Any token: a sign, a number, a word or a name."""
    return rng.choice(("(", ")", ",", ":", "=", "+", "-", "*", "'", "0", "1", "2", "00", "01", "7", "4294967296",
                       "A", "W", "x", "q" * 33, *WORDS, *STRUCTURES))


def modulus(rng, rows):
    """The modulus is out of its range."""
    at = pick(rng, rows, "modulus")
    if at is None:
        return False
    rows[at].tokens[1:] = [rng.choice(("0", "1", *GREAT_NUMBERS))]
    return True


def limit(rng, rows):
    """One operation, dimension, known operand, matrix or statement too many, or just as many as there may be."""
    return rng.choice((limit_operations, limit_dims, limit_knowns, limit_matrices, limit_statements))(rng, rows)


def limit_operations(rng, rows):
    first = pick(rng, rows, "operation")
    if first is None:
        return False
    last = next((at for at in range(first, len(rows)) if rows[at].role == "opend"), None)
    if last is None:
        return False
    count = sum(row.role == "operation" for row in rows)
    for number in range(rng.choice((16, 17, 17, 18)) - count):
        block = [row.copy() for row in rows[first:last + 1]]
        block[0].tokens[1:] = [f"more_{number}"]
        rows[last + 1:last + 1] = block
    return True


def limit_dims(rng, rows):
    at = pick(rng, rows, "dims")
    if at is None:
        return False
    while len(rows[at].tokens) < rng.choice((7, 8, 8)):
        rows[at].tokens.append(rng.choice((f"d{len(rows[at].tokens)}", rows[at].tokens[-1])))
    return True


def limit_knowns(rng, rows):
    at = pick(rng, rows, "work")
    if at is None or len(rows[at].tokens) < 5:
        return False
    count = next((n for n in range(len(rows) - at) if rows[at + n].role == "equation"), 1) - 1
    for number in range(rng.choice((6, 7, 7, 8)) - count):
        new = Row("known", "known", f"K{number}", *rows[at].tokens[2:])
        rows.insert(at + 1, new)
    return True


def limit_matrices(rng, rows):
    at = pick(rng, rows, "matend")
    if at is None:
        return False
    count = sum(row.role == "matrix" for row in rows)
    for number in range(rng.choice((32, 33, 33, 34)) - count):
        rows[at + 1:at + 1] = [Row("matrix", "matrix", f"more_{number}", "0", rng.choice("012")), Row("matend", "end")]
    return True


def limit_statements(rng, rows):
    at = pick(rng, rows, "do")
    if at is None:
        return False
    count = sum(row.role == "do" for row in rows)
    for _ in range(rng.choice((16, 17, 17, 18)) - count):
        rows.insert(at, rows[at].copy())
    return True


def name_twice(rng, rows):
    """A name stands a second time in its name space, or an operand is named X."""
    role = rng.choice(("operation", "dims", "known", "work", "matrix", "print"))
    at = pick(rng, rows, role)
    if at is None or len(rows[at].tokens) < 2:
        return False
    tokens = rows[at].tokens
    if role == "dims":
        tokens.append(tokens[1])
    elif role == "print":
        rows.insert(rng.choice((at, len(rows))), rows[at].copy())
    else:
        others = [row.tokens[1] for row in rows if row is not rows[at] and len(row.tokens) > 1
                  and row.role in (("known", "work") if role in ("known", "work") else (role,))]
        if role in ("known", "work"):
            others.append("X")
        if not others:
            return False
        tokens[1] = rng.choice(others)
    return True


def name_unknown(rng, rows):
    """A name that isn't declared above."""
    at = pick(rng, rows, "work", "known", "equation", "do", "print")
    if at is None:
        return False
    tokens = rows[at].tokens
    names = [spot for spot in range(1, len(tokens)) if tokens[spot][0].isalpha() and tokens[spot] not in STRUCTURES]
    if not names:
        return False
    spot = rng.choice(names)
    spaces = [token for row in rows for token in row.tokens if token[0].isalpha()]
    tokens[spot] = rng.choice((tokens[spot].swapcase(), "unknown", rng.choice(spaces)))
    return True


def too_many_terms(rng, rows):
    """A third term."""
    at = pick(rng, rows, "equation")
    if at is None:
        return False
    tokens = rows[at].tokens
    count = sum(token in "+-" for token in tokens[tokens.index("="):]) if "=" in tokens else 0
    names = [token for token in tokens[1:] if token[0].isalpha() and token != "X"] or ["q"]
    for _ in range(rng.choice((2, 3, 3, 4)) - count):
        tokens += [rng.choice("+-"), rng.choice(names), "*", rng.choice(names)]
    return True


def shape(rng, rows):
    """Dimensions that don't agree."""
    at = pick(rng, rows, "work", "known", "equation")
    if at is None:
        return False
    tokens = rows[at].tokens
    if rows[at].role == "equation":
        return changed_equation(rng, tokens)
    above = [row.tokens[1:] for row in rows[:at] if row.role == "dims"]
    if not above or not above[-1] or len(tokens) < 5:
        return False
    if rng.random() < 0.4:
        tokens[2] = rng.choice(STRUCTURES)
    else:
        tokens[rng.choice((3, 4))] = rng.choice(above[-1])
    return True


def changed_equation(rng, tokens):
    """An equation with two names exchanged, a prime more or less, or a sign or a name changed."""
    names = [spot for spot in range(1, len(tokens)) if tokens[spot][0].isalpha()]
    if not names:
        return False
    spot, other = rng.choice(names), rng.choice(names)
    change = rng.randrange(3)
    if change == 0:
        tokens[spot], tokens[other] = tokens[other], tokens[spot]
    elif change == 1:
        tokens[spot] = tokens[other]
    elif spot + 1 < len(tokens) and tokens[spot + 1] == "'":
        del tokens[spot + 1]
    else:
        tokens.insert(spot + 1, "'")
    return True


def form(rng, rows):
    """The conditions of a form aren't met, or a name or dimension is unused."""
    change = rng.randrange(4)
    if change == 0:
        at = pick(rng, rows, "work", "known")
        if at is None or len(rows[at].tokens) < 5:
            return False
        rows[at].tokens[2] = rng.choice(STRUCTURES)
        return True
    if change == 1:
        at = pick(rng, rows, "dims")
        if at is None:
            return False
        rows[at].tokens.append("unused")
        return True
    at = pick(rng, rows, "equation")
    if at is None or "=" not in rows[at].tokens:
        return False
    tokens = rows[at].tokens
    if change == 2:
        right = tokens.index("=")
        left = rng.choice((["lu", "X"], ["ldl", "X"], ["X"], ["A", "*", "X"], ["X", "*", tokens[-1]],
                           [tokens[-1], "*", "X"], ["X", "'"], ["X", "*", "X"]))
        tokens[1:right] = left
        return True
    return changed_equation(rng, tokens)


def too_large(rng, rows):
    """More rows or columns than there may be."""
    at = pick(rng, rows, "matrix")
    if at is None or len(rows[at].tokens) < 4:
        return False
    rows[at].tokens[rng.choice((2, 3))] = rng.choice(("1025", "1025", "1024", "4096", *GREAT_NUMBERS))
    return True


def row_length(rng, rows):
    """A row has another number of entries, or `end` stands where a row is due."""
    at = pick(rng, rows, "row", "row", "matrix")
    if at is None:
        return False
    tokens = rows[at].tokens
    if rows[at].role == "matrix":
        if len(tokens) < 4:
            return False
        tokens[rng.choice((2, 3))] = rng.choice("0123")
        return True
    change = rng.randrange(3)
    if change == 0:
        tokens.append("0")
    elif change == 1 and len(tokens) > 1:
        del tokens[-1]
    else:
        rows[at].tokens = rng.choice((["end"], ["end"], ["end", "end"], ["end", "3"], ["-", "1"]))
    return True


def entry_range(rng, rows):
    """An entry isn't below the modulus."""
    at, modulus_at = pick(rng, rows, "row"), pick(rng, rows, "modulus")
    if at is None or modulus_at is None:
        return False
    tokens = rows[at].tokens
    bound = rows[modulus_at].tokens[-1]
    great = [bound, *GREAT_NUMBERS]
    if bound.isdigit():
        great += [str(int(bound) + 1), str(int(bound) + 2 ** 32), str(int(bound) + 2 ** 64), str(int(bound) - 1)]
    tokens[rng.randrange(len(tokens))] = rng.choice(great)
    return True


def binding(rng, rows):
    """The number of matrices isn't that of operands, or their sizes don't fit."""
    at = pick(rng, rows, "do")
    if at is None:
        return False
    tokens = rows[at].tokens
    names = [row.tokens[1] for row in rows if row.role == "matrix" and len(row.tokens) > 1] or ["q"]
    change = rng.randrange(4)
    if change == 0:
        tokens.append(rng.choice(names))
    elif change == 1 and len(tokens) > 2:
        del tokens[-1]
    elif change == 2:
        del tokens[2:]
    elif len(tokens) > 2:
        tokens[rng.randrange(2, len(tokens))] = rng.choice(names)
    return True


def alias(rng, rows):
    """The work matrix is bound to a known operand too."""
    at = pick(rng, rows, "do")
    if at is None or len(rows[at].tokens) < 4:
        return False
    tokens = rows[at].tokens
    tokens[rng.randrange(3, len(tokens))] = tokens[2]
    return True


def no_row_fault(_rng, _rows):
    """BadByte is planted into the bytes."""
    return True


PLANTERS = {
    "BadByte": no_row_fault, "Header": header, "TrailingText": trailing_text, "Syntax": syntax, "Modulus": modulus,
    "Limit": limit, "NameTwice": name_twice, "NameUnknown": name_unknown, "TooManyTerms": too_many_terms,
    "Shape": shape, "Form": form, "TooLarge": too_large, "RowLength": row_length, "EntryRange": entry_range,
    "Binding": binding, "Alias": alias,
}


def bad_byte(rng, text):
    """The text with a byte that is in no token, at any place, perhaps in a comment."""
    at = rng.randrange(len(text) + 1)
    return text[:at] + rng.choice((b"@", b"_", b"\x00", b"\x80", b"\xff", b";", b"\x0b", b"/", b"[", b"`", b"{",
                                   b".", b"\"", b"&", b"\xc3\xa9")) + text[at:]


def faulty(rng, rows, kinds):
    """The text of rows with faults of these kinds, at times cut anywhere or without its last line feed."""
    rows = [row.copy() for row in rows]
    for kind in kinds:
        if not PLANTERS[kind](rng, rows):
            syntax(rng, rows)
    text = spelled(rng, [row for row in rows if row.tokens])
    chance = rng.random()
    if chance < 0.12:
        text = text[:rng.randrange(len(text) + 1)]
    elif chance < 0.2:
        lines = text.split(b"\n")
        text = b"\n".join(lines[:rng.randrange(len(lines)) + 1])
    for kind in kinds:
        if kind == "BadByte":
            text = bad_byte(rng, text)
    return text
