"""Further cases of `check`: two faults or two wrong places of which one decides, each index of a task on each side of its limit,
and blanks, comments and joined tokens in each place of a worksheet."""

from itertools import combinations
from re import sub

from case import Case
from reference.issue import family_of
from reference.job_text import read_job
from reference.scanner import scan
from reference.tasks import Task
from reference.worksheet_text import worksheet_text
from reference.worksheets import made

from .expressions import NAMED
from .limits import LU, text
from .sheets import copied, sheet_rows, undone_sets
from .spelling import plain
from .worksheets import behind, block_of, checked, sheet_of

# Every byte that a comment may have and a text may not, and blanks of each kind.
ODD = bytes(byte for byte in range(256) if byte != 10)
BLANKS = b" \t\r \r\t"
# Operations and variants that are changed in two places: along one dimension and along two.
PAIRED = (("lu", 5), ("low", 5), ("syl", 20))
# Operations whose names have as many bytes as they may have, and whose names are words of a worksheet.
LONG = "q" * 31
WORDS = (
    "operation update\ndims first last\nwork before general first last\nknown after lower first first\n"
    "known solve general first last\nknown term1 general last last\nequation after * X = before - solve * term1'\nend\n")
LONGEST = (
    f"operation o{LONG}\ndims n{LONG} k{LONG}\nwork w{LONG} general n{LONG} n{LONG}\nknown t{LONG} upper n{LONG} n{LONG}\n"
    f"known u{LONG} lower n{LONG} n{LONG}\nknown a{LONG} general n{LONG} n{LONG}\nknown c{LONG} general k{LONG} n{LONG}\n"
    f"known d{LONG} general n{LONG} k{LONG}\n"
    f"equation t{LONG}' * X - X * u{LONG}' = w{LONG} - a{LONG}' * a{LONG}' - c{LONG}' * d{LONG}'\nend\n")
# Parts that aren't there, and spellings of parts that are.
PARTS = ("3", "9", "12", "20", "00", "01", "4294967296", "18446744073709551616")
# Lines of which each has one fault, by the first word of the line in place of which they stand; `n` and `m` are dimensions.
FAULTY = {
    "worksheet": ("worksheet", "worksheet low low", "worksheet qr", "worksheet 1"),
    "split": ("split", "split n", "split n first", "split q forward", "split m forward n forward", "split n forward n backward",
              "split m forward q forward", "split q forward n x", "split n forward m forward m forward"),
    "invariant": ("invariant pivots", "invariant solve(0,3)", "invariant 0"), "guard": ("guard", "guard q", "guard n q", "guard n 1"),
    "start": ("start n", "start q first", "start n forward", "start q x"), "take": ("take n", "take m last q first", "take"),
    "before": ("before 0 3 :", "before 0 0", "after 0 0 :"), "update": ("update", "update solve(1,1) solve(1,2)", "update left(1,1)"),
    "give": ("give n", "give q first", "give n first m x"), "after": ("after 3 0 :", "after 0 0 : left(0,0)", "before 0 0 :"),
    "end": ("end end", "ends", "end\nend", "end\nmatrix A 1 1"),
}


def sheet_fault_cases(built):
    """All these cases, each input once, where `check` is built."""
    if not built.check:
        return
    inputs = set()
    for group in (wrong_pair_cases, faulty_line_cases, fault_pair_cases, index_cases, blank_cases, comment_cases, joined_cases,
                  cut_line_cases, name_cases):
        for case in group():
            if (*case.words, case.data) not in inputs:
                yield case
            inputs.add((*case.words, case.data))


def turned(pairs):
    """Dimensions with the other end of the first one."""
    (dim, end), *rest = pairs
    return [(dim, {"first": "last", "last": "first"}[end]), *rest]


def wrong_places(operation, sheet):
    """Each place that can be wrong with what is put there: the name of a list of the worksheet, and the list."""
    undone = undone_sets(operation, sheet)
    places = {
        "order": ("invariant", sheet.invariant[::-1]), "F1": ("invariant", sheet.invariant[1:]), "F2": ("invariant", [
            *sheet.invariant, Task("solve", 0, 1, 1, 0)]), "F3": ("invariant", []), "guard": ("guard", sheet.guard[:1] * 2),
        "start": ("start", turned(sheet.start)), "take": ("take", turned(sheet.take)), "give": ("give", turned(sheet.give)),
        "first before": ("before", sheet.before[1:]), "last before": ("before", sheet.before[:-1]),
        "before too many": ("before", [*sheet.before, sheet.before[0]]), "first update": ("updates", sheet.updates[1:]),
        "last update": ("updates", sheet.updates[:-1]), "updates backwards": ("updates", sheet.updates[::-1]),
        "update twice": ("updates", [*sheet.updates, sheet.updates[0]]), "first after": ("after", sheet.after[1:]),
        "last after": ("after", [*sheet.after[:-1], sheet.before[-1]]), "after too many": ("after", [*sheet.after, sheet.after[0]])}
    return places | ({"F4": ("invariant", undone[0])} if undone else {})


def wrong_pair_cases():
    """Worksheets that are wrong in one place, and in each two places."""
    for name, number in PAIRED:
        operation, sheet = sheet_of(name, number)
        places = wrong_places(operation, sheet)
        pairs = [(one,) for one in places] + list(combinations(places, 2))
        for chosen in pairs:
            other = copied(sheet)
            for place in chosen:
                setattr(other, places[place][0], list(places[place][1]))
            yield checked(f"{name} {number}, {' and '.join(chosen)}", operation, other)


def low_lines():
    """The lines of a worksheet along two dimensions, and the place of the first line that begins with each word."""
    operation, sheet = sheet_of("low", 12)
    lines = plain(sheet_rows(operation, sheet)).decode("ascii").split("\n")[:-1]
    return lines, {word: next(at for at, line in enumerate(lines) if line.startswith(word)) for word in FAULTY}


def low_case(name, lines):
    """The case of a check of these lines."""
    return Case(f"check: low 12, {name}", ["check"], behind(NAMED["low"][0], "\n".join([*lines, ""])))


def faulty_line_cases():
    """Each faulty line, also with its last line feed missing and with a wrong place in front of it or behind it."""
    lines, places = low_lines()
    for word, put in ((word, put) for word, every in FAULTY.items() for put in every):
        at = places[word]
        yield low_case(put, lines[:at] + [put] + lines[at + 1:])
        yield Case(f"check: low 12, up to {put}", ["check"], behind(NAMED["low"][0], "\n".join(lines[:at] + [put])))
        for wrong, line in (("guard", "guard m n"), ("after", "after 0 0 :")):
            if wrong != word:
                others = list(lines)
                others[at], others[places[wrong]] = put, line
                yield low_case(f"{put} and a wrong {wrong}", others)


def fault_pair_cases():
    """Two faulty lines, of which the earlier decides, and a faulty line with a bad byte behind it, which comes before all."""
    lines, places = low_lines()
    for (word, first), (other, second) in combinations(
            [(word, put) for word, every in FAULTY.items() for put in every[-2:]], 2):
        if word != other:
            both = list(lines)
            both[places[word]], both[places[other]] = first, second
            yield low_case(f"{first} and {second}", both)
    for word, every in FAULTY.items():
        faulty = list(lines)
        faulty[places[word]] = every[0]
        yield low_case(f"{every[0]} and a bad byte", [*faulty, "\x0b"])
        yield Case(f"check: low 12, {every[0]} and a fault of the job", ["check"], behind(
            NAMED["low"][0] + "print A\n", "\n".join([*faulty, ""])))


def index_cases():
    """Each index of each kind of task and each block on each side of its limit, and spelled otherwise."""
    lines, places = low_lines()
    tasks = [("solve", 2), ("left", 3), ("right", 3), ("term1", 3), ("term2", 3)]
    for (kind, count), spelled in ((task, part) for task in tasks for part in ("0", "2", *PARTS)):
        for spot in range(count):
            numbers = ["1"] * count
            numbers[spot] = spelled
            task = f"{kind}({','.join(numbers)})"
            for word in ("invariant", "update", "before", "after"):
                front = f"{word} 0 0 : " if word in ("before", "after") else f"{word} "
                yield low_case(f"{front}{task}", [*lines[:places[word]], front + task, *lines[places[word] + 1:]])
    for word, spelled in ((word, part) for word in ("before", "after") for part in PARTS):
        for front in (f"{spelled} 0", f"0 {spelled}"):
            yield low_case(f"{word} {front}", [*lines[:places[word]], f"{word} {front} :", *lines[places[word] + 1:]])


def rows_of_lu():
    """The rows of the worksheet of the fifth variant of `lu`, right and with its last two updates exchanged."""
    operation, sheet = sheet_of("lu", 5)
    other = copied(sheet)
    other.updates[-2:] = other.updates[:-3:-1]
    return block_of(operation), (sheet_rows(operation, sheet), sheet_rows(operation, other))


def spaced(row, put, front=b"", end=b""):
    """A row with something between its tokens, in front of them and behind them."""
    return front + put.join(token.encode("ascii") for token in row.tokens) + end + b"\n"


def blank_cases():
    """Blanks of each kind between all tokens and around all lines, empty lines and comments of odd bytes before each line, and
    each of these in one line alone; and bytes that are no blanks."""
    block, sheets = rows_of_lu()
    ways = {"blanks": (BLANKS, b"", b""), "tabs": (b"\t", b"\t", b"\t"), "a return": (b" ", b"", b"\r"), "blanks around": (
        b" ", BLANKS, BLANKS), "a comment": (b" ", b"", b" #" + ODD), "a comment that touches": (b" ", b"", b"#update solve(0,0)"),
        "empty lines": (b" ", b"\n\r\n \t \n", b""), "lines of comments": (b" ", b"#" + ODD + b"\n  # end\n", b""), "a form feed": (
            b" ", b"", b"\x0c"), "a byte above 127": (b" ", b"", b"\xc2\xa0"), "a zero byte": (b" ", b"\x00", b"")}
    for (what, way), rows in ((way, rows) for way in ways.items() for rows in sheets):
        yield Case(f"check: lu 5, {what} everywhere", ["check"], behind(block, b"".join(spaced(row, *way) for row in rows)))
        for at in range(len(rows)):
            text = b"".join(spaced(row, *(way if place == at else (b" ",))) for place, row in enumerate(rows))
            yield Case(f"check: lu 5, {what} in line {at + 1}", ["check"], behind(block, text))


def comment_cases():
    """A comment's sign in front of each token of a worksheet, so that the rest of the line isn't there."""
    block, (rows, _) = rows_of_lu()
    for at, row in enumerate(rows):
        for spot in range(len(row.tokens) + 1):
            line = " ".join([*row.tokens[:spot], "#", *row.tokens[spot:]]).encode("ascii") + b"\n"
            text = b"".join(line if place == at else spaced(one, b" ") for place, one in enumerate(rows))
            yield Case(f"check: lu 5, a comment before token {spot + 1} of line {at + 1}", ["check"], behind(block, text))


def joined_cases():
    """Each two tokens that stand beside each other without a blank between them: two words or numbers become one."""
    block, (rows, _) = rows_of_lu()
    for at, row in enumerate(rows):
        for spot in range(1, len(row.tokens)):
            tokens = [*row.tokens[:spot - 1], "".join(row.tokens[spot - 1:spot + 1]), *row.tokens[spot + 1:]]
            text = b"".join(" ".join(tokens).encode("ascii") + b"\n" if place == at else spaced(one, b" ")
                            for place, one in enumerate(rows))
            yield Case(f"check: lu 5, tokens {spot} and {spot + 1} of line {at + 1} joined", ["check"], behind(block, text))
    fewest = "".join(spelled_closely(row.tokens) + "\n" for row in rows)
    yield Case("check: lu 5, no blank that isn't wanted", ["check"], behind(block, fewest))


def spelled_closely(tokens):
    """The tokens with a blank only between two words or numbers."""
    line = ""
    for token in tokens:
        line += (" " if line[-1:].isalnum() and token[0].isalnum() else "") + token
    return line


def cut_line_cases():
    """The line that ends the job: words near to its own, blanks, comments and signs around it."""
    block, (rows, _) = rows_of_lu()
    rest = plain(rows[1:]).decode("ascii")
    for line in ("  worksheet lu", "\tworksheet\tlu", "worksheet lu#", "worksheet#lu", "worksheet(lu", "worksheet,", "worksheets lu",
                 "worksheet_ lu", "worksheet1 lu", "worksheetlu", "Worksheet lu", "# worksheet lu", "work worksheet lu",
                 "end worksheet lu", "1 worksheet lu", "", "# worksheet lu\nworksheet lu", "\n\n\nworksheet lu",
                 "worksheet lu\nworksheet lu", "worksheet\nlu"):
        yield Case(f"check: the cut {line!r}", ["check"], behind(block, line + "\n" + rest))
        yield Case(f"check: the cut {line!r} in a block", ["check"], behind(block.replace("end\n", ""), line + "\n" + rest))
    yield Case("check: the cut and nothing behind", ["check"], behind(LU, "worksheet lu"))


def name_cases():
    """Worksheets of long names and of words as names: made by the first, a middle and the last variant, and checked, right, with one
    name too long or another word for it, and with another guard."""
    for block, word, other in ((LONGEST, f"n{LONG}", f"n{LONG}q"), (WORDS, "first", "guard")):
        operation = read_job(scan(text(block))).operations[0]
        family = family_of(operation)
        count = family.count()
        for number in (1, count // 2, count, count + 1):
            yield Case(f"worksheet: {operation.name[:6]} {number}", ["worksheet", operation.name, str(number)], text(block))
        for number in (1, count // 2, count):
            printed = worksheet_text(operation, made(operation, family.at(number)))
            sheets = {"right": printed, "another name": printed.replace(f"split {word}", f"split {other}"),
                      "another operation": printed.replace(f"worksheet {operation.name}", f"worksheet {other}"),
                      "another guard": sub("\\nguard .*", f"\\nguard {operation.dims[-1]}", printed)}
            for what, sheet in sheets.items():
                yield Case(f"check: {operation.name[:6]} {number}, {what}", ["check"], behind(block, sheet))
