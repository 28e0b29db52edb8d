"""Cases of the streams: an input that can't be read or comes in pieces, an output that can't be written.

What is due here doesn't come from the reference: status 1 and nothing where reading fails, 6 where writing fails, and
bad words before both.
"""

from case import Case

from .limits import LU, MUL, RUN, identity, matrix, text
from .worksheets import behind, sheet_of, worksheet_text


def stream_cases(built):
    """Each case with the status and the output that are due; None where the reference says them."""
    job = text(MUL, "".join(matrix(name, 2, 2, "1") for name in "ABC"), "do mul C A B\nprint C\n")
    for words in (RUN, ["derive"], *([[*RUN, "--trace"], [*RUN, "--variants", "54"]] if built.variants else [])):
        named = " ".join(words[:1] + words[5:])
        yield Case(f"stream: {named} of a folder", words, job, streams="unreadable"), (1, b"")
        yield Case(f"stream: {named} to a full device", words, job, streams="unwritable"), (6, b"")
        yield Case(f"stream: {named} in pieces", words, job, streams="pieces"), None
    yield from named_cases(built)
    yield Case("stream: bad words, input of a folder", ["x"], b"", streams="unreadable"), (2, b"bad words\n")
    yield Case("stream: bad words to a full device", ["x"], b"", streams="unwritable"), (6, b"")
    yield Case("stream: a refusal to a full device", RUN, b"flame 2\n", streams="unwritable"), (6, b"")
    yield Case("stream: a fault in pieces", RUN, text(LU, identity("A", 3), "do lu B\n"), streams="pieces"), None


def named_cases(built):
    """The same of the commands that name an operation, and of `check`, also of a worksheet that isn't right."""
    right = behind(LU, worksheet_text(*sheet_of("lu", 5)))
    chosen = [(["pme", "lu", "n"], text(LU))] * built.pme + [(["worksheet", "lu", "5"], text(LU))] * built.worksheet
    chosen += [(["check"], right), (["check"], right.replace(b"guard n", b"guard n n"))] * built.check
    for number, (words, data) in enumerate(chosen):
        named = f"{words[0]} {number}"
        yield Case(f"stream: {named} of a folder", words, data, streams="unreadable"), (1, b"")
        yield Case(f"stream: {named} to a full device", words, data, streams="unwritable"), (6, b"")
        yield Case(f"stream: {named} in pieces", words, data, streams="pieces"), None
