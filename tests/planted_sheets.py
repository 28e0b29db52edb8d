"""Bodies that err in partitioned expressions, worksheets and checks of them, or give up on them: see planted.py.

A body that prints another text is refused by the cases in which it differs from the one that is due.
"""

import re
from dataclasses import replace

from generators.operations import FORMS
from reference.families import splits
from reference.partitioned import pme_text, split_of

PLACES = ("order", "F1", "F2", "F3", "F4", "guard", "start", "take", "before", "update", "give", "after")


def asked(seen):
    """The operation that words name, where its expression or worksheet is printed, else None."""
    if seen.status or not (seen.does("pme") or seen.does("worksheet")):
        return None
    return next(made for made in seen.job.operations if made.name == seen.words[1])


def asks(command, condition):
    """A body that gives up on operations of this kind."""
    return lambda seen: seen.words[:1] == [command] and asked(seen) is not None and condition(asked(seen))


def prints_other(command, pattern, put):
    """A body that prints something else for what a pattern finds."""
    def errs(seen):
        text = seen.output.decode("ascii")
        return asked(seen) is not None and seen.words[0] == command and re.sub(pattern, put, text, flags=re.MULTILINE) != text

    return errs


def takes_for(first, second):
    """A body that prints an expression as if known operands of the first structure had the second one."""
    def errs(seen):
        made = asked(seen)
        if made is None or seen.words[0] != "pme":
            return False
        knowns = [one._replace(structure=second) if one.structure == first else one for one in made.knowns]
        return pme_text(replace(made, knowns=knowns), split_of(made, seen.words[2:])).encode("ascii") != seen.output

    return errs


def unprimed(seen):
    """Whether a body errs that doesn't exchange the indices of transposed factors."""
    found = re.findall(r"'\[(\d),(\d)\]", seen.output.decode("ascii"))
    return asked(seen) is not None and any(i != j for i, j in found)


def is_wrong(place, found=None, due=None):
    """A body that finds this place right, or tells what is found or due there otherwise, or gives up on it; `found` and `due` say
    whether there is something."""
    def errs(seen):
        if seen.status != 7:
            return False
        before, _, wanted = seen.output.decode("ascii").rstrip("\n").rpartition(" due ")
        head, _, shown = before.partition(" found ")
        has = shown != "-", wanted != "-"
        return place in head.split() and found in (None, has[0]) and due in (None, has[1])

    return errs


def refused_at(kind, command):
    """A body that doesn't refuse an input of this command for this kind of fault."""
    return lambda seen: seen.words[:1] == [command] and seen.status == 3 and seen.output.split()[1].decode() == kind


def lines_of(seen, word):
    """How many lines of a worksheet that is right begin with this word."""
    is_right = seen.does("check") and seen.status == 0
    return len(re.findall(rb"^\s*" + word + rb"\b", seen.data, re.MULTILINE)) if is_right else 0


PME_BODIES = {
    "a mirrored block of a symmetric factor that is dropped": takes_for("symmetric", "lower"),
    "zero blocks of a lower factor that are kept": takes_for("lower", "general"),
    "zero blocks of a diagonal factor that are kept": takes_for("diagonal", "general"),
    "a transposed factor whose indices aren't exchanged": unprimed,
    "a sign that is lost": prints_other("pme", " - ", " + "),
    "the sign of a sylvester that is lost": prints_other("pme", ",-", ","),
    "a last need that is dropped": prints_other("pme", r"( needs.*) \d+$", r"\1"),
    "the only need that is dropped": prints_other("pme", r" needs \d+$", ""),
    "inv on the other side": prints_other("pme", r"= inv\((.*?)\)\*\((.*)\)$", r"= (\2)*inv(\1)"),
    "X.l for X.u": prints_other("pme", r"X\.u", "X.l"),
    "X.l for its transpose": prints_other("pme", r"X\.l'", "X.l"),
    "blocks in canonical order": lambda s: asked(s) is not None and s.words[0] == "pme" and b" solve(1," in s.output.split(
        b"solve(0,")[0],
    "pme along two dimensions": lambda s: asked(s) is not None and s.words[0] == "pme" and len(s.words) == 4,
    "pme of another operation than the first": lambda s: asked(s) is not None and s.words[0] == "pme"
    and s.job.operations[0].name != s.words[1],
    "pme of four dimensions": asks("pme", lambda made: len(made.dims) == 4),
    "a pme above 2,000 bytes": lambda s: asked(s) is not None and s.words[0] == "pme" and len(s.output) > 2000,
    "a split that isn't refused": refused_at("NoSplit", "pme"),
    "an operation that isn't refused": refused_at("NoOperation", "pme"),
}
PME_BODIES |= {f"pme of the form {form}": asks("pme", lambda made, form=form: made.form == form) for form in FORMS}

WORKSHEET_BODIES = {
    "an invariant without a task": prints_other("worksheet", r"^invariant$", "invariant "),
    "a block without a task": prints_other("worksheet", r" : # ", " :  # "),
    "a backward end that is told as forward": prints_other("worksheet", r"\blast\b", "first"),
    "worksheets along two dimensions": lambda s: asked(s) is not None and s.words[0] == "worksheet" and b"\nguard " in s.output
    and len(s.output.split(b"\nguard ")[1].split(b"\n")[0].split()) == 2,
    "states that are exchanged": prints_other("worksheet", r"^before", "after"),
    "worksheets without updates": lambda s: asked(s) is not None and s.words[0] == "worksheet" and b"\nupdate " not in s.output,
    "worksheets by a variant above 100": lambda s: asked(s) is not None and s.words[0] == "worksheet" and int(s.words[2]) > 100,
    "worksheets of the second dimension alone": lambda s: asked(s) is not None and s.words[0] == "worksheet" and len(
        splits(asked(s))) > 1 and b"\nguard " + asked(s).dims[1].encode() + b"\n" in s.output,
    "worksheets above 3,000 bytes": lambda s: asked(s) is not None and s.words[0] == "worksheet" and len(s.output) > 3000,
    "a variant that isn't refused": refused_at("NoVariant", "worksheet"),
    "an operation of a worksheet that isn't refused": refused_at("NoOperation", "worksheet"),
}
WORKSHEET_BODIES |= {f"worksheets of the form {form}": asks("worksheet", lambda made, form=form: made.form == form)
                     for form in FORMS}

CHECK_BODIES = {
    "an update before one that it needs": is_wrong("update", True, True),
    "an update that isn't due or stood before": is_wrong("update", True, False),
    "an update that is missing": is_wrong("update", False, True),
    "a line before that is missing": is_wrong("before", False, True),
    "a line before too many": is_wrong("before", True, False),
    "a line after that is missing": is_wrong("after", False, True),
    "a line after too many": is_wrong("after", True, False),
    "a check that finds all wrong": lambda s: s.does("check") and s.status == 0,
    "a place behind the ninth": lambda s: s.status == 7 and re.search(rb" \d\d found", s.output) is not None,
    "more than 20 updates": lambda s: lines_of(s, b"update") > 20,
    "nine blocks": lambda s: lines_of(s, b"after") == 9,
    "a worksheet of no update": lambda s: lines_of(s, b"after") > 0 and lines_of(s, b"update") == 0,
    "a worksheet behind more than three operations": lambda s: s.does("check") and len(s.job.operations) > 3,
    "a worksheet without comments": lambda s: s.does("check") and s.status == 0 and b"#" not in s.data,
}
CHECK_BODIES |= {f"{place} that isn't looked at": is_wrong(place) for place in PLACES}
CHECK_BODIES |= {f"{kind} in a worksheet that isn't refused": refused_at(kind, "check")
                 for kind in ("Syntax", "NameUnknown", "SplitOrder", "BadByte", "TrailingText")}


def sheet_bodies(built):
    """The bodies of the commands that are built."""
    groups = ((built.pme, PME_BODIES), (built.worksheet, WORKSHEET_BODIES), (built.check, CHECK_BODIES))
    return {name: gives_up for is_built, bodies in groups if is_built for name, gives_up in bodies.items()}
