"""Checks worksheets of the reference: no place is wrong exactly in the valid ones, a printed one is read as the same, its
updates are the steps of one iteration, and each place that can be wrong, in each way, is wrong in one of the fixed cases.

    python3 tests/check_worksheets.py [--all]

Without `--all` fewer worksheets are looked at, and not whether the fixed cases have all that can be wrong.
"""

import random
import sys
from pathlib import Path

HERE = Path(__file__).resolve().parent
sys.path.insert(0, str(HERE))

from built import WHOLE  # noqa: E402
from case import made_case  # noqa: E402
from generators.limits import text  # noqa: E402
from generators.operations import FORMS, operation, operation_rows  # noqa: E402
from generators.sheets import changed, drawn_sheet, sheet_rows  # noqa: E402
from generators.spelling import plain  # noqa: E402
from generators.worksheets import check_cases, named_operations  # noqa: E402
from reference.due import due  # noqa: E402
from reference.families import counts_of  # noqa: E402
from reference.issue import parts_after  # noqa: E402
from reference.job_text import read_job  # noqa: E402
from reference.scanner import before, scan  # noqa: E402
from reference.tasks import task_class, tasks  # noqa: E402
from reference.verdicts import first_wrong  # noqa: E402
from reference.worksheet_text import read_worksheet, worksheet_text  # noqa: E402
from reference.worksheets import is_valid  # noqa: E402

COUNT, FEWER = 200, 48
# What can be wrong in a place: whether something is found there, and whether something is due.
BOTH, FOUND, DUE = (True, True), (True, False), (False, True)
WAYS = {
    "invariant order": (FOUND,), "invariant F1": (BOTH,), "invariant F2": (FOUND,), "invariant F3": (DUE,),
    "invariant F4": (BOTH,), "guard": (BOTH,), "start": (BOTH,), "take": (BOTH,), "before": (BOTH, FOUND, DUE),
    "update": (BOTH, FOUND, DUE), "give": (BOTH,), "after": (BOTH, FOUND, DUE)}


def read_back(block, printed):
    """The job and the worksheet of an operation's text with a worksheet behind it."""
    whole = scan(text(block) + printed)
    of_job, rest = before(whole, "worksheet")
    job = read_job(of_job)
    return job, read_worksheet(rest, whole.end, job)


def small_operations():
    """Random operations of each form, without many terms."""
    for number in range(COUNT if "--all" in sys.argv else FEWER):
        rng = random.Random(f"worksheets:{number}")
        yield rng, operation(rng, "q", FORMS[number % len(FORMS)], terms=rng.choice((0, 0, 1)))


def check_made():
    """A made worksheet is right and valid and is read as it was printed, and its updates are the steps that come with the
    second iteration on three parts."""
    for rng, one in [*small_operations(), *((random.Random(name), made) for name, made in named_operations().items())]:
        sheet = drawn_sheet(rng, one)
        block = plain(operation_rows(one)).decode("ascii")
        _, read = read_back(block, worksheet_text(one, sheet).encode("ascii"))
        assert read == sheet and first_wrong(one, sheet) is None and is_valid(one, sheet)
        counts = counts_of(one, sheet.split, 3)
        coarse, directions = set(tasks(one, counts_of(one, sheet.split, 2))), dict(zip(sheet.split, sheet.directions))
        sets = [{task for task in tasks(one, counts)
                 if task_class(one, coarse, task, parts_after(done, directions, counts)) in sheet.invariant} for done in (1, 2)]
        assert sheet.updates == [task for task in tasks(one, counts) if task in sets[1] - sets[0]]
        for states, done in ((sheet.before, sets[0]), (sheet.after, sets[1])):
            assert {task for line in states for task in line.done} == done


def check_valid():
    """No place is wrong exactly where a worksheet is valid."""
    found = set()
    for rng, one in small_operations():
        for count in (1, 1, 2):
            sheet = changed(rng, one, drawn_sheet(rng, one), count)
            if list(sheet.split) == sorted(set(sheet.split)):
                wrong = first_wrong(one, sheet)
                assert (wrong is None) == is_valid(one, sheet), (wrong, plain(sheet_rows(one, sheet)))
                found.add(wrong is None)
    assert found == {True, False}


def check_ways():
    """Each way to be wrong is that of a fixed case."""
    seen = set()
    for case in check_cases(WHOLE):
        case = made_case(case)
        status, output = due(case.words, case.data, WHOLE)
        if status == 7:
            place, rest = output.decode("ascii")[len("wrong "):].split(" found ")
            found, wanted = rest.rstrip("\n").split(" due ")
            place = place if place.startswith("invariant") else place.split()[0]
            seen.add((place, (found != "-", wanted != "-")))
    assert seen == {(place, way) for place, ways in WAYS.items() for way in ways}, seen


if __name__ == "__main__":
    for check in (check_made, check_valid, *((check_ways,) if "--all" in sys.argv else ())):
        check()
    print("worksheets are right exactly where they are valid")
