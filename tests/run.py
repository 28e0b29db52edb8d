"""Runs the built program on the kept, the fixed and the generated cases, and compares output and status.

    python3 tests/run.py [--seed S] [--count N] [--only NUMBER] [--case FOLDER ..] [--whole]
"""

import argparse
import os
import subprocess
import sys
import time
from concurrent.futures import ProcessPoolExecutor
from contextlib import ExitStack
from functools import lru_cache
from pathlib import Path

HERE = Path(__file__).resolve().parent
sys.path.insert(0, str(HERE))

from built import BUILT, WHOLE  # noqa: E402
from case import Case, encoded, load, made_case, save  # noqa: E402
from generate import generated_case  # noqa: E402
from generators.blocks import block_cases  # noqa: E402
from generators.chains import chain_cases  # noqa: E402
from generators.cuts import cut_cases  # noqa: E402
from generators.documents import document_cases  # noqa: E402
from generators.expressions import pme_cases  # noqa: E402
from generators.families import family_cases  # noqa: E402
from generators.generated import generated_cases  # noqa: E402
from generators.grids import grid_cases  # noqa: E402
from generators.limits import limit_cases  # noqa: E402
from generators.pivots import pivot_cases  # noqa: E402
from generators.sheet_faults import sheet_fault_cases  # noqa: E402
from generators.sizes import size_cases  # noqa: E402
from generators.spellings import spelling_cases  # noqa: E402
from generators.streams import stream_cases  # noqa: E402
from generators.variants import turned, variant_cases  # noqa: E402
from generators.words import words_under  # noqa: E402
from generators.worksheets import check_cases, worksheet_cases  # noqa: E402
from reference.due import due  # noqa: E402
from schedules import agrees, by_workers  # noqa: E402

LEAST = 500
# By how many workers cases are run again, in turn.
WORKERS = (2, 4, 16, 3)
SECONDS = 60


def answer(program, case):
    """The status and the output of the program."""
    command = [program, *(encoded(word) for word in case.words)]
    source, sink = {"input": case.data}, subprocess.PIPE
    with ExitStack() as opened:
        if case.streams == "unreadable":
            # A folder can be opened, and each read of it fails.
            source = {"stdin": os.open("/", os.O_RDONLY)}
            opened.callback(os.close, source["stdin"])
        if case.streams == "unwritable":
            sink = opened.enter_context(open("/dev/full", "wb"))
        try:
            if case.streams == "pieces":
                return in_pieces(command, case.data)
            done = subprocess.run(command, stdout=sink, stderr=subprocess.DEVNULL, timeout=SECONDS, **source)
        except subprocess.TimeoutExpired:
            return f"none within {SECONDS} s", b""
    return done.returncode, done.stdout or b""


def in_pieces(command, data):
    """The answer to an input of which 7 bytes come at a time."""
    running = subprocess.Popen(command, stdin=subprocess.PIPE, stdout=subprocess.PIPE, stderr=subprocess.DEVNULL,
                               bufsize=0)
    try:
        for at in range(0, len(data), 7):
            running.stdin.write(data[at:at + 7])
            time.sleep(0.001)
    except BrokenPipeError:
        pass
    output, _ = running.communicate(timeout=SECONDS)
    return running.returncode, output


def compared(program, case, status, output):
    """None where the program answers what is due, else a line about the difference; a failed case is written."""
    found_status, found = answer(program, case)
    if found_status == status and agrees(case.words, output, found):
        return None
    folder = HERE / "failed" / "".join(c if c.isalnum() or c in "-_" else "_" for c in case.name)
    save(folder, case, status, output)
    (folder / "found-stdout").write_bytes(found)
    (folder / "found-status").write_text(f"{found_status}\n")
    return (f"FAILED {case.name}: due {status} {beginning(output)}, found {found_status} {beginning(found)}; "
            f"see {folder.relative_to(HERE.parent)}")


def beginning(output):
    """The first bytes of an output, for a line about it."""
    return repr(output[:60])[1:] + (".." if len(output) > 60 else "")


def kept(program, folder):
    """Runs a kept case, whose folder says what is due."""
    case, status, output = load(folder)
    return compared(program, case, status, output)


def kept_under(program, folder, block):
    """Runs the job of a kept case under another block size, by which nothing changes."""
    case, status, output = load(folder)
    other = Case(f"{case.name}-block-{block}", words_under(block), case.data, case.streams)
    return compared(program, other, status, output)


def other_blocks(folder):
    """The greater block sizes under which the job of a kept case is run, too."""
    case, status, output = load(folder)
    is_run = status in (0, 3, 4) and case.words[:1] == ["run"] and case.words == words_under(case.words[2])
    if not is_run or output.startswith(b"refused TooMany"):
        return []
    return [block for block in (2, 3, 32, 1024) if block > int(case.words[2])]


def kept_by_variants(program, built, folder, turn):
    """Runs the job of a kept case by other variants, by which its matrices don't change, and with its trace."""
    case, status, output = load(folder)
    least = int(case.words[2])
    other = turned(f"kept: {case.name}", case.data, turn, [block for block in (least, 2, 3) if block >= least], turn == 0)
    found_status, found = due(other.words, other.data, built)
    if found_status != status or not found.startswith(output):
        return f"FAILED {other.name}: the reference answers {found_status} {beginning(found)}"
    return compared(program, other, found_status, found)


def compared_by_workers(program, case, status, output, turn):
    """Runs a case by several workers, by which nothing changes but the order of steps; None where it is no run."""
    workers = WORKERS[turn % len(WORKERS)]
    changed = by_workers(case.words, output, workers)
    if changed is None or case.streams:
        return None
    words, output = changed
    return compared(program, Case(f"{case.name}-workers-{workers}", words, case.data), status, output)


def kept_by_workers(program, folder, turn):
    """Runs a kept case by several workers."""
    case, status, output = load(folder)
    return compared_by_workers(program, case, status, output, turn)


def generated_by_workers(program, built, seed, index):
    """Runs a generated case by several workers."""
    try:
        case = generated_case(seed, index, built)
        return compared_by_workers(program, case, *due(case.words, case.data, built), index)
    except Exception as wrong:
        return f"FAILED {seed}-{index} by workers: {type(wrong).__name__}: {wrong}"


def fixed_by_workers(program, built, number):
    """Runs a fixed case by several workers."""
    case, known = fixed_cases(built)[number]
    try:
        case = made_case(case)
        known = known() if callable(known) else known
        return compared_by_workers(program, case, *(known or due(case.words, case.data, built)), number)
    except Exception as wrong:
        return f"FAILED {getattr(case, 'name', case)} by workers: {type(wrong).__name__}: {wrong}"


def is_run(words):
    """Whether these are good words of a run."""
    return by_workers(words, b"", 2) is not None


def is_outcome(folder):
    """Whether a kept case is a run whose job is done or fails."""
    case, status, _ = load(folder)
    return status in (0, 4) and case.words[:1] == ["run"] and len(case.words) == 5


def generated(program, built, seed, index):
    """Runs a generated case, for which the reference says what is due."""
    try:
        case = generated_case(seed, index, built)
        return compared(program, case, *due(case.words, case.data, built))
    except Exception as wrong:  # An error of the generator or the reference is a failed case, too.
        return f"FAILED {seed}-{index}: {type(wrong).__name__}: {wrong}"


@lru_cache
def fixed_cases(built):
    """The cases that are the same in every run, each a case or a function that makes it, with the answer that is due, a
    function that makes it, or None where the reference says it; made once, before the processes of the pool begin. Great
    ones come first."""
    cases = [*limit_cases(), *block_cases(), *family_cases(), *grid_cases(built), *pivot_cases(), *chain_cases(),
             *cut_cases(built), *spelling_cases(built), *pme_cases(built), *worksheet_cases(built), *check_cases(built),
             *sheet_fault_cases(built)]
    by_variants = list(variant_cases(built)) if built.variants else []
    made = list(generated_cases(built)) if built.generator else []
    return list(size_cases()) + by_variants + made + [(case, None) for case in cases] + list(stream_cases(built)) + list(
        document_cases())


def fixed(program, built, number):
    """Runs a fixed case."""
    case, known = fixed_cases(built)[number]
    try:
        case = made_case(case)
        known = known() if callable(known) else known
        return compared(program, case, *(known or due(case.words, case.data, built)))
    except Exception as wrong:  # So is an error that a case that is generated meets.
        return f"FAILED {getattr(case, 'name', case)}: {type(wrong).__name__}: {wrong}"


def behind_script(program):
    """The program that the script ./flame runs, where that is what is tested and it is built; else the same."""
    built = HERE.parent / "crates" / "flame" / "out" / "flame"
    return str(built) if Path(program) == HERE.parent / "flame" and built.exists() else program


def all_cases(arguments, built):
    """What is to be run: a function with its arguments behind the program's name."""
    if arguments.case:
        return [(kept, Path(folder)) for folder in arguments.case]
    if arguments.only is not None:
        return [(generated, built, arguments.seed, arguments.only)]
    folders = sorted(path.parent for path in (HERE / "cases").glob("*/status"))
    ready = [folder for folder in folders if built.meets(load(folder)[0].needs)]
    if len(ready) < len(folders):
        print(f"{len(folders) - len(ready)} kept cases wait for what isn't built yet")
    same = [(fixed, built, number) for number in range(len(fixed_cases(built)))]
    drawn = [(generated, built, arguments.seed, index) for index in range(arguments.count)]
    others = [(kept_under, folder, block) for folder in ready for block in other_blocks(folder)]
    if built.variants:
        others += [(kept_by_variants, built, folder, turn) for folder in ready if is_outcome(folder) for turn in (0, 1)]
    if built.threads:
        runs = [folder for folder in ready if is_run(load(folder)[0].words)]
        others += [(kept_by_workers, folder, turn) for folder in runs for turn in range(len(WORKERS))]
        others += [(generated_by_workers, built, arguments.seed, index) for index in range(arguments.count)
                   if is_run(generated_case(arguments.seed, index, built).words)]
        others += [(fixed_by_workers, built, number) for number, (case, _) in enumerate(fixed_cases(built))
                   if number % 3 == 0 and is_run(made_case(case).words)]
    return same + drawn + [(kept, folder) for folder in ready] + others


def main():
    """Runs all cases; the exit status is 0 where none failed and at least 500 ran."""
    parser = argparse.ArgumentParser(description="Runs the built program on kept and generated cases.")
    parser.add_argument("--seed", default="1")
    parser.add_argument("--count", type=int, default=900)
    parser.add_argument("--only", type=int, help="runs the generated case of this number alone")
    parser.add_argument("--case", nargs="+", help="runs the kept or failed cases of these folders alone")
    parser.add_argument("--whole", action="store_true", help="takes everything as built")
    arguments = parser.parse_args()
    built = WHOLE if arguments.whole else BUILT
    program = os.environ.get("FLAME") or str(HERE.parent / "flame")
    cases = all_cases(arguments, built)
    with ProcessPoolExecutor(len(os.sched_getaffinity(0))) as pool:
        # The script looks for edited files in each call, so kept cases alone go through it.
        waiting = [pool.submit(function, program if function == kept else behind_script(program), *rest)
                   for function, *rest in cases]
        failures = [line for line in (one.result() for one in waiting) if line]
    for line in failures:
        print(line)
    print(f"{len(cases) - len(failures)} passed, {len(failures)} failed")
    alone = arguments.case or arguments.only is not None
    return 0 if not failures and (alone or len(cases) >= LEAST) else 1


if __name__ == "__main__":
    sys.exit(main())
