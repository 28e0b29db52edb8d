"""Holds the programs in scripts/ to what they promise: matrices come through each format unchanged, what isn't a whole number
is refused by a sentence, and pictures say what a family and a trace say.

    python3 tests/scripts.py

The program that the variable FLAME names, else ./flame, runs the jobs. Prints a line for each failure, and the status is 1
where there is one.
"""

import io
import json
import os
import subprocess
import sys
import tempfile
import xml.etree.ElementTree as xml
from contextlib import redirect_stderr, redirect_stdout
from importlib.machinery import SourceFileLoader
from importlib.util import module_from_spec, spec_from_loader
from pathlib import Path
from types import SimpleNamespace
from unittest.mock import patch

ROOT = Path(__file__).resolve().parents[1]
sys.dont_write_bytecode = True
sys.path.insert(0, str(ROOT / "scripts"))
FLAME = os.environ.setdefault("FLAME", str(ROOT / "flame"))
FAILED = []

# Files of one matrix, 3 rows and 2 columns modulo 101, in each way that it can be written.
DENSE = [[0, 100], [5, 0], [7, 42]]
SAME = {
    "array.mtx": "%%MatrixMarket matrix array integer general\n% a comment\n3 2\n0\n5\n7\n-1\n0\n1052\n",
    "unsigned.mtx": "%%MatrixMarket matrix array unsigned-integer general\n3 2\n0\n5\n7\n100\n0\n42\n",
    "real.mtx": "%%MatrixMarket Matrix Array Real General\n3 2\n0.0\n5e0\n+7.\n-1.00\n0\n1.052e3\n",
    "coordinate.mtx": "%%MatrixMarket matrix coordinate integer general\n3 2 4\n2 1 5\n3 1 7\n\n1 2 -1\n3 2 42\n",
    "sms.sms": "3 2 M\n1 2 -1\n2 1 5\n3 1 7\n3 2 42\n0 0 0\n",
    "rows.csv": "0, -1\r\n5,0\r\n\r\n7,42\r\n",
}
SYMMETRIC = {
    "coordinate symmetric": ("%%MatrixMarket matrix coordinate integer symmetric\n2 2 2\n1 1 3\n2 1 -4\n", [[3, 97], [97, 0]]),
    "array symmetric": ("%%MatrixMarket matrix array integer symmetric\n2 2\n3\n4\n5\n", [[3, 4], [4, 5]]),
    "array skew": ("%%MatrixMarket matrix array integer skew-symmetric\n2 2\n4\n", [[0, 97], [4, 0]]),
    "pattern": ("%%MatrixMarket matrix coordinate pattern general\n2 2 1\n2 1\n", [[0, 0], [1, 0]]),
}
# Files that are refused, each with a part of the sentence.
WRONG = {
    "half.mtx": ("%%MatrixMarket matrix array real general\n1 1\n0.5\n", "line 3: 0.5 isn't a whole number"),
    "complex.mtx": ("%%MatrixMarket matrix array complex general\n1 1\n1 0\n", "the field complex"),
    "hermitian.mtx": ("%%MatrixMarket matrix array real hermitian\n1 1\n1\n", "the symmetry hermitian"),
    "short.mtx": ("%%MatrixMarket matrix array integer general\n2 1\n1\n", "the text ends where the entry (2, 1) is due"),
    "long.mtx": ("%%MatrixMarket matrix array integer general\n1 1\n1\n2\n", "line 4: nothing more is due"),
    "twice.mtx": ("%%MatrixMarket matrix coordinate integer general\n1 1 2\n1 1 1\n1 1 2\n", "(1, 1) is given twice"),
    "outside.mtx": ("%%MatrixMarket matrix coordinate integer general\n1 1 1\n2 1 1\n", "(2, 1) is outside"),
    "upper.mtx": ("%%MatrixMarket matrix coordinate integer symmetric\n2 2 2\n2 1 1\n1 2 1\n", "(1, 2) is given twice"),
    "header.mtx": ("3 2\n1\n", "the first line isn't"),
    "great.mtx": ("%%MatrixMarket matrix coordinate integer general\n99999999 99999999 0\n", "at most 1024 of each"),
    "fraction.sms": ("1 1 M\n1 1 1/2\n0 0 0\n", "'1/2' isn't a whole number"),
    "open.sms": ("1 1 M\n1 1 2\n", "the text ends where an entry or the line 0 0 0 is due"),
    "words.csv": ("a,b\n1,2\n", "line 1: 'a' isn't a whole number"),
    "blanks.csv": ("1 2\n3 4\n", "'1 2' isn't a whole number; the file is read as CSV"),
    "ragged.csv": ("1,2\n3\n", "line 2: 1 numbers in a row; the first one has 2"),
    "nan.csv": ("nan\n", "'nan' isn't a whole number"),
    "bytes.csv": ("\udcff", "the file is no text"),
}


def expect(what, due, found):
    """Tells a difference."""
    if due != found:
        FAILED.append(what)
        print(f"FAILED scripts: {what}: due {due!r}, found {found!r}")


def loaded(name):
    """The main function of a script."""
    loader = SourceFileLoader(name.replace("-", "_"), str(ROOT / "scripts" / name))
    module = module_from_spec(spec_from_loader(loader.name, loader))
    loader.exec_module(module)
    return module.main


def script(name, *words, text=""):
    """The status, the output and the errors of a script, which is run within this process."""
    kept = sys.argv, sys.stdin
    sys.argv, sys.stdin = [name, *map(str, words)], io.TextIOWrapper(io.BytesIO(text.encode("utf-8")))
    output, errors = io.StringIO(), io.StringIO()
    try:
        with redirect_stdout(output), redirect_stderr(errors):
            status = loaded(name)()
    except SystemExit as ended:
        status = ended.code
    finally:
        sys.argv, sys.stdin = kept
    return status, output.getvalue(), errors.getvalue()


def flame(text, *words):
    """What the program prints for a job."""
    return subprocess.run([FLAME, *words], input=text, text=True, capture_output=True).stdout


def block(matrix, name="A"):
    """A matrix as a job has it."""
    rows = "".join(" ".join(map(str, row)) + "\n" for row in matrix)
    return f"matrix {name} {len(matrix)} {len(matrix[0])}\n{rows}end\n"


def refused(what, sentence, answer):
    """Expects status 1, nothing printed, and a sentence that has a part."""
    status, output, errors = answer
    expect(f"{what}: status", (1, ""), (status, output))
    expect(f"{what}: a sentence", True, sentence in errors and errors.count("\n") == 1 or errors)


def files_are_read(folder):
    """Each format, the symmetries, and what is refused."""
    for name, text in SAME.items():
        (folder / name).write_text(text, newline="")
        expect(name, (0, block(DENSE), ""), script("matrix-to-job", "block", folder / name, "-m", 101))
    for name, (text, due) in SYMMETRIC.items():
        answer = script("matrix-to-job", "block", "-", "-m", 101, "--name", "S", text=text)
        expect(name, (0, block(due, "S"), ""), answer)
    for name, (text, sentence) in WRONG.items():
        (folder / name).write_bytes(text.encode("utf-8", "surrogateescape"))
        refused(name, sentence, script("matrix-to-job", "block", folder / name, "-m", 7))


def scipy_is_used(folder):
    """Where scipy is there, it reads files of integers; what it doesn't read is read without it. Here a stand-in has its
    names."""
    stand_in = SimpleNamespace(
        mminfo=lambda path: (3, 2, 6, "array", "real" if "real" in path else "integer", "general"),
        mmread=lambda path: [[1, 2], [3, 4], [5, 6]])
    with patch.dict(sys.modules, {"scipy": SimpleNamespace(io=stand_in), "scipy.io": stand_in}):
        for name, due in (("array.mtx", [[1, 2], [3, 4], [5, 6]]), ("real.mtx", DENSE), ("sms.sms", DENSE)):
            expect(f"{name} by scipy", (0, block(due), ""), script("matrix-to-job", "block", folder / name, "-m", 101))


def files_are_written(folder):
    """What is printed comes back through each format, and through structures and signs."""
    printed = block(DENSE)
    for kind in ("mtx", "mtx-coordinate", "sms", "csv"):
        status, text, _ = script("job-to-matrix", "--format", kind, "--signed", 101, text=printed)
        (folder / f"back.{kind[:3]}").write_text(text)
        expect(f"{kind}: negative", (0, True), (status, "-1" in text))
        answer = script("matrix-to-job", "block", folder / f"back.{kind[:3]}", "-m", 101)
        expect(f"{kind} and back", (0, printed, ""), answer)
    two = block([[2, 3], [4, 5]]) + block([[1]], "B") + "trace\ntasks 0\n"
    for structure, due in (("unitlower", "1,0\n4,1\n"), ("upper", "2,3\n0,5\n"), ("symmetric", "2,4\n4,5\n")):
        answer = script("job-to-matrix", "--name", "A", "--format", "csv", "--structure", structure, text=two)
        expect(structure, (0, due, ""), answer)
    refused("two matrices", "--name tells it; there is A, B", script("job-to-matrix", text=two))
    refused("no matrix", "no matrix C is printed", script("job-to-matrix", "--name", "C", text=two))
    refused("an answer of flame", "flame answered: refused Shape line 3", script("job-to-matrix", text="refused Shape line 3\n"))
    refused("half a matrix", "isn't printed whole", script("job-to-matrix", text="matrix A 2 1\n3\n"))
    refused("no square", "needs as many of each", script("job-to-matrix", "--structure", "upper", text=printed))


def systems_are_solved(folder):
    """From files to a solution that is verified, and one that isn't one."""
    (folder / "A.mtx").write_text("%%MatrixMarket matrix array integer general\n2 2\n0\n3\n2\n-1\n")
    (folder / "b.csv").write_text("1\n5\n")
    words = [folder / "A.mtx", folder / "b.csv", "-m", 101]
    _, job, _ = script("matrix-to-job", "solve", *words)
    expect("a first pivot 0", "no inverse statement 1 row 0 column 0\n", flame(job, "run", "--block", "32", "--workers", "1"))
    seeds = [seed for seed in range(9) if "matrix A 2 2\n3 100\n" in script("matrix-to-job", "solve", *words, "--order", seed)[1]]
    expect("another order is found", True, bool(seeds))
    _, job, _ = script("matrix-to-job", "solve", *words, "--order", seeds[0])
    run = job.split("\n", 1)[0].removeprefix("# ./flame ").split(" ")
    _, text, _ = script("job-to-matrix", text=flame(job, *run))
    (folder / "x.mtx").write_text(text)
    files = [folder / "A.mtx", folder / "x.mtx", folder / "b.csv"]
    _, job, _ = script("matrix-to-job", "check", *files, "-m", 101)
    expect("the solution is verified", "verified 1\n", flame(job, "verify"))
    (folder / "b.csv").write_text("1\n6\n")
    _, job, _ = script("matrix-to-job", "check", *files, "-m", 101)
    expect("another right side isn't", "differs statement 1 row 1 column 0\n", flame(job, "verify"))
    pivots_are_exchanged(folder)
    for kind, *more in (["multiply", folder / "x.mtx"], ["factor"], ["factor", "--ldl"], ["inverse"]):
        (folder / "A.mtx").write_text("%%MatrixMarket matrix array integer symmetric\n2 2\n2\n3\n-1\n")
        _, job, _ = script("matrix-to-job", kind, folder / "A.mtx", *more, "-m", 101)
        expect(f"{kind} is done", True, flame(job, "run", "--block", "32", "--workers", "1").startswith("matrix "))
    _, job, _ = script("matrix-to-job", "inverse", folder / "A.mtx", "--ldl", "-m", 101)
    expect("the inverse by LDL", block([[46, 37], [37, 9]], "X"), flame(job, "run", "--block", "1", "--workers", "1"))
    for entry, due in ((9, "verified 1\n"), (8, "differs statement 1 row 0 column 1\n")):
        _, job, _ = script("matrix-to-job", "check", folder / "A.mtx", "-", "-m", 101, text=f"46,37\n37,{entry}\n")
        expect("the inverse is verified, and another isn't", due, flame(job, "verify"))
    answer = script("matrix-to-job", "inverse", "--ldl", "-", "-m", 7, text="1,2\n3,4\n")
    refused("no symmetry", "A isn't symmetric modulo m", answer)
    refused("no square", "A has to be square", script("matrix-to-job", "solve", folder / "x.mtx", folder / "b.csv", "-m", 101))
    refused("modulus", "isn't in 2 to 4294967295", script("matrix-to-job", "solve", *words[:2], "-m", 1))
    refused("no name", "'1st' is no name", script("matrix-to-job", "block", folder / "x.mtx", "-m", 7, "--name", "1st"))
    refused("no file", "No such file", script("matrix-to-job", "block", folder / "none.mtx", "-m", 7))


def pivots_are_exchanged(folder):
    """Exchanges find an order wherever A has an inverse modulo a prime, and say it where A has none."""
    shift = [[int(j == (i + 3) % 7) for j in range(7)] for i in range(7)]
    back = [list(column) for column in zip(*shift)]
    for name, matrix in (("shift", shift), ("twos", [[2, 4], [3, 6]]), ("threes", [[3, 1], [4, 1]])):
        (folder / f"{name}.csv").write_text("".join(",".join(map(str, row)) + "\n" for row in matrix))
    words = "inverse", folder / "shift.csv", "--exchange", "-m"
    for modulus in 2, 12, 4294967291:
        _, job, _ = script("matrix-to-job", *words, modulus)
        expect(f"exchanges modulo {modulus}", block(back, "X"), flame(job, "run", "--block", "3", "--workers", "1"))
    words = "inverse", folder / "threes.csv", "-m", 6
    refused("no exchange", "take a prime for m", script("matrix-to-job", *words, "--exchange"))
    words = "inverse", folder / "twos.csv", "-m", 101
    refused("no inverse", "A has no inverse modulo 101: column 1, counted", script("matrix-to-job", *words, "--exchange"))
    expect("two ways", (2, ""), script("matrix-to-job", *words, "--exchange", "--order", 1)[:2])


def rational_solutions(folder):
    """Several columns, pivots that are 0, and more primes than a fraction of small numbers needs; what has no solution."""
    def answer(first, second):
        for name, text in (("A", first), ("B", second)):
            (folder / f"{name}.csv").write_text(text)
        words = [sys.executable, ROOT / "examples" / "rational.py", folder / "A.csv", folder / "B.csv"]
        done = subprocess.run(words, text=True, capture_output=True, cwd=folder)
        return done.returncode, done.stdout, done.stderr

    due = f"1/{3 * 10**70},{10**70}/3\n-3/2,0\n"
    expect("rational", (0, due, ""), answer(f"0,2\n{3 * 10**70},0\n", f"-3,0\n1,{10**140}\n"))
    for first, second, sentence in (("1,2\n2,4\n", "1\n1\n", "rational: A has no inverse"), ("1\n", "1\n2\n", "as many rows"),
                                    ("1.5\n", "1\n", "line 1: 1.5 isn't a whole number"), ("1,1\n", "1\n", "to be square")):
        refused(sentence, sentence, answer(first, second))


def loops_are_drawn():
    """A picture of each loop, with as many iterations as parts; at the last one nothing is to come."""
    status, text, _ = script("draw", "family", ROOT / "examples" / "families.flame", "--parts", 3)
    words = ["".join(one.itertext()) for one in xml.fromstring(text).iter("{http://www.w3.org/2000/svg}text")]
    expect("loops", (0, 27, 27 * 3), (status, sum(" split " in word for word in words),
                                      sum(word.startswith("iteration") for word in words)))
    _, text, _ = script("draw", "family", ROOT / "examples" / "families.flame", "--operation", "lu", "--variants", "5",
                        "--parts", 2)
    titles = [one.text for one in xml.fromstring(text).iter("{http://www.w3.org/2000/svg}title") if one.text.startswith("block")]
    expect("the right-looking loop in two parts", [
        "block (0,0)\nin hand: solve(0,0)", "block (0,1)\nin hand: solve(0,1)", "block (1,0)\nin hand: solve(1,0)",
        "block (1,1)\nin hand: left(1,1,0)\nto come: solve(1,1)", "block (0,0)\ndone: solve(0,0)",
        "block (0,1)\ndone: solve(0,1)", "block (1,0)\ndone: solve(1,0)",
        "block (1,1)\ndone: left(1,1,0)\nin hand: solve(1,1)"], titles)
    refused("no variant", "lu has no variant 6", script(
        "draw", "family", ROOT / "examples" / "families.flame", "--operation", "lu", "--variants", "6"))
    refused("no job", "flame answered: refused Header line 1", script("draw", "family", text="flame 2\n"))


def sheets_are_drawn():
    """Each block of an expression and of a worksheet's states is there with its tasks, and what was changed has a colour."""
    job = (ROOT / "examples" / "families.flame").read_text()

    def drawn(kind, text):
        status, picture, _ = script("draw", kind, text=text)
        found = xml.fromstring(picture)
        titles = [one.text.split("\n") for one in found.iter("{http://www.w3.org/2000/svg}title")]
        return status, [one for one in titles if one[0].startswith("block")], [
            "".join(one.itertext()) for one in found.iter("{http://www.w3.org/2000/svg}text")], picture

    status, blocks, words, _ = drawn("pme", flame(job, "pme", "lu", "n"))
    expect("an expression", (0, "pme lu split n", 4, [
        "block (1,1)", "X[1,1] = lu(W[1,1] - X.l[1,0]*X.u[0,1])", "4 left(1,1,0) needs 2 3", "5 solve(1,1) needs 4"]),
        (status, words[0], len(blocks), blocks[3]))
    sheet = flame(job, "worksheet", "lu", "5")
    status, blocks, words, picture = drawn("worksheet", sheet)
    steps = [word for word in words if word in ("1a", "4", "2", "3", "5a", "6", "8", "5b", "7", "1b")]
    expect("a worksheet", (0, "1a 4 2 3 5a 6 8 8 8 8 5b 7 2 1b".split(), 18, 4), (
        status, steps, len(blocks), picture.count("#fbdfb3") - 1))
    expect("a state", ["block (2,2)", "(2,2) W[2,2] - X.l[2,0]*X.u[0,2] - X.l[2,1]*X.u[1,2]", "left(2,2,0)", "left(2,2,1)"],
           blocks[17])
    status, blocks, _, _ = drawn("worksheet", (ROOT / "examples" / "worksheet_lu.flame").read_text())
    expect("a worksheet behind a job", (0, ["block (0,0)", "(0,0)", "solve(0,0)"]), (status, blocks[0]))
    refused("no worksheet", "there is no whole worksheet", script("draw", "worksheet", text=job))
    refused("half a worksheet", "there is no whole worksheet", script("draw", "worksheet", text=sheet[:-4]))
    refused("no expression", "there is no partitioned matrix expression", script("draw", "pme", text=sheet))
    refused("a refusal", "flame answered: refused NoSplit", script("draw", "pme", text="refused NoSplit\n"))


def traces_are_drawn():
    """Each step is a node and a slice, each edge an edge and an arrow; steps that overlap have lanes of their own."""
    text = (ROOT / "tests" / "cases" / "trace-of-lu-in-three-parts" / "stdout").read_text()
    _, dot, _ = script("draw", "graph", text=text)
    steps, edges = (int(text.split(f"{word} ", 1)[1].split("\n")[0]) for word in ("tasks", "edges"))
    expect("graph", (steps, edges), (dot.count('label="') - 1 - edges, dot.count(" -> ")))
    two = "trace\ntasks 2\n1 1 solve(0,0)\n2 1 solve(0,1)\nedges 0\nschedule 4\nstart 1\nstart 2\nfinish 2\nfinish 1\nend\n"
    events = json.loads(script("draw", "timeline", text=two)[1])["traceEvents"]
    slices = [(event["name"], event["ts"], event["dur"], event["tid"]) for event in events if event["ph"] == "X"]
    expect("timeline", [("solve(0,0)", 0, 3, 0), ("solve(0,1)", 1, 1, 1)], slices)
    refused("no trace", "there is no trace", script("draw", "graph", text="matrix A 0 0\nend\n"))
    refused("half a trace", "the trace isn't whole", script("draw", "graph", text="trace\ntasks 2\n1 1 solve(0,0)\n"))


def main():
    """Runs all of it."""
    for name in ("matrix-to-job", "job-to-matrix", "draw"):
        done = subprocess.run([ROOT / "scripts" / name, "--help"], text=True, capture_output=True)
        expect(f"{name} --help", (0, True, ""), (done.returncode, done.stdout.startswith(f"usage: {name}"), done.stderr))
        expect(f"{name} with bad words", (2, ""), script(name, "--bad")[:2])
    with tempfile.TemporaryDirectory() as place:
        for check in (files_are_read, scipy_is_used, files_are_written, systems_are_solved, rational_solutions):
            check(Path(place))
    loops_are_drawn()
    sheets_are_drawn()
    traces_are_drawn()
    return 1 if FAILED else 0


if __name__ == "__main__":
    sys.exit(main())
