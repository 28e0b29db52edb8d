"""Cases that documents show: the job of docs/FORMAT.md with what it prints, its operations, and its table of faults; the
families of docs/GUIDE.md."""

from pathlib import Path

from built import BUILT
from case import Case
from reference.due import due

ROOT = Path(__file__).resolve().parents[2]
FORMAT = ROOT / "docs" / "FORMAT.md"
GUIDE = ROOT / "docs" / "GUIDE.md"
FAMILIES = ROOT / "examples" / "families.flame"
RUN = ["run", "--block", "1", "--workers", "1"]
KINDS = 16


def shown(text):
    """The indented blocks of a document, each as lines without the indent."""
    blocks, block = [], []
    for line in text.split("\n") + ["end of the document"]:
        if line.startswith("    ") or (block and not line):
            block.append(line[4:])
        elif block:
            while not block[-1]:
                block.pop()
            blocks.append(block)
            block = []
    return blocks


def operations(blocks):
    """The operations that blocks show, each as lines; a block may show several."""
    for block in blocks:
        found = None
        for line in block:
            if line.startswith("operation "):
                found = []
            if found is not None:
                found.append(line)
            if line == "end" and found:
                yield found
                found = None


def faults(text):
    """The rows of the table of faults: kind, number of the line, and what stands in it."""
    for row in text.split("## Faults")[1].split("\n"):
        cells = [cell.strip() for cell in row.strip("|").split("|")] if row.startswith("| ") else []
        if len(cells) == 5 and cells[2].isdigit():
            yield cells[0], int(cells[2]), row.split("|")[4].strip()[1:-1]


def text_of(lines):
    """The bytes of lines."""
    return "".join(line + "\n" for line in lines).encode("ascii")


def guide_families():
    """The answer of the reference for the guide's families, each line of which that the guide shows has to be in it."""
    status, text = due(["derive"], FAMILIES.read_bytes(), BUILT)
    printed = text.decode("ascii").split("\n")
    blocks = [block for block in shown(GUIDE.read_text()) if block[0].startswith("operation ")]
    missing = [line for block in blocks for line in block if line != ".." and line not in printed]
    assert blocks and not missing, missing
    return status, text


def document_cases():
    """The cases of docs/FORMAT.md, each with the status and output that are due, or None where the reference says them."""
    text = FORMAT.read_text()
    blocks = shown(text)
    job, printed = blocks[0], blocks[1]
    yield Case("format: the job", RUN, text_of(job)), (0, text_of(printed))
    after = next(block for block in blocks if block[0].startswith("after "))
    yield Case("format: the job with what stands behind it", ["verify"], text_of(job + after)), (0, b"verified 1\n")
    for number, lines in enumerate(operations(blocks)):
        name = f"format: operation {number}, {lines[0].split()[1]}"
        yield Case(name, ["derive"], text_of(["flame 1", "modulus 101"] + lines)), None
    rows = list(faults(text))
    assert len({kind for kind, _, _ in rows}) == KINDS, rows
    for kind, number, line in rows:
        wrong = job[:number - 1] + [line] + job[number:]
        yield Case(f"format: {kind}", RUN, text_of(wrong)), (3, f"refused {kind} line {number}\n".encode("ascii"))
    yield Case("guide: families", ["derive"], FAMILIES.read_bytes()), guide_families
