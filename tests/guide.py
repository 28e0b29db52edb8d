"""Runs the commands that docs/GUIDE.md and README.md show behind a $ and compares with what they show below.

    python3 tests/guide.py [--write]

A line `..` stands for any lines. The commands are run in a folder of their own that has `examples`, `scripts` and `flame`,
which is the program that the variable FLAME names, else ./flame. With --write the output that is found is put into the
documents, but where `..` stands for some. Prints a line for each difference, and the status is 1 where there is one.
"""

import os
import re
import subprocess
import sys
import tempfile
from pathlib import Path

ROOT = Path(__file__).resolve().parents[1]
FLAME = os.path.abspath(os.environ.get("FLAME") or ROOT / "flame")
SHOWN = re.compile(r"^    \$ (.*)\n((?:    (?!\$ ).*\n)*)", re.MULTILINE)
LEAST = {"docs/GUIDE.md": 15, "README.md": 3}


def run(command, folder):
    """What a command prints, on both streams."""
    environment = {**os.environ, "FLAME": FLAME, "PYTHONDONTWRITEBYTECODE": "1"}
    return subprocess.run(["sh", "-c", command], cwd=folder, env=environment, text=True, stdin=subprocess.DEVNULL,
                          stdout=subprocess.PIPE, stderr=subprocess.STDOUT).stdout


def agrees(shown, found):
    """Whether the output is what is shown."""
    parts = [re.escape(part) for part in re.split(r"^\.\.\n", shown, flags=re.MULTILINE)]
    return re.fullmatch("(?:.*\n)*".join(parts), found) is not None


def document(name, folder, write):
    """Runs the commands of a document; the number that it has, and the differences."""
    path, differences = ROOT / name, []

    def compared(match):
        command, shown = match[1], re.sub(r"^    ", "", match[2], flags=re.MULTILINE)
        found = run(command, folder)
        if agrees(shown, found):
            return match[0]
        differences.append(f"FAILED {name}: $ {command}: due {shown!r}, found {found!r}")
        return f"    $ {command}\n" + re.sub(r"^(?=.)", "    ", found, flags=re.MULTILINE)

    text = path.read_text()
    new, count = SHOWN.subn(compared, text)
    if write:
        path.write_text(new)
    elif count < LEAST[name]:
        differences.append(f"FAILED {name}: {count} commands are shown, and at least {LEAST[name]} are due")
    return differences


def main():
    """Runs the commands of both documents."""
    with tempfile.TemporaryDirectory() as place:
        for name in ("examples", "scripts", "tests"):
            os.symlink(ROOT / name, Path(place) / name)
        os.symlink(FLAME, Path(place) / "flame")
        differences = [line for name in LEAST for line in document(name, place, "--write" in sys.argv)]
    print("".join(line + "\n" for line in differences), end="")
    return 1 if differences else 0


if __name__ == "__main__":
    sys.exit(main())
