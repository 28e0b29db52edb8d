"""Times `pme` on every split of ten common operations, of those with the largest families, and of the one whose expressions are
longest."""

import itertools
import os
import sys

from derive import HEAD, LARGEST, TEN, best, longest_named, operation_text

# The bytes of a name of the last one: as many as it may have, those with which its text is about half as long, and one.
NAMES = (32, 6, 1)


def splits(dims):
    """Each dimension, and each two in the order in which they are declared."""
    names = dims.split()
    return [(name,) for name in names] + list(itertools.combinations(names, 2))


def measure(name, split, block, program, data):
    """Prints the time of `pme` of an operation along a split, beside that of `cat` on its text."""
    job, text, copy = (os.path.join(data, "pme." + end) for end in ("flame", "out", "copy"))
    with open(job, "w") as out:
        out.write(HEAD + block)
    took = best([program, "pme", name, *split], job, text, 20)
    plain = best(["cat"], text, copy, 20)
    is_named = name != name[0] * len(name)
    shown = " ".join((name, *split)) if is_named else f"with names of {len(name)} bytes along {len(split)} dimensions"
    print(f"pme {shown}: {os.path.getsize(text)} bytes; pme {took:.2f} ms, cat {plain:.2f} ms")
    return took


def main(program, data):
    """Measures all of them, and prints the slowest."""
    stated = [(operation[0], split, operation_text(*operation)) for operation in TEN + LARGEST for split in splits(operation[1])]
    stated += [longest_named(length) for length in NAMES]
    print(f"slowest: {max(measure(*one, program, data) for one in stated):.2f} ms")


if __name__ == "__main__":
    main(sys.argv[1], sys.argv[2])
