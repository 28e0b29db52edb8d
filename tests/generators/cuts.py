"""A text that is cut: in front of and behind each line feed, and within each line."""

from case import Case

RUN = ["run", "--block", "1", "--workers", "1"]

JOB = b"""flame 1
modulus 101
operation lu
dims n
work W general n n
equation lu X = W
end
operation mul
dims m n k
work W general m n
known A general m k
known B general k n
equation X = W + A * B
end
matrix A 2 2
2 1
4 5
end
matrix B 0 2
end
do mul A A A
do lu A
print A
"""

AFTER = b"""after A 2 2
2 1
2 3
end
"""


def places(text):
    """Where a text is cut: in front of, behind and three bytes behind each line feed."""
    feeds = [at for at, byte in enumerate(text) if byte == 10]
    return sorted({place for at in feeds for place in (at, at + 1, at + 4) if place <= len(text)})


def cut_cases(built):
    """The cut texts, run or derived in turn, and where that is built verified."""
    for number, place in enumerate(places(JOB)):
        yield Case(f"cut: job at {place}", RUN if number % 3 else ["derive"], JOB[:place])
    if built.verify:
        text = JOB.replace(b"do mul A A A\n", b"") + AFTER
        for place in places(text):
            yield Case(f"cut: job and matrix at {place}", ["verify"], text[:place])
