"""What several workers leave open: the order in which steps that don't depend on each other begin and end."""

from reference.words import read_words

MARK = b"\nschedule "


def workers_of(words):
    """How many workers good words ask for, and 1 for bad words."""
    command = read_words(words)
    return 1 if command is None else command.parts.get("workers", 1)


def by_workers(words, output, workers):
    """The words of a run with another number of workers and the output that is due for them, or None where the words aren't
    those of a run."""
    command = read_words(words)
    if command is None or "workers" not in command.parts:
        return None
    at = words.index("--workers") + 1
    changed = [*words[:at], str(workers), *words[at + 1:]]
    if command.name == "selfrun":
        line, end, rest = output.partition(b"\n")
        if line.startswith(b"selfrun "):
            output = line.rsplit(b" ", 1)[0] + b" " + str(workers).encode() + end + rest
    return changed, output


def agrees(words, due, found):
    """Whether an output is the one that is due; where the words ask for the trace of several workers, any schedule of the steps
    may stand in place of the one that is due."""
    if due == found:
        return True
    command = read_words(words)
    if command is None or "--trace" not in command.parts or workers_of(words) == 1:
        return False
    front, mark, _ = due.rpartition(MARK)
    found_front, found_mark, schedule = found.rpartition(MARK)
    return bool(mark and found_mark) and front == found_front and is_schedule(front, schedule)


def is_schedule(front, text):
    """Whether the text behind the word is a schedule of the steps and edges that stand in front: its count, each step's start and
    finish once, the start first, and the finish of a step before the start of each to which an edge goes from it."""
    lines = text.split(b"\n")
    steps, edges = steps_and_edges(front)
    if lines[0] != str(2 * steps).encode() or lines[-2:] != [b"end", b""]:
        return False
    places = {line: place for place, line in enumerate(lines[1:-2])}
    starts = [places.get(b"start %d" % step) for step in range(1, steps + 1)]
    ends = [places.get(b"finish %d" % step) for step in range(1, steps + 1)]
    return (len(lines) - 3 == 2 * steps == len(places) and None not in starts and None not in ends
            and all(start < end for start, end in zip(starts, ends))
            and all(ends[first - 1] < starts[second - 1] for first, second in edges))


def steps_and_edges(front):
    """The number of steps of a trace, and the pairs of steps of its edges."""
    lines = front[front.rindex(b"trace\ntasks "):].split(b"\n")
    steps = int(lines[1].split()[1])
    edges = [tuple(int(word) for word in line.split()[:2]) for line in lines[3 + steps:]]
    return steps, edges
