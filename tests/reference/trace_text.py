"""The trace of a run by one worker: its steps, the direct edges between them, and its schedule."""

from .edges import accesses, direct_edges
from .issue import issue


def trace_text(job, block, chosen):
    """The trace of a job under a block size, with a variant for each statement."""
    steps = issue(job, block, chosen)
    return trace_of(steps, direct_edges(accesses(job, block, steps)))


def trace_of(steps, edges):
    """The trace of these steps with these edges. One worker starts and finishes each step in order."""
    lines = ["trace", f"tasks {len(steps)}"]
    lines += [f"{number} {step.text()}" for number, step in enumerate(steps, 1)]
    lines.append(f"edges {len(edges)}")
    lines += [f"{s} {t} {' '.join(kinds)}" for (s, t), kinds in edges.items()]
    lines.append(f"schedule {2 * len(steps)}")
    lines += [f"{event} {number}" for number in range(1, len(steps) + 1) for event in ("start", "finish")]
    return "\n".join([*lines, "end", ""])
