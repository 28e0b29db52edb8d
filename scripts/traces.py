"""A trace as a task graph for Graphviz and as a timeline in the trace event format, which Perfetto and Chrome read."""

import json

COLOURS = {"flow": "#2f5fb3", "anti": "#c0504d", "output": "#5aa469"}


def graph(trace):
    """The steps as nodes, those of a statement in one frame, and the direct edges with their kinds, as a text for `dot`."""
    lines = ["digraph steps {", '  node [shape=box, style="rounded,filled", fillcolor="#f4f4f4", fontname="sans-serif"];',
             '  edge [fontname="sans-serif", fontsize=10];']
    for statement in sorted({step.statement for step in trace.steps}):
        lines += [f"  subgraph cluster_{statement} {{", f'    label="statement {statement}";']
        lines += [f'    {step.number} [label="{step.number}: {step.task}"];' for step in trace.steps
                  if step.statement == statement]
        lines.append("  }")
    for one, other, kinds in trace.edges:
        lines.append(f'  {one} -> {other} [label="{" ".join(kinds)}", color="{COLOURS[kinds[0]]}"];')
    return "\n".join(lines + ["}", ""])


def spans(events):
    """For each step where in the schedule it begins and ends, and its lane: the first that no other step is in."""
    found, lanes = {}, []
    for at, (event, number) in enumerate(events):
        if event == "start":
            if None not in lanes:
                lanes.append(None)
            lane = lanes.index(None)
            lanes[lane] = number
            found[number] = [at, None, lane]
        else:
            found[number][1] = at
            lanes[found[number][2]] = None
    return found


def timeline(trace):
    """A slice for each step and an arrow for each edge. The unit of time is a place in the schedule: no time was measured,
    and lanes are steps that overlap, not workers, which a trace doesn't name."""
    places, events = spans(trace.events), []
    lanes = 1 + max((lane for _, _, lane in places.values()), default=-1)
    for lane in range(lanes):
        events.append({"name": "thread_name", "ph": "M", "pid": 1, "tid": lane, "args": {"name": f"lane {lane + 1}"}})
    for step in trace.steps:
        begin, end, lane = places[step.number]
        events.append({"name": step.task, "cat": f"statement {step.statement}", "ph": "X", "ts": begin, "dur": end - begin,
                       "pid": 1, "tid": lane, "args": {"step": step.number, "statement": step.statement}})
    for number, (one, other, kinds) in enumerate(trace.edges):
        arrow = {"name": " ".join(kinds), "cat": "edge", "id": number, "pid": 1}
        (_, end, lane), (begin, _, other_lane) = places[one], places[other]
        events.append({**arrow, "ph": "s", "ts": end - 0.25, "tid": lane})
        events.append({**arrow, "ph": "f", "bp": "e", "ts": begin + 0.25, "tid": other_lane})
    unit = "a microsecond is a place in the schedule; lanes are steps that overlap, not workers"
    return json.dumps({"traceEvents": events, "otherData": {"unit": unit}}, indent=1) + "\n"
