"""Pictures of partitioned matrix expressions and of worksheets: matrices with what their blocks hold, as SVG."""

from html import escape

from pictures import LEFT, TOP, cell

WIDE, LINE, PAD = 7.4, 17, 8  # a letter's width, a line's height, a block's margin
INDENT = 28  # how far the body of a loop stands in
STEPS = 34  # as wide as the column of step numbers
COLOURS = {"none": "#f4f4f4", "some": "#d5ecd9", "changed": "#fbdfb3"}
LEGEND = (("none", "no task done"), ("some", "tasks done"), ("changed", "changed by the updates"))


def written(x, y, text, more=""):
    """A line of text."""
    return f'<text x="{x:g}" y="{y:g}"{more}>{escape(text)}</text>'


def places(sizes, start):
    """Where each of these begins when they stand one behind the other, by its key, and where the last one ends."""
    found = {}
    for key, size in sorted(sizes.items()):
        found[key] = start
        start += size
    return found, start


def matrix(blocks, at, colour):
    """Blocks with their lines written into them: the picture, and where it ends to the right and below."""
    widths = {one.col: 2 * PAD + WIDE * max(len(line) for other in blocks if other.col == one.col for line in other.lines)
              for one in blocks}
    heights = {one.row: 2 * PAD + LINE * max(len(other.lines) for other in blocks if other.row == one.row) for one in blocks}
    (x, right), (y, below) = places(widths, at[0]), places(heights, at[1])
    lines = []
    for one in blocks:
        place, sizes = (x[one.col], y[one.row]), (widths[one.col], heights[one.row])
        lines.append(cell(place, sizes, COLOURS[colour(one)], False, "\n".join([f"block ({one.row},{one.col})", *one.lines])))
        lines += [written(place[0] + PAD, place[1] + PAD + LINE * number + 12, line, ' fill="#555"' if number else "")
                  for number, line in enumerate(one.lines)]
    return lines, right, below


def svg(lines, width, height):
    """The whole picture."""
    head = (f'<svg xmlns="http://www.w3.org/2000/svg" width="{width:g}" height="{height:g}" viewBox="0 0 {width:g} {height:g}" '
            'font-family="monospace" font-size="12">')
    return "\n".join([head, f'<rect width="{width:g}" height="{height:g}" fill="white"/>', *lines, "</svg>"]) + "\n"


def expression_picture(pme):
    """A partitioned matrix expression: below what each block is, the tasks that make it, with their numbers."""
    lines, right, below = matrix(pme.blocks, (LEFT, TOP + 12), lambda one: "none")
    return svg([written(LEFT, TOP, pme.title, ' font-weight="bold"'), *lines], max(right, LEFT + WIDE * len(pme.title)) + LEFT,
               below + LEFT)


def rows_of(sheet):
    """The steps of a worksheet in the order of the loop: the step's number, how far it stands in, and its text or its state."""
    said, kept = sheet.said, " ".join(["{", "invariant", *sheet.said["invariant"].split(), "}"])
    yield from (("1a", 0, f"{{ {said['1a']} }}"),) if "1a" in said else ()
    yield "4", 0, f"start {said['start']}"
    yield "2", 0, kept
    yield "3", 0, f"while {' or '.join(said['guard'].split())} has a part that isn't done"
    yield "5a", 1, f"take {said['take']}"
    yield "6", 1, sheet.before
    yield from (("8", 1, f"update {task}") for task in sheet.updates)
    yield "5b", 1, f"give {said['give']}"
    yield "7", 1, sheet.after
    yield "2", 1, kept
    yield "", 0, "end of the loop"
    yield from (("1b", 0, f"{{ {said['1b']} }}"),) if "1b" in said else ()


def sheet_picture(sheet):
    """A worksheet, as textbooks lay it out."""
    title = f"{sheet.said['worksheet']} split {sheet.said['split']}"
    before = {(one.row, one.col): one.tasks for one in sheet.before}
    changed = {(one.row, one.col) for one in sheet.after if one.tasks != before.get((one.row, one.col))}
    lines, y, width = [written(LEFT, TOP, title, ' font-weight="bold"')], TOP + 8, LEFT + WIDE * len(title)
    x = LEFT + STEPS
    for how, text in LEGEND:
        lines += [cell((x, y), (14, 14), COLOURS[how], False, text), written(x + 19, y + 11, text)]
        x += 40 + WIDE * len(text)
    width, y = max(width, x), y + 24
    for step, indent, what in rows_of(sheet):
        x = LEFT + STEPS + INDENT * indent
        lines.append(written(LEFT, y + 12, step, ' fill="#2f5fb3"'))
        if isinstance(what, str):
            lines.append(written(x, y + 12, what))
            right, y = x + WIDE * len(what), y + LINE + 3
        else:
            after = what is sheet.after
            more, right, y = matrix(what, (x, y), lambda one: "changed" if after and (one.row, one.col) in changed
                                    else "some" if one.tasks else "none")
            lines, y = lines + more, y + 6
        width = max(width, right)
    return svg(lines, width + LEFT, y + LEFT)
