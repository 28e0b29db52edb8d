"""What a text or a job is refused for."""


class Fault(Exception):
    """A fault of a text: its kind and its line, counted from 1."""

    def __init__(self, kind, line):
        super().__init__(kind, line)
        self.kind = kind
        self.line = line

    def text(self):
        return f"refused {self.kind} line {self.line}"


class Refusal(Exception):
    """A refusal that has no line, such as `TooLong`; `what` is its text behind `refused`."""

    def __init__(self, what):
        super().__init__(what)
        self.what = what

    def text(self):
        return f"refused {self.what}"


# The sixteen kinds of faults of a job text, in the order in which they come within a line.
KINDS = (
    "BadByte", "Header", "TrailingText", "Syntax", "Modulus", "Limit", "NameTwice", "NameUnknown",
    "TooManyTerms", "Shape", "Form", "TooLarge", "RowLength", "EntryRange", "Binding", "Alias",
)
