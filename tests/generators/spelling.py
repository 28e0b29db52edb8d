"""Texts as rows of tokens, each with its role, and their spelling with blanks, comments and empty lines."""

LETTERS = "ABCDEFGHIJKLMNOPQRSTUVWXYZabcdefghijklmnopqrstuvwxyz"
NAME_BYTES = LETTERS + "0123456789_"
WORDS = ("end", "known", "work", "dims", "do", "print", "matrix", "operation", "equation", "general", "lower", "lu",
         "ldl", "flame", "modulus", "after", "worksheet", "X")


class Row:
    """A line's tokens and what the line is: header, modulus, operation, dims, work, known, equation, opend, matrix,
    row, matend, do, print, after."""

    def __init__(self, role, *tokens):
        self.role = role
        self.tokens = [str(token) for token in tokens]

    def copy(self):
        return Row(self.role, *self.tokens)


def fresh_name(rng, taken, words=WORDS):
    """A name that isn't taken: mostly short, at times of up to 32 bytes or a word of the grammar."""
    while True:
        chance = rng.random()
        if chance < 0.08:
            name = rng.choice(words)
        else:
            length = rng.choice((1, 1, 2, 3, 5)) if chance < 0.9 else rng.choice((8, 31, 32))
            name = rng.choice(LETTERS) + "".join(rng.choice(NAME_BYTES) for _ in range(length - 1))
        if name not in taken:
            return name


def is_word_byte(byte):
    return byte.isalnum() or byte == "_"


def joined(rng, tokens):
    """The tokens with blanks between them, and none where none is wanted and chance says so."""
    text = ""
    for token in tokens:
        touching = text and is_word_byte(text[-1]) and is_word_byte(token[0])
        if text and (touching or rng.random() < 0.7):
            text += rng.choice((" ", " ", " ", "  ", "\t", " \t ", "\r", "   "))
        text += token
    return text


def comment(rng):
    """A comment: any bytes but a line feed."""
    length = rng.choice((0, 1, 5, 12))
    return b"#" + bytes(rng.choice((rng.randrange(256), 64, 35, 95, 32)) for _ in range(length)).replace(b"\n", b"")


def spelled_line(rng, tokens):
    """One line, perhaps with lines without tokens in front of it."""
    line = b""
    while rng.random() < 0.15:
        line += rng.choice((b"", b"  ", b"\r", b"\t", comment(rng))) + b"\n"
    line += rng.choice(("", "", "  ", "\t")).encode() + joined(rng, tokens).encode("ascii")
    line += rng.choice((b"", b"", b"", b" ", b"\r", b"\t "))
    if rng.random() < 0.15:
        line += comment(rng)
    return line + b"\n"


def plain(rows):
    """The rows with one space between tokens."""
    return "".join(" ".join(row.tokens) + "\n" for row in rows).encode("ascii")


def spelled(rng, rows):
    """The rows in normal text or loosely spelled; at times without the last line feed or with lines behind."""
    loose = rng.random() < 0.5 and sum(len(row.tokens) for row in rows) < 4000
    text = b"".join(spelled_line(rng, row.tokens) for row in rows) if loose else plain(rows)
    chance = rng.random()
    if chance < 0.1:
        return text[:-1]
    if chance < 0.2:
        return text + rng.choice((b"\n", b"  ", b"\n\n#", comment(rng), b"\r\n"))
    return text
