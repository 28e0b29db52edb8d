"""Words of a run by variants, of `make`, of `selfrun`, and of the commands that name an operation: good ones, and each good
list with a word changed, left out, twice or in another place, and with numbers on each side of their limits."""

from case import Case

from .limits import LU, identity, text

JOB = text(LU, identity("A", 3), identity("B", 2), "do lu A\ndo lu B\nprint A\nprint B\n", modulus=101)
RUN = ["run", "--block", "2", "--workers", "1"]
RUNS = (RUN, [*RUN, "--trace"], [*RUN, "--variants", "5,4"], [*RUN, "--variants", "5,4", "--trace"])
MAKE = ["make", "2", "101", "1"]
PME, PAIR = ["pme", "lu", "n"], ["pme", "lu", "n", "n"]
SHEET = ["worksheet", "lu", "5"]
SELFRUN = ["selfrun", "2", "101", "1", "--block", "1", "--workers", "1"]
# Spellings of a number of which none is good.
MISSPELLED = ("", " ", "x", "01", "00", "+1", "-1", " 1", "1 ", "1.0", "1e0", "0x1", "1_0", "1\t", "1\n", "\u0661", "\uff11",
              "1,1", "1;1", "'1'", "18446744073709551616", "18446744073709551617", "9" * 400, b"1\xff")
LISTS = ("", ",", "0", "1,0", "0,1", "1,", ",1", "1,,1", "1, 1", "1 ,1", " 1,1", "1,1 ", "1;1", "1.1", "01,1", "1,01",
         "1,+1", "1,-1", "1,x", "1,1,", "4294967296,1", "1,4294967296", "4294967295,1", "1,4294967295", "4294967295",
         "9" * 400,
         "18446744073709551617,1", "1\t,1", "1\n,1", "\u0661,1", "1,\uff11", "1,1,1", "1,1", "5,5", "5,6", "6,5", "5", "1-2",
         "[1,1]", "1 1", "10,1", "1,10", "1" + ",1" * 1000, "1" + ",1" * 1000 + ",", "4294967295,4294967295", b"1,1\xff")
# Where a word stands in a good list, and the numbers on each side of its limits.
LIMITS = {
    ("make", 1): (0, 1, 1024, 1025, 4294967296), ("make", 2): (0, 1, 2, 4294967295, 4294967296),
    ("make", 3): (0, 4294967295, 4294967296),
    ("selfrun", 1): (0, 1, 1024, 1025), ("selfrun", 2): (0, 1, 2, 4294967295, 4294967296),
    ("selfrun", 3): (0, 4294967295, 4294967296), ("selfrun", 5): (0, 1, 1024, 1025, 4294967297),
    ("selfrun", 7): (0, 1, 2, 8, 16, 17, 4294967297),
    ("run", 2): (0, 1, 1024, 1025, 4294967297), ("run", 4): (0, 1, 2, 8, 16, 17, 4294967297),
    ("worksheet", 2): (0, 1, 2, 5, 6, 4294967295, 4294967296, 4294967301),
}
# Spellings of a name; the first two are good.
NAMES = ("q" * 32, "l_u", "q" * 33, "", " ", "lu ", " lu", "1u", "_lu", "l-u", "lu,", "lu'", "l u", "l\tu", "lu\n", "\u00e9",
         "l\u00fc", "q" * 5000, b"lu\xff")



def is_number(word):
    """Whether a good word is a number."""
    return word.isdigit()


def spelled_otherwise(word):
    """Words that are near to one."""
    if word.startswith("--"):
        return (word[1:], word[2:], word + "=", word[:-1], word + "s", word.upper(), word + " ", "-" + word, "")
    return (word.upper(), word + "s", word[:-1], word + " ", " " + word, "--" + word)


def changed(words):
    """A good list with one word or two of them changed."""
    for at, word in enumerate(words):
        yield words[:at] + words[at + 1:]
        yield words[:at + 1] + words[at:]
        for other in range(at + 1, len(words)):
            swapped = list(words)
            swapped[at], swapped[other] = swapped[other], swapped[at]
            yield swapped
        for near in () if is_number(word) or "," in word else spelled_otherwise(word):
            yield words[:at] + [near] + words[at + 1:]
    for word in ("--trace", "--variants", "1", "1,1", "", "--steal", "x"):
        yield [*words, word]
        yield [words[0], word, *words[1:]]


def numbers(words):
    """A good list with each number misspelled, and on each side of its limits."""
    for at, word in enumerate(words):
        if is_number(word):
            for spelled in (*MISSPELLED, *LIMITS[words[0], at]):
                yield words[:at] + [spelled if isinstance(spelled, bytes) else str(spelled)] + words[at + 1:]


def moved(words):
    """A run whose option and value, or whose trace, stand in another place."""
    head, pairs = words[:1], [words[1:3], words[3:5], *([words[5:7]] if "--variants" in words else [])]
    tail = ["--trace"] if "--trace" in words else []
    pieces = pairs + ([tail] if tail else [])
    for at, piece in enumerate(pieces):
        rest = pieces[:at] + pieces[at + 1:]
        for place in range(len(pieces)):
            yield head + [word for part in rest[:place] + [piece] + rest[place:] for word in part]
        yield head + [word for part in pieces + [piece] for word in part]


def named_lists(built):
    """Words of the commands that name operations, and of `check`, changed in the same ways; each name misspelled."""
    good = [PME, PAIR] * built.pme + [SHEET] * built.worksheet + [["check"]] * built.check
    for words in good:
        yield from ([list(words)], changed(words), numbers(words))
        for at, word in enumerate(words):
            if at and not is_number(word):
                yield [words[:at] + [name] + words[at + 1:] for name in NAMES]


def word_lists(built):
    """All lists of words, each once."""
    lists = [list(words) for words in (*RUNS, MAKE, SELFRUN)]
    lists += [words for found in named_lists(built) for words in found]
    for words in (RUNS[3], MAKE, SELFRUN):
        lists += [*changed(words), *numbers(words)]
    lists += [words for run in RUNS for words in moved(run)]
    for spelled in LISTS:
        lists += [[*RUN, "--variants", spelled], [*RUN, "--variants", spelled, "--trace"]]
    lists += [["make", "0", "2", "0"], ["make", "1024", "2", "0"], ["make", "1025", "2", "0"], ["make"], ["selfrun"],
              ["make", "2", "101"], SELFRUN[:4], ["make", *SELFRUN[1:]], [*MAKE, "--block", "1"],
              ["selfrun", *RUN[1:], *MAKE[1:]], ["run", *MAKE[1:], *RUN[1:]], [*SELFRUN, "--variants", "1,1,1,1"],
              ["Make", *MAKE[1:]], ["mk", *MAKE[1:]], ["self-run", *SELFRUN[1:]], ["SELFRUN", *SELFRUN[1:]]]
    return {tuple(words): words for words in lists if "\0" not in "".join(map(str, words))}.values()


def spelling_cases(built):
    """Each list of words, with an input that a run with good words does."""
    for number, words in enumerate(word_lists(built)):
        yield Case(f"words: {number}, {' '.join(map(str, words))[:60]}", list(words), JOB)
