"""The seven structures: views of a stored matrix and their zero blocks."""

STRUCTURES = ("general", "lower", "unitlower", "upper", "unitupper", "diagonal", "symmetric")
TRIANGULAR = ("lower", "unitlower", "upper", "unitupper", "diagonal")
WORK_STRUCTURES = ("general", "lower", "upper")
UNIT = ("unitlower", "unitupper")
TRANSPOSES = {"lower": "upper", "unitlower": "unitupper", "upper": "lower", "unitupper": "unitlower"}


def transposed(structure):
    """The structure of the transpose."""
    return TRANSPOSES.get(structure, structure)


def inside(structure, i, j):
    """Whether entry or block (i, j) is in the structure, so that it isn't zero by it."""
    if structure in ("lower", "unitlower"):
        return i >= j
    if structure in ("upper", "unitupper"):
        return i <= j
    if structure == "diagonal":
        return i == j
    return True


def viewed(structure, cells, i, j):
    """Entry (i, j) of the view of stored rows."""
    if structure in UNIT and i == j:
        return 1
    if structure == "symmetric" and i < j:
        return cells[j][i]
    return cells[i][j] if inside(structure, i, j) else 0
