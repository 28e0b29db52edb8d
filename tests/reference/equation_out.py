"""The equation of an operation as normal text."""


def factor_text(operation, factor):
    """A factor's name with its prime."""
    return operation.knowns[factor.known].name + ("'" if factor.primed else "")


def left_text(operation):
    """The left side."""
    if operation.form in ("lu", "ldl"):
        return f"{operation.form} X"
    if operation.form == "assign":
        return "X"
    t = factor_text(operation, operation.t)
    if operation.form == "right":
        return f"X * {t}"
    if operation.form == "left":
        return f"{t} * X"
    return f"{t} * X {'-' if operation.minus else '+'} X * {factor_text(operation, operation.u)}"


def equation_text(operation):
    """The equation."""
    terms = [f" {'-' if term.minus else '+'} {factor_text(operation, term.first)} * {factor_text(operation, term.second)}"
             for term in operation.terms]
    return f"{left_text(operation)} = {operation.work.name}" + "".join(terms)
