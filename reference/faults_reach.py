"""How often the inputs of a comparison reach each answer and each branch of the model."""

from collections import Counter

REACHED = Counter()


def reached(branch):
    """Counts one more that came this way."""
    REACHED[branch] += 1


def table():
    """What was reached, a line each, in the order of the names."""
    return "".join(f"{count:9d}  {branch}\n" for branch, count in sorted(REACHED.items()))
