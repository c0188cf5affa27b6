"""Which branches of the model were reached, and how often."""

from collections import Counter

REACHED = Counter()


def reach(name):
    """Counts one more pass through the branch of this name."""
    REACHED[name] += 1
