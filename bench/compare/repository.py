"""Where the repository stands, and which program is compared."""
import os
import sys

TOP = os.path.abspath(os.path.join(os.path.dirname(__file__), "..", ".."))


def program_at(place):
    """The program that the command line names at a place, or else IOAM, or else the repository's."""
    named = sys.argv[place] if len(sys.argv) > place else os.environ.get("IOAM")
    return os.path.abspath(named or os.path.join(TOP, "ioam"))
