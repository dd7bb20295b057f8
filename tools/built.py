"""Where the program is that a check runs: the one that was built last, or else the one that is kept."""
import os

TOP = os.path.dirname(os.path.dirname(os.path.abspath(__file__)))


def program():
    """The program's path, or None where there is none."""
    for parts in (("crates", "gitstore", "out", "gitstore"), ("bin", "gitstore")):
        path = os.path.join(TOP, *parts)
        if os.access(path, os.X_OK):
            return path
    return None
