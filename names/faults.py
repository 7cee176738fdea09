"""What went wrong, and how it is told."""

import sys


class Faulty(Exception):
    """The faults of a text, or of bytes, each with its place."""


class Unable(Exception):
    """Why nothing could be done."""


def complain(faults):
    """Tells faults, ten at the most. The status that they stand for."""
    faults = list(faults)
    more = [f"and {len(faults) - 10} more"] if len(faults) > 10 else []
    for fault in faults[:10] + more:
        print(f"kitchen: {fault}", file=sys.stderr)
    return 1 if faults else 0


def content(path):
    """The bytes of a file."""
    try:
        with open(path, "rb") as file:
            return file.read()
    except OSError as error:
        raise Unable(f"{path}: {error.strerror}") from error
