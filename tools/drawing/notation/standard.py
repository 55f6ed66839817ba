"""The three standard streams of a program, also where they are closed, full, or nobody reads them.

    prepare     a stream that was closed fails when it is used, and not before; standard error never fails, but knows
                what it lost
    why         why a stream failed, in words
    give_up     standard output took not all of it: what to say, and nothing more is written there
"""

import errno
import os
import sys

# with these a stream that was closed is refused by the system when it is used
CLOSED = {0: os.O_WRONLY, 1: os.O_RDONLY, 2: os.O_RDONLY}


class Said:
    """Standard error. `lost` says that not all of it was written."""

    def __init__(self, stream):
        self.stream = stream
        self.lost = False

    def write(self, text):
        try:
            self.stream.write(text)
            self.stream.flush()
        except OSError:
            self.lost = True
            silence(self.stream.fileno())
        return len(text)

    def flush(self):
        pass  # each text is written at once

    def fileno(self):
        return self.stream.fileno()

    def isatty(self):
        return self.stream.isatty()


def prepare():
    """A closed stream's number is taken, so that no file is opened in its place."""
    for number, mode in CLOSED.items():
        try:
            os.fstat(number)
        except OSError:
            os.open(os.devnull, mode)  # the lowest number that is free: this one
    sys.stdin = sys.stdin or open(0, encoding="utf-8", closefd=False)
    sys.stdout = sys.stdout or open(1, "w", encoding="utf-8", closefd=False)
    sys.stdout.reconfigure(errors="backslashreplace")  # a name that has no letters here is written all the same
    sys.stderr = Said(sys.stderr or open(2, "w", encoding="utf-8", closefd=False))


def why(error):
    if error.errno == errno.EBADF:
        return "it is closed"
    return "nobody reads it any more" if error.errno == errno.EPIPE else error.strerror


def give_up(error):
    silence(sys.stdout.fileno())
    if error.errno == errno.EBADF:
        return "standard output is closed"
    return f"{error.filename or 'standard output is not whole'}: {why(error)}"


def silence(number):
    """What is written there from now on goes nowhere."""
    os.dup2(os.open(os.devnull, os.O_WRONLY), number)
