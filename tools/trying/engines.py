"""Who answers before the program is proved. An engine has `what`, a sentence about itself, `ask`, a run's line, and
`peak`, the most residuals that the run held at a time, if it can tell.

Unproved      the program's own code without its proof, by `rt try`
Reference     tools/reference, another implementation of document 01
"""

import re
import shutil

from trying.children import TooLong, said
from trying.drawings import LINE, ROOT

PROGRAM = "line_monitor"
PEAK = re.compile(r"peak (\d+)")

# the last line of `rt try`: the interpreter and the compiled program wrote the same
AGREED = re.compile(r"^run=ended status=0 runners=2 ", re.MULTILINE)


class NoAnswer(Exception):
    """Why an engine has none."""


class Unproved:
    """`rt try` gives the program the input that it has itself, and runs it on an interpreter and compiled with checks."""

    what = "the program's own code, without its proof: rt try, on the interpreter and compiled with checks"

    def __init__(self, seconds=None):
        """It has an answer within these seconds, or none."""
        self.seconds = seconds

    def ask(self, run):
        try:
            with run.input.open("rb") as data:
                _, text = said(["rt", "try"], self.seconds, cwd=ROOT / "crates" / PROGRAM, stdin=data)
        except TooLong:
            raise NoAnswer(f"rt try took longer than {self.seconds} s") from None
        lines = [line for line in text.splitlines() if LINE.fullmatch(line)]
        if len(lines) != 1 or not AGREED.search(text):
            raise NoAnswer(f"rt try says: {text.strip() or 'nothing'}")
        return lines[0]

    def peak(self, _):
        return None


class Reference:
    what = "tools/reference, another implementation of document 01: not the program, and not proved"

    def __init__(self):
        folder = ROOT / "tools" / "reference"
        self.program = folder / "target" / "release" / "reference"
        if not shutil.which("cargo"):
            raise NoAnswer("cargo is not there")
        status, text = said(["cargo", "build", "--release", "--offline", "--quiet"], cwd=folder)
        if status != 0:
            raise NoAnswer(f"tools/reference cannot be built:\n{text.strip()}")

    def ask(self, run):
        _, text = said([self.program, "line", run.input])
        if not LINE.fullmatch(text.strip()):
            raise NoAnswer(f"tools/reference says: {text.strip() or 'nothing'}")
        return text.strip()

    def peak(self, run):
        _, text = said([self.program, "peak", run.input])
        found = PEAK.fullmatch(text.strip())
        return found and found[1]
