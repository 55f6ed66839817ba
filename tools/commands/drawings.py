"""A drawing, its table and its events by name; errors with an exit status.

    Stop        an error for the user: a text, and the exit status
    Errors      every error of a drawing's text
    load        the drawing of a file, of an example's name, or of standard input
    Loaded      its table's bytes; events by name and number, both ways
"""

import difflib
import sys
from pathlib import Path

from . import ROOT, TOOLS
from notation.assemble import Assembled
from notation.parse import parse
from notation.source import Problem, Source, Token, near, tokens
from notation.standard import why
from notation.syntax import NamedEvent

from .words import many

INSTALLED = TOOLS / "examples"
EXAMPLES = INSTALLED if INSTALLED.is_dir() else ROOT / "examples"
RUNNING, FAILED, REFUSED, WRONG_USE = 0, 1, 2, 3


class Stop(Exception):
    def __init__(self, text, status=WRONG_USE):
        super().__init__(text)
        self.status = status


def examples():
    if not EXAMPLES.is_dir():
        return []
    return sorted(str(file.relative_to(EXAMPLES).with_suffix("")) for file in EXAMPLES.rglob("*.csp"))


def found_file(name):
    for file in (Path(name), EXAMPLES / f"{name}.csp"):
        if name and file.exists() and not file.is_dir():  # a pipe of the shell, as <(..), will do
            return file
    if name and Path(name).is_dir():
        raise Stop(f"{name} is a directory; a drawing is a file")
    close = difflib.get_close_matches(name, examples(), 1)
    raise Stop(f"there is no drawing {name or 'without a name'}" + (f"; is {close[0]} meant?" if close else ""))


def read(name):
    """A drawing's text. Bytes that are no text are an error at their place; a text without a word is empty."""
    try:
        data = sys.stdin.buffer.read() if name == "-" else found_file(name).read_bytes()
    except OSError as error:
        raise Stop(f"cannot read {'standard input' if name == '-' else name}: {why(error)}") from None
    shown = "-" if name == "-" else shown_file(found_file(name))
    source = Source(shown, data.decode("utf-8", "replace"))
    try:
        data.decode("utf-8")
    except UnicodeDecodeError as error:
        before = data[: error.start].decode("utf-8").split("\n")
        at = Token(source, "unknown", "?", len(before), len(before[-1]) + 1, False)
        raise Errors(shown, [Problem(f"Byte {data[error.start]:02X} is not UTF-8 here.", at)]) from None
    strange = []
    if len(tokens(source, strange)) == 1 and not strange:
        message = "The drawing is empty: it begins with `alphabet`, as in `alphabet stamp, left`."
        raise Errors(shown, [Problem(message, name=shown)])
    return source


def shown_file(file):
    """A file's name as a user would type it."""
    file = Path(file)
    here = Path.cwd()
    whole = file.resolve()
    return str(whole.relative_to(here)) if whole.is_relative_to(here) else str(file)


class Errors(Exception):
    """Each with its line and a caret, and how many there are."""

    def __init__(self, name, problems):
        lines = [problem.shown() for problem in problems]
        super().__init__("\n".join([*lines, f"{name}: {many(len(lines), 'error')}"]))


def worth_telling(problems):
    """In the order of the text; of a line that has a sign of another notation only those signs."""
    strange = {problem.at.line for problem in problems if problem.at.kind == "unknown"}
    kept = [problem for problem in problems if problem.at.kind == "unknown" or problem.at.line not in strange]
    return sorted(kept, key=lambda problem: (problem.at.line, problem.at.column))


def load(name):
    source = read(name)
    problems = []
    tree = parse(source, problems)
    unread = bool(problems)
    assembled = Assembled(tree, problems)
    if problems:
        # where a statement could not be read, what may be for want of it is not told
        raise Errors(source.name, worth_telling([one for one in problems if not (unread and one.wants)]))
    return Loaded(source, assembled)


class Loaded:
    def __init__(self, source, assembled):
        self.source = source
        self.assembled = assembled
        self.table = assembled.bytes()
        self.numbers = {
            name: what.number for name, what in assembled.names.meaning.items() if isinstance(what, NamedEvent)
        }
        self.names = {number: name for name, number in self.numbers.items()}

    def name(self, event):
        return self.names.get(event, str(event))

    def listed(self, events, none="nothing"):
        return ", ".join(self.name(event) for event in events) or none

    def event(self, word):
        """An event by its name or its number; a number that is no event of the alphabet is the monitor's to judge."""
        if word in self.numbers:
            return self.numbers[word]
        if word.isascii() and word.isdigit():
            if len(word) > 3 or int(word) > 255:
                raise Stop(f"{word} is no event: an event is one byte")
            return int(word)
        raise Stop(f"`{word}` is not the name of an event{near(word, self.numbers) or self.hint()}")

    def hint(self):
        if not self.numbers:
            return f"; events are 0 to {self.assembled.drawing.size - 1}"
        return f"; events are {self.listed(sorted(self.names))}"
