"""A drawing, its runs, and how an answer is shown.

Run         events, the program's input of them, and the line that is expected, if one is
runs_of     the runs of a drawing, each made an input: an error in the drawing or an event is told here
show        a run with its answer
"""

import contextlib
import difflib
import io
import os
import re
import runpy
import sys
from dataclasses import dataclass
from pathlib import Path

ROOT = Path(__file__).resolve().parents[2]
EXAMPLES = ROOT / "examples"
DRAWING = ROOT / "tools" / "drawing"
sys.path.insert(0, str(DRAWING))
COMMAND = runpy.run_path(str(DRAWING / "__main__.py"))["main"]
LINE = re.compile(r"(running|failed|refused) \d+ \d+")


class Stop(Exception):
    """An error, as text, and the exit status."""

    def __init__(self, text, status=2):
        super().__init__(text)
        self.status = status


@dataclass
class Run:
    comment: str
    events: list
    expected: str
    input: Path


def names():
    """The examples, as document 01 counts them: k4 before k10."""
    found = [str(file.relative_to(EXAMPLES).with_suffix("")) for file in EXAMPLES.rglob("*.csp")]
    return sorted(found, key=lambda name: [int(part) if part.isdigit() else part for part in re.split(r"(\d+)", name)])


def list_examples():
    for name in names():
        first = (EXAMPLES / f"{name}.csp").read_text(encoding="utf-8").partition("\n")[0]
        print(f"{name:<14} {first.removeprefix('-- ')}")


def found_drawing(name):
    for file in (EXAMPLES / f"{name}.csp", Path(name)):
        if file.is_file():
            return file
    close = difflib.get_close_matches(name, names(), 1)
    hint = f"is {close[0]} meant?" if close else "tools/try --list has the examples"
    raise Stop(f"there is no drawing {name}; {hint}")


def drawing(*words):
    """A command of tools/drawing, in this process: its exit status and what it says, with a file as `shown`."""
    text = io.StringIO()
    with contextlib.redirect_stdout(text), contextlib.redirect_stderr(text):
        try:
            status = COMMAND([str(word) for word in words])
        except SystemExit as left:
            status = left.code
    return status, text.getvalue().replace(f"{ROOT}/", "")


def runs_of(file, events, folder):
    """The runs: of these events, or of NAME.runs where there are none, or of no event."""
    status, text = drawing("assemble", file, "-o", os.devnull)
    if status != 0:
        raise Stop(text.rstrip("\n"), status)
    listed = file.with_suffix(".runs")
    if not events and listed.is_file():
        wanted = list(read_runs(listed))
    else:
        wanted = [("", "", events, "")]
    found = []
    for number, (place, comment, words, expected) in enumerate(wanted):
        run = Run(comment, words, expected, folder / f"input{number}")
        status, text = drawing("input", file, *words, "-o", run.input)
        if status != 0:
            raise Stop(place + text.rstrip("\n"), status)
        found.append(run)
    return found


def read_runs(file):
    """Of each line `EVENT .. => LINE`: its place, the comment above it, the events, the line expected."""
    above = []
    for number, text in enumerate(file.read_text(encoding="utf-8").splitlines(), 1):
        words, mark, _ = text.partition("--")
        if not words.strip():
            above += [text] if mark else []
            continue
        events, arrow, expected = words.partition("=>")
        if not arrow or not LINE.fullmatch(expected.strip()):
            raise Stop(f"{shown(file)}:{number}: a run is `EVENT .. => LINE`, as `0 1 => running 2 1`", 1)
        yield f"{shown(file)}:{number}: ", "\n".join(above), events.split(), expected.strip()
        above = []


def shown(file):
    """A file's name as a user would type it."""
    file = Path(file)
    return str(file.relative_to(ROOT)) if file.is_relative_to(ROOT) else str(file)


# ---- what is shown


def tell(text=""):
    """What is being done: on standard error. The answers go to standard output."""
    print(text, file=sys.stderr, flush=True)


def show_drawing(file):
    print(f"drawing  {shown(file)}\n")
    for line in file.read_text(encoding="utf-8").rstrip("\n").split("\n"):
        print(f"    {line}" if line else "")
    print(flush=True)


def show(run, line, file, peak=None):
    """A run and its answer, with its peak if that is known; whether the line is the one expected."""
    if run.comment:
        print(run.comment)
    print("events  ", " ".join(run.events) or "none")
    data = run.input.read_bytes()
    rows = [data[at : at + 16].hex(" ").upper() for at in range(0, len(data), 16)]
    print("input   ", "\n         ".join(rows))
    print("line    ", line)
    for text in about(run.events, line, file):
        print("        ", text)
    if peak is not None:
        print("peak    ", peak)
    right = show_expected(run, line)
    print(flush=True)
    return right


def show_expected(run, line):
    right = run.expected in ("", line)
    if not right:
        print("expected", run.expected)
    return right


def about(events, line, file):
    """The event that a verdict or refusal is about, if there is one; where in the drawing a refusal is."""
    verdict, number, place = line.split()
    number, place = int(number), int(place)
    if verdict == "failed":
        if number == 0:
            return ["no event is permitted, and no beginning"]
        if number <= len(events):
            return [f"event {number}, counted from 1, is {events[number - 1]}"]
    if verdict == "refused" and number in (5, 7, 8, 9):
        return drawing("where", file, "refused", number, place)[1].splitlines()
    if verdict == "refused" and number in (11, 13) and place < len(events):
        return [f"event {place}, counted from 0, is {events[place]}"]
    return []
