"""cspe step: events one by one, by hand or through a pipe."""

import sys

from .drawings import RUNNING, WRONG_USE, Stop, load
from .explain import stands
from .judging import Judge
from .streams import next_line

ABOUT = """\
Reads events from standard input, by a terminal or a pipe, and says after each what is permitted. Besides events it
takes these words (with `:` before them where an event has the same name):
    undo      takes back the last event
    where     where in the drawing it stands
    again     from the start
    help      these words
    quit      ends, as the end of the input does
An event that is not permitted or that is refused is told and not taken: type another. So is a word that is none of
all these.
Exit status: 0; 1 where the last event was not permitted, 2 where it was refused, 3 for wrong use; from a pipe also
where any word was none of these, whatever came after it."""

PRODUCT = False

WORDS = ("undo", "where", "again", "help", "quit")


def add_options(parser):
    parser.add_argument("drawing", metavar="DRAWING", help="a file, or the name of an example")


def run(options):
    if options.drawing == "-":
        raise Stop("events come from standard input: the drawing is a file")
    drawing = load(options.drawing)
    session = Session(drawing)
    print(session.judge.verdict(), flush=True)
    while session.open:
        if sys.stdin.isatty():
            print("> ", end="", flush=True)
        words = next_line(sys.stdin.buffer, "standard input")
        if words is None:
            break
        for word in words:
            session.word(word)
            if not session.open:
                break
    return WRONG_USE if session.strange and not sys.stdin.isatty() else session.status


class Session:
    """`saved` are the states before each event that was taken; `strange` says that a word was none."""

    def __init__(self, drawing):
        self.drawing = drawing
        self.open, self.strange = True, False
        self.begin()

    def begin(self):
        self.judge = Judge(self.drawing)
        self.saved = []
        self.status = self.judge.status

    def word(self, word):
        plain = word.removeprefix(":")
        if plain in WORDS and (word.startswith(":") or word not in self.drawing.numbers):
            getattr(self, plain)()
            return
        try:
            event = self.drawing.event(word)
        except Stop as error:
            self.strange = True
            print(f"cspe: {error}; `help` has the other words", file=sys.stderr, flush=True)
            return
        self.take(event)

    def take(self, event):
        before = self.judge.monitor.save()
        if self.judge.take([event]):
            self.saved.append(before)
            print(f"{self.drawing.name(event)}: {self.judge.verdict()}", flush=True)
        else:
            print(f"{self.judge.verdict()}; not taken", flush=True)
        self.status = self.judge.status
        if self.judge.monitor.running():
            self.judge.status, self.judge.event = RUNNING, None

    def undo(self):
        if not self.saved:
            print("nothing to take back", flush=True)
            return
        self.judge.monitor.restore(self.saved.pop())
        self.status = RUNNING
        print(f"undo: {self.judge.verdict()}", flush=True)

    def where(self):
        print("\n".join(stands(self.drawing, self.judge, False)) or self.judge.verdict(), flush=True)

    def again(self):
        self.begin()
        print(self.judge.verdict(), flush=True)

    def help(self):
        print(ABOUT, flush=True)
        print(f"events: {self.drawing.listed(range(self.drawing.assembled.drawing.size))}", flush=True)

    def quit(self):
        self.open = False
