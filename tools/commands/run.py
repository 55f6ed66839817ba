"""cspe run: the verdict of events, in words."""

from .drawings import REFUSED, load
from .judging import Judge
from .streams import pieces

ABOUT = """\
Judges events by a drawing; without any it says how the drawing starts. An EVENT is a name of the drawing or a number.
In place of events `-` takes them from standard input as they come, `@FILE` from a file: names or numbers, one or more
on a line, `--` begins a comment; with --raw bytes.
It ends at the first event that is not permitted or that is refused, and does not look at what stands behind it. Where a
word is no event, what stands before it is judged and told, and the exit status is 3.
Exit status: 0 running, 1 failed, 2 refused, or an error in the drawing, 3 wrong use."""

PRODUCT = False  # what it writes is its answer


def add_options(parser):
    parser.add_argument("drawing", metavar="DRAWING", help="a file, or the name of an example")
    parser.add_argument("events", metavar="EVENT", nargs="*", default=[], help="names or numbers; or `-`, or `@FILE`")
    parser.add_argument("--raw", action="store_true", help="events are bytes, one each")
    parser.add_argument("--each", action="store_true", help="a line after each event")
    parser.add_argument("--slots", type=int, metavar="N", help="as if so many slots were lent")
    parser.add_argument("--peak", action="store_true", help="also the most residuals that were held at a time")


def run(options):
    drawing = load(options.drawing)
    judge = Judge(drawing, options.slots)
    events = pieces(drawing, options.events, options.raw)
    if options.each and judge.status == 0:
        print(judge.verdict(), flush=True)
    try:
        follow(drawing, judge, events, options.each)
    finally:
        # what was judged is told, also where the next word is no event
        if not options.each or judge.status != 0:
            print(judge.verdict(), flush=True)
        if options.peak and judge.status != REFUSED:
            print(f"peak {judge.monitor.peak()}: as many slots would have done, and at least one")
    return judge.status


def follow(drawing, judge, events, each):
    for piece in events:
        for part in [[event] for event in piece] if each else [piece]:
            if not judge.take(part):
                return
            if each:
                print(f"{drawing.name(part[0])}: {judge.verdict()}", flush=True)
