"""cspe explain: why events failed or were refused, and where in the drawing."""

from collections import Counter
from typing import NamedTuple

from .drawings import FAILED, load
from .judging import Judge
from .streams import pieces
from .words import many
from notation.syntax import Prefix, Stop

ABOUT = """\
Says at the event that failed which event came, which were permitted, and where in the drawing each residual stood that
was held just before: a caret below each term that waits, and what it waits for. Of events that are permitted it says
where they lead. Of a refused drawing it says which rule is broken, and how to mend it. Events are given and judged as
`cspe run --help` says.
Exit status: 0 running, 1 failed, 2 refused, or an error in the drawing, 3 wrong use."""

PRODUCT = False

WAYS = 12  # shown, but with --all
EVENTS = 8  # shown before the one that failed
FAR = 70  # columns, behind which words do not stand beside a caret


def add_options(parser):
    parser.add_argument("drawing", metavar="DRAWING", help="a file, or the name of an example")
    parser.add_argument("events", metavar="EVENT", nargs="*", default=[], help="names or numbers; or `-`, or `@FILE`")
    parser.add_argument("--raw", action="store_true", help="events are bytes, one each")
    parser.add_argument("--slots", type=int, metavar="N", help="as if so many slots were lent")
    parser.add_argument("--all", action="store_true", help=f"every residual, where there are more than {WAYS}")


def run(options):
    drawing = load(options.drawing)
    judge = Judge(drawing, options.slots)
    events = pieces(drawing, options.events, options.raw)
    try:
        for piece in events:
            if not judge.take(piece):
                break
    finally:
        # what was judged is told, also where the next word is no event
        print(judge.verdict())
        print("\n".join(["", *story(drawing, judge), "", *stands(drawing, judge, options.all)]))
    return judge.status


# ---- the events


def story(drawing, judge):
    """The last events, each with its place, and the one that was not taken."""
    first = judge.monitor.taken() - len(judge.last[-EVENTS:])
    found = [f"    {first + at:>6}  {drawing.name(e)}" for at, e in enumerate(judge.last[-EVENTS:], 1)]
    if first > 0:
        found.insert(0, f"    {'':>6}  .. {many(first, 'event')} before")
    if judge.event is not None:
        what = "not permitted" if judge.status == FAILED else "refused"
        found.append(f"    {judge.monitor.taken() + 1:>6}  {drawing.name(judge.event)}    <- {what}")
    return found or ["    no event"]


# ---- where the drawing stands


class Told(NamedTuple):
    """A leaf in words; `sided` also says on which side it stands, where others at its place have another reason."""

    plain: tuple
    sided: tuple


def stands(drawing, judge, everything):
    found = judge.standings()
    event = judge.event if judge.status == FAILED else None
    if not found:
        return doomed_start(judge) if judge.status == FAILED else []
    when = "just before it" if judge.event is not None else "now"
    lines = [f"{drawing.source.name} stands here {when}:" if len(found) == 1 else
             f"{drawing.source.name} may stand in {len(found)} ways {when}:"]
    shown = found if everything else found[:WAYS]
    told = [residual_lines(drawing, residual, event, judge.terms.doomed) for residual in found]
    common, own = compared(told)
    lines += part("in each of them", common)
    for number, leaves in enumerate(own[: len(shown)], 1):
        lines += part(f"way {number}" if len(found) > 1 else None, leaves)
    if not any(own):
        lines += ["", f"  the ways differ only in {difference(found)}"]
    if len(shown) < len(found):
        lines += ["", f"  and {many(len(found) - len(shown), 'way')} more; --all shows them"]
    if event is not None and not any(event in leaf.events for residual in found for leaf in residual.leaves()):
        lines += ["", f"  none of them waits for {drawing.name(event)}"]
    return lines


def part(head, leaves):
    """The lines of some leaves below their head; nothing where there are none."""
    shown = [line for leaf in leaves for line in leaf]
    return ["", *([f"  {head}"] if head else []), *shown] if shown else []


def compared(told):
    """The leaves that each way has, and of each way the others. A leaf that stands on another side in another way is
    among the common ones, without its side."""
    if len(told) == 1:
        return [], [[leaf.sided for leaf in told[0]]]
    same = shared([[leaf.sided for leaf in leaves] for leaves in told])
    rest = [without(leaves, same, lambda leaf: leaf.sided) for leaves in told]
    moved = shared([[leaf.plain for leaf in leaves] for leaves in rest])
    own = [without(leaves, moved, lambda leaf: leaf.plain) for leaves in rest]
    common = [leaf.plain if leaf in rest[0] else leaf.sided for leaf in without(told[0], own[0], lambda leaf: leaf)]
    return common, [[leaf.sided for leaf in leaves] for leaves in own]


def shared(told):
    """The leaves that each way has."""
    common = Counter(told[0])
    for leaves in told[1:]:
        common &= Counter(leaves)
    return [leaf for leaf in dict.fromkeys(told[0]) for _ in range(common[leaf])]


def without(leaves, common, words):
    left = Counter(common)
    found = []
    for leaf in leaves:
        if left[words(leaf)]:
            left[words(leaf)] -= 1
        else:
            found.append(leaf)
    return found


def difference(found):
    """Of ways that have the same leaves: what else differs."""

    def differ(what):
        return len({tuple(sorted(map(what, residual.nodes()))) for residual in found}) > 1

    if differ(lambda node: node.place.number):
        return "the parallels that these stand under"
    if differ(lambda node: (node.place.number, node.memory)):
        return "the events that they remember"
    return "which side of a parallel stands where"


def doomed_start(judge):
    start = judge.drawing.assembled.drawing.definitions[-1]
    return [f"{start.name}, the start, is doomed: FAIL stands on each of its ways, or on a side of its parallel."]


def residual_lines(drawing, residual, event, doomed):
    """Of each leaf its line of the drawing, and one with a caret and what it waits for."""
    leaves = residual.leaves()
    reasons = [reason(drawing, residual, leaf, event, doomed) for leaf in leaves]
    found = []
    for leaf, why in zip(leaves, reasons):
        like = [one for one in leaves if one.place is leaf.place]
        several = len({other for one, other in zip(leaves, reasons) if one.place is leaf.place}) > 1
        at, side = leaf.place.term.at, side_of(residual, leaf, like) if several else ""
        plain, sided = ([said_of(drawing, leaf, words), *why] for words in ("", side))
        found.append(Told(source_lines(at, plain), source_lines(at, sided)))
    return found


def side_of(residual, leaf, like):
    """Words for the side that a leaf stands on: the parallels, the innermost first, that tell it from those like it."""
    own, *others = (path(residual, one, like) for one in [leaf, *(one for one in like if one is not leaf)])
    apart = (n for n in range(1, len(own)) if not any(other[:n] == own[:n] for other in others))
    needed = next(apart, len(own))
    told = [f"{side} of {'that' if more else 'the parallel'} at {at}" for more, (side, at) in enumerate(own[:needed])]
    return f", {' and '.join(told)},"


def path(node, leaf, like):
    """The sides that lead to a leaf, at the parallels with leaves like it on both sides, the innermost first."""
    if not node.sides:
        return []
    at, right = node.place.term.at, leaf in node.sides[1].leaves()
    inner = path(node.sides[right], leaf, like)
    both = all(any(one in like for one in side.leaves()) for side in node.sides)
    return [*inner, ("right" if right else "left", f"{at.line}:{at.column}")] if both else inner


def source_lines(at, what):
    """A line of the drawing, a caret below a token, and words beside it; where that is far right, below it."""
    text = at.source.lines[at.line - 1].rstrip("\r").replace("\t", " ")
    margin = f"  {at.line:>5} | "
    below = f"{'|':>{len(margin) - 1}} "
    caret = f"{' ' * (at.column - 1)}{'^' * max(1, len(at.text))}"
    first, *more = [f"{at.line}:{at.column} {what[0]}", *what[1:]]
    if len(caret) > FAR:
        return (margin + text, below + caret, *(f"{below}{words}" for words in [first, *more]))
    beside = " " * (len(caret) + 1)
    return (margin + text, f"{below}{caret} {first}", *(f"{below}{beside}{words}" for words in more))


def said_of(drawing, leaf, side):
    """What a leaf waits for; `side` are words behind its name."""
    name = f"{leaf.place.definition.name}{side}"
    if isinstance(leaf.place.term, Stop):
        return f"{name} is at its end: STOP takes no event"
    return f"{name} waits for {drawing.listed(leaf.events, 'an event of an empty set')}{remembered(drawing, leaf)}"


def reason(drawing, residual, leaf, event, doomed):
    """Of a leaf that waits for the event that failed, why that is not enough: one line, or none."""
    if event is None or event not in leaf.events:
        return ()
    if id(leaf.place.term.follower) in doomed:
        return (f"behind {drawing.name(event)} all ways are FAIL",)
    gates = [gate for gate in gates_of(residual, leaf, event) if not gate.taking(event, doomed)]
    if not gates:
        return ()
    at = gates[-1].place.term.at
    needs = f"{drawing.name(event)} needs both sides of the parallel at {at.line}:{at.column}"
    return (f"{needs}; {other_side(gates[-1], leaf)} not take it",)


def other_side(gate, leaf):
    """Who stands across a parallel from a leaf, with the verb; of the leaf's own definition with its place."""
    other = next(side for side in gate.sides if leaf not in side.leaves())
    names = []
    for one in sorted(other.leaves(), key=lambda one: one.place.number):
        name, at = one.place.definition.name, one.place.term.at
        names.append(f"{name} at {at.line}:{at.column}" if name == leaf.place.definition.name else name)
    names = list(dict.fromkeys(names))
    return f"{' and '.join(names)} {'does' if len(names) == 1 else 'do'}"


def gates_of(node, leaf, event):
    """The parallels around a leaf that ask both sides for this event, the outermost first."""
    if node is leaf or not any(leaf in side.leaves() for side in node.sides):
        return []
    inner = [gate for side in node.sides for gate in gates_of(side, leaf, event)]
    return [node, *inner] if event in node.events else inner


def remembered(drawing, leaf):
    """The event that a family reads, where its prefix has a variable."""
    parameter = leaf.place.term.reference.parameter
    if not isinstance(leaf.place.term, Prefix) or parameter is None:
        return ""
    variables = [prefix.variable for prefix in leaf.place.prefixes][::-1]
    index = variables.index(parameter.called) if isinstance(parameter.called, str) else parameter.called
    name = parameter.called if isinstance(parameter.called, str) else f"^{index}"
    return f" ({name} is {drawing.name(leaf.memory[index])})"
