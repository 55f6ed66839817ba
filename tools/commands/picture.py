"""cspe picture: the residual sets that are reached, as a graph."""

import shutil
import subprocess
import sys
import textwrap
from collections import defaultdict

from .drawings import Stop, load
from .explore import Graph, State
from .judging import Judge
from .streams import write_whole
from .terms import Terms, standing
from .words import many

ABOUT = """\
Draws the residual sets that are reached, with the events that lead from one to the next, as text for graphviz (dot), or
with --text in words; with --svg FILE as a picture, which needs graphviz. Each column is one event further from the
start, on the left; a set from which no event leads on is drawn with a double line. A set's tooltip says where in the
drawing its residuals stand, one to a line. No more than --limit sets are drawn; where there are more, it says so.
Whatever is not the picture goes to standard error.
Exit status: 0 drawn, 1 the drawing permits no run, 2 refused, or an error in the drawing, 3 wrong use."""

PRODUCT = True

LIMIT = 100
LABEL = 30  # letters on a line of an arrow's label
WAYS = 12  # told of a state


def add_options(parser):
    parser.add_argument("drawing", metavar="DRAWING", help="a file, or the name of an example")
    parser.add_argument("--svg", metavar="FILE", help="a picture, by graphviz")
    parser.add_argument("--text", action="store_true", help="in words: a line for each arrow")
    parser.add_argument("-o", dest="output", metavar="FILE", help="write to this file")
    parser.add_argument("--merge", action="store_true", help="sets that permit the same runs as one")
    parser.add_argument("--limit", type=int, default=LIMIT, metavar="N", help=f"at most so many sets (default {LIMIT})")


def run(options):
    if options.limit < 1:
        raise Stop("--limit is at least 1")
    drawing = load(options.drawing)
    judge = Judge(drawing)
    if judge.status != 0:
        print(judge.verdict(), file=sys.stderr)
        return judge.status
    graph = Graph(drawing.table, options.limit)
    if options.merge and graph.whole:
        graph.states = merged(graph.states)
    for line in left_out(graph, options.merge):
        print(f"cspe: {line}", file=sys.stderr)
    if options.svg:
        write_svg(options.svg, dot(drawing, graph))
    else:
        write_whole(options.output, (text if options.text else dot)(drawing, graph))
    return 0


def left_out(graph, merge):
    if merge and not graph.whole:
        yield "only a whole picture is merged: this one is not"
    if graph.crowded:
        yield f"an event that needs more than {many(graph.monitor.library.slots, 'slot')} is left out"
    elif not graph.whole:
        yield f"there are more than {many(graph.limit, 'residual set')}; --limit draws more"


def merged(states):
    """The states, with one for those that permit the same runs, numbered anew."""
    group = {state.number: 0 for state in states}
    while True:
        keys = {}
        for state in states:
            leads = tuple((event, group[to]) for event, to in state.edges.items())
            keys[state.number] = (group[state.number], leads)
        order = list(dict.fromkeys(keys.values()))
        finer = {number: order.index(key) for number, key in keys.items()}
        if finer == group:
            break
        group = finer
    first = {}
    for state in states:
        first.setdefault(group[state.number], state)
    return [
        State(number, state.residuals, state.permitted, {event: group[to] for event, to in state.edges.items()})
        for number, state in first.items()
    ]


def arrows(drawing, graph):
    """Of each pair of states the events between them, in the order of the alphabet."""
    found = defaultdict(list)
    for state in graph.states:
        for event, to in state.edges.items():
            found[state.number, to].append(event)
    return {pair: told(drawing, events) for pair, events in found.items()}


def told(drawing, events):
    """Names; of events without one that are three and more in succession, as 4 to 7, `4..7`."""
    groups = []
    for event in events:
        plain = event not in drawing.names
        if plain and groups and groups[-1][0] and groups[-1][2] == event - 1:
            groups[-1][2] = event
        else:
            groups.append([plain, event, event])
    found = []
    for _, first, last in groups:
        wide = last - first > 1
        found += [f"{first}..{last}"] if wide else [drawing.name(event) for event in range(first, last + 1)]
    return found


def text(drawing, graph):
    lines = []
    for (start, to), events in arrows(drawing, graph).items():
        lines.append(f"{start + 1:>4} -- {', '.join(events)} --> {to + 1}")
    for number, events in beyond(drawing, graph):
        lines.append(f"{number + 1:>4} -- {', '.join(events)} --> more")
    ends = [str(state.number + 1) for state in graph.states if not state.permitted]
    more = "" if graph.whole else ", and there are more"
    lines.append(f"{many(len(graph.states), 'residual set')}{more}; 1 is the start")
    if ends:
        lines.append(f"no event leads on from {', '.join(ends)}")
    return "\n".join(lines) + "\n"


def beyond(drawing, graph):
    """States and those of their events that lead out of what is drawn."""
    for state in graph.states:
        left = [event for event in state.permitted if event not in state.edges]
        if left:
            yield state.number, told(drawing, left)


def quoted(words):
    return '"' + words.replace("\\", "\\\\").replace('"', '\\"').replace("\n", "\\n") + '"'


def label(events):
    """Events on an arrow, on lines that are not too long."""
    return quoted("\n".join(textwrap.wrap(", ".join(events), LABEL, break_long_words=False)))


def distances(graph):
    """Of each state how many events lead there at least."""
    found = {0: 0}
    for state in graph.states:
        for to in state.edges.values():
            found.setdefault(to, found[state.number] + 1)
    return found


def ways(terms, state):
    """Where each residual of a state stands: the definitions and their lines and columns."""
    for nodes in state.residuals[:WAYS]:
        leaves = standing(terms, nodes).leaves()
        places = [(leaf.place.definition.name, leaf.place.term.at) for leaf in leaves]
        yield ", ".join(f"{name} {at.line}:{at.column}" for name, at in places)
    if len(state.residuals) > WAYS:
        yield f"and {many(len(state.residuals) - WAYS, 'way')} more"


def dot(drawing, graph):
    """Text for graphviz, with a column for each number of events from the start."""
    terms, column = Terms(drawing.assembled), distances(graph)
    lines = [f"digraph {quoted(drawing.source.name)} {{", "    rankdir=LR;", "    ranksep=0.8;"]
    lines += ['    node [shape=circle, width=0.6, fixedsize=true, fontname="sans"];', '    edge [fontname="sans"];']
    lines += ["    start [shape=point, width=0.06];", "    start -> 1;"]
    for state in graph.states:
        shape = "" if state.permitted else ", shape=doublecircle"
        tip = quoted("\n".join(ways(terms, state)))
        lines.append(f"    {state.number + 1} [tooltip={tip}{shape}];")
    for (start, to), events in arrows(drawing, graph).items():
        lines.append(f"    {arrow(start, to, column)}label={label(events)}];")
    left = list(beyond(drawing, graph))
    lines += [f"    {number + 1} -> more [label={label(events)}, style=dashed];" for number, events in left]
    lines += ['    more [label="more", shape=box, style=dashed];'] if left else []
    return "\n".join([*lines, "}", ""])


def arrow(start, to, column):
    """An arrow back to an earlier column is written forth, with its head behind: so it moves no state out of its
    column, and graphviz still keeps it clear of others."""
    if column[to] < column[start]:
        return f"{to + 1} -> {start + 1} [dir=back, weight=0, "
    if column[to] == column[start] and to != start:
        return f"{start + 1} -> {to + 1} [constraint=false, "
    return f"{start + 1} -> {to + 1} ["


def write_svg(name, source):
    program = shutil.which("dot")
    if program is None:
        raise Stop("--svg needs graphviz, whose program dot is not there; without --svg the text for it is written")
    found = subprocess.run([program, "-Tsvg"], input=source, capture_output=True, text=True, check=False)
    if found.returncode != 0:
        raise Stop(f"dot says: {found.stderr.strip()}")
    write_whole(name, found.stdout)
