"""cspe check: every fault of a drawing, and what looks wrong though it is allowed."""

from typing import NamedTuple

from notation.source import Token, shown
from notation.syntax import Call, Prefix

from .drawings import REFUSED, load
from .explore import Graph
from .levels import calls, least, unwritten, written
from .mending import finding, lines, shown_mend
from .terms import Terms, standing
from .words import many

ABOUT = """\
Shows every fault of a drawing, each with its place, the rule that it breaks and how to mend it. Where levels are
missing or wrong it infers them from the calls, judges the drawing with these too, and says in its last line which would
do. Then it warns of what is allowed but looks wrong: a definition that is doomed or never called, a term that is never
reached, a set that no event can meet. The last definition is the start.
Exit status: 0 no fault, 2 the monitor would refuse it, or an error in the drawing, 3 wrong use. Warnings do not move
it."""

PRODUCT = False

LIMIT = 3000  # residual sets that are looked at for what is never reached


def add_options(parser):
    parser.add_argument("drawing", metavar="DRAWING", help="a file, or the name of an example")


def run(options):
    return judge(load(options.drawing))


def judge(drawing):
    """The faults; and where the drawing stands, as it is or with the levels that are told, what looks wrong in it."""
    found = finding(drawing)
    shown_faults, sum_of_it = lines(found)
    terms = Terms(found.mended.assembled)
    graph = None if found.left else Graph(found.mended.table, LIMIT)
    warnings = [] if found.left else [*warned(found.mended, terms, graph)]
    warnings += [] if found.faults else higher_levels(terms)
    warnings = sorted(warnings, key=lambda warning: (warning.at.line, warning.at.column))
    also = f"; {many(len(warnings), 'warning')}" if warnings else ""
    levels = ", ".join(f"{d.name} {d.level}" for d in drawing.assembled.drawing.definitions if d.level)
    also += f"; levels: {levels}" if levels and not found.faults else ""
    also += unsought(graph) if graph else ""
    print("\n".join([*shown_faults, *map(shown_warning, warnings), sum_of_it + also]))
    return REFUSED if found.faults else 0


# ---- warnings


class Warned(NamedTuple):
    at: Token
    message: str
    mend: str = ""


def shown_warning(warning):
    mend = [shown_mend(warning.mend)] if warning.mend else []
    return "\n".join([shown(warning.at, f"warning: {warning.message}"), *mend])


def unsought(graph):
    """What the warnings leave out."""
    if graph.whole:
        return ""
    slots = f"an event needs more than {graph.monitor.library.slots} slots"
    why = slots if graph.crowded else f"there are more than {graph.limit:,} residual sets"
    return f"; {why}, so what is never reached was not sought"


def warned(drawing, terms, graph):
    definitions = drawing.assembled.drawing.definitions
    called = reached(terms, definitions)
    for definition in definitions:
        if definition.name not in called:
            message = f"{definition.name} is never called from {definitions[-1].name}, the start"
            mend = "call it or leave it out;\nthe last definition is the start: if another is meant, put it last"
            yield Warned(definition.at, message, mend)
        elif id(definition.body) in terms.doomed:
            yield Warned(definition.at, f"{definition.name} is doomed: it permits no run, not even one without events")
    empty = []
    for place in terms.places:
        if isinstance(place.term, Prefix) and place.definition.name in called and not any_event(terms, place):
            empty.append(place.number)
            yield Warned(place.term.at, "no event is in this set, so what follows is never reached")
    yield from never(terms, graph, called, empty)


def reached(terms, definitions):
    found, open_ = set(), [definitions[-1].name]
    while open_:
        name = open_.pop()
        if name not in found:
            found.add(name)
            here = [p.term for p in terms.places if p.definition.name == name and isinstance(p.term, Call)]
            open_ += [term.name for term in here]
    return found


def higher_levels(terms):
    """Levels that are written, and higher than the calls ask."""
    definitions = terms.assembled.drawing.definitions
    for definition, level in zip(definitions, least(unwritten(definitions), calls(terms))):
        if written(definition) and definition.level > level:
            yield Warned(definition.level_at, f"level {level} would do for {definition.name}")


def any_event(terms, place):
    return any(row for _, row in terms.rows(place)[1])


def never(terms, graph, called, empty):
    """Prefixes that no reached residual stands at, or whose events never come there."""
    if not graph.whole or not graph.states:
        return
    held, taken = set(), set()
    for state in graph.states:
        for nodes in state.residuals:
            tree = standing(terms, nodes)
            held |= {leaf.place.number for leaf in tree.leaves()}
            for event in state.permitted:
                taken |= {leaf.place.number for way in tree.taking(event, terms.doomed) for leaf in way}
    for place in terms.places:
        known = place.number in empty or id(place.term) in terms.doomed
        if not isinstance(place.term, Prefix) or place.definition.name not in called or known:
            continue
        if place.number in taken or id(place.term.follower) in terms.doomed:
            continue
        if place.number in held:
            message = "no event of this set can ever come here: what stands beside it takes none then"
            yield Warned(place.term.at, message)
        elif not place.prefixes or id(place.prefixes[-1]) in {id(terms.places[n].term) for n in taken}:
            yield Warned(place.term.at, "this is never reached")
