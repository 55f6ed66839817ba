"""The faults of a drawing, also those that its levels hide, and the levels that would mend them.

    Finding     every fault of a drawing, which levels to write, and what is left with them
    finding     finds them, beside the proved reader
    lines       a finding in words: each fault with a caret and how to mend it, and what all comes to
    shown_mend  how to mend a fault, below it

Width and branches are judged only where levels stand. So where other levels would do better, the table is judged with
these too.
"""

from dataclasses import replace
from typing import NamedTuple

from notation.assemble import Assembled
from notation.source import shown

from . import words
from .drawings import REFUSED, Loaded, Stop
from .levels import MOST_LEVEL, apart, calls, least, unwritten
from .library import Monitor
from .rules import Fault, Rules, faults
from .terms import Terms
from .words import many

CROWDED = 13  # no fault of a table: it starts in more ways than there are slots


class Finding(NamedTuple):
    drawing: Loaded
    faults: list  # as the drawing is
    levels: dict  # what to write: the level of each definition that gets another one
    mended: Loaded  # the drawing with these levels
    left: list  # its faults
    hopeless: bool = False  # no levels would do

    def further(self):
        """Faults that are met only once the levels are mended."""
        known = {(fault.number, fault.at, fault.message) for fault in self.faults}
        return [fault for fault in self.left if (fault.number, fault.at, fault.message) not in known]


def finding(drawing):
    terms = Terms(drawing.assembled)
    found = judged(drawing, terms)
    as_it_is = Finding(drawing, found, {}, drawing, found)
    if not by_levels(found):
        return as_it_is
    if endless(terms):
        return as_it_is._replace(hopeless=True)
    better = min([as_it_is, *tried(drawing, terms, found)], key=lambda one: by_levels(one.left))
    if not better.levels:
        return as_it_is._replace(hopeless=too_wide(terms))
    levels = [definition.level for definition in better.mended.assembled.drawing.definitions]
    return better._replace(faults=judged(drawing, terms, levels))


def by_levels(found):
    """How many of these faults other levels may mend."""
    return sum(fault.levels for fault in found)


def judged(drawing, terms, levels=None):
    """The faults, held to what the proved reader says; `levels` are those that are told as their mend."""
    found = faults(terms, levels)
    refusal = Monitor(drawing.table).refusal
    if refusal is not None and refusal.number == CROWDED:
        refusal = None
    if found and refusal is None:
        raise Stop("the proved reader takes what these rules do not: please report this drawing", REFUSED)
    if refusal is None or any((fault.number, fault.place) == refusal for fault in found):
        return found
    places = drawing.assembled.where(*refusal) or [(None, f"at {refusal.place}")]
    mend = "mend what stands there, and please report this drawing: the rules here do not know its fault"
    return [Fault(*refusal, at, what, mend) for at, what in places] + found


# ---- levels


def tried(drawing, terms, found):
    """With the least levels from those that are written on; with the least of all; with levels of their own."""
    definitions, all_calls = drawing.assembled.drawing.definitions, calls(terms)
    free = unwritten(definitions)
    for levels in (least(definitions, all_calls), least(free, all_calls), apart(free, all_calls)):
        if max(levels) <= MOST_LEVEL:
            mended = with_levels(drawing, levels)
            names = {d.name: level for d, level in zip(definitions, levels) if level != d.level}
            yield Finding(drawing, found, names, mended, judged(mended, Terms(mended.assembled)))


def with_levels(drawing, levels):
    return Loaded(drawing.source, Assembled(releveled(drawing.assembled.drawing, levels)))


def releveled(tree, levels):
    definitions = [replace(definition, level=level) for definition, level in zip(tree.definitions, levels)]
    return replace(tree, definitions=definitions)


def endless(terms):
    """Whether the calls ask for ever higher levels."""
    return max(least(unwritten(terms.assembled.drawing.definitions), calls(terms))) > MOST_LEVEL


def too_wide(terms):
    """Whether a width is too large even with levels of their own."""
    tree = terms.assembled.drawing
    finest = Rules(Terms(Assembled(releveled(tree, apart(tree.definitions, calls(terms))))))
    finest.widths()
    return bool(finest.list)


# ---- in words


def lines(found):
    """Every fault, with `then` those that the levels hide, and the line that sums up."""
    further = found.further()
    told = [shown_fault(fault) for fault in found.faults]
    told += [shown_fault(fault, "then ") for fault in further]
    count = many(len(found.faults) + len(further), "fault") if found.faults else "no fault"
    return told, f"{found.drawing.source.name}: {count}{outlook(found)}"


def outlook(found):
    if found.hopeless:
        return f"; no levels would do{start(found)}"
    if not found.levels:
        return start(found)
    stay = len(found.left)
    rest = " there is none" if not stay else f", {stay} of them {'stays' if stay == 1 else 'stay'}"
    return f"; with {named(found.levels)}{rest}{start(found)}"


def start(found):
    """Which definition is the start, where a fault asks to move some."""
    if not any(fault.order for fault in [*found.faults, *found.left]):
        return ""
    return f"; the start is {found.drawing.assembled.drawing.definitions[-1].name}, the last definition"


def named(levels):
    """Levels and who gets them, the lowest first."""
    groups = {}
    for name, level in levels.items():
        groups.setdefault(level, []).append(name)
    return ", ".join(f"level {level} at {' and '.join(groups[level])}" for level in sorted(groups))


def shown_fault(fault, when=""):
    head = f"{when}refused {fault.number} ({words.NAMES.get(fault.number, 'new')}): {fault.message}"
    return f"{shown(fault.at, head) if fault.at else head}\n{shown_mend(fault.mend)}"


def shown_mend(mend):
    """On further lines below its first words."""
    head = "    to mend it: "
    return head + mend.replace("\n", "\n" + " " * len(head))
