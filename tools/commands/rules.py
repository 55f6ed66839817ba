"""The rules of a table (01, "Numbers and table"), each fault with its place in the text and how to mend it.

    Fault       a refusal's number and place, a token, what is wrong, and what to do
    faults      every fault of a drawing

The proved reader judges, and gives the first fault alone; here all are sought, so that a person mends them at once.
Where the two disagree, `cspe check` says so.
"""

from typing import NamedTuple, Optional

from notation.assemble import MOST_PARAMETER, parts
from notation.numbers import written
from notation.source import Token
from notation.syntax import Call, Choice, Fail, Parallel, Prefix

from .levels import MOST_LEVEL, calls, least
from .library import most_events
from .words import many

MOST_SETS, MOST_DEFINITIONS, MOST_TERMS, MOST_DEEP = 64, 32, 1024, 32
MOST_WIDTH, MOST_BRANCHES = 8, 256
LARGE_ABOVE, MOST_LARGE_ROWS = 64, 3072  # 02, W6: above 64 events all rows together are at most 3,072


class Fault(NamedTuple):
    number: int
    place: int
    at: Optional[Token]
    message: str
    mend: str
    levels: bool = False  # whether other levels may mend it
    order: bool = False  # whether another order of the definitions may mend it


def faults(terms, levels=None):
    """Every fault. `levels`, of each definition, are told as the mend of faults of levels; else the least are."""
    found = Rules(terms, levels)
    found.bounds()
    found.references()
    if not found.list:
        found.widths()
        found.branches()
    return sorted(found.list, key=lambda fault: (fault.number, fault.place))


class Rules:
    def __init__(self, terms, levels=None):
        self.terms = terms
        self.levels = levels
        self.assembled = terms.assembled
        self.definitions = self.assembled.drawing.definitions
        self.list = []
        self.begins = [0]  # the first byte of each number
        for number in self.assembled.numbers:
            self.begins.append(self.begins[-1] + len(written(number.value)))

    def add(self, number, at_number, at, message, mend, levels=False, order=False):
        self.list.append(Fault(number, self.begins[at_number], at, message, mend, levels, order))

    # ---- 5: bounds

    def bounds(self):
        drawing, sets = self.assembled.drawing, self.assembled.sets
        if drawing.size > most_events():
            message = f"the alphabet has {drawing.size} events, and at most {most_events()} are allowed"
            self.add(5, 0, drawing.at, message, "leave out events that no set names, or give one number to like events")
        if len(sets) > MOST_SETS:
            at = self.assembled.numbers[1].at
            message = f"there are {len(sets)} sets, and at most {MOST_SETS} are allowed"
            self.add(5, 1, at, message, "name a set that several terms write out, or draw like terms alike")
        self.row_bound(drawing.size, sets)
        first = self.terms.begin() - 1
        if len(self.definitions) > MOST_DEFINITIONS:
            at = self.definitions[MOST_DEFINITIONS].at
            message = f"there are {len(self.definitions)} definitions, and at most {MOST_DEFINITIONS} are allowed"
            self.add(5, first, at, message, "write the body of a definition that is called once where it is called")
        for definition in self.definitions:
            if definition.level > MOST_LEVEL:
                place = self.terms.by_identity[id(definition.body)].first - 1
                message = f"the level of {definition.name} is {definition.level}, and {MOST_LEVEL} is the highest"
                self.add(5, place, definition.level_at, message, "give it the least level that its calls allow", True)
        self.term_bounds()

    def row_bound(self, size, sets):
        """The set that passes the bound on all rows, at its kind."""
        rows, kind_at = 0, 2
        for _, written_rows in sets:
            rows += len(written_rows)
            if size > LARGE_ABOVE and rows > MOST_LARGE_ROWS:
                most = f"with more than {LARGE_ABOVE} events {MOST_LARGE_ROWS:,} are the most"
                message = f"up to this set there are {rows:,} rows, and {most}"
                mend = f"a family has {size} rows, a set one: leave out a family, or draw one as sets"
                self.add(5, kind_at, self.assembled.numbers[kind_at].at, message, mend)
                return
            kind_at += 1 + sum(1 + len(row) for _, row in written_rows)

    def term_bounds(self):
        for place in self.terms.places:
            term = place.term
            if place.number == MOST_TERMS:
                message = f"this is term {MOST_TERMS + 1:,}, and a table has at most {MOST_TERMS:,}"
                self.add(5, place.first, term.at, message, "call a definition in place of terms that repeat")
            if place.depth == MOST_DEEP + 1:
                message = f"this term is nested {place.depth} deep, and {MOST_DEEP} is the most"
                mend = f"move the end of {place.definition.name} into a definition of its own, and call it here"
                self.add(5, place.first, term.at, message, mend)
            parameter = getattr(getattr(term, "reference", None), "parameter", None)
            if parameter is not None and self.terms.index(place) > MOST_PARAMETER:
                message = f"a parameter reads one of the {MOST_PARAMETER + 1} nearest prefixes, ^0 to ^{MOST_PARAMETER}"
                self.add(5, place.first + 2, parameter.at, message, "read the event nearer to its prefix")

    # ---- 7: references

    def references(self):
        for place in self.terms.places:
            parameter = getattr(getattr(place.term, "reference", None), "parameter", None)
            if parameter is None or self.terms.index(place) > MOST_PARAMETER:
                continue
            around = len(place.prefixes)
            if self.terms.index(place) >= around:
                index = self.terms.index(place)
                there = many(around, "prefix", "prefixes")
                message = f"^{index} names a prefix that is not there; around this set: {there}"
                mend = "count the prefixes around it from 0, the nearest first, within this definition"
                self.add(7, place.first + 2, parameter.at, message, mend)
        self.calls()

    def calls(self):
        found = calls(self.terms)
        levels = self.levels or least(self.definitions, found)
        for call in found:
            caller, callee = self.definitions[call.caller], self.definitions[call.callee]
            place = call.place
            if caller.level < callee.level or (call.parallel and caller.level == callee.level):
                self.add(7, place.first + 1, place.term.at, *level_fault(call, caller, callee, levels), True)
            elif not place.prefixes and call.callee >= call.caller:
                message, mend = unguarded(call, self.definitions)
                self.add(7, place.first + 1, place.term.at, message, mend, order=caller is not callee)

    # ---- 8 and 9: width and branches

    def widths(self):
        level_width = {}
        for level in sorted({definition.level for definition in self.definitions}):
            wide = [(self.width(d.body, level, level_width), d) for d in self.definitions if d.level == level]
            level_width[level] = max(width for width, _ in wide)
            if level_width[level] > MOST_WIDTH:
                width, definition = max(wide, key=lambda pair: pair[0])
                message = f"{definition.name} can come to {width} terms side by side, and {MOST_WIDTH} is the most"
                mend = "judge its sides by monitors of their own, or draw several sides as one term"
                self.list.append(Fault(8, level, definition.at, message, mend, True))
                return

    def width(self, term, level, of_levels):
        if isinstance(term, Call):
            called = self.terms.called(term).level
            return 1 if called == level else of_levels[called]
        sides = [self.width(part, level, of_levels) for part in parts(term)]
        if isinstance(term, Parallel):
            return sum(sides)
        return max(sides, default=1)

    def branches(self):
        of_bodies, places = {}, []

        def count(term):
            if isinstance(term, Fail):
                return 0
            if isinstance(term, Call):
                return of_bodies[term.name]
            if isinstance(term, Choice):
                return count(term.left) + count(term.right)
            if isinstance(term, Parallel):
                return count(term.left) * count(term.right)
            return 1

        for definition in self.definitions:
            of_bodies[definition.name] = count(definition.body)
        for place in self.terms.places:
            starts = [place.term.follower] if isinstance(place.term, Prefix) else []
            starts += [place.term] if place.depth == 1 else []
            places += [(self.terms.by_identity[id(start)], count(start)) for start in starts]
        for place, number in sorted(places, key=lambda pair: pair[0].number):
            if number > MOST_BRANCHES:
                message = f"this term begins in {number:,} ways, and {MOST_BRANCHES} is the most"
                mend = "fewer choices side by side: let an event come before a choice, or draw sides apart"
                self.list.append(Fault(9, place.number, place.term.at, message, mend))


def level_fault(call, caller, callee, levels):
    """A call that the levels do not allow: what is wrong, and the level to write."""
    if call.parallel and caller.level == callee.level:
        message = f"{callee.name} is called under a parallel, and has the level of {caller.name}, {caller.level}"
    else:
        message = f"{callee.name} has level {callee.level}, above {caller.name}, which has {caller.level}"
    needed = levels[call.callee] + (1 if call.parallel else 0)
    if needed > MOST_LEVEL:
        return message, endless(caller, callee)
    level = needed if levels[call.caller] > MOST_LEVEL else max(needed, levels[call.caller])
    name, level, change = caller.name, level, "the definition that calls it, a higher level"
    if level <= caller.level:
        name, level, change = callee.name, levels[call.callee], "the definition that is called, a lower level"
    return message, f"give {name}, {change}: `level {level} {name} = ..`"


def endless(caller, callee):
    name, often = caller.name, "would stand beside itself ever more often"
    if caller is callee:
        return f"no level allows it: {name} {often}; call it outside the parallel"
    return f"no level allows it: {callee.name} comes back to {name}, which {often}; call it outside the parallel"


def unguarded(call, definitions):
    """A call before any event of what is not defined above it. The last definition is the start: where it would move,
    the mend says which one is last then."""
    caller, callee = definitions[call.caller], definitions[call.callee]
    if caller is callee:
        message = f"{caller.name} calls itself before any event"
        return message, f"put an event before the call, as in `a -> {caller.name}`"
    message = f"{callee.name} is called before any event, and is defined after {caller.name}"
    start = f" (then {definitions[-2].name} is the start)" if callee is definitions[-1] else ""
    move = f"define {callee.name} above {caller.name}{start}"
    return message, f"{move},\nor put an event before the call: other runs are permitted then"
