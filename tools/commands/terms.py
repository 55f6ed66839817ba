"""Where a term of the table stands in the drawing, and what a residual waits for.

    Place       a term: its definition, its enclosing prefixes, whether a parallel or a prefix is around it
    Terms       the terms of a drawing in the table's order, their sets, and which are doomed
    Standing    a residual as a tree, and who takes an event in it
"""

from dataclasses import dataclass
from typing import Any, List

from notation.assemble import parts
from notation.syntax import Call, Choice, Definition, Fail, Parallel, Prefix, Stop


@dataclass
class Place:
    number: int
    term: Any
    definition: Definition
    prefixes: List[Prefix]  # around it, the nearest last
    parallel: bool  # whether a parallel is around it
    depth: int
    first: int  # which number of the table its kind is


class Terms:
    def __init__(self, assembled):
        self.assembled = assembled
        self.places = []
        self.by_identity = {}
        numbers = self.begin()
        for definition in assembled.drawing.definitions:
            numbers += 1
            numbers = self.add(definition.body, definition, [], False, 1, numbers)
        self.doomed = self.find_doomed()

    def begin(self):
        """How many numbers stand before the first definition."""
        return 3 + sum(1 + sum(1 + len(row) for _, row in rows) for _, rows in self.assembled.sets)

    def add(self, term, definition, prefixes, parallel, depth, numbers):
        place = Place(len(self.places), term, definition, prefixes, parallel, depth, numbers)
        self.places.append(place)
        self.by_identity[id(term)] = place
        numbers += self.own_numbers(term)
        if isinstance(term, Prefix):
            prefixes = prefixes + [term]
        for part in parts(term):
            inside = parallel or isinstance(term, Parallel)
            numbers = self.add(part, definition, prefixes, inside, depth + 1, numbers)
        return numbers

    @staticmethod
    def own_numbers(term):
        """Kind; of a call the definition; of a set reference the set, and its parameter."""
        if isinstance(term, Call):
            return 2
        if isinstance(term, (Prefix, Parallel)):
            return 2 if term.reference.parameter is None else 3
        return 1

    def index(self, place):
        """Which enclosing prefix a family's parameter names, counted from 0."""
        variables = [prefix.variable for prefix in place.prefixes]
        return self.assembled.index(place.term.reference.parameter, variables)

    def rows(self, place):
        """The sets that the reference of a prefix or parallel may be, by what it remembers."""
        return self.assembled.sets[self.assembled.references[id(place.term.reference)]]

    def events(self, place, memory):
        """The set of a prefix or a parallel, with these events remembered."""
        kind, rows = self.rows(place)
        row = rows[memory[self.index(place)]] if kind == 1 else rows[0]
        return [event for event, _ in row[1]]

    def called(self, term):
        return self.assembled.drawing.definitions[self.assembled.names.number[term.name]]

    # ---- doom

    def find_doomed(self):
        """The identities of the terms that are doomed: the least set with document 01's rules."""
        doomed, more = set(), True
        while more:
            more = False
            for place in reversed(self.places):
                if id(place.term) not in doomed and self.is_doomed(place.term, doomed):
                    doomed.add(id(place.term))
                    more = True
        return doomed

    def is_doomed(self, term, doomed):
        if isinstance(term, Call):
            return id(self.called(term).body) in doomed
        sides = [id(part) in doomed for part in parts(term)]
        if isinstance(term, Choice):
            return all(sides)
        return isinstance(term, Fail) or (isinstance(term, Parallel) and any(sides))


@dataclass(eq=False)
class Standing:
    """A node of a residual: its place, what it remembers, and a parallel's sides. Nodes are compared as nodes of their
    tree: one place of the text may stand on several sides."""

    place: Place
    memory: tuple
    events: list
    sides: list

    def leaves(self):
        return [leaf for side in self.sides for leaf in side.leaves()] if self.sides else [self]

    def nodes(self):
        return [self, *(node for side in self.sides for node in side.nodes())]

    def taking(self, event, doomed):
        """The leaves that would take this event together, one list for each way; none where it is not permitted."""
        if not self.sides:
            alive = isinstance(self.place.term, Prefix) and id(self.place.term.follower) not in doomed
            return [[self]] if alive and event in self.events else []
        ways = [side.taking(event, doomed) for side in self.sides]
        if event in self.events:
            return [left + right for left in ways[0] for right in ways[1]]
        return ways[0] + ways[1]


def standing(terms, nodes):
    """The tree of a residual's nodes."""
    rest = list(nodes)

    def take():
        node = rest.pop(0)
        place = terms.places[node.term]
        events = [] if isinstance(place.term, Stop) else terms.events(place, node.memory)
        sides = [take(), take()] if isinstance(place.term, Parallel) else []
        return Standing(place, node.memory, events, sides)

    return take()
