"""Tree to the table's numbers, each with its place in the text.

    Assembled   the numbers of a drawing and its bytes
    where       what stands in the text at the place of a refusal
The reader judges the table. Refused here is only what cannot be written: names without a meaning, missing rows, numbers
and tables that are too large. With a list of problems, all that are found are put there, and then there is no table;
without one the first is raised.
"""

from typing import NamedTuple, Optional

from .names import Names
from .numbers import MOST_NUMBER, written
from .source import Problem, Token
from .syntax import MOST_DEPTH, Call, Choice, Definition, Events, Fail, NamedEvent, NamedSet
from .syntax import Parallel, Prefix, Stop

MOST_BYTES = 16384
MOST_PARAMETER = 3
KINDS = {Stop: 0, Fail: 1, Prefix: 2, Choice: 3, Parallel: 4, Call: 5}


class Number(NamedTuple):
    value: int
    what: str
    at: Optional[Token]


class Assembled:
    def __init__(self, drawing, problems=None):
        self.drawing = drawing
        self.names = Names(drawing, problems)
        self.attempt = self.names.attempt
        self.numbers = []
        self.terms = []  # the token of each term, in reading order
        self.length = 0
        # the kind and the rows of each set; those written out in terms come last
        self.sets = [(int(isinstance(s.rows, list)), self.names.rows(s)) for s in drawing.sets]
        self.single = {}  # the number of the first set with these events
        for number, (kind, rows) in enumerate(self.sets):
            if kind == 0:
                self.single.setdefault(events_of(rows[0]), number)
        self.references = {}  # the set number of each reference, by its identity; None where it has no meaning
        shallow = [d for d in drawing.definitions if self.attempt(lambda: self.number_sets(d.body, 1), False)]
        for definition in shallow:
            self.check_term(definition.body, [])
        if not problems:
            self.attempt(self.table)

    def bytes(self):
        return b"".join(written(number.value) for number in self.numbers)

    # ---- sets

    def number_sets(self, term, depth):
        """Gives the references of a term their set numbers, in reading order. Whether it is not too deep."""
        if depth > MOST_DEPTH:
            raise Problem(f"Terms nest at most {MOST_DEPTH} deep in the notation.", term.at)
        if isinstance(term, (Prefix, Parallel)):
            reference = term.reference
            self.references[id(reference)] = self.attempt(lambda: self.set_number(reference))
        for part in parts(term):
            self.number_sets(part, depth + 1)
        return True

    def set_number(self, reference):
        if isinstance(reference.called, Events):
            row = self.names.row(reference.called)
        else:
            named = self.names.find(reference.called, reference.at, NamedSet, NamedEvent)
            if isinstance(named, NamedSet):
                return self.names.number[named.name]
            row = [(named.number, reference.at)]
        pair = (reference.at, row)
        if events_of(pair) not in self.single:
            self.single[events_of(pair)] = len(self.sets)
            self.sets.append((0, [pair]))
        return self.single[events_of(pair)]

    # ---- names in terms

    def check_term(self, term, variables):
        """The names that a term calls or reads; `variables` are those of the prefixes around it, the nearest last."""
        if isinstance(term, Call):
            self.attempt(lambda: self.names.find(term.name, term.at, Definition))
        if isinstance(term, (Prefix, Parallel)):
            self.check_reference(term.reference, variables)
        if isinstance(term, Prefix):
            self.attempt(lambda: self.check_variable(term))
            variables = variables + [term.variable]
        for part in parts(term):
            self.check_term(part, variables)

    def check_variable(self, prefix):
        if prefix.variable in self.names.meaning:
            raise Problem(f"`{prefix.variable}` has a meaning already.", prefix.variable_at)

    def check_reference(self, reference, variables):
        number = self.references[id(reference)]
        kind = None if number is None else self.sets[number][0]
        self.attempt(lambda: self.check_parameter(reference, kind, variables))

    def check_parameter(self, reference, kind, variables):
        name, parameter = reference.called, reference.parameter
        if kind == 1 and parameter is None:
            message = f"`{name}` is a family: it takes a parameter, as in `{name}(x)`."
            raise Problem(message, reference.at)
        if kind == 0 and parameter is not None:
            raise Problem(f"`{name}` is one set: it takes no parameter.", parameter.at)
        if parameter is not None:
            self.index(parameter, variables)

    # ---- numbers

    def emit(self, value, what, at):
        if value > MOST_NUMBER:
            raise Problem(f"Here {what} is {value:,}; a number is at most {MOST_NUMBER:,}.", at)
        self.length += len(written(value))
        if self.length > MOST_BYTES:
            raise Problem(f"Up to here the table has more than {MOST_BYTES:,} bytes.", at)
        self.numbers.append(Number(value, what, at))

    def table(self):
        drawing = self.drawing
        self.emit(drawing.size, "the alphabet's size", drawing.at)
        last = self.sets[-1][1][0][0] if self.sets else drawing.at
        self.emit(len(self.sets), "the number of sets", last)
        for number, (kind, rows) in enumerate(self.sets):
            named = drawing.sets[number].at if number < len(drawing.sets) else rows[0][0]
            self.emit(kind, "the kind of this set", named)
            for at, row in rows:
                self.emit(len(row), "the number of events in this row", at)
                for event, event_at in row:
                    self.emit(event, "this event", event_at)
        self.emit(len(drawing.definitions), "the number of definitions", drawing.definitions[-1].at)
        for definition in drawing.definitions:
            self.emit(definition.level, "this level", definition.level_at)
            self.term(definition.body, [])

    def term(self, term, variables):
        """A term; `variables` as in `check_term`."""
        self.terms.append(term.at)
        self.emit(KINDS[type(term)], "this term", term.at)
        if isinstance(term, Call):
            self.emit(self.names.number[term.name], "this definition", term.at)
        if isinstance(term, (Prefix, Parallel)):
            self.emit(self.references[id(term.reference)], "this set", term.reference.at)
        parameter = getattr(getattr(term, "reference", None), "parameter", None)
        if parameter is not None:
            self.emit(self.index(parameter, variables), "this parameter", parameter.at)
        if isinstance(term, Prefix):
            variables = variables + [term.variable]
        for part in parts(term):
            self.term(part, variables)

    def index(self, parameter, variables):
        """The index of the enclosing prefix that a parameter names."""
        if isinstance(parameter.called, int):
            return parameter.called
        if parameter.called not in variables:
            raise self.not_bound(parameter)
        index = variables[::-1].index(parameter.called)
        if index > MOST_PARAMETER:
            raise Problem(
                f"`{parameter.called}` is the variable of prefix {index} around this set, counted "
                f"from 0; a parameter names one of 0 to {MOST_PARAMETER}.",
                parameter.at,
            )
        return index

    def not_bound(self, parameter):
        name, at = parameter.called, parameter.at
        if isinstance(self.names.meaning.get(name), NamedEvent):
            return Problem(f"`{name}` is an event: declare its row as a set.", at)
        return Problem(f"`{name}` is not the variable of a prefix around this set.", at)

    # ---- the place of a refusal

    def where(self, number, place):
        """Pairs of a token and what stands there, for a refusal of the table and its place."""
        if number in (5, 7):
            begin = 0
            for written_number in self.numbers:
                if begin == place:
                    return [(written_number.at, written_number.what)]
                begin += len(written(written_number.value))
        if number == 8:
            found = [d for d in self.drawing.definitions if d.level == place]
            return [(d.at, f"a definition of level {place}") for d in found]
        if number == 9 and place < len(self.terms):
            return [(self.terms[place], "this term")]
        return []


def parts(term):
    if isinstance(term, Prefix):
        return (term.follower,)
    if isinstance(term, (Choice, Parallel)):
        return (term.left, term.right)
    return ()


def events_of(row):
    return tuple(event for event, _ in row[1])
