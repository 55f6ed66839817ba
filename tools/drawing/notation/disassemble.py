"""Table bytes to tree.

    tree        the drawing of these bytes: sets s0 .., definitions P0 .., variables x0 ..
A table that the reader refuses has a drawing too, where each of its numbers can be written.
"""

from .numbers import read
from .source import Problem
from .syntax import MOST_DEPTH, Call, Choice, Definition, Drawing, Event, Events, Fail, NamedSet
from .syntax import Parallel, Parameter, Prefix, Reference, Row, Stop
from .assemble import MOST_BYTES, MOST_PARAMETER


def tree(data, name=None):
    return Reader(data, name).drawing()


class Reader:
    def __init__(self, data, name):
        self.data = data
        self.file = name
        self.place = 0  # of the next number
        self.last = 0  # of the last number read

    def problem(self, message, place=None):
        place = self.last if place is None else place
        return Problem(f"{message} (byte {place}).", name=self.file)

    def number(self):
        self.last = self.place
        try:
            value, self.place = read(self.data, self.place)
        except ValueError as error:
            raise self.problem(str(error).capitalize()) from None
        return value

    def drawing(self):
        if len(self.data) > MOST_BYTES:
            raise self.problem(f"The table has more than {MOST_BYTES:,} bytes", MOST_BYTES)
        self.size = self.number()
        if self.size == 0:
            raise self.problem("An alphabet has at least one event")
        self.families = []
        sets = [self.named_set(number) for number in range(self.number())]
        self.count = self.number()
        if self.count == 0:
            raise self.problem("A table has at least one definition")
        definitions = []
        for number in range(self.count):
            level = self.number()
            definitions.append(Definition(level, f"P{number}", self.term(1, [])))
        if self.place < len(self.data):
            raise self.problem("Bytes follow the table", self.place)
        return Drawing(self.size, [], sets, definitions)

    # ---- sets

    def named_set(self, number):
        kind = self.number()
        if kind > 1:
            raise self.problem(f"{kind} is not the kind of a set")
        self.families.append(kind == 1)
        rows = self.row() if kind == 0 else [Row(None, self.row()) for _ in range(self.size)]
        return NamedSet(f"s{number}", rows)

    def row(self):
        """A row, with three and more events in succession as a range."""
        ranges = []
        for _ in range(self.number()):
            event = self.number()
            if event >= self.size:
                raise self.problem(f"Event {event} is not in the alphabet")
            if ranges and event <= ranges[-1][1]:
                raise self.problem("The events of this row do not ascend")
            if ranges and event == ranges[-1][1] + 1:
                ranges[-1][1] = event
            else:
                ranges.append([event, event])
        return Events([pair for low, high in ranges for pair in pairs(low, high)])

    def reference(self, prefixes):
        """A set and its parameter; the prefix that it names gets a variable."""
        number = self.number()
        if number >= len(self.families):
            raise self.problem(f"There is no set {number}")
        if not self.families[number]:
            return Reference(f"s{number}")
        index = self.number()
        if index > MOST_PARAMETER or index >= len(prefixes):
            return Reference(f"s{number}", Parameter(index))
        prefix = prefixes[-1 - index]
        prefix.variable = f"x{len(prefixes) - 1 - index}"
        return Reference(f"s{number}", Parameter(prefix.variable))

    # ---- terms

    def term(self, depth, prefixes):
        kind = self.number()
        if depth > MOST_DEPTH:
            raise self.problem(f"Terms nest at most {MOST_DEPTH} deep in the notation")
        if kind == 0:
            return Stop()
        if kind == 1:
            return Fail()
        if kind == 2:
            prefix = Prefix(None, self.reference(prefixes), None)
            prefix.follower = self.term(depth + 1, prefixes + [prefix])
            return prefix
        if kind == 3:
            left = self.term(depth + 1, prefixes)
            return Choice(left, self.term(depth + 1, prefixes))
        if kind == 4:
            reference = self.reference(prefixes)
            left = self.term(depth + 1, prefixes)
            return Parallel(reference, left, self.term(depth + 1, prefixes))
        if kind == 5:
            number = self.number()
            if number >= self.count:
                raise self.problem(f"There is no definition {number}")
            return Call(f"P{number}")
        raise self.problem(f"{kind} is not the kind of a term")


def pairs(low, high):
    if high - low == 1:
        return [(Event(low), Event(low)), (Event(high), Event(high))]
    return [(Event(low), Event(high))]
