"""The names of a drawing and what they stand for.

    Names       events, sets and definitions by name; one name has one meaning
    row         the events of a set written out, ascending
    rows        the rows of a named set: one, or one for each event
With a list of problems, all that are found are put there, and what depends on them is left out; without one the first
is raised.
"""

from . import foreign
from .source import Problem, near
from .syntax import Definition, NamedEvent, NamedSet

WHAT = {NamedEvent: "an event", NamedSet: "a set", Definition: "a definition"}


class Names:
    def __init__(self, drawing, problems=None):
        self.size = drawing.size
        self.problems = problems
        self.meaning = {}
        self.repeated = []  # what has a name that means something else already
        self.number = {}  # of a set or definition, in the order of the text
        self.numbered = {}  # the name of each event that has one
        for named in drawing.events:
            self.attempt(lambda: self.declare(named))
            self.attempt(lambda: self.name_event(named))
        for group in (drawing.sets, drawing.definitions):
            for number, named in enumerate(group):
                self.attempt(lambda: self.declare(named))
                self.number.setdefault(named.name, number)

    def attempt(self, do, otherwise=None):
        """What `do` gives. Where problems are collected, its problem is put there, and `otherwise` given."""
        try:
            return do()
        except Problem as problem:
            if self.problems is None:
                raise
            self.problems.append(problem)
            return otherwise

    def declare(self, named):
        if named.name in self.meaning:
            self.repeated.append(named)
            what = WHAT[type(self.meaning[named.name])]
            line = self.meaning[named.name].at.line
            raise Problem(f"`{named.name}` is the name of {what} already (line {line}).", named.at)
        self.meaning[named.name] = named

    def name_event(self, named):
        if named.number >= self.size:
            raise self.outside(named.number, named.number_at)
        if named.number in self.numbered:
            message = f"Event {named.number} has the name `{self.numbered[named.number]}` already."
            raise Problem(message, named.number_at)
        self.numbered[named.number] = named.name

    def find(self, name, at, *kinds):
        """The meaning of a name, which is to be of one of these kinds."""
        wanted = " or ".join(WHAT[kind] for kind in kinds)
        named = self.meaning.get(name)
        if named is None:
            close = near(name, [n for n, m in self.meaning.items() if isinstance(m, kinds)])
            known = name in foreign.WORDS
            close = f": {foreign.WORDS[name]}." if known else close
            raise Problem(f"`{name}` is not the name of {wanted}{close or '.'}", at, wants=not known)
        again = [other for other in self.repeated if other.name == name and isinstance(other, kinds)]
        if not isinstance(named, kinds) and again:
            return again[0]  # that it has two meanings is told already
        if not isinstance(named, kinds):
            hint = f"; an event is taken as in `{name} -> P`" if kinds == (Definition,) else ""
            raise Problem(f"`{name}` is the name of {WHAT[type(named)]}, not of {wanted}{hint}.", at)
        return named

    def outside(self, number, at):
        last = self.size - 1
        return Problem(f"Event {number} is not in the alphabet: events are 0 to {last}.", at, wants=True)

    def event(self, event):
        if isinstance(event.called, str):
            return self.find(event.called, event.at, NamedEvent).number
        if event.called >= self.size:
            raise self.outside(event.called, event.at)
        return event.called

    def row(self, events):
        found = {}
        for low, high in events.ranges:
            first = self.attempt(lambda: self.event(low))
            last = first if high is low else self.attempt(lambda: self.event(high))
            if first is not None and last is not None:
                self.attempt(lambda: add_range(found, first, last, low, high))
        return sorted(found.items())

    def rows(self, named):
        """Pairs of a row's token and its events."""
        if not isinstance(named.rows, list):
            return [(named.rows.at, self.row(named.rows))]
        if any(row.key is not None for row in named.rows):
            return self.keyed_rows(named)
        self.attempt(lambda: self.check_count(named))
        return [(row.at, self.row(row.events)) for row in named.rows]

    def check_count(self, named):
        if len(named.rows) != self.size:
            raise Problem(
                f"The family `{named.name}` has {len(named.rows)} rows; the alphabet has "
                f"{self.size} events, with a row for each.",
                named.rows_at,
                wants=True,
            )

    def keyed_rows(self, named):
        self.attempt(lambda: check_keys(named))
        found, others, whole = {}, None, True
        for row in named.rows:
            pair = (row.at, self.row(row.events))
            if row.key is None:
                continue
            if row.key == "else":
                whole = self.attempt(lambda: check_last(named, row), False) and whole
                others = pair
                continue
            event = self.attempt(lambda: self.event(row.key))
            whole = whole and event is not None
            if event is not None:
                self.attempt(lambda: add_row(found, event, pair))
        if whole:
            self.attempt(lambda: self.check_rows(named, found, others))
        return [found.get(event, others or (named.rows_at, [])) for event in range(self.size)]

    def check_rows(self, named, found, others):
        missing = [event for event in range(self.size) if event not in found]
        if missing and others is None:
            raise Problem(
                f"The family `{named.name}` has no row for event {missing[0]}; "
                "`else` stands for all other events.",
                named.rows_at,
                wants=True,
            )
        if others is not None and not missing:
            raise Problem("Each event has a row: `else` stands for none.", others[0], wants=True)


# ---- the parts of sets


def add_range(found, first, last, low, high):
    if last < first:
        raise Problem("The last event of this range is below its first.", high.at)
    twice = [number for number in range(first, last + 1) if number in found]
    found.update({number: low.at for number in range(first, last + 1)})
    if twice:
        raise Problem(f"Event {twice[0]} stands in this set twice.", low.at)


def add_row(found, event, pair):
    if event in found:
        raise Problem(f"Event {event} has a row already.", pair[0])
    found[event] = pair


def check_keys(named):
    other = next((row for row in named.rows if row.key is None), None)
    if other is not None:
        raise Problem("Either each row of a family names its event, or none does.", other.at)


def check_last(named, row):
    if row is not named.rows[-1]:
        raise Problem("`else` is the last row of its family.", row.at)
    return True
