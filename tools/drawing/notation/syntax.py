"""The tree of a drawing. `at` is a token of the text, None in a tree that comes from bytes.

    Drawing     the alphabet, names of events, sets and definitions
    terms       Stop, Fail, Prefix, Choice, Parallel, Call
    Reference   a set in a term: by name, with a parameter for a family, or written out
"""

from dataclasses import dataclass, field
from typing import List, Optional, Tuple, Union

from .source import Token

# The reader takes terms 32 deep (01); the notation takes more, so that such tables can be made.
MOST_DEPTH = 200


def place():
    return field(default=None, compare=False, repr=False)


@dataclass
class Event:
    """An event by its name or by its number."""

    called: Union[str, int]
    at: Optional[Token] = place()


@dataclass
class Events:
    """A set written out: ranges of events, first and last."""

    ranges: List[Tuple[Event, Event]]
    at: Optional[Token] = place()


@dataclass
class Parameter:
    """The event of an enclosing prefix: by the prefix's variable, or by its index."""

    called: Union[str, int]
    at: Optional[Token] = place()


@dataclass
class Reference:
    called: Union[str, Events]
    parameter: Optional[Parameter] = None
    at: Optional[Token] = place()


@dataclass
class Stop:
    at: Optional[Token] = place()


@dataclass
class Fail:
    at: Optional[Token] = place()


@dataclass
class Prefix:
    variable: Optional[str]
    reference: Reference
    follower: "Term"
    at: Optional[Token] = place()
    variable_at: Optional[Token] = place()


@dataclass
class Choice:
    left: "Term"
    right: "Term"
    at: Optional[Token] = place()


@dataclass
class Parallel:
    reference: Reference
    left: "Term"
    right: "Term"
    at: Optional[Token] = place()


@dataclass
class Call:
    name: str
    at: Optional[Token] = place()


Term = Union[Stop, Fail, Prefix, Choice, Parallel, Call]


@dataclass
class NamedEvent:
    name: str
    number: int
    at: Optional[Token] = place()
    number_at: Optional[Token] = place()


@dataclass
class Row:
    """A row of a family: for a named event, for all others (`else`), or by its place."""

    key: Union[None, str, Event]
    events: Events
    at: Optional[Token] = place()


@dataclass
class NamedSet:
    """One set, or a family with its rows."""

    name: str
    rows: Union[Events, List[Row]]
    at: Optional[Token] = place()
    rows_at: Optional[Token] = place()


@dataclass
class Definition:
    level: int
    name: str
    body: Term
    at: Optional[Token] = place()
    level_at: Optional[Token] = place()


@dataclass
class Drawing:
    size: int
    events: List[NamedEvent]
    sets: List[NamedSet]
    definitions: List[Definition]
    at: Optional[Token] = place()
    end: Optional[Token] = place()
