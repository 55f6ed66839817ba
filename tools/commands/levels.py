"""The levels that the calls of a drawing allow.

    calls       who calls whom, and whether under a parallel
    least       the least level of each definition, but none below what is written
    unwritten   definitions as if no levels were written
    apart       a level of its own for each definition, but for those that call each other
"""

from dataclasses import replace
from typing import NamedTuple

from notation.syntax import Call

MOST_LEVEL = 7


class Caller(NamedTuple):
    caller: int
    callee: int
    place: object  # of the call
    parallel: bool


def written(definition):
    """Whether the drawing gives this definition a level."""
    return definition.level_at is not definition.at


def calls(terms):
    number = terms.assembled.names.number
    return [
        Caller(number[place.definition.name], number[place.term.name], place, place.parallel)
        for place in terms.places
        if isinstance(place.term, Call)
    ]


def least(definitions, found):
    """A list of levels, above MOST_LEVEL where none would do."""
    levels = [definition.level for definition in definitions]
    for _ in range(len(definitions) * (MOST_LEVEL + 2)):
        before = list(levels)
        for call in found:
            needed = levels[call.callee] + (1 if call.parallel else 0)
            levels[call.caller] = max(levels[call.caller], min(needed, MOST_LEVEL + 1))
        if levels == before:
            break
    return levels


def unwritten(definitions):
    return [replace(definition, level=0, level_at=definition.at) for definition in definitions]


def apart(definitions, found):
    """Levels by whom a definition reaches through calls, without a bound. No others give a smaller width: whoever calls
    a definition then counts its width alone, and not that of others at its level."""
    reach = [{number} for number in range(len(definitions))]
    for _ in definitions:
        for call in found:
            reach[call.caller] |= reach[call.callee]
    groups = sorted({(len(reached), tuple(sorted(reached))) for reached in reach})
    return [groups.index((len(reached), tuple(sorted(reached)))) for reached in reach]
