"""The residual sets that are reached, by the proved monitor.

    State       a residual set: its number, and which events lead where
    Graph       the sets from the start on, in order of their distance, up to a limit
"""

from dataclasses import dataclass, field

from .library import Monitor


@dataclass
class State:
    number: int
    residuals: list
    permitted: list
    edges: dict = field(default_factory=dict)  # from an event to the number of a state


class Graph:
    """`whole` says that all sets are there; else `limit` was met, or an event was refused (`crowded`)."""

    def __init__(self, table, limit):
        self.monitor = Monitor(table)
        self.limit = limit
        self.states, self.whole, self.crowded = [], True, False
        if self.monitor.refusal is None and self.monitor.running():
            self.explore()

    def explore(self):
        known, saved = {}, []

        def number():
            key = tuple(self.monitor.slots())
            if key not in known:
                if len(self.states) == self.limit:
                    self.whole = False
                    return None
                known[key] = len(self.states)
                self.states.append(State(known[key], self.monitor.residuals(), self.monitor.offer()))
                saved.append(self.monitor.save())
            return known[key]

        number()
        for state in self.states:
            for event in state.permitted:
                self.monitor.restore(saved[state.number])
                if self.monitor.feed([event]) is not None:
                    self.whole, self.crowded = False, True
                    continue
                to = number()
                if to is not None:
                    state.edges[event] = to
