"""A drawing and its monitor, and how far events are judged.

    Judge       takes pieces of events up to the first that is refused or not permitted
    Refused     the table is refused: what is wrong with the drawing
"""

from . import words
from .drawings import FAILED, REFUSED, RUNNING, Stop
from .library import Monitor, library
from .mending import CROWDED, finding, lines
from .terms import Terms, standing

KEPT = 1000  # events that are kept for `explain`


class Refused(Exception):
    """The monitor refuses the table: its text has every fault and how to mend it."""


class Judge:
    def __init__(self, drawing, slots=None):
        self.drawing = drawing
        self.terms = Terms(drawing.assembled)
        most = library().slots
        if slots is not None and not 1 <= slots <= most:
            raise Stop(f"--slots is 1 to {most}")
        self.monitor = Monitor(drawing.table, slots)
        self.slots = most if slots is None else slots
        self.status, self.event, self.refusal = RUNNING, None, None
        self.place = 0  # of the event that failed, counted from 1
        self.last = []  # the last events taken
        self.open()

    def open(self):
        refusal = self.monitor.refusal
        if refusal is not None and refusal.number == CROWDED:
            self.status, self.refusal = REFUSED, refusal
        elif refusal is not None:
            told, sum_of_it = lines(finding(self.drawing))
            raise Refused("\n".join([*told, sum_of_it]))
        elif not self.monitor.running():
            self.status = FAILED

    def take(self, events):
        """Whether all were taken and permitted. After the first that was not, nothing is taken."""
        if self.status != RUNNING:
            return False
        before = self.monitor.taken()
        self.refusal, taken = self.monitor.feed_closely(events)
        self.last = (self.last + events[:taken])[-KEPT:]
        if self.refusal is not None:
            self.status, self.event, self.before = REFUSED, events[taken], before
        elif taken < len(events):
            self.status, self.event, self.place = FAILED, events[taken], before + taken + 1
        return self.status == RUNNING

    def verdict(self):
        if self.status == RUNNING:
            return words.running(self.drawing, self.monitor)
        if self.status == FAILED:
            return words.failed(self.drawing, self.place, self.event, self.monitor.offer())
        before = 0 if self.event is None else self.before
        return words.refused(self.drawing, self.refusal, self.event, self.slots, before)

    def standings(self):
        return [standing(self.terms, nodes) for nodes in self.monitor.residuals()]
