"""The rules of `check`, and what a residual waits for, beside the proved library."""

import itertools
import random
import re
import unittest

from places import EXAMPLES
from made import drawing
from commands.drawings import Loaded
from commands.library import Monitor, most_events
from commands.mending import finding, with_levels
from commands.rules import faults
from commands.terms import Terms, standing
from notation.assemble import Assembled
from notation.parse import parse
from notation.source import Source


def loaded(text):
    source = Source("text", text)
    return Loaded(source, Assembled(parse(source)))


def both(text):
    """The faults of a drawing, as numbers and places, and the refusal of the proved reader."""
    one = loaded(text)
    found = [(fault.number, fault.place) for fault in faults(Terms(one.assembled))]
    return found, Monitor(one.table).refusal


def families(count):
    return "".join(f"set f{i} = [else: {{}}]\n" for i in range(count))


SIDES = " ||| ".join(["STOP"] * 9)
WAYS = " ||| ".join(["(STOP [] STOP)"] * 8)

# a drawing without its alphabet, and the refusal
BROKEN = [
    (f"alphabet {most_events() + 1}\nP = STOP", 5),
    ("alphabet 3\n" + "".join(f"set s{i} = {{0}}\n" for i in range(65)) + "P = STOP", 5),
    (f"alphabet 128\n{families(24)}set f = {{}}\nP = STOP", 5),
    (f"alphabet 128\n{families(24)}set f = [else: {{127}}]\nP = f(^0) -> STOP", 5),
    ("alphabet 3\n" + "".join(f"P{i} = STOP\n" for i in range(33)), 5),
    ("alphabet 3\nlevel 8 P = STOP", 5),
    ("alphabet 3\nP = " + "{0} -> " * 32 + "STOP", 5),
    ("alphabet 3\n" + "".join(f"P{i} = {'STOP [] ' * 17}STOP\n" for i in range(30)), 5),
    ("alphabet 1\nset f = [{0}]\nP = {0} -> f(^4) -> STOP", 5),
    ("alphabet 1\nset f = [{0}]\nP = f(^0) -> STOP", 7),
    ("alphabet 1\nP = P", 7),
    ("alphabet 1\nP = Q\nQ = STOP", 7),
    ("alphabet 1\nP = STOP\nQ = P ||| P", 7),
    ("alphabet 1\nlevel 1 P = STOP\nQ = {0} -> P", 7),
    (f"alphabet 1\nP = {SIDES}", 8),
    (f"alphabet 1\nP = ({WAYS}) [] STOP", 9),
]


class Rules(unittest.TestCase):
    def test_broken(self):
        for text, number in BROKEN:
            found, refusal = both(text)
            self.assertIsNotNone(refusal, text)
            self.assertEqual(refusal.number, number, text)
            self.assertEqual(found[0], tuple(refusal), text)

    def test_rows_at_their_bound(self):
        """Above 64 events 3,072 rows stand, 24 families of 128; with 64 events, as ever, 64 families."""
        for events, count in [(128, 24), (64, 64)]:
            self.assertEqual(both(f"alphabet {events}\n{families(count)}P = STOP"), ([], None))

    def test_random(self):
        """A fault exactly where the reader refuses, and the reader's is the first of them."""
        random.seed(21)
        kinds = set()
        for _ in range(600):
            text = drawing(random)
            found, refusal = both(text)
            kinds.add(refusal.number if refusal else 0)
            self.assertEqual(found[:1], [tuple(refusal)] if refusal else [], text)
        self.assertLessEqual({0, 7}, kinds)

    def test_examples_stand(self):
        for file in EXAMPLES.rglob("*.csp"):
            self.assertEqual(both(file.read_text()), ([], None), file)


# a drawing whose levels are missing or wrong; those that would do, what is left with them, and whether none would do
LEVELS = [
    ("A = {0} -> A\nB = A ||| A\nC = B ||| B", {"B": 1, "C": 2}, [], False),
    ("level 2 A = {0} -> A\nB = {0} -> A\nlevel 1 C = B", {"B": 2, "C": 2}, [], False),
    ("level 9 A = {0} -> A\nB = {0} -> A", {"A": 0}, [], False),
    ("A = {0} -> A\nB = A ||| A ||| A ||| A ||| A\nC = B ||| B", {"B": 1, "C": 2}, [8], False),
    (f"A = {' [] '.join(['{0} -> A'] * 9)}\nB = A ||| A ||| A", {"B": 1}, [9], False),
    ("A = {0} -> A\nB = A ||| A\nC = C", {"B": 1}, [7], False),
    # level 1 at W and N would make Top 12 wide, so W goes out of N's way
    (f"A = {{0}} -> A\nW = A{' ||| A' * 5}\nN = A ||| A\nTop = N ||| N", {"W": 1, "N": 2, "Top": 3}, [], False),
    ("A = {0} -> (A ||| A)\nB = A ||| A", {}, [7], True),
    ("level 1 A = {0} -> B\nlevel 1 B = {0} -> (A ||| STOP)\n", {}, [7], True),
    (f"P = {SIDES}", {}, [8], True),
]


def mended_by_hand(text, levels):
    """A text with these levels written into it."""
    for name, level in levels.items():
        text = re.sub(rf"(?m)^(level \d+ )?{name} = ", f"level {level} {name} = ", text)
    return text


class Levels(unittest.TestCase):
    def test_rows(self):
        for text, levels, left, hopeless in LEVELS:
            found = finding(loaded(f"alphabet 1\n{text}\n"))
            self.assertEqual((found.levels, found.hopeless), (levels, hopeless), text)
            self.assertEqual(sorted({fault.number for fault in found.left}), left, text)

    def test_random(self):
        """Levels are found wherever there are any: with all others, tried one by one, the reader refuses it too."""
        random.seed(23)
        mended = hopeless = 0
        for _ in range(700):
            found = finding(loaded(drawing(random)))
            if not any(fault.levels for fault in found.faults):
                self.assertEqual(found.levels, {})
            elif not found.hopeless:
                mended += 1
                self.assertFalse(any(fault.levels for fault in found.left), found.drawing.source.text)
                text = mended_by_hand(found.drawing.source.text, found.levels)
                self.assertEqual(both(text)[0], [(fault.number, fault.place) for fault in found.left], text)
            elif hopeless < 20:
                hopeless += 1
                count = len(found.drawing.assembled.drawing.definitions)
                for levels in itertools.product(range(count), repeat=count):
                    self.assertIsNotNone(Monitor(with_levels(found.drawing, levels).table).refusal)
        self.assertGreater(mended, 30)
        self.assertGreater(hopeless, 5)


class Waiting(unittest.TestCase):
    def test_large_alphabet(self):
        monitor = Monitor(loaded("alphabet 128\nP = {63, 64, 127} -> {0, 65} -> STOP").table)
        self.assertEqual(monitor.offer(), [63, 64, 127])
        self.assertIsNone(monitor.feed([127]))
        self.assertEqual(monitor.offer(), [0, 65])
        self.assertEqual(monitor.residuals(), [[(1, (127, 0, 0, 0))]])

    def test_takers_are_the_offer(self):
        """Over random runs: an event has takers in some residual exactly where Offer permits it."""
        random.seed(22)
        walked = 0
        for _ in range(800):
            one = loaded(drawing(random))
            monitor = Monitor(one.table)
            if monitor.refusal is not None:
                continue
            terms = Terms(one.assembled)
            for _ in range(8):
                trees = [standing(terms, nodes) for nodes in monitor.residuals()]
                taken = [e for e in range(3) if any(tree.taking(e, terms.doomed) for tree in trees)]
                self.assertEqual(taken, monitor.offer(), one.source.text)
                if not taken or monitor.feed([random.choice(taken)]) is not None:
                    break
                walked += 1
        self.assertGreater(walked, 300)


if __name__ == "__main__":
    unittest.main()
