"""cspe explain: the reasons belong to the leaves of a residual's tree, also where one text stands on several sides."""

import random
import re
import unittest

from places import cspe, text_of
from commands.drawings import Loaded
from commands.explain import reason, residual_lines
from commands.library import Monitor
from commands.terms import Terms, standing
from notation.assemble import Assembled
from notation.parse import parse
from notation.source import Source

CELL = """\
alphabet a, b, s
W = s -> W
level 1 A = a -> STOP |[{s}]| W
level 1 B = b -> STOP |[{s}]| W
level 2 Cell = A ||| B
"""

ROBOTS = """\
alphabet pick, place, scan
Scan = scan -> STOP
Robot2 = scan -> place -> Robot2
level 1 Robot = pick -> Scan |[{scan}]| Robot2
level 2 Cell = Robot ||| Robot
"""

HEAD = "alphabet 4\nW = {3} -> {2} -> W\nV = {3} -> V [] {0} -> {3} -> V\n"


def shared_machines(random):
    """A drawing whose machines W and V stand beside several others."""
    lines = []
    for name in "ABC":
        sides = [f"{{{random.randrange(3)}}} -> {random.choice(['STOP', 'W', 'V', '{3} -> W'])}", random.choice("WV")]
        random.shuffle(sides)
        common = random.choice(["{3}", "{0, 3}", "{2, 3}"])
        lines.append(f"level 1 {name} = {sides[0]} |[{common}]| {sides[1]}")
    middle = random.choice(["|||", "|[{3}]|", "|[{1}]|"])
    return HEAD + "\n".join([*lines, f"level 2 Line = {random.choice('ABC')} {middle} {random.choice('ABC')}\n"])


def permits(node, event, doomed):
    """Whether a node takes an event; a second time, beside `Standing.taking`."""
    if not node.sides:
        return event in node.events and id(node.place.term.follower) not in doomed
    sides = [permits(side, event, doomed) for side in node.sides]
    return all(sides) if event in node.events else any(sides)


def paths(node, path=()):
    """Of each leaf, from the left, the sides that lead to it."""
    if not node.sides:
        return [path]
    return [found for at, side in enumerate(node.sides) for found in paths(side, (*path, at))]


def due(tree, path, event, doomed):
    """By the path alone: the place of the innermost parallel that keeps a leaf, and who is across; or None."""
    node, found = tree, None
    for side in path:
        if event in node.events and not permits(node, event, doomed):
            at, across = node.place.term.at, node.sides[1 - side]
            found = f"{at.line}:{at.column}", {leaf.place.definition.name for leaf in across.leaves()}
        node = node.sides[side]
    waits = event in node.events and id(node.place.term.follower) not in doomed
    return found if waits else None


class Reasons(unittest.TestCase):
    def explained(self, text, *events):
        with text_of(text) as own:
            status, output, errors = cspe("explain", own, *events)
        self.assertEqual((status, errors), (1, ""))
        return output

    def test_one_text_on_two_sides(self):
        """Each W has the reason of its own parallel, and is told apart by its side."""
        output = self.explained(CELL, "s")
        for side, place, name in [("left", "3:23", "A"), ("right", "4:23", "B")]:
            self.assertIn(
                f"        |     ^ 2:5 W, {side} of the parallel at 5:18, waits for s\n"
                f"        |       s needs both sides of the parallel at {place}; {name} does not take it\n",
                output,
            )

    def test_as_many_parallels_as_tell_them_apart(self):
        """In a chain the sign beside it; where that stands in the tree twice, the one around it too."""
        chain = CELL.replace("A ||| B", "A ||| B ||| A")
        sides = ["left of the parallel at 5:18", "right of the parallel at 5:18", "right of the parallel at 5:24"]
        inner = ["left of the parallel at 5:18", "right of the parallel at 5:18"]
        twice = [f"{one} and {side} of that at 6:21" for side in ("left", "right") for one in inner]
        for text, due in [(chain, sides), (f"{CELL}level 3 Hall = Cell ||| Cell\n", twice)]:
            self.assertEqual(re.findall("2:5 W, (.*), waits for s\n", self.explained(text, "s")), due)

    def test_mirrored_ways(self):
        """Two ways that differ in the side alone: each reason once, and that is said."""
        output = self.explained(ROBOTS, *"pick scan place scan".split())
        for name in ("Scan", "Robot"):
            self.assertEqual(output.count(f"parallel at 4:30; {name} does not take it\n"), 1, output)
        self.assertNotIn("way 1", output)
        self.assertNotIn("left of", output)
        self.assertTrue(output.endswith("\n  the ways differ only in which side of a parallel stands where\n"))

    def test_other_differences(self):
        """Ways with the same leaves that do not differ in their sides."""
        head = "alphabet a, b, t\nset s = {a, b}\nset f = [a: {a}, else: {b}]\n"
        for text, events, words in [
            ("P = a -> STOP\nlevel 1 Line = (P ||| P) [] (P |[{t}]| P)", "t", "the parallels that these stand under"),
            ("P = x : s -> s -> t -> f(x) -> STOP\nlevel 1 Q = P ||| P", "a b a b a", "the events that they remember"),
        ]:
            self.assertIn(f"the ways differ only in {words}\n", self.explained(head + text, *events.split()))

    def test_random(self):
        """Over random runs: each leaf's reason is that of its own path in the tree."""
        random.seed(25)
        several = 0
        for _ in range(150):
            source = Source("text", shared_machines(random))
            one = Loaded(source, Assembled(parse(source)))
            monitor, terms = Monitor(one.table), Terms(one.assembled)
            self.assertIsNone(monitor.refusal, source.text)
            for _ in range(6):
                offer = monitor.offer()
                for event in [e for e in range(4) if e not in offer]:
                    for nodes in monitor.residuals():
                        several += self.compared(one, standing(terms, nodes), event, terms.doomed)
                if not offer:
                    break
                monitor.feed([random.choice(offer)])
        self.assertGreater(several, 100)

    def compared(self, drawing, tree, event, doomed):
        """Whether leaves at one place have several reasons, after all reasons are compared."""
        reasons = [reason(drawing, tree, leaf, event, doomed) for leaf in tree.leaves()]
        for path, words in zip(paths(tree), reasons):
            kept = due(tree, path, event, doomed)
            self.assertEqual(bool(words), kept is not None, drawing.source.text)
            if kept:
                place, names = kept
                told = words[0].split(f"both sides of the parallel at {place}; ")
                self.assertEqual(len(told), 2, (words, kept, drawing.source.text))
                said = {name.split(" at ")[0] for name in told[1].rsplit(" do", 1)[0].split(" and ")}
                self.assertEqual(said, names, (words, kept, drawing.source.text))
        sided = [told.sided for told in residual_lines(drawing, tree, event, doomed) if told.sided != told.plain]
        self.assertEqual(len(set(sided)), len(sided), "leaves with several reasons are told apart")
        return bool(sided)


if __name__ == "__main__":
    unittest.main()
