"""What the forms of the notation mean: precedence, names, sets in terms, parameters."""

import unittest

import places  # noqa: F401  (the package under test on Python's path)
from notation.assemble import Assembled
from notation.parse import parse
from notation.source import Source

HEAD = "alphabet 3\nset a = {0}\nset b = {1}\nset n = {}\nset f = [{1}, {0}, {}]\n"
HEAD_BYTES = "03 04 00 01 00 00 01 01 00 00 01 01 01 01 00 00"


def assembled(text):
    return Assembled(parse(Source("text", text))).bytes()


def shown(text):
    return assembled(text).hex(" ").upper()


class Notation(unittest.TestCase):
    def same(self, *texts):
        found = {shown(text) for text in texts}
        self.assertEqual(len(found), 1, texts)

    def term(self, text, expected):
        self.assertEqual(shown(f"{HEAD}P = {text}"), f"{HEAD_BYTES} 01 00 {expected}", text)

    def test_terms(self):
        self.term("STOP", "00")
        self.term("FAIL", "01")
        self.term("a -> STOP", "02 00 00")
        self.term("STOP [] FAIL", "03 00 01")
        self.term("STOP |[b]| FAIL", "04 01 00 01")
        self.term("a -> P", "02 00 05 00")

    def test_precedence(self):
        """The prefix binds most, then the choice, then the parallel."""
        self.term("a -> b -> STOP", "02 00 02 01 00")
        self.term("a -> STOP [] FAIL", "03 02 00 00 01")
        self.term("a -> (STOP [] FAIL)", "02 00 03 00 01")
        self.term("STOP [] FAIL |[b]| STOP", "04 01 03 00 01 00")
        self.term("STOP |[b]| FAIL [] STOP", "04 01 00 03 01 00")
        self.term("STOP [] (FAIL |[b]| STOP)", "03 00 04 01 01 00")
        self.term("a -> STOP |[b]| FAIL", "04 01 02 00 00 01")

    def test_from_the_left(self):
        self.term("STOP [] FAIL [] STOP", "03 03 00 01 00")
        self.term("STOP [] (FAIL [] STOP)", "03 00 03 01 00")
        self.term("STOP |[b]| FAIL |[b]| STOP", "04 01 04 01 00 01 00")
        self.term("(STOP |[b]| FAIL) |[a]| STOP", "04 00 04 01 00 01 00")
        self.term("STOP ||| FAIL |[{}]| STOP", "04 02 04 02 00 01 00")

    def test_lines(self):
        self.same(
            HEAD + "P = a -> b -> STOP [] FAIL",
            HEAD + "P = a\n  -> b ->\nSTOP -- a comment\n[] FAIL",
            HEAD.replace("\n", "\r\n") + "P =\r\n(a->b->STOP)[](FAIL)",
        )
        self.same("alphabet x, y\nP = x -> P", "alphabet x,\n  y\nP = x\n  -> P\n\n-- end")

    def test_sets_in_terms(self):
        """A set in a term is the first declared set with its events, else one more set.

        Those are in reading order; the set of a parallel comes before its sides.
        """
        self.same(HEAD + "P = a -> STOP", HEAD + "P = {0} -> STOP")
        self.same(HEAD + "P = STOP |[n]| STOP", HEAD + "P = STOP ||| STOP")
        sets = "set s = {2}\nset u = {}\nset t = {0, 1}"
        self.same(
            f"alphabet 3\n{sets}\nP = t -> s -> t -> STOP |[u]| STOP",
            "alphabet 3\nset s = {2}\nP = {0, 1} -> {2} -> {1, 0} -> STOP ||| STOP",
        )
        self.same(
            "alphabet e, g\nP = g -> e -> P",
            "alphabet 2\nset s = {1}\nset t = {0}\nP = s -> t -> P",
        )

    def test_names_of_events(self):
        self.same(
            "alphabet up, down, off\nP = down -> P",
            "alphabet 3\nevent down = 1\nP = down -> P",
            "alphabet 3\nP = down -> P\nevent down = 1",
            "alphabet 3\nP = {1} -> P",
        )

    def test_rows(self):
        self.same(
            "alphabet x, y, z\nset f = [{y, x}, {}, {}]\nP = STOP",
            "alphabet x, y, z\nset f = [x: {x, y}, else: {}]\nP = STOP",
            "alphabet x, y, z\nset f = [2: {}, y: {}, 0: {0..1}]\nP = STOP",
        )
        every = ", ".join(map(str, range(64)))
        self.same(
            "alphabet 64\nset s = {0..63}\nP = STOP", f"alphabet 64\nset s = {{{every}}}\nP = STOP"
        )

    def test_large_alphabets(self):
        """From 128 on a number has two bytes: the alphabet's size and a row's count, no event."""
        every = " ".join(f"{event:02X}" for event in range(128))
        for drawing, expected in [
            ("alphabet 65\nP = {63, 64} -> STOP", "41 01 00 02 3F 40 01 00 02 00 00"),
            ("alphabet 127\nP = {126} -> STOP", "7F 01 00 01 7E 01 00 02 00 00"),
            ("alphabet 128\nP = {127} -> STOP", "80 01 01 00 01 7F 01 00 02 00 00"),
            ("alphabet 128\nP = {0..127} -> STOP", f"80 01 01 00 80 01 {every} 01 00 02 00 00"),
        ]:
            self.assertEqual(shown(drawing), expected, drawing)
        self.same(
            "alphabet 128\nset f = [else: {127}]\nP = x : {64} -> f(x) -> STOP",
            "alphabet 128\nset f = [0: {127}, else: {127}]\nset s = {64}\nP = y : s -> f(y) -> STOP",
        )

    def test_parameters(self):
        self.term("x : a -> f(x) -> STOP", "02 00 02 03 00 00")
        self.term("?x : a -> f(^0) -> STOP", "02 00 02 03 00 00")
        self.term("x : a -> b -> f(x) -> STOP", "02 00 02 01 02 03 01 00")
        self.term("x : a -> y : b -> f(y) -> f(x) -> STOP", "02 00 02 01 02 03 00 02 03 02 00")
        self.term("x : a -> (STOP |[f(x)]| f(x) -> STOP)", "02 00 04 03 00 00 02 03 00 00")
        self.term("x : a -> b -> b -> b -> f(x) -> STOP", "02 00 02 01 02 01 02 01 02 03 03 00")
        # the nearest prefix with this variable; its own set is outside it
        self.term("x : a -> x : f(x) -> f(x) -> STOP", "02 00 02 03 00 02 03 00 00")
        # an index is written as it is: the reader judges it
        self.term("f(^9) -> STOP", "02 03 09 00")

    def test_levels_and_calls(self):
        self.assertEqual(
            shown(HEAD + "Q = a -> R\nR = b -> Q\nlevel 1 P = Q |[a]| R"),
            f"{HEAD_BYTES} 03 00 02 00 05 01 00 02 01 05 00 01 04 00 05 00 05 01",
        )

    def test_large_numbers(self):
        """127, 128 and 65,535 in their written form."""
        self.assertEqual(shown("alphabet 127\nP = STOP"), "7F 00 01 00 00")
        wide = "alphabet 128\nset s = {127}\nP = STOP"
        self.assertEqual(shown(wide), "80 01 01 00 01 7F 01 00 00")
        self.assertEqual(shown("alphabet 65535\nlevel 300 P = STOP"), "FF FF 03 00 01 AC 02 00")


if __name__ == "__main__":
    unittest.main()
