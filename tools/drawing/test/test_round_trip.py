"""Bytes to text to bytes, over tables that tools/reference wrote."""

import unittest

import stored
from notation.assemble import Assembled
from notation.disassemble import tree
from notation.parse import parse
from notation.source import Problem, Source
from notation.write import WIDTH, text


def assembled(drawing):
    return Assembled(parse(Source("text", drawing))).bytes()


class RoundTrip(unittest.TestCase):
    def check(self, data):
        drawing = text(tree(data))
        again = assembled(drawing)
        self.assertEqual(again, data, drawing)
        self.assertEqual(text(tree(again)), drawing)
        return drawing

    def test_stored_tables(self):
        tables = stored.accepted(stored.stored())
        self.assertGreater(len(tables), 900)
        for data in tables:
            self.check(data)

    def test_tables_drawn_anew(self):
        tables = stored.accepted(stored.drawn(7, 1000))
        self.assertGreater(len(tables), 200)
        for data in tables:
            drawing = self.check(data)
            self.assertLessEqual(max(map(len, drawing.split("\n"))), WIDTH)

    def test_refused_tables(self):
        """A refused table has a text with its bytes, or is an error; never another table."""
        written = 0
        for data in stored.refused(stored.stored()):
            try:
                drawing = text(tree(data))
            except Problem:
                continue
            self.assertEqual(assembled(drawing), data, drawing)
            written += 1
        self.assertGreater(written, 300)


if __name__ == "__main__":
    unittest.main()
