"""The drawings of examples/: their bytes, their runs by tools/reference, and their round trip.

A line of a NAME.runs file is `EVENT .. => LINE`; `--` begins a comment.
"""

import unittest

from places import EXAMPLES, line
from notation.assemble import Assembled
from notation.disassemble import tree
from notation.numbers import written
from notation.parse import parse
from notation.source import Source
from notation.write import text

# Table B's bytes are 01's own; the others are worked by hand in tools/reference
# (src/monitor/examples.rs).
TWO_SETS = "03 02 00 01 00 00 01 01"
THREE_SETS = "03 03 00 01 00 00 01 01 00 00"
BYTES = {
    "table_b": "03 02 00 01 00 00 01 01 01 00 02 00 02 01 05 00",
    "worked/k4": f"{TWO_SETS} 01 00 02 00 01",
    "worked/k5": f"{THREE_SETS} 01 00 04 02 00 01",
    "worked/k6": f"{TWO_SETS} 01 00 03 01 02 00 00",
    "worked/k7": f"{TWO_SETS} 01 00 03 02 00 00 02 00 02 01 00",
    "worked/k8": f"{THREE_SETS} 01 00 04 02 02 00 00 02 00 00",
    "worked/k9": f"{THREE_SETS} 01 00 04 00 02 00 00 02 00 00",
    "worked/k10": f"{THREE_SETS} 01 00 04 02 02 00 01 02 01 00",
    "worked/k11": "03 02 00 02 00 01 01 01 01 01 00 00 01 00 02 00 02 01 00 00",
}

# 01, "Drawings on the wall", as lines of the program
ROWS = {
    "K1": ("table_b", "0 0", "failed 2 2"),
    "K2": ("table_b", "2", "failed 1 1"),
    "K3": ("table_b", "0 1 0", "running 3 1"),
    "K4": ("worked/k4", "0", "failed 1 1"),
    "K5": ("worked/k5", "", "failed 0 0"),
    "K6": ("worked/k6", "0", "running 1 1"),
    "K7": ("worked/k7", "0", "running 1 2"),
    "K7, then 1": ("worked/k7", "0 1", "running 2 1"),
    "K8": ("worked/k8", "0", "running 1 2"),
    "K8, then 0": ("worked/k8", "0 0", "running 2 1"),
    "K9": ("worked/k9", "0", "running 1 1"),
    "K9, then 0": ("worked/k9", "0 0", "failed 2 2"),
    "K10": ("worked/k10", "1 0", "failed 2 2"),
    "K11": ("worked/k11", "0 1", "running 2 1"),
    "K12": ("worked/k11", "0 0", "failed 2 2"),
}


def assembled(name):
    file = EXAMPLES / f"{name}.csp"
    return Assembled(parse(Source(str(file), file.read_text())))


def runs(name):
    """Pairs of a list of events and the program's line."""
    found = []
    for words in (EXAMPLES / f"{name}.runs").read_text().split("\n"):
        words = words.split("--")[0]
        if words.strip():
            events, expected = words.split("=>")
            found.append((events.split(), expected.strip()))
    return found


def whole_input(drawing, events):
    meaning = drawing.names.meaning
    numbers = [int(word) if word.isdigit() else meaning[word].number for word in events]
    table = drawing.bytes()
    return written(len(table)) + table + bytes(numbers)


def names(kind="csp"):
    files = EXAMPLES.rglob(f"*.{kind}")
    return sorted(str(file.relative_to(EXAMPLES).with_suffix("")) for file in files)


class Examples(unittest.TestCase):
    def test_bytes(self):
        for name, expected in BYTES.items():
            self.assertEqual(assembled(name).bytes(), bytes.fromhex(expected), name)

    def test_rows_of_01(self):
        for row, (name, events, expected) in ROWS.items():
            self.assertEqual(line(whole_input(assembled(name), events.split())), expected, row)
            self.assertIn((events.split(), expected), runs(name), row)

    def test_runs(self):
        self.assertGreater(len(names()), 10)
        for name in names():
            drawing = assembled(name)
            for events, expected in runs(name):
                self.assertEqual(line(whole_input(drawing, events)), expected, (name, events))

    def test_verdicts(self):
        """Each example has a run that is accepted and one that fails; K5 fails at its start."""
        for name in names():
            verdicts = {expected.split()[0] for _, expected in runs(name)}
            wanted = {"failed"} if name == "worked/k5" else {"running", "failed"}
            self.assertLessEqual(wanted, verdicts, name)

    def test_each_runs_file_has_its_drawing(self):
        self.assertEqual(names("runs"), names())

    def test_text_is_stable(self):
        for name in names():
            data = assembled(name).bytes()
            drawing = text(tree(data))
            again = Assembled(parse(Source(name, drawing))).bytes()
            self.assertEqual(again, data, name)
            self.assertEqual(text(tree(again)), drawing, name)


if __name__ == "__main__":
    unittest.main()
