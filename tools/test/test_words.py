"""tools/check-words finds a division in the code of a crate that sees node words, and a listed one that is gone."""
import tempfile
import unittest
from pathlib import Path

from loading import ROOT, tool, write

check = tool("check-words")

NAME = "state/src/lib.rt"
CODE = """// a / b in a comment
pub fn half(n: u64) -> u64
    requires small { n / 2 < 2 ^ 8 }
    ensures { Halved record { half = n / 2;
        whole = n } }
{
    n / 2
}
"""


class Small(unittest.TestCase):
    def faults(self, code, listed):
        with tempfile.TemporaryDirectory() as folder:
            root = Path(folder)
            write(root, {"crates.txt": "state:\n", f"crates/{NAME}": code})
            return list(check.faults(root, {NAME: listed}))

    def test_listed(self):
        self.assertEqual(self.faults(CODE, {"n / 2": (1, "a number")}), [])

    def test_not_listed(self):
        found = self.faults(CODE.replace("n / 2\n}", "n % 64\n}"), {})
        self.assertEqual(len(found), 1)
        self.assertIn(f"crates/{NAME}:7: `n % 64` divides", found[0])

    def test_once_more(self):
        found = self.faults(CODE + "pub fn also(n: u64) -> u64 {\n    n / 2\n}\n", {"n / 2": (1, "a number")})
        self.assertEqual(len(found), 1)
        self.assertIn(f"crates/{NAME}:10: `n / 2` divides", found[0])

    def test_new_crate(self):
        with tempfile.TemporaryDirectory() as folder:
            root = Path(folder)
            write(root, {"crates.txt": "fresh staticlib:\n", "crates/fresh/src/lib.rt": CODE})
            self.assertEqual(len(list(check.faults(root, {}))), 1)

    def test_gone(self):
        found = self.faults(CODE.replace("    n / 2\n", "    n >> 1\n"), {"n / 2": (1, "a number")})
        self.assertEqual(len(found), 1)
        self.assertIn("is not there", found[0])


class TheTree(unittest.TestCase):
    def test_node_word_has_none(self):
        self.assertNotIn("node_word/src/lib.rt", check.DIVIDED)
        self.assertEqual(list(check.faults(ROOT, check.DIVIDED)), [])


if __name__ == "__main__":
    unittest.main()
