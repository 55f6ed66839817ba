"""tools/check-layers finds each kind of fault in a small tree, and forbidden lines of the real crates.txt."""
import tempfile
import unittest
from pathlib import Path

from loading import ROOT, add_faults, told, tool, write

check = tool("check-layers")

SMALL = {
    "LAYERS": {"kit": ("io", ""), "low": ("coins purse", ""), "high": ("shop till", "coins purse io")},
    "INNER": {"coins.specs.Heap": "Heaped"},
    "CALLED": {"purse": "count"},
}

FILES = {
    "crates.txt": "# the crates\ncoins:\npurse: coins\nshop: coins purse\ntill: shop io\n",
    "crates/coins/specs/Heap.antt": "use Rattle.coins.specs.Coin.{Coin}\n",
    "crates/purse/src/lib.rt": "use coins::Coin;\nghost use Rattle.coins.specs.Heap.{heap};\n",
    "crates/shop/src/lib.rt": "// purse::spare\nmod till;\nuse purse::count;\nuse till::ring;\n",
    "crates/shop/src/till.rt": "pub fn ring() { coins::toss() }\n",
    "crates/shop/specs/Shop.antt": "-- Rattle.till.specs.Till\nuse Rattle.coins.specs.Heap.{Heaped as Full}\n",
    "crates/shop/proofs/sell/Proof.antt": (
        "use Rattle.std.proofs.Common.{both}\nuse Rattle.coins.proofs.Coin.{flips}\n"
        "use Rattle.purse.specs.Count.{count_of}\n"
    ),
    "crates/till/src/main.rt": "use io::print;\n",
}

LINES, PURSE = "crates.txt", "crates/purse/src/lib.rt"
SHOP, PROOF = "crates/shop/specs/Shop.antt", "crates/shop/proofs/sell/Proof.antt"

# what is wrong: the file, what stands there, what it becomes, and what is told
FAULTS = {
    "a lower crate lists a higher one": (
        LINES,
        "purse: coins\nshop: coins purse",
        "shop: coins\npurse: coins shop",
        "purse (low) may not list shop (high)",
    ),
    "a crate lists what its layer may not": (LINES, "purse: coins", "purse: coins io", "may not list io (kit)"),
    "a crate lists one below it": (LINES, "coins:\n", "coins: purse\n", "lists purse, which has no line above it"),
    "a crate lists one that is not there": (LINES, "till: shop", "till: shop bank", "lists bank, which has no line"),
    "a crate in no layer": (LINES, "till:", "bank:\ntill:", "bank stands in no layer"),
    "a crate without a folder": (LINES, "till:", "bank:\ntill:", "bank has no folder"),
    "two lines": (LINES, "till:", "shop:\ntill:", "shop has two lines"),
    "a crate without a line": (LINES, "till: shop io\n", "", "crates/till: it has no line"),
    "a layer's crate without a line": (LINES, "till: shop io\n", "", "till of layer high has no line"),
    "used and not listed": (PURSE, "use coins::Coin;", "use io::print;", "io is named, which the line of purse"),
    "called and not listed": ("crates/shop/src/till.rt", "coins::toss", "io::toss", "io is named, which"),
    "cited and not listed": (SHOP, "Rattle.coins.specs.Heap", "Rattle.till.specs.Till", "till is named, which"),
    "cited and not there": (SHOP, "Rattle.coins.specs", "Rattle.coin.specs", "there is no crate coin"),
    "another crate's proof": (PROOF, "specs.Count.{count_of}", "proofs.count.Goals", "neither a definition nor a law"),
    "another crate's theorem": (PROOF, "specs.Count", "proofs.Theorems", "neither a definition nor a law of"),
    "a whole proof": (PROOF, "specs.Count.{count_of}", "proofs.count as low", "neither a definition nor a law"),
    "a whole crate": (PROOF, ".specs.Count.{count_of}", "", "Rattle.purse is neither a definition nor a law of"),
    "an inner definition": (SHOP, "Heaped as Full", "Heaped, heap", "specs.Heap: heap is inner to layer low"),
    "an inner module": (SHOP, ".{Heaped as Full}", " as heap", "all of it is inner to layer low"),
    "a law of an inner module": (SHOP, "specs.Heap.{Heaped as Full}", "proofs.Heap.{law}", "law is inner to layer low"),
    "a module below an inner one": (SHOP, ".{Heaped as Full}", ".Laws.{law}", "Heap: Laws is inner to layer low"),
    "an inner function": ("crates/shop/src/lib.rt", "purse::count", "purse::{count, open}", "purse::open is inner"),
    "a crate under another name, not listed": (PURSE, "use coins::Coin;", "use io as out;", "io is named, which"),
    "a whole crate, not listed": (PURSE, "use coins::Coin;", "use io;", "io is named, which the line of purse"),
    "an inner function of a crate under another name": (
        "crates/shop/src/lib.rt",
        "use purse::count;",
        "use purse as bag;\nfn f() { bag::open() }",
        "purse::open is inner",
    ),
    "everything of a crate": ("crates/shop/src/lib.rt", "purse::count", "purse::*", "purse::* is inner"),
}


class SmallTree(unittest.TestCase):
    def setUp(self):
        folder = tempfile.TemporaryDirectory()
        self.addCleanup(folder.cleanup)
        self.root = Path(folder.name)
        for name, value in SMALL.items():
            self.addCleanup(setattr, check, name, getattr(check, name))
            setattr(check, name, value)

    def run_on(self, files):
        write(self.root, files)
        return told(check, self.root)

    def test_right(self):
        self.assertEqual(self.run_on(FILES), (0, "check-layers: ok, 4 crates in 2 layers\n"))

    def test_no_lines(self):
        self.assertEqual(told(check, self.root)[0], 2)


add_faults(SmallTree, FILES, FAULTS)


class TheTree(unittest.TestCase):
    """The real crates.txt, whole and with one crate more on a line: the cut that 01 asks for."""

    def test_right(self):
        status, output = told(check, ROOT)
        self.assertEqual(status, 0, output)

    def faults_with(self, crate, other):
        lines = (ROOT / "crates.txt").read_text().splitlines()
        line = next(line for line in lines if line.startswith((f"{crate}:", f"{crate} staticlib:")))
        trial = check.Check(ROOT)
        trial.check_lines([each for each in lines if each != line] + [f"{line} {other}"])
        return trial.faults

    def test_forbidden(self):
        for crate, other in (
            ("numbers", "table"),
            ("table", "meaning"),
            ("index", "state"),
            ("codec", "resolving"),
            ("meaning", "index"),
            ("resolving", "judge"),
            ("residuals", "index"),
            ("resolving", "state"),
            ("tree_walk", "monitor_spec"),
            ("set_step", "codec"),
            ("slots", "io"),
            ("step_laws", "parse"),
            ("feeding", "codec"),
            ("monitor", "event_sets"),
            ("monitor", "line"),
            ("line", "judge"),
            ("line", "set_step"),
            ("monitor_c", "resolving"),
            ("monitor_c", "line"),
        ):
            with self.subTest(f"{crate} lists {other}"):
                told_so = [fault for fault in self.faults_with(crate, other) if f" may not list {other} " in fault]
                self.assertEqual(len(told_so), 1)


if __name__ == "__main__":
    unittest.main()
