"""tools/check-statements finds each kind of fault in a small tree, and each spoilt word of the page itself."""
import re
import tempfile
import unittest
from pathlib import Path

from loading import ROOT, add_faults, told, tool, write

check = tool("check-statements")

PAGE = """\
# Statements

In crate `coins`, with `count_of`; `tools/weigh` weighs them.

- "A coin is .."
  - says: `count` is `count_of`,
    on every input
  - stated: coins/src/lib: count; coins/specs/Coin: Coin, count_of, heads,
    tails
  - proved: coins/proofs/count; coins/proofs/Laws: same, flips
  - tried: coins/must-fail: count_loses_one; coins_test; tools/weigh; coins/specs/Coin: rows (K1)
- "twice is the same", and "`heads` or not"
  - says: counting twice
  - stated: coins/Claims: CountTwice, CountsAll; docs/DECISIONS: "A coin, and no more"
  - proved: coins/Theorems: count_twice, counts_all
"""

LIB = """\
// Coins.
pub fn count(a: &[u8]) -> u64
    ensures { result ≡ count_of a.now }
{ 0 }

fn inner(a: u64) -> u64
{ a }
"""

COIN = """\
-- Coins.
--     lost : a comment
pub data Coin : Type 0 where
  heads tails : Coin

unfoldable pub count_of : List Coin → ℕ
count_of l = let spare : ℕ = 0 in spare

-- "(K1)"
abbrev pub rows : List Coin
"""

CLAIMS = """\
unfoldable pub CountTwice : Type 0
CountTwice = ℕ

pub record CountsAll : Type 0 where
  pub all : ℕ

abbrev pub helper : ℕ
"""

FILES = {
    "docs/STATEMENTS.md": PAGE,
    "docs/DECISIONS.md": "# Decisions\n\n## A coin, and no more\nSo.\n",
    "crates.txt": "# the crates\ncoins:\ncoins_c staticlib: coins\ncoins_test: coins\n",
    "crates/coins/src/lib.rt": LIB,
    "crates/coins/src/purse.rt": "pub fn toss() {}\npub fn weigh() {}\n",
    "crates/coins/specs/Coin.antt": COIN,
    "crates/coins/specs/Claims.antt": CLAIMS,
    "crates/coins/proofs/Theorems.antt": "pub count_twice : CountTwice\npub counts_all : CountsAll\nlemma : ℕ\n",
    "crates/coins/proofs/count/Proof.antt": "",
    "crates/coins/proofs/Laws.antt": "pub same : ℕ\npub flips : ℕ\n",
    "crates/coins/must-fail/count_loses_one.edit": "",
    "crates/coins_test/stdout": "ok\n",
    "tools/weigh": "",
}

# on the page: what stands there, what it becomes, and what is told
ON_PAGE = {
    "a file": ("coins/specs/Coin: Coin", "coins/specs/Coins: Coin", "there is no coins/specs/Coins"),
    "a crate": ("coins_test", "coin_test", "there is no coin_test"),
    "a crate that prints nothing": ("coins_test;", "coins;", "there is no coins"),
    "a definition": ("tails", "tail", "tail: no such definition"),
    "a definition of a comment": ("tails", "lost", "lost: no such definition"),
    "a definition within another": ("tails", "spare", "spare: no such definition"),
    "a law": ("Laws: same", "Laws: other", "other: no such definition"),
    "a law elsewhere": ("coins/proofs/Laws", "coins/specs/Laws", "there is no coins/specs/Laws"),
    "a function": ("lib: count;", "lib: counts;", "counts: no such function"),
    "a function without a contract": ("lib: count;", "lib: count, inner;", "inner: it has no ensures"),
    "an edit": ("count_loses_one", "count_loses_two", "count_loses_two: no such edit"),
    "a claim": ("CountTwice,", "CountThrice,", "CountThrice: no such definition"),
    "a theorem": ("count_twice,", "count_thrice,", "count_thrice: no such definition"),
    "a heading": ("no more", "more", "no such heading"),
    "a row": ("(K1)", "(K2)", "has no K2"),
    "a tool": ("coins_test; tools/weigh", "coins_test; tools/weighs", "there is no tools/weighs"),
    "a word in backticks": ("`count` is", "`counted` is", "`counted` is the name of nothing"),
    "a word of a paragraph": ("with `count_of`", "with `counts_of`", "`counts_of` is the name of nothing"),
    "a name without backticks": ("counting twice", "CountTwice", "CountTwice stands without backticks"),
    "a folder without names": ("must-fail: count_loses_one", "must-fail", "must-fail needs names"),
    "a glob": ("count_loses_one", "count_*", "count_*: no such edit"),
    "a name where none can be": ("tools/weigh;", "tools/weigh: it;", "nothing in it has a name"),
    "prose": ("coins_test;", "the edits above;", "not understood: the edits above"),
    "a proof as a statement": ("stated: coins/src/lib: count;", "stated: coins/proofs/count;", "is stated by"),
    "an unknown part": ("  - says: counting", "  - shows: counting", "not understood: - shows"),
    "a part twice": ("  - proved: coins/Theorems", "  - says: so\n  - proved: coins/Theorems", "once each"),
    "a block that says nothing": ("  - says: counting twice\n", "", "a block says something"),
    "a long line": ("counting twice", "counting " * 20, "over 120"),
    "a table": ("In crate", "| In crate", "not understood: | In crate"),
    "a claim left out": ("CountTwice, CountsAll;", "CountTwice;", "no block states claim CountsAll"),
    "a claim without its proof": ("count_twice, counts_all", "count_twice", "has its proof, counts_all"),
    "an edit left out": ("coins/must-fail: count_loses_one; ", "", "no block names edit count_loses_one"),
}

SOURCE, THEOREMS = "crates/coins/src/lib.rt", "crates/coins/proofs/Theorems.antt"

# in the tree: the file too
IN_TREE = {
    "a file that is gone": ("crates/coins/proofs/Laws.antt", None, None, "there is no coins/proofs/Laws"),
    "a new claim": (
        "crates/coins/specs/Claims.antt",
        "abbrev",
        "unfoldable pub More : ℕ →\n    Type 1\nabbrev",
        "no block states claim More",
    ),
    "several exports": (SOURCE, "// Coins.", "pub use purse::{toss, weigh};", "no block states coins/src/purse: weigh"),
    "a theorem of another claim": (THEOREMS, ": CountsAll", ": CountTwice", "has no `pub counts_all : CountsAll`"),
    "a new theorem": (THEOREMS, "lemma", "pub lemma", "no block names theorem lemma"),
    "a new public function": (SOURCE, "fn inner", "pub fn inner", "no block states coins/src/lib: inner"),
    "a public function that asks": (SOURCE, "    ensures", "    requires { a }\n    ensures", "has a requires"),
    "an export of another form": (SOURCE, "pub fn", "pub use coins::*;\npub fn", "not understood: pub use"),
}


class SmallTree(unittest.TestCase):
    def setUp(self):
        products, check.PRODUCTS = check.PRODUCTS, ("coins",)
        self.addCleanup(setattr, check, "PRODUCTS", products)
        folder = tempfile.TemporaryDirectory()
        self.addCleanup(folder.cleanup)
        self.root = Path(folder.name)

    def run_on(self, files):
        write(self.root, files)
        return told(check, self.root)

    def test_right(self):
        self.assertEqual(self.run_on(FILES), (0, "check-statements: ok, 2 blocks, 14 names\n"))

    def test_no_page(self):
        self.assertEqual(self.run_on({"crates.txt": "coins:\n"})[0], 2)


add_faults(SmallTree, FILES, {label: ("docs/STATEMENTS.md", *change) for label, change in ON_PAGE.items()})
add_faults(SmallTree, FILES, IN_TREE)


class ThePage(unittest.TestCase):
    def test_each_spoilt_word(self):
        """Of every reference on the page, each word that is spoilt makes a fault."""
        tree = check.Tree(ROOT)
        page = check.Page((ROOT / check.PAGE).read_text(), tree)
        self.assertEqual(page.faults, [])
        words = 0
        for _, parts in page.blocks:
            for key, _, text in parts:
                named = re.sub(r"\([^()]*\)", lambda remark: " " * len(remark[0]), text) if key in check.KINDS else ""
                for word in re.finditer(r"[^\s;:,]+", named):
                    spoilt = text[: word.end()] + "Q" + text[word.end() :]
                    block = f"- asked\n  - says: so\n  - {key}: {spoilt}\n"
                    faults = [fault for _, fault in check.Page(block, tree).faults if "columns" not in fault]
                    needed = 1 if key != "proved" else 2  # a block that only proves is a fault already
                    self.assertGreaterEqual(len(faults), needed, spoilt)
                    words += 1
        self.assertGreater(words, 1000)


if __name__ == "__main__":
    unittest.main()
