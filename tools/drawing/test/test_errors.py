"""Errors of drawings and of table bytes: what is said, and where.

A row's text has a mark `@` before each token that an error is about; the marks are taken out.
"""

import random
import unittest

from places import EXAMPLES
from notation.assemble import MOST_BYTES, Assembled
from notation.disassemble import tree
from notation.parse import parse
from notation.source import Problem, Source
from notation.syntax import MOST_DEPTH

HEAD = "alphabet 3\nset a = {0}\nset f = [{1}, {0}, {}]\n"
DEEP = "x : a -> a -> a -> a -> a -> "

ROWS = [
    # tokens
    (HEAD + "P = a @; STOP", "is no sign of the notation"),
    (HEAD + "P = @# STOP", "is no sign of the notation"),
    (HEAD + "P = a @| STOP", "a choice is written"),
    (HEAD + "P = a @\u2192 STOP", "a prefix is written"),
    (HEAD + "P @:= STOP", "a definition is written"),
    (HEAD + "@{- all -}\nP = STOP", "a comment begins with `--`"),
    ("alphabet @65536", "at most 65,535"),
    ("alphabet @" + "9" * 5000, "at most 65,535"),
    # statements
    ("@", "begins with `alphabet`"),
    ("-- nothing\n@set a = {0}", "begins with `alphabet`"),
    ("alphabet @0", "at least one event"),
    ("alphabet @= 3", "or the alphabet's size is expected"),
    ("alphabet a, @level", "a word of the notation"),
    ("alphabet 3\n@", "at least one definition"),
    ("alphabet 3 @P = STOP", "The next statement begins a line"),
    ("alphabet 3\n@alphabet 4", "one alphabet"),
    ("alphabet 3\n@{0} -> STOP", "A statement is expected"),
    ("alphabet 3\nlevel @P = STOP", "A number is expected for the level"),
    ("alphabet 3\nlevel 1 @= STOP", "A name for a definition"),
    ("alphabet 3\nset @STOP = {0}", "a word of the notation"),
    ("alphabet 3\nset a @{0}", "`=` is expected"),
    ("alphabet 3\nset a = @0", "A set `{..}` or a family"),
    ("alphabet 3\nevent e = @f", "A number is expected"),
    (HEAD + "P@(n) = STOP", "A definition has no parameters"),
    (HEAD + "level 1 P@(n) = STOP", "A definition has no parameters"),
    ("alphabet 3\n@channel c : {0}\nP = STOP", "events are declared by `alphabet`"),
    (HEAD + "P = @if x then STOP else STOP", "`if` is not here"),
    (HEAD + "P = a@?x -> P", "as in `x : set -> P`"),
    (HEAD + "P = a -> @stop", "STOP ends a run"),
    # names
    ("alphabet a, b, @a\nP = STOP", "`a` is the name of an event already (line 1)"),
    (HEAD + "set @a = {1}\nP = STOP", "`a` is the name of a set already (line 2)"),
    (HEAD + "@a = STOP", "`a` is the name of a set already (line 2)"),
    (HEAD + "P = STOP\n@P = STOP", "`P` is the name of a definition already (line 4)"),
    ("alphabet 3\nevent e = @3\nP = STOP", "events are 0 to 2"),
    ("alphabet e, g\nevent h = @1\nP = STOP", "Event 1 has the name `g` already"),
    (HEAD + "P = @b -> STOP", "`b` is not the name of a set or an event"),
    (HEAD + "P = a -> @Q", "`Q` is not the name of a definition"),
    (HEAD + "Start = a -> @Strat", "is `Start` meant?"),
    (HEAD + "P = @a", "`a` is the name of a set, not of a definition"),
    (HEAD + "P = @P -> STOP", "`P` is the name of a definition, not of a set or an event"),
    (HEAD + "P = STOP |[@b]| STOP", "`b` is not the name of a set or an event"),
    # sets
    ("alphabet 3\nset a = {0, @3}\nP = STOP", "events are 0 to 2"),
    ("alphabet 3\nset a = {@e}\nP = STOP", "`e` is not the name of an event"),
    ("alphabet 3\nset a = {0, 1, @0}\nP = STOP", "Event 0 stands in this set twice"),
    ("alphabet 3\nset a = {0, @0..2}\nP = STOP", "Event 0 stands in this set twice"),
    ("alphabet 3\nset a = {2..@0}\nP = STOP", "below its first"),
    ("alphabet 3\nset a = {0 @1}\nP = STOP", "`,` or `}` is expected"),
    ("alphabet 3\nset a = {0\n@P = STOP", "`,` or `}` is expected"),
    ("alphabet 3\nset a = {0, @}\nP = STOP", "An event is expected"),
    # families
    ("alphabet 3\nset f = @[]\nP = STOP", "a row for each event"),
    ("alphabet 3\nset f = @[{0}, {1}]\nP = STOP", "has 2 rows; the alphabet has 3 events"),
    ("alphabet 3\nset f = @[{}, {}, {}, {}]\nP = STOP", "has 4 rows"),
    ("alphabet 3\nset f = @[0: {}, 1: {}]\nP = STOP", "no row for event 2"),
    ("alphabet 3\nset f = [0: {}, @{1}, 2: {}]\nP = STOP", "Either each row"),
    ("alphabet 3\nset f = [0: {}, @0: {1}, else: {}]\nP = STOP", "Event 0 has a row already"),
    ("alphabet 3\nset f = [@else: {}, 0: {1}]\nP = STOP", "the last row"),
    ("alphabet 1\nset f = [0: {}, @else: {0}]\nP = STOP", "stands for none"),
    ("alphabet 3\nset f = [{0}, {1} @{2}]\nP = STOP", "`,` or `]` is expected"),
    ("alphabet 3\nset f = [0 @{}]\nP = STOP", "`:` is expected"),
    # references
    (HEAD + "P = a -> @f -> STOP", "as in `f(x)`"),
    (HEAD + "P = x : a -> a(@x) -> STOP", "it takes no parameter"),
    (HEAD + "P = x : a -> f(@y) -> STOP", "`y` is not the variable of a prefix around"),
    (HEAD + "P = x : f(@x) -> STOP", "`x` is not the variable of a prefix around"),
    (HEAD + "P = (x : a -> STOP) [] f(@x) -> STOP", "`x` is not the variable of a prefix around"),
    (HEAD + f"P = {DEEP}f(@x) -> STOP", "names one of 0 to 3"),
    (HEAD + "P = x : a -> f(@0) -> STOP", "is written `^0`"),
    (HEAD + "P = x : a -> f(^@70000) -> STOP", "at most 65,535"),
    (HEAD + "P = x : a -> f(@) -> STOP", "The variable of an enclosing prefix"),
    (HEAD + "event e = 2\nP = a -> f(@e) -> STOP", "`e` is an event"),
    (HEAD + "P = @a : a -> STOP", "`a` has a meaning already"),
    (HEAD + "P = ?@a : a -> STOP", "`a` has a meaning already"),
    # terms
    (HEAD + "P = a -> @", "not complete"),
    (HEAD + "P = a ->\n@Q = STOP", "not complete"),
    (HEAD + "P = a ->\n@set b = {1}", "not complete"),
    (HEAD + "P = @-> STOP", "A term is expected"),
    (HEAD + "P = x : a @STOP", "`->` is expected"),
    (HEAD + "P = x : @-> STOP", "A set is expected"),
    (HEAD + "P = STOP @STOP", "or the end of the line is expected"),
    (HEAD + "P = a -> STOP@)", "has no `(`"),
    (HEAD + "P = (a -> STOP\n@Q = STOP", "`)` is expected"),
    (HEAD + "P = STOP |[a@] STOP", "`]|` is expected"),
    (HEAD + "P = STOP |[a]| STOP @||| STOP", "need parentheses"),
    (HEAD + "P = " + "(" * MOST_DEPTH + "@STOP" + ")" * MOST_DEPTH, "200 deep"),
    (HEAD + "P = " + "a -> " * MOST_DEPTH + "@STOP", "200 deep"),
]

# texts with several errors of names and sets
SEVERAL = [
    "alphabet a, @a, b\nevent c = @1\nevent @b = @7\nP = STOP\n@P = STOP",
    "alphabet 3\nset a = {0, @0, @9, @gone, 2..@1, @3..@4}\nP = STOP",
    "alphabet 2\nset f = @[{@2}, {}, {@gone}]\nset g = [0: {@5}, @else: {}, 1: {@6}, @1: {}]\nP = STOP",
    "alphabet 2\nset f = [@gone: {}, 1: {@3}]\nset g = @[0: {}]\nset h = [0: {}, @{}, @0: {}, 1: {}]\nP = STOP",
    HEAD + "P = @gone -> f(@x) -> @Gone\nQ = @f -> a(@y) -> {@3} -> @a : a -> @P -> @Q -> STOP",
    HEAD + f"P = {'a -> ' * MOST_DEPTH}@STOP\nQ = {'a -> ' * MOST_DEPTH}@{'a -> ' * 5000}Gone",
    HEAD + "event Q = 0\n@Q = a -> Q\nP = a -> Q",  # that Q has two meanings is told once
]


def problem(text):
    try:
        Assembled(parse(Source("text", text)))
    except Problem as found:
        return found
    return None


def problems(text):
    """All that are found."""
    found = []
    Assembled(parse(Source("text", text), found), found)
    return found


def place_of(found):
    return found.at.line, found.at.column


def marks(marked):
    """The places of the marks, when they are taken out."""
    found = []
    for line, text in enumerate(marked.split("\n"), 1):
        parts = text.split("@")
        found += [(line, len("".join(parts[: at + 1])) + 1) for at in range(len(parts) - 1)]
    return found


class Errors(unittest.TestCase):
    def test_rows(self):
        for marked, message in ROWS:
            before, after = marked.split("@")
            found = problem(before + after)
            self.assertIsNotNone(found, marked)
            self.assertIn(message, found.message, marked)
            self.assertEqual([place_of(found)], marks(marked), (marked, found.message))

    def test_several(self):
        """With a list of problems all are found, the first that is raised without one among them, and no table made."""
        for marked in SEVERAL:
            text = marked.replace("@", "")
            found = problems(text)
            self.assertEqual(sorted(map(place_of, found)), marks(marked), marked[:200])
            raised = problem(text)
            self.assertIn((place_of(raised), raised.message), [(place_of(one), one.message) for one in found])

    def test_shown(self):
        found = problem("alphabet 3\nset a = {0}\n\tP = a -> Quiet -- and so on")
        self.assertEqual(
            found.shown(),
            "text:3:11: error: `Quiet` is not the name of a definition.\n"
            "    \tP = a -> Quiet -- and so on\n"
            "    \t         ^^^^^",
        )

    def test_comment_in_a_set(self):
        self.assertIsNone(problem("alphabet 2\nset a = {-- both\n0, 1}\nP = a -> STOP"))

    def test_long_table(self):
        """16,384 bytes stand, one more is an error at the number that passes them."""
        full = "[" + ", ".join(["{0..63}"] * 64) + "]"

        def table(last):
            sets = "".join(f"set f{i} = {full}\n" for i in range(3))  # 4,161 bytes each
            sets += "".join(f"set s{i} = {{0..63}}\n" for i in range(58))  # 66 bytes each
            sets += f"set half = {{0..31}}\nset last = {{0..{last}}}\n"  # 34 bytes, last + 3
            return f"alphabet 64\n{sets}P = STOP"  # 5 bytes besides

        data = Assembled(parse(Source("text", table(31)))).bytes()
        self.assertEqual(len(data), MOST_BYTES)
        found = problem(table(32))
        self.assertIn("more than 16,384 bytes", found.message)
        self.assertEqual(found.at.text, "STOP")

    def test_wide_family_is_an_error_at_once(self):
        found = problem("alphabet 65535\nset f = [0: {}, else: {0..65534}]\nP = STOP")
        self.assertIn("more than 16,384 bytes", found.message)

    def test_bytes(self):
        cut = "03 02 00 01 00 00 01 01 01 00 02 00 02 01 05"
        for data, message in [
            ("", "The bytes end within the table (byte 0)"),
            (cut, "end within the table (byte 15)"),
            (cut + "00 00", "Bytes follow the table (byte 16)"),
            ("80 00", "not the written form of a number (byte 0)"),
            ("FF FF 04", "not the written form of a number (byte 0)"),
            ("00", "at least one event (byte 0)"),
            ("03 01 02", "2 is not the kind of a set (byte 2)"),
            ("03 01 00 01 03", "Event 3 is not in the alphabet (byte 4)"),
            ("03 01 00 02 01 01", "do not ascend (byte 5)"),
            ("03 00 00", "at least one definition (byte 2)"),
            ("03 00 01 00 06", "6 is not the kind of a term (byte 4)"),
            ("03 00 01 00 02 00", "There is no set 0 (byte 5)"),
            ("03 00 01 00 05 AC 02", "There is no definition 300 (byte 5)"),
            ("03 01 00 01 00 01 00" + " 02 00" * MOST_DEPTH + " 00", "200 deep"),
            ("03" * (MOST_BYTES + 1), "more than 16,384 bytes"),
        ]:
            with self.assertRaises(Problem) as found:
                tree(bytes.fromhex(data), "table")
            self.assertIn(message, found.exception.message)
            self.assertTrue(found.exception.shown().startswith("table: error: "))

    def test_any_text_is_a_table_or_an_error(self):
        """Changes of the examples at random: no other exception."""
        random.seed(1)
        texts = [file.read_text() for file in sorted(EXAMPLES.rglob("*.csp"))]
        pieces = " { } [ ] [] |[ ]| ( ) ^ 0 99 x : -> = level set else .. , STOP é".split()
        pieces += [" ", "\n"]
        for _ in range(1500):
            text = random.choice(texts)
            for _ in range(random.randint(1, 3)):
                place = random.randrange(len(text))
                text = text[:place] + random.choice(pieces) + text[place + random.randint(0, 4) :]
            found, several = problem(text), problems(text)
            self.assertEqual(found is None, not several, text)
            if found is not None:
                self.assertIn(text.split("\n")[found.at.line - 1], found.shown())


if __name__ == "__main__":
    unittest.main()
