"""cspe check, picture and c: what they say of drawings, and what is made of them."""

import contextlib
import io
import itertools
import os
import shutil
import subprocess
import tempfile
import unittest
from pathlib import Path
from unittest import mock
from xml.etree import ElementTree

from places import EXAMPLES, ROOT, called, cspe, text_of
from commands import check
from commands.drawings import load
from commands.explore import Graph
from commands.picture import distances

HEAD = "alphabet go, halt\nset none = {}\n"
FLAGS = "-Wall -Wextra -pedantic -Werror -fsyntax-only".split()
COMPILERS = [("gcc", "c", "c99"), ("clang", "c", "c99"), ("g++", "c++", "c++17"), ("clang++", "c++", "c++17")]


class Check(unittest.TestCase):
    def checked(self, text, status, *wanted):
        with text_of(text) as own:
            found, output, errors = cspe("check", own)
        self.assertEqual((found, errors), (status, ""), text)
        for words in wanted:
            self.assertIn(words, output, text)
        return output

    def test_examples_have_no_fault(self):
        for file in sorted(EXAMPLES.glob("*.csp")):
            status, output, errors = cspe("check", file)
            self.assertEqual((status, errors), (0, ""), file)
            self.assertNotIn("warning", output, file)

    def test_every_fault(self):
        """All faults of the rules, each with a caret and a way to mend it."""
        output = self.checked(
            HEAD + "P = go -> P\nQ = go -> Q |[none]| P\nR = R\nS = P ||| go -> T\nT = halt -> S\n",
            2,
            ":4:11: refused 7 (wrong reference): Q is called under a parallel",
            "Q would stand beside itself ever more often",
            "    to mend it: give Q, the definition that calls it, a higher level: `level 1 Q = ..`",
            ":5:5: refused 7 (wrong reference): R calls itself before any event\n    R = R\n        ^",
            "T comes back to S, which would stand beside itself",
            ": 5 faults; no levels would do\n",
        )
        self.assertEqual(output.count("to mend it"), 5)

    def test_levels_are_inferred(self):
        """Through several definitions: the least levels that will do. So mended, it has no fault."""
        text = HEAD + "P = go -> P\nQ = P ||| P\nR = Q ||| Q\nS = go -> R\n"
        last = "; with level 1 at Q, level 2 at R and S there is none\n"
        output = self.checked(text, 2, "`level 1 Q = ..`", "`level 2 R = ..`", last)
        self.assertNotIn("S = ..", output)
        mended = text.replace("Q = P", "level 1 Q = P").replace("R = Q", "level 2 R = Q")
        self.checked(mended, 2, ":6:11: refused 7 (wrong reference): R has level 2, above S", "`level 2 S = ..`")
        mended = mended.replace("S = go", "level 2 S = go")
        self.checked(mended, 0, "no fault; levels: Q 1, R 2, S 2")

    def test_order_and_start(self):
        """A fault that asks to move a definition: which one is the start, which would be, what an event more does."""
        event = " " * 16 + "or put an event before the call: other runs are permitted then\n"
        self.checked(
            HEAD + "P = Q [] halt -> P\nQ = go -> Q\n",
            2,
            f"    to mend it: define Q above P (then P is the start),\n{event}",
            ": 1 fault; the start is Q, the last definition\n",
        )
        self.checked(
            HEAD + "P = Q\nQ = go -> P\nR = P ||| P\n",
            2,
            f"    to mend it: define Q above P,\n{event}",
            ": 3 faults; with level 1 at R, 1 of them stays; the start is R, the last definition\n",
        )
        self.checked(HEAD + "P = Q [] go -> (P ||| P)\nQ = go -> Q\n", 2, "no levels would do; the start is Q, the ")
        self.assertNotIn("the start is", self.checked(HEAD + "P = go -> P\nQ = P ||| P\n", 2))

    def test_faults_that_levels_hide(self):
        """Width and branches with the levels inferred, and what looks wrong then; the last line says what is left."""
        lanes = "P = go -> P\nQ = P ||| P ||| P ||| P ||| P\n"
        self.checked(
            HEAD + lanes + "R = Q ||| Q\n",
            2,
            ":5:1: then refused 8 (too many hands): R can come to 10 terms side by side",
            ": 8 faults; with level 1 at Q, level 2 at R, 1 of them stays\n",
        )
        self.checked(
            HEAD + "P = go -> P [] go -> go -> P [] halt -> P\nQ = P ||| P ||| P ||| P ||| P ||| P\n",
            2,
            ":4:31: then refused 9 (too many openings): this term begins in 729 ways",
            ": 7 faults; with level 1 at Q, 1 of them stays\n",
        )
        self.checked(
            HEAD + "P = go -> P [] none -> P\nQ = P ||| P\n",
            2,
            ":3:16: warning: no event is in this set",
            ": 2 faults; with level 1 at Q there is none; 1 warning\n",
        )
        self.checked(HEAD + lanes.replace("P = go -> P", "P = go -> (P ||| P)"), 2, "; no levels would do\n")

    def test_warnings(self):
        self.checked(
            HEAD + "P = go -> P\nS = none -> P\nT = FAIL\nU = halt -> STOP |[{go, halt}]| go -> halt -> STOP\n"
            "V = FAIL\nlevel 2 Start = go -> S [] go -> U [] go -> V\n",
            0,
            ":3:5: warning: this is never reached",
            ":4:5: warning: no event is in this set",
            ":5:1: warning: T is never called from Start, the start\n    T = FAIL\n    ^\n"
            "    to mend it: call it or leave it out;\n"
            "                the last definition is the start: if another is meant, put it last\n",
            ":6:5: warning: no event of this set can ever come here",
            ":7:1: warning: V is doomed",
            ":8:7: warning: level 0 would do for Start",
            "no fault; 7 warnings",
        )

    def test_what_was_not_sought(self):
        """Beyond a number of residual sets, or of slots, nothing is said to be never reached; and that is told."""
        out = io.StringIO()
        with mock.patch.object(check, "LIMIT", 5), contextlib.redirect_stdout(out):
            self.assertEqual(check.judge(load("packing_line")), 0)
        self.assertIn("there are more than 5 residual sets, so what is never reached was not sought\n", out.getvalue())
        ways = " [] ".join(["go -> Q"] * 17)
        self.checked(HEAD + f"Q = {ways}\nlevel 1 P = go -> (Q ||| halt -> Q)\n", 0, "more than 256 slots, so what")

    def test_every_error(self):
        """Errors of the text: those of each statement, in order, with an answer to signs of other notations."""
        output = self.checked(
            HEAD + "P = go ; Q\nQ = STOP [| none |] P \\ none\nR = -> STOP\nS = STOP @ STOP\n",
            2,
            ":3:8: error: `;` is no sign of the notation: sequence `P; Q` is left out",
            ":4:10: error: `[|` is no sign of the notation: a parallel over a set is written `P |[set]| Q` here.",
            ":4:23: error: `\\` is no sign of the notation: hiding is left out",
            ":5:5: error: A term is expected",
            ": 6 errors\n",
        )
        places = [line.split(": error")[0] for line in output.splitlines() if ": error: " in line]
        self.assertEqual(places, sorted(places))
        self.checked(
            HEAD + "P = SKIP [] gone -> STOP\nQ = Gone\n",
            2,
            "the terminating action is left out",
            "`gone` is not the name of a set or an event",
            "`Gone` is not the name of a definition",
            ": 3 errors\n",
        )
        self.checked(
            "alphabet go, go\nset a = {gone, 7}\nset f = [{go}]\nP = f -> a(x) -> STOP\nP = y : a -> f(z) -> Q\n",
            2,
            ":1:14: error: `go` is the name of an event already",
            ":2:10: error: `gone` is not the name of an event; is `go` meant?",
            ":2:16: error: Event 7 is not in the alphabet",
            ":3:9: error: The family `f` has 1 rows; the alphabet has 2 events",
            ":4:5: error: `f` is a family: it takes a parameter",
            ":4:12: error: `a` is one set: it takes no parameter",
            ":5:1: error: `P` is the name of a definition already",
            ":5:16: error: `z` is not the variable of a prefix",
            ":5:22: error: `Q` is not the name of a definition",
            ": 9 errors\n",
        )
        output = self.checked("alphabet\nset a = {go}\nset a = {5}\nP = a -> Q\nQ = ->\n", 2, ": 3 errors\n")
        self.assertNotIn("is not", output)  # for want of what could not be read
        self.checked("alphabet 3\n", 2, ":2:1: error: A drawing has at least one definition", ": 1 error\n")
        both = ("the terminating action is left out", "sequence", ": 2 errors\n")
        self.checked(HEAD + "P = go -> SKIP\nQ = P ; P\n", 2, *both)
        self.checked(HEAD + "P = STOP || STOP\n", 2, "interleaving `P ||| Q`")
        self.checked(HEAD + "P = STOP ||| STOP\n", 0, "no fault")


class Picture(unittest.TestCase):
    def test_dot(self):
        """Arrows forth as they are, those back with their head behind; the end of a run; where a set stands."""
        status, output, errors = cspe("picture", "interlock")
        self.assertEqual((status, errors), (0, ""))
        for line in (
            "rankdir=LR;",
            "start -> 1;",
            '1 -> 2 [label="shut"];',
            '1 -> 2 [dir=back, weight=0, label="open"];',
            '2 -> 3 [label="down"];',
            '2 -> 3 [dir=back, weight=0, label="up"];',
            '3 [tooltip="Door 9:16, Press 10:17, Locked 14:38"];',
        ):
            self.assertEqual(output.count(f"    {line}\n"), 1, line)
        self.assertTrue(output.endswith("}\n"))
        ends = [line for line in cspe("picture", "two_keys")[1].splitlines() if line.endswith("shape=doublecircle];")]
        self.assertEqual([line.split()[0] for line in ends], ["10", "11"])

    def test_labels(self):
        """Events of one arrow together, numbers in succession as a range, long labels on several lines; loops."""
        names = ", ".join(f"a_long_name_{i}" for i in range(6))
        with text_of(f"alphabet {names}\nP = {{{names}}} -> P\n") as own:
            output = cspe("picture", own)[1]
        lines = "a_long_name_0, a_long_name_1,\\na_long_name_2, a_long_name_3,\\na_long_name_4, a_long_name_5"
        self.assertIn(f'    1 -> 1 [label="{lines}"];\n', output)
        with text_of("alphabet 9\nevent go = 4\nQ = STOP\nP = {0, 1, 3..8} -> Q [] {2} -> go -> Q\n") as own:
            output = cspe("picture", own)[1]
        self.assertIn('    1 -> 2 [label="0, 1, 3, go, 5..8"];\n', output)
        self.assertIn('    3 -> 2 [constraint=false, label="go"];\n', output)  # both are one event from the start

    def test_text(self):
        expected = "   1 -- 0 --> 2\n   2 -- 1 --> 1\n2 residual sets; 1 is the start\n"
        self.assertEqual(cspe("picture", "--text", "table_b")[1], expected)

    def test_merge(self):
        """Of the packing line a crack before the stamp and one behind it lead to the same runs."""
        self.assertIn("\n64 residual sets", cspe("picture", "--text", "packing_line")[1])
        self.assertIn("\n48 residual sets", cspe("picture", "--text", "--merge", "packing_line")[1])

    def test_limit(self):
        """A picture that is not whole says so, and shows what is left out."""
        status, output, errors = cspe("picture", "--limit", "5", "packing_line")
        self.assertEqual(status, 0)
        self.assertIn("more than 5 residual sets", errors)
        self.assertIn('    5 -> more [label="stamp, crack", style=dashed];\n', output)
        self.assertIn('    more [label="more", shape=box, style=dashed];\n', output)
        _, output, errors = cspe("picture", "--text", "--merge", "--limit", "5", "packing_line")
        self.assertIn("   5 -- stamp, crack --> more\n5 residual sets, and there are more; 1 is the start\n", output)
        self.assertIn("only a whole picture is merged", errors)
        self.assertEqual(cspe("picture", "--limit", "0", "packing_line")[0], 3)

    def test_svg(self):
        """With graphviz, here one that says what it was given; without it a message and no file."""
        with tempfile.TemporaryDirectory() as folder:
            out = Path(folder) / "own.svg"
            program = Path(folder) / "dot"
            program.write_text('#!/bin/sh\necho "<svg> $1"\ncat\n')
            program.chmod(0o755)
            path = f"{folder}:{os.environ['PATH']}"
            self.assertEqual(called("picture", "table_b", "--svg", out, env={**os.environ, "PATH": path})[0], 0)
            self.assertTrue(out.read_text().startswith("<svg> -Tsvg\ndigraph"))
            out.unlink()
            only = Path(folder) / "only"
            only.mkdir()
            status, _, errors = called("picture", "table_b", "--svg", out, env={**os.environ, "PATH": str(only)})
            self.assertEqual(status, 3)
            self.assertIn("--svg needs graphviz", errors)
            self.assertFalse(out.exists())

    @unittest.skipUnless(shutil.which("dot"), "graphviz is not here")
    def test_columns(self):
        """Where graphviz is: each example's picture has its sets from left to right, by their distance."""
        for name in [file.stem for file in sorted(EXAMPLES.glob("*.csp"))]:
            with tempfile.TemporaryDirectory() as folder:
                out = Path(folder) / "own.svg"
                self.assertEqual(cspe("picture", name, "--svg", out), (0, "", ""))
                found = ElementTree.parse(out).getroot()
            place = {}
            for node in found.iter("{http://www.w3.org/2000/svg}g"):
                if node.get("class") == "node" and node[0].text != "start":
                    place[int(node[0].text)] = float(node.find(".//{*}ellipse").get("cx"))
            graph = Graph(load(name).table, 100)
            self.assertEqual(sorted(place), [state.number + 1 for state in graph.states], name)
            column = distances(graph)
            for first, second in itertools.combinations(column, 2):
                apart = column[second] - column[first], round(place[second + 1] - place[first + 1])
                self.assertEqual(apart[0] > 0, apart[1] > 0, (name, first, second))

    def test_no_run(self):
        self.assertEqual(cspe("picture", "worked/k5"), (1, "", "failed at 0: this drawing permits no run at all\n"))


class Header(unittest.TestCase):
    def test_header(self):
        status, output, errors = cspe("c", "packing_line")
        self.assertEqual((status, errors), (0, ""))
        self.assertIn("enum packing_line_event {\n    PACKING_LINE_STAMP = 0,\n", output)
        self.assertIn('"close_right"\n};', output)
        self.assertIn("static const unsigned char packing_line_table[", output)

    def test_names(self):
        """What is no name in C, and names that come to the same."""
        with text_of("alphabet 4\nevent a' = 0\nevent a_ = 1\nevent int = 3\nP = {0..3} -> P\n", "9 line.csp") as own:
            output = cspe("c", own)[1]
            for constant in ("A_ = 0,", "A__1 = 1,", "EVENT_2 = 2,", "INT = 3"):
                self.assertIn(f"    DRAWING_9_LINE_{constant}\n", output)
            self.assertIn("enum own_event", cspe("c", own, "--name", "own")[1])

    def test_it_compiles(self):
        with tempfile.TemporaryDirectory() as folder:
            use = Path(folder) / "use.c"
            for name in ("table_b", "packing_line"):
                self.assertEqual(cspe("c", name, "-o", Path(folder) / f"{name}.h")[0], 0)
            use.write_text(
                '#include "table_b.h"\n#include "packing_line.h"\n'
                "int main(void) { return table_b_table[PACKING_LINE_STAMP] == 3 && packing_line_event_names[0][0]; }\n"
            )
            tried = 0
            for compiler, language, standard in COMPILERS:
                if shutil.which(compiler):
                    tried += 1
                    command = [compiler, "-x", language, f"-std={standard}", *FLAGS, str(use)]
                    subprocess.run(command, check=True, cwd=ROOT)
            self.assertGreater(tried, 0)


if __name__ == "__main__":
    unittest.main()
