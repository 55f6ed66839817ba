"""Every command of the documents: those with their output are run and compared, the others run or held to the gate.

A document shows a command and what it prints as `$ COMMAND` and lines below it. A command without its output, in a list
of commands or in a sentence, is either in RUN, and ends well here, or in GATE: it proves or measures, or another test
runs it. The commands of tools/reference have a test beside tools/drawing; those of tools/bench measure for long.
"""

import re
import tempfile
import unittest

from documents import blocks, folder, steps, take, taken
from places import ROOT
from notation.assemble import Assembled
from notation.parse import parse
from notation.source import Problem, Source

DOCUMENTS = "README.md docs/GUIDE.md docs/USING.md examples/README.md".split()
DOCUMENTS += [f"tools/{name}/README.md" for name in ("drawing", "commands", "stack")]

# beginnings of commands, in blocks and between backquotes
COMMAND = re.compile(r"^(?:tools/|python3 tools/|\.ci/run|rt |cc |target/|cargo )")
WORDS_ONLY = re.compile(r"^(?:tools|docs|examples|include|crates|target)/[\w./*]+$|^python3 tools/drawing$")


class Documents(unittest.TestCase):
    @classmethod
    def setUpClass(cls):
        cls.place = tempfile.TemporaryDirectory()
        cls.copy = folder(cls.place.name)

    @classmethod
    def tearDownClass(cls):
        cls.place.cleanup()

    def test_commands_with_their_output(self):
        """As a reader does them, one after the other, in a copy of the repository."""
        for name in DOCUMENTS:
            shown = 0
            for step in steps((ROOT / name).read_text(encoding="utf-8")):
                if step[1] in NOT_HERE.get(name, ()):
                    continue
                printed = take(step, self.copy)
                if printed is not None:
                    shown += 1
                    due = "\n".join(line.rstrip() for line in step[2].split("\n"))
                    self.assertEqual(printed, due, f"{name}: {step[1]}")
            self.assertGreaterEqual(shown, LEAST.get(name, 0), name)

    def test_other_commands(self):
        """Each is in one of the two lists, and those of RUN end well."""
        met = set()
        for name in DOCUMENTS:
            for command in sorted(mentioned((ROOT / name).read_text(encoding="utf-8"))):
                self.assertTrue(command in RUN or command in GATE, f"{name}: {command}")
                met.add(command)
        self.assertEqual(met, set(RUN) | set(GATE), "what no document mentions any more")
        for command, file in GATE.items():
            if command.startswith("tools/check-") or file == "tools/check-cspe":
                word = "tools/build" if command.startswith("tools/build") else command
                self.assertIn(word, (ROOT / file).read_text(encoding="utf-8"))
            self.assertTrue((ROOT / file).is_file(), file)
        for command in RUN:
            printed = taken(f"{RUN[command] or command} || echo ENDED WITH $?", self.copy)
            self.assertNotIn("ENDED WITH", printed, command)

    def test_annotated_bytes(self):
        """Those of docs/GUIDE.md are the table's."""
        text = (ROOT / "docs" / "GUIDE.md").read_text(encoding="utf-8")
        block = next(lines for before, lines in blocks(text) if before.startswith("The same bytes, annotated"))
        found = " ".join(re.match(r"(?:[0-9A-F]{2} )+", line)[0].strip() for line in block if line)
        due = next(step[2] for step in steps(text) if step[:2] == ("run", ASSEMBLE))
        self.assertEqual(found, " ".join(due.split()))


    def test_what_binds(self):
        """A term and how it is meant, as the documents have them, are the same table."""
        found = 0
        for name in ("docs/GUIDE.md", "tools/drawing/README.md"):
            text = (ROOT / name).read_text(encoding="utf-8")
            for term, meant in re.findall(r"`(a -> [^`]+)` is\s`([^`]+)`", text):
                found += 1
                self.assertEqual(table(term), table(meant), name)
                self.assertNotEqual(term, meant)
        self.assertEqual(found, 2)
        for apart in ("P ||| Q |[s]| R", "P |[s]| Q |[{b}]| R"):
            self.assertRaisesRegex(Problem, "Parallels over different sets need parentheses", table, apart)
        self.assertEqual(table("P |[s]| Q |[s]| R"), table("(P |[s]| Q) |[s]| R"))


def table(term):
    definitions = "".join(f"{name} = {event} -> STOP\n" for name, event in zip("PQR", "aba"))
    text = f"alphabet a, b\nset s = {{a}}\n{definitions}level 1 T = {term}\n"
    return Assembled(parse(Source("text", text))).bytes()


def mentioned(text):
    """The commands of lists (in blocks, up to two spaces and what they do) and between backquotes."""
    found = set()
    for _, block in blocks(text):
        for line in block:
            if not line.startswith("$ ") and COMMAND.match(line):
                found.add(re.split(r"\s{2,}", line)[0].strip())
    for words in re.findall(r"`([^`\n]+)`", text):
        if COMMAND.match(words) and not WORDS_ONLY.match(words):
            found.add(words)
    return found


DRAWING = "python3 tools/drawing"
B = "examples/table_b.csp"
ASSEMBLE = "python3 tools/drawing assemble --hex one_lane.csp"

# how many commands with their output a document shows at least
LEAST = {"README.md": 4, "docs/GUIDE.md": 20, "docs/USING.md": 1, "tools/drawing/README.md": 1}

# commands with their output that are not run here: they prove
NOT_HERE = {"README.md": ("tools/build line_monitor",)}

STACK = "cc -std=c11 -O2 -Iinclude -o target/stack tools/stack/main.c crates/monitor_c/out/libmonitor_c.a -lpthread"

# a command as a document has it, and how it is run here (None: just so)
RUN = {
    STACK: STACK.replace("-o target/stack", "-o stack"),
    "target/stack": "./stack",
    "tools/cspe COMMAND DRAWING ..": "tools/cspe run table_b",
    "tools/cspe": "tools/cspe --help",
    "tools/cspe --help": None,
    "tools/cspe c": "tools/cspe c table_b",
    "tools/cspe c DRAWING": "tools/cspe c table_b",
    "tools/cspe check": "tools/cspe check table_b",
    "tools/cspe step DRAWING": "tools/cspe step table_b </dev/null",
    "tools/cspe explain": "tools/cspe explain table_b",
    "tools/cspe explain packing_line stamp left crack right": "! tools/cspe explain packing_line 0 3 1 4",
    "rt version": None,
    "tools/places": None,
    "tools/try --list": None,
    "python3 tools/drawing": "python3 tools/drawing --help",
    "python3 tools/drawing --help": None,
    "python3 tools/drawing assemble --hex examples/packing_line.csp": None,
    "python3 tools/drawing assemble FILE [-o OUT] [--hex]": f"{DRAWING} assemble {B} -o out --hex",
    "python3 tools/drawing disassemble FILE [--hex]": f"{DRAWING} assemble {B} --hex | {DRAWING} disassemble - --hex",
    "python3 tools/drawing events FILE EVENT..": f"{DRAWING} events {B} 0 1",
    "python3 tools/drawing input FILE EVENT..": f"{DRAWING} input {B} 0 1",
    "python3 tools/drawing where FILE refused NUMBER PLACE": f"{DRAWING} where {B} refused 5 0",
    "python3 tools/drawing where FILE refused 5 PLACE": f"{DRAWING} where {B} refused 5 0",
    "tools/drawing where": f"{DRAWING} where {B} refused 5 0",
}

# a command that proves or takes longer, and the file that runs it
GATE = {
    ".ci/run": ".ci/run",
    "rt ci": ".ci/run",
    "tools/build": "tools/check-cspe",
    "tools/build line_monitor": "tools/check-cspe",
    "tools/build lot_sheet": "tools/check-cspe",
    "tools/build trace_monitor": "tools/check-cspe",
    "tools/build monitor_c": "tools/check-cspe",
    "cargo build --release --offline": "tools/check-reference",
    "tools/check-cspe": ".ci/run",
    "tools/check-examples": ".ci/run",
    "tools/check-layers": ".ci/run",
    "tools/check-program": ".ci/run",
    "tools/check-trace": ".ci/run",
    "tools/check-reference": ".ci/run",
    "tools/check-sheet": ".ci/run",
    "tools/check-statements": ".ci/run",
    "tools/check-words": ".ci/run",
    "tools/install PREFIX": "tools/commands/test/test_install.py",
    "cc line.c $(pkg-config --cflags --libs cspe)": "tools/commands/test/test_install.py",
    "tools/try": "tools/drawing/test/test_try_steps.py",
    "tools/try --reference": "tools/drawing/test/test_try.py",
    "tools/try --reference DRAWING EVENT..": "tools/drawing/test/test_try.py",
    "tools/try packing_line": "tools/drawing/test/test_try_steps.py",
    "tools/try packing_line stamp left crack reject": "tools/drawing/test/test_try_steps.py",
}


if __name__ == "__main__":
    unittest.main()
