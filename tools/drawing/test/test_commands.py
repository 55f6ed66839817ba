"""The command line: output, exit status, and the place of a refusal in the text."""

import os
import tempfile
import unittest
from pathlib import Path

from places import EXAMPLES, called, closed, line, run

TABLE_B = "03 02 00 01 00 00 01 01 01 00 02 00 02 01 05 00"
B = EXAMPLES / "table_b.csp"
PACKING = EXAMPLES / "packing_line.csp"


class Commands(unittest.TestCase):
    def good(self, *arguments, stdin=b""):
        status, output, errors = run(*arguments, stdin=stdin)
        self.assertEqual((status, errors), (0, ""), arguments)
        return output

    def bad(self, status, message, *arguments, stdin=b""):
        found, output, errors = run(*arguments, stdin=stdin)
        self.assertEqual((found, output), (status, b""), arguments)
        self.assertIn(message, errors)

    def test_called(self):
        """The program as a user calls it, with each exit status."""
        self.assertEqual(called("assemble", B, "--hex"), (0, TABLE_B.encode() + b"\n", ""))
        self.assertEqual(called("disassemble", "-"), run("disassemble", "-"))
        self.assertEqual(called("assemble", "none")[0], 2)

    def test_assemble(self):
        self.assertEqual(self.good("assemble", B, "--hex"), TABLE_B.encode() + b"\n")
        self.assertEqual(self.good("assemble", B), bytes.fromhex(TABLE_B))
        self.assertEqual(self.good("assemble", "-", stdin=B.read_bytes()), bytes.fromhex(TABLE_B))
        with tempfile.TemporaryDirectory() as folder:
            out = Path(folder) / "table"
            self.assertEqual(self.good("assemble", B, "-o", out), b"")
            self.assertEqual(out.read_bytes(), bytes.fromhex(TABLE_B))
            self.bad(1, "-:1:1: error: ", "assemble", "-", "-o", Path(folder) / "none")
            self.assertFalse((Path(folder) / "none").exists())
            self.bad(2, "cannot write", "assemble", B, "-o", folder)

    def test_disassemble(self):
        text = b"alphabet 3\n\nset s0 = {0}\nset s1 = {1}\n\nP0 = s0 -> s1 -> P0\n"
        self.assertEqual(self.good("disassemble", "-", stdin=bytes.fromhex(TABLE_B)), text)
        self.assertEqual(self.good("disassemble", "--hex", "-", stdin=TABLE_B.encode()), text)
        message = "error: The bytes end within the table (byte 1)."
        self.bad(1, message, "disassemble", "-", stdin=b"\3")
        self.bad(1, "not bytes in hexadecimal", "disassemble", "--hex", "-", stdin=b"0")

    def test_events(self):
        self.assertEqual(self.good("events", PACKING, "crack", "stamp", "6"), b"\1\0\6")
        self.assertEqual(self.good("events", PACKING, "crack", "255", "--hex"), b"01 FF\n")
        self.bad(1, "is `stamp` meant?", "events", PACKING, "stmp")
        self.bad(1, "one byte", "events", PACKING, "256")
        self.bad(1, "`lanes` is not the name of an event", "events", PACKING, "lanes")

    def test_input(self):
        expected = bytes.fromhex("10" + TABLE_B + "00 01 00")
        self.assertEqual(self.good("input", B, "0", "1", "0"), expected)
        self.assertEqual(line(expected), "running 3 1")
        self.assertEqual(self.good("input", B), bytes.fromhex("10" + TABLE_B))
        long = b"alphabet 64\nset f = [0: {}, else: {0..63}]\nP = STOP"
        self.assertEqual(self.good("input", "-", stdin=long)[:2], b"\x86\x20")  # 4,102 bytes

    def test_where(self):
        """The reader's refusal, and the token that it is about."""
        head = b"alphabet 3\nset a = {0}\nset f = [{1}, {0}, {}]\n"
        eight = b" |[a]| ".join([b"STOP"] * 8)
        many = b" |[a]| ".join([b"(STOP [] STOP)"] * 7)
        for text, refusal, places in [
            (b"P = f(^0) -> STOP", "refused 7 15", ["4:8"]),
            (b"P = a -> P\nQ = a -> R\nR = R", "refused 7 24", ["6:5"]),
            (b"P = a -> P |[a]| STOP", "refused 7 18", ["4:10"]),
            (b"level 8 P = STOP", "refused 5 12", ["4:7"]),
            (b"P = " + b"a -> " * 32 + b"STOP", "refused 5 77", ["4:165"]),
            (b"P = " + eight + b"\nlevel 1 Q = P |[a]| P\nlevel 1 R = STOP", "refused 8 1",
             ["5:9", "6:9"]),
            (b"P = " + many + b"\nQ = a -> (P [] P [] P)", "refused 9 28", ["5:18"]),
        ]:
            found = line(self.good("input", "-", stdin=head + text))
            self.assertEqual(found, refusal, text)
            output = self.good("where", "-", *refusal.split(), stdin=head + text).decode()
            lines = [words for words in output.split("\n") if words.startswith("-:")]
            self.assertEqual([words[2:].split(": ")[0] for words in lines], places, text)
        # 02, W6: the rows of a large alphabet, whose size is of two bytes; one set more is too many
        most = b"alphabet 128\n" + b"".join(b"set f%d = [else: {}]\n" % i for i in range(24))
        for text, refusal, places in [
            (most + b"P = STOP [] Q\nQ = P", "refused 7 3104", ["26:13"]),
            (most + b"set s = {}\nP = STOP", "refused 5 3099", ["26:5"]),
            (most + b"set f = [else: {}]\nP = STOP", "refused 5 3099", ["26:5"]),
            (b"alphabet 129\nP = STOP", "refused 5 0", ["1:1"]),
        ]:
            self.assertEqual(line(self.good("input", "-", stdin=text)), refusal)
            output = self.good("where", "-", *refusal.split(), stdin=text).decode()
            lines = [words for words in output.split("\n") if words.startswith("-:")]
            self.assertEqual([words[2:].split(": ")[0] for words in lines], places, text)
        self.bad(1, "not at a place", "where", B, "refused", "7", "16")
        self.bad(1, "not at a place", "where", B, "refused", "11", "0")

    def test_full_disk_and_closed_pipe(self):
        """A message and no trace of the program; a file that cannot be written whole is as before."""
        for words in (["assemble", B], ["disassemble", "--hex", "-"], ["where", B, "refused", "5", "0"]):
            with open("/dev/full", "wb") as full:
                found = called(*words, stdin=TABLE_B.encode(), stdout=full)
            self.assertEqual(found[0], 2)
            self.assertEqual(found[2], "drawing: standard output is not whole: No space left on device\n")
        reader, writer = os.pipe()
        os.close(reader)
        found = called("assemble", B, stdout=writer)
        os.close(writer)
        self.assertEqual((found[0], found[2]), (2, "drawing: standard output is not whole: nobody reads it any more\n"))
        self.bad(2, "cannot write /dev/full: No space left on device", "assemble", B, "-o", "/dev/full")
        with tempfile.TemporaryDirectory() as folder:
            out = Path(folder) / "table"
            out.write_bytes(b"kept")
            small = ["bash", "-c", 'ulimit -f 0; trap "" XFSZ; exec "$@"', "bash"]
            found = called("assemble", B, "-o", out, before=small)
            self.assertEqual(found, (2, b"", f"drawing: cannot write {out}: File too large\n"))
            self.assertEqual(([*Path(folder).iterdir()], out.read_bytes()), ([out], b"kept"))

    def test_closed_streams(self):
        """A message, where one can be written, and the status of wrong use."""
        for how, words, status, errors in [
            (">&-", ["assemble", "--hex", B], 2, "drawing: standard output is closed\n"),
            (">&-", ["--help"], 2, "drawing: standard output is closed\n"),
            (">/dev/full", ["where", "--help"], 2, "drawing: standard output is not whole: No space left on device\n"),
            ("<&-", ["assemble", "-"], 2, "drawing: cannot read standard input: it is closed\n"),
            ("<&-", ["assemble", B], 0, ""),
            ("2>&-", ["assemble", B], 0, ""),
            ("2>&-", ["assemble", "-"], 2, ""),  # an error of the drawing, which nobody reads
            (">/dev/full 2>&1", ["assemble", B], 2, ""),
        ]:
            found = called(*words, before=closed(how))
            self.assertEqual((found[0], found[2]), (status, errors), (how, words))

    def test_wrong_use(self):
        self.bad(2, "required", *[])
        self.bad(2, "invalid choice", "print")
        self.bad(2, "cannot read", "assemble", EXAMPLES / "none.csp")
        message = "-:2:4: error: Byte FF is not UTF-8 here.\n    \u00e9P \ufffd= STOP\n       ^\n"
        self.bad(1, message, "assemble", "-", stdin=b"alphabet 3\n\xc3\xa9P \xff= STOP")
        for arguments in (["--help"], ["assemble", "--help"], ["where", "--help"]):
            self.assertIn(b"usage: drawing", self.good(*arguments))


if __name__ == "__main__":
    unittest.main()
