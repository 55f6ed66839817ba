"""tools/try with tools/reference in place of the program, and with the program's code without its proof."""

import subprocess
import tempfile
import unittest
from pathlib import Path

from places import EXAMPLES, ROOT, closed


def tried(*arguments, stdout=subprocess.PIPE, before=()):
    """`before` are words before the command."""
    command = [*before, str(ROOT / "tools" / "try"), *map(str, arguments)]
    found = subprocess.run(command, stdout=stdout, stderr=subprocess.PIPE, text=True, check=False)
    return found.returncode, found.stdout, found.stderr


class Try(unittest.TestCase):
    def test_default(self):
        status, output, _ = tried("--reference")
        self.assertEqual(status, 0)
        self.assertIn("    B = a -> b -> B\n", output)
        self.assertIn("input    10 03 02 00 01 00 00 01 01 01 00 02 00 02 01 05\n", output)
        self.assertIn("         00 00 01 00\nline     running 3 1\npeak     1\n", output)

    def test_peak(self):
        """Of the residuals that were held, not of those held last; none where no monitor was opened."""
        status, output, _ = tried("--reference", "worked/k8", "0", "0")
        self.assertEqual(status, 0)
        self.assertIn("line     running 2 1\npeak     2\n", output)

    def test_events(self):
        status, output, _ = tried("--reference", "sent_lane", "send_1", "arrive_2")
        self.assertEqual(status, 0)
        about = "event 2, counted from 1, is arrive_2"
        self.assertIn(f"line     failed 2 2\n         {about}\n", output)

    def test_unproved(self):
        """The kit runs the program's code as it is; `Unproved` in tools/trying/engines.py says what can hinder it."""
        status, output, errors = tried("--unproved", "table_b", "0", "0", "1")
        self.assertEqual(status, 0, errors)
        self.assertIn("NOT PROVED: the program's own code", output)
        self.assertIn("line     failed 2 3\n         event 2, counted from 1, is 0\n", output)

    def test_own_drawing(self):
        """A refusal is shown in the drawing; a line that was not expected is status 1."""
        with tempfile.TemporaryDirectory() as folder:
            own = Path(folder) / "own.csp"
            own.write_text("alphabet 1\nP = P\n")
            status, output, _ = tried("--reference", own)
            self.assertEqual(status, 0)
            about = f"{own}:2:5: refused 7 (wrong reference): this definition"
            self.assertIn(f"line     refused 7 5\n         {about}\n", output)
            self.assertNotIn("peak", output)
            own.with_suffix(".runs").write_text("=> running 0 1\n")
            status, output, _ = tried("--reference", own)
            self.assertEqual(status, 1)
            self.assertIn("line     refused 7 5\n", output)
            self.assertIn("expected running 0 1\n", output)

    def test_help_and_list(self):
        status, output, _ = tried("--list")
        self.assertEqual(status, 0)
        self.assertEqual(len(output.splitlines()), len(list(EXAMPLES.rglob("*.csp"))))
        for line in output.splitlines():
            self.assertRegex(line, r"^[a-z0-9_/]+ +[A-Z].*\.$")
        self.assertEqual(tried("--help")[0], 0)

    def test_full_disk(self):
        for option in ("--list", "--help"):
            with open("/dev/full", "w") as full:
                status, _, errors = tried(option, stdout=full)
            said = "tools/try: standard output is not whole: No space left on device\n"
            self.assertEqual((status, errors), (2, said))

    def test_closed(self):
        self.assertEqual(tried("--list", before=closed(">&-")), (2, "", "tools/try: standard output is closed\n"))
        self.assertEqual(tried("--none", before=closed("2>&-"))[0], 2)
        self.assertEqual(tried("--none", before=closed("2>/dev/full"))[0], 2)

    def test_wrong_use(self):
        self.assertEqual(tried("none")[0], 2)
        self.assertEqual(tried("--none")[0], 2)
        status, _, errors = tried("--reference", "packing_line", "stmp")
        self.assertEqual(status, 1)
        self.assertIn("is `stamp` meant?", errors)


if __name__ == "__main__":
    unittest.main()
