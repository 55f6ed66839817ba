"""include/cspe.h: it compiles without warning as C99 and C++17, and does what it says; the headers of examples/c."""

import shutil
import subprocess
import tempfile
import unittest
from pathlib import Path

from places import EXAMPLES, ROOT, cspe

LIBRARY = ROOT / "crates" / "monitor_c" / "out" / "libmonitor_c.a"
FLAGS = f"-O1 -Wall -Wextra -pedantic -Werror -I{ROOT / 'include'} -I{EXAMPLES / 'c'}".split()
COMPILERS = [("gcc", "c", "c99"), ("clang", "c", "c99"), ("g++", "c++", "c++17"), ("clang++", "c++", "c++17")]
OWN = Path(__file__).parent / "header.c"


def built(source, output, compiler, language, standard, *more):
    command = [compiler, *FLAGS, *more, f"-std={standard}", "-x", language, source, "-x", "none", LIBRARY, "-o", output]
    return subprocess.run(command, capture_output=True, text=True, check=False)


class Header(unittest.TestCase):
    def test_every_compiler(self):
        """A program that tries each promise, with as many slots as may be and with few."""
        tried = 0
        with tempfile.TemporaryDirectory() as folder:
            for way in COMPILERS:
                if shutil.which(way[0]) is None:
                    continue
                tried += 1
                for slots in ((), ("-DCSPE_SLOTS=2",)):
                    program = Path(folder) / "program"
                    made = built(OWN, program, *way, *slots)
                    self.assertEqual((made.returncode, made.stderr), (0, ""), way)
                    found = subprocess.run([program], capture_output=True, text=True, check=False)
                    self.assertEqual((found.returncode, found.stdout), (0, ""), way)
        self.assertGreater(tried, 0)

    def test_slots_out_of_bounds(self):
        for slots in ("0", "257"):
            made = built(OWN, "/dev/null", "cc", "c", "c99", f"-DCSPE_SLOTS={slots}")
            self.assertIn("CSPE_SLOTS is out of its bounds", made.stderr)

    def test_example(self):
        """examples/c/line.c prints what is stored."""
        with tempfile.TemporaryDirectory() as folder:
            program = Path(folder) / "line"
            made = built(EXAMPLES / "c" / "line.c", program, "cc", "c", "c99")
            self.assertEqual((made.returncode, made.stderr), (0, ""))
            found = subprocess.run([program], capture_output=True, text=True, check=False)
        self.assertEqual(found.returncode, 0)
        self.assertEqual(found.stdout, (EXAMPLES / "line.session").read_text())

    def test_headers_of_examples(self):
        """Those of examples/c are what `cspe c` writes."""
        for drawing in ("table_b", "worked/k7", "worked/k8", "packing_line"):
            header = EXAMPLES / "c" / f"{Path(drawing).name}.h"
            self.assertEqual(header.read_text(), cspe("c", drawing)[1], drawing)


if __name__ == "__main__":
    unittest.main()
