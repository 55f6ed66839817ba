"""tools/install: what it installs works by itself, and a program is built over it by pkg-config alone."""

import os
import shutil
import subprocess
import tempfile
import unittest
from pathlib import Path

from places import EXAMPLES, ROOT

INSTALL = ROOT / "tools" / "install"


def called(*words, **how):
    command = [str(word) for word in words]
    found = subprocess.run(command, capture_output=True, text=True, check=False, **how)
    return found.returncode, found.stdout, found.stderr


class Install(unittest.TestCase):
    @classmethod
    def setUpClass(cls):
        cls.folder = tempfile.TemporaryDirectory()
        first = Path(cls.folder.name) / "first"
        cls.installed = called(INSTALL, "--as-built", first)
        # moved: nothing that is installed knows where it was put
        cls.prefix = Path(cls.folder.name) / "moved here"
        if first.exists():
            first.rename(cls.prefix)

    @classmethod
    def tearDownClass(cls):
        cls.folder.cleanup()

    def test_installed(self):
        self.assertEqual(self.installed[0], 0, self.installed)
        self.assertIn("installed below ", self.installed[1])
        for file in self.prefix.rglob("*"):
            if file.is_file():
                self.assertNotIn(str(ROOT).encode(), file.read_bytes(), file)

    def test_program_by_pkg_config(self):
        """examples/c/line.c, with no other path than pkg-config's."""
        if shutil.which("pkg-config") is None:
            self.skipTest("pkg-config is not there")
        folder = Path(self.folder.name)
        for name in ("line.c", "packing_line.h"):
            shutil.copy(EXAMPLES / "c" / name, folder)
        more = {**os.environ, "PKG_CONFIG_PATH": str(self.prefix / "lib" / "pkgconfig")}
        build = 'eval "cc -std=c99 -Wall -Wextra -pedantic -Werror -o line line.c $(pkg-config --cflags --libs cspe)"'
        self.assertEqual(called("sh", "-c", build, cwd=folder, env=more), (0, "", ""))
        expected = (EXAMPLES / "line.session").read_text()
        self.assertEqual(called("./line", cwd=folder), (0, expected, ""))
        version = called("pkg-config", "--modversion", "cspe", env=more)[1].strip()
        self.assertIn(f"#define CSPE_VERSION {version}\n", (ROOT / "include" / "cspe_monitor.h").read_text())

    def test_programs(self):
        program = self.prefix / "bin" / "cspe"
        status, output, errors = called(program, "run", "packing_line", "stamp", "stamp", cwd="/")
        self.assertEqual((status, errors), (1, ""))
        self.assertEqual(output, "failed at event 2: stamp came; permitted: crack, left, right\n")
        data = bytes.fromhex("10 03 02 00 01 00 00 01 01 01 00 02 00 02 01 05 00 00 01 00")
        found = subprocess.run([self.prefix / "bin" / "line_monitor"], input=data, capture_output=True, check=True)
        self.assertEqual(found.stdout, b"running 3 1\n")
        found = subprocess.run([self.prefix / "bin" / "trace_monitor"], input=data, capture_output=True, check=True)
        self.assertEqual(found.stdout.splitlines()[-1], b"event 0 3 running 0 1 1 1")
        office = self.prefix / "bin" / "lot_sheet"
        found = subprocess.run([office], input=b"\7\x64\0\0", capture_output=True, check=True)
        self.assertIn(b"TOTAL", found.stdout)

    def test_wrong_use(self):
        self.assertEqual(called(INSTALL)[0], 3)
        self.assertEqual(called(INSTALL, "--frob", "x")[0], 3)
        self.assertEqual(called(INSTALL, "x", "y")[0], 3)
        status, output, _ = called(INSTALL, "--help")
        self.assertEqual(status, 0)
        self.assertIn("PREFIX/lib/", output)
        with tempfile.NamedTemporaryFile() as file:
            status, _, errors = called(INSTALL, "--as-built", Path(file.name) / "below")
            self.assertEqual(status, 1)
            self.assertIn("Not a directory", errors)


if __name__ == "__main__":
    unittest.main()
