"""tools/build in a small repository, with a kit that only pretends: what it calls, and what it says of the outcome."""
import os
import shutil
import subprocess
import sys
import tempfile
import unittest
from pathlib import Path

from loading import ROOT, write

LINES = "# crates\nlow:\nhigh: low io\nmonitor_c staticlib: high low\nline_monitor: high\ntrace_monitor:\nlot_sheet:\n"
PROGRAMS = ("line_monitor", "trace_monitor", "lot_sheet")

# `rt run` and `rt lib` as they are: they build in the crate's folder
RT = """#!/bin/sh
name=$(basename "$PWD")
echo "rt $* in $name" >>"$CALLS"
[ "$name" = "$FAILS" ] && { echo 'logic=not-proved'; exit 1; }
mkdir -p out
case $1 in
lib) : >out/lib$name.a ;;
run) : >out/$name ;;
esac
"""
RATTLE = """#!/bin/sh
echo "rattle $*" >>"$CALLS"
while [ "$1" != -o ]; do shift; done
: >"$2"
"""


class Build(unittest.TestCase):
    def setUp(self):
        folder = tempfile.TemporaryDirectory()
        self.addCleanup(folder.cleanup)
        self.root, self.kit = Path(folder.name) / "repository", Path(folder.name) / "kit"
        write(self.root, {"crates.txt": LINES})
        (self.root / "tools").mkdir()
        shutil.copy(ROOT / "tools" / "build", self.root / "tools")
        for name in ("low", "high", "monitor_c", *PROGRAMS):
            (self.root / "crates" / name).mkdir(parents=True)
        write(self.kit / "bin", {"rt": RT, "rattle": RATTLE})
        for name in ("rt", "rattle"):
            (self.kit / "bin" / name).chmod(0o755)
        self.calls = self.root / "calls"

    def build(self, *words, fails=""):
        path = {**os.environ, "PATH": f"{self.kit / 'bin'}:{os.environ['PATH']}"}
        path |= {"CALLS": str(self.calls), "FAILS": fails}
        command = [sys.executable, self.root / "tools" / "build", *words]
        found = subprocess.run(command, env=path, capture_output=True, text=True, check=False)
        return found.returncode, found.stdout

    def called(self):
        return self.calls.read_text().splitlines() if self.calls.exists() else []

    def after_ci(self, *stamped):
        """As `rt ci` leaves it; a stamp is one of the checkout's own checks."""
        for name in PROGRAMS:
            write(self.root / "crates" / name, {f"out/{name}": ""})
        for name in ("low", "high"):
            (self.root / "crates" / name / "out" / "rlib" / f"{name}.rlib").mkdir(parents=True)
        for name in stamped:
            write(self.root / "crates" / name, {"out/rlib/stamp": ""})

    def test_all(self):
        self.assertEqual(self.build(), (0, ""))
        self.assertEqual(self.called(), [*(f"rt run in {name}" for name in PROGRAMS), "rt lib in monitor_c"])

    def test_one(self):
        self.assertEqual(self.build("monitor_c"), (0, ""))
        self.assertEqual(self.called(), ["rt lib in monitor_c"])

    def test_not_proved(self):
        status, output = self.build("line_monitor", fails="line_monitor")
        self.assertEqual((status, "logic=not-proved" in output), (1, True))
        self.assertIn("line_monitor is not built; the log is target/build-line_monitor.log", output)

    def test_wrong_use(self):
        self.assertEqual((self.build("low")[0], self.build("--after-ci", "monitor_c")[0], self.called()), (2, 2, []))
        self.assertEqual(self.build("--help")[0], 0)

    def test_after_ci(self):
        self.after_ci()
        self.assertEqual(self.build("--after-ci"), (0, ""))
        self.assertTrue((self.root / "crates" / "monitor_c" / "out" / "libmonitor_c.a").is_file())
        (call,) = self.called()
        root = self.root.resolve()
        for name in ("low", "high"):
            self.assertIn(f"--extern {name}={root}/crates/{name}/out/rlib/{name}.rlib", call)
            self.assertIn(f"-L dependency={root}/crates/{name}/out/rlib", call)
        self.assertNotIn("--extern io=", call)
        self.assertIn("--crate-type staticlib", call)

    def test_after_ci_over_own_checks(self):
        self.after_ci("low")
        self.assertEqual(self.build("--after-ci"), (0, ""))
        self.assertEqual(self.called(), ["rt lib in monitor_c"])

    def test_without_ci(self):
        status, output = self.build("--after-ci")
        self.assertEqual((status, self.called()), (1, []))
        self.assertIn("left no line_monitor here", output)
        self.after_ci()
        shutil.rmtree(self.root / "crates" / "low" / "out")
        status, output = self.build("--after-ci")
        self.assertEqual((status, self.called()), (1, []))
        self.assertIn("left no libraries here", output)


if __name__ == "__main__":
    unittest.main()
