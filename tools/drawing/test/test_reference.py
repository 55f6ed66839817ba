"""Every command of tools/reference/README.md: run here on a small file, or by tools/check-reference."""

import re
import subprocess
import tempfile
import unittest
from pathlib import Path

from places import EXAMPLES, REFERENCE, ROOT, run

README = (ROOT / "tools" / "reference" / "README.md").read_text(encoding="utf-8")
CHECK = (ROOT / "tools" / "check-reference").read_text(encoding="utf-8")
HISTORIES = ROOT / "crates" / "monitor_test" / "data" / "histories.txt"
B = EXAMPLES / "table_b.csp"


def bytes_of(*words):
    return run(*words)[1]


# a command, the bytes of its file, and how its output begins
HERE = {
    "check FILE": (bytes_of("assemble", B), "accepted 16 3\n"),
    "line FILE": (bytes_of("input", B, "0", "1", "0"), "running 3 1\n"),
    "trace FILE": (bytes_of("input", B, "0", "1", "0"), "start - 0 running 0 1 1 0\nevent 0 1 running 0 1 1 1\n"),
    "peak FILE": (bytes_of("input", B, "0", "1", "0"), "peak 1\n"),
    "sheet FILE": (b"\x07\x64\0\0\x08\x0c\x01\x05", "         7                  100 running        0\n"),
    "replay histories.txt": (HISTORIES.read_bytes(), "worked_drawings "),
    "--help": (b"", "reference: another implementation"),
}


class Reference(unittest.TestCase):
    def test_commands(self):
        commands = re.findall("^    cargo run --release --offline -- (.*)$", README, re.M)
        self.assertEqual(set(HERE) - set(commands), set())
        for command in commands:
            if command not in HERE:
                made = re.match(r"(\S+ --seed \d+ --count \d+|\S*summary) ", command)
                self.assertIn(f'"$reference" {made[1]} ', CHECK, command)
        for command in ("cargo build --release --offline", "cargo test --release --offline"):
            self.assertIn(command, CHECK)

    def test_here(self):
        for command, (data, output) in HERE.items():
            status, found = asked(command, data)
            self.assertEqual((status, found[: len(output)]), (0, output), command)
        self.assertEqual(asked("check FILE", bytes_of("assemble", B)[:-1]), (1, "refused 3 15 (cut short)\n"))


def asked(command, data):
    with tempfile.TemporaryDirectory() as folder:
        file = Path(folder) / "file"
        file.write_bytes(data)
        words = [str(file) if word in ("FILE", "histories.txt") else word for word in command.split()]
        found = subprocess.run([REFERENCE, *words], capture_output=True, text=True, check=False)
    return found.returncode, found.stdout


if __name__ == "__main__":
    unittest.main()
