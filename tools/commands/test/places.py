"""Where things are, and the command under test.

    cspe        the command in this process: status, output, errors
    called      the same as a user calls it
    led         the same with streams closed or led elsewhere, in the shell's words
    text_of     a drawing's text in a file of its own
"""

import contextlib
import io
import os
import runpy
import subprocess
import sys
import tempfile
from pathlib import Path

ROOT = Path(__file__).resolve().parents[3]
EXAMPLES = ROOT / "examples"
CSPE = ROOT / "tools" / "cspe"
sys.path.insert(0, str(ROOT / "tools"))
MAIN = runpy.run_path(str(CSPE))["main"]


def cspe(*words, stdin=""):
    streams = [io.TextIOWrapper(io.BytesIO(text.encode()), "utf-8", newline="") for text in (stdin, "", "")]
    before, sys.stdin = sys.stdin, streams[0]
    here = os.getcwd()
    os.chdir(ROOT)
    try:
        with contextlib.redirect_stdout(streams[1]), contextlib.redirect_stderr(streams[2]):
            status = MAIN([str(word) for word in words])
    finally:
        sys.stdin = before
        os.chdir(here)
    for stream in streams:
        stream.flush()
    return status, *(stream.buffer.getvalue().decode() for stream in streams[1:])


def called(*words, stdin="", **how):
    command = [sys.executable, str(CSPE), *map(str, words)]
    found = subprocess.run(command, input=stdin, capture_output=True, text=True, check=False, cwd=ROOT, **how)
    return found.returncode, found.stdout, found.stderr


def led(how, *words):
    command = ["bash", "-c", f'exec "$@" {how}', "bash", sys.executable, str(CSPE), *map(str, words)]
    found = subprocess.run(command, stdin=subprocess.DEVNULL, capture_output=True, text=True, check=False, cwd=ROOT)
    return found.returncode, found.stdout, found.stderr


@contextlib.contextmanager
def text_of(text, name="own.csp"):
    with tempfile.TemporaryDirectory() as folder:
        file = Path(folder) / name
        file.write_text(text, encoding="utf-8")
        yield file
