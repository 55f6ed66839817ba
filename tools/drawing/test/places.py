"""Where things are, and the package under test on Python's path.

    line        the program's line for an input, by tools/reference
    run         the command line in this process: status, output and errors
    called      the command line as a user calls it
    closed      words before a command, which start it with streams closed or led elsewhere
"""

import contextlib
import io
import runpy
import subprocess
import sys
import tempfile
from pathlib import Path

ROOT = Path(__file__).resolve().parents[3]
DRAWING = ROOT / "tools" / "drawing"
EXAMPLES = ROOT / "examples"
REFERENCE = ROOT / "tools" / "reference" / "target" / "release" / "reference"

sys.path.insert(0, str(DRAWING))

if not REFERENCE.exists():
    sys.exit("tools/reference is not built: cargo build --release --offline, in that directory")


def line(data):
    with tempfile.NamedTemporaryFile() as file:
        file.write(data)
        file.flush()
        command = [str(REFERENCE), "line", file.name]
        found = subprocess.run(command, check=True, capture_output=True, text=True)
        return found.stdout.rstrip("\n")


def run(*arguments, stdin=b""):
    program = runpy.run_path(str(DRAWING / "__main__.py"))
    streams = [io.TextIOWrapper(io.BytesIO(b), "utf-8", newline="") for b in (stdin, b"", b"")]
    before, sys.stdin = sys.stdin, streams[0]
    try:
        with contextlib.redirect_stdout(streams[1]), contextlib.redirect_stderr(streams[2]):
            status = program["main"](list(map(str, arguments)))
    except SystemExit as left:
        status = left.code
    finally:
        sys.stdin = before
    for stream in streams:
        stream.flush()
    return status, streams[1].buffer.getvalue(), streams[2].buffer.getvalue().decode()


def closed(how):
    return ["bash", "-c", f'exec "$@" {how}', "bash"]


def called(*arguments, stdin=b"", stdout=subprocess.PIPE, before=()):
    """`before` are words before the command."""
    command = [*before, sys.executable, "-B", str(DRAWING), *map(str, arguments)]
    found = subprocess.run(command, input=stdin, stdout=stdout, stderr=subprocess.PIPE, check=False)
    return found.returncode, found.stdout, found.stderr.decode()
