"""The tools as modules, and small trees to try them on."""
import contextlib
import io
import re
import sys
from importlib.machinery import SourceFileLoader
from importlib.util import module_from_spec, spec_from_loader
from pathlib import Path

ROOT = Path(__file__).resolve().parents[2]


def tool(name):
    """A script without an ending, as a module."""
    sys.dont_write_bytecode = True
    loader = SourceFileLoader(name.replace("-", "_"), str(ROOT / "tools" / name))
    module = module_from_spec(spec_from_loader(loader.name, loader))
    loader.exec_module(module)
    return module


def write(folder, files):
    """Writes files, given as a path and a text each, below a folder."""
    for path, text in files.items():
        (folder / path).parent.mkdir(parents=True, exist_ok=True)
        (folder / path).write_text(text)


def told(module, folder):
    """The exit status and the output of a tool on a tree."""
    output = io.StringIO()
    with contextlib.redirect_stdout(output), contextlib.redirect_stderr(output):
        status = module.main(["--root", str(folder)])
    return status, output.getvalue()


def fault(files, path, old, new, message):
    """A test: the tree with one text changed (old is None: with one file less) is refused with this message."""

    def test(self):
        changed = dict(files)
        if old is None:
            del changed[path]
        else:
            self.assertEqual(files[path].count(old), 1)
            changed[path] = files[path].replace(old, new)
        status, output = self.run_on(changed)
        self.assertEqual(status, 1)
        self.assertIn(message, output)

    return test


def add_faults(case, files, faults):
    for label, change in faults.items():
        setattr(case, "test_fault_" + re.sub(r"\W+", "_", label), fault(files, *change))
