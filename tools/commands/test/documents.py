"""The documents as a reader follows them: files that he saves, commands that he types, and what they print.

    steps       of a document: ("save", name, text), ("change", name, line), ("run", command, output), and ("set", name,
                text) of a command that sets a variable for those after it
    folder      a copy of the repository, in which the steps are taken
    taken       runs a command there: what it prints on both outputs
"""

import re
import shutil
import subprocess
from pathlib import Path

from places import ROOT

SAVE = re.compile(r"Save this as\s+`([^`]+)`:$")
CHANGE = re.compile(r"Change the last line of\s+`([^`]+)`:$")
SET = re.compile(r"^\w+='[^']*'$")
VARIABLES = ".variables"
MARGIN = "    "


def blocks(text):
    """Pairs of the paragraph before an indented block, and the block's lines without their margin."""
    before, block, ended = "", [], False
    for line in [*text.split("\n"), "end"]:
        if line.startswith(MARGIN):
            block.append(line[len(MARGIN) :])
        elif line == "" and block:
            block.append("")
        elif line == "":
            ended = True
        else:
            if block:
                yield before, in_a_list(block)
                block, ended = [], True
            before = line if ended else f"{before} {line}".strip()
            ended = False


def in_a_list(block):
    """A block of commands in a list stands further in."""
    deeper = len(block[0]) - len(block[0].lstrip(" "))
    return [line[deeper:] for line in block] if block[0].startswith(" " * deeper + "$ ") else block


def steps(text):
    for before, block in blocks(text):
        saved, changed = SAVE.search(before), CHANGE.search(before)
        lines = list(block)
        if saved:
            file = [line for line in lines if not line.startswith("$ ")]
            at = next((n for n, line in enumerate(lines) if line.startswith("$ ")), len(lines))
            yield "save", saved[1], "\n".join(file[:at]).rstrip("\n") + "\n"
            lines = lines[at:]
        elif changed:
            yield "change", changed[1], lines[0]
            continue
        yield from commands(lines)


def commands(lines):
    """Each line `$ COMMAND`, with the lines up to the next or the end; a blank line before the next is not output."""
    command, output = None, []
    for line in [*lines, "$ "]:
        if line.startswith("$ "):
            if command is not None:
                kind = "set" if SET.match(command) else "run"
                yield kind, command, "\n".join(output).rstrip("\n")
            command, output = line[2:], []
        else:
            output.append(line)


def folder(name):
    """A copy of the repository, in which crates/ and target/ are the repository's own."""
    copy = Path(name) / "repository"
    shutil.copytree(ROOT, copy, ignore=shutil.ignore_patterns("target", ".git", "crates", "__pycache__"))
    for own in ("crates", "target"):
        (copy / own).symlink_to(ROOT / own)
    return copy


def taken(command, copy):
    (copy / VARIABLES).touch()
    both = {"stdout": subprocess.PIPE, "stderr": subprocess.STDOUT, "text": True}
    found = subprocess.run(["bash", "-c", f". ./{VARIABLES}; {command}"], cwd=copy, check=False, **both)
    return "\n".join(line.rstrip() for line in found.stdout.rstrip("\n").split("\n"))


def take(step, copy):
    """Takes a step; of a command what it prints, else None."""
    kind, name, text = step
    file = copy / name if kind in ("save", "change") else None
    if kind == "set":
        with (copy / VARIABLES).open("a", encoding="utf-8") as variables:
            variables.write(f"{name}\n")
    elif kind == "save":
        file.write_text(text, encoding="utf-8")
    elif kind == "change":
        lines = file.read_text(encoding="utf-8").rstrip("\n").split("\n")
        file.write_text("\n".join([*lines[:-1], text]) + "\n", encoding="utf-8")
    else:
        return taken(name, copy)
    return None
