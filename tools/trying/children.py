"""The processes that tools/try starts. Each heads a group of its own, so that all that it started ends with it.

start       starts one, in the background
said        runs one to its end: its exit status and what it said
end_all     ends all that still run
"""

import os
import signal
import subprocess

CHILDREN = []


class TooLong(Exception):
    """A process that did not end in time, and was ended."""


def start(command, **how):
    how = {"stdin": subprocess.DEVNULL, "start_new_session": True, **how}
    child = subprocess.Popen([str(word) for word in command], **how)
    CHILDREN.append(child)
    return child


def said(command, seconds=None, **how):
    child = start(command, stdout=subprocess.PIPE, stderr=subprocess.STDOUT, text=True, errors="replace", **how)
    try:
        text, _ = child.communicate(timeout=seconds)
    except subprocess.TimeoutExpired:
        end(child)
        raise TooLong from None
    CHILDREN.remove(child)
    return child.returncode, text


def end(child):
    """Ends a process and its group: what it started may be left when it has ended itself."""
    for sign in (signal.SIGTERM, signal.SIGKILL):
        try:
            os.killpg(child.pid, sign)
            child.wait(2)
        except (ProcessLookupError, subprocess.TimeoutExpired):
            pass
    CHILDREN.remove(child)


def end_all():
    for child in list(CHILDREN):
        end(child)
