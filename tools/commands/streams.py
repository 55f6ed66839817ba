"""Events as they come in, and output that is whole or not at all.

    pieces      events from words, a file or standard input: lists, each as soon as it is there
    next_line   the next line of a stream
    write_whole a file that is written whole, or left as it was
"""

import os
import sys
import tempfile
from pathlib import Path

from notation.standard import why

from .drawings import Stop

AT_ONCE = 65536  # bytes


def pieces(drawing, words, raw):
    """Of arguments all at once; of `-` or `@FILE` each line, or with `raw` each piece of bytes, as it comes. Where a
    word is no event, those before it come first, and then the error."""
    streams = [word for word in words if word == "-" or word.startswith("@")]
    if streams and len(words) > 1:
        raise Stop(f"`{streams[0]}` stands alone: all events come from there, or all are arguments")
    if drawing.source.name == "-" and words == ["-"]:
        raise Stop("the drawing and its events cannot both come from standard input")
    if streams:
        stream, name = opened(words[0]), "standard input" if words[0] == "-" else words[0][1:]
        read = raw_bytes(stream, name) if raw else lines(drawing, stream, name)
        return read if words[0] == "-" else closed_after(stream, read)
    if raw:
        raise Stop("--raw takes events from `-` or `@FILE`")
    return read_words(drawing, words, "")


def opened(name):
    if name == "-":
        return sys.stdin.buffer
    if name == "@":
        raise Stop("`@` and the name of a file, as in @events.txt")
    try:
        return open(name[1:], "rb")
    except OSError as error:
        raise Stop(f"cannot read {name[1:]}: {error.strerror}") from None


def closed_after(stream, read):
    with stream:
        yield from read


def raw_bytes(stream, name):
    while True:
        try:
            data = stream.read1(AT_ONCE)
        except OSError as error:
            raise Stop(f"cannot read {name}: {why(error)}") from None
        if not data:
            return
        yield list(data)


def lines(drawing, stream, name):
    """Names or numbers, one or more on a line; `--` begins a comment."""
    number, line = 1, next_line(stream, name)
    while line is not None:
        yield from read_words(drawing, line, f"{name}, line {number}: ")
        number, line = number + 1, next_line(stream, name)


def next_line(stream, name):
    """The words of the next line, without a comment; None at the end."""
    try:
        line = stream.readline()
    except OSError as error:
        raise Stop(f"cannot read {name}: {why(error)}") from None
    return line.decode("utf-8", "replace").partition("--")[0].split() if line else None


def read_words(drawing, words, place):
    found = []
    for word in words:
        try:
            found.append(drawing.event(word))
        except Stop as error:
            yield found  # what stands before it is judged
            raise Stop(f"{place}{error}") from None
    if found:
        yield found


def write_whole(name, text):
    """Writes a file beside its place and moves it there; to standard output where there is no name."""
    if name is None:
        sys.stdout.write(text)
        return
    file = Path(name)
    if file.exists() and not file.is_file():
        write_through(file, text)
        return
    made = None
    try:
        with tempfile.NamedTemporaryFile("w", dir=file.parent, delete=False, encoding="utf-8") as out:
            made = Path(out.name)
            out.write(text)
        mask = os.umask(0)
        os.umask(mask)
        made.chmod(0o666 & ~mask)
        made.replace(file)
    except OSError as error:
        if made is not None:
            made.unlink(missing_ok=True)
        raise Stop(f"cannot write {name}: {error.strerror}") from None


def write_through(file, text):
    """A device, or what is no file: written as it is."""
    try:
        with file.open("w", encoding="utf-8") as out:
            out.write(text)
    except OSError as error:
        raise Stop(f"cannot write {file}: {error.strerror}") from None
