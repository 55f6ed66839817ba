"""cspe c: a drawing as a C header: the table's bytes, its events and their names."""

import re
from pathlib import Path

from .drawings import load
from .judging import Judge
from .streams import write_whole

ABOUT = """\
Writes a C header with the table's bytes (NAME_table), an enum of the events (NAME_ followed by the event's name) and
the events' names (NAME_event_names). NAME is the drawing's file name, or the one given. A drawing that the monitor
refuses gets no header: its faults go to standard error.
Exit status: 0 written, 2 the drawing is refused, or an error in it, 3 wrong use."""

PRODUCT = True  # what it writes is for a compiler: all else goes to standard error

WIDTH = 12  # bytes on a line


def add_options(parser):
    parser.add_argument("drawing", metavar="DRAWING", help="a file, or the name of an example")
    parser.add_argument("-o", dest="output", metavar="FILE", help="write to this file")
    parser.add_argument("--name", help="the beginning of each name in the header")


def run(options):
    drawing = load(options.drawing)
    Judge(drawing)
    name = options.name or ("drawing" if options.drawing == "-" else Path(drawing.source.name).stem)
    write_whole(options.output, header(drawing, identifier(name)))
    return 0


def identifier(text):
    """What a C identifier may begin with, much like a text; more is always written behind it."""
    found = re.sub(r"[^A-Za-z0-9_]", "_", text)
    return found if found[:1].isalpha() else f"drawing_{found}"


def constants(drawing, name):
    """Of each event its enum constant: by its name, else by its number; a name met twice gets its number too."""
    found = []
    for event in range(drawing.assembled.drawing.size):
        word = re.sub("'", "_", drawing.names.get(event, f"event_{event}")).upper()
        constant = f"{name.upper()}_{word}"
        found.append(f"{constant}_{event}" if constant in found else constant)
    return found


def header(drawing, name):
    size = drawing.assembled.drawing.size
    guard = f"{name.upper()}_H"
    data = [f"0x{byte:02x}," for byte in drawing.table]
    rows = [" ".join(data[at : at + WIDTH]) for at in range(0, len(data), WIDTH)]
    enum = [f"    {constant} = {event}," for event, constant in enumerate(constants(drawing, name))]
    names = [f'    "{drawing.name(event)}",' for event in range(size)]
    file = Path(drawing.source.name).name
    return "\n".join(
        [
            f"/* The table of the drawing {file}, written by `cspe c`: edit the drawing, not this file. */",
            f"#ifndef {guard}",
            f"#define {guard}",
            "",
            f"#define {name.upper()}_EVENTS {size}",
            "",
            f"enum {name}_event {{",
            *trimmed(enum),
            "};",
            "",
            f"static const char *const {name}_event_names[{size}] = {{",
            *trimmed(names),
            "};",
            "",
            f"static const unsigned char {name}_table[{len(drawing.table)}] = {{",
            *trimmed([f"    {row}" for row in rows]),
            "};",
            "",
            "#endif",
            "",
        ]
    )


def trimmed(lines):
    """Without the last comma."""
    return lines[:-1] + [lines[-1].rstrip(",")]
