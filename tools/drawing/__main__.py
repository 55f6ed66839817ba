#!/usr/bin/env python3
"""The command line: drawings to table bytes and back. `--help` says how it is called."""

import argparse
import os
import shutil
import sys
import tempfile

from notation import standard
from notation.assemble import Assembled
from notation.disassemble import tree
from notation.numbers import written
from notation.parse import parse
from notation.source import Problem, Source, Token, near, shown
from notation.syntax import NamedEvent
from notation.write import text

ABOUT = """\
A drawing is a CSP_E table as text; README.md beside this program has its notation.
Exit status: 0 done; 1 an error in the drawing, the table or an event; 2 wrong use, or a file that
cannot be read or written."""

# 01, "When the monitor declines": the refusals whose place is a place of the table
WORDS = {5: "off scale", 7: "wrong reference", 8: "too many hands", 9: "too many openings"}


class Unusable(Exception):
    """A file that cannot be read or written."""


def main(arguments):
    options = command_line().parse_args(arguments)
    try:
        options.run(options)
        sys.stdout.flush()
    except Problem as problem:
        print(problem.shown(), file=sys.stderr)
        return 1
    except Unusable as error:
        print(f"drawing: {error}", file=sys.stderr)
        return 2
    return 0


def guarded(arguments):
    """As `main`; an output that is lost is status 2."""
    standard.prepare()
    try:
        try:
            status = main(arguments)
        except SystemExit as left:  # argparse has written its help, or what is wrong
            status = left.code
        sys.stdout.flush()
    except OSError as error:
        print(f"drawing: {standard.give_up(error)}", file=sys.stderr)
        status = 2
    return 2 if sys.stderr.lost else status


# ---- the commands


def assemble(options):
    put(drawing(options.file).bytes(), options)


def disassemble(options):
    data = bytes_of(options.file)
    if options.hex:
        try:
            data = bytes.fromhex(data.decode("ascii"))
        except ValueError:
            raise Problem("These are not bytes in hexadecimal.", name=options.file) from None
    sys.stdout.write(text(tree(data, options.file)))


def events(options):
    put(events_of(drawing(options.file), options), options)


def whole_input(options):
    """01, "The program and its lines": "a number, that many table bytes, then events"."""
    assembled = drawing(options.file)
    table = assembled.bytes()
    put(written(len(table)) + table + events_of(assembled, options), options)


def where(options):
    assembled = drawing(options.file)
    found = assembled.where(options.number, options.place)
    if not found:
        raise Problem(
            f"refused {options.number} {options.place} is not at a place of this drawing.",
            name=options.file,
        )
    for at, what in found:
        print(shown(at, f"refused {options.number} ({WORDS[options.number]}): {what}"))


# ---- files


def bytes_of(name):
    try:
        if name == "-":
            return sys.stdin.buffer.read()
        with open(name, "rb") as file:
            return file.read()
    except OSError as error:
        raise Unusable(f"cannot read {'standard input' if name == '-' else name}: {standard.why(error)}") from None


def drawing(name):
    data = bytes_of(name)
    source = Source(name, data.decode("utf-8", "replace"))
    try:
        data.decode("utf-8")
    except UnicodeDecodeError as error:
        before = data[: error.start].decode("utf-8").split("\n")
        at = Token(source, "unknown", "?", len(before), len(before[-1]) + 1, False)
        raise Problem(f"Byte {data[error.start]:02X} is not UTF-8 here.", at) from None
    return Assembled(parse(source))


def put(data, options):
    """Writes bytes, or with --hex sixteen of them in hexadecimal on each line."""
    if options.hex:
        lines = [data[i : i + 16].hex(" ").upper() + "\n" for i in range(0, len(data), 16)]
        data = "".join(lines).encode("ascii")
    if options.output is None:
        sys.stdout.buffer.write(data)
        return
    try:
        write_whole(options.output, data)
    except OSError as error:
        raise Unusable(f"cannot write {options.output}: {error.strerror}") from None


def write_whole(name, data):
    """Writes a file beside its place and moves it there: what stood there is kept where that fails."""
    if os.path.exists(name) and not os.path.isfile(name):
        with open(name, "wb") as file:
            file.write(data)
        return
    place = tempfile.mkdtemp(dir=os.path.dirname(name) or ".")
    try:
        made = os.path.join(place, "made")
        with open(made, "wb") as file:
            file.write(data)
        os.replace(made, name)
    finally:
        shutil.rmtree(place, ignore_errors=True)


def events_of(assembled, options):
    """The bytes of events by name or number. The monitor judges a number that is no event."""
    meaning = assembled.names.meaning
    found = []
    for word in options.events:
        if isinstance(meaning.get(word), NamedEvent):
            found.append(meaning[word].number)
        elif word.isascii() and word.isdigit():
            if len(word) > 3 or int(word) > 255:
                raise Problem(f"{word} is no event: an event is one byte.", name=options.file)
            found.append(int(word))
        else:
            names = [name for name, what in meaning.items() if isinstance(what, NamedEvent)]
            close = near(word, names) or "."
            raise Problem(f"`{word}` is not the name of an event{close}", name=options.file)
    if any(number > 255 for number in found):
        raise Problem("An event above 255 is not one byte.", name=options.file)
    return bytes(found)


# ---- options


class Parser(argparse.ArgumentParser):
    def print_help(self, file=None):
        print(self.format_help(), end="")  # argparse's own does not say where it was lost


def command_line():
    parser = Parser(
        prog="drawing",
        description="Drawings to CSP_E table bytes and back.",
        epilog=ABOUT,
        formatter_class=argparse.RawDescriptionHelpFormatter,
    )
    commands = parser.add_subparsers(metavar="COMMAND", required=True)

    def command(name, run, help_text, about=None):
        added = commands.add_parser(name, help=help_text, description=about or help_text)
        added.set_defaults(run=run)
        return added

    def output_options(added):
        added.add_argument("-o", dest="output", metavar="OUT", help="write to this file")
        added.add_argument("--hex", action="store_true", help="in hexadecimal, 16 bytes a line")

    drawing_help = "a drawing, or - for standard input"
    added = command("assemble", assemble, "the table bytes of a drawing")
    added.add_argument("file", metavar="FILE", help=drawing_help)
    output_options(added)

    added = command("disassemble", disassemble, "the drawing of table bytes")
    added.add_argument("file", metavar="FILE", help="table bytes, or - for standard input")
    added.add_argument("--hex", action="store_true", help="the bytes are in hexadecimal")

    added = command("events", events, "events as bytes")
    added.add_argument("file", metavar="FILE", help=drawing_help)
    added.add_argument("events", metavar="EVENT", nargs="*", help="an event's name, or a number")
    output_options(added)

    added = command("input", whole_input, "the program's whole input: length, table bytes, events")
    added.add_argument("file", metavar="FILE", help=drawing_help)
    added.add_argument("events", metavar="EVENT", nargs="*", help="an event's name, or a number")
    output_options(added)

    added = command(
        "where",
        where,
        "what a refusal of the table is about",
        "Shows in the drawing what a refusal of the table is about: `where FILE refused 7 15`.",
    )
    added.add_argument("file", metavar="FILE", help=drawing_help)
    added.add_argument("refused", choices=["refused"], metavar="refused")
    added.add_argument("number", metavar="NUMBER", type=int, help="of the refusal: 5, 7, 8 or 9")
    added.add_argument("place", metavar="PLACE", type=int, help="its place")
    return parser


if __name__ == "__main__":
    sys.exit(guarded(sys.argv[1:]))
