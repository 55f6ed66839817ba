"""A text, its tokens, and problems with their place.

    Source      a text with the name of its file
    Token       a word, number or sign with its place
    Problem     what is wrong, in a sentence, and where
    tokens      the tokens of a source, the last of kind "end"
"""

import difflib
import re
from typing import NamedTuple

from . import foreign

WORDS = ("alphabet", "event", "set", "level", "else", "STOP", "FAIL")

# Longer signs first. `[]` is the choice, also where nothing else is meant.
SIGNS = ("|||", "|[", "]|", "[]", "->", "..", "=", "{", "}", "[", "]", "(", ")", ",", ":", "^", "?")

PATTERN = re.compile(
    r"(?P<space>[ \t\r]+|--[^\n]*)"
    r"|(?P<line>\n)"
    r"|(?P<name>[A-Za-z_][A-Za-z0-9_']*)"
    r"|(?P<number>[0-9]+)"
    r"|(?P<sign>" + "|".join(re.escape(sign) for sign in SIGNS) + ")"
)


class Source:
    def __init__(self, name, text):
        self.name = name
        self.text = text
        self.lines = text.split("\n")


class Token(NamedTuple):
    source: Source
    kind: str  # "name", "number", "end", or the word or sign itself
    text: str
    line: int  # from 1
    column: int  # from 1, in characters
    first: bool  # nothing but space stands before it on its line

    def said(self):
        return "the end of the file" if self.kind == "end" else f"`{self.text}`"


class Problem(Exception):
    """What is wrong: a sentence, and a token, or else the name of a file, where there is one.

    `wants` says that it may be for want of a statement: where one could not be read, it is not told.
    """

    def __init__(self, message, at=None, name=None, wants=False):
        super().__init__(message)
        self.message = message
        self.at = at
        self.name = name
        self.wants = wants

    def shown(self):
        if self.at is not None:
            return shown(self.at, f"error: {self.message}")
        return f"{self.name}: error: {self.message}" if self.name else f"error: {self.message}"


def shown(at, message):
    """A message at a token: file, line and column, then the line and a caret below the token."""
    line = at.source.lines[at.line - 1].rstrip("\r")
    line = "".join(c if c.isprintable() or c == "\t" else "?" for c in line)  # no control signs on a terminal
    before = "".join("\t" if c == "\t" else " " for c in line[: at.column - 1])
    caret = "^" * max(1, len(at.text))
    return f"{at.source.name}:{at.line}:{at.column}: {message}\n    {line}\n    {before}{caret}"


def near(word, names):
    """A hint at a name that is much like this word, or nothing."""
    found = difflib.get_close_matches(word, sorted(names), 1)
    return f"; is `{found[0]}` meant?" if found else ""


def strange(text, place):
    """A sign that the notation does not have, and what is said of it."""
    for sign, answer in foreign.SIGNS.items():
        if text.startswith(sign, place):
            return sign, f"`{sign}` is no sign of the notation: {answer}."
    return text[place], f"{text[place]!r} is no sign of the notation."


def tokens(source, problems=None):
    """With a list of problems, a sign that the notation does not have is put there and left out."""
    found = []
    place, line, start, first = 0, 1, 0, True
    text = source.text
    while place < len(text):
        match = PATTERN.match(text, place)
        brought = text.startswith(foreign.FIRST, place) and not text.startswith("{--", place)
        if match is None or brought:
            sign, message = strange(text, place)
            problem = Problem(message, Token(source, "unknown", sign, line, place - start + 1, first))
            if problems is None:
                raise problem
            problems.append(problem)
            place, first = place + len(sign), False
            continue
        kind, word = match.lastgroup, match.group()
        if kind == "line":
            line, start, first = line + 1, match.end(), True
        elif kind != "space":
            if kind == "sign" or word in WORDS:
                kind = word
            found.append(Token(source, kind, word, line, place - start + 1, first))
            first = False
        place = match.end()
    found.append(Token(source, "end", "", line, place - start + 1, True))
    return found
