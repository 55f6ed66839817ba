"""A place among the tokens of a source, from which the parser reads.

    Cursor      looks at tokens and takes them; names and numbers; errors at the next token
"""

from .numbers import MOST_NUMBER
from .source import WORDS, Problem, tokens


class Cursor:
    def __init__(self, source, problems=None):
        self.tokens = tokens(source, problems)
        self.tokens.append(self.tokens[-1])  # the end, for a look at the token after next
        self.next = 0

    def here(self):
        return self.tokens[self.next]

    def sees(self, kind, after=None):
        """Whether the next token is of this kind, and the one after it of that kind."""
        if self.tokens[self.next].kind != kind:
            return False
        return after is None or self.tokens[self.next + 1].kind == after

    def take(self):
        token = self.here()
        self.next += 1
        return token

    def expect(self, kind, message):
        if self.here().kind != kind:
            raise self.problem(message)
        return self.take()

    def problem(self, message):
        at = self.here()
        return Problem(f"{message}, but {at.said()} stands here.", at)

    def name(self, of):
        at = self.here()
        if at.kind in WORDS:
            raise Problem(f"`{at.text}` is a word of the notation, not a name for {of}.", at)
        return self.expect("name", f"A name for {of} is expected")

    def number(self, of):
        at = self.expect("number", f"A number is expected for {of}")
        digits = at.text.lstrip("0")
        if len(digits) > len(str(MOST_NUMBER)) or int(digits or "0") > MOST_NUMBER:
            raise Problem(f"A number is at most {MOST_NUMBER:,}.", at)
        return int(digits or "0"), at
