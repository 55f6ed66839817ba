"""Text to tree. README.md has the grammar; each function below reads one of its rules."""

from . import foreign
from .cursor import Cursor
from .source import Problem
from .syntax import (
    MOST_DEPTH,
    Call,
    Choice,
    Definition,
    Drawing,
    Event,
    Events,
    Fail,
    NamedEvent,
    NamedSet,
    Parallel,
    Parameter,
    Prefix,
    Reference,
    Row,
    Stop,
)


def parse(source, problems=None):
    """The drawing of a source. With a list of problems, all that are found are put there."""
    return Parser(source, problems).drawing()


class Parser(Cursor):
    def __init__(self, source, problems=None):
        super().__init__(source, problems)
        self.problems = problems
        self.depth = 0

    # ---- statements

    def drawing(self):
        at, size, events, sets, definitions = self.here(), 1, [], [], []

        def begin():
            nonlocal size
            self.expect("alphabet", "A drawing begins with `alphabet`")
            size, named = self.alphabet(at)
            events.extend(named)

        self.attempt(begin)
        while not self.sees("end"):
            self.attempt(lambda: self.statement(events, sets, definitions))
        end = self.here()
        if not definitions and not self.problems:
            self.attempt(self.no_definition)
        return Drawing(size, events, sets, definitions, at, end)

    def no_definition(self):
        raise Problem("A drawing has at least one definition.", self.here())

    def attempt(self, read):
        """Reads a statement. Where problems are collected, an error leads on to the next statement."""
        before = self.next
        try:
            read()
        except Problem as problem:
            if self.problems is None:
                raise
            self.problems.append(problem)
            self.depth = 0
            self.skip(before)

    def skip(self, before):
        """To the next token that begins a statement, behind the one where this statement began."""
        self.next = max(self.next, before + 1) if not self.tokens[before].kind == "end" else before
        while not (self.sees("end") or self.begins_statement()):
            self.next += 1

    def begins_statement(self):
        if not self.here().first:
            return False
        return self.here().kind in ("alphabet", "event", "set", "level") or self.sees("name", "=")

    def statement(self, events, sets, definitions):
        self.new_line()
        if self.sees("event"):
            events.append(self.event_name())
        elif self.sees("set"):
            sets.append(self.named_set())
        elif self.sees("alphabet"):
            raise Problem("A drawing has one alphabet.", self.here())
        else:
            definitions.append(self.definition())

    def new_line(self):
        at = self.here()
        if not at.first:
            raise Problem(f"The next statement begins a line, but {at.said()} stands here.", at)

    def alphabet(self, at):
        if self.sees("number"):
            size, number_at = self.number("the alphabet's size")
            if size == 0:
                raise Problem("An alphabet has at least one event.", number_at)
            return size, []
        names = [self.name("an event or the alphabet's size")]
        while self.sees(","):
            self.take()
            names.append(self.name("an event"))
        return len(names), [NamedEvent(n.text, i, n, n) for i, n in enumerate(names)]

    def event_name(self):
        self.take()
        at = self.name("an event")
        self.expect("=", "`=` is expected after the event's name")
        number, number_at = self.number("the event")
        return NamedEvent(at.text, number, at, number_at)

    def named_set(self):
        self.take()
        at = self.name("a set")
        self.expect("=", "`=` is expected after the set's name")
        rows_at = self.here()
        if self.sees("{"):
            rows = self.events()
        elif self.sees("[]"):
            raise Problem("A family has a row for each event.", rows_at)
        else:
            self.expect("[", "A set `{..}` or a family `[..]` is expected")
            rows = [self.row()]
            while self.sees(","):
                self.take()
                rows.append(self.row())
            self.expect("]", "`,` or `]` is expected after a row")
        return NamedSet(at.text, rows, at, rows_at)

    def row(self):
        at = self.here()
        if self.sees("{"):
            return Row(None, self.events(), at)
        if self.sees("else"):
            key = self.take().text
        else:
            key = self.event("A row `{..}`, an event or `else` is expected")
        self.expect(":", "`:` is expected after the event of a row")
        return Row(key, self.events(), at)

    def definition(self):
        level, level_at = 0, None
        if self.sees("level"):
            self.take()
            level, level_at = self.number("the level")
        elif not self.sees("name"):
            raise self.problem("A statement is expected (`event`, `set`, `level` or a definition)")
        at = self.name("a definition")
        if not self.sees("="):
            self.brought(at)
        self.expect("=", "`=` is expected after the definition's name")
        body = self.term()
        after = self.here()
        if after.kind == ")":
            raise Problem("This `)` has no `(`.", after)
        if not after.first:
            self.brought(self.tokens[self.next - 1])
            raise self.problem("`->`, `[]`, `|[`, `|||` or the end of the line is expected")
        return Definition(level, at.text, body, at, level_at or at)

    def brought(self, at):
        """Answers a word of another notation, an input `a?x`, and a definition with parameters."""
        if foreign.word(at.text):
            raise Problem(foreign.word(at.text), at)
        if self.sees("?"):
            message = "An input as `a?x` is not here: name the set of its events, as in `x : set -> P`."
            raise Problem(message, self.here())
        if self.sees("(") and at.kind == "name":
            message = "A definition has no parameters: write one for each value, as `P_1` and `P_2`."
            raise Problem(message, self.here())

    # ---- sets

    def events(self):
        at = self.expect("{", "A set `{..}` is expected")
        ranges = []
        while not self.sees("}"):
            if ranges:
                self.expect(",", "`,` or `}` is expected after an event")
            low = high = self.event("An event is expected")
            if self.sees(".."):
                self.take()
                high = self.event("The range's last event is expected")
            ranges.append((low, high))
        self.take()
        return Events(ranges, at)

    def event(self, message):
        if self.sees("number"):
            number, at = self.number("an event")
            return Event(number, at)
        at = self.expect("name", message)
        return Event(at.text, at)

    def reference(self):
        if self.sees("{"):
            at = self.here()
            return Reference(self.events(), None, at)
        at = self.expect("name", "A set is expected")
        if not self.sees("("):
            return Reference(at.text, None, at)
        self.take()
        parameter = self.parameter()
        self.expect(")", "`)` is expected after the parameter")
        return Reference(at.text, parameter, at)

    def parameter(self):
        if self.sees("^"):
            self.take()
            index, at = self.number("the index of an enclosing prefix")
            return Parameter(index, at)
        at = self.here()
        if self.sees("number"):
            raise Problem(f"The index of an enclosing prefix is written `^{at.text}`.", at)
        self.expect("name", "The variable of an enclosing prefix or `^` and its index is expected")
        return Parameter(at.text, at)

    # ---- terms

    def term(self):
        """A parallel: the sides of one set from the left; another set needs parentheses."""
        self.depth += 1
        if self.depth > MOST_DEPTH:
            raise Problem(f"Parentheses nest at most {MOST_DEPTH} deep.", self.here())
        left = self.choice()
        common = None
        while self.sees("|[") or self.sees("|||"):
            at = self.take()
            reference = Reference(Events([], at), None, at)
            if at.kind == "|[":
                reference = self.reference()
                self.expect("]|", "`]|` is expected after the synchronising set")
            if common is not None and reference != common:
                raise Problem("Parallels over different sets need parentheses.", at)
            common = reference
            left = Parallel(reference, left, self.choice(), at)
        self.depth -= 1
        return left

    def choice(self):
        left = self.prefix()
        while self.sees("[]"):
            at = self.take()
            left = Choice(left, self.prefix(), at)
        return left

    def prefix(self):
        """Prefixes to the right, then the term behind the last of them."""
        heads = []
        while True:
            at, variable = self.here(), None
            if self.sees("?") or self.sees("name", ":"):
                if self.sees("?"):
                    self.take()
                variable = self.name("a variable")
                self.expect(":", "`:` is expected after the variable")
            elif not (self.sees("{") or self.sees("name", "->") or self.sees("name", "(")):
                break
            reference = self.reference()
            self.expect("->", "`->` is expected after the set of a prefix")
            heads.append((at, variable, reference))
        term = self.atom()
        for at, variable, reference in reversed(heads):
            name = variable.text if variable else None
            term = Prefix(name, reference, term, at, variable)
        return term

    def atom(self):
        at = self.here()
        if at.first and (self.sees("name", "=") or at.kind in ("set", "level", "event", "end")):
            message = f"A term is missing before {at.said()}: the definition is not complete."
            raise Problem(message, at)
        if self.sees("STOP"):
            return Stop(self.take())
        if self.sees("FAIL"):
            return Fail(self.take())
        if self.sees("name"):
            return Call(at.text, self.take())
        self.expect("(", "A term is expected")
        term = self.term()
        self.expect(")", "`)` is expected")
        return term
