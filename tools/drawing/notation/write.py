"""Tree to text, in lines of at most 100 columns where words allow it.

    text        the text of a drawing, with no parentheses that could be left out but two: around a
                choice or a parallel beside a parallel
"""

import textwrap

from .syntax import Call, Choice, Events, Fail, Parallel, Prefix, Stop

WIDTH = 100


def text(drawing):
    blocks = [[f"alphabet {drawing.size}"]]
    blocks.append([f"event {event.name} = {event.number}" for event in drawing.events])
    blocks.append([filled(f"set {named.name} = {rows(named.rows)}") for named in drawing.sets])
    blocks.append([filled(definition(d)) for d in drawing.definitions])
    return "\n".join("\n".join(block) + "\n" for block in blocks if block)


def filled(line):
    if len(line) <= WIDTH:
        return line
    return textwrap.fill(
        line, WIDTH, subsequent_indent="    ", break_long_words=False, break_on_hyphens=False
    )


def definition(named):
    level = f"level {named.level} " if named.level else ""
    return f"{level}{named.name} = {term(named.body)}"


# ---- sets


def rows(found):
    if isinstance(found, Events):
        return events(found)
    return "[" + ", ".join(key(row) + events(row.events) for row in found) + "]"


def key(row):
    if row.key is None:
        return ""
    return f"{row.key if isinstance(row.key, str) else row.key.called}: "


def events(found):
    shown = []
    for low, high in found.ranges:
        shown.append(f"{low.called}" if low == high else f"{low.called}..{high.called}")
    return "{" + ", ".join(shown) + "}"


def reference(found):
    if isinstance(found.called, Events):
        return events(found.called)
    if found.parameter is None:
        return found.called
    called = found.parameter.called
    return f"{found.called}({called if isinstance(called, str) else f'^{called}'})"


# ---- terms


def term(found):
    if isinstance(found, Stop):
        return "STOP"
    if isinstance(found, Fail):
        return "FAIL"
    if isinstance(found, Call):
        return found.name
    if isinstance(found, Prefix):
        variable = f"{found.variable} : " if found.variable else ""
        follower = beside(found.follower, Choice, Parallel)
        return f"{variable}{reference(found.reference)} -> {follower}"
    if isinstance(found, Choice):
        return f"{beside(found.left, Parallel)} [] {beside(found.right, Choice, Parallel)}"
    left = beside(found.left, Choice, Parallel)
    if isinstance(found.left, Parallel) and found.left.reference == found.reference:
        left = term(found.left)
    return f"{left} |[{reference(found.reference)}]| {beside(found.right, Choice, Parallel)}"


def beside(found, *kinds):
    """A term, in parentheses if it is one of these kinds."""
    return f"({term(found)})" if isinstance(found, kinds) else term(found)
