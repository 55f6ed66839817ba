"""Signs and words that people bring from other notations of CSP, and how they are written here.

    SIGNS       signs, longer ones first, each with an answer
    FIRST       those of them that begin with a sign of this notation
    WORDS       words, each with an answer
    word        the answer to a word, as a sentence
"""

LEFT_OUT = "is left out: document 01 has no"
COMMENT = "a comment begins with `--` and goes to the line's end"
PARALLEL = "a parallel over a set is written `P |[set]| Q` here"
PREFIX = "a prefix is written `a -> P`"
SETS = "a set is written out, as `{a, b}` or `{a..d}`"
RENAMING = f"renaming {LEFT_OUT} renaming; write the event that is meant"
INTERNAL = "a choice is written `[]` here; traces do not tell the two choices apart"
SEQUENCE = f"sequence `P; Q` {LEFT_OUT} terminating action; write the events of P before Q, as `a -> b -> Q`"

SIGNS = {
    "{-": COMMENT,
    "-}": COMMENT,
    "/*": COMMENT,
    "*/": COMMENT,
    "//": COMMENT,
    "#": COMMENT,
    "[|": PARALLEL,
    "|]": PARALLEL,
    "[[": RENAMING,
    "|~|": INTERNAL,
    "[>": "a choice is written `[]` here; traces do not tell the choices apart",
    "/\\": f"interrupt {LEFT_OUT} interrupt; write a choice `[]` at each place where it may come",
    "<->": "linked parallel is not here; write `P |[set]| Q` over the common events",
    "<-": RENAMING,
    "{|": SETS,
    "|}": SETS,
    "||": "a parallel is written `P |[set]| Q`, and interleaving `P ||| Q`",
    "|": "a choice is written `P [] Q`, and a parallel `P |[set]| Q`",
    ":=": "a definition is written `P = ..`",
    "=>": PREFIX,
    "-": PREFIX,
    ";": SEQUENCE,
    "\\": f"hiding {LEFT_OUT} hiding; every event is seen by the monitor",
    "!": "an event is one name or number; write `send_1 ->` for an output of 1",
    "&": "a guard is not here; leave the branch out, or write a set that depends on an event, `f(x)`",
    "@": "`@` is not here; a choice of many is a prefix with a set, as `x : set -> P`",
    ".": "an event is one name or number; write `send_1` for `send.1`",
    "+": "numbers are written out",
    "\u2192": PREFIX,  # the signs of books and papers
    "\u25a1": "a choice is written `P [] Q`",
    "\u2293": INTERNAL,
    "\u2225": PARALLEL,
    "\u2016": PARALLEL,
    "\u2af4": "interleaving is written `P ||| Q`",
    "\u2980": "interleaving is written `P ||| Q`",
    "\u2713": f"termination {LEFT_OUT} terminating action; STOP ends a run",
    "\u222a": SETS,
    "\u2208": "a set in a prefix is written `x : set -> P`",
}

FIRST = ("[|", "[[", "{|", "{-", ":=", "=>")

ENDS = "STOP ends a run"
EVENTS = "events are declared by `alphabet`, as in `alphabet stamp, crack`"
RUN = "write `All = all -> All` with a set `all` of every event"
BRANCHES = "write a set that depends on an event, `f(x)`, or a choice `[]`"

WORDS = {
    "SKIP": f"the terminating action is left out; {ENDS}",
    "Skip": f"the terminating action is left out; {ENDS}",
    "Stop": ENDS,
    "stop": ENDS,
    "Fail": "FAIL permits no run",
    "fail": "FAIL permits no run",
    "CHAOS": f"CHAOS is not here; {RUN}",
    "RUN": f"RUN is not here; {RUN}",
    "channel": EVENTS,
    "datatype": EVENTS,
    "nametype": "a set of events is declared by `set`, as in `set lanes = {left, right}`",
    "assert": "there is nothing to assert: `tools/cspe run` judges events",
    "include": "a drawing is one file",
    "print": "`tools/cspe run` judges events",
    "if": f"`if` is not here; {BRANCHES}",
    "let": "`let` is not here; each definition is a statement of its own",
    "within": "`let` is not here; each definition is a statement of its own",
}


def word(text):
    """What is said of a word of another notation, or nothing."""
    return f"`{text}` is no word of the notation: {WORDS[text]}." if text in WORDS else None
