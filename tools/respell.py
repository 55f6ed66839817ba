#!/usr/bin/env python3
"""Brings this repository's own names to today's spelling, once, after port.py.

usage: python3 tools/respell.py [--check] [FOLDER]

Definitions, lemmas, fields and variables of specs/ and proofs/ in lower camel case or with dashes come to snake case
(readAt, read-at: read_at). A name that begins with a type keeps the dash behind it (Stands-of_list). Names of the library,
names that Rattle makes, functions of src/ and text in quotes stay. Where two names of one file would fall together, the
one with dashes, a lemma, gets `_lem`. With --check it writes nothing and prints each name with its new spelling.
"""

import collections
import glob
import os
import re
import sys

WORD = re.compile(r"[^\s(){}.;,@\"«»\[\]`]+")
QUIET = re.compile(r'"(?:[^"\\\n]|\\.)*"|(?<![^\s(){}.;,@"«»])--[^\n]*')
USE = re.compile(r"^(?:pub )?(?:ghost )?use\s+([^\s{;]+?)(?:\.\{([^}]*)\})?(?:\s+as\s+(\S+?))?;?\s*$", re.M)
DECLARED = re.compile(r"^\s*(?:(?:pub|abbrev|unfoldable|mutual|infix[lr]?)\s+)*((?:[^\s(){}.;,@\"«»\[\]:]+\s+)+):\s", re.M)
BOUND = re.compile(r"[({]((?:[^\s(){}.;,@\"«»\[\]:]+\s+)+):\s")
LOCAL = re.compile(r"(?:\blet\s+|λ\s+)((?:[^\s(){}.;,@\"«»\[\]:=]+\s*)+?)\s*(?:=|:|\.)")
SPELT = re.compile(r"^[a-zA-Z][\w'₀-₉]*(?:-[\w'₀-₉]+)*$")
KEYWORDS = "pub abbrev unfoldable record data where let in use mod elim module open unfolding deriving mutual"
KEYWORDS = set(KEYWORDS.split())


def new_spelling(name):
    if not SPELT.match(name):
        return name
    head, dash, rest = name.partition("-")
    snake = lambda it: re.sub(r"(?<=[a-z0-9'₀-₉])([A-Z])", lambda m: "_" + m.group(1).lower(), it)
    if head[0].isupper():
        return head + dash + snake(rest).replace("-", "_") if dash else name
    return snake(name).replace("-", "_")


def library(path):
    own = re.match(r"Rattle\.(\w+)\.", path)
    return not (own and own.group(1) in CRATES)


def items(group):
    for it in group.split(","):
        it = it.strip()
        if it:
            old, _, new = it.partition(" as ")
            yield old.strip(), (new or old).strip()


def walk(root):
    for f in sorted(glob.glob(root + "/crates/*/specs/**/*.antt", recursive=True)):
        yield "spec", f
    for f in sorted(glob.glob(root + "/crates/*/proofs/**/*.antt", recursive=True)):
        made = os.path.basename(f) in ("Proof.antt", "Answers.antt", "Invariants.antt")
        yield ("answers" if made else "lemma"), f
    for f in sorted(glob.glob(root + "/crates/*/src/**/*.rt", recursive=True)):
        yield "code", f


def code_of(text):
    return QUIET.sub(lambda m: " " * len(m.group()), text)


def main():
    global CRATES
    words = [w for w in sys.argv[1:] if w != "--check"]
    root = words[0] if words else "."
    check = "--check" in sys.argv
    CRATES = set(os.path.basename(p) for p in glob.glob(root + "/crates/*"))
    texts = {}
    imported = collections.defaultdict(set)
    names = set()
    rust = set()
    for kind, f in walk(root):
        texts[f] = (kind, open(f, encoding="utf-8").read())
    for f, (kind, t) in texts.items():
        for m in USE.finditer(t):
            if library(m.group(1)) and m.group(2):
                imported[f] |= set(new for old, new in items(m.group(2))) | set(old for old, new in items(m.group(2)))
        if kind in ("spec", "lemma"):
            c = code_of(t)
            for pattern in (DECLARED, BOUND, LOCAL):
                for m in pattern.finditer(c):
                    names |= set(w for w in m.group(1).split() if w not in KEYWORDS)
            # a line of clauses: the names bound on its left
            for m in re.finditer(r"^\s*([^\n=]*?) =(?:\s|$)", c, re.M):
                names |= set(w for w in WORD.findall(m.group(1)) if w not in KEYWORDS)
        elif kind == "answers":
            c = code_of(t)
            for m in DECLARED.finditer(c):
                line = c[m.start() : c.find("\n", m.end())]
                if "tie." in line or "goal." in line or "statement" in line:
                    continue
                names |= set(w for w in m.group(1).split() if w not in KEYWORDS)
    everywhere = set().union(*imported.values())
    table = {}
    for n in sorted(names):
        s = new_spelling(n)
        if s != n:
            table[n] = s
    # what would fall together
    seen = collections.defaultdict(set)
    clash = collections.defaultdict(set)
    for f, (kind, t) in texts.items():
        here = set(w for w in WORD.findall(code_of(t)))
        by = collections.defaultdict(set)
        for w in here:
            if w in imported[f]:
                by[w].add(w)
            else:
                by[table.get(w, w)].add(w)
        for s, ws in by.items():
            if len(ws) > 1:
                clash[(s, tuple(sorted(ws)))].add(f)
    for s, ws in clash:
        for w in ws:
            if "-" in w and table.get(w) == s:
                table[w] = s + "_lem"
    if check:
        for f, (kind, t) in texts.items():
            if kind == "code":
                hidden(f, t, table)
        for (s, ws), fs in sorted(clash.items()):
            print("together:", s, ws, len(fs), sorted(fs)[0].replace(root, ""))
        both = sorted(n for n in table if n in everywhere)
        for n in both:
            print("library too:", n, [f.replace(root, "") for f in texts if n in imported[f]][:2])
        print(len(table), "names")
        return
    for f, (kind, t) in texts.items():
        turn = {n: s for n, s in table.items() if n not in imported[f]}
        out = []
        if kind == "code":
            t2 = rust_text(t, turn)
        else:
            t2 = antt_text(t, turn)
        if t2 != t:
            open(f, "w", encoding="utf-8").write(t2)


def hidden(f, text, table):
    """Shows where a parameter would hide a definition that its function's clauses cite."""
    for m in re.finditer(r"\bfn (\w+)[^(]*\(([^)]*)\)(.*?)\n\{", text, re.S):
        given = set(re.findall(r"(\w+)\s*:", m.group(2)))
        for w in WORD.findall(m.group(3)):
            if table.get(w, w) in given and w not in given:
                print("hidden:", f, m.group(1), w)


def turned(text, turn):
    return WORD.sub(lambda m: turn.get(m.group(), m.group()), text)


def spans(text, turn):
    return re.sub(r"`[^`\n]*`", lambda m: turned(m.group(), turn), text)


def antt_text(t, turn):
    out, at = [], 0
    for m in QUIET.finditer(t):
        out.append(turned(t[at : m.start()], turn))
        out.append(spans(m.group(), turn) if m.group().startswith("--") else m.group())
        at = m.end()
    out.append(turned(t[at:], turn))
    return "".join(out)


def rust_text(t, turn):
    quiet = re.compile(r'//[^\n]*|b?"(?:[^"\\]|\\.)*"')
    out, at = [], 0
    for m in quiet.finditer(t):
        out.append(turned(t[at : m.start()], turn))
        out.append(spans(m.group(), turn) if m.group().startswith("//") else m.group())
        at = m.end()
    out.append(turned(t[at:], turn))
    return "".join(out)


if __name__ == "__main__":
    main()
