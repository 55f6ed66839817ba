"""Drawings at random, sound ones and others.

    drawing     the text of a drawing
"""

NAMES = "PQRS"


def drawing(random):
    count = random.randint(1, len(NAMES))
    head = "alphabet 3\nset a = {0}\nset b = {0, 1}\nset none = {}\nset f = [{1}, {0, 2}, {}]\n"
    lines = []
    for at in range(count):
        level = random.choice(["", "", f"level {random.randint(0, 2)} "])
        lines.append(f"{level}{NAMES[at]} = {term(random, count, 0, random.randint(1, 4))}")
    return head + "\n".join(lines) + "\n"


def reference(random, around):
    plain = ["a", "b", "{2}", "{0..2}", "none"]
    return random.choice(plain + [f"f(^{random.randint(0, around)})"] * (1 if around else 0))


def term(random, count, around, depth):
    kind = random.choice("sfcppppxxyy") if depth else random.choice("ssfccc")
    if kind == "s":
        return "STOP"
    if kind == "f":
        return "FAIL"
    if kind == "c":
        return random.choice(NAMES[:count])
    if kind == "p":
        return f"({reference(random, around)} -> {term(random, count, around + 1, depth - 1)})"
    left, right = (term(random, count, around, depth - 1) for _ in range(2))
    return f"({left} [] {right})" if kind == "x" else f"({left} |[{reference(random, around)}]| {right})"
