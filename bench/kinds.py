#!/usr/bin/env python3
"""Documents to measure the printer with, each at 1, 4, 16 and 64 KiB.

    kinds.py FOLDER     writes NAME-KIB of every kind and size into a folder

Each is made from the same seed, so that two runs measure the same bytes, and none is longer than its
size says. What fills a document up to its size is more of the same.
"""
import pathlib
import random
import sys

sys.path.insert(0, str(pathlib.Path(__file__).resolve().parent.parent / "tests"))
from documents import LINE, NIL, cats, deepest, group, nest, text  # noqa: E402

KIB = (1, 4, 16, 64)
WORDS = "alpha be gamma delta epsilon of zeta eta theta iota kappa lambda mu nu xi pi rho tau".split()


def word(dice):
    return dice.choice(WORDS)


def bracketed(before, values, after, separator):
    """A group: an opening, on lines of their own the values, a closing."""
    inner = []
    for i, value in enumerate(values):
        inner += [LINE, value] + ([text(separator)] if separator and i + 1 < len(values) else [])
    return group(cats(text(before), nest(2, cats(*inner)), LINE, text(after)))


def call(dice, depth):
    if depth == 0 or dice.random() < 0.4:
        return text(word(dice))
    values = [call(dice, depth - 1) for _ in range(dice.randint(1, 4))]
    return bracketed(word(dice) + "(", values, ")", ",")


def json(dice, depth):
    if depth == 0 or dice.random() < 0.4:
        return text(dice.choice([word(dice).join('""'), str(dice.randint(0, 99999)), "true", "null"]))
    values = [json(dice, depth - 1) for _ in range(dice.randint(1, 5))]
    if dice.random() < 0.5:
        return bracketed("[", values, "]", ",")
    pairs = [cats(text(f'"{word(dice)}": '), value) for value in values]
    return bracketed("{", pairs, "}", ",")


def expression(dice, depth):
    if depth == 0 or dice.random() < 0.4:
        return text(word(dice))
    values = [expression(dice, depth - 1) for _ in range(dice.randint(1, 4))]
    parts = [text("(" + word(dice))]
    for value in values:
        parts += [LINE, value]
    return group(cats(nest(1, cats(*parts)), text(")")))


def random_document(dice, depth):
    if depth == 0:
        return dice.choice([NIL, LINE, LINE, text(word(dice)), text(" "), text("")])
    kind = dice.randrange(8)
    if kind == 0:
        return nest(dice.randrange(9), random_document(dice, depth - 1))
    if kind <= 3:
        return group(random_document(dice, depth - 1))
    return b"\x02" + random_document(dice, depth - 1) + random_document(dice, depth - 1)


def behind_each_other(make, between):
    """Documents behind each other, as many as there is room for."""

    def document(most):
        dice = random.Random(20261118)
        parts, used, missed = [], 1, 0
        while missed < 50:
            part = make(dice)
            more = 1 + len(part) + (1 + len(between) if between else 0)
            if used + more > most:
                missed += 1
                continue
            parts += [part] + ([between] if between else [])
            used += more
        return cats(*parts)

    return document


def chain(most):
    """Groups within each other, each a line and a word before the next."""
    level = lambda inner: b"\x05\x02" + LINE + b"\x02" + text("word") + inner
    d = NIL
    while len(level(d)) <= most:
        d = level(d)
    return d


def nests(most):
    """Nests within each other around one group of lines, as many as there is room for."""
    lines = b"\x02" + LINE
    n = (most - 258) // 2
    return b"\x03\x00" * (n - 255) + b"\x03\x01" * 255 + group(lines * 127 + LINE)


def groups(most):
    """Groups directly around a line."""
    return b"\x05" * (most - 1) + LINE


def tails(most):
    """Groups within each other, each with a group behind the next: as many rows are kept as can be."""
    n = (most - 1) // 4
    return b"\x05\x02" * n + NIL + b"\x05\x04" * n


def siblings(most):
    """As many groups behind each other as there is room for, with nothing but a line in each."""
    n = (most - 1) // 3
    return b"\x02\x05\x04" * n + NIL


KINDS = {
    "calls": behind_each_other(lambda dice: call(dice, 5), LINE),
    "json": behind_each_other(lambda dice: json(dice, 5), LINE),
    "expressions": behind_each_other(lambda dice: expression(dice, 5), LINE),
    "paragraph": behind_each_other(lambda dice: cats(text(word(dice)), group(LINE)), b""),
    "chain": chain,
    "nests": nests,
    "groups": groups,
    "tails": tails,
    "siblings": siblings,
    "random": behind_each_other(lambda dice: random_document(dice, 7), LINE),
}

if __name__ == "__main__":
    folder = pathlib.Path(sys.argv[1])
    folder.mkdir(parents=True, exist_ok=True)
    for name, make in KINDS.items():
        for kib in KIB:
            made = make(kib * 1024)
            assert len(made) <= kib * 1024
            (folder / f"{name}-{kib}").write_bytes(made)
