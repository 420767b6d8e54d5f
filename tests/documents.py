#!/usr/bin/env python3
"""Encoded documents for trying the programs by hand and under tests/deepest.

    documents.py NAME WIDTH     writes the width's byte and the document to standard output

Each name below is a document; `worked` is the call of the README.
"""
import sys

MOST = 65_536


def text(s):
    return bytes([1, len(s)]) + s.encode()


def cats(*ds):
    return b"".join(b"\x02" + d for d in ds) + b"\x00"


def nest(k, d):
    return bytes([3, k]) + d


def group(d):
    return b"\x05" + d


LINE = b"\x04"
NIL = b"\x00"


def call(name, *values):
    parts = []
    for i, v in enumerate(values):
        parts += [LINE, v] + ([text(",")] if i + 1 < len(values) else [])
    return group(cats(text(name + "("), nest(2, cats(*parts)), LINE, text(")")))


def worked():
    sandwich = call("put", text("bread"), call("slice", text("cheese"), text("thin")), text("salt"))
    return cats(text("let x = "), sandwich, LINE, text("in x"))


# (prefix, core): the prefix is repeated as often as fits, the suffix as often as the prefix
DEEPEST = {
    "groups": (b"\x05", LINE, b""),
    "group-line-group": (b"\x05\x02\x04", LINE, b""),
    "right-cats": (b"\x02\x04", LINE, b""),
    "left-cats": (b"\x02", LINE, b"\x04"),
    "nests": (b"\x03\xff", LINE, b""),
    "nests-of-lines": (b"\x03\xff\x02\x04", LINE, b""),
    "grouped-nests": (b"\x05\x03\x01\x02\x04", LINE, b""),
}


def deepest(name):
    before, core, after = DEEPEST[name]
    n = (MOST - len(core)) // (len(before) + len(after))
    return before * n + core + after * n


def siblings(n):
    """n groups behind each other, each a line and a word."""
    return cats(*[group(cats(LINE, text("word"))) for _ in range(n)])


def within(n):
    """n groups within each other, each a line and a word before the next."""
    d = NIL
    for _ in range(n):
        d = group(cats(LINE, text("word"), d))
    return d


def document(name):
    if name == "worked":
        return worked()
    if name == "forty-siblings":
        return siblings(40)
    if name == "forty-within":
        return within(40)
    return deepest(name)


if __name__ == "__main__":
    sys.stdout.buffer.write(bytes([int(sys.argv[2])]) + document(sys.argv[1]))
