#!/usr/bin/env python3
"""Brings the repository's own definitions and lemmas to the library's spelling, once:
a fact or a type in upper camel case (Best-is-first: BestIsFirst), all else in snake case (to-go: to_go).
Functions of src/, strings, inputs and outputs keep their names; so do the names that the checker makes of a function's goals.

    python3 tools/respell.py            at the top of the repository, behind the kit's own script
    python3 tools/respell.py --list     only says which names it would change, and which would fall together
"""
import pathlib
import re
import sys

ROOT = pathlib.Path.cwd()
WORD = r"[^\s(){}\[\]⟨⟩.,;:λ→×∷@\"`]+"
# A definition, a field or a constructor: at the beginning of its line or indented, with its type behind a colon.
DEFINED = re.compile(rf"^\s*(?:abbrev\s+|unfoldable\s+)?(?:pub\s+)?(?:abbrev\s+|unfoldable\s+)?(?:record\s+|data\s+)?({WORD})(?:\s+[({{].*?[)}}])*\s*:(?!=)", re.M)
GOAL = re.compile(rf"^\s*(?:abbrev\s+|unfoldable\s+)?(?:pub\s+)?({WORD})\s*:\s*(?:goal|given|need)\.", re.M)


def files(*kinds):
    for path in sorted((ROOT / "crates").rglob("*")):
        if path.suffix in kinds and "out" not in path.relative_to(ROOT).parts:
            yield path


def respelled(name):
    name = {"getD-below": "get_or-below"}.get(name, name).replace("-++", "-append")
    parts = re.split(r"[-_]", name)
    if name[0].isupper():
        return "".join(p[:1].upper() + p[1:] for p in parts)
    return "_".join(parts)


def own_names():
    names, goals = set(), set()
    for path in files(".antt"):
        text = path.read_text()
        goals |= set(GOAL.findall(text))
        names |= set(DEFINED.findall(text))
    return names, goals


def wants(name):
    if not re.search(r"[A-Za-z]", name):
        return False
    return "-" in name.strip("-") or (name[0].isupper() and "_" in name.strip("_"))


def main():
    names, goals = own_names()
    turn = {n: respelled(n) for n in names - goals if wants(n)}
    taken = names - set(turn)
    for old, new in sorted(turn.items()):
        others = [n for n in turn if n != old and turn[n] == new]
        if new in taken or others:
            print(f"falls together: {old} -> {new}", "with", *(others or [new]))
    if "--list" in sys.argv:
        for old, new in sorted(turn.items()):
            print(old, "->", new)
        return
    token = re.compile(r"(?<![\w'′-])(" + "|".join(sorted(map(re.escape, turn), key=len, reverse=True)) + r")(?![\w'′-])")
    for path in files(".antt", ".rt"):
        text = path.read_text()
        # In source files only the clauses and their imports cite these names, and no string has one.
        new = token.sub(lambda m: turn[m[1]], text)
        if new != text:
            path.write_text(new)


main()
