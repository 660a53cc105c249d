#!/usr/bin/env python3
"""Gives the repository's own definitions and lemmas today's spelling: words in snake case, where they were in camel case.

usage: python3 tools/snake_names.py [--list]      at the top of the repository

It was run once, right after the kit's port.py: a definition `portsFine` became `ports_fine`, a lemma `fillTo-above` became `fill_to-above`.
Types, records and facts keep their capitals, and so do the names of functions, types and variants of src/. It turns .antt files, the clauses and
imports of .rt files, and the text of must-fail edits. --list prints each name beside the new one and writes nothing.
"""

import glob
import os
import re
import sys

WORD = re.compile(r"[^\s(){}\[\].;,:=\"«»`\\+*×→|&]+")
HEAD = re.compile(r"\s*(?:(?:abbrev|unfoldable|pub|record|data|ruleset) )*([^\s(){}\[\].;,:=\"«»`]+)\s*(?=[(:{]|$)")
# A name that would fall together with another one, or that says the older library's word.
GIVEN = {"getD": "get_or", "T?": "is_true_or_not"}


def snake(word):
    return re.sub(r"(?<=[a-z0-9])([A-Z])", lambda it: "_" + it[1].lower(), word)


def turned(name):
    parts = name.split("-")
    return "-".join(GIVEN.get(p, p if not p[:1].islower() else snake(p)) for p in parts)


def declared(files):
    found = set()
    for path in files:
        for line in open(path, encoding="utf-8"):
            if line.lstrip().startswith(("--", "use ")):
                continue
            head = HEAD.match(line)
            if head:
                found.add(head[1])
    return found


def main():
    antt = sorted(p for d in ("specs", "proofs") for p in glob.glob(f"crates/*/{d}/**/*.antt", recursive=True))
    names = {n: turned(n) for n in declared(antt) if turned(n) != n}
    if "--list" in sys.argv[1:]:
        for old, new in sorted(names.items()):
            print(old, new)
        return
    files = antt + sorted(glob.glob("crates/*/src/*.rt")) + sorted(glob.glob("crates/*/must-fail/*.edit"))
    for path in files:
        with open(path, encoding="utf-8") as f:
            text = f.read()
        new = WORD.sub(lambda it: names.get(it[0], it[0]), text)
        if new != text:
            with open(path, "w", encoding="utf-8") as f:
                f.write(new)


if __name__ == "__main__":
    os.chdir(os.path.join(os.path.dirname(os.path.abspath(__file__)), ".."))
    main()
