#!/usr/bin/env python3
"""Brings the repository's own definitions and lemmas to the spelling of the kit: words in snake case.

usage: tools/respell.py [FOLDER]      of a repository; this one, if none is named. Run once, after the kit's port.py.

A name such as `rowBytes` becomes `row_bytes`, in the sources, definitions, proofs and edits of crates/, and in README and docs/. A lemma that has
the name already, since its dash became an underscore, gets `_lem` first. Names of Rust functions, types, constants and fields, strings and
outputs are in other spellings and stay.
"""

import os
import re
import sys

WORD = re.compile(r"[^\W\d_][\w'\-]*")
CAMEL = re.compile(r"[a-z]+(?:[A-Z][a-z0-9]*)+$")
# lemmas of these names stand beside a definition that is about to have the name
LEMMAS = {"after_less", "all_stay", "each_on", "no_mode", "not_digit", "one_on", "parts_from", "products_at", "sums_at", "read_whole",
          "stands_at", "step_keeps"}
OTHERS = {"getD-later": "get_or-later"}


def snake(word):
    return re.sub(r"([A-Z])", lambda m: "_" + m.group(1).lower(), word)


def files(top):
    for folder, dirs, names in os.walk(os.path.join(top, "crates")):
        dirs[:] = sorted(d for d in dirs if d not in ("out", "target"))
        for name in sorted(names):
            if name.endswith((".antt", ".rt", ".edit")):
                yield os.path.join(folder, name)


def pages(top):
    yield os.path.join(top, "README.md")
    for folder, _, names in os.walk(os.path.join(top, "docs")):
        for name in sorted(names):
            if name.endswith(".md") and not name.startswith("PORT"):
                yield os.path.join(folder, name)


def lemma(match, text):
    """A name of a lemma: not a field behind a dot, but for a module's list of names."""
    word = match.group()
    if word in LEMMAS and text[match.start() - 1 : match.start()] != ".":
        return word + "_lem"
    return word


def main():
    top = sys.argv[1] if len(sys.argv) > 1 else os.path.join(os.path.dirname(os.path.realpath(__file__)), "..")
    texts = {}
    for path in files(top):
        with open(path, encoding="utf-8") as f:
            texts[path] = f.read()
    words = {m.group() for path, text in texts.items() if not path.endswith(".edit") for m in WORD.finditer(text)}
    names = {w: snake(w) for w in words if CAMEL.match(w)} | OTHERS
    twice = {}
    for old, new in names.items():
        twice.setdefault(new, []).append(old)
    for new, olds in sorted(twice.items()):
        if len(olds) > 1:
            print(f"respell: {' and '.join(sorted(olds))} fall together as {new}")
    for path in pages(top):
        with open(path, encoding="utf-8") as f:
            texts[path] = f.read()
    changed = 0
    for path, text in texts.items():
        new = text
        if path.endswith(".antt"):
            new = WORD.sub(lambda m: lemma(m, new), new)
        new = WORD.sub(lambda m: names.get(m.group(), m.group()), new)
        if new != text:
            changed += 1
            with open(path, "w", encoding="utf-8") as f:
                f.write(new)
    print(f"respell: {len(names)} names in {changed} files")


if __name__ == "__main__":
    main()
