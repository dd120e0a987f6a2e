#!/usr/bin/env python3
"""Brings the repository's own definitions to the spelling of the library: words in snake case.

usage: python3 tools/spelling.py [FOLDER]        (run once, after the kit's port.py; a second run changes nothing)

A name in lower camel case, as `entriesFit`, becomes `entries_fit`, wherever it stands as a whole word in crates/
(.antt, .rt and .edit files) and in the pages (.md). Where a lemma had the definition's new name already, the lemma
gets `_lem` after it. Names of types, modules and constructors, which begin with a capital, stay, and so do the
functions of src/, which are in snake case already.
"""
import collections
import os
import re
import sys

TOP = sys.argv[1] if len(sys.argv) > 1 else "."
WORD = re.compile(r"[A-Za-z_µμ][A-Za-z0-9_'₀-₉-]*")
CAMEL = re.compile(r"[a-z][a-z0-9_'₀-₉]*[A-Z][A-Za-z0-9_'₀-₉]*")
DECLARED = re.compile(r"^\s*(?:(?:abbrev|unfoldable|pub|data|record) )*([^\s:(){}=]+)\s*:", re.M)


def snake(name):
    # The library's `getD` is `get_or`.
    if name == "getD":
        return "get_or"
    return re.sub(r"(?<=[a-z0-9])([A-Z])", lambda m: "_" + m[1].lower(), name)


def texts():
    for folder, dirs, files in os.walk(TOP):
        dirs[:] = sorted(d for d in dirs if d not in ("out", "target", ".git"))
        for name in sorted(files):
            path = os.path.join(folder, name)
            inside = os.path.relpath(path, TOP).startswith("crates" + os.sep)
            if (inside and name.endswith((".antt", ".rt", ".edit"))) or name.endswith(".md"):
                with open(path, encoding="utf-8") as f:
                    yield path, f.read()


def main():
    files = dict(texts())
    camel, whole, declared = set(), set(), set()
    for path, text in files.items():
        if path.endswith(".antt"):
            code = re.sub(r"--[^\n]*", "", text)
            declared.update(DECLARED.findall(code))
            words = set(WORD.findall(code))
            whole |= words
            camel.update(part for word in words for part in word.split("-") if CAMEL.fullmatch(part))
    turned = {name: snake(name) for name in camel}
    twice = [new for new, n in collections.Counter(turned.values()).items() if n > 1]
    if twice:
        sys.exit("two names would become one: " + ", ".join(twice))
    # A lemma that has the new name of a definition.
    lemmas = {new: new + "_lem" for name, new in turned.items() if name in whole and new in declared}

    def respelt(m):
        return "-".join(turned.get(part, part) for part in m[0].split("-"))

    def in_proofs(m):
        # Behind a dot stands a function of src/, a field or a step of the code.
        behind_dot = m.string[m.start() - 1 : m.start()] == "."
        return lemmas[m[0]] if m[0] in lemmas and not behind_dot else respelt(m)

    def in_pages(m):
        # A page may still have a name that port.py respelt.
        new = snake(m[0])
        return new if CAMEL.fullmatch(m[0]) and new in declared else respelt(m)

    turn = {".antt": in_proofs, ".md": in_pages}
    changed = 0
    for path, text in files.items():
        new = WORD.sub(turn.get(os.path.splitext(path)[1], respelt), text)
        if new != text:
            changed += 1
            with open(path, "w", encoding="utf-8") as f:
                f.write(new)
    print(f"spelling: {len(turned)} names, {len(lemmas)} lemmas beside one of them, {changed} files")
    for new in sorted(lemmas):
        print(f"  lemma {new} is {lemmas[new]}")


main()
