#!/usr/bin/env python3
"""Respells this repository's own definitions and lemmas: words in snake case, a dash between two names only, `_lem` after a lemma that would have
its function's name. The pairs stand in respell.txt beside this file; those below its '#' line are lemmas, respelled in proofs only and never in a
path. Names of source files, folders, strings and inputs stay. Run at the top of the repository.
"""
import os
import re

HERE = os.path.dirname(os.path.realpath(__file__))
NAME = re.compile(r"[A-Za-z][\w'\-₀-₉]*")


def pairs():
    always, lemmas = {}, {}
    into = always
    with open(os.path.join(HERE, "respell.txt"), encoding="utf-8") as f:
        for line in f:
            if line.startswith("#"):
                into = lemmas
            elif line.strip():
                old, new = line.split()
                into[old] = new
    return always, lemmas


def respelled(text, always, lemmas, source):
    def of(m):
        name, start, end = m.group(0), m.start(), m.end()
        if start and (text[start - 1].isalnum() or text[start - 1] in "_'-"):
            return name
        after = re.match(r"\.[A-Za-z]", text[end:end + 2])
        if "-" in name and (source or after and start and text[start - 1] == "."):
            return name
        if name in always:
            return always[name]
        path = after or start and text[start - 1] == "."
        return name if path else lemmas.get(name, name)

    return NAME.sub(of, text)


def strings_apart(text, change):
    """Source text, changed outside string literals."""
    parts = re.split(r'("(?:[^"\\\n]|\\.)*")', text)
    return "".join(p if i % 2 else change(p) for i, p in enumerate(parts))


def main():
    always, lemmas = pairs()
    changed = 0
    for folder, dirs, files in os.walk("crates"):
        dirs[:] = sorted(d for d in dirs if d != "out")
        for f in sorted(files):
            if not f.endswith((".antt", ".rt", ".edit")):
                continue
            path = os.path.join(folder, f)
            with open(path, encoding="utf-8") as h:
                text = h.read()
            if f.endswith(".antt"):
                new = respelled(text, always, lemmas, False)
            else:
                new = strings_apart(text, lambda p: respelled(p, always, {}, True))
            if new != text:
                changed += 1
                with open(path, "w", encoding="utf-8") as h:
                    h.write(new)
    print(f"{changed} files")


main()
