#!/usr/bin/env python3
"""Brings the repository's own definitions and lemmas to the spelling that the Rattle library has: words in snake case.

usage: python3 tools/respell.py            at the top of the repository, once, after the kit's own port.py

Turned are the names of specs/ and proofs/ (definitions, members, lemmas, variables) where they stand: in .antt files, in the
clauses and imports of .rt files, and in must-fail edits. Types, variants and modules begin with a capital and stay; so do
the names of src/, which had no capital inside. A name that has a hyphen keeps it: it is a lemma's, and the words on both
sides of it are turned. Names of specs/ that had a hyphen get an underscore, since a clause reads the hyphen as a minus.
"""
import os
import re

NAME = re.compile(r"[A-Za-z_⊎ᴰ◌][A-Za-z0-9_ᴰ'→≤≡·◌-]*")
HYPHENS = {
    "comes-start", "comes-step", "count-is", "few-lines", "few-threads", "refusals-buffered", "refusals-generated",
    "some-lines", "some-threads", "reach-start",
}
STRING = re.compile(r'("(?:[^"\\\n]|\\.)*")')  # inputs and outputs stay
LIBRARY = {"getD": "get_or"}  # the library's own word in the name of one of our lemmas


def word(w):
    if w in LIBRARY:
        return LIBRARY[w]
    if not re.match("[a-z]", w):
        return w
    return re.sub(r"(?<=[a-z0-9])([A-Z])", lambda m: "_" + m.group(1).lower(), w)


def name(m):
    n = m.group(0)
    if n in HYPHENS:
        return n.replace("-", "_")
    return "".join(word(w) for w in re.split(r"([_·◌-])", n))


def main():
    changed = 0
    for folder, dirs, files in os.walk("crates"):
        dirs[:] = sorted(d for d in dirs if d != "out")
        for f in sorted(files):
            if f.endswith((".antt", ".rt", ".edit")):
                path = os.path.join(folder, f)
                with open(path, encoding="utf-8") as it:
                    old = it.read()
                new = "".join(s if s.startswith('"') else NAME.sub(name, s) for s in STRING.split(old))
                if new != old:
                    changed += 1
                    with open(path, "w", encoding="utf-8") as it:
                        it.write(new)
    print(f"respell: {changed} files changed")


if __name__ == "__main__":
    main()
