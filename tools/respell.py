#!/usr/bin/env python3
"""Brings the names that this repository declares in specs/ and proofs/ to today's spelling, after the kit's port.py has run:
words in snake case, with no dash inside a name. It also writes the look of a map, which the kit's scripts leave as L-as-Look,
behind the map's type parameter. Run once, at the top of the repository; names of goals and of the library stay as they are.
"""

import glob
import re

# A name in a declaration: what stands before the colon of its type.
DECLARED = re.compile(r"^\s*(?:(?:abbrev|unfoldable|pub) )*(?:(?:data|record) )?([^\s(){}\[\],.;:«»\"◌]+)(?:\s+[({].*?[)}])*\s+:(?:\s|$)(.*)$")
# A name, with the dot before it where it is a field.
NAME = re.compile(r"[A-Za-z0-9_'≤≡⊎∷+*/%^<>=&|ℕ-]+")
GOAL = re.compile(r"(goal|given|need)\.")
# Where the plain rule would meet another name.
SPECIAL = {
    "bit-and": "bit_on-and",
    "bit-or": "bit_on-or",
    "bit-xor": "bit_on-xor",
    "bit_not": "bit_on-not",
    "getD-pairs": "get_or-pairs",
    "Row-holds": "RowHolds",
    "Row-labelled": "RowLabelled",
}


def antt_files():
    return sorted(p for kind in ("specs", "proofs") for p in glob.glob(f"crates/*/{kind}/**/*.antt", recursive=True))


def declared():
    """Each declared name with a dash, and its new spelling."""
    found = dict(SPECIAL)
    for path in antt_files():
        for line in open(path, encoding="utf-8"):
            if line.startswith("use ") or line.lstrip().startswith("--"):
                continue
            m = DECLARED.match(line.rstrip("\n"))
            if m and "-" in m[1] and not GOAL.match(m[2].strip()):
                found.setdefault(m[1], m[1].replace("-", "_"))
    return found


def respelled(text, names):
    return NAME.sub(lambda m: names.get(m[0], m[0]), text)


def clause_lines(text, names):
    """A source file: its comments stay, and so does code, in which no name has a dash."""
    out = []
    for line in text.split("\n"):
        if not line.lstrip().startswith("//"):
            line = respelled(line, names).replace("L-as-Look.", "M.L.Look.")
        out.append(line)
    return "\n".join(out)


def main():
    names = declared()
    sources = sorted(glob.glob("crates/*/src/**/*.rt", recursive=True))
    for path in antt_files() + sources:
        with open(path, encoding="utf-8") as f:
            text = f.read()
        if path.endswith(".rt"):
            new = clause_lines(text, names)
        else:
            new = "\n".join(l if l.lstrip().startswith("--") else respelled(l, names) for l in text.split("\n"))
        if new != text:
            with open(path, "w", encoding="utf-8") as f:
                f.write(new)
    print(f"{len(names)} names")


main()
