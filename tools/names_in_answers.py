#!/usr/bin/env python3
"""Spells the names that Rattle makes of the source, in proofs/*/Answers.antt and Invariants.antt, as today's Rattle does: a name
from the source keeps its underscores, and so do the words for what is asked. Run once, after respell.py.
"""

import glob
import re

NAME = re.compile(r"[A-Za-z0-9_'+-]+")
WORDS = ["overflow_add", "overflow_sub", "overflow_mul", "overflow_shl", "overflow_shr", "overflow_cast", "overflow_step", "nonzero_div",
         "nonzero_rem", "slice_bounds", "offset_bounds", "in_err", "in_ok", "in_default", "invariant_of", "split_first", "split_at",
         "unwrap_or", "from_residual", "is_some", "is_none", "is_ok", "is_err", "is_empty", "as_ref", "as_slice", "checked_add",
         "first_chunk", "starts_with", "saturating_sub", "saturating_add", "to_owned", "copy_from_slice", "checked_mul", "try_from",
         "checked_sub", "iter_mut", "try_into", "as_bytes", "from_fn"]


def source_names():
    """Every name of the sources that has an underscore, longest first."""
    found = set(WORDS)
    for path in glob.glob("crates/*/src/**/*.rt", recursive=True):
        for line in open(path, encoding="utf-8"):
            if not line.lstrip().startswith("//"):
                found.update(w for w in re.findall(r"[A-Za-z][A-Za-z0-9_]*", line) if "_" in w.strip("_") and w.islower())
    return sorted(found, key=len, reverse=True)


def imported(text):
    """The names that the file has from elsewhere than from the goals of its function."""
    found = set()
    for line in text.split("\n"):
        m = re.match(r"use (\S+?)\.?(?:\{(.*)\}|(\S+) as \S+|)$", line.strip())
        if line.startswith("use ") and ".Goals" not in line and "{" in line:
            found.update(x.strip().split(" as ")[-1] for x in line[line.index("{") + 1 : line.rindex("}")].split(","))
    return found


def main():
    names = source_names()
    dashed = [(re.compile(r"(?<![A-Za-z0-9_])" + re.escape(n.replace("_", "-")) + r"(?![A-Za-z0-9_])"), n) for n in names]
    changed = 0
    for path in glob.glob("crates/*/proofs/**/*.antt", recursive=True):
        if not path.endswith(("/Answers.antt", "/Invariants.antt")):
            continue
        with open(path, encoding="utf-8") as f:
            text = f.read()
        keep = imported(text)

        def turn(m):
            word = m[0]
            if "-" not in word or word in keep:
                return word
            for pattern, name in dashed:
                word = pattern.sub(name, word)
            return word

        lines = []
        for line in text.split("\n"):
            outside = line.startswith("use ") and ".Goals" not in line
            lines.append(line if outside or line.lstrip().startswith("--") else NAME.sub(turn, line))
        new = "\n".join(lines)
        if new != text:
            changed += 1
            with open(path, "w", encoding="utf-8") as f:
                f.write(new)
    print(f"{changed} files")


main()
