#!/usr/bin/env python3
"""Counts, in crates/*/src, the forms that older Rattle code has and today's need not: python3 tools/forms.py [-v] [FOLDER]."""
import glob
import re
import sys

args = [a for a in sys.argv[1:] if a != "-v"]
root = args[0] if args else "."
texts = {f: open(f).read() for f in sorted(glob.glob(f"{root}/crates/*/src/**/*.rt", recursive=True))}

# each: the point, what is counted, and the pattern (over lines, but for the last two of point 5)
PATTERNS = [
    (1, "an answer of a number with 0 for none, or of a number beside what it carries", r"-> .*\((u8, u32|u32, u8, Option<u32>)\)"),
    (1, "a number that stands for none", r"(const NONE: u32|=> u32::MAX)"),
    (1, "None for want of room", r"-> Option<usize>"),
    (1, "a refusal taken out of one Err and put into another answer", r"Err\([A-Za-z_:]+(\(_\))?\) => (return )?(Err|Answer|0)"),
    (1, "None turned into a refusal, or into 0", r"None => (Err|0\b)"),
    (2, "a function by which a refusal tells its number or what it carries", r"pub fn (number|entry|length|state|field)\(self\) -> "),
    (2, "a function by which a map tells why it was refused", r"pub fn fault\(&self\)"),
    (2, "a loop over the moves of a state", r"for \w+ in 0\.\.\w+\.list_len\("),
    (2, "a loop over the lines of a text", r"while let Some\(\(.*take_line"),
    (2, "a function of its own for each kind of map or case", r"fn (two_\w+|switches_on_listed|listed|switched|paired|told\w*)[<(]"),
    (3, "a loop over the indices of a slice or an array", r"for \w+ in \d+\.\.(\w+(\.\w+)*\.len\(\)|16|18|20|32|50)[ +]"),
    (3, "a loop that is no `for`", r"^\s*(while|loop)\b"),
    (3, "a count kept by hand", r"(\+= 1;|-= 1;|= \w+\.saturating_add\(1\);)"),
    (4, "equality, texts or conversion written by hand", r"fn (same|say\w*|reason|is_word|written|is_digit|plain|hex)[<(]|let why = match"),
    (6, "an array with a count beside it, or one that is filled entry by entry", r"(rows: \[Row; 64\],|finds = \[|looks: \[SwitchLook; 6\]|starts: \[u8; 6\]|firsts: \[u32; 7\]|targets: \[u32; 18\]|commands: \[Command; 4\]|let mut (out|best|facts|asked|looks|starts|firsts|targets|commands) = \[)"),
    (6, "a slice of known length walked by its split parts", r"let Some\(now\) = rest else"),
    (7, "an enum that says which step to run", r"enum (Question|Pen)\b"),
]


def show(point, what, places):
    print(f"{point}  {len(places):4}  {what}")
    if "-v" in sys.argv:
        for place in places:
            print("        " + place)


def lines_with(pattern):
    found = []
    for name, text in texts.items():
        for n, line in enumerate(text.split("\n"), 1):
            if not line.lstrip().startswith("//") and re.search(pattern, line):
                found.append(f"{name[len(root) + 1:]}:{n}: {line.strip()}")
    return found


def repeated_facts():
    facts = {}
    for name, text in texts.items():
        for fact in re.findall(r"requires [a-z_]* ?(\{[^{}]*\})", text):
            plain = re.sub(r"\b[A-Z]\.(Map\.)?meaning", "meaning", re.sub(r"\.(old|new|now|entry)\b", "", fact))
            facts.setdefault(plain, []).append(name[len(root) + 1:])
    return [f"{len(at)} x {fact}" for fact, at in sorted(facts.items(), key=lambda x: -len(x[1])) if len(at) >= 3]


def long_lists():
    found = []
    for name, text in texts.items():
        for m in re.finditer(r"fn (\w+)(?:<[^()]*?>)?\(([^)]*)\)", text):
            flat = m.group(2)
            while re.search(r"<[^<>]*>", flat):
                flat = re.sub(r"<[^<>]*>", "", flat)
            count = len([p for p in flat.split(",") if p.strip()])
            if count >= 6:
                found.append(f"{name[len(root) + 1:]}: {m.group(1)}, {count}")
    return found


for point, what, pattern in [p for p in PATTERNS if p[0] < 5]:
    show(point, what, lines_with(pattern))
show(5, "a condition that three or more functions ask", repeated_facts())
show(5, "a function of six parameters or more", long_lists())
for point, what, pattern in [p for p in PATTERNS if p[0] > 5]:
    show(point, what, lines_with(pattern))
proofs = [open(f).read() for f in glob.glob(f"{root}/crates/*/proofs/**/*.antt", recursive=True)]
answers = glob.glob(f"{root}/crates/*/proofs/**/Answers.antt", recursive=True)
print(f"8  {sum(t.count(chr(10)) for t in proofs):4}  lines of proofs")
print(f"8  {len(answers):4}  files of answers")
