#!/usr/bin/env python3
"""Writes the cases (stdin) and what each of them should give (stdout).

The model below is written from the rules of the formats alone. It shares no code with the checker, and never sees what the
program writes. Texts are coded as the program's cases have them: `|` for byte 9, `/` for byte 10, `~` and two hexadecimal digits
for any byte, segments parted by commas, `N*` before a segment that stands N times. The empty text is `0*`.
"""
import collections
import itertools
import pathlib
import random

NUMBERS, SIGNS, STARTS = 2**32, 2**16, 2

# ---------------------------------------------------------------- the model: lines

OPERANDS = {
    b"true": [],
    b"sign": [SIGNS],
    b"not": [NUMBERS],
    b"or": [NUMBERS, NUMBERS],
    b"next": [NUMBERS],
    b"until": [NUMBERS, NUMBERS],
}


class Fault(Exception):
    def __init__(self, number, line, field=0):
        super().__init__(number, line, field)
        self.number, self.line, self.field = number, line, field


def is_number(field, bound):
    """Whether a field is a number in plain base ten, below the bound."""
    if field == b"" or any(b not in b"0123456789" for b in field):
        return False
    if field[:1] == b"0" and field != b"0":
        return False
    return int(field) < bound


def parsed(line, number):
    """The letter (with the kind word) and the numbers of a line."""
    fields = line.split(b"\t")
    if fields[0] == b"R" and len(fields) > 1 and fields[1] in OPERANDS:
        head, bounds = fields[:2], OPERANDS[fields[1]]
    elif fields[0] in (b"M", b"T"):
        head, bounds = fields[:1], [NUMBERS]
    elif fields[0] == b"S":
        head, bounds = fields[:1], [NUMBERS, STARTS]
    else:
        raise Fault(11, number)
    operands = fields[len(head):]
    if len(operands) != len(bounds):
        raise Fault(11, number)
    for place, (operand, bound) in enumerate(zip(operands, bounds)):
        if not is_number(operand, bound):
            raise Fault(12, number, len(head) + 1 + place)
    return [word.decode() for word in head], [int(operand) for operand in operands]


def lines_of(text):
    """The number, the head and the numbers of each line, up to the first fault."""
    if len(text) > 60000:
        raise Fault(10, 0)
    pieces = text.split(b"\n")
    for number, piece in enumerate(pieces[:-1], 1):
        yield (number, *parsed(piece, number))
    if pieces[-1] != b"":
        raise Fault(11, len(pieces))


# ---------------------------------------------------------------- the model: texts

class Tables:
    def __init__(self, looks, starts, firsts, targets):
        self.looks, self.starts, self.firsts, self.targets = [7] * looks, [7] * starts, [7] * firsts, [7] * targets

    def said(self):
        parts = [("looks", self.looks), ("starts", self.starts), ("firsts", self.firsts), ("targets", self.targets)]
        return " ".join(" ".join([name] + [str(x) for x in table[:16]]) for name, table in parts)


def read_map(text, tables):
    """The states and moves that a map text writes into the tables."""
    size, states, target_lines, number = None, 0, [], 0
    for number, [letter, *_], numbers in lines_of(text):
        stands = {"M": size is None, "S": size is not None, "T": states > 0, "R": False}[letter]
        if not stands:
            raise Fault(13, number)
        if letter == "M":
            size = numbers[0]
            if len(tables.looks) < size or len(tables.starts) < size or len(tables.firsts) < size + 1:
                raise Fault(14, number)
        elif letter == "S":
            if states >= min(len(tables.looks), len(tables.starts), len(tables.firsts)):
                raise Fault(14, number)
            tables.looks[states], tables.starts[states] = numbers
            tables.firsts[states] = len(target_lines)
            states += 1
        else:
            if len(target_lines) >= len(tables.targets):
                raise Fault(14, number)
            tables.targets[len(target_lines)] = numbers[0]
            target_lines.append(number)
    if size is None or states != size:
        raise Fault(15, number + 1)
    tables.firsts[states] = len(target_lines)
    if states > 4096:
        raise Fault(1, 1)
    for target, number in zip(tables.targets, target_lines):
        if target >= states:
            raise Fault(4, number)
    return states, len(target_lines)


def read_rules(text, states, words, rows):
    """Adds the rows of a rule text to rows, those of a session on a map of so many states with a sheet of so many words."""
    for number, [letter, *kind], numbers in lines_of(text):
        if letter != "R":
            raise Fault(13, number)
        if words < states:
            raise Fault(17, number)
        if len(rows) >= 64:
            raise Fault(18, number)
        if kind[0] != "sign" and any(named >= len(rows) for named in numbers):
            raise Fault(19, number)
        rows.append((kind[0], *numbers))


# ---------------------------------------------------------------- the model: rules on a map

def shortest(s, moves, a, b):
    """The length of a shortest run from s to a state of b, each of whose states is in a or b; None where there is none."""
    if s not in a and s not in b:
        return None
    length, queue = {s: 0}, collections.deque([s])
    while queue:
        here = queue.popleft()
        if here in b:
            return length[here]
        for there in moves[here]:
            if (there in a or there in b) and there not in length:
                length[there] = length[here] + 1
                queue.append(there)
    return None


def report(looks, starts, moves, rows):
    """A line for each row: whether every start satisfies it, and its reach."""
    states, satisfying, said = range(len(looks)), [], ""
    for r, (kind, *operands) in enumerate(rows):
        reach = 0
        if kind == "true":
            which = set(states)
        elif kind == "sign":
            which = {s for s in states if operands[0] < 32 and looks[s] >> operands[0] & 1}
        elif kind == "not":
            which = {s for s in states if s not in satisfying[operands[0]]}
        elif kind == "or":
            which = satisfying[operands[0]] | satisfying[operands[1]]
        elif kind == "next":
            which = {s for s in states if any(t in satisfying[operands[0]] for t in moves[s])}
        else:
            lengths = {s: shortest(s, moves, satisfying[operands[0]], satisfying[operands[1]]) for s in states}
            which = {s for s in states if lengths[s] is not None}
            reach = max([lengths[s] for s in which], default=0)
        satisfying.append(which)
        yes = all(s in which for s in states if starts[s] == 1)
        said += f"V\t{r}\t{'yes' if yes else 'no'}\t{reach}\n"
    return said


def check(map_text, rule_text):
    """What the program writes."""
    tables = Tables(1024, 1024, 1025, 8192)
    try:
        states, _ = read_map(map_text, tables)
    except Fault as f:
        return f"F\tM\t{f.number}\t{f.line}\t{f.field}\n"
    if states == 0:
        return "F\t-\t16\t0\t0\n"
    rows = []
    try:
        read_rules(rule_text, states, 1024, rows)
    except Fault as f:
        return f"F\tR\t{f.number}\t{f.line}\t{f.field}\n"
    moves = [tables.targets[tables.firsts[s]:tables.firsts[s + 1]] for s in range(states)]
    return report(tables.looks[:states], tables.starts[:states], moves, rows)


# ---------------------------------------------------------------- the model: cases

def decoded(word):
    out = b""
    for segment in word.split(","):
        count, star, body = segment.partition("*")
        if not star:
            count, body = 1, segment
        parts = body.replace("|", "\t").replace("/", "\n").split("~")
        out += int(count) * (parts[0].encode() + b"".join(bytes.fromhex(p[:2]) + p[2:].encode() for p in parts[1:]))
    return out


def coded(text):
    return text.replace("\t", "|").replace("\n", "/")


def gives_check(map_word, rule_word):
    return coded(check(decoded(map_word), decoded(rule_word)))


def gives_map(looks, starts, firsts, targets, word):
    tables = Tables(looks, starts, firsts, targets)
    try:
        states, moves = read_map(decoded(word), tables)
        answer = f"ok {states} {moves}"
    except Fault as f:
        answer = f"fault {f.number} {f.line} {f.field}"
    return f"{answer} {tables.said()}"


def gives_rules(words, word):
    rows = []
    try:
        read_rules(decoded(word), 2, words, rows)
        answer = "ok"
    except Fault as f:
        answer = f"fault {f.number} {f.line} {f.field}"
    return f"{answer} rows:" + "".join("|".join(["R", *map(str, row)]) + "/" for row in rows)


def gives_save(word):
    text = decoded(word)
    try:
        read_map(text, Tables(4096, 4096, 4097, 15000))
    except Fault as f:
        return f"fault {f.number} {f.line} {f.field}"
    assert len(text) <= 4096
    return f"{coded(text.decode())} 37 {'-' * (len(text) - 1)}"


GIVES = {"check": gives_check, "map": gives_map, "rules": gives_rules, "save": gives_save}
CASES = {}


def case(kind, *arguments):
    line = " ".join([kind, *[str(argument) or "0*" for argument in arguments]])
    if line not in CASES:
        CASES[line] = GIVES[kind](*[argument if argument != "" else "0*" for argument in arguments])


def small(word):
    case("map", 4, 4, 5, 4, word)


def rule(word):
    case("rules", 2, word)


# ---------------------------------------------------------------- the cases

ONE, TWO = "M|1/S|0|1/T|0/", "M|2/S|1|1/T|1/S|2|0/T|0/"

# each place of a number: what stands before its line, its line with a hole, and who reads it
HOLES = [
    (small, "", "M|{}/"),
    (small, "M|2/", "S|{}|1/"),
    (small, "M|2/S|3|0/", "S|3|{}/"),
    (small, "M|1/S|0|1/", "T|{}/"),
    (rule, "", "R|sign|{}/"),
    (rule, "R|true/", "R|not|{}/"),
    (rule, "R|true/", "R|or|{}|0/"),
    (rule, "R|true/", "R|or|0|{}/"),
    (rule, "R|true/", "R|next|{}/"),
    (rule, "R|true/", "R|until|{}|0/"),
    (rule, "R|true/", "R|until|0|{}/"),
]

NUMERALS = [
    "", "00", "01", "+1", "-1", "~201", "1~20", "a", "1a", "a1", "0x1", "1~0d", "1~00", "~c2~b2", "~ff", "4294967295", "4294967296",
    "4294967297", "18446744073709551616", "99999999999999999999", "65535", "65536", "65537", "0", "1", "2", "10",
]

FORMS = [
    "", "~0d", "~00", "~20", "~ff", "|", "||", "~ef~bb~bfM|1",
    "M", "M|", "M|1|", "M|1|0", "M~201", "M1", "MM|1", "m|1", "~20M|1", "|M|1", "M||1", "M|1~20",
    "S", "S|", "S|0", "S|0|", "S||0", "S||", "S|0|1|", "S|0|1|0", "S~200~201", "s|0|1", "SS|0|1",
    "T", "T|", "T|0|", "T|0|0", "t|0", "TT|0",
    "R", "R|", "R||", "r|true", "RR|true", "R|true|", "R|true|0", "R|true|0|0", "R~20true",
    "R|sign", "R|sign|", "R|sign|0|", "R|sign|0|0", "R|not", "R|not|", "R|not|0|", "R|not|0|0",
    "R|or", "R|or|", "R|or|0", "R|or|0|", "R|or||0", "R|or||", "R|or|0|0|", "R|or|0|0|0", "R|next", "R|next|", "R|next|0|",
    "R|next|0|0", "R|until", "R|until|0", "R|until|0|", "R|until||0", "R|until|0|0|", "R|until|0|0|0",
    "R|True", "R|TRUE", "R|tru", "R|truee", "R|true~20", "R|~20true", "R|true~0d", "R|true~00", "R|and|0|0", "R|Not|0", "R|untill|0|0",
    "R|always|0", "R|0", "R|0|true", "R|sign~200", "R|or|x|", "R|always|x",
]


def lines_of_every_shape():
    for read, before, line in HOLES:
        for numeral in NUMERALS:
            read(before + line.format(numeral))
    for form in FORMS:
        small("M|2/S|0|1/" + form + "/")
        rule("R|true/" + form + "/")
    for form in ("M|1", "S|0|1", "T|0", "R|true", "~20", "M"):
        small("M|1/S|0|1/" + form)
        small(form)
        rule(form)
        rule("R|true/" + form)
    for letter in [*"ABCDEFGHIJKLNOPQUVWXYZ01", "~20", "~09", "~2a", "~7e", "~2f", "~ff"]:
        small(letter + "|1/")
    for read, text in ((small, ONE), (rule, "R|true/R|not|0/")):
        for text_with_one_more in ("/" + text, text + "/", text.replace("/", "//", 1), text.replace("/", "~0d/"), text + "~00"):
            read(text_with_one_more)
    case("check", ONE, "R|true/R|until|0|x/")
    case("check", "M|1/S|0|2/", "R|true/")


def letters_in_every_order():
    lines = {"M": "M|1/", "S": "S|3|1/", "T": "T|0/", "R": "R|true/"}
    for count in range(4):
        for letters in itertools.product("MSTR", repeat=count):
            text = "".join(lines[letter] for letter in letters)
            small(text)
            rule(text)
    for text in ("M|2/S|3|1/T|0/S|4|0/", "M|2/S|3|1/T|1/T|0/S|4|0/T|1/T|1/", "M|1/S|3|1/T|0/M|1/", "M|1/S|3|1/T|0/R|true/", "M|0/T|0/"):
        small(text)


def which_fault_comes_first():
    # within a line: the form, the leftmost number, the place, the space
    for text in (
        "M|x|y/", "X|00/", "T|00/", "S|0|2/", "S|x|y/", "M|1/S|x|y/", "M|1/S|x|2/", "M|1/S|0|x/", "R|sign|65536/", "R|or|x|y/", "R|not/",
        "M|1/M|01/", "M|1/M|9/", "M|1/M/", "M|1/T|00/", "T|0/", "S|0|1/", "M|9/", "M|9/S|0|x/", "M|4294967295/",
    ):
        small(text)
        case("map", 0, 0, 0, 0, text)
    for text in ("M|x/", "M|1|1/", "M|1/", "S|0/", "S|x|1/", "T|0/", "T|x/", "R|or|x|y/", "R|until|0|x/", "R|until|x/", "R|not|5/", "R|sign|65536/"):
        for words in (2, 1):
            case("rules", words, text)
    # the earlier line
    for text in (
        "M|1/S|0|1/T|0/T|x/X/", "M|1/S|0|1/T|0/X/T|x/", "M|9/X/", "M|1/M|1/X/", "M|1/S|0|2/T|0", "M|1/S|0|1/,5*T|0/,X/", "X/M|9/",
        "M|1/S|0|1/T|9/T|x/", "M|2/S|0|1/T|9/", "M|1/S|0|1/T|9/S|0|1/", "M|1/S|0|1/T|0/T|9/T|8/", "M|2/S|0|1/T|1/S|0|1/T|2/T|9/",
        "M|2/S|0|1/T|1/S|0|1/T|0/T|4294967295/", "M|3/S|0|1/T|3/S|0|0/S|0|0/", "M|0/S|0|1/", "M|0/S|0|1/T|0/",
    ):
        small(text)
    for text in ("R|true/R|not|1/R|x/", "R|true/R|x/R|not|1/", "R|true/M|1/R|x/", "R|true/R|not|x/R|not|9/", "R|not|0/", "R|or|0|0/", "R|true/R|or|0|1/",
                 "R|true/R|or|1|0/", "R|true/R|until|1|0/", "R|true/R|until|0|1/", "R|true/R|next|1/", "R|true/R|next|4294967295/", "R|true/R|not|0/R|not|1/R|not|3/"):
        rule(text)
    # the sheet, the number of rows, the rows that are named
    for words in (0, 1, 2, 3, 100):
        case("rules", words, "")
        case("rules", words, "R|true/R|not|0/")
        case("rules", words, "R|not|0/")
    for last in ("R|true/", "R|not|63/", "R|not|64/", "R|not|99/"):
        for before in (62, 63, 64):
            rule(f"{before}*R|true/,{last}")
            case("rules", 1, f"{before}*R|true/,{last}")
    case("check", ONE, "64*R|true/")
    case("check", ONE, "65*R|true/")
    # the text of the map, the map without states, the rule text
    for text in ("", "M|0/", "M|1/", "X/", ONE, ONE + "T|1/", "M|1025/", "60001*X"):
        for rules in ("", "R|true/", "R|not|0/", "X/", "M|1/", "60001*X"):
            case("check", text, rules)


def tables_of_every_length():
    text = "M|2/S|5|1/T|1/T|0/S|6|0/T|0/"
    for looks, starts, firsts, targets in itertools.product((1, 2, 3), (1, 2, 3), (2, 3, 4), (2, 3, 4)):
        case("map", looks, starts, firsts, targets, text)
    for lengths in itertools.product((0, 16), repeat=4):
        case("map", *lengths, text)
        case("map", *lengths, "M|0/")
    for n in range(5):
        case("map", n, 4, 5, 4, "M|1/,3*S|3|1/")
        case("map", 4, n, 5, 4, "M|1/,3*S|3|1/")
        case("map", 4, 4, n, 4, "M|1/,3*S|3|1/")
        case("map", 4, 4, 5, n, "M|1/S|3|1/,3*T|0/")
        case("map", 0, 0, n, 0, "M|0/")
    case("map", 1, 1, 3, 1, "M|1/,2*S|3|1/")
    case("map", 16, 16, 17, 16, "M|16/,15*S|1|0/,S|9|1/,16*T|15/")
    case("map", 3, 3, 4, 2, "M|3/S|1|1/T|2/S|2|0/S|4|1/T|0/")


def texts_at_each_bound():
    states = "M|1024/,1024*S|0|1/"
    for text in (states, "M|1025/,1025*S|0|1/", "M|1024/,1025*S|0|1/", "M|1024/,1023*S|0|1/", "M|1023/,1024*S|0|1/", "M|1024/", "M|1025/",
                 states + ",8192*T|0/", states + ",8193*T|0/", states + ",8191*T|0/,T|1024/", states + ",8191*T|0/,T|1023/", "M|1/S|0|1/,8192*T|0/",
                 "M|1/S|0|1/,8193*T|0/", "M|1/S|0|1/,8191*T|0/,T|1/T|0/", "M|4294967295/", "M|4294967296/"):
        case("check", text, "R|true/R|sign|0/R|next|0/R|next|2/R|until|0|1/")
    # 60,000 bytes, and one more
    for look in ("0", "10"):
        text = f"M|1000/S|{look}|1/,999*S|1000000|0/,7999*T|999/,T|10/"
        assert len(decoded(text)) == 60000 + len(look) - 1
        case("check", text, "R|sign|0/R|sign|1/")
        case("map", 1000, 1000, 1001, 8000, text)
        case("map", 0, 0, 0, 0, text)
    for text in ("59999*R,/", "60000*R,/", "60000*R", "60001*R", "60000*/", "60001*/", "30000*R|", "7500*R|true/|", "64*R|true/,59552*X", "64*R|true/,59553*X"):
        rule(text)
        case("map", 4, 4, 5, 4, text)
        case("check", text, text)
    # 4,096 looks, and one more
    for n in (4095, 4096, 4097, 5000):
        for rest in ("", ",T|0/", f",T|0/T|{n}/"):
            case("map", 5000, 5000, 5001, 2, f"M|{n}/,{n}*S|1|0/{rest}")
    case("map", 4097, 4097, 4097, 0, "M|4097/,4097*S|1|0/")
    case("map", 4096, 4096, 4097, 0, "M|4097/,4097*S|1|0/")
    # numbers
    for text in ("M|1/S|4294967295|1/T|0/", "M|1/S|2147483648|1/T|0/"):
        small(text)
        case("check", text, "R|sign|0/R|sign|31/R|sign|32/R|sign|65535/R|not|3/")
        case("save", text)
    # the longest reach
    chain = "M|1024/" + "".join(f"S|{int(s == 1023)}|{int(s == 0)}/" + (f"T|{s + 1}/" if s < 1023 else "") for s in range(1024))
    case("check", chain, "R|true/R|sign|0/R|until|0|1/R|not|1/R|until|3|1/R|next|2/R|until|1|3/")


def random_map(dice, most):
    states = dice.randint(0 if most > 1 and dice.random() < 0.05 else 1, most)
    text = f"M|{states}/"
    for _ in range(states):
        text += f"S|{dice.choice([0, 1, 2, 3, 5, 6, 7])}|{int(dice.random() < 0.4)}/"
        for _ in range(dice.choice([0, 1, 1, 1, 2, 3])):
            text += f"T|{dice.randrange(states)}/"
    return text


def random_rules(dice, count):
    text = "R|sign|0/R|sign|1/"
    for r in range(2, count):
        kind = dice.choice(["true", "sign", "not", "or", "next", "until", "until", "until"])
        operands = {"true": [], "sign": [dice.randrange(4)], "not": [dice.randrange(r)], "next": [dice.randrange(r)]}
        both = [dice.randrange(r), dice.randrange(r)]
        text += "|".join(["R", kind, *map(str, operands.get(kind, both))]) + "/"
    return text


def maps_by_chance():
    dice = random.Random(20)
    for most in (1, 2, 3, 4, 5, 6, 7, 8, 9, 12, 16, 24):
        for _ in range(6):
            case("check", random_map(dice, most), random_rules(dice, dice.randint(3, 14)))


def maps_written_again():
    dice = random.Random(37)
    for text in ("M|0/", ONE, TWO, "M|3/,3*S|0|0/", "M|1/S|7|1/T|0/T|0/T|0/", "M|2/S|7|1/T|2/", "M|2/S|7|1/", "M|x/", "", "M|1/S|0|1/T|0",
                 "M|64/,64*S|123456789|1/T|63/T|0/", "M|4096/", "M|4097/"):
        case("save", text)
    for most in (3, 5, 8, 12):
        for _ in range(3):
            case("save", random_map(dice, most))


def main():
    lines_of_every_shape()
    letters_in_every_order()
    which_fault_comes_first()
    tables_of_every_length()
    texts_at_each_bound()
    maps_by_chance()
    maps_written_again()
    here = pathlib.Path(__file__).parent
    (here / "stdin").write_text("".join(line + "\n" for line in CASES))
    (here / "stdout").write_text("".join(gives + "\n" for gives in CASES.values()))


if __name__ == "__main__":
    main()
