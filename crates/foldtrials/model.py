#!/usr/bin/env python3
"""Writes the cases of the fold trials (stdin) and what each should give (stdout), from the rules of folds.

A map here is a list of states, each (signs, start, targets); a fold is a list of classes. The check is written as the eight
questions read, with no thought of speed, and shares nothing with the checker. Run it in this folder; it is deterministic.
"""
import random

random.seed(20261118)
cases = []


# Maps. `look` is what is compared: two looks are the same when their keys are equal.

def listed(states):
    """states: (look, start, targets). What is written in a case."""
    return ";".join(",".join(str(n) for n in (look, start, *targets)) for look, start, targets in states)


def plain(states):
    return [(look, bool(start), set(targets)) for look, start, targets in states]


def levels(states):
    return [((look % 256) // 16, bool(start), set(targets)) for look, start, targets in states]


def switch_text(panel, commands):
    return ";".join(",".join(map(str, x)) for x in (panel, *commands))


def switch_states(panel, commands):
    bits, visible, on, off = panel
    states = []
    for s in range(2 ** bits):
        targets = [(s & ~c[3]) | c[2] for c in commands if s & c[0] == c[0] and s & c[1] == 0]
        states.append((s & visible, int(s & on == on and s & off == 0), targets))
    return states


def joint_states(a, b):
    n = len(b)
    return [((p[0], q[0]), p[1] and q[1], {x * n + y for x in p[2] for y in q[2]}) for p in a for q in b]


# The check: the number, and the state at fault; None where all eight questions have a yes.

def verdict(full, folded, classes):
    if len(classes) != len(full):
        return (27,)
    for s in range(len(full)):
        if classes[s] >= len(folded):
            return (28, s)
    for s in range(len(full)):
        if full[s][0] != folded[classes[s]][0]:
            return (29, s)
    for s in range(len(full)):
        if any(classes[t] not in folded[classes[s]][2] for t in full[s][2]):
            return (30, s)
    for s in range(len(full)):
        if any(d not in {classes[t] for t in full[s][2]} for d in folded[classes[s]][2]):
            return (31, s)
    for s in range(len(full)):
        if full[s][1] and not folded[classes[s]][1]:
            return (32, s)
    for d in range(len(folded)):
        if folded[d][1] and not any(full[s][1] and classes[s] == d for s in range(len(full))):
            return (33, d)
    for d in range(len(folded)):
        if d not in classes:
            return (34, d)
    return None


def case(kind, full_text, folded_text, full, folded, classes):
    v = verdict(full, folded, classes)
    said = "accepted" if v is None else " ".join(map(str, v))
    cases.append((f"{kind} {full_text} {folded_text} {','.join(map(str, classes))}", said))


# Folds that fit: a folded map, blown up. Each folded state becomes some full ones; each of them moves to at least one full state
# of each class that its class moves to.

def some_map(n, looks):
    return [(random.choice(looks), random.randint(0, 1), [t for t in range(n) if random.random() < 0.4]) for _ in range(n)]


def blown_up(folded, most):
    classes = [d for d in range(len(folded)) for _ in range(random.randint(1, most))]
    random.shuffle(classes)
    members = {d: [s for s, c in enumerate(classes) if c == d] for d in range(len(folded))}
    full = []
    for s, c in enumerate(classes):
        look, start, targets = folded[c]
        own = []
        for d in targets:
            own += random.sample(members[d], random.randint(1, len(members[d])))
        random.shuffle(own)
        full.append((look, 0, own))
    for d in range(len(folded)):
        if folded[d][1]:
            for s in random.sample(members[d], random.randint(1, len(members[d]))):
                full[s] = (full[s][0], 1, full[s][2])
    return full, classes


def damaged(full, folded, classes):
    """The same with one thing changed, each thing in turn."""
    f, g, c = ([(l, s, list(t)) for l, s, t in full], [(l, s, list(t)) for l, s, t in folded], list(classes))
    what = random.randrange(10)
    s = random.randrange(len(f))
    d = random.randrange(len(g))
    if what == 0:
        c.append(0)
    elif what == 1:
        c.pop()
    elif what == 2:
        c[s] = len(g)
    elif what == 3:
        c[s] = random.randrange(len(g))
    elif what == 4:
        f[s] = (f[s][0] ^ 1, f[s][1], f[s][2])
    elif what == 5:
        f[s][2].append(random.randrange(len(f)))
    elif what == 6 and f[s][2]:
        f[s][2].pop(random.randrange(len(f[s][2])))
    elif what == 7:
        f[s] = (f[s][0], 1 - f[s][1], f[s][2])
    elif what == 8:
        g[d] = (g[d][0], 1 - g[d][1], g[d][2])
    else:
        g[d][2].append(random.randrange(len(g)))
    return f, g, c


def ll(full, folded, classes):
    case("ll", listed(full), listed(folded), plain(full), plain(folded), classes)


# The worked example, and the two ways in which it is no fold.
four = [(0, 1, [1]), (2, 0, [2, 3]), (3, 0, [0]), (1, 0, [])]
five = [(0, 1, [1, 4]), (2, 0, [2, 3]), (3, 0, [0]), (1, 0, []), (2, 0, [2, 3])]
ll(five, four, [0, 1, 2, 3, 1])
ll(five[:4] + [(2, 0, [2])], four, [0, 1, 2, 3, 1])
ll(five[:4] + [(2, 1, [2, 3])], four, [0, 1, 2, 3, 1])
# a map folds onto itself, and each of eight questions alone gets a no
ll(four, four, [0, 1, 2, 3])
ll(four, four, [0, 1, 2])
ll(four, four, [0, 1, 2, 4])
ll(four, four, [0, 1, 2, 2])
ll(four + [(1, 0, [0])], four, [0, 1, 2, 3, 3])
ll([(0, 1, [])] + four[1:], four, [0, 1, 2, 3])
ll(four[:3] + [(1, 1, [])], four, [0, 1, 2, 3])
ll([(0, 0, [1])] + four[1:], four, [0, 1, 2, 3])
ll([(0, 1, [1]), (0, 0, [1])], [(0, 1, [1]), (0, 0, [1]), (0, 0, [])], [0, 1])
ll([], [], [])
ll([(0, 0, [])], [], [0])
ll([], [(0, 0, [])], [])

# listed maps with switch looks, that fit and that are damaged
for _ in range(90):
    folded = some_map(random.randint(1, 4), [0, 1, 2])
    full, classes = blown_up(folded, 3)
    ll(full, folded, classes)
    for _ in range(2):
        ll(*damaged(full, folded, classes))

# level looks: levels in one step of 16 are the same, whatever the cue
for _ in range(25):
    folded = some_map(random.randint(1, 3), [5, 20, 47, 48])
    full, classes = blown_up(folded, 2)
    near = [(256 * random.randint(0, 9) + (look // 16) * 16 + random.randint(0, 15), start, targets) for look, start, targets in full]
    case("vv", listed(near), listed(folded), levels(near), levels(folded), classes)
    f, g, c = damaged(near, folded, classes)
    f = [(look + random.choice([0, 0, 16]), start, targets) for look, start, targets in f]
    case("vv", listed(f), listed(g), levels(f), levels(g), c)


# a map by its coarsest fold: states that no sequence of moves and looks tells apart have one class
def coarsest(states):
    n = len(states)
    cls = [(look, start) for look, start, _ in plain(states)]
    while True:
        new = [(cls[s], frozenset(cls[t] for t in states[s][2])) for s in range(n)]
        if len(set(new)) == len(set(cls)):
            break
        cls = new
    order = []
    for c in cls:
        if c not in order:
            order.append(c)
    classes = [order.index(c) for c in cls]
    folded = []
    for d in range(len(order)):
        s = classes.index(d)
        folded.append((states[s][0], states[s][1], sorted({classes[t] for t in states[s][2]})))
    return folded, classes


def some_switches(bits):
    full_mask = 2 ** bits - 1
    panel = (bits, random.randint(0, full_mask), random.choice([0, 0, 1]), random.choice([0, 2 & full_mask]))
    commands = []
    for _ in range(random.randint(0, 3)):
        on = random.randint(0, full_mask)
        commands.append((random.randint(0, full_mask) & random.randint(0, full_mask), random.randint(0, full_mask) & random.randint(0, full_mask), on, random.randint(0, full_mask) & ~on))
    return panel, commands


# switch maps onto listed maps, and onto themselves
for _ in range(40):
    panel, commands = some_switches(random.randint(1, 3))
    states = switch_states(panel, commands)
    folded, classes = coarsest(states)
    case("sl", switch_text(panel, commands), listed(folded), plain(states), plain(folded), classes)
    _, g, c = damaged(states, folded, classes)
    case("sl", switch_text(panel, commands), listed(g), plain(states), plain(g), c)
for _ in range(12):
    panel, commands = some_switches(2)
    states = switch_states(panel, commands)
    same = list(range(len(states)))
    case("ss", switch_text(panel, commands), switch_text(panel, commands), plain(states), plain(states), same)
    other = random.sample(same, len(same))
    case("ss", switch_text(panel, commands), switch_text(panel, commands), plain(states), plain(states), other)

# joint maps: two folds side by side are a fold
for _ in range(30):
    p, q = some_map(random.randint(1, 2), [0, 1]), some_map(random.randint(1, 2), [0, 1])
    a, f = blown_up(p, 2)
    b, g = blown_up(q, 2)
    classes = [x * len(q) + y for x in f for y in g]
    full, folded = joint_states(plain(a), plain(b)), joint_states(plain(p), plain(q))
    case("jj", listed(a) + "+" + listed(b), listed(p) + "+" + listed(q), full, folded, classes)
    spoiled = list(classes)
    spoiled[random.randrange(len(spoiled))] = random.randrange(len(folded) + 1)
    case("jj", listed(a) + "+" + listed(b), listed(p) + "+" + listed(q), full, folded, spoiled)

with open("stdin", "w") as f:
    f.writelines(line + "\n" for line, _ in cases)
with open("stdout", "w") as f:
    f.writelines(said + "\n" for _, said in cases)
if __name__ == "__main__":
    from collections import Counter
    print(len(cases), "cases:", dict(sorted(Counter(said.split()[0] for _, said in cases).items())))
