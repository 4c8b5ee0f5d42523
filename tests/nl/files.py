#!/usr/bin/env python3
"""Writes crates/nl_files/data/files: model files with the answer that document 01 gives of each.

The answers come from a reading of document 01 that goes word by word with a list of open operands: of each word it asks whether it may
stand after the words before it. It shares nothing with the port, which reads by recursion.

A record of the file, in 32-bit little-endian words, is either
  0, constants, columns, r, number, place, start, length, n, then the n words: the finder and the row's part; or
  1, answer, na, ca, nb, cb, then na words, ca constants, nb words, cb constants: `same`, a constant by its place in VALUES.
"""
import os
import random
import struct

LOAD = 1 << 28
DEEPEST = 8
OPERANDS = {3: 2, 4: 2, 5: 2, 6: 1, 7: 1, 8: 1}
NAN = float("nan")
VALUES = [0.0, -0.0, 1.0, -1.0, 0.5, NAN, float("inf"), -float("inf")]


def word(kind, load=0):
    return kind * LOAD + load


def answer(words, constants, columns, r):
    """Number, place, start and length, by document 01."""
    shared = rows = used = 0
    section = "shared"  # shared, rows, objective, end, over
    open_operands = []  # how many operands each open operator still wants
    inside = False  # an expression is expected or under way
    starts, ends = [], []
    for at, w in enumerate(words):
        kind, load = divmod(w, LOAD)
        wrong = (17, at, 0, 0)
        if inside:
            if len(open_operands) + 1 > DEEPEST:
                return wrong  # a word 9 deep
            named = shared - 1 if section == "shared" else shared
            if kind == 0:
                if load != used or used >= constants:
                    return wrong
                used += 1
                wants = 0
            elif kind == 1:
                if load >= columns:
                    return wrong
                wants = 0
            elif kind == 2:
                if load >= named:
                    return wrong
                wants = 0
            elif kind in OPERANDS:
                if load:
                    return wrong
                wants = OPERANDS[kind]
            elif kind == 9:
                if load < 2:
                    return wrong
                wants = load
            else:
                return wrong
            open_operands.append(wants)
            while open_operands and open_operands[-1] == 0:
                open_operands.pop()
                if open_operands:
                    open_operands[-1] -= 1
            if not open_operands:
                inside = False
                if section == "rows":
                    ends.append(at + 1)
                if section == "objective":
                    section = "end"
        elif kind == 10 and section == "shared" and load == shared:
            shared += 1
            inside = True
        elif kind == 11 and section in ("shared", "rows") and load == rows:
            section = "rows"
            rows += 1
            starts.append(at + 1)
            inside = True
        elif kind == 12 and section in ("shared", "rows") and load == 0:
            section = "objective"
            inside = True
        elif kind == 13 and section == "end" and load == 0 and used == constants:
            section = "over"
        else:
            return wrong
    if section != "over":
        return (17, len(words), 0, 0)
    if r >= rows:
        return (18, rows, 0, 0)
    return (0, 0, starts[r], ends[r] - starts[r])


M = [int(x, 16) for x in """A0000000 60000000 10000001 B0000000 90000003 00000000 50000000 00000001 20000000 10000002 B0000001 90000003
00000002 50000000 00000003 20000000 10000003 B0000002 10000000 C0000000 90000002 50000000 00000004 60000000 10000002 50000000 00000005
10000002 D0000000""".split()]
SHARED, ROW, OBJECTIVE, END = word(10), word(11), word(12), word(13)
SQUARE, COLUMN = word(6), word(1)

files = []  # words, constants, columns, r


def add(words, constants=0, columns=4, *rs):
    for r in rs or (0,):
        files.append((list(words), constants, columns, r))


def nested(levels, operator=(SQUARE,), fill=()):
    """An expression of so many levels."""
    return list(operator) * (levels - 1) + [COLUMN] + list(fill) * (levels - 1)


# Depot M, whole; and its words changed, dropped, doubled, cut short
add(M, 6, 4, 0, 1, 2, 3, 4, 2**32 - 1)
for i, w in enumerate(M):
    for other in ((w + 1) % 2**32, w ^ 0x1000_0000, w ^ 0x8000_0000, END):
        if other != w:
            add(M[:i] + [other] + M[i + 1:], 6, 4, i % 4)
    add(M[:i] + M[i + 1:], 6, 4, 1)
    add(M[:i] + [w, w] + M[i + 1:], 6, 4, 2)
    add(M[:i], 6, 4, 2)
for constants in (0, 5, 7):
    add(M, constants, 4, 2)
for columns in (0, 3, 5):
    add(M, 6, columns, 2)

# depth 8 and 9, in each section, by one operand and by the last of two
for levels in (7, 8, 9, 10):
    add([OBJECTIVE, *nested(levels), END], 0, 1)
    add([ROW, *nested(levels), OBJECTIVE, COLUMN, END], 0, 1)
    add([SHARED, *nested(levels), OBJECTIVE, COLUMN, END], 0, 1)
    add([OBJECTIVE, *nested(levels, (word(3), COLUMN)), END], 0, 1)
    add([OBJECTIVE, *nested(levels, (word(9, 2),), (COLUMN,)), END], 0, 1)
add([OBJECTIVE] + [SQUARE] * 8, 0, 1)
add([OBJECTIVE] + [word(9, LOAD - 1)] * 8 + [COLUMN] * 40, 0, 1)
add([OBJECTIVE] + [word(9, LOAD - 1)] * 7 + [COLUMN] * 50, 0, 1)
add([OBJECTIVE] + [word(9, LOAD - 1)] * 7 + [COLUMN] * 40 + [END], 0, 1)

# sums
for terms in range(5):
    for said in range(5):
        add([OBJECTIVE, word(9, said)] + [COLUMN] * terms + [END], 0, 1)

# constants: left over, missing, out of order, merged
for loads in ((0, 1), (1, 0), (0, 0), (0, 2), (1, 2), (0,), (1,)):
    for constants in (0, 1, 2, 3):
        add([OBJECTIVE, word(9, len(loads)) if len(loads) > 1 else SQUARE] + [word(0, x) for x in loads] + [END], constants, 0)
add([SHARED, word(0, 0), ROW, word(0, 1), OBJECTIVE, word(0, 2), END], 3, 0, 0, 1)
add([SHARED, word(0, 2), ROW, word(0, 1), OBJECTIVE, word(0, 0), END], 3, 0)

# names: lower, itself, later; in rows and objective, any that the file has
for named in (0, 1, 2):
    add([SHARED, COLUMN, word(10, 1), word(2, named), word(10, 2), COLUMN, OBJECTIVE, COLUMN, END], 0, 1)
    add([SHARED, COLUMN, word(10, 1), COLUMN, ROW, word(2, named), OBJECTIVE, COLUMN, END], 0, 1)
    add([SHARED, COLUMN, word(10, 1), COLUMN, OBJECTIVE, word(2, named), END], 0, 1)
add([SHARED, word(2, 0), OBJECTIVE, COLUMN, END], 0, 1)
add([ROW, word(2, 0), OBJECTIVE, COLUMN, END], 0, 1)

# order of parts
add([ROW, COLUMN, word(11, 1), COLUMN, OBJECTIVE, COLUMN, END], 0, 1, 0, 1, 2)
add([word(11, 1), COLUMN, ROW, COLUMN, OBJECTIVE, COLUMN, END], 0, 1)
add([ROW, COLUMN, ROW, COLUMN, OBJECTIVE, COLUMN, END], 0, 1)
add([ROW, COLUMN, word(11, 2), COLUMN, OBJECTIVE, COLUMN, END], 0, 1)
add([word(10, 1), COLUMN, OBJECTIVE, COLUMN, END], 0, 1)
add([ROW, COLUMN, SHARED, COLUMN, OBJECTIVE, COLUMN, END], 0, 1)
add([OBJECTIVE, COLUMN, ROW, COLUMN, END], 0, 1)

# end and objective: words after the end, no objective, two, none of anything, loads
add([OBJECTIVE, COLUMN, END], 0, 1, 0, 1)
add([OBJECTIVE, COLUMN, END, END], 0, 1)
add([OBJECTIVE, COLUMN, END, 0], 0, 1)
add([OBJECTIVE, COLUMN], 0, 1)
add([OBJECTIVE, END], 0, 1)
add([OBJECTIVE], 0, 1)
add([OBJECTIVE], 0, 0)
add([], 0, 0)
add([], 3, 3, 7)
add([END], 0, 1)
add([ROW, COLUMN, END], 0, 1)
add([OBJECTIVE, COLUMN, OBJECTIVE, COLUMN, END], 0, 1)
add([OBJECTIVE, COLUMN, COLUMN, END], 0, 1)
add([word(12, 1), COLUMN, END], 0, 1)
add([OBJECTIVE, COLUMN, word(13, 1)], 0, 1)
add([OBJECTIVE, COLUMN, END], 0, 0)
add([OBJECTIVE, word(0, 0), END], 1, 0, 0)
add([OBJECTIVE, COLUMN, END], 1, 1)
add([COLUMN, END], 0, 1)
for kind in range(16):
    for load in (0, 1, LOAD - 1):
        add([OBJECTIVE, word(kind, load), COLUMN, COLUMN, END], 1, 1)


# models at random, then a word or a count changed
def expression(depth, state):
    kind = dice.choice([0, 1, 1, 2, 3, 4, 5, 6, 7, 8, 9] if depth > 1 else [0, 1, 2])
    if kind == 2 and not state["named"]:
        kind = 1
    if kind == 0:
        state["used"] += 1
        return [word(0, state["used"] - 1)]
    if kind == 1:
        return [word(1, dice.randrange(3))]
    if kind == 2:
        return [word(2, dice.randrange(state["named"]))]
    terms = OPERANDS.get(kind) or dice.randrange(2, 4)
    out = [word(kind, terms if kind == 9 else 0)]
    for _ in range(terms):
        out += expression(depth - 1, state)
    return out


dice = random.Random(1998)
made = 0
while made < 120:
    state = {"used": 0, "named": 0}
    words = []
    parts, rows = dice.randrange(3), dice.randrange(4)
    for i in range(parts):
        state["named"] = i
        words += [word(10, i)] + expression(3, state)
    state["named"] = parts
    for i in range(rows):
        words += [word(11, i)] + expression(3, state)
    words += [OBJECTIVE] + expression(3, state) + [END]
    if len(words) > 40:
        continue
    made += 1
    constants, columns = state["used"], 3
    if made % 3:
        i = dice.randrange(len(words))
        words[i] = dice.choice([words[i] ^ (1 << dice.randrange(32)), word(dice.randrange(16), dice.randrange(4)), dice.choice(words)])
    if made % 10 == 0:
        constants += dice.choice([-1, 1])
    add(words, max(constants, 0), columns, dice.randrange(rows + 1))


def same(wa, ca, wb, cb):
    numbers = len(ca) == len(cb) and all(VALUES[x] == VALUES[y] for x, y in zip(ca, cb))
    return int(wa == wb and numbers)


pairs = [
    (M, [3, 1, 4, 0, 2, 2], M, [3, 1, 4, 0, 2, 2]),
    (M, [3, 1, 4, 0, 2, 2], M, [3, 0, 4, 1, 2, 2]),
    (M, [3, 1, 4, 0, 2, 2], M, [3, 1, 4, 0, 2, 3]),
    (M, [3, 1, 4, 0, 2, 2], M, [3, 1, 4, 0, 2]),
    (M, [3, 1, 4, 0, 2], M, [3, 1, 4, 0, 2, 2]),
    (M, [], M[:-1], []),
    (M[:-1], [], M, []),
    (M, [], M[:-1] + [0], []),
    ([1] + M[1:], [], M, []),
    ([], [], [], []),
    ([], [0], [], []),
    ([], [], [], [0]),
    ([], [], [0], []),
    ([0], [], [], []),
    ([5], [5], [5], [5]),
    ([5], [2, 5], [5], [2, 5]),
] + [([], [x], [], [y]) for x in range(len(VALUES)) for y in range(len(VALUES))]

out = []
for words, constants, columns, r in files:
    number, place, start, length = answer(words, constants, columns, r)
    out += [0, constants, columns, r, number, place, start, length, len(words), *words]
for wa, ca, wb, cb in pairs:
    out += [1, same(wa, ca, wb, cb), len(wa), len(ca), len(wb), len(cb), *wa, *ca, *wb, *cb]
# where document 01 says the answer itself
assert answer(M, 6, 4, 2) == (0, 0, 18, 1) and M[18] == 0x1000_0000
assert answer(M, 6, 4, 3) == (18, 3, 0, 0)
assert answer(M[:-1], 6, 4, 2) == (17, 28, 0, 0)
data = struct.pack(f"<{len(out)}I", *out)
assert len(data) <= 65536 and max(len(f[0]) for f in files) <= 64
here = os.path.dirname(os.path.abspath(__file__))
with open(os.path.join(here, "..", "..", "crates", "nl_files", "data", "files"), "wb") as f:
    f.write(data)
numbers = [answer(*f)[0] for f in files]
print(f"{len(files)} files ({numbers.count(0)} with the row, {numbers.count(17)} wrong, {numbers.count(18)} without it), {len(pairs)} pairs, {len(data)} bytes")
