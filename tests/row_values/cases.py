#!/usr/bin/env python3
"""cases.py FILE..: writes crates/value_cases/data/cases from cases of row values: the worked cases of request (a), and those that the
program store_values of tests/differential chooses, in the same form (tests/differential/run SOURCE store_values FILE does both).

A record of the file, in 32-bit little-endian words, doubles by their bits, low half first:
  0 the record's length, 1 columns, 2 and 3 the lengths of the lists lent for shared values and row values, 4 number, 5 place,
  6 and 7 the objective's value, 8 what the case says: 1 the objective, 2 the shared values, 4 the row values, added up,
  9 and 10 the counts of shared parts and of rows, 0 where 17 or 2 refuses the file, 11 to 15 where in the record five lists stand:
  words, constants, point, shared values, row values.
A list is its length, the length of its head, the length of its middle, then the head, what the middle is made of, the rest. The middle
of a list of words is two words in turn, of which the first counts up; that of a list of doubles is one double again and again. What
makes a middle of length 0 is left out. After a refusal both lists of values are empty.
"""
import json
import os
import struct
import sys

# The most words, constants, numbers of the point, shared values and row values of a case.
ROOM = [8768, 64, 64, 4416, 4416]
# The most bytes of the file.
DATA = 65536
# A middle is worth its while from here on.
LEAST = 64


def numbers(text):
    return [int(x, 16) for x in text.split()]


def middle(items, period):
    """Start and length of the longest middle."""
    best = (len(items), 0)
    start = 0
    while start + period <= len(items):
        end = start + period
        while end < len(items) and items[end] == items[end - period] + (period == 2 and (end - start) % 2 == 0):
            end += 1
        length = (end - start) // period * period
        if length >= max(LEAST, best[1] + 1):
            best = (start, length)
        start = max(start + 1, end - period)
    return best


def encoded(items, period):
    head, length = middle(items, period)
    stored = items[:head] + items[head:head + period] * (length > 0) + items[head + length:]
    if period == 1:
        stored = [half for bits in stored for half in (bits % 2**32, bits // 2**32)]
    assert decoded([len(items), head, length] + stored, period) == items
    return [len(items), head, length] + stored


def decoded(cells, period):
    """As the program reads it."""
    n, head, length = cells[:3]
    out = []
    for k in range(n):
        turn = 0
        if k < head:
            i = k
        elif k - head < length:
            i, turn = (head, 0) if period == 1 else (head + (k - head) % 2, (k - head) // 2 * ((k - head) % 2 == 0))
        else:
            i = k - length + period
        out.append(cells[3 + i] + turn if period == 2 else cells[3 + 2 * i] + cells[4 + 2 * i] * 2**32)
    return out


def record(case):
    inputs, expect = case["inputs"], case["expect"]
    number, place = expect["number"], expect["place"]
    words = numbers(inputs["words"])
    # In a file that passes reading, kinds 10 and 11 begin parts and stand nowhere else.
    refused = number in (2, 17)
    counts = [0 if refused else sum(w >> 28 == kind for w in words) for kind in (10, 11)]
    said, lists = 0, []
    for bit, name, count in ((2, "shared", counts[0]), (4, "rows", counts[1])):
        values = expect.get(name)
        if number:
            assert values is None
            values = ""
        if values is None and count == 0:
            values = ""
        said += bit * (values is not None)
        lists.append(numbers(values or ""))
        assert values is None or number or len(lists[-1]) == count
    objective = 0
    if "objective" in expect:
        said += 1
        objective = int(expect["objective"], 16)
    lent = [min(inputs["shared_length"], ROOM[3]), min(inputs["row_length"], ROOM[4])]
    lists = [words, numbers(inputs["constants"]), numbers(inputs["point"])] + lists
    assert all(len(items) <= room for items, room in zip(lists, ROOM))
    cells = [0, inputs["columns"], *lent, number, place, objective % 2**32, objective // 2**32, said, *counts] + [0] * 5
    for i, items in enumerate(lists):
        cells[11 + i] = len(cells)
        cells += encoded(items, 2 if i == 0 else 1)
    cells[0] = len(cells)
    return cells


cases = [case for path in sys.argv[1:] for case in json.load(open(path)) if case["call"] == "row_values"]
cells = [cell for case in cases for cell in record(case)]
data = struct.pack(f"<{len(cells)}I", *cells)
assert cases and len(data) <= DATA, len(data)
here = os.path.dirname(os.path.abspath(__file__))
with open(os.path.join(here, "..", "..", "crates", "value_cases", "data", "cases"), "wb") as f:
    f.write(data)
answers = sorted({case["expect"]["number"] for case in cases})
said = ", ".join(f"{sum(case['expect']['number'] == number for case in cases)} with {number}" for number in answers)
print(f"{len(cases)} cases ({said}), {len(data)} bytes")
