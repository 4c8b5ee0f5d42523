#!/usr/bin/env python3
"""cases.py FILE..: writes host/tests/worked/cases.txt from the worked cases of document 02 that ask for a network's refusal, for compile's
answer or for the check's. host/tests/worked.rs and tests/depot/run replay them.

A case is a line `case NAME CALL`, then a line for each input and for each field of the answer that the case names: words and model words
in hexadecimal, numbers by their 64 bits in hexadecimal, the rest in decimal. A list that is not written has no line. A lent list of more
than 4,096 is lent as one of 4,096.
"""
import json
import os
import sys

MOST = 4096
CALLS = ("network", "compile", "check")
# the answer's fields that are lists of patterns, as the worked cases write them, and those in decimal
PATTERNS = ("words", "constants", "column_lower", "column_upper", "start", "row_lower", "row_upper", "constant")
PATTERNS += ("objective", "residuals", "outputs")
DECIMALS = ("number", "place", "counts")


def lines(case):
    inputs, expect = case["inputs"], case["expect"]
    yield f"case {case['id']} {case['call']}"
    yield f"given_words {inputs['words']}"
    yield f"given_numbers {inputs['numbers']}"
    if case["call"] == "compile":
        yield "given_lengths " + " ".join(str(min(length, MOST)) for length in inputs["lengths"])
    if case["call"] == "check":
        for field in ("point", "solver", "tolerances"):
            yield f"given_{field} {inputs[field]}"
        yield f"given_output_length {min(inputs['output_length'], MOST)}"
    for field, value in expect.items():
        if value is None:
            continue
        if field in PATTERNS:
            yield f"{field} {value}"
        else:
            assert field in DECIMALS, field
            yield f"{field} " + (" ".join(map(str, value)) if isinstance(value, list) else str(value))


def main():
    text = []
    for path in sys.argv[1:]:
        with open(path, encoding="utf-8") as f:
            cases = [case for case in json.load(f) if case["call"] in CALLS]
        text += [line.rstrip() for case in cases for line in lines(case)]
        print(f"{os.path.basename(path)}: {len(cases)} cases")
    to = os.path.join(os.path.dirname(os.path.abspath(__file__)), "../../host/tests/worked/cases.txt")
    with open(to, "w", encoding="utf-8") as f:
        f.write("\n".join(text) + "\n")


main()
