#!/usr/bin/env python3
"""Writes the rows of limits and divisors around the ends of the ranges of integers, with answers by exact arithmetic.

    boundaries.py > data/boundaries.json
"""
import fractions
import json

LIMITS = [-(2**63), -1, 0, 1, 2**53 - 1, 2**53, 2**53 + 1, 2**63 - 1, 2**63, 2**63 + 1, 2**64 - 1]
DIVISORS = [1, 2, 3, 10, 2**53 + 1, 2**64 - 1]
# Each limit, with a point before its last digit, and with as many digits behind a point as a decimal can have; and some more.
TENTHS = [f"{'-' if limit < 0 else ''}{abs(limit) // 10}.{abs(limit) % 10}" for limit in LIMITS]
SMALLEST = [f"{'-' if limit < 0 else ''}{abs(limit) // 10**18}.{abs(limit) % 10**18:018}" for limit in LIMITS]
DECIMALS = TENTHS + SMALLEST + [
    "1.0", "-3.0", "9007199254740993.0", "-922337203685477580.0", "1.000000000000000000", "3.000000000000000000",
    "18.000000000000000000", "-9.000000000000000000", "0.9", "-1.5", "3.00", "0.5", "9007199254740992.0",
]
# Whether a number passes, and what is said of those that do and of those that do not.
KEYWORDS = {
    "minimum": (lambda number, limit: number >= limit, "not below the limit", "below the limit"),
    "maximum": (lambda number, limit: number <= limit, "not above the limit", "above the limit"),
    "exclusiveMinimum": (lambda number, limit: number > limit, "above the limit", "not above the limit"),
    "exclusiveMaximum": (lambda number, limit: number < limit, "below the limit", "not below the limit"),
    "multipleOf": (lambda number, divisor: number % divisor == 0, "a multiple", "no multiple"),
}
# Rows that stand in other files, where they show more.
ELSEWHERE = {
    ("minimum", 1, 0), ("minimum", 1, 1), ("minimum", 1, "0.9"), ("minimum", 1, "1.0"), ("maximum", -1, -1),
    ("maximum", -1, "-1.5"), ("exclusiveMinimum", 0, "0.000000000000000000"), ("exclusiveMinimum", 0, "0.000000000000000001"),
    ("exclusiveMaximum", -(2**63), -(2**63)), ("exclusiveMaximum", 2**64 - 1, 2**64 - 1),
    ("exclusiveMaximum", 2**64 - 1, "18.446744073709551615"), ("multipleOf", 3, "0.5"), ("multipleOf", 3, "3.00"),
    ("multipleOf", 2**64 - 1, "0.000000000000000000"),
}


def tests(keyword, value):
    """The lines of the tests of a keyword: integers and decimals, those that pass and those that do not."""
    passes, good, bad = KEYWORDS[keyword]
    for instances, suffix, mark in (LIMITS, "", ""), (DECIMALS, ", with decimals", ' "decimals": true,'):
        for wanted, name in (True, good), (False, bad):
            each = [i for i in instances if passes(fractions.Fraction(i), value) == wanted]
            each = [i for i in each if (keyword, value, i) not in ELSEWHERE]
            answer = '"valid": true' if wanted else f'"errors": [{{"{keyword}": {value}}}]'
            if each:
                yield f'            {{"description": "{name}{suffix}",{mark} "each": {json.dumps(each)}, {answer}}}'


def group(keyword, value):
    name, schema = f"around the ends of the ranges: `{keyword}` {value}", f'{{"{keyword}": {value}}}'
    head = f'    {{\n        "description": "{name}",\n        "schema": {schema},\n        "tests": [\n'
    return head + ",\n".join(tests(keyword, value)) + "\n        ]\n    }"


pairs = [(keyword, value) for value in LIMITS for keyword in KEYWORDS if keyword != "multipleOf"]
pairs += [("multipleOf", divisor) for divisor in DIVISORS]
print("[\n" + ",\n".join(group(keyword, value) for keyword, value in pairs) + "\n]")
