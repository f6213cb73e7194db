"""Documents of eight kinds that services get, at any size, valid or with items that fail. bench/WORKLOADS.md says why
each is there; none was looked at while the code was made fast."""

import collections

from program import text_of
from workloads import BOOLEAN, INTEGER, KINDS, NATURAL, STRING, Workload, array_of, tuple_of

# `schema` is one of Draft 2020-12; `item` makes the item at an index, one that fails if the second argument is true
Kind = collections.namedtuple("Kind", "name schema item")

SIZES = {"100 B": 100, "2 KB": 2_000, "100 KB": 100_000, "5 MB": 5_000_000}
# which items of a document fail
FAILURES = {
    "valid": lambda index, count: False,
    "first fails": lambda index, count: index == 0,
    "last fails": lambda index, count: index == count - 1,
    "all fail": lambda index, count: True,
}
WITH_FRACTIONS = {"rings of positions", "amounts"}
LEVELS, COUNTRIES = 20, 30
DEGREES = {"type": "number", "minimum": -180, "maximum": 180}
RECORD = {"type": "object", "required": ["time", "level", "host", "path", "status"], "minProperties": 5}
CODES = [chr(65 + i % 26) + chr(65 + 7 * i % 26) for i in range(COUNTRIES)]
WORDS = ["info", "warn", "error"]
NULLABLE = {"type": ["string", "null"]}
ROW = tuple_of(*[INTEGER, STRING, BOOLEAN, NULLABLE] * 3)


def record(index, fails):
    made = {"time": 1_700_000_000 + index, "level": WORDS[index % 3], "host": f"web-{index % 40:02}"}
    made |= {"paths" if fails else "path": f"/orders/{index}?page={index % 9}", "status": 200 + index % 5}
    return made | {"ms": index % 1_000, "agent": "Mozilla/5.0 (X11; Linux x86_64)", "tags": ["a", "b"]}


def ring(index, fails):
    points = [[(index * 7 + i) % 18_000 / 100, (index + i) % 9_000 / 100] for i in range(7)]
    return [*points, [999.5 if fails else 0.5, 1.5]]


def level_schema(depth):
    below = [array_of(level_schema(depth - 1))] if depth else []
    return tuple_of(STRING, NATURAL, *below, minItems=2 + len(below))


def level(depth, index, fails):
    return [f"k{index % 10}", depth] + [[level(depth - 1, index, fails)]] if depth else ["end", -1 if fails else index]


def row_of_12(index, fails):
    return [index, f"text{index}", index % 2 == 0, None] * 2 + [index, f"text{index}", 0 if fails else True, "last"]


def tags(index, fails):
    return [f"tag-{(index + i) % 90}" for i in range(4)] + [f"tag-{index % 90}" if fails else "last"]


def kinds():
    return [
        Kind("log records", array_of(RECORD), record),
        Kind("rings of positions", array_of(array_of(array_of(DEGREES, minItems=2, maxItems=3), minItems=4)), ring),
        Kind("amounts", array_of({"type": "number", "minimum": 0}), lambda i, fails: -1.25 if fails else i % 9_991 / 4),
        Kind("country codes", array_of({"enum": CODES}), lambda i, fails: "--" if fails else CODES[i % COUNTRIES]),
        Kind("tags", array_of({"type": "array", "maxItems": 8, "uniqueItems": True, "items": STRING}), tags),
        Kind("configuration", array_of(level_schema(LEVELS)), lambda i, fails: level(LEVELS, i, fails)),
        Kind("rows of 12", array_of(ROW), row_of_12),
        Kind("ids", array_of({"type": "integer", "minimum": 1}), lambda i, fails: -1 if fails else 7 * 10**9 + i),
    ]


KINDS_OF_TEXT = [kind.name for kind in kinds()]


def count_for(kind, size):
    """Returns how many items a document of about so many bytes has: one at least."""
    few = len(text_of([kind.item(index, False) for index in range(100)])) / 100
    return max(round(size / few), 1)


def document(kind, size, failure):
    count = count_for(kind, size)
    return [kind.item(index, FAILURES[failure](index, count)) for index in range(count)]


def parsed_workloads():
    """The kinds without fractions, which serde_json holds as floats, as workloads on parsed values, of 100 KB."""
    size, asked = SIZES["100 KB"], [kind for kind in kinds() if kind.name not in WITH_FRACTIONS]
    return [
        Workload(kind.name, "-", kind.schema, {failure: document(kind, size, failure) for failure in KINDS[:2]})
        for kind in asked
    ]


def rare_workloads():
    """What neither the workloads nor the kinds have: long lists of different items, and many required names."""
    names = [f"member_{index}" for index in range(17)]
    rows = [[*range(999), index] for index in range(100)]
    shuffled = [7_919 * index % 10_007 for index in range(10_000)]
    asked = [
        ("1,000 different texts", {"uniqueItems": True}, [f"text-{7 * index % 1_000:04}" for index in range(1_000)]),
        ("10,000 different integers in no order", {"uniqueItems": True}, shuffled),
        ("100 rows of 1,000 that differ at the end", {"uniqueItems": True}, rows),
        ("200 objects of 17 required names", array_of({"required": names}), [dict.fromkeys(names, 1)] * 200),
    ]
    return [Workload(name, "-", schema, {KINDS[0]: value}) for name, schema, value in asked]
