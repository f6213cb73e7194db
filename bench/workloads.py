"""The workloads: schemas as users have them, each with a valid instance, one whose last item fails, and one of which
every tenth item fails. The loop written by hand that goes with each is in crates/jskw_bench/src/by_hand.rt."""

import collections

# `loop` is the name of the loop, `instances` has a value for each of `KINDS`.
Workload = collections.namedtuple("Workload", "name loop schema instances")

KINDS = "valid", "last fails", "a tenth fails"
LENGTHS = 10, 100, 1_000, 10_000, 100_000
LIMITS = {"minItems": 1, "maxItems": 10_000}


def texts(count):
    # they share head, tail and length
    return [f"prefix-{i:06}-suffix" for i in range(count)]


def array_of(items, **limits):
    return {"type": "array", **limits, "items": items}


def tuple_of(*parts, **limits):
    return {"type": "array", **limits, "prefixItems": list(parts), "items": False}


def of_items(name, loop, schema, items, broken):
    # `broken` makes the item at an index one that fails
    last, tenth = list(items), list(items)
    last[-1] = broken(len(items) - 1)
    for index in range(9, len(items), 10):
        tenth[index] = broken(index)
    return Workload(name, loop, schema, dict(zip(KINDS, (items, last, tenth))))


INTEGER, STRING, BOOLEAN = {"type": "integer"}, {"type": "string"}, {"type": "boolean"}
NATURAL = {"type": "integer", "minimum": 0}
MULTIPLE = {"type": "integer", "minimum": 0, "maximum": 100_000, "multipleOf": 5}
LINE = tuple_of(STRING, {"type": "integer", "minimum": 1, "maximum": 1_000}, NATURAL, minItems=3)
STATUSES = ["open", "paid", "sent", "returned"]
TAGS = {"type": "array", "uniqueItems": True, "items": STRING}
ORDER = tuple_of(NATURAL, {"enum": STATUSES}, array_of(LINE, **LIMITS), TAGS, minItems=4)
OBJECT = {"type": "object", "required": ["id", "name", "email"]}


def of_integers():
    integers, multiples = list(range(10_000)), [5 * i for i in range(10_000)]
    name = "10,000 integers"
    return [
        of_items(name, "integers", array_of(INTEGER), integers, lambda i: "text"),
        of_items(f"{name}, list limited", "limited integers", array_of(INTEGER, **LIMITS), integers, lambda i: "text"),
        of_items(f"{name}, minimum", "naturals", array_of(NATURAL), integers, lambda i: -1),
        of_items(f"{name}, four keywords", "multiples", array_of(MULTIPLE), multiples, lambda i: 5 * i + 1),
    ]


def lists():
    """Lists of integers of some lengths: what an item costs if the list is in the processor's caches, and if not."""
    values = {length: {"valid": list(range(length))} for length in LENGTHS}
    return [Workload(f"list of {length:,}", "integers", array_of(INTEGER), values[length]) for length in LENGTHS]


def of_rows():
    rows = [list(range(50 * i, 50 * i + 50)) for i in range(200)]
    layers = [[list(range(20)) for _ in range(20)] for _ in range(25)]
    limited = array_of(array_of(NATURAL, **LIMITS), **LIMITS)
    name = "200 rows of 50 integers"
    return [
        of_items(name, "rows", array_of(array_of(INTEGER)), rows, lambda i: rows[i][:-1] + ["text"]),
        of_items(f"{name}, limited", "limited rows", limited, rows, lambda i: rows[i][:-1] + [-1]),
        of_items(
            "25 times 20 rows of 20 integers",
            "layers",
            array_of(array_of(array_of(INTEGER))),
            layers,
            lambda i: layers[i][:-1] + [layers[i][-1][:-1] + ["text"]],
        ),
    ]


def line(index):
    return [f"article-{index % 50:03}", index % 9 + 1, 100 + index % 7]


def order(index, quantity=2):
    lines = [line(index + k) for k in range(4)] + [["article", quantity, 250]]
    return [index, STATUSES[index % 4], lines, ["gift", f"tag{index % 5}", "express"]]


def of_tuples():
    plain = [[i, f"text{i}", i % 2 == 0] for i in range(1_000)]
    lines, orders = [line(i) for i in range(1_000)], [order(i) for i in range(200)]
    schema = array_of(tuple_of(INTEGER, STRING, BOOLEAN))
    return [
        of_items("1,000 tuples", "tuples", schema, plain, lambda i: plain[i][:-1] + [None]),
        of_items("1,000 tuples, limited", "limited tuples", array_of(LINE), lines, lambda i: lines[i][:-1] + [-1]),
        of_items("200 orders of a service", "orders", array_of(ORDER), orders, lambda i: order(i, 2_000)),
    ]


def person(index, name="name"):
    member = f"{index}@example.org"
    return {"id": index, name: f"name{index}", "email": member, "age": index % 90, "city": "here", "active": True}


def workloads():
    objects, different = [person(i) for i in range(2_000)], list(range(1_000))
    number = Workload("one number", "natural", NATURAL, {"valid": 5, "last fails": -5})
    return [
        *of_integers(),
        of_items("10,000 strings", "strings", array_of(STRING), texts(10_000), lambda i: 0),
        *of_rows(),
        *of_tuples(),
        of_items("2,000 objects", "objects", array_of(OBJECT), objects, lambda i: person(i, "nickname")),
        of_items("1,000 different integers", "unique", {"uniqueItems": True}, different, lambda i: i - 1),
        number,
    ]
