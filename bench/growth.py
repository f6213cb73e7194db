"""Cases for how the time grows: requests that were made to be slow, and each call that takes something of any size, at
three sizes."""

import json

from program import CRATE

# Integers whose fingerprints fall into a sixteenth of a sketch. They are searched for once, which takes a minute.
CROWDING = CRATE / "out" / "crowding.json"

# Two names and two pairs of values for them, so that the fingerprints of the two members have one sum under the seed 0.
# They were found by a search of some minutes.
COLLIDING = [
    ("a00", "b00", (3_668_787, 1_299_163), (1_827_868, 3_006_230)),
    ("a01", "b01", (644_119, 239_050), (2_383_538, 1_389_183)),
    ("a02", "b02", (1_564_926, 3_344_834), (953_016, 3_872_509)),
    ("a04", "b04", (3_027_424, 3_083_213), (1_695_266, 1_144_427)),
    ("a05", "b05", (2_230_193, 1_233_540), (3_805_155, 2_651_385)),
    ("a08", "b08", (597_568, 3_975_523), (245_073, 3_271_054)),
    ("a09", "b09", (3_546_655, 1_191_052), (594_418, 3_794_072)),
    ("a10", "b10", (3_978_242, 3_661_127), (299_210, 3_399_795)),
    ("a11", "b11", (1_020_768, 3_992_470), (2_887_917, 3_362_304)),
    ("a12", "b12", (371_588, 3_372_624), (1_444_636, 171_114)),
    ("a13", "b13", (4_168_413, 2_365_065), (3_965_227, 2_848_201)),
    ("a14", "b14", (2_236_116, 1_275_118), (1_291_788, 2_320_914)),
]

# Of so many equal options, another object of the same names that has their fingerprint under the seed that they give.
# Each was found by a search of some seconds.
SAME_AS_OPTIONS = {
    1_000: (1_519_507, 3_904_540, 2_709_953, 3_401_239),
    9_000: (615_592, 2_277_882, 3_182_473, 87_704),
    18_000: (3_666_757, 3_429_683, 3_911_658, 2_256_017),
}

WORD = 2**64 - 1


def nested(depth, innermost):
    value = innermost
    for _ in range(depth):
        value = [value]
    return value


# ---- requests that were made to be slow: a name, a schema, an instance, and the overridden names


def polygon(last):
    ring = [[k, 10 * k] for k in range(99)] + [[99, last]]
    return {"type": "Polygon", "coordinates": [ring]}


def record(number):
    value = {"id": number}
    for _ in range(9):
        value = {"kind": "level", "data": value, "count": 1}
    return value


def folded(left, right):
    product = left * right
    return (product & WORD) ^ (product >> 64)


def fingerprint_of_whole_number(number):
    # as `stir` of jskw_value's fingerprint.rt mixes it, under the seed 0
    first = folded(6 ^ number ^ 11562461410679940143, 16646288086500911323 | 1)
    second = folded(6 ^ 10285213230658275043, (number ^ 6384245875588680899) | 1)
    return (6 * 17069020487931167987 + first + second) & WORD


def crowding(count):
    if CROWDING.exists():
        found = json.loads(CROWDING.read_text(encoding="utf-8"))
        if len(found) >= count:
            return found[:count]
    found, number = [], 0
    while len(found) < count:
        fingerprint = fingerprint_of_whole_number(number)
        if fingerprint >> 60 == 0 and (fingerprint >> 28) & 15 == 0:
            found.append(number)
        number += 1
    CROWDING.parent.mkdir(exist_ok=True)
    CROWDING.write_text(json.dumps(found), encoding="utf-8")
    return found


def colliding(count):
    # an object takes of each pair of values the one that a bit of its index says
    objects = []
    for index in range(count):
        members = {}
        for bit, (first, second, *values) in enumerate(COLLIDING):
            members[first], members[second] = values[index >> bit & 1]
        objects.append(members)
    return objects


def overridden():
    keywords = {"type": "integer", "minimum": 0, "maximum": 9, "const": 5}
    return {"prefixItems": [keywords] * 8_000}, [5] * 8_000, [f"n{i:05}" for i in range(45_000)]


def hostile():
    unique = {"type": "array", "uniqueItems": True}
    options = [{"i": i} for i in range(2_000)]
    objects = [{"i": i} for i in range(5_000)]
    few, wide = colliding(4_096), {"type": "array", "items": {"enum": colliding(2_048)}}
    return [
        ("uniqueItems, 30,000 arrays 14 deep", unique, [nested(14, i) for i in range(30_000)], []),
        ("uniqueItems, 4,000 polygons, the last point differs", unique, [polygon(i) for i in range(4_000)], []),
        ("uniqueItems, 2,000 rows of 600 zeros and a number", unique, [[0] * 600 + [i] for i in range(2_000)], []),
        ("uniqueItems, 2,000 records, the id 9 levels down", unique, [record(i) for i in range(2_000)], []),
        ("uniqueItems, 80,000 integers that crowd the sketch", unique, crowding(80_000), []),
        ("uniqueItems, 4,096 objects of 24 members that collide", unique, few, []),
        ("4 keywords in 8,000 schemas, 45,000 names overridden", *overridden()),
        ("items, enum of 2,000 objects, 5,000 objects", {"items": {"enum": options}}, objects, []),
        ("items, enum of 2,048 objects that collide, 4,096", wide, few, []),
        ("uniqueItems, 16,000 arrays 2 deep", unique, [nested(2, i) for i in range(16_000)], []),
    ]


# ---- schemas and instances of a size: a name, three sizes, what makes the two, and the draft

THOUSANDS = 1_000, 4_000, 16_000
DEPTHS = 8, 30, 110
TYPES = "array", "boolean", "null", "number", "object", "string", "integer"


def names(count):
    return [f"name{i:06}" for i in range(count)]


def members(count):
    return dict.fromkeys(names(count), 0)


def constant(make):
    return lambda size: ({"const": make(size)}, make(size))


def last_option(make):
    def case(size):
        options = [make(i) for i in range(size)]
        return {"enum": options}, options[-1]

    return case


def different(make):
    return lambda size: ({"uniqueItems": True}, [make(i) for i in range(size)])


def of_items(schema, make):
    return lambda size: (schema, [make(i) for i in range(size)])


def mixed(number):
    return [[number], {"id": number}, f"text{number}", number][number % 4]


def nested_schema(depth):
    schema = {"type": "integer"}
    for _ in range(depth):
        schema = {"type": "array", "items": schema}
    return schema, nested(depth, 1)


def rows(size):
    return {"contains": {"contains": {"const": -1}}}, [list(range(size)) for _ in range(size)]


def twice_at_each_level(levels):
    # 2 ** levels subschemas meet each of as many items
    schema = {"type": "integer", "minimum": 0}
    count = 2**levels
    schema = {"items": schema, "contains": schema, "minContains": count}
    for _ in range(levels - 1):
        schema = {"items": schema, "contains": schema}
    return schema, nested(levels - 1, list(range(count)))


def whole_number(number):
    return number


def wide_limits(size):
    return {"minItems": size, "maxItems": size}, list(range(size))


def wide_objects(size):
    return {"minProperties": size, "maxProperties": size}, members(size)


def many_limits(size):
    return [{"minimum": i} for i in range(size)]


def first_items(size):
    return {"prefixItems": many_limits(size)}, list(range(size))


def more_items(size):
    return {"items": many_limits(size), "additionalItems": {"type": "integer"}}, list(range(2 * size))


def all_match(size):
    return {"contains": {"type": "integer"}, "minContains": size, "maxContains": size}, list(range(size))


def equal_options(count):
    # options that are all equal, and items of their fingerprint
    names = "", "a", "b", "c"
    item = dict(zip(names, SAME_AS_OPTIONS[count]))
    return {"items": {"enum": [dict.fromkeys(names, 0)] * count}}, [item] * (count // 2)


def alike(count, depth):
    return [nested(depth, i) for i in range(count)]


def unique_levels(depth):
    # at each level some items that differ only deep down, beside all that is below
    schema, instance = True, [{"": 0}] * (1_000 * depth)
    for _ in range(depth):
        schema, instance = {"uniqueItems": True, "items": schema}, [*alike(20, 6), instance]
    return schema, instance


def unique_twice_at_each_level(levels):
    # 2 ** levels subschemas, each applied to one array: items that differ only deep down, beside much that is not alike
    schema, instance = {"uniqueItems": True}, [*alike(20, 6), [{"": 0}] * (60 * 2**levels)]
    for _ in range(levels):
        schema, instance = {"items": schema, "contains": schema}, [instance]
    return schema, instance


def early_differences(levels):
    # the same, but the items that differ only deep down hold all of it, behind what differs
    schema, instance = {"uniqueItems": True}, [[item, [0] * (10 * 2**levels)] for item in alike(20, 14)]
    for _ in range(levels):
        schema, instance = {"items": schema, "contains": schema}, [instance]
    return schema, instance


def alike_among_numbers(count):
    return {"uniqueItems": True}, [*alike(100, 20), *range(100_000, 100_000 + count)]


def alike_between_numbers(count):
    apart = count // 100
    numbers = [list(range(100_000 + i * apart, 100_000 + (i + 1) * apart)) for i in range(100)]
    return {"uniqueItems": True}, [item for i in range(100) for item in [nested(20, i), *numbers[i]]]


def growing():
    numbers = {"minimum": 0, "maximum": 10**6, "exclusiveMinimum": -1, "exclusiveMaximum": 10**6, "multipleOf": 1}
    number, item, match = {"items": numbers}, {"items": {"type": "integer"}}, {"contains": {"const": -1}}
    latest = [
        ("members that are no keywords, so many", THOUSANDS, lambda n: (members(n), 1)),
        ("type, so many names", THOUSANDS, lambda n: ({"type": [TYPES[i % 7] for i in range(n)]}, 1)),
        ("const, an array of integers", THOUSANDS, constant(lambda n: list(range(n)))),
        ("const, an object", THOUSANDS, constant(members)),
        ("const, a string", THOUSANDS, constant(lambda n: "a" * n)),
        ("const, arrays so deep", DEPTHS, constant(lambda n: nested(n, 1))),
        ("enum, strings", THOUSANDS, last_option(lambda i: f"text{i}")),
        ("enum, integers", THOUSANDS, last_option(whole_number)),
        ("enum, objects", THOUSANDS, last_option(lambda i: {"id": i})),
        ("enum, several types", THOUSANDS, last_option(mixed)),
        ("enum, equal options, others that collide", (1_000, 9_000, 18_000), equal_options),
        ("the five keywords of numbers, for each item", THOUSANDS, of_items(number, whole_number)),
        ("minItems and maxItems", THOUSANDS, wide_limits),
        ("minProperties and maxProperties", THOUSANDS, wide_objects),
        ("items", THOUSANDS, of_items(item, whole_number)),
        ("items, so deep", DEPTHS, nested_schema),
        ("prefixItems", THOUSANDS, first_items),
        ("contains, no match", THOUSANDS, of_items(match, whole_number)),
        ("contains, minContains, maxContains of all", THOUSANDS, all_match),
        ("contains in contains, n rows of n", (30, 100, 300), rows),
        ("items and contains, 2^n of them, 2^n items", (4, 6, 8), twice_at_each_level),
        ("uniqueItems, integers", (10_000, 100_000, 1_000_000), different(whole_number)),
        ("uniqueItems, strings", THOUSANDS, different(lambda i: f"text{i:06}")),
        ("uniqueItems, objects", THOUSANDS, different(lambda i: {"id": i, "name": f"name{i}"})),
        ("uniqueItems, arrays 14 deep", THOUSANDS, different(lambda i: nested(14, i))),
        ("uniqueItems, rows that differ in the last of 100", THOUSANDS, different(lambda i: [0] * 99 + [i])),
        ("uniqueItems at so many levels, few items alike", DEPTHS, unique_levels),
        ("uniqueItems 2^n times, few items alike", (4, 7, 10), unique_twice_at_each_level),
        ("uniqueItems 2^n times, alike, much behind it", (4, 7, 10), early_differences),
        ("uniqueItems, 100 alike before integers", (10_000, 100_000, 571_000), alike_among_numbers),
        ("uniqueItems, 100 alike between integers", (10_000, 100_000, 571_000), alike_between_numbers),
        ("required, an object of the names", THOUSANDS, lambda n: ({"required": names(n)}, members(n))),
        ("required, 17 names, an object", THOUSANDS, lambda n: ({"required": names(17)}, members(n))),
    ]
    draft_7 = [("items of an array, additionalItems", THOUSANDS, more_items)]
    return [(*case, "2020-12") for case in latest] + [(*case, "7") for case in draft_7]


# ---- the same, of all observers


def all_fail(size):
    return {"items": {"type": "string"}}, list(range(size))


def none_there(size):
    return {"required": names(size)}, {}


def innermost_fails(depth):
    schema, _ = nested_schema(depth)
    return schema, nested(depth, "text")


def observed():
    numbers = {"type": "array", "items": {"type": "integer", "minimum": 0}}
    return [
        ("items", THOUSANDS, of_items(numbers, whole_number)),
        ("items, all fail", THOUSANDS, all_fail),
        ("items, so deep, the innermost fails", DEPTHS, innermost_fails),
        ("contains in contains, n rows of n", (30, 100, 300), rows),
        ("required, none of the names is there", THOUSANDS, none_there),
        ("enum, objects, miss", THOUSANDS, lambda n: ({"enum": [{"id": i} for i in range(n)]}, {"id": n})),
        ("uniqueItems, rows that differ in the last of 100", THOUSANDS, different(lambda i: [0] * 99 + [i])),
    ]


# ---- calls of a text of a size: a name, three sizes, the call's name, and what makes the value


def calls():
    return [
        ("MemberList::insert, rising names", THOUSANDS, "insert", names),
        ("MemberList::insert, falling names", THOUSANDS, "insert", lambda n: names(n)[::-1]),
        ("MemberList::from_pairs, falling names", THOUSANDS, "from_pairs", lambda n: names(n)[::-1]),
        ("DecimalTree::from_value, integers", THOUSANDS, "from_value", lambda n: list(range(n))),
        ("DecimalTree::from_value, an object", THOUSANDS, "from_value", members),
        ("first_unlawful, objects", THOUSANDS, "first_unlawful", lambda n: [{"id": i} for i in range(n)]),
        ("first_unlawful, arrays so deep", DEPTHS, "first_unlawful", lambda n: nested(n, 1)),
        ("message of an error, of an instance", THOUSANDS, "message", lambda n: [{"id": i} for i in range(n)]),
        ("Settings::new, overridden names", THOUSANDS, "settings", names),
        ("unchecked, names that are no keywords", THOUSANDS, "unchecked", members),
        ("unchecked, an array of schemas", THOUSANDS, "unchecked", lambda n: {"items": [{"minimum": i} for i in range(n)]}),
        ("unchecked, schemas so deep", DEPTHS, "unchecked", lambda n: nested_schema(n)[0]),
        ("reading, integers", THOUSANDS, "read", lambda n: list(range(n))),
    ]


# Why instructions may grow by more than the power 1.2 of the bytes, by the case and the call.
REASONS = {
    ("items and contains, 2^n of them, 2^n items", "is_valid"): "each subschema meets each item, by the standard",
    ("uniqueItems, integers", "is_valid"): "beyond 12,288 items each block of so many is compared with all later items",
    ("items, so deep, the innermost fails", "evaluate_instance"): "each node has its location, as long as it lies deep",
    ("MemberList::insert, falling names", "insert"): "each moves the members behind it; `from_pairs` takes all at once",
}
