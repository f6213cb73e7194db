"""What `jskw check` says of the errors of an instance, and of a schema that does not compile: sentences for people, for
tools/check. Of values and of lists of options the first 80 characters are written, and `..` in place of the rest."""

import collections

# `sentences` has one for each error, in order; `draft` is 2020-12 unless given
Case = collections.namedtuple("Case", "schema instance sentences draft", defaults=("2020-12",))

TYPES = "array, boolean, integer, null, number, object, string"

CASES = [
    # sizes: how many there are, and how many are wanted
    Case({"minItems": 2}, ["a"], ["has 1 item, needs at least 2"]),
    Case({"minItems": 2}, [], ["has 0 items, needs at least 2"]),
    Case({"maxItems": 1}, [1, 2, 3], ["has 3 items, may have at most 1"]),
    Case({"minProperties": 2}, {"age": 41}, ["has 1 member, needs at least 2"]),
    Case({"maxProperties": 0}, {"a": 1, "b": 2}, ["has 2 members, may have at most 0"]),
    Case({"items": [{}], "additionalItems": False}, [1, 2], ["has 2 items, may have at most 1"], "7"),
    # names
    Case({"required": ["name", "age"]}, {}, ['has no member "name"', 'has no member "age"']),
    Case({"required": ["n" * 78]}, {}, ['has no member "' + "n" * 78 + '"']),
    Case({"required": ["n" * 79]}, {}, ['has no member "' + "n" * 79 + ".."]),
    Case({"required": ["\u001b[2J\u0085"]}, {}, ['has no member "\\u001b[2J\\u0085"']),
    # limits
    Case({"minimum": 5}, 4, ["4 must be at least 5"]),
    Case({"maximum": 5}, 6, ["6 must be at most 5"]),
    Case({"exclusiveMinimum": 5}, 5, ["5 must be above 5"]),
    Case({"exclusiveMaximum": -5}, -5, ["-5 must be below -5"]),
    Case({"multipleOf": 5}, 12, ["12 must be a multiple of 5"]),
    # types
    Case({"type": "string"}, 5, ["5 is of type integer, must be string"]),
    Case({"type": "string"}, 1.0, ["1.0 is of type number, must be string"]),
    Case({"type": "string"}, -0.5, ["-0.5 is of type number, must be string"]),
    Case({"type": "integer"}, 1.5, ["1.5 is of type number, must be integer"]),
    Case({"type": ["string", "null"]}, True, ["true is of type boolean, must be one of null, string"]),
    Case({"type": []}, None, ["null is of type null, must be of none"]),
    # values
    Case({"const": {"a": [1, "b"]}}, [None], ['[null] must be {"a":[1,"b"]}']),
    Case({"enum": [1, "a", None]}, {"b": 2}, ['{"b":2} must be one of 1, "a", null']),
    Case({"enum": []}, 1, ["1 is not allowed, nor is any value"]),
    Case(False, "a\tb", ['"a\\tb" is not allowed']),
    # items that match, and equal ones
    Case({"contains": {"type": "string"}}, [1, 2], ["has no item that matches"]),
    Case({"contains": {"type": "string"}, "minContains": 2}, [1, "a"], ["has too few items that match"]),
    Case({"contains": {"type": "string"}, "maxContains": 1}, ["a", "b"], ["has too many items that match"]),
    Case({"uniqueItems": True}, [1, 1], ["has equal items, 0 and 1"]),
    Case({"uniqueItems": True}, [1, {"a": 2}, 3, {"a": 2}], ["has equal items, 1 and 3"]),
    Case({"uniqueItems": True}, [*range(63), 0], ["has equal items, 0 and 63"]),
    Case({"uniqueItems": True}, [*range(64), 0], ["has equal items"]),
    # what is cut, never within a character or an escape
    Case(False, "a" * 78, ['"' + "a" * 78 + '" is not allowed']),
    Case(False, "a" * 79, ['"' + "a" * 79 + ".. is not allowed"]),
    Case(False, "a" * 500_000, ['"' + "a" * 79 + ".. is not allowed"]),
    Case(False, "😀" * 79, ['"' + "😀" * 79 + ".. is not allowed"]),
    Case(False, "a" * 74 + "\u0001b", ['"' + "a" * 74 + ".. is not allowed"]),
    Case(False, "a" * 73 + "\u0001b", ['"' + "a" * 73 + "\\u0001.. is not allowed"]),
    Case(False, [*range(100)], ["[" + ",".join(map(str, range(30))) + ".. is not allowed"]),
    Case({"enum": ["a" * 90, "b"]}, 1, ['1 must be one of "' + "a" * 79 + ".."]),
    Case({"const": "c" * 2_000}, 1, ['1 must be "' + "c" * 79 + ".."]),
    # what a terminal may take as a command
    Case(False, "\u007f\u009b\u2028\u202e\u2066", ['"\\u007f\\u009b\\u2028\\u202e\\u2066" is not allowed']),
]  # fmt: skip

# Schemas that do not compile, and what is said of them.
REFUSED = [
    ({"minItems": -1}, "-1 must be at least 0 [/minItems]"),
    ({"multipleOf": 0}, "0 must be above 0 [/multipleOf]"),
    ({"minimum": 1.5}, "1.5 is not a whole number of 64 bits [/minimum]"),
    ({"const": [1, 2.5]}, "2.5 is not a whole number of 64 bits [/const]"),
    ({"type": "strng"}, f'"strng" is no type, must be one of {TYPES} [/type]'),
    ({"type": ["string", "strng"]}, f'"strng" must be one of {TYPES} [/type]'),
    ({"required": "a"}, '"a" is of type string, must be array [/required]'),
]
