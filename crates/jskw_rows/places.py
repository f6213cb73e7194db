#!/usr/bin/env python3
"""Writes the rows of what is looked at in turn: the items of a list, the parts of the arrays in a list, the bytes of a
text, the digits of a number. Of each there is one at fault at each place, with the error that it was made for.

    places.py > data/places.json
"""
import json

MOST = 9
# of the lengths 4, 5 and 8 the last place, and each place of the greatest length; and of some faults these alone
PLACES = [(4, 3), (5, 4), (8, 7), *((MOST, place) for place in range(MOST))]
FEW_PLACES = [(MOST, 2), (MOST, 8)]
WORD, NATURAL = 2**63, 2**64 - 1
ONE = "a list of "


class Fault:
    """An item at fault, and its errors: the keyword with what it asked for, and the locations in the item and in `items`;
    how many subschemas are applied to it up to the first failure, and in all."""

    def __init__(self, name, item, *errors, needed=1, pairs=1):
        self.name, self.item, self.errors, self.needed, self.pairs = name, item, errors, needed, pairs

    def errors_at(self, place):
        return [
            {keyword: asked, "instanceLocation": f"/{place}{at}", "keywordLocation": f"/items{by}"}
            for keyword, asked, at, by in self.errors
        ]


def fault(name, item, keyword, asked):
    return Fault(name, item, (keyword, asked, "", f"/{keyword}"))


def has_decimals(value):
    """Whether a text in the value is a decimal."""
    if isinstance(value, list):
        return any(map(has_decimals, value))
    return isinstance(value, str) and value[-1:].isdigit()


def test(name, answer, **instance):
    decimals = {"decimals": True} if any(map(has_decimals, instance.values())) else {}
    return {"description": name, **decimals, **instance, **answer}


def applied(first, every):
    return {"applications": {"untilFirst": first, "ofAll": every}}


def lists(what, items, good, faults, costs=None, **setting):
    """The rows of lists whose items are these, over and over, with one at fault at each place. The costs are how many
    subschemas are applied to each of them; none if the items have a bare type check."""
    first = lambda count: [good[index % len(good)] for index in range(count)]
    cost = lambda count: sum(costs[index % len(costs)] for index in range(count))
    of_valid = applied(1 + cost(MOST), 1 + cost(MOST)) if costs else {}
    tests = [test("none is at fault", {"valid": True}, each=[first(count) for count in range(1, MOST)])]
    tests.append(test(f"none of {MOST} is at fault", {"valid": True} | of_valid, data=first(MOST)))
    for it in faults:
        for count, place in PLACES if it is faults[0] else FEW_PLACES:
            before, behind = cost(place) if costs else 0, cost(count) - cost(place + 1) if costs else 0
            bound = applied(1 + before + it.needed, 1 + before + it.pairs + behind) if costs else {}
            data = first(place) + [it.item] + first(count)[place + 1 :]
            answer = {"errors": it.errors_at(place)} | bound
            tests.append(test(f"{it.name} at {place} of {count}", answer, data=data))
    return {"description": ONE + what, "schema": {"items": items}, **setting, "tests": tests}


def typed(name, kind, good, *bad, **setting):
    """A list of one type, which is a bare type check."""
    return lists(name, {"type": kind}, good, [fault(words, item, "type", kind) for words, item in bad], **setting)


def limited(name, items, good, *faults):
    """A list of values that a quick set may have."""
    return lists(name, items, good, [fault(*it) for it in faults], [1])


def divided(divisor):
    """A list of multiples, with what is next to the greatest ones."""
    top, low = NATURAL // divisor * divisor, WORD // divisor * divisor
    good = [divisor, 0, top, low] if low < WORD else [divisor, 0, top]
    beside = [("one below the least multiple", divisor - 1), ("one above it", divisor + 1), ("the least but one", 1)]
    beside += [("one below the greatest multiple", top - 1), ("one below the greatest of 63 bits", low - 1)]
    beside += [("one above the negative of that", 1 - low), ("one above the greatest of 63 bits", low + 1)]
    faults = {item: name for name, item in beside if item % divisor and item <= NATURAL}
    rows = [(name, item, "multipleOf", divisor) for item, name in faults.items()]
    return limited(f"multiples of {divisor}", {"multipleOf": divisor}, good, *rows)


def part(name, item, place, keyword, asked, by, needed, pairs):
    return Fault(name, item, (keyword, asked, f"/{place}", f"{by}/{keyword}"), needed=needed, pairs=pairs)


INTEGER, TEXT, FLAG = {"type": "integer"}, {"type": "string"}, {"type": "boolean"}
SMALL = {"type": "integer", "maximum": 9}
ROW = [1, 2, 3, 4, 5, 6, 7]


def row_with(place, item, front=()):
    return [*front, *ROW[:place], item, *ROW[place + 1 :]]


GROUPS = [
    typed("integers", "integer", [1, -2, 0, NATURAL], ("a text", "a"), ("a fraction", "2.5"), ("null", None)),
    typed("integers with a fraction of zeros", "integer", [1, "2.0", -3], ("a fraction", "0.5"), ("an array", [])),
    typed("integers as they are written", "integer", [4, -2, 0], ("a point", "2.0"), ("a text", "a"), drafts=["4"]),
    typed("numbers", "number", [1, "2.5", -3, "0.0"], ("a text", "a"), ("true", True)),
    typed("texts", "string", ["a", "", "b"], ("a number", 5), ("an array of texts", ["a"])),
    typed("booleans", "boolean", [True, False, True], ("0", 0), ("a text", "true")),
    limited(
        "digits", {"type": "integer", "minimum": 0, "maximum": 9}, [0, 9, 5, 1], ("-1", -1, "minimum", 0),
        ("10", 10, "maximum", 9), ("a fraction", "0.5", "type", "integer"), ("a text", "a", "type", "integer"),
        ("2^63", WORD, "maximum", 9), ("2^64-1", NATURAL, "maximum", 9), ("-2^63", -WORD, "minimum", 0),
    ),
    limited(
        "numbers around 0", {"minimum": -5, "maximum": 5}, [0, 5, -5, "2.5"], ("6", 6, "maximum", 5),
        ("-6", -6, "minimum", -5), ("a little more", "5.000000000000000001", "maximum", 5),
        ("a little less", "-5.000000000000000001", "minimum", -5), ("2^64-1", NATURAL, "maximum", 5),
    ),
    limited(
        "small numbers, texts and arrays", {"maximum": 5}, [0, "a", -3, [9], 5, None], ("6", 6, "maximum", 5),
        ("2^63", WORD, "maximum", 5), ("a fraction", "5.5", "maximum", 5),
    ),
    limited(
        "numbers from 0 on", {"minimum": 0}, [0, WORD, NATURAL, WORD - 1], ("-1", -1, "minimum", 0),
        ("a fraction", "-0.1", "minimum", 0), ("-2^63", -WORD, "minimum", 0),
    ),
    limited(
        "numbers below 0", {"exclusiveMaximum": 0}, [-1, -WORD, -2, "-0.5"], ("0", 0, "exclusiveMaximum", 0),
        ("0.0", "0.0", "exclusiveMaximum", 0), ("2^64-1", NATURAL, "exclusiveMaximum", 0),
    ),
    limited(
        "numbers of which one comes near 2^63", {"minimum": WORD - 1}, [WORD - 1, WORD, NATURAL],
        ("2^63-2", WORD - 2, "minimum", WORD - 1), ("-1", -1, "minimum", WORD - 1),
    ),
    limited(
        "three numbers", {"enum": [3, 1, 2]}, [1, 2, 3], ("0", 0, "enum", [3, 1, 2]), ("4", 4, "enum", [3, 1, 2]),
        ("a fraction", "2.5", "enum", [3, 1, 2]), ("-1", -1, "enum", [3, 1, 2]),
    ),
    limited(
        "integers and null", {"type": ["integer", "null"]}, [1, None, -2], ("a text", "a", "type", ["integer", "null"]),
        ("a fraction", "1.5", "type", ["integer", "null"]),
    ),
    limited(
        "even numbers from 0 on", {"minimum": 0, "multipleOf": 2}, [0, 2, 10], ("-2", -2, "minimum", 0),
        ("3", 3, "multipleOf", 2), ("2^64-1", NATURAL, "multipleOf", 2), ("a fraction", "1.5", "multipleOf", 2),
    ),
    limited(
        "multiples of 3 on both sides of 0", {"multipleOf": 3}, [3, -3, 0, -6], ("-1", -1, "multipleOf", 3),
        ("-4", -4, "multipleOf", 3), ("4", 4, "multipleOf", 3), ("2^64-2", NATURAL - 1, "multipleOf", 3),
    ),
    *map(divided, [7, 641, 2**31 - 1, 2**32, 2**32 + 1, 2**61 + 1, 2**63 - 1, 2**63, 2**64 - 3]),
    lists(
        "tuples", {"prefixItems": [INTEGER, TEXT, FLAG]}, [[1, "a", True], [2, "b"], [3], [], [4, "c", False, 9]],
        [
            part("a tuple with a wrong second part", [1, 2, True], 1, "type", "string", "/prefixItems/1", 3, 4),
            part("a tuple with a wrong first part", ["a", "b"], 0, "type", "integer", "/prefixItems/0", 2, 3),
            part("a tuple with a wrong last part", [1, "a", 0], 2, "type", "boolean", "/prefixItems/2", 4, 4),
        ],
        [4, 3, 2, 1, 4],
    ),
    lists(
        "rows behind a text", {"prefixItems": [TEXT], "items": SMALL}, [["t", 1, 9], ["b"], [], ["c", *ROW]],
        [
            part("a row with a number first", [1, 2], 0, "type", "string", "/prefixItems/0", 3, 3),
            *(
                part(f"a row at fault at {place}", row_with(place - 1, 10, ["a"]), place, "maximum", 9, "/items", place + 1, 9)
                for place in range(1, 8)
            ),
        ],
        [4, 2, 1, 9],
    ),
    lists(
        "rows behind a text, by the words of earlier drafts", {"items": [TEXT], "additionalItems": SMALL},
        [["a", 1, 9], "none", ["b"], ["c", *ROW]],
        [
            part("a row with a number first", [1, 2], 0, "type", "string", "/items/0", 2, 3),
            part("a row at fault at 1", ["a", 10], 1, "maximum", 9, "/additionalItems", 3, 3),
            part("a row at fault at 7", row_with(6, 10, ["a"]), 7, "maximum", 9, "/additionalItems", 9, 9),
        ],
        [4, 1, 2, 9], drafts=["7"],
    ),
    lists(
        "pairs and no more, by the words of earlier drafts", {"items": [INTEGER, TEXT], "additionalItems": False},
        [[1, "a"], [2], [], "none"],
        [
            Fault("a third part", [1, "a", 2], ("additionalItems", 2, "", "/additionalItems"), needed=3, pairs=3),
            part("a wrong second part", [1, 2], 1, "type", "string", "/items/1", 3, 3),
        ],
        [3, 2, 1, 1], drafts=["7"],
    ),
    lists(
        "pairs under two lists of schemas", {"items": [INTEGER, TEXT], "prefixItems": [{"maximum": 9}]},
        [[1, "a"], [2], []],
        [
            part("a text first", ["a"], 0, "type", "integer", "/items/0", 2, 3),
            part("a great number first", [10, "a"], 0, "maximum", 9, "/prefixItems/0", 4, 4),
            part("a wrong second part", [1, 2], 1, "type", "string", "/items/1", 3, 4),
        ],
        [4, 3, 1],
    ),
    lists(
        "rows of one to seven digits", {"type": "array", "minItems": 1, "maxItems": 7, "items": SMALL},
        [[1], [1, 2, 3, 4, 5], ROW],
        [
            Fault("an empty row", [], ("minItems", 1, "", "/minItems")),
            Fault("a row of eight", [*ROW, 8], ("maxItems", 7, "", "/maxItems"), pairs=9),
            Fault("a text", "a", ("type", "array", "", "/type")),
            Fault("an object", {"0": 1}, ("type", "array", "", "/type")),
            *(
                part(f"a row at fault at {place}", row_with(place, 10), place, "maximum", 9, "/items", place + 2, 8)
                for place in range(7)
            ),
        ],
        [2, 6, 8],
    ),
    lists(
        "rows of integers", {"type": "array", "minItems": 1, "items": INTEGER}, [[1], ROW, [-1, 0]],
        [
            part("a row that ends in a text", [1, 2, "a"], 2, "type", "integer", "/items", 1, 1),
            Fault("an empty row", [], ("minItems", 1, "", "/minItems")),
            part("a row at fault at 3", row_with(3, "a"), 3, "type", "integer", "/items", 1, 1),
            part("a row at fault at 4", row_with(4, "2.5"), 4, "type", "integer", "/items", 1, 1),
        ],
        [1],
    ),
    lists(
        "arrays and objects of two", {"minItems": 2, "minProperties": 2, "prefixItems": [INTEGER]},
        [[1, 2], {"a": 1, "b": 2}, 5, [2, "a", "b"]],
        [
            Fault("an object of one", {"a": 1}, ("minProperties", 2, "", "/minProperties")),
            Fault("an array of one", [1], ("minItems", 2, "", "/minItems"), pairs=2),
            part("a text first", ["a", 1], 0, "type", "integer", "/prefixItems/0", 2, 2),
        ],
        [2, 1, 1, 2],
    ),
]


def at_once(name, schema, good, bad, error, **setting):
    """Rows of which all that are wrong have one error."""
    tests = [test("equal", {"valid": True}, each=good), test("different at each place", {"errors": [error]}, each=bad)]
    return {"description": name, "schema": schema, **setting, "tests": [it for it in tests if it.get("each")]}


LETTERS = "lmnopqrstuvwxyabcdefghij"


def changed(text):
    """The text with another letter at each place, and a letter shorter, longer, and turned around."""
    texts = [text[:place] + "z" + text[place + 1 :] for place in range(len(text))]
    return [*texts, text[:-1], text + "z", *([text[::-1]] if len(text) > 1 else [])]


for size in [*range(1, 18), 24]:
    text = LETTERS[:size]
    GROUPS.append(at_once(f"a text of {size} letters", {"const": text}, [text], changed(text), {"const": text}))
    good = [{text: 1}, {"": 0, text: 1, text + "~": 2}]
    bad = [{"": 0, it: 1} for it in changed(text) if it]
    GROUPS.append(at_once(f"a name of {size} letters", {"required": [text]}, good, bad, {"required": text}))
    names = {name: place for place, name in enumerate([text, text + "y", "y" + text])}
    bad = [{it: 0 if it == text else names.get(it, 3) for it in [other, *[*names][1:]]} for other in changed(text) if other]
    bad = [it for it in bad if len(it) == 3]
    asked = {"const": names}
    GROUPS.append(at_once(f"members with names of {size} letters", asked, [names], bad, asked))

# texts with the same first and last letters
ALIKE = [LETTERS[:place] + "z" + LETTERS[place + 1 :] for place in range(4, 20)]
bad = [LETTERS, *(it.replace("z", "~") for it in ALIKE), ALIKE[0] + "z", ALIKE[-1][1:]]
for count in 9, 10, 11, 16:
    asked = {"enum": ALIKE[16 - count :]}
    GROUPS.append(at_once(f"{count} texts that begin and end alike", asked, asked["enum"], bad, asked))

for count in 3, 16, 17, 33:
    for what, names in ("", [f"n{place:02}:" for place in range(count)]), (", asked for in reverse", [f"m{count - place:02}:" for place in range(count)]):
        whole = {name: 0 for name in names}
        more = {"": 0, **whole, names[0] + "~": 1, "~": 2}
        # more than 16 members for a name
        many = {f"{name}{place:02}:": 0 for name in ["a", "z"] for place in range(30)} if count == 3 else {"z": 0}
        tests = [test("all are there", {"valid": True}, each=[whole, more, {**whole, **many}])]
        for place in sorted({0, 1, count // 2, 15, count - 2, count - 1} & {*range(count)}):
            left = {name: 0 for name in names if name != names[place]}
            each = [left, {**left, names[place] + ":": 0}, {**left, **many}]
            tests.append(test(f"that at {place} is not there", {"errors": [{"required": names[place]}]}, each=each))
        schema = {"required": names}
        GROUPS.append({"description": f"{count} names{what}", "schema": schema, "tests": tests})

for size in 1, 2, 5, 9:
    numbers = [*range(11, 11 + size)]
    bad = [numbers[:place] + [it] + numbers[place + 1 :] for place in range(size) for it in (0, "a", None, [place + 11])]
    bad += [numbers[:-1], numbers + [0], {"0": 1}]
    GROUPS.append(at_once(f"an array of {size} numbers", {"const": numbers}, [numbers], bad, {"const": numbers}))
    mixed = [{"a": it} if it % 2 else [it] for it in numbers]
    bad = [mixed[:place] + [it] + mixed[place + 1 :] for place in range(size) for it in ({"a": 0}, [0], place + 11)]
    GROUPS.append(at_once(f"an array of {size} arrays and objects", {"const": mixed}, [mixed], bad, {"const": mixed}))

RISING = [0, 1, 2, 5, 8, 13, 21, 2**53 + 1, WORD, NATURAL - 1, NATURAL]
twice = [RISING[:place] + [RISING[other]] + RISING[place + 1 :] for place in range(11) for other in range(11) if place != other]
same = [[0, 1, 2, 3, 4, 5, 6, 7, 8, 9][: place + 1] + [f"{place}.0"] + [20, 21] for place in range(10)]
GROUPS.append(
    {
        "description": "integers that rise, of which one may be there twice",
        "schema": {"uniqueItems": True},
        "tests": [
            test("all differ", {"valid": True}, each=[RISING, RISING[::-1], RISING[1:] + RISING[:1], RISING[:-1] + [-1]]),
            test("one is there twice", {"errors": [{"uniqueItems": True}]}, each=twice),
            test("one is there twice, once with a point", {"errors": [{"uniqueItems": True}]}, each=same),
            test("fractions between them", {"valid": True}, each=[[0, "0.5", 1, 2, 3, 4, 5, 6, 7, 8], RISING + ["0.1"]]),
        ],
    }
)

floats = []
for good in [1, 2, 3], ["a", 1, None, True], [[1], {"a": [2]}]:
    for count, place in PLACES:
        items = [good[index % len(good)] for index in range(count)]
        for at, item in ("", 0.5), ("/0", [0.5]):
            data = items[:place] + [item] + items[place + 1 :]
            floats.append({"description": json.dumps(data), "data": data, "float": f"/{place}{at}"})
GROUPS.append({"description": "a float at each place", "schema": True, "tests": floats})


def decimal(text):
    """The coefficient and the scale of the decimal that a text with a point denotes, or None if there is none: of the
    scales from 1 to 18, and up to as many digits as are written, the greatest one whose coefficient has 64 bits."""
    whole, _, fraction = text.partition(".")
    for scale in range(min(18, len(fraction)), 0, -1):
        kept, lost = fraction[:scale], fraction[scale:]
        number = int(whole + kept)
        if not lost.strip("0") and -WORD <= number <= NATURAL:
            return number, scale
    return None


def written(number, scale):
    digits = str(abs(number)).rjust(scale + 1, "0")
    return f"{'-' * (number < 0)}{digits[:-scale]}.{digits[-scale:]}"


DIGITS = ["999999999999999999", "1234567890123456789", "9223372036854775808", "18446744073709551615", "25000000000000000000"]
tests = {}
for digits in DIGITS:
    for place in range(1, len(digits)):
        for text in f"{digits[:place]}.{digits[place:]}", f"-{digits[:place]}.{digits[place:]}0":
            number = decimal(text)
            if number:
                tests[text] = test("", {"valid": True}, data=written(*number)) | {"text": text, "description": text}
GROUPS.append({"description": "texts of 18 to 22 digits with a point", "schema": {"type": "number"}, "tests": [*tests.values()]})

ESCAPES = {
    r"\n": "\n", r"\r": "\r", r"\t": "\t", r"\b": "\b", r"\f": "\f", r"\"": '"', r"\\": "\\", r"\/": "/", r"\u0041": "A",
    r"\u00e9": "\u00e9", r"\u00E9": "\u00e9", r"\u0000": "\0", r"\u20AC": "\u20ac", r"\uaBcD": "\uabcd", r"\uFfFf": "\uffff",
    r"\ud7ff": "\ud7ff", r"\ue000": "\ue000", r"\ud83d\ude00": "\U0001f600", r"\uD800\uDC00": "\U00010000",
    r"\udbff\udfff": "\U0010ffff", r"\ud801\udc37": "\U00010437",
}
tests = []
for escape, letter in ESCAPES.items():
    for front, back in ("", ""), ("x", "y"), ("x" * 15, "y" * 17):
        text, data = f'"{front}{escape}{back}{escape}{back}"', f"{front}{letter}{back}{letter}{back}"
        tests.append(test(text, {"valid": True}, data=data) | {"text": text})
GROUPS.append({"description": "escapes in texts", "schema": {"type": "string"}, "tests": tests})



# texts whose members come in another order, and the names that are asked for
PLAIN = [f"n{place:02}:" for place in range(40)]
ORDERS = {
    "in reverse": PLAIN[::-1],
    "the second half first": PLAIN[20:] + PLAIN[:20],
    "one behind 39 greater ones, and one more": PLAIN[1:39] + PLAIN[:1] + PLAIN[39:],
    "by turns": PLAIN[::2] + PLAIN[1::2],
    "each twice, in reverse behind the first": PLAIN + PLAIN[::-1],
}
GROUPS.append(
    {
        "description": "members of a text in another order",
        "schema": {"required": ["n00:", "n19:", "n38:", "n39:"], "minProperties": 40},
        "tests": [
            test(name, {"valid": True}, data={it: len(order) - 1 - order[::-1].index(it) for it in PLAIN})
            | {"text": "{" + ",".join(f'"{it}":{place}' for place, it in enumerate(order)) + "}"}
            for name, order in ORDERS.items()
        ],
    }
)


def text_of(group):
    """The text of a group, a line for each test."""
    tests = ",\n        ".join(map(json.dumps, group.pop("tests")))
    return f"    {json.dumps(group)[:-1]}, \"tests\": [\n        {tests}\n    ]}}"


print("[\n" + ",\n".join(map(text_of, GROUPS)) + "\n]")
