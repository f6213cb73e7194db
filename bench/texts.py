"""Texts of 1 MB to read: of each kind of values, with a schema, and some that were made to be slow."""

import json
import random

SIZE = 1_000_000


def array_of(text_at):
    texts, size, index = [], 2, 0
    while size < SIZE:
        texts.append(text_at(index))
        size += len(texts[-1]) + 1
        index += 1
    return "[" + ",".join(texts) + "]"


def list_of(schema):
    return {"type": "array", "items": schema}


def object_of(names):
    return "{" + ",".join(f'"{name}":1' for name in names) + "}"


def compact(value):
    return json.dumps(value, separators=(",", ":"))


def person(index):
    return {"id": index, "name": f"name{index}", "email": f"{index}@example.org", "age": index % 90, "active": True}


def order(rng, index):
    lines = [{"article": f"article-{k:03}", "quantity": k + 1, "price": round(100 * rng.random(), 2)} for k in range(4)]
    return {"order": index, "status": "open", "lines": lines, "total": round(1_000 * rng.random(), 2)}


def kinds():
    """A name, a text of each kind, and a schema against which it is valid."""
    rng = random.Random(1)
    price, degrees = {"type": "number", "minimum": 0}, {"type": "number", "minimum": -180, "maximum": 180}
    levels = {"type": "array", "items": {"type": "array", "items": {"type": "array"}}}

    def integer(index):
        return str(rng.randrange(10 ** rng.randrange(1, 10)))

    def amount(index):
        return f"{rng.randrange(10 ** rng.randrange(1, 5))}.{rng.randrange(100):02}"

    def place(index):
        return compact([round(rng.uniform(-180, 180), 6) for _ in range(2)])

    def nested(index):
        return compact([[[index % 7, [index % 100]], [index % 3, []]], [[1, 2]]])

    pair = {"type": "array", "minItems": 2, "maxItems": 2, "items": degrees}
    yield "integers", array_of(integer), list_of({"type": "integer", "minimum": 0})
    yield "prices", array_of(amount), list_of(price)
    yield "coordinates", array_of(place), list_of(pair)
    yield "objects", array_of(lambda index: compact(person(index))), list_of({"required": ["id", "name", "email"]})
    orders = array_of(lambda index: compact(order(rng, index)))
    yield "orders with prices", orders, list_of({"required": ["order", "lines"]})
    yield "strings", array_of(lambda index: f'"prefix-{index:06}-suffix"'), list_of({"type": "string"})
    yield "nested arrays", array_of(nested), list_of(levels)


def asked():
    """A name, the text of a schema and a text of each kind."""
    return [(name, compact(schema), text) for name, text, schema in kinds()]


def hostile():
    """A name and a text that was made to be slow."""
    integers = next(kinds())[1][:-1]
    level = "[" * 126 + "]" * 126
    yield "a number of 1,000,000 digits", "7" * SIZE
    yield "the same, and 18 zeros behind a point", "7" * SIZE + "." + "0" * 18
    yield "0.000..", "0." + "0" * SIZE
    yield "0.000..1", "0." + "0" * SIZE + "1"
    yield "0.000..1000..e500000", "0." + "0" * (SIZE // 2) + "1" + "0" * (SIZE // 2) + f"e{SIZE // 2}"
    yield "1.000..", "1." + "0" * SIZE
    yield "1.000..1", "1." + "0" * SIZE + "1"
    yield "1000..e-1000000", "1" + "0" * SIZE + f"e-{SIZE}"
    yield "17 digits and 1,000,000 zeros", "12345678901234567." + "0" * SIZE
    yield "an exponent of 1,000,000 digits", "1e" + "9" * SIZE
    yield "the same, negative", "1e-" + "9" * SIZE
    yield "the same, of zeros", "1e" + "0" * SIZE
    yield "100,000 equal names", object_of("a" for _ in range(100_000))
    yield "80,000 names in falling order", object_of(f"n{80_000 - k:06}" for k in range(80_000))
    yield "80,000 names in rising order", object_of(f"n{k:06}" for k in range(80_000))
    yield "80,000 names in no order", object_of(f"n{k * 7_919 % 80_000:06}" for k in range(80_000))
    yield "127 levels, 3,900 times", array_of(lambda index: level)
    yield "128 levels, behind 3,900 times 127", array_of(lambda index: level)[:-1] + f",[{level}]]"
    yield "1,000,000 [", "[" * SIZE
    yield "a string, and a break", '["' + "a" * SIZE + '",]'
    yield "127 names of 7,800 letters, an inexact number", 127 * ('{"' + "a" * 7_800 + '":') + "1e-19" + 127 * "}"
    yield "integers, and an inexact number", integers + ",1e-19]"
    yield "integers, and a break", integers + ",]"
