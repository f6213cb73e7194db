"""Schemas and instances as values and as texts; values whose classes run code while they are written: it changes what
is walked, closes the schema, asks, forks."""

from __future__ import annotations

import enum
import gc
import json
import os
import random
from collections import OrderedDict
from concurrent.futures import ThreadPoolExecutor
from decimal import Decimal
from typing import Any, Callable

import jskw
from jskw._jskw import find, text_of

from checks import check, raised


class Runs(list[Any]):
    """A list that runs code when it is read, and has other items than those in it."""

    def __init__(self, code: Callable[[], Any], *items: Any) -> None:
        self.code, self.items = code, items

    def __iter__(self) -> Any:
        self.code()
        gc.collect()
        return iter(self.items)


def fail(*_: Any) -> Any:
    raise RuntimeError


Bytes: Any = type("Bytes", (bytes,), {"__len__": lambda self: 10**9, "__bytes__": lambda self: b"lie"})
Name: Any = type("Name", (str,), {"__eq__": fail, "__hash__": str.__hash__, "__str__": fail})
Number: Any = type("Number", (int,), dict.fromkeys(["__index__", "__int__", "__str__", "__repr__"], fail))
Text: Any = type("Text", (Decimal,), {"__str__": lambda self: "--"})
Nameless: Any = type("Nameless", (type,), {"__name__": 5})


def below(frames: int, validator: jskw.Validator) -> Any:
    return below(frames - 1, validator) if frames else validator.evaluate(b"[" * 120 + b"]" * 120)


def forget(_: Any) -> str:
    KEYS.clear()
    gc.collect()
    return "key" * 40


KEYS: dict[Any, Any] = {type("Key", (), {"__repr__": forget})(): [1]}
Color = enum.IntEnum("Color", "RED")
VALUES: list[Any] = [{"a": [1, "x"]}, {"a": (1, "x")}, {"a": [Color.RED, "x"]}, OrderedDict(a=[1, "x"])]
TEXT = b'{"a": [1, "x"]}'
WHERE: Any = {"": {"": 0}, "0": 1, "b/~": [{"c": ()}, 5]}
FOUND: dict[str, tuple[Any, ...]] = {
    "": (WHERE,), "//": (0, "", ""), "/0": (1, "0"), "/b~1~0/1": (5, "b/~", 1), "/b~1~0/0/c": ((), "b/~", 0, "c"),
    "/b~1~0/2": (None, "b/~", 2), "/b~1~0/-1": (None, "b/~", "-1"), "/x/0": (None, "x", "0"),
    "/b~1~0/0/c/99999999999999999999": (None, "b/~", 0, "c", "99999999999999999999"),
}  # fmt: skip
# a keyword, its value, an instance, and whether it is valid
ROWS: list[tuple[str, Any, Any, bool]] = [
    ("type", "string", '{"a": 1}', True), ("uniqueItems", True, [12.5, 0.1, 1e-5], True),
    ("uniqueItems", True, [Decimal("12.50"), Decimal("0.1"), Decimal("1E+2")], True),
    ("uniqueItems", True, [Decimal("12.50"), 12.5], False), ("uniqueItems", True, [0.1 + 0.2, 0.3], True),
    ("multipleOf", 3, b"[12.0, 4]", True), ("multipleOf", 3, Decimal("12.0"), True), ("multipleOf", 3, 12.5, False),
    ("type", "integer", 1.0, True), ("type", "integer", b"1.0", True),
]  # fmt: skip


def run() -> None:
    validator = jskw.Validator({"type": "object", "const": {"a": [1, "x"]}})
    for value in [TEXT, bytearray(TEXT), memoryview(TEXT), memoryview(TEXT + b"  ")[:-2], *VALUES]:
        check(f"{value!r}", validator.is_valid(value), True)
    for schema in b'{"type": "null"}', bytearray(b'{"type": "null"}'), memoryview(b'{"type": "null"}'):
        null = jskw.Validator(schema)
        check(f"the schema {schema!r}", (null.is_valid(None), null.schema), (True, {"type": "null"}))
    for keyword, limit, instance, wanted in ROWS:
        check(f"{keyword} of {instance!r}", jskw.Validator({keyword: limit}).is_valid(instance), wanted)
    whole = jskw.Draft4Validator({"type": "integer"})
    check("1.0 in Draft 4", (whole.is_valid(1.0), whole.is_valid(b"1.0")), (False, False))
    (error,) = jskw.Validator({"items": {"minimum": 0}}).iter_errors([Decimal("-0.01"), 1])
    got = list(error.path), error.instance, type(error.instance)
    check("the Decimal itself", got, ([0], Decimal("-0.01"), Decimal))
    for location, found in FOUND.items():
        check(f"at {location}", find(WHERE, location), found)
    as_json_writes()
    hostile()


def as_json_writes() -> None:
    """The text of a value is that of the module `json`, but for its spaces and escapes."""
    rng = random.Random(3)
    values = [random_value(rng, 4) for _ in range(5000)]
    # as a text, 0.0 and -0.0 differ
    wanted = [repr(json.loads(json.dumps(value))) for value in values]
    check("texts", [repr(json.loads(text_of(value, "value"))) for value in values], wanted)


def random_value(rng: random.Random, depth: int) -> Any:
    kind = rng.random()
    if depth and kind < 0.5:
        below = [random_value(rng, depth - 1) for _ in range(rng.randrange(5))]
        return rng.choice([list, tuple])(below) if kind < 0.25 else {random_string(rng): one for one in below}
    if kind < 0.7:
        return random_string(rng)
    digits = rng.randrange(-(10 ** rng.randrange(1, 22)), 10 ** rng.randrange(1, 22))
    fraction = rng.random() * 10.0 ** rng.randrange(-300, 300)
    return rng.choice([digits, digits / 10 ** rng.randrange(12), fraction, -0.0, True, False, None])


def random_string(rng: random.Random) -> str:
    most, size = rng.choice([0x80, 0x100, 0xD800, 0x10FFFF]), rng.choice([0, 1, 5, 7, 8, 9, 17, 300])
    codes = [rng.choice([rng.randrange(most), 0x22, 0x5C, 0x61]) for _ in range(size)]
    return "".join(chr(code) for code in codes if not 0xD800 <= code < 0xE000)


def hostile() -> None:
    asks = jskw.Validator({"items": {"type": ["string", "array"]}})
    items: list[Any] = []
    items += [["x" * 50, Runs(items.clear, 1, 2)], "y" * 50]
    check("an emptied list", raised(jskw.Validator({"maxItems": 1}).validate, items), None)
    members: dict[str, Any] = {}
    for code in members.clear, lambda: members.update(b=1), lambda: members.pop("a"):
        members.update(a=Runs(code, 1), z=1)
        check("a changed dict", type(raised(asks.is_valid, members)), RuntimeError)
    for name in "is_valid", "validate", "iter_errors", "evaluate":
        closed = jskw.Validator({"items": {"type": "string"}})
        raised(getattr(closed, name), [Runs(closed.close, 1)])
        check("a closed one", str(raised(closed.is_valid, 1)), "the validator is closed")
    told: list[Any] = []
    asking = Runs(lambda: told.append((asks.is_valid([1] * 3000), len(list(asks.iter_errors([1] * 300))))), "a")
    check("asked meanwhile", (asks.is_valid([asking]), told), (True, [(False, 300)]))
    forks = Runs(lambda: os.fork() or os._exit(asks.is_valid(["a"]) and not asks.is_valid([1])), "a")
    check("forked meanwhile", (asks.is_valid([forks]), os.waitstatus_to_exitcode(os.wait()[1])), (True, 1))
    endless, recursive = Runs(lambda: None), Runs(lambda: asks.is_valid(recursive))
    endless.items = (endless,)
    check("endless", type(raised(asks.is_valid, endless)), jskw.NotJson)
    check("recursive", type(raised(asks.is_valid, recursive)), RecursionError)
    texts: list[tuple[Any, bytes]] = [
        (Bytes(b"[1]"), b"[1]"), ([Number(5), Number(2**70)], b"[5,1180591620717411303424]"), (Text("1.50"), b"1.50"),
        ({Name("a"): 1, "b": Name("c")}, b'{"a":1,"b":"c"}'), (bytearray(b"[1]"), b"[1]"),
    ]  # fmt: skip
    for value, text in texts:
        check(f"the text of {type(value)}", text_of(value, "value"), text)
    check("a broken text", raised(asks.is_valid, Bytes(b"[1")).offset, 2)
    check("an inexact number", raised(asks.is_valid, Bytes(b"[1e400]")).instance, "1e400")
    error = raised(asks.is_valid, Nameless("", (), {})())
    check("a class without a name", str(error), "the instance is not JSON: 5 is no type of JSON")
    check("a name that goes", type(raised(asks.is_valid, KEYS)), jskw.NotJson)
    levels = jskw.Validator(b'{"items":' * 120 + b"{}" + b"}" * 120)
    check("a tree below 700 frames", below(700, levels), levels.evaluate(b"[" * 120 + b"]" * 120))
    errors = list(asks.iter_errors([1] * 2000))
    with ThreadPoolExecutor(8) as pool:
        seen = list(pool.map(lambda _: [id(error.path) for error in errors], range(8)))
    check("attributes for all threads", seen, seen[:1] * 8)
