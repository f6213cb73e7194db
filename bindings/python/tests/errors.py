"""Errors: their attributes, as the package `jsonschema` has them; copies; how many are made at a time; their cost."""

from __future__ import annotations

import copy
import json
import pickle
import time
import timeit
from collections import deque
from typing import Any

import jskw
from checks import ATTRIBUTES, IS_WATCHED, check, raised

# a schema, an instance, and the error's kind and what it expected
EXPECTED: list[tuple[Any, Any, str, Any]] = [
    ({"type": "array"}, 1, "type", "array"), ({"type": ["array", "null"]}, 1, "type", ["array", "null"]),
    ({"const": {"a": [1, "x\t"]}}, 1, "const", {"a": [1, "x\t"]}), ({"required": ["a"]}, {}, "required", "a"),
    ({"enum": [1, "b", None]}, 2, "enum", [1, "b", None]), ({"minimum": 3}, 2, "minimum", 3),
    ({"maximum": -(2**63)}, 2, "maximum", -(2**63)), ({"exclusiveMaximum": 2}, 2, "exclusiveMaximum", 2),
    ({"exclusiveMinimum": 2**64 - 1}, 2, "exclusiveMinimum", 2**64 - 1), ({"multipleOf": 2}, 3, "multipleOf", 2),
    ({"minItems": 2}, [1], "minItems", 2), ({"maxItems": 2}, [1, 2, 3], "maxItems", 2),
    ({"minProperties": 2}, {}, "minProperties", 2), ({"maxProperties": 0}, {"a": 1}, "maxProperties", 0),
    ({"items": [True], "additionalItems": False}, [1, 2], "additionalItems", 1),
    ({"uniqueItems": True}, [1, 1], "uniqueItems", None), ({"contains": False}, [1, 1], "contains", None),
    (False, 1, "falseSchema", None),
]  # fmt: skip
# a schema that does not compile, and what its error has
SCHEMA_ERRORS: list[tuple[Any, Any, Any, list[Any], Any]] = [
    ({"items": {"minItems": -1}}, "minimum", 0, ["items", "minItems"], -1), ([], "type", ["boolean", "object"], [], []),
    ({"prefixItems": [True, {"required": "a"}]}, "type", "array", ["prefixItems", 1, "required"], "a"),
    ({"items": {"items": {"type": "foo"}}}, "compileError", None, ["items", "items", "type"], "foo"),
    ({"required": ["a", 1]}, "type", "string", ["required"], ["a", 1]),
    ({"items": {"prefixItems": [True, 1]}}, "type", ["boolean", "object"], ["items", "prefixItems", 1], 1),
]  # fmt: skip


def run() -> None:
    attributes()
    schema_errors()
    copies()
    pages()
    times()


def first(schema: Any, instance: Any, draft: str = "2020-12") -> jskw.ValidationError:
    (error,) = jskw.Validator(schema, draft).iter_errors(instance)
    return error


def attributes() -> None:
    names = {"type": "object", "required": ["a b"]}
    error = first({"items": {"prefixItems": [names]}}, [[{}]])
    path, place, text = deque(["items", "prefixItems", 0, "required"]), deque([0, 0]), 'has no member "a b"'
    wanted = [text, "required", ["a b"], {}, names, place, place, place, path, path, path, "$[0][0]", [], None, None,
              "required", "a b", "/0/0", "/items/prefixItems/0/required"]  # fmt: skip
    check("the error's attributes", [getattr(error, name) for name in ATTRIBUTES], wanted)
    wanted = [f"{text} (instance '/0/0', schema '/items/prefixItems/0/required')", f"<ValidationError: {text!r}>", text]
    check("its text", [str(error), repr(error), *error.args], wanted)
    check("no other", str(raised(getattr, error, "x")), "'ValidationError' object has no attribute 'x'")
    value: list[list[dict[str, int]]] = [[{}]]
    check("the value is the caller's own", first({"items": {"items": names}}, value).instance is value[0][0], True)
    error = first({"items": False}, [1])
    got: Any = error.validator, error.validator_value, error.schema, list(error.path), list(error.schema_path)
    check("false", got, (None, None, False, [0], ["items"]))
    error = first({"contains": {"type": "null"}, "minContains": 2}, [1])
    check("contains", (error.kind, error.validator, error.validator_value), ("contains", "minContains", 2))
    for size in 1022, 1023, 5000:  # the text of the first has 1,024 bytes, those of the others are not in the line
        for limit in "x" * size, [*range(size), {"b": 1, "a": ["\n"]}], {"b": "y" * size, "a": -5}:
            error = first({"items": {"const": limit}}, [0])
            check("a long constant", (error.kind, error.expected, error.validator_value), ("const", limit, limit))
            error = first({"enum": [limit, None]}, 0)
            check("long options", (error.kind, error.expected), ("enum", [limit, None]))
    name = "a\tb\nc\\d\\t"
    error = first({"items": {"items": {"required": [name]}}}, [[None, {}]])
    got = error.message, error.expected, error.json_path
    check("words", got, (f"has no member {json.dumps(name)}", name, "$[0][1]"))
    error = jskw.ValidationError("x", path=["a", 0, "b c/~'", 1])
    check("by hand", (error.json_path, error.instance_location), ("$.a[0]['b c/~\\''][1]", "/a/0/b c~1~0'/1"))
    for schema, instance, kind, limit in EXPECTED:
        error = first(schema, instance, "7" if kind == "additionalItems" else "2020-12")
        check(f"{schema} expected", (error.kind, error.expected), (kind, limit))


def schema_errors() -> None:
    for schema, validator, limit, path, instance in SCHEMA_ERRORS:
        error = raised(jskw.Validator, schema)
        for one in error, pickle.loads(pickle.dumps(error)):
            got = one.validator, one.validator_value, list(one.path), one.instance, list(one.schema_path), str(one)
            check(f"{schema} does not compile", got, (validator, limit, path, instance, [], str(error)))
            check("its type", type(one), jskw.SchemaError)


def copies() -> None:
    validator = jskw.Validator({"items": {"required": ["a"]}})
    ways: list[Any] = [copy.copy, copy.deepcopy, lambda error: pickle.loads(pickle.dumps(error))]
    for copied in ways:
        for error in validator.iter_errors(b"[{}, 1, {}]"):
            other = copied(error)
            got, wanted = ([getattr(one, name) for name in ATTRIBUTES] for one in (other, error))
            check("a copy of an error", (type(other), str(other), got), (type(error), str(error), wanted))
    for one in (jskw.InexactNumber("/a/0", ["a", 0], "1e400", 6, 1, 7), jskw.BadSetting("draft=1 is not one of '4'"),
                jskw.NotJson("schema", "is not JSON", 3, 1, 4, kind="x"), jskw.ValidationError("by hand")):  # fmt: skip
        again = pickle.loads(pickle.dumps(one))
        check(f"a copy of {one!r}", (type(again), str(again), vars(again)), (type(one), str(one), vars(one)))
    _, error = validator.iter_errors(b"[{}, 1, {}]")
    parent = jskw.ValidationError("above", path=["a"], schema_path=["b"], context=[error])
    check("a parent", (error.parent, list(error.absolute_path)), (parent, ["a", 2]))


def pages() -> None:
    """Each error comes once and in order, whatever their number, if the validator is closed behind the first too."""
    for count in 1, 10, 63, 64, 65, 300, 1024, 1025:
        for limit in None, 1, count - 1 or None, count, count + 1, 64, 65, 2**64 - 1:
            value = list(range(count))
            for instance in value, json.dumps(value).encode():
                validator = jskw.Validator({"items": {"type": "string"}})
                errors = validator.iter_errors(instance, limit=limit)
                found = [next(errors)]
                validator.close()
                got = [(list(error.path), error.instance) for error in [*found, *errors]]
                check(f"limit {limit} of {count}", got, [([i], i) for i in range(min(limit or count, count))])


def times() -> None:
    validator, value = jskw.Validator({"items": {"type": "string"}}), list(range(4000))

    def seconds(call: Any) -> float:
        return min(timeit.repeat(call, timer=time.process_time, repeat=15, number=1))

    for instance in value, json.dumps(value).encode():
        check("4,000 errors", [list(error.path) for error in validator.iter_errors(instance)], [[i] for i in value])
        taken = seconds(lambda: [error.path for error in validator.iter_errors(instance)])
        check("4,000 errors with their paths take less than 0.1 s", taken < 0.1 or IS_WATCHED, True)
    one = seconds(lambda: next(validator.iter_errors(instance)))
    alone = seconds(lambda: validator._call("first_error", instance))
    check("the first error takes the time of the first", one < 3 * alone or IS_WATCHED, True)
