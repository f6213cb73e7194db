"""What is refused, with the words that say why; what is not checked; schemas that are to be checked whole."""

from __future__ import annotations

import copy
import pickle
import warnings
from collections import OrderedDict
from decimal import Decimal
from typing import Any, Callable

import jskw
from checks import check, check_raises, raised

NESTS = "nests more than 127 levels, which JSON allows and jskw does not"
SURROGATE = "has the escape of a lone surrogate, which JSON allows and jskw does not"
DRAFTS = "'4', '6', '7', '2019-09', '2020-12'"
is_valid = jskw.Validator(True).is_valid
CALLS: list[tuple[str, Callable[..., Any]]] = [("instance", is_valid), ("schema", jskw.Validator)]
SETTINGS: list[tuple[dict[str, Any], str]] = [
    *(({"draft": draft}, f"draft={draft!r} is not one of {DRAFTS}") for draft in (7, "3", ["7"])),
    ({"vocabularies": ["core", "f"]}, "vocabularies='f' is not one of 'core', 'applicator', 'validation'"),
    ({"vocabularies": "core"}, "vocabularies='core' is not a list of names"),
    ({"vocabularies": 7}, "vocabularies=7 is not a list of names"),
    ({"overridden": "items"}, "overridden='items' is not a list of names"),
    ({"overridden": [1]}, "overridden: 1 is not a name"),
]
# what JSON does not have, or has and is refused: why, and the line where it stands
TEXTS = [
    (b"", "earlyEnd", 1), (b"[1,\n 2,\n x]", "word", 3), (b'{"a": 1,}', "trailingComma", 1), (b"[01]", "number", 1),
    (b'"\xff"', "notUtf8", 1), (b'"\x00"', "controlCharacter", 1), (b"\xef\xbb\xbf1", "byteOrderMark", 1),
    (b"1 2", "moreText", 1), (b'"' + b"[" * 200, "unclosedString", 1), (b"[" * 1_000_000, "tooDeep", 1),
    (b"\n" + b'{"a":' * 127 + b"[]" + b"}" * 127, "tooDeep", 2), (b'["[[' + b'",[' * 3 + b" 1 1", "missingComma", 1),
    (b'["ok",\n "\\udc00x"]', "loneSurrogate", 2), (b'{"\\ud83d\\ude00": "\\ud800\\u0061"}', "loneSurrogate", 1),
]  # fmt: skip
SHOWN = {"tooDeep": NESTS, "loneSurrogate": SURROGATE, "missingComma": "is not JSON: a comma is missing"}
RING: dict[str, Any] = {"a": [Decimal(1)]}
RING["a"].append(RING)
DEEP: Any = 1
for _ in range(500):
    DEEP = [DEEP]
# what a value has that JSON does not, and where
VALUES: list[tuple[Any, list[Any], str]] = [
    ({1: 2}, [], "is not JSON: the name 1 of a member is no string"),
    ({"a": [{None: 1}]}, ["a", 0], "is not JSON: the name None of a member is no string"),
    ({"a": Decimal(1), True: 1}, [], "is not JSON: the name True of a member is no string"),
    (float("nan"), [], "is not JSON: the float nan is no number"),
    ([0.0, float("-inf")], [1], "is not JSON: the float -inf is no number"),
    ([Decimal("Infinity")], [0], "is not JSON: the Decimal Infinity is no number"),
    ({"a": {1}}, ["a"], "is not JSON: set is no type of JSON"), ([b"a"], [0], "is not JSON: bytes is no type of JSON"),
    (OrderedDict(a=(0, object)), ["a", 1], "is not JSON: type is no type of JSON"),
    ("\ud800", [], SURROGATE), ({"a": {"\udc00": 1}}, ["a", "\udc00"], SURROGATE),
    (RING, ["a", 1] * 63 + ["a"], NESTS), (DEEP, [0] * 127, NESTS),
]  # fmt: skip
# numbers that are not exact, each with its path, and in a text its offset, line and column
INEXACT: list[Any] = [
    ({"a": [1e300]}, ["a", 0]), (2**64, []), (Decimal("1e-19"), []), ([0.1, 1.0000000000000002e-7], [1]),
    (b'{"a": [1, 1e400]}', ["a", 1], 10, 1, 11), (b'{"\xc3\xa9":\n [' + b"1" * 5000 + b"]}", ["é", 0], 9, 2, 3),
]  # fmt: skip
# numbers that the standard allows in a schema, and jskw does not take
NUMBERS: list[tuple[Any, list[Any], str]] = [
    ({"minimum": 0.5}, ["minimum"], "0.5"), (b'{"items": {"maximum": 1.0}}', ["items", "maximum"], "1.0"),
    (b'{"multipleOf": 1E-2}', ["multipleOf"], "1E-2"), ({"minItems": 2.0}, ["minItems"], "2.0"),
    ({"maxItems": 2**64}, ["maxItems"], str(2**64)), (b'{"const": [-0]}', ["const", 0], "-0"),
    ({"enum": [0, "2.5", {"a": [Decimal("2.50")]}]}, ["enum", 2, "a", 0], "2.50"),
]  # fmt: skip
META: dict[str, type[jskw.Validator]] = {
    "http://json-schema.org/draft-04/schema#": jskw.Draft4Validator,
    "http://json-schema.org/draft-06/schema": jskw.Draft6Validator,
    "http://json-schema.org/draft-07/schema#": jskw.Draft7Validator,
    "https://json-schema.org/draft/2019-09/schema": jskw.Draft201909Validator,
    "https://json-schema.org/draft/2020-12/schema": jskw.Draft202012Validator,
}
DRAFT_4 = {"$schema": "http://json-schema.org/draft-04/schema#", "minimum": 1, "exclusiveMinimum": True}
# calls, and what they raise
OTHERS: list[tuple[Any, Any, list[Any]]] = [
    *((jskw.NotJson, jskw.validator_for, [text]) for text in (b"{", b"[" * 100_000)),
    *((jskw.BadSetting, jskw.validator_for, [{"$schema": name}])
      for name in ("x", "http://json-schema.org/draft-07/schema##", 1)),
    (type(None), jskw.validate, [2, DRAFT_4]), (jskw.ValidationError, jskw.validate, [1, DRAFT_4]),
    (jskw.SchemaError, jskw.validate, [1, {"minItems": -1}]),
    (type(None), jskw.validate, [[1], {"items": [True]}, jskw.Draft7Validator]),
    (type(None), jskw.Draft7Validator.check_schema, [{"minItems": 1}]),
    *((jskw.SchemaError, jskw.Draft7Validator.check_schema, [schema]) for schema in
      ({"minItems": 2.5}, {"minItems": -2.0}, {"type": 2.0}, {"minimum": "2.0"}, {"multipleOf": 0}, None, [], "")),
    (jskw.NotJson, is_valid, [b"[1e400,"]), (jskw.NotJson, jskw.Validator, [{"const": 10**5000}]),
]  # fmt: skip
# schemas, and what is not checked of them
SCHEMA = {"items": [{"a\t\n\\/~": 1}, {"type": "string"}], "minimun": 1, "0": 1, "title": "t"}
MEMBERS = [("0", ("0",), "unknown"), ("a\t\n\\/~", ("items", 0, "a\t\n\\/~"), "unknown"),
           ("minimun", ("minimun",), "unknown")]  # fmt: skip
UNCHECKED: list[tuple[Any, dict[str, Any], list[Any]]] = [
    (b'{"not": {}, "title": 1}', {}, [("not", ("not",), "notImplemented")]),
    ({"items": {"type": "null"}, "$defs": {"a": {"b": 1}}}, {}, []), (True, {}, []),
    ({"type": "null"}, {"overridden": ["type"]}, [("type", ("type",), "inactive")]), (SCHEMA, {"draft": "7"}, MEMBERS),
    # names that the text repeats, also in what is not looked at otherwise, but not below what is replaced
    (b'{"type": "null", "type": "null"}', {}, [("type", ("type",), "repeated")]),
    (b'{"items": {"items": 1, "a": 2, "items": true}, "x": [{"b/": 1, "b\\/": 2}, {"b": 1}]}', {},
     [("a", ("items", "a"), "unknown"), ("x", ("x",), "unknown"), ("b/", ("x", 0, "b/"), "repeated"),
      ("items", ("items", "items"), "repeated")]),
    (b'{"enum": [{"a": {"b": 1, "b": 2}, "a": 1}, {"a": 1}, "a", "a"]}', {}, [("a", ("enum", 0, "a"), "repeated")]),
    (b'{"const": {"\\u0061": 1, "b": {"c": 1, "d": [], "c": 2}, "a": 2, "a": 3}}', {},
     [("a", ("const", "a"), "repeated"), ("c", ("const", "b", "c"), "repeated"), ("a", ("const", "a"), "repeated")]),
]  # fmt: skip


def run() -> None:
    for given, message in SETTINGS:
        check_raises(jskw.BadSetting, message, jskw.Validator, True, **given)
    check_raises(jskw.BadSetting, "draft='6' is not one of '7'", jskw.Draft7Validator, True, "6")
    for limit in 0, -1, 2**64, "1", 1.5:
        message = f"limit={limit!r} is not None or from 1 to 2^64-1; evolve(schema=..) takes another schema"
        check_raises(jskw.BadSetting, message, jskw.Validator(True).iter_errors, 1, limit)
    for outcome, call, arguments in OTHERS:
        check(f"{call} raises {outcome}", type(raised(call, *arguments)), outcome)
    for name, wanted in META.items():
        check(name, (jskw.validator_for({"$schema": name}), wanted(True).draft), (wanted, wanted.DRAFTS[0]))
    found = [jskw.validator_for(one, jskw.Draft7Validator) for one in (b"true", {"$schema": "x"})]
    check("no $schema", [jskw.validator_for({}), *found], [jskw.Draft202012Validator, *[jskw.Draft7Validator] * 2])
    not_json()
    numbers()
    unchecked()


def not_json() -> None:
    for what, call in CALLS:
        for text, kind, line in TEXTS:
            error = raised(call, text)
            got = type(error), [getattr(error, name, None) for name in ("text", "kind", "line")]
            check(f"{what} {text[:40]!r}", got, (jskw.NotJson, [what, kind, line]))
            wanted = f"the {what} {SHOWN.get(kind, 'is not JSON: ' + error.reason[13:])} at line {line}, column "
            check("its text", str(error)[: len(wanted)], wanted)
        for value, path, reason in VALUES:
            pointer = "".join(f"/{step}" for step in path)
            place = f" (at {pointer if len(pointer) <= 80 else pointer[:80] + '..'!r})" if path else ""
            error = raised(call, value)
            told = type(error), list(getattr(error, "path", ())), str(error)
            check(f"{what} {reason}", told, (jskw.NotJson, path, f"the {what} {reason}{place}"))
    check("127 levels", is_valid(b"[" * 127 + b"]" * 127), True)
    wanted = "the instance is not JSON: a word that is not true, false or null at line 2, column 3 (byte 6)"
    check_raises(jskw.NotJson, wanted, is_valid, b"[1,\n  ?]")
    wanted = "the schema has a number that is too large for a double, which JSON allows and jskw does not"
    check_raises(jskw.NotJson, wanted, jskw.Validator, b'{"minimum": 1e400}')


def numbers() -> None:
    for value, *place in INEXACT:
        for name in "is_valid", "validate", "iter_errors", "evaluate":
            error = raised(getattr(jskw.Validator(True), name), value)
            told = type(error), list(error.path), error.offset, error.line, error.column
            check(f"{str(value)[:40]} is not exact", told, (jskw.InexactNumber, *place, *[None] * (4 - len(place))))
    for number in 10**5000, -(10**5000), 10**200, -(2**63) - 1:
        error = raised(is_valid, {"a": number})
        check("long", (type(error), error.instance == number, len(str(error)) < 300), (jskw.InexactNumber, True, True))
    wanted = "of at most 18 decimals, at least one if it has a point or an exponent, and without its point from"
    text = f"the number 2e18 at '/1' is not exact: {wanted} -2^63 to 2^64-1"
    check("2e18", str(raised(is_valid, b"[1e18, 2e18]")), text)
    rest = "limits and the numbers of `const` and `enum` are whole numbers here, from -2^63 to 2^64-1, without"
    for schema, path, digits in NUMBERS:
        error = raised(jskw.Validator, schema)
        text = f"jskw does not take the number {digits}: {rest} exponent"
        for one in error, pickle.loads(pickle.dumps(error)):
            got = type(one), list(one.path), one.number, one.message
            check(f"{schema} has a number", got, (jskw.UnsupportedNumber, path, digits, text))


def unchecked() -> None:
    for schema, settings, members in UNCHECKED:
        validator = jskw.Validator(schema, **settings)
        for other in validator, copy.copy(validator), pickle.loads(pickle.dumps(validator)):
            check(f"of {schema}", other.unchecked, members)
        error = raised(jskw.Validator, schema, strict=True, **settings)
        for one in error, pickle.loads(pickle.dumps(error)):
            check(f"strict, of {schema}", (type(one), one and one.unchecked),
                  (jskw.UncheckedError, members) if members else (type(None), None))  # fmt: skip
    with warnings.catch_warnings(), jskw.Draft7Validator(SCHEMA, strict=False) as validator:
        warnings.simplefilter("error")
        check("no warning", validator.is_valid([]), True)
        listed = validator.unchecked
    check("members", ({type(one) for one in listed}, listed[1].keyword_location),
          ({jskw.UncheckedMember}, "/items/0/a\t\n\\~1~0"))  # fmt: skip
    check("after close", validator.unchecked, MEMBERS)
    text = "the schema has what is not checked: /0 (unknown), /items/0/a\t\n\\~1~0 (unknown), /minimun (unknown)"
    kind = jskw.Draft7Validator
    calls: list[Any] = [(kind, SCHEMA), (kind.check_schema, SCHEMA), (jskw.validate, [], SCHEMA, kind)]
    for call, *given in calls:
        check_raises(jskw.UncheckedError, text, call, *given, strict=True)
    check("a refusal comes first", type(raised(jskw.Validator, {"a": 1, "type": 5}, strict=True)), jskw.SchemaError)
    many: Any = {f"x{number:02}": 1 for number in range(100)}
    error = raised(jskw.Validator, many, strict=True)
    check("all are listed", [member.keyword for member in error.unchecked], list(many))
    shown = ", ".join(f"/x{number:02} (unknown)" for number in range(10))
    check("ten are shown", str(error), f"the schema has what is not checked: {shown} and 90 more")
