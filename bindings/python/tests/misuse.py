"""What users try that is wrong, or that other packages allow, with its answer; a validator in threads and processes."""

from __future__ import annotations

import copy
import json
import multiprocessing
import os
import pickle
import subprocess
import sys
from concurrent.futures import Executor, ProcessPoolExecutor, ThreadPoolExecutor
from typing import Any, Callable

import jskw
from checks import check, check_raises, raised

CLOSED = "the validator is closed"
ONE = "is_valid() takes one argument, the instance"
LONG = json.dumps([*range(3000), "a"]).encode()
COPIES: list[Callable[[Any], Any]] = [copy.copy, copy.deepcopy, lambda one: pickle.loads(pickle.dumps(one))]


def run() -> None:
    copies_and_closed_ones()
    arguments()
    validator = jskw.Validator({"items": {"type": "integer"}})
    with ThreadPoolExecutor(8) as pool, ThreadPoolExecutor(8) as others:
        check_pool("threads", pool, validator)
        asked = [*others.map(validator.is_valid, [b"[1]"] * 50), *pool.map(validator.is_valid, [b"[1]"] * 50)]
        check("two pools", asked, [True] * 100)
    for method in ["fork"] * ("asan" not in os.environ.get("LD_PRELOAD", "")) + ["spawn"]:
        with ProcessPoolExecutor(2, mp_context=multiprocessing.get_context(method)) as processes:
            check_pool(f"processes by {method}", processes, validator)
    closes_while_asked()
    told = subprocess.run([sys.executable, "-c", "import sys; sys.abiflags = 't'; import jskw"], capture_output=True)
    check("a free-threaded Python", b"ImportError: jskw: a free-threaded Python has no stable ABI" in told.stderr, True)


def copies_and_closed_ones() -> None:
    for copied in COPIES:
        with jskw.Draft7Validator({"required": ["a"]}, overridden=["items"]) as validator:
            other = copied(validator)
        del validator
        got = type(other), other.draft, other.overridden, other.is_valid({"a": 1}), other.is_valid({}), other.schema
        check("a copy", got, (jskw.Draft7Validator, "7", ("items",), True, False, {"required": ["a"]}))
    with jskw.Validator(True) as one:
        check("open", one.is_valid(1), True)
    for name in "is_valid validate iter_errors evaluate __reduce__ __enter__ __copy__".split():
        check_raises(ValueError, CLOSED, getattr(one, name), *[1] * (name[0] != "_"))
    one.close()
    told = one.schema, one.unchecked, repr(one)
    check("a closed one", told, (True, [], "<Validator draft='2020-12' schema=true, closed>"))


def arguments() -> None:
    check("no draft is the newest", jskw.Validator(True, draft=None).draft, "2020-12")
    new, ask = jskw.Validator, jskw.Validator({"type": "null"}).is_valid
    check("a schema is needed", type(raised(new)), TypeError)
    check("by name", ask(instance=None), True)
    rows: list[Any] = [((), {}), ((1, 2), {}), ((), {"x": 1}), ((1,), {"instance": 1})]
    for given, named in rows:
        check_raises(TypeError, ONE, ask, *given, **named)
    # a validator and its errors do not follow what is changed afterwards
    schema: dict[str, Any] = {"items": {"type": "string"}}
    validator, instance = jskw.Validator(schema), [[1], *range(100)]
    errors = validator.iter_errors(instance)
    instance.clear()
    schema.clear()
    got = [list(error.path) for error in errors], validator.is_valid([1])
    check("what is changed", got, ([[i] for i in range(101)], False))


def check_pool(what: str, pool: Executor, validator: jskw.Validator) -> None:
    asked = list(pool.map(validator.is_valid, [[1, 2], [1, "a"], LONG] * 20))
    check(f"{what}: is_valid", asked, [True, False, False] * 20)
    rows: list[tuple[Any, Any, type[Exception], list[Any]]] = [
        (validator.validate, [1, "a"], jskw.ValidationError, [1]),
        (validator.validate, LONG, jskw.ValidationError, [3000]),
        (validator.validate, b"{", jskw.NotJson, []),
        (validator.validate, {"a": [1e300]}, jskw.InexactNumber, ["a", 0]),
        (jskw.Validator, {"minItems": -1}, jskw.SchemaError, ["minItems"]),
    ]
    errors: list[Any] = [future.exception() for future in [pool.submit(call, given) for call, given, *_ in rows]]
    got = [(type(error), list(error.path)) for error in errors], errors[2].text
    check(f"{what}: errors come back", got, ([(kind, path) for *_, kind, path in rows], "instance"))
    made = pool.submit(jskw.Validator, {"type": "null"}, "7").result()
    check(f"{what}: a validator comes back", (made.is_valid(None), made.is_valid(1), made.draft), (True, False, "7"))


def closes_while_asked() -> None:
    """Threads ask while others close the validator: each call answers, or says that it is closed."""
    told: list[str] = []

    def ask(validator: jskw.Validator) -> None:
        while not validator.is_valid(LONG) and validator.is_valid([1]):
            pass

    for _ in range(20):
        with ThreadPoolExecutor(4) as pool, jskw.Validator({"items": {"type": "integer"}}) as validator:
            asked = [pool.submit(ask, validator) for _ in range(4)]
        told += [str(one.exception()) for one in asked]
    check("closed while asked", told, [CLOSED] * 80)
