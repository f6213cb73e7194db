"""Calls of every kind and outcome leave the memory as it was, and the counts of references where Python and the module
are built to count them (python3-dbg)."""

from __future__ import annotations

import copy
import gc
import itertools
import os
import sys
import threading
from collections import OrderedDict
from decimal import Decimal
from typing import Any, Callable

import jskw
from checks import check, raised

RING: list[Any] = []
RING.append(RING)
INSTANCES: list[Any] = [
    [1, 2, 'é"\n'], {"a": (1, 2.5, 1e-7, None, True, Decimal("1.5"), 2**70, -(2**63))}, OrderedDict(b=[1]), b"[1,2]",
    bytearray(b"[1]"), memoryview(b"[1]"), {1: 2}, [set()], [float("nan")], RING, "\ud800", {"a": {"\udc00": 1}}, b"{",
    [1e300], 10**5000, ["x"] * 400, b'["' + b"y" * 5000 + b'"]', [Decimal("NaN")], {"b": [[["c\0"]]]}, ["\0" * 5000],
]  # fmt: skip
SCHEMAS: list[Any] = [{"minItems": 1.5}, {"minItems": -1}, INSTANCES, b"{", {"const": [1e300]}, b'{"a":1,"a":1}']
validator = jskw.Validator({"items": {"type": "integer"}})


def run() -> None:
    check_flat("every outcome", ask_each, 60)
    check_flat("a million calls", ask_often, 10)
    threads_that_end()


def ask_each() -> None:
    for instance in INSTANCES:
        for name in "is_valid", "validate", "evaluate":
            raised(getattr(validator, name), instance)
        errors: Any = raised(validator.iter_errors, instance) or validator.iter_errors(instance)
        raised(lambda: [(error.path, next(errors).args) for error in errors])
    for schema in SCHEMAS:
        raised(jskw.Validator, schema, strict=True)
    with copy.copy(validator) as other:
        raised(other.validate, ["x" * 100_000])


def ask_often() -> None:
    for instance in itertools.islice(itertools.cycle(([1, "a"], b"[1, 2]", {"a": [0.5, None]})), 100_000):
        validator.is_valid(instance)


def check_flat(what: str, call: Callable[[], None], times: int) -> None:
    """Checks that calls, after some that fill what is kept, leave the memory and the references as they were."""
    for count in times // 2, times:
        gc.collect()
        before, counted = memory(), getattr(sys, "gettotalrefcount", int)()
        for _ in range(count):
            call()
    gc.collect()
    check(f"{what}: references", abs(getattr(sys, "gettotalrefcount", int)() - counted) < times, True)
    check(f"{what}: memory", memory() - before < 3000, True)


def threads_that_end() -> None:
    """Handles of threads that have ended are freed, and validators that other threads drop."""
    schema, before = {"enum": [[i, str(i)] for i in range(10000)]}, 0
    shared = jskw.Validator(schema)
    for turn in range(40):
        held = [jskw.Validator(schema)]
        for call in lambda: jskw.Validator(schema).is_valid(1), lambda: shared.is_valid(1), held.clear:
            thread = threading.Thread(target=call)
            thread.start()
            thread.join()
        gc.collect()
        before = memory() if turn == 9 else before
    # a schema of these takes 3 MB and more: 30 turns that leak one would take 90 MB
    check("memory is freed", memory() - before < 30_000, True)


def memory() -> int:
    """Returns the resident memory in kB, or 0 under a sanitizer, which keeps what is freed."""
    with open("/proc/self/statm", encoding="ascii") as file:
        return 0 if "ASAN_OPTIONS" in os.environ else int(file.read().split()[1]) * 4
