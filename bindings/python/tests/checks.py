"""Counts what is checked."""

from __future__ import annotations

import os
import sys
from typing import Any, Callable

# what errors of the package `jsonschema` have too, and then what they have not
ATTRIBUTES = (
    "message validator validator_value instance schema path relative_path absolute_path schema_path "
    "relative_schema_path absolute_schema_path json_path context cause parent "
    "kind expected instance_location keyword_location"
).split()
# whether memory or references are watched, so that calls take longer, and what is freed may be kept
IS_WATCHED = hasattr(sys, "gettotalrefcount") or "ASAN_OPTIONS" in os.environ
count = 0
failed: list[str] = []


def check(what: str, got: Any, wanted: Any) -> None:
    global count
    count += 1
    if got != wanted:
        failed.append(what)
        print(f"FAILED: {what}: {got!r}, wanted {wanted!r}")


def raised(call: Callable[..., Any], *given: Any, **settings: Any) -> Any:
    """Returns what a call raises."""
    try:
        call(*given, **settings)
        return None
    except Exception as error:
        return error


def check_raises(kind: type[Exception], message: str, call: Callable[..., Any], *given: Any, **settings: Any) -> None:
    """Checks the type and the text of what a call raises."""
    error = raised(call, *given, **settings)
    check(f"{message!r} is raised", (type(error), str(error)), (kind, message))
