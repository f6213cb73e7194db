"""The rows of bindings/rows.txt: each call agrees with the others, and gives what the row says."""

from __future__ import annotations

import json
import pathlib
from typing import Any

import jskw
from jskw.validators import DRAFTS, VOCABULARIES

from checks import check, raised

ROWS = pathlib.Path(__file__).resolve().parents[2] / "rows.txt"
NUMBERS = {str(number): name for name, number in DRAFTS.items()}


def validator_of(draft: str, vocabularies: str, overridden: str, schema: str, *, strict: Any = False) -> jskw.Validator:
    names = [name for name, bit in VOCABULARIES.items() if int(vocabularies) & bit]
    names += ["no such vocabulary"] * (int(vocabularies) > 7)
    given: Any = json.loads(overridden)
    # an object would be taken for its names
    given = given if isinstance(given, list) else None
    return jskw.Validator(schema.encode(), NUMBERS.get(draft, draft), names, given, strict=strict)


def outcome(*row: str) -> tuple[str, str]:
    """Returns the result of a row and what it tells, if all calls agree."""
    instance = row[-1].encode()
    try:
        validator = validator_of(*row[:-1])
        valid, tree = validator.is_valid(instance), validator.evaluate(instance)
    except jskw.SchemaError as error:
        return "bad schema", f"{error.kind}|{error.instance_location}"
    except jskw.InexactNumber as error:
        return "inexact", error.instance_location
    except (jskw.NotJson, jskw.BadSetting) as error:
        return "not JSON" if isinstance(error, jskw.NotJson) else "bad setting", ""
    errors, few = list(validator.iter_errors(instance)), list(validator.iter_errors(bytearray(instance), limit=1))
    first = raised(validator.validate, memoryview(instance))
    if not valid == tree["valid"] == (not errors) or not told(errors[:1]) == told([first] * (not valid)) == told(few):
        return "the calls disagree", ""
    return "valid" if valid else "invalid", told(errors)


def unchecked(*given: str) -> str:
    """Returns what is not checked of the schema of a row, as the list and as the strict setting tells it."""
    members = validator_of(*given).unchecked
    error = raised(validator_of, *given, strict=True)
    if (error.unchecked if isinstance(error, jskw.UncheckedError) else []) != members:
        return "the two disagree"
    return " ".join(f"{member.keyword_location}|{member.reason}" for member in members)


def told(errors: list[Any]) -> str:
    return " ".join(f"{e.kind}|{e.instance_location}|{e.keyword_location}" for e in errors)


def run() -> None:
    for line in ROWS.read_text(encoding="utf-8").split("\n"):
        if line and not line.startswith("#"):
            *given, result, says, lacks = (line + "\t" * (line.count("\t") < 7)).split("\t")
            check(line, outcome(*given), (result, says))
            if result in ("valid", "invalid"):
                check(f"what is not checked: {line}", unchecked(*given[:4]), lacks)
