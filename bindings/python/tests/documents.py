"""What the documents say: the examples of README.md, the idioms of IDIOMS.md, run with the package `jsonschema` too if
it is installed, and `python -m jskw`. Errors beside those of that package: the same attributes but for messages, and
its `best_match` and `ErrorTree` take ours."""

from __future__ import annotations

import copy
import doctest
import importlib
import inspect
import json
import os
import pathlib
import random
import re
import subprocess
import sys
from typing import Any

import checks
import jskw
from checks import ATTRIBUTES, check, raised

FOLDER, PACKAGE = pathlib.Path(__file__).resolve().parents[1], pathlib.Path(jskw.__file__).resolve().parent
jsonschema: Any = None
try:
    jsonschema = importlib.import_module("jsonschema")  # whether its types are known makes no difference
except ModuleNotFoundError:
    print("the package `jsonschema` is not installed: idioms are run, and errors made, with this package alone")
CLASSES = ["Draft4Validator", "Draft6Validator", "Draft7Validator", "Draft201909Validator", "Draft202012Validator"]
KEYWORDS: list[dict[str, Any]] = [
    {"type": "integer"}, {"type": "number"}, {"type": ["string", "null"]}, {"type": "object"}, {"type": "array"},
    {"enum": [1, "a", None, [1], {"a": 1}]}, {"const": 2}, {"const": {"a": [1]}}, {"minimum": 2}, {"maximum": 3},
    {"exclusiveMinimum": 2}, {"exclusiveMaximum": 3}, {"multipleOf": 2}, {"minItems": 1}, {"maxItems": 1},
    {"minProperties": 1}, {"maxProperties": 1}, {"uniqueItems": True}, {"required": ["a", "b"]}, {"required": ["a"]},
]  # fmt: skip
S: dict[str, Any] = {"type": "array", "items": {"type": "object", "required": ["a"]}, "maxItems": 1}
NAMES = {"S": S, "X": [{}, 5], "raised": raised, "copy": copy}


def run() -> None:
    results = doctest.testfile(str(FOLDER / "README.md"), module_relative=False)
    checks.count += results.attempted
    checks.failed += ["README.md"] * results.failed
    check("README.md has examples", results.attempted > 10, True)
    versions = re.findall(r'JSKW_VERSION "(.*)"', (FOLDER.parents[1] / "include/jskw.h").read_text(encoding="utf-8"))
    versions += re.findall(r'^version = "(.*)"', (FOLDER / "pyproject.toml").read_text(encoding="utf-8"), re.MULTILINE)
    check("the versions", [*versions, jskw.version()[0][5:]], [jskw.__version__] * 3)
    check("docstrings", [name for name in jskw.__all__ if not inspect.getdoc(getattr(jskw, name))], [])
    request = {"schema": {"required": ["name", "age"], "minProperties": 2}, "instance": {"age": 36}}
    for given in request, json.dumps(request).encode():
        check("answer", jskw.answer(given), (1, "minProperties\t\t/minProperties\nrequired\t\t/required\n"))
    command = [sys.executable, "-m", "jskw", "--schema", "/dev/null", "-"]
    setting = {**os.environ, "PYTHONPATH": str(PACKAGE.parent)}
    done = subprocess.run(command, input="", capture_output=True, text=True, env=setting, check=False)
    told = done.returncode, done.stdout, done.stderr.partition(":")[0]
    # it runs the program, or says how to get it
    check("python -m jskw", told, (2, "", "/dev/null") if (PACKAGE / "jskw-check").exists() else (3, "", "jskw"))
    idioms()
    rng = random.Random(7)
    for name in CLASSES if jsonschema else ():
        for _ in range(60):
            schema, value = schema_of(rng, name, 3), value_of(rng, 3)
            ours, theirs = getattr(jskw, name)(schema), getattr(jsonschema, name)(schema)
            got, wanted = list(ours.iter_errors(value)), list(theirs.iter_errors(value))
            check(f"{name} {schema} {value}", (ours.is_valid(value), seen(got)), (not wanted, seen(wanted)))
            check("what takes errors", taken(got), taken(wanted))


def idioms() -> None:
    table = (FOLDER / "IDIOMS.md").read_text(encoding="utf-8")
    rows = re.findall(r"^\| `(.*)` \| (.*) \|$", table, re.MULTILINE)
    check("the idioms", (len(rows), [wanted for _, wanted in rows].count("alike")), (44, 31))
    for idiom, wanted in rows:
        try:
            got = repr(eval(idiom, {"J": jskw, **NAMES}))
        except (AttributeError, ImportError, jskw.BadSetting) as error:
            got = str(error)
        if wanted != "alike":
            check(idiom, got[: len(wanted)], wanted)
        elif jsonschema:
            check(idiom, got, repr(eval(idiom, {"J": jsonschema, **NAMES})))


def seen(errors: Any) -> list[str]:
    return sorted(str([(name, getattr(error, name)) for name in ATTRIBUTES[1:15]]) for error in errors)


def taken(errors: Any) -> Any:
    """Returns what `jsonschema` tells of errors. Of equally good ones it takes the first, and the orders differ."""
    of = jsonschema.exceptions
    tree = of.ErrorTree(errors)
    return len(tree), sorted(map(str, tree)), errors and of.relevance(of.best_match(errors))


def schema_of(rng: random.Random, name: str, depth: int) -> dict[str, Any]:
    """Returns a schema of keywords that both packages read alike."""
    schema: dict[str, Any] = {}
    for keyword in rng.sample(KEYWORDS, rng.randrange(1, 4)):
        if name != "Draft4Validator" or not {"const", "exclusiveMinimum", "exclusiveMaximum"} & set(keyword):
            schema.update(keyword)
    if depth and rng.random() < 0.8:
        few, rest = ("prefixItems", "items") if name == "Draft202012Validator" else ("items", "additionalItems")
        schema[few], schema[rest] = [schema_of(rng, name, depth - 1) for _ in range(2)], schema_of(rng, name, depth - 1)
        if rng.random() < 0.3:
            schema["items"] = schema.pop(rest)
    return schema


def value_of(rng: random.Random, depth: int) -> Any:
    if not depth or rng.random() < 0.3:
        return rng.choice([None, True, False, 0, 1, 2, 3, 4, -1, "a", "", 2**40])
    if rng.random() < 0.6:
        return [value_of(rng, depth - 1) for _ in range(rng.randrange(4))]
    return {name: value_of(rng, depth - 1) for name in rng.sample("abc", rng.randrange(3))}
