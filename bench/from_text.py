"""Calls that are given the text of a document and say whether it is valid, as users make them: small texts of a
service, and documents of the kinds in kinds.py at four sizes. The schema was compiled before."""

import math
import subprocess
import sys

from kinds import SIZES, document, kinds
from program import ROOT, case_of

ROUNDS = 3
# how many calls of a validator a round has for a text of so many bytes, and by what slow ones divide that
CALLS = {100: 100_000, 2_000: 10_000, 100_000: 400, 5_000_000: 8}
SLOW = {"valijson": 10, "fastjsonschema": 10, "jsonschema": 200}
PERSON = {"required": ["name", "age"], "minProperties": 2}
NATURALS = {"type": "array", "maxItems": 10, "items": {"type": "integer", "minimum": 0}}
SMALL = [
    ("`true`, of `1`", True, 1),
    ("an object of two members, valid", PERSON, {"name": "Ada", "age": 36}),
    ("an object of one member, invalid", PERSON, {"age": 36}),
    ("ten integers, valid", NATURALS, list(range(1, 11))),
]
# the others that are asked of documents of each size; the rest is far behind, and asked of small texts alone
NEAR = "ajv", "rapidjson"
FROM_C, FROM_PYTHON = "`jskw_is_valid` from C", "from Python"


def build():
    """Builds the library, and returns its folder."""
    if subprocess.run([ROOT / "bindings" / "build"], check=False).returncode:
        sys.exit(3)
    return ROOT / "bindings" / "out"


def ours(library, folder):
    """The commands that call the library in a folder from C and from Python."""
    source, made = ROOT / "bench" / "drivers" / "jskw.c", folder / "jskw"
    subprocess.run(["cc", "-O2", f"-I{ROOT / 'include'}", "-o", made, source, library / "libjskw.a"], check=True)
    python = ["env", f"PYTHONPATH={library / 'python'}", "/usr/bin/python3", "-B"]
    return {FROM_C: [made], FROM_PYTHON: [*python, source.parent / "jskw_python.py"]}


def cases_of(size, failure="valid"):
    """A case of each kind at a size, as Draft 7."""
    return [(kind.name, draft_7(kind.schema), document(kind, size, failure)) for kind in kinds()]


def draft_7(schema):
    """`prefixItems` and `items` of Draft 2020-12 are `items` and `additionalItems` before."""
    if not isinstance(schema, dict):
        return schema
    changed = dict(schema)
    if "prefixItems" in schema:
        changed["additionalItems"] = draft_7(changed.pop("items"))
        changed["items"] = [draft_7(part) for part in changed.pop("prefixItems")]
    elif "items" in schema:
        changed["items"] = draft_7(schema["items"])
    return changed


def measured(commands, cases, calls):
    """Returns for each validator the nanoseconds of a call for each case, the least of some rounds, in which the
    validators take turns. All have to answer alike."""
    lines, found, answers = "".join(case_of(*case) + "\n" for case in cases), {}, None
    for _ in range(ROUNDS):
        for name, command in commands.items():
            count = max(calls // SLOW.get(name, 1), 1)
            ran = subprocess.run([*command, str(count)], input=lines, capture_output=True, text=True, check=True)
            rows = [line.split("\t") for line in ran.stdout.splitlines()]
            answers = answers or [row[1] for row in rows]
            if [row[1] for row in rows] != answers:
                sys.exit(f"from_text: {name} says {[row[1] for row in rows]}, another one {answers}")
            old = found.get(name, [math.inf] * len(cases))
            found[name] = [min(float(row[2]), time) for row, time in zip(rows, old, strict=True)]
    return found


def by_size(commands):
    """Returns for each name of a size what `measured` returns of documents of that size."""
    return {name: measured(commands, cases_of(size), CALLS[size]) for name, size in SIZES.items()}
