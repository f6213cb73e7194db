"""Checks lines as lines.js does, with fastjsonschema or jsonschema: lines.py NAME SCHEMA."""

import json
import sys


def by_fastjsonschema(schema):
    import fastjsonschema

    validate = fastjsonschema.compile(schema)

    def is_valid(instance):
        try:
            validate(instance)
        except fastjsonschema.JsonSchemaException:
            return False
        return True

    return is_valid


def by_jsonschema(schema):
    from jsonschema import Draft7Validator

    return Draft7Validator(schema).is_valid


def main(name, path):
    with open(path, encoding="utf-8") as file:
        is_valid = {"fastjsonschema": by_fastjsonschema, "jsonschema": by_jsonschema}[name](json.load(file))
    lines = valid = 0
    for lines, line in enumerate(sys.stdin.buffer, 1):
        valid += is_valid(json.loads(line))
    print(valid, lines - valid)


main(*sys.argv[1:])
