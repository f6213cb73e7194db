"""Times fastjsonschema, as timing.py describes. It has no call for all errors, and no code for many nested arrays."""


import fastjsonschema
from timing import answer_lines


def calls_of(schema):
    try:
        validate = fastjsonschema.compile(schema)
    except SyntaxError:  # too many nested blocks
        return None

    def is_valid(instance):
        try:
            validate(instance)
        except fastjsonschema.JsonSchemaException:
            return False
        return True

    return fastjsonschema.compile, is_valid, is_valid, None


answer_lines(calls_of)
