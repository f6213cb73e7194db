"""Times the Python package jsonschema, as timing.py describes. It compiles nothing."""

from jsonschema import Draft7Validator

from timing import answer_lines


def calls_of(schema):
    validator = Draft7Validator(schema)

    def first(instance):
        return next(validator.iter_errors(instance), None)

    def every(instance):
        return list(validator.iter_errors(instance))

    return None, validator.is_valid, first, every


answer_lines(calls_of)
