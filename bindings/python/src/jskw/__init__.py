"""The validator jskw, in process: the value and array keywords of JSON Schema, proved.

    >>> jskw.Validator({"required": ["name"]}).is_valid({"age": 36})
    False

Names and habits are those of the package `jsonschema`. A schema and an instance is a value of Python, or a JSON text as
`bytes`, `bytearray` or `memoryview`. Of a value the text counts that `json.dumps` writes: the float 0.1 is the decimal
0.1, exactly, and a Decimal is taken as it is written."""

import sys
from typing import TYPE_CHECKING

if "t" in getattr(sys, "abiflags", ""):
    raise ImportError("jskw: a free-threaded Python has no stable ABI: use one with the interpreter's lock")

from . import exceptions, validators
from .exceptions import *
from .validators import *

__all__: list[str] = []
__all__ += exceptions.__all__
__all__ += validators.__all__

__version__ = "0.3.0"

if not TYPE_CHECKING:
    __getattr__ = exceptions.lack
