"""What this package raises."""

from __future__ import annotations

import json
import re
from collections import deque
from collections.abc import Callable, Iterable, Iterator, Sequence
from decimal import Decimal
from functools import cached_property
from typing import TYPE_CHECKING, Any, NamedTuple, NoReturn, TypeVar, Union, cast

from ._jskw import Schema, find, text_of

__all__ = [
    "BadSetting", "ErrorTree", "InexactNumber", "NotJson", "SchemaError", "UncheckedError", "UncheckedMember",
    "UnsupportedNumber", "ValidationError", "best_match", "relevance",
]  # fmt: skip

# why something is not here that users of `jsonschema` may look for, and its names
FORMATS = "jskw checks no formats: what asserts one is in `unchecked`"
REFERENCES = "jskw follows no references: what has one is in `unchecked`"
FIXED = "the keywords and types of jskw are fixed: the setting `overridden` leaves keywords out"
META_SCHEMAS = "jskw reads no meta-schema: check_schema(schema) compiles the schema"
_LACKING = {
    "FormatChecker": FORMATS, "draft7_format_checker": FORMATS, "RefResolver": REFERENCES,
    "RefResolutionError": REFERENCES, "TypeChecker": FIXED, "create": FIXED, "extend": FIXED, "validates": FIXED,
    "Draft3Validator": "jskw begins with Draft 4",
}  # fmt: skip


def lack(name: str) -> NoReturn:
    """Says why a module of this package lacks a name that `jsonschema` has, also where it is imported."""
    if name in _LACKING:
        raise ImportError(f"there is no {name}: {_LACKING[name]}")
    raise AttributeError(f"there is no {name} in this module of jskw")


if not TYPE_CHECKING:  # which is to find wrong names
    __getattr__ = lack

_EXACT = "at least one if it has a point or an exponent, and without its point from -2^63 to 2^64-1"
_WHOLE = "limits and the numbers of `const` and `enum` are whole numbers here, from -2^63 to 2^64-1, without exponent"
Step = Union[str, int]
_Self = TypeVar("_Self", bound="_Error")
_property: Any = property


class _Error(Exception):
    """What ValidationError and SchemaError have, as their namesakes of the package `jsonschema` do. `relative_path` is
    `path`, `absolute_path` that from the whole instance, `instance_location` the same as a JSON pointer and `json_path`
    as a JSONPath; so it is with the paths in the schema."""

    __slots__ = ("_told",)  # what the module in C makes an error of
    relative_path: Sequence[Step] = _property(lambda e: e.path)
    relative_schema_path: Sequence[Step] = _property(lambda e: e.schema_path)
    absolute_path: Sequence[Step] = _property(lambda e: deque([*(e.parent.absolute_path if e.parent else ()), *e.path]))
    absolute_schema_path: Sequence[Step] = _property(
        lambda e: deque([*(e.parent.absolute_schema_path if e.parent else ()), *e.schema_path])
    )
    instance_location: str = _property(lambda e: pointer(e.absolute_path))
    keyword_location: str = _property(lambda e: pointer(e.absolute_schema_path))
    json_path: str = _property(lambda e: "$" + "".join(map(_json_path_step, e.absolute_path)))

    def __init__(
        self, message: str, validator: str | None = None, path: Iterable[Step] = (), cause: Exception | None = None,
        context: Iterable[_Error] = (), validator_value: Any = None, instance: Any = None, schema: Any = None,
        schema_path: Iterable[Step] = (), parent: _Error | None = None,
        *, kind: str | None = None, expected: Any = None,
    ) -> None:  # fmt: skip
        super().__init__(message)
        self.message, self.validator, self.validator_value = message, validator, validator_value
        self.kind, self.expected = kind if kind is not None else validator, expected
        self.instance, self.schema = instance, schema
        self.path, self.schema_path = deque(path), deque(schema_path)
        self.cause = self.__cause__ = cause
        self.context, self.parent = list(context), parent
        for error in self.context:
            error.parent = self

    if not TYPE_CHECKING:

        def __getattr__(self, name: str) -> Any:
            """Makes the attributes of an error of the module in C when one of them is first asked for. Two threads may
            do so at once: what the first of them sets stays."""
            told = None if name == "_told" else getattr(self, "_told", None)
            if told:
                settings, read, found = told
                instance, *path = find(read(), found) if read else found
                paths = {"path": deque(path), "schema_path": deque(settings["schema_path"])}
                made = {"message": self.args[0], "instance": instance, "context": [], "cause": None, "parent": None}
                own = vars(self)
                for each in {**made, **settings, **paths}.items():
                    own.setdefault(*each)
                self._told = None
            if name in vars(self):
                return vars(self)[name]
            raise AttributeError(f"{type(self).__name__!r} object has no attribute {name!r}")

    def __reduce__(self) -> Any:
        self._contents()  # makes all attributes
        return super().__reduce__()

    def __repr__(self) -> str:
        return f"<{type(self).__name__}: {self.message!r}>"

    @classmethod
    def create_from(cls: type[_Self], other: _Error) -> _Self:
        """Returns an error with what another one has."""
        return cls(**other._contents())

    def _contents(self) -> dict[str, Any]:
        # `create_from` of the package `jsonschema` asks this
        names = "message cause context validator validator_value path schema_path instance schema parent"
        return {name: getattr(self, name) for name in names.split()}

    def _matches_type(self) -> bool:
        # `best_match` of the package `jsonschema` asks this
        if not isinstance(self.schema, dict) or "type" not in self.schema:
            return False
        schema = Schema()
        schema._call("compile", {"type": self.schema["type"]}, 2020, 7)
        return schema._call("first_error", self.instance)[0] == 0


class ValidationError(_Error):
    """An error of an instance. `message` is a text for people, which may change. `validator` is the keyword that
    failed, `validator_value` its value, `schema` the schema that it stands in, `instance` the value at fault, `path`
    and `schema_path` deques of names and indices that lead to the value and to the keyword. For the schema `false`
    `validator` is None. `kind` is the error's kind (docs/USE.md lists them), `expected` what it expected: a limit, a
    name, a type, the value of `const` or `enum`. `context` is empty, `cause` and `parent` are None: no keyword here
    combines schemas."""

    def __str__(self) -> str:
        return f"{self.message} (instance {self.instance_location!r}, schema {self.keyword_location!r})"


class SchemaError(_Error):
    """A schema that does not compile: a keyword has a value that it does not take. `path` leads to the keyword's value,
    or to the subschema that is no schema, and `instance` is what stands there: of `required`, `type`, `enum` and
    `const` it may be an item of it, or a value in it, that is at fault. `validator` and `validator_value` say what that
    does not keep to. No meta-schema is read, so `schema_path` is empty."""

    def __str__(self) -> str:
        return f"{self.message} (schema {self.instance_location!r})"


class UnsupportedNumber(SchemaError):
    """A schema that the standard allows, with a number that jskw does not take: a limit, a divisor, or a number in
    `const` or `enum` is a whole number from -2^63 to 2^64-1, written without a point or an exponent. `path` leads to
    the number, `number` is its text and `instance` its value."""

    number: str


class NotJson(ValueError):
    """A text that is not JSON in UTF-8, or nests more than 127 levels, or has what is refused though JSON allows it.
    `reason` says why, and `kind` says it in a word, such as "missingComma" (include/jskw.h lists them). `text` is
    "schema", "instance" or "request". `offset` counts bytes from 0, `line` and `column` count from 1; of a value of
    Python these four are None, and `path` leads to what is refused."""

    def __init__(
        self, text: str, reason: str, offset: int | None = None, line: int | None = None, column: int | None = None,
        path: Iterable[Step] = (), kind: str | None = None,
    ) -> None:  # fmt: skip
        self.text, self.reason, self.offset, self.line, self.column = text, reason, offset, line, column
        self.path, self.kind = deque(path), kind
        super().__init__(text, reason, offset, line, column, self.path, kind)

    def __str__(self) -> str:
        where = "" if self.offset is None else f" at line {self.line}, column {self.column} (byte {self.offset})"
        at = f" (at {_shown(pointer(self.path))!r})" if self.path else ""
        return f"the {self.text} {self.reason}{where}{at}"


class BadSetting(ValueError):
    """An unknown or malformed setting. The message names the setting, its value and what is allowed."""


class InexactNumber(ValueError):
    """The instance has a number that is not exact: it is no c / 10^k with c from -2^63 to 2^64-1 and k from 0 to 18, or
    from 1 to 18 if it is written with a point or an exponent. `instance_location` is the location of the first, `path`
    the same as a deque, `instance` the number as it stands in a text, and `offset`, `line`, `column` as of NotJson."""

    def __init__(
        self, instance_location: str, path: Iterable[Step] = (), instance: Any = None, offset: int | None = None,
        line: int | None = None, column: int | None = None,
    ) -> None:  # fmt: skip
        self.instance_location, self.path, self.instance = instance_location, deque(path), instance
        self.offset, self.line, self.column = offset, line, column
        super().__init__(instance_location, self.path, instance, offset, line, column)

    def __str__(self) -> str:
        where = f"{_shown(self.instance)} at {self.instance_location!r}"
        return f"the number {where} is not exact: of at most 18 decimals, {_EXACT}"


def _shown(word: Any) -> str:
    """Returns a text or a number as it is written, if it is not too long."""
    if isinstance(word, int) and abs(word) >> 256:
        return f"of {word.bit_length()} bits"
    return str(word) if len(str(word)) <= 80 else str(word)[:80] + ".."


class UncheckedMember(NamedTuple):
    """A member of a schema that is not checked: it asserts nothing. `keyword` is its name, `path` leads to it in the
    schema, and `reason` is one of

    - "notImplemented": a keyword of the draft that asserts or applies something, which jskw does not have;
    - "unknown": no keyword of the draft, such as a misspelt one;
    - "inactive": a keyword of jskw that asserts nothing as it stands: the draft or the vocabularies do not have it, it
      is overridden, what it goes with is absent, or it passes over such a value;
    - "repeated": a member that a later one of the same name replaces, in an object anywhere in the schema's text."""

    keyword: str
    path: tuple[Step, ...]
    reason: str

    @property
    def keyword_location(self) -> str:
        """The path as a JSON pointer."""
        return pointer(self.path)


class UncheckedError(ValueError):
    """A schema that is to be checked whole has members that are not checked: `unchecked`, a list of UncheckedMember."""

    def __init__(self, unchecked: Iterable[UncheckedMember]) -> None:
        self.unchecked = list(unchecked)
        super().__init__(self.unchecked)

    def __str__(self) -> str:
        shown = [f"{member.keyword_location} ({member.reason})" for member in self.unchecked[:10]]
        more = len(self.unchecked) - len(shown)
        return "the schema has what is not checked: " + ", ".join(shown) + (f" and {more} more" if more else "")


class ErrorTree(dict[Step, "ErrorTree"]):
    """Errors by the places where they stand: `tree[0]["name"]` has those of `/0/name` and below, and `errors`, by their
    keywords, those of its own place. It has the steps of its errors as its own, and `len` of it counts the errors."""

    def __init__(self, errors: Iterable[_Error] = ()) -> None:
        super().__init__()
        self.errors: dict[str | None, _Error] = {}
        self._instance: Any = None
        for error in errors:
            tree = self
            for step in error.path:
                tree = tree.setdefault(step, ErrorTree())
            tree.errors[error.validator], tree._instance = error, error.instance

    def __missing__(self, step: Step) -> ErrorTree:
        if self._instance is not None:
            self._instance[step]  # that the instance does not have is an error
        return ErrorTree()

    def __len__(self) -> int:
        return len(self.errors) + sum(map(len, self.values()))

    total_errors: int = _property(__len__)


def relevance(error: _Error) -> Any:
    """Returns what errors can be ordered by: those that stand higher in the instance are greater, and of these those
    whose instance is not of the schema's type."""
    return -len(error.path), not error._matches_type()


def best_match(errors: Iterable[_Self], key: Callable[[_Error], Any] = relevance) -> _Self | None:
    """Returns the greatest error, or None if there is none."""
    return max(errors, key=cast(Any, key), default=None)


class Keywords(dict[bytes, Any]):
    """What all errors of a keyword of a schema have."""

    def __init__(self, text: bytes) -> None:
        self._text = text

    @cached_property
    def schema(self) -> Any:
        """The schema as a value."""
        return json.loads(self._text)

    def add(self, key: bytes, kind: str, location: str, expected: str) -> Any:
        """Adds the keyword of the line of an error, which the module in C looks up by the key from then on."""
        value, *path = find(self.schema, location)
        limit = json.loads(expected) if expected else value if kind in ("const", "enum") else None  # a long one
        settings: dict[str, Any] = {"kind": kind, "schema_path": path, "expected": limit}
        settings.update(validator=None, validator_value=None, schema=value)
        if kind != "falseSchema":
            within = find(self.schema, location.rpartition("/")[0])[0]
            settings.update(validator=str(path[-1]), validator_value=value, schema=within)
        return self.setdefault(key, settings)


class _Number(str):
    """A number of a JSON text as it is written there."""


def value_of(given: Any, as_written: bool = False) -> Any:
    """Returns a value, or that of a JSON text in bytes: its numbers may be left as they are written."""
    if not isinstance(given, (bytes, bytearray, memoryview)):
        return given
    settings: dict[str, Any] = dict.fromkeys(["parse_int", "parse_float"] * as_written, _Number)
    return json.loads(text_of(given, "value"), **settings)


def schema_error(line: list[str], text: bytes) -> SchemaError:
    """Returns the error of the line of a refusal: kind, keyword location, message, expected value."""
    kind, location, message, expected, *_ = line
    limit, schema = json.loads(expected) if expected else None, json.loads(text)
    value, *path = find(schema, location)
    settings = {"validator_value": limit, "schema": schema, "expected": limit}
    if kind == "compileError" or limit == "integer":
        for number, below in _numbers(find(value_of(text, as_written=True), location)[0], path):
            taken = Schema()._call("compile", f'{{"const":{number}}}'.encode(), 2020, 7)[0] == 0
            # the standard has its own word on 2.5 items
            if not taken and (kind == "compileError" or Decimal(number) >= 0 == Decimal(number) % 1):
                message = f"jskw does not take the number {_shown(number)}: {_WHOLE}"
                error = UnsupportedNumber(message, kind, below, instance=find(schema, pointer(below))[0], **settings)
                error.number = number
                return error
    return SchemaError(message, kind, path, instance=value, **settings)


def _numbers(value: Any, path: Sequence[Step]) -> Iterator[tuple[_Number, Sequence[Step]]]:
    """Returns the numbers in a value, with their paths."""
    if isinstance(value, _Number):
        yield value, path
    parts = value.items() if isinstance(value, dict) else enumerate(value) if isinstance(value, list) else ()
    for step, below in parts:
        yield from _numbers(below, [*path, step])


def pointer(path: Iterable[Step]) -> str:
    """Returns a path as a JSON pointer."""
    return "".join("/" + str(step).replace("~", "~0").replace("/", "~1") for step in path)


def _json_path_step(step: Step) -> str:
    if isinstance(step, str) and re.match("^[a-zA-Z][a-zA-Z0-9_]*$", step):
        return f".{step}"
    return f"[{step}]" if isinstance(step, int) else "['" + re.sub(r"([\\'])", r"\\\1", step) + "']"


def refusal(what: str, lines: list[list[str]]) -> NotJson:
    """Returns the error of a text that is refused. The line has its offset, line and column, and why, as a word and in
    words; a number that is too large for a double has none."""
    if not lines:
        return NotJson(what, "has a number that is too large for a double, which JSON allows and jskw does not")
    offset, line, column, kind, why = lines[0]
    return NotJson(what, "is " * why.startswith("not ") + why, int(offset), int(line), int(column), kind=kind)
