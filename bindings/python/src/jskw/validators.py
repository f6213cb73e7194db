"""Validators: a class for any draft and one for each, and what picks them."""

from __future__ import annotations

import json
from collections.abc import Iterable, Iterator
from functools import cache, partial
from itertools import chain
from typing import TYPE_CHECKING, Any, ClassVar, TypeVar

from ._jskw import Schema, find, text_of
from .exceptions import (
    FIXED, FORMATS, META_SCHEMAS, REFERENCES, BadSetting, InexactNumber, Keywords, NotJson, UncheckedError,
    UncheckedMember, ValidationError, lack, refusal, schema_error, value_of,
)  # fmt: skip

if TYPE_CHECKING:
    from typing_extensions import Literal, TypedDict, Unpack

    Draft = Literal["4", "6", "7", "2019-09", "2020-12"]

    class Settings(TypedDict, total=False):
        """The settings of a Validator, by name."""

        draft: Draft | None
        vocabularies: Iterable[str]
        overridden: Iterable[str]
        strict: bool
        format_checker: None
        resolver: None
        registry: None

else:
    __getattr__ = lack

__all__ = [
    "Draft4Validator", "Draft6Validator", "Draft7Validator", "Draft201909Validator", "Draft202012Validator",
    "Validator", "answer", "validate", "validator_for", "version",
]  # fmt: skip

# what include/jskw.h names JSKW_..
INVALID, NOT_JSON, INEXACT, BAD_SCHEMA, BAD_SETTING = 1, 3, 4, 5, 6
DRAFTS: dict[str, int] = {"4": 4, "6": 6, "7": 7, "2019-09": 2019, "2020-12": 2020}
VOCABULARIES = {"core": 1, "applicator": 2, "validation": 4}

FIRST, FURTHER = 64, 16  # so many errors are looked for at first, then each time so many times as many
TEXT = bytes, bytearray, memoryview
_Self = TypeVar("_Self", bound="Validator")


class Lacking(str):
    """Why validators do not have an attribute that those of `jsonschema` have."""

    def __get__(self, one: object, kind: object = None) -> Any:
        raise AttributeError(self)


class Validator(Schema):
    """A compiled schema, which any number of threads may use at once. It can be copied and pickled.

    `schema` and the instances are values of Python, or JSON texts as `bytes`, `bytearray` or `memoryview`; a `str` is
    a value. `draft` is "4", "6", "7", "2019-09" or "2020-12", `vocabularies` are of "core", "applicator" and
    "validation", `overridden` the names of keywords that are not to be asserted. `$schema` is not read, and keywords
    that the README does not list are ignored: `unchecked` lists them. The other three settings may only be None.

    Raises SchemaError if the schema does not compile, NotJson if it is not JSON, BadSetting for any other setting; with
    `strict`, UncheckedError if the list is not empty."""

    DRAFTS: ClassVar[tuple[str, ...]] = tuple(DRAFTS)
    META_SCHEMA = ID_OF = Lacking(META_SCHEMAS)
    VALIDATORS = TYPE_CHECKER = descend = Lacking(FIXED)
    FORMAT_CHECKER, resolver = Lacking(FORMATS), Lacking(REFERENCES)

    def __init__(
        self, schema: Any, draft: str | None = None, vocabularies: Iterable[str] = tuple(VOCABULARIES),
        overridden: Iterable[str] = (), *, strict: bool = False, format_checker: None = None, resolver: None = None,
        registry: None = None,
    ) -> None:  # fmt: skip
        if format_checker is not None:
            raise BadSetting(f"format_checker={format_checker!r}: {FORMATS}")
        if resolver is not None or registry is not None:
            raise BadSetting(f"resolver={resolver!r}, registry={registry!r}: {REFERENCES}")
        self.draft = self.DRAFTS[-1] if draft is None else _one_of("draft", draft, self.DRAFTS)
        chosen = _names("vocabularies", vocabularies)
        self.vocabularies = frozenset(_one_of("vocabularies", name, VOCABULARIES) for name in chosen)
        self.overridden = tuple(_names("overridden", overridden))
        self._text = text_of(schema, "schema")
        self._keywords = Keywords(self._text)
        self._is_closed = False
        status, lines = self._call_schema("compile")
        if status == BAD_SCHEMA:
            raise schema_error(lines[0], self._text)
        if status == NOT_JSON:
            raise refusal("schema", lines)
        if status == BAD_SETTING:
            raise BadSetting(f"overridden={self.overridden!r} is no list of names")
        if strict and (unchecked := self.unchecked):
            raise UncheckedError(unchecked)

    def _call_schema(self, name: str) -> tuple[int, Any]:
        chosen = sum(VOCABULARIES[name] for name in self.vocabularies)
        return self._call(name, self._text, DRAFTS[self.draft], chosen, json.dumps(self.overridden).encode())

    @property
    def unchecked(self) -> list[UncheckedMember]:
        """The members of the schema, and of the subschemas that keywords of jskw apply, that are not checked, and those
        that a later one of the same name replaces. What stands below a member is not looked at, but for the latter. If
        the list is empty, all that the schema says is asserted."""
        lines = self._call_schema("unchecked")[1]
        members = [(find(self.schema, location)[1:], reason) for location, reason, *_ in lines]
        return [UncheckedMember(str(path[-1]), path, reason) for path, reason in members]

    @property
    def schema(self) -> Any:
        """The schema as a value, read from its text."""
        return self._keywords.schema

    @classmethod
    def check_schema(cls, schema: Any, **settings: Unpack[Settings]) -> None:
        """Raises SchemaError if the schema does not compile. No meta-schema is read: what compiles may still have
        mistakes in keywords that are ignored; with `strict=True` it has none of these."""
        cls(schema, **settings).close()

    def is_type(self, instance: Any, type: str) -> bool:
        """Returns whether the instance is of a type, as the keyword `type` of this draft has it."""
        return Validator({"type": type}, self.draft).is_valid(instance)

    def evolve(self: _Self, **changes: Any) -> _Self:
        """Returns a validator like this one but for some settings, or the `schema`."""
        names = "draft", "vocabularies", "overridden"
        given: dict[str, Any] = {"schema": self._text, **{name: getattr(self, name) for name in names}, **changes}
        return type(self)(**given)

    def validate(self, instance: Any) -> None:
        """Raises the first error, if there is one."""
        for errors in () if self.is_valid(instance) else self._pages("first_error", instance, 1):
            raise errors[0]

    def iter_errors(self, instance: Any, limit: int | None = None) -> Iterator[ValidationError]:
        """Returns an iterator over the errors, or over the first `limit` of them, in the order of the keywords."""
        if limit is not None and not (isinstance(limit, int) and 0 < limit < 2**64):
            raise BadSetting(f"limit={limit!r} is not None or from 1 to 2^64-1; evolve(schema=..) takes another schema")
        pages = self._pages("errors", instance, limit or 2**64 - 1)
        return chain(next(pages, ()), chain.from_iterable(pages))

    def evaluate(self, instance: Any) -> dict[str, Any]:
        """Returns the evaluation tree: `valid`, `keywordLocation`, `instanceLocation`, `annotation`, `errors` and
        `details`, the nodes below."""
        text: str = self._ask("evaluate", instance)
        # node by node: to read the whole takes four levels of the interpreter's stack for one of the schema's
        open_lists: list[list[Any]] = [[]]
        for part in text.split(',"details":['):
            node = part.lstrip("]},")
            for _ in range(part[: len(part) - len(node)].count("}")):
                open_lists.pop()
            if node:
                open_lists[-1].append({**json.loads(node + "}"), "details": []})
                open_lists.append(open_lists[-1][-1]["details"])
        tree: dict[str, Any] = open_lists[0][0]
        return tree

    def _pages(self, name: str, instance: Any, limit: int) -> Iterator[list[ValidationError]]:
        """Returns the errors some at a time, so many that to pass over those before costs little."""
        text = text_of(instance, "instance")
        read = cache(partial(json.loads, text)) if isinstance(instance, TEXT) else None
        given, asked, asker = 0, min(FIRST, limit), self
        source = ValidationError, self._keywords, instance, read
        while errors := asker._ask(name, instance, text, asked, given, source):
            if len(errors) == asked - given and asker is self:
                asker = self._share()  # which no one closes
            yield errors
            if len(errors) < asked - given or asked == limit:
                return
            given, asked = asked, min(FURTHER * asked, limit)

    def _ask(self, name: str, instance: Any, text: Any = None, limit: int = 0, skipped: int = 0, *source: Any) -> Any:
        """Returns what a call tells of an instance, or of its text, if it is one that can be checked."""
        status, told = self._call(name, instance if text is None else text, limit, 0, b"", skipped, *source)
        if status == NOT_JSON:
            raise refusal("instance", told)
        if status == INEXACT:
            location, *place = told[0]
            number, *path = find(value_of(instance, as_written=True), location)
            raise InexactNumber(location, path, number, *(map(int, place[:3]) if isinstance(instance, TEXT) else ()))
        return told

    def close(self) -> None:
        """Frees the schema, once the calls of other threads have ended. From then on checks, copies and pickles raise
        ValueError; `schema` and `unchecked` still answer."""
        super().close()
        self._is_closed = True

    def __enter__(self: _Self) -> _Self:
        self._share()  # which is an error of one that is closed
        return self

    def __exit__(self, *_: object) -> None:
        self.close()

    def __copy__(self: _Self) -> _Self:
        copy: _Self = self._share()
        copy.__dict__.update(self.__dict__)
        return copy

    def __deepcopy__(self: _Self, memo: object) -> _Self:
        return self.__copy__()

    def __reduce__(self) -> Any:
        self._share()
        return type(self), (self._text, self.draft, tuple(sorted(self.vocabularies)), self.overridden)

    def __repr__(self) -> str:
        text = self._text[:60].decode(errors="replace") + ("" if len(self._text) <= 60 else "..")
        return f"<{type(self).__name__} draft={self.draft!r} schema={text}{', closed' * self._is_closed}>"


class Draft4Validator(Validator):
    DRAFTS = ("4",)


class Draft6Validator(Validator):
    DRAFTS = ("6",)


class Draft7Validator(Validator):
    DRAFTS = ("7",)


class Draft201909Validator(Validator):
    DRAFTS = ("2019-09",)


class Draft202012Validator(Validator):
    DRAFTS = ("2020-12",)


_META_SCHEMAS: dict[str, type[Validator]] = {
    "http://json-schema.org/draft-04/schema": Draft4Validator,
    "http://json-schema.org/draft-06/schema": Draft6Validator,
    "http://json-schema.org/draft-07/schema": Draft7Validator,
    "https://json-schema.org/draft/2019-09/schema": Draft201909Validator,
    "https://json-schema.org/draft/2020-12/schema": Draft202012Validator,
}


def validator_for(schema: Any, default: type[Validator] | None = None) -> type[Validator]:
    """Returns the class for the draft that `$schema` names, with or without a `#` at its end; without `$schema` the
    default, which is that of Draft 2020-12. Raises BadSetting for another `$schema`, unless there is a default."""
    try:
        value = value_of(schema)
    except (ValueError, RecursionError) as error:
        raise NotJson("schema", f"is not JSON: {error}") from error
    if not isinstance(value, dict) or "$schema" not in value:
        return default or Draft202012Validator
    name = value["$schema"]
    found = _META_SCHEMAS.get(name.removesuffix("#") if isinstance(name, str) else "", default)
    if found is None:
        raise BadSetting(f"$schema={name!r} is not one of {', '.join(_META_SCHEMAS)}")
    return found


def validate(instance: Any, schema: Any, cls: type[Validator] | None = None, **settings: Unpack[Settings]) -> None:
    """Raises the first error of the instance, or SchemaError. The draft is that of the class `cls` or the setting
    `draft`, else that which `$schema` names, else 2020-12."""
    if cls is None:
        cls = Validator if settings.get("draft") else validator_for(schema)
    with cls(schema, **settings) as validator:
        validator.validate(instance)


def version() -> list[str]:
    """Returns the versions of the library and of the logic that it is proved in."""
    return [line for line, *_ in Schema()._call("version", b"")[1][:2]]


def answer(request: Any) -> tuple[int, str]:
    """Returns the exit status and the output of the program `jskw` for a request, a value or a text."""
    return Schema()._call("answer", request)


def _names(setting: str, names: Iterable[str]) -> list[str]:
    """Returns the names of a setting."""
    if isinstance(names, (str, bytes)) or not isinstance(names, Iterable):
        raise BadSetting(f"{setting}={names!r} is not a list of names")
    found = list(names)
    for name in (name for name in found if not isinstance(name, str)):
        raise BadSetting(f"{setting}: {name!r} is not a name")
    return found


def _one_of(setting: str, value: str, allowed: Iterable[str]) -> str:
    """Returns the value of a setting, which must be an allowed one."""
    if isinstance(value, str) and value in allowed:
        return value
    raise BadSetting(f"{setting}={value!r} is not one of {', '.join(map(repr, allowed))}")
