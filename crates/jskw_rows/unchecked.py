#!/usr/bin/env python3
"""Writes random schemas as rows, with their unchecked members by a plain reading of the standard's lists.

    unchecked.py COUNT SEED > FOLDER/random.json     # then ask them: tools/rows FOLDER
"""
import json
import pathlib
import random
import re
import sys

# The keywords of each draft, from its documents and its meta-schema: those that say nothing of validity, and all others.
SILENT = {
    "4": "id $schema title description default definitions",
    "6": "$id $schema title description default definitions examples",
    "7": "$id $schema $comment title description default definitions examples readOnly writeOnly",
    "2019-09": "$id $schema $comment $anchor $recursiveAnchor $vocabulary $defs title description default definitions examples"
    " readOnly writeOnly deprecated contentMediaType contentEncoding contentSchema",
    "2020-12": "$id $schema $comment $anchor $dynamicAnchor $recursiveAnchor $vocabulary $defs title description default"
    " definitions examples readOnly writeOnly deprecated contentMediaType contentEncoding contentSchema",
}
OTHERS = {
    "4": "$ref multipleOf maximum exclusiveMaximum minimum exclusiveMinimum maxLength minLength pattern additionalItems items"
    " maxItems minItems uniqueItems maxProperties minProperties required additionalProperties properties patternProperties"
    " dependencies enum type format allOf anyOf oneOf not",
    "6": "$ref multipleOf maximum exclusiveMaximum minimum exclusiveMinimum maxLength minLength pattern additionalItems items"
    " maxItems minItems uniqueItems contains maxProperties minProperties required additionalProperties properties"
    " patternProperties dependencies propertyNames const enum type format allOf anyOf oneOf not",
    "7": "$ref multipleOf maximum exclusiveMaximum minimum exclusiveMinimum maxLength minLength pattern additionalItems items"
    " maxItems minItems uniqueItems contains maxProperties minProperties required additionalProperties properties"
    " patternProperties dependencies propertyNames const enum type format contentMediaType contentEncoding if then else allOf"
    " anyOf oneOf not",
    "2019-09": "$ref $recursiveRef multipleOf maximum exclusiveMaximum minimum exclusiveMinimum maxLength minLength pattern"
    " additionalItems unevaluatedItems items maxItems minItems uniqueItems contains maxContains minContains maxProperties"
    " minProperties required dependentRequired additionalProperties unevaluatedProperties properties patternProperties"
    " dependentSchemas dependencies propertyNames const enum type format if then else allOf anyOf oneOf not",
    "2020-12": "$ref $dynamicRef $recursiveRef multipleOf maximum exclusiveMaximum minimum exclusiveMinimum maxLength minLength"
    " pattern prefixItems unevaluatedItems items maxItems minItems uniqueItems contains maxContains minContains maxProperties"
    " minProperties required dependentRequired additionalProperties unevaluatedProperties properties patternProperties"
    " dependentSchemas dependencies propertyNames const enum type format if then else allOf anyOf oneOf not",
}
APPLICATORS = {"items", "prefixItems", "additionalItems", "contains"}
# as the code has them, with the bounds of `contains`
KEYWORDS = pathlib.Path(__file__).resolve().parent.parent / "jskw_report" / "src" / "keyword.rt"
OURS = {"minContains", "maxContains"}.union(re.findall(r'=> "/(\w+)"', KEYWORDS.read_text(encoding="utf-8")))
NAMES = sorted(OURS.union(*(words.split() for table in (SILENT, OTHERS) for words in table.values()))) + [
    "minimun", "Type", "x-y", "a/b", "c~d", "", "é",
]


class Setting:
    """A draft, vocabularies, overridden names, and whether there is an object layer."""

    def __init__(self, draft, vocabularies, overridden, layer):
        self.draft, self.vocabularies, self.overridden, self.layer = draft, vocabularies, overridden, layer

    def has(self, vocabulary):
        return self.draft in ("4", "6", "7") or vocabulary in self.vocabularies

    def is_active(self, name, schema):
        vocabulary = "applicator" if name in APPLICATORS else "validation"
        is_part = self.draft == "4" and name in ("exclusiveMinimum", "exclusiveMaximum")
        known = name in OTHERS[self.draft].split() and not is_part and name not in ("minContains", "maxContains")
        return name in schema and known and self.has(vocabulary) and name not in self.overridden

    def is_delegated(self, schema):
        if not (self.layer and self.has("applicator") and self.is_active("required", schema)) or "patternProperties" in schema:
            return False
        required, properties, rest = (schema.get(n) for n in ("required", "properties", "additionalProperties"))
        count = len(required) if isinstance(required, list) else -1
        if count == 1 and "properties" in schema and rest is False and "additionalProperties" not in self.overridden:
            return True
        few = isinstance(properties, dict) and len(properties) < 15 and "properties" not in self.overridden
        return count == 2 and few and rest is not False and not isinstance(rest, dict)

    def reason(self, name, value, schema):
        """Why a member is unchecked, or None."""
        if name not in OURS:
            if name in SILENT[self.draft].split():
                return None
            return "notImplemented" if name in OTHERS[self.draft].split() else "unknown"
        if name in ("minContains", "maxContains"):
            is_read = self.draft in ("2019-09", "2020-12") and self.has("validation") and self.is_active("contains", schema)
            return None if is_read else "inactive"
        if self.draft == "4" and name in ("exclusiveMinimum", "exclusiveMaximum"):
            limit = name.replace("exclusiveM", "m")
            return None if self.is_active(limit, schema) and isinstance(value, bool) else "inactive"
        if not self.is_active(name, schema):
            return "inactive"
        if name == "required" and self.is_delegated(schema):
            return "delegated"
        if name == "uniqueItems":
            return None if isinstance(value, bool) else "inactive"
        if name == "items":
            return None if isinstance(value, (bool, list, dict)) else "inactive"
        if name == "additionalItems" and not isinstance(schema.get("items"), list):
            return None if value is True else "inactive"
        return None

    def unchecked(self, schema, at=""):
        """The unchecked members of a schema and of its subschemas, each with its location and reason."""
        if not isinstance(schema, dict):
            return
        for name in sorted(schema, key=lambda name: name.encode()):
            value, place = schema[name], at + "/" + name.replace("~", "~0").replace("/", "~1")
            reason = self.reason(name, value, schema)
            if reason:
                yield [place, reason]
            elif name in APPLICATORS and isinstance(value, list):
                for index, item in enumerate(value):
                    yield from self.unchecked(item, f"{place}/{index}")
            elif name in APPLICATORS:
                yield from self.unchecked(value, place)


def a_value(draw, depth):
    """A value that a keyword may have."""
    plain = [True, False, True, False, 0, 1, 5, -1, None, "x", "string", [], ["a"], ["a", "b"], ["a", "b", "c"], {}]
    if depth == 0 or draw.random() < 0.5:
        return draw.choice(plain)
    if draw.random() < 0.6:
        return a_schema(draw, depth - 1)
    return [a_schema(draw, depth - 1) for _ in range(draw.randrange(4))]


def a_schema(draw, depth):
    """A random schema, mostly an object."""
    if draw.random() < 0.1:
        return draw.choice([True, False, 5, []])
    names = [draw.choice(NAMES if draw.random() < 0.4 else sorted(OURS)) for _ in range(draw.randrange(7))]
    schema = {name: a_value(draw, depth) for name in names}
    if draw.random() < 0.1:
        schema.update(required=["a", "b"][: draw.randrange(1, 3)], properties=draw.choice([{}, {"a": {}}, 5]))
        schema.update(draw.choice([{}, {"additionalProperties": draw.choice([False, True, {}])}]))
    return schema


def main():
    if len(sys.argv) != 3:
        sys.exit(__doc__)
    draw, groups, asked = random.Random(int(sys.argv[2])), [], set()
    while len(groups) < int(sys.argv[1]):
        draft, schema, layer = draw.choice(list(OTHERS)), a_schema(draw, 3), draw.random() < 0.5
        vocabularies = [v for v in ("core", "applicator", "validation") if draw.random() < 0.8]
        overridden = draw.sample(NAMES, draw.choice([0, 0, 1, 4]))
        group = {"drafts": [draft], "vocabularies": vocabularies, "overridden": overridden, "objectLayer": [layer], "schema": schema}
        question = json.dumps(group, sort_keys=True)
        if question in asked:
            continue
        asked.add(question)
        setting = Setting(draft, vocabularies, overridden, layer)
        groups.append({"description": f"random schema {len(groups)}", **group, "unchecked": list(setting.unchecked(schema))})
    print(json.dumps(groups))


if __name__ == "__main__":
    main()
