"""Single keywords, each with a schema and an instance."""

from workloads import texts

KINDS = {
    "integers": lambda i: i,
    "strings": lambda i: f"text-{i:07}",
    "objects": lambda i: {"id": i, "name": f"name{i}"},
}
OPTIONS = {
    **KINDS,
    "arrays": lambda i: [i, [i + 1]],
    "several types": lambda i: [[i], {"id": i}, f"text{i}", i][i % 4],
    "long strings": lambda i: "a" * 500 + f"{i:07}",
}
COUNTS = 4, 10, 100, 1_000, 10_000, 100_000
OPTION_COUNTS = 1, 10, 100, 10_000
EQUAL = (0, 1), (0, 999), (1, 2), (1, 999)
NAMES, MEMBERS = (1, 3, 8, 16, 17), (5, 20, 200)


def constants():
    integers, strings = list(range(10_000)), texts(10_000)
    wide = {f"name{i}": i for i in range(100)}
    values = {
        "null": None,
        "true": True,
        "number": 5,
        "string": strings[0],
        "array, 10,000 integers": integers,
        "array, 10,000 strings": strings,
        "object, 100 members": wide,
    }
    cases = [(f"const {name}", {"const": value}, value) for name, value in values.items()]
    return cases + [("type array, of 10,000 strings", {"type": "array"}, strings)]


def of_options(count, kind, hit):
    return f"enum, {count:,} {kind}, {'hit' if hit else 'miss'}"


def enumerations():
    cases = []
    for kind, option in OPTIONS.items():
        for count in OPTION_COUNTS:
            options = [option(i) for i in range(count + 1)]
            for hit in True, False:
                instance = options[count // 2] if hit else options[count]
                cases.append((of_options(count, kind, hit), {"enum": options[:count]}, instance))
    return cases


def unique():
    cases = [(f"{count:,} {kind}", [item(i) for i in range(count)]) for kind, item in KINDS.items() for count in COUNTS]
    cases.append(("1,000,000 integers", list(range(1_000_000))))
    # they differ where no short fingerprint looks
    cases.append(("1,000 of one fingerprint", ["a" * 4_500 + f"{i:04}" + "a" * 496 for i in range(1_000)]))
    for count in 9, 16, 100:
        cases.append((f"{count} arrays, first differs", [[i] + list(range(999)) for i in range(count)]))
        cases.append((f"{count} arrays, last differs", [list(range(999)) + [i] for i in range(count)]))
    for kind, item in KINDS.items():
        for first, second in EQUAL:
            items = [item(i) for i in range(1_000)]
            items[second] = items[first]
            cases.append((f"1,000 {kind}, {first} and {second} equal", items))
    return [(f"uniqueItems, {name}", {"uniqueItems": True}, items) for name, items in cases]


def of_names(names, members, hit):
    return f"required, {names} name{'s' * (names > 1)}, an object of {members}, {'hit' if hit else 'miss'}"


def required():
    cases = []
    for names in NAMES:
        for members in MEMBERS:
            # the wanted names come first, as far as there is room, and others after them
            given = {f"name{i}": i for i in range(min(names, members))}
            given.update({f"other{i}": i for i in range(members - len(given))})
            missing = dict(given)
            missing["absent"] = missing.pop("name0")
            schema = {"required": [f"name{i}" for i in range(names)]}
            if names <= members:
                cases.append((of_names(names, members, True), schema, given))
            cases.append((of_names(names, members, False), schema, missing))
    return cases


def subschemas():
    for count in 100, 1_000:
        schema = {"prefixItems": [{"type": "integer", "minimum": i} for i in range(count)]}
        yield f"prefixItems, {count:,} schemas", schema, list(range(count))


def keywords():
    return [*constants(), *enumerations(), *unique(), *required(), *subschemas()]


# ---- what they take: tables of a compile and of `is_valid` by the case's name


def row(name, times, *places):
    """A line with times, in cells of these widths; a time that is not there is `-`."""
    cells = [f"{'-' if time is None else f'{time:,.{1 if time < 1_000 else 0}f}':>{width}}" for time, width in zip(times, places)]
    return f"    {name:<18}" + "".join(cells)


def heads(name, words, *places):
    return f"    {name:<18}" + "".join(f"{word:>{width}}" for word, width in zip(words, places))


def tables(times):
    """The lines of the section: nanoseconds of `is_valid`, and of compiles where they differ."""
    told = set()

    def is_valid(name):
        told.add(name)
        return times[name][1] if name in times else None

    yield "Nanoseconds of a compile, and of `is_valid` that finds the option and that does not, by the number of options:"
    yield ""
    widths = 8, 9, 9, 12, *[8] * 8
    yield heads("enum of", [f"{count:,}" for count in OPTION_COUNTS] * 3, *widths)
    for kind in OPTIONS:
        hits = [is_valid(of_options(count, kind, hit)) for hit in (True, False) for count in OPTION_COUNTS]
        yield row(kind, [times[of_options(count, kind, True)][0] for count in OPTION_COUNTS] + hits, *widths)
    yield ""
    yield "`is_valid` of `uniqueItems`, by the number of different items; and of 1,000 items of which these two are equal:"
    yield ""
    widths = 8, 8, 9, 10, 11, 13, *[12] * 4
    yield heads("items", [f"{count:,}" for count in COUNTS] + [f"{first}, {second}" for first, second in EQUAL], *widths)
    for kind in KINDS:
        found = [is_valid(f"uniqueItems, {count:,} {kind}") for count in COUNTS]
        found += [is_valid(f"uniqueItems, 1,000 {kind}, {first} and {second} equal") for first, second in EQUAL]
        yield row(kind, found, *widths)
    yield ""
    yield "A compile of `required`, and `is_valid` of objects that have the names and of others, by the number of members:"
    yield ""
    widths = 9, *[9] * 6
    yield heads("names", ["compile", *[f"{count}" for count in MEMBERS] * 2], *widths)
    for names in NAMES:
        found = [is_valid(of_names(names, members, hit)) for hit in (True, False) for members in MEMBERS]
        yield row(str(names), [times[of_names(names, MEMBERS[-1], True)][0], *found], *widths)
    yield ""
    yield f"    {'others':<39}{'compile':>8}{'is_valid':>13}"
    for name, (compiled, found) in times.items():
        if name not in told:
            yield f"    {name:<39}{compiled:>8,.0f}{found:>13,.1f}"
    yield ""
