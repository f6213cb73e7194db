"""The page that bench/peers writes, docs/PEERS.md, and its chart."""

import math
import statistics

import from_text
from kinds import KINDS_OF_TEXT, SIZES, parsed_workloads
from packages import CXX
from report import FROM_TEXT, LINES, MEASURED, VALUES, conditions, paragraph, section_of
from workloads import lists, workloads

OURS, BY_HAND = "this library", "by hand"
COLOURS = {
    BY_HAND: "#000000", "ajv": "#d95f02", "rapidjson": "#1b9e77", "valijson": "#7570b3", "fastjsonschema": "#e7298a",
    "jsonschema": "#666666",
}  # fmt: skip
# the outlines of the marks in the chart, in the order of the names: circle, square, triangles, diamond, cross
SHAPES = [
    "m-5 0a5 5 0 1 0 10 0a5 5 0 1 0 -10 0z", "m-4.5 -4.5h9v9h-9z", "m0 -6l5.5 10h-11z", "m0 6l5.5 -10h-11z",
    "m0 -6.5l5.5 6.5l-5.5 6.5l-5.5 -6.5z", "m-1.5 -5.5h3v4h4v3h-4v4h-3v-4h-4v-3h4z",
]  # fmt: skip
# a call of this library, its name, and the call of another one that does the same
CALLS = {
    "decimals": ("`is_valid` over decimals", "is_valid"),
    "lawful": ("`is_valid` and `is_lawful`", "is_valid"),
    "compile": ("compile", "compile"),
    "first error": ("first error", "first error"),
    "all errors": ("all errors", "all errors"),
}
OVER_DECIMALS = (
    "`is_valid` over trees of exact decimals, as C, Python, Rust and `jskw check` have them; the others over their own "
    "values. Valid instances."
)
# the columns of the table of other calls: a call, the kind of instance, what it says, and the others
OTHER_CALLS = [
    ("lawful", "valid", "`is_lawful` and `is_valid`", ["ajv"]),
    ("compile", "valid", "compile", ["ajv", "rapidjson"]),
    ("first error", "last fails", "first error, the last item fails", ["ajv"]),
    ("all errors", "a tenth fails", "all errors, a tenth fails", ["ajv"]),
]


def all_workloads():
    return [*workloads(), *parsed_workloads()]


# ---- ratios


def time_of(nanoseconds):
    unit, size = next((unit, size) for unit, size in (("s", 1e9), ("ms", 1e6), ("µs", 1e3), ("ns", 1)) if nanoseconds >= size)
    return f"{nanoseconds / size:.3g} {unit}"


def ratio_of(ratio):
    """Ours over theirs: 2.9, 0.91, 1/46; bold if the other one is faster."""
    if ratio > 1:
        return f"**{ratio:,.0f}**" if ratio >= 10 else f"**{ratio:.2g}**"
    return f"{ratio:.2g}" if ratio >= 0.1 else f"1/{1 / ratio:,.0f}"


def ratios_of(times, name, call, kind, items=None):
    """This library's time over another one's, by the name of the workload."""
    found = {}
    for item in items or all_workloads():
        ours, theirs = times.get((OURS, item.name, kind, call)), times.get((name, item.name, kind, CALLS[call][1]))
        if ours is not None and theirs is not None:
            found[item.name] = ours / theirs
    return found


def row_of(name, ratios):
    """The end of a row: on how many the other one is ahead, means, the least ratio and the most."""
    rising = sorted(ratios)
    means = [ratio_of(statistics.geometric_mean(part)) for part in (rising, rising[1:-1] or rising)]
    ahead = sum(ratio > 1 for ratio in rising)
    return f"{name} | {ahead} of {len(rising)} | {' | '.join(means)} | {ratio_of(rising[0])} | {ratio_of(rising[-1])} |"


HEAD = "is ahead on | mean | without the two extremes | least | most |"


# ---- from text


def text_ratios(found, name):
    """This library's time over another one's for each kind."""
    return [ours / theirs for ours, theirs in zip(found[from_text.FROM_C], found[name])]


def text_summary(found, names):
    yield f"| Size | Beside | {HEAD}"
    yield "|---|---|" + "---|" * 5
    for size in SIZES:
        for name in names:
            yield f"| {size} | {row_of(name, text_ratios(found[size], name))}"


def text_table(first, found, names):
    """The times and ratios of each kind, for each of what `found` has by name."""
    yield f"| {first} | {' | '.join(f'{of}: {OURS} | ' + ' | '.join(names) for of in found)} |"
    yield "|---|" + "---|" * len(found) * (1 + len(names))
    for place, kind in enumerate(KINDS_OF_TEXT):
        cells = []
        for times in found.values():
            cells.append(time_of(times[from_text.FROM_C][place]))
            cells += [ratio_of(text_ratios(times, name)[place]) for name in names]
        yield f"| {kind} | {' | '.join(cells)} |"


def small_table(small):
    yield f"| Nanoseconds a call | {' | '.join(small)} |"
    yield "|---|" + "---|" * len(small)
    for place, (name, _, _) in enumerate(from_text.SMALL):
        yield f"| {name} | {' | '.join(f'{times[place]:,.0f}' for times in small.values())} |"


def text_section(texts, versions, given):
    """The section of calls that are given texts. `texts` has small ones, those by size, and those that fail."""
    small, found, failing = texts
    near = [name for name in from_text.NEAR if name in versions]
    counts = ", ".join(f"{from_text.CALLS[size]:,} of {name}" for name, size in SIZES.items())
    yield FROM_TEXT
    yield ""
    yield from paragraph(
        "`jskw_is_valid` from C beside others, each given the text of a document and a schema that was compiled",
        "before. Eight kinds of documents (`bench/kinds.py`), for none of which the code was made fast; valid ones. On",
        "how many kinds the other one is ahead, and geometric means of the ratios:",
    )
    yield from text_summary(found, near)
    yield ""
    yield from text_table("Valid", found, near)
    yield ""
    yield from text_table("Of 2 KB", failing, near)
    yield ""
    yield from small_table(small)
    yield ""
    yield from paragraph(
        f"The mean of so many calls: {counts} (slow validators fewer); the least of {from_text.ROUNDS} rounds in which",
        "the validators take turns. rapidjson checks while it reads and makes no values, and does not check that the",
        "text is UTF-8; valijson is given rapidjson's values, ajv those of `JSON.parse` of a string, the others those",
        "of `json.loads`.",
    )
    for name, value in conditions(given):
        yield f"- {'library' if name == 'program' else name}: {value}"
    yield f"- beside it: {', '.join(versions.values())}"


# ---- the other sections


def cells_of(times, names, call, kind, item):
    """Our time of a workload, and its ratios to those of others."""
    own = times.get((OURS, item.name, kind, call))
    ratios = [ratios_of(times, name, call, kind, [item]).get(item.name) for name in names]
    return ["-" if own is None else time_of(own), *["-" if it is None else ratio_of(it) for it in ratios]]


def other_calls(times, names):
    """A table of what users call besides, beside the others that are near."""
    near = [(*asked, [name for name in others if name in names]) for *asked, others in OTHER_CALLS]
    heads = [f"{words}: {OURS}" + "".join(f" | {name}" for name in others) for _, _, words, others in near]
    yield f"| Workload | {' | '.join(heads)} |"
    yield "|---|" + "---|" * sum(1 + len(others) for *_, others in near)
    for item in all_workloads():
        cells = [cell for call, kind, _, others in near for cell in cells_of(times, others, call, kind, item)]
        yield f"| {item.name} | {' | '.join(cells)} |"


def table(times, names, call, kind, items=None):
    ratios = {name: ratios_of(times, name, call, kind, items) for name in names}
    shown = [name for name in names if ratios[name]]
    yield f"| Workload | {OURS} | {' | '.join(shown)} |"
    yield "|---|---|" + "---|" * len(shown)
    for item in items or all_workloads():
        own = times.get((OURS, item.name, kind, call))
        if own is not None:
            cells = [ratio_of(ratios[name][item.name]) if item.name in ratios[name] else "-" for name in shown]
            yield f"| {item.name} | {time_of(own)} | {' | '.join(cells)} |"


def summary(times, names):
    """Of each call and each other: on how many workloads and other kinds the other is ahead, and the means of the ratios."""
    yield "| Call | Beside | is ahead on | mean | without the two extremes | other kinds: is ahead on | mean |"
    yield "|---|---|" + "---|" * 5
    for call, (title, _) in CALLS.items():
        for name in names:
            found = [ratios_of(times, name, call, "valid", items).values() for items in (workloads(), parsed_workloads())]
            if found[0]:
                first, others = (row_of("", ratios).split(" | ") if ratios else ["", "-", "-", "-"] for ratios in found)
                yield f"| {title} | {name} | {' | '.join([*first[1:4], *others[1:3]])} |"


def by_length(times, names):
    yield "## Lists of integers, by length"
    yield ""
    yield from paragraph(
        "Over decimals, as `10,000 integers`. The four lists that take turns are 1.3 MB of trees, of 32 bytes each, if",
        "they have 10,000 items, and 0.3 MB of ajv's integers, of 8: where the second cache of the processor holds the",
        "one and not the other, the time of an item is that of the memory.",
    )
    yield from table(times, names, "decimals", "valid", lists())


def ahead_of(found, name):
    """On how many kinds and sizes of texts another one is ahead, and, if they are few, which."""
    asked = [(kind, size) for size in SIZES for kind in KINDS_OF_TEXT]
    ratios = [ratio for size in SIZES for ratio in text_ratios(found[size], name)]
    ahead = [f"{kind} of {size}" for (kind, size), ratio in zip(asked, ratios, strict=True) if ratio > 1]
    return f"{name} on {len(ahead)} of {len(asked)}" + (f" ({', '.join(ahead)})" if 0 < len(ahead) < 7 else "")


def first_line(texts, times):
    """Where another one is ahead."""
    yield f"From text: {', '.join(ahead_of(texts[1], name) for name in from_text.NEAR[:2])}."
    for call, name in ("decimals", "ajv"), ("lawful", "ajv"), ("compile", "rapidjson"):
        ratios = ratios_of(times, name, call, "valid").values()
        yield f"{CALLS[call][0]}: {name} on {sum(ratio > 1 for ratio in ratios)} of {len(ratios)}."


def page(where, texts, times, versions, left_out, given, library):
    names = [BY_HAND, *versions]
    yield "# Beside other validators"
    yield ""
    yield from paragraph("**Where another one is ahead.**", *first_line(texts, times))
    yield from paragraph(
        "Written by `bench/peers`: validators that Debian packs, all in one run, as Draft 7. Numbers are **this",
        "library's time over the other one's**: below 1 this library is faster, above 1, in bold, the other one.",
    )
    yield from text_section(texts, versions, library)
    yield ""
    yield "## On parsed values"
    yield ""
    yield from paragraph(
        "The workloads of [bench/WORKLOADS.md](../bench/WORKLOADS.md), valid instances. The code was made fast with",
        "the first fourteen; `other kinds` are those of the texts, of 100 KB, as far as they have no fractions, which",
        "`serde_json` holds as floats. `by hand` is a loop in Rattle that makes the tests of the schema.",
    )
    yield from summary(times, names)
    yield ""
    yield "![Time of is_valid over the times of others](peers.svg)"
    yield from ["", "### Over decimals", ""]
    yield from paragraph(OVER_DECIMALS)
    yield from table(times, names, "decimals", "valid")
    yield from ["", "### Other calls", ""]
    yield from paragraph("Over `serde_json`'s values, of which `is_lawful` finds floats; errors without it.")
    yield from other_calls(times, names)
    yield ""
    yield from by_length(times, names)
    for lines in filter(None, (section_of(where, heading) for heading in (LINES, VALUES))):
        yield from ["", *lines]
    yield from ["", MEASURED, ""]
    for name, value in conditions(given):
        yield f"- {name}: {value}"
    for name, version in versions.items():
        yield f"- {name}: {version}"
    for line in left_out:
        yield f"- {line}"
    yield ""
    yield from paragraph(
        "Each time is the mean of the fastest of up to thirty batches of 1 ms or more, over four equal instances",
        "that were parsed before, and the least of the rounds in which the validators take turns. C++ by",
        f"`{' '.join(CXX)}`. ajv and fastjsonschema make an error at the first failure in any case; rapidjson and",
        "fastjsonschema cannot give all errors, valijson not the first alone; jsonschema compiles nothing. None checks",
        "schemas against the meta-schema, except fastjsonschema in part. Messages are texts that others make with the",
        "error, and this library on demand.",
    )[:-1]


def with_text_section(where, section):
    """The page as it is, with another section of calls that are given texts."""
    lines, old = where.read_text(encoding="utf-8").splitlines(), section_of(where, FROM_TEXT)
    start = lines.index(FROM_TEXT if old else MEASURED)
    return [*lines[:start], *section, *([] if old else [""]), *lines[start + len(old) :]]


# ---- the chart

LEFT, WIDTH, TOP, STEP, LEAST, MOST = 230, 820, 70, 24, -4, 2


def across(ratio):
    part = (min(max(math.log10(ratio), LEAST), MOST) - LEAST) / (MOST - LEAST)
    return LEFT + part * (WIDTH - LEFT - 40)


def text_at(x, y, text, anchor="start"):
    return f'<text x="{x:.1f}" y="{y:.1f}" text-anchor="{anchor}">{text}</text>'


def shape_of(name):
    place = list(COLOURS).index(name)
    return f'<path id="{name.replace(" ", "-")}" d="M0 0{SHAPES[place]}" fill="{COLOURS[name]}" fill-opacity="0.85"/>'


def dot_at(x, y, name):
    return f'<use href="#{name.replace(" ", "-")}" x="{x:.0f}" y="{y:.0f}"/>'


def chart(times, names):
    items = all_workloads()
    bottom = TOP + STEP * len(items)
    size = f'width="{WIDTH}" height="{bottom + 30}"'
    yield f'<svg xmlns="http://www.w3.org/2000/svg" {size} font-family="sans-serif" font-size="13">'
    yield f'<rect {size} fill="#ffffff"/><defs>{"".join(map(shape_of, names))}</defs>'
    said = "Time of is_valid over decimals, over that of others, on valid instances; left of 1: this library is faster"
    yield text_at(10, 20, said)
    for place, name in enumerate(names):
        x = 10 + place * (WIDTH - 20) / max(len(names), 1)
        yield dot_at(x + 6, 42, name) + text_at(x + 15, 46, name)
    for power in range(LEAST, MOST + 1):
        x = across(10**power)
        line = f'x1="{x:.1f}" x2="{x:.1f}" y1="{TOP - 10}" y2="{bottom}"'
        yield f'<line {line} stroke="#888888" stroke-width="{2 if power == 0 else 0.4}"/>'
        yield text_at(x, bottom + 18, f"{10**power:,g}", "middle")
    for place, item in enumerate(items):
        y = TOP + STEP * (place + 0.4)
        yield text_at(LEFT - 12, y + 4, item.name, "end")
        for name in names:
            ratio = ratios_of(times, name, "decimals", "valid").get(item.name)
            if ratio:
                yield dot_at(across(ratio), y, name)
    yield "</svg>"
