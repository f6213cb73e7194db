"""The rows of files: crates/jskw_rows/README.md says what they are. Reads them, and finds mistakes in them."""

import itertools
import json
import re

# The members of a group, of a test and of others: `?` if it may be missing, `|` between those of which one is there.
GROUP = "description drafts? vocabularies? overridden? objectLayer? schema|options fused? handsOnRequired? \
    refused|unchecked|tests"
TEST = "description data|each|made decimals? text? valid|errors|float evaluation? applications? asked?"
COUNTS = "untilFirst ofAll collected?"
MAKER = "count front? choices? back? crowded? again? more? inside?"
REQUEST = "description request output"
REQUESTS = "description requests"

DECIMAL = re.compile(r"-?(?:0|[1-9]\d*)(?:\.(\d+))?")


# ---- JSON, as `serde_json` reads and writes it


class Float:
    """A number that `serde_json` reads as a float: its text, as it is written."""

    def __init__(self, text):
        self.text = repr(float(text))


def is_whole(number):
    return -(2**63) <= number < 2**64


def whole(text):
    return int(text) if is_whole(int(text)) and text != "-0" else Float(text)


def read(text):
    return json.loads(text, parse_int=whole, parse_float=Float)


def written(value, has_decimals=False):
    """The text of a value. With decimals, each text in it that is one stands for it."""
    if not has_decimals:
        try:
            return json.dumps(value, ensure_ascii=False, separators=(",", ":"), sort_keys=True)
        except TypeError:
            pass  # it has a float
    if isinstance(value, Float):
        return value.text
    if isinstance(value, str) and has_decimals and DECIMAL.fullmatch(value):
        return decimal(value)
    if isinstance(value, list):
        return "[" + ",".join(written(item, has_decimals) for item in value) + "]"
    if isinstance(value, dict):
        return "{" + ",".join(f"{written(name)}:{written(value[name], has_decimals)}" for name in sorted(value)) + "}"
    return written(value)


def decimal(text):
    """The text of the decimal that a text stands for; that of the text, if there is no such decimal."""
    number, scale = int(text.replace(".", "")), len(DECIMAL.fullmatch(text)[1] or "")
    if scale > 18 or not is_whole(number):
        return written(text)
    digits = str(abs(number)).rjust(scale + 1, "0")
    return "-" * (number < 0) + digits[: len(digits) - scale] + "." * (scale > 0) + digits[len(digits) - scale :]


def quoted(text):
    """A text as Rust prints it for debugging, if all its letters can be printed or are below U+0020."""
    escapes = {"\0": "\\0", "\t": "\\t", "\n": "\\n", "\r": "\\r", '"': '\\"', "\\": "\\\\"}
    letters = [escapes.get(letter, letter if letter >= " " else f"\\u{{{ord(letter):x}}}") for letter in text]
    return f'"{"".join(letters)}"'


def at(value, pointer):
    """What stands at a JSON pointer (RFC 6901)."""
    for step in pointer.split("/")[1:]:
        value = value[int(step) if isinstance(value, list) else step.replace("~1", "/").replace("~0", "~")]
    return value


# ---- arrays that are made


def made(maker, crowded):
    """The array that a maker describes. The numbers whose fingerprints crowd a sketch are given."""
    numbers = range(maker["count"])
    if "crowded" in maker:
        numbers = itertools.takewhile(lambda number: number < maker["count"], crowded)
    first, other = maker.get("again", (None, None))
    items = [item(maker, first if number == other else number) for number in numbers]
    array = read("[" + ",".join(items) + "]") + maker.get("more", [])
    return [array] if "inside" in maker else array


def item(maker, number):
    chosen = str(number)
    if "choices" in maker:
        chosen = "".join(pair[number >> place & 1] for place, pair in enumerate(maker["choices"]))
    return maker.get("front", "") + chosen + maker.get("back", "")


def makers(value):
    """All makers in a value."""
    if isinstance(value, list):
        return [maker for part in value for maker in makers(part)]
    if isinstance(value, dict):
        return [value] if "count" in value else makers(list(value.values()))
    return []


# ---- rows


class Row:
    """What is asked: a request, or a schema, about an instance if `test` says something of one."""

    def __init__(self, name, **members):
        self.name = name  # the file, the group and the test
        self.__dict__.update(members)


class Files:
    """The rows of files, and what is to be printed of the mistakes in them."""

    def __init__(self, crowded):
        self.crowded, self.rows, self.mistakes, self.taken = crowded, [], [], set()

    def tell(self, name, what, found):
        self.mistakes.append(f"{name}\n  wrong: {what}: {str(found)[:400]}\n")

    def take(self, name, what, text):
        """Tells if a text was taken before."""
        if text in self.taken:
            self.tell(name, what, text)
        self.taken.add(text)

    def check_members(self, name, value, known):
        """Tells unless a value is an object with these members."""
        count = 0
        for word in known.split():
            found = sum(member in value for member in word.removesuffix("?").split("|"))
            count += found
            if found > 1 or (found == 0 and not word.endswith("?")):
                self.tell(name, "just one has to be there", word)
        if not isinstance(value, dict) or len(value) != count:
            self.tell(name, "an object with no members but those of", known)

    def check_rows(self, name, before):
        if len(self.rows) == before:
            self.tell(name, "no row is asked of", "it")

    def add(self, name, question, **members):
        self.take(name, "a row that stands elsewhere too", question)
        self.rows.append(Row(name, **members))

    def add_file(self, path):
        try:
            groups = read(path.read_text(encoding="utf-8"))
        except ValueError as error:
            return self.tell(path.name, "the file has to be a JSON array", error)
        for group in groups if isinstance(groups, list) else []:
            before = len(self.rows)
            try:
                name = f"{path.name}: {group['description']}"
                self.add_group(name, group)
            except (AttributeError, IndexError, KeyError, TypeError, ValueError) as error:
                self.tell(path.name, f"what cannot be read ({type(error).__name__} {error})", written(group))
            else:
                self.check_rows(name, before)
        if not isinstance(groups, list):
            self.tell(path.name, "the file has to be a JSON array", "another value")

    def add_group(self, name, group):
        if "requests" not in group:
            self.check_members(name, group, GROUP)
            for draft in group.get("drafts", ["2020-12"]):
                self.add_schema(name, group, draft)
            return
        self.check_members(name, group, REQUESTS)
        for one in group["requests"]:
            inner = f"{name}: {one['description']}"
            self.take(inner, "two tests of one name", f"requests: {inner}")
            self.check_members(inner, one, REQUEST)
            self.add(inner, one["request"], kind="request", request=one["request"], output=one["output"])

    # Adds the rows of a group in one draft.
    def add_schema(self, name, group, draft):
        layers = group.get("objectLayer", [True, False])
        if "objectLayer" in group and written(layers) not in ("[true]", "[false]"):
            self.tell(name, "it has to be `[true]` or `[false]`", "objectLayer")
            layers = []
        schema = {"enum": made(group["options"], self.crowded)} if "options" in group else group["schema"]
        settings = {member: group[member] for member in ("vocabularies", "overridden") if member in group}
        own = {"group": group, "draft": draft, "layers": layers, "settings": settings}
        own |= {"schema": schema, "schema_text": written(schema)}
        for kind in "refused", "unchecked":
            if kind in group:
                self.take(name, "two tests of one name", f"{draft}: {name}: {kind}")
                question = f"{kind} {layers} {draft} {written(settings)} {own['schema_text']}"
                test = {kind: group[kind]} if kind == "refused" else None
                self.add(f"{name}: {kind}", question, kind=kind, test=test, instance=None, **own)
        for test in group.get("tests", []):
            self.add_test(f"{name}: {test['description']}", test, own)

    def add_test(self, name, test, own):
        before = len(self.rows)
        self.take(name, "two tests of one name", f"{own['draft']}: {name}")
        self.check_members(name, test, TEST)
        for member in "valid", "decimals":
            if test.get(member, True) is not True:
                self.tell(name, "it has to be `true` if it is there", member)
        for counts in "applications", "asked":
            if counts in test:
                self.check_members(name, test[counts], COUNTS)
        for maker in test.get("made", []):
            self.check_members(name, maker, MAKER)
        instances = [test["data"]] if "data" in test else test.get("each", [])
        for instance in instances + [made(maker, self.crowded) for maker in test.get("made", [])]:
            setting = [own["layers"], own["draft"], own["settings"], "decimals" in test, test.get("text")]
            question = f"{written(setting)} {own['schema_text']} {written(instance)}"
            self.add(name, question, kind="test", test=test, instance=instance, **own)
        self.check_rows(name, before)
