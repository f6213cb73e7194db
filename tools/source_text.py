"""Reads `.rt` files for the other tools."""
import hashlib
import re
import sys

ITEM = re.compile(r'pub (?:const |extern "C" )?(struct|enum|trait|type|fn|const) (\w+)')
MEMBER = re.compile(r"    (pub |final )?(fn|ghost|type|const) (\w+)")
FUNCTION = re.compile(r'( *)(?:pub(?:\([\w ]+\))? )?(?:(?:const|unsafe|final|extern(?: "C")?) +)*fn (\w+)')
LEXEME = re.compile(
    r'(?P<comment>//[^\n]*)|(?P<string>r(#*)".*?"\3|"(?:\\.|[^"\\])*")'
    r"|(?P<character>'(?:\\u\{\w+\}|\\x\w\w|\\.|[^\\'\n])')",
    re.S,
)


def blanked(text, but=""):
    """The text with comments, strings and characters as spaces, but for one of these kinds. Lines and columns stay.

    A block comment is left as it is: what looks like code in it counts as code."""
    hide = lambda found: found[0] if found.lastgroup == but else re.sub(r"[^\n]", " ", found[0])
    return LEXEME.sub(hide, text)


def closing(text, at):
    """Where the bracket at an index is closed."""
    depth = 0
    for end in range(at, len(text)):
        depth += (text[end] in "([{") - (text[end] in ")]}")
        if depth == 0:
            return end
    sys.exit(f"a bracket is never closed: {text[at:at + 60]!r}")


def sentence(lines):
    """The first sentence of a doc comment."""
    text = " ".join(" ".join(lines).split("\0")[0].split())
    text = re.sub(r"\[(`[^`]*`|[^\]]*)\](?:\([^)]*\)|\[[^\]]*\])?", r"\1", text)
    found = re.match(r".*?\.(?= +[A-Z`\[]|$)", text)
    return found[0] if found else text


def doc_above(lines, row):
    """The words of the doc comment above a line, whatever attributes stand between; a blank line of it is \\0."""
    words = []
    while row > 0:
        line = lines[row - 1].strip()
        if line.startswith("///"):
            words.insert(0, line[3:].strip() or "\0")
        elif not words and line.endswith("]"):
            while row > 1 and not lines[row - 1].strip().startswith("#["):
                row -= 1
        else:
            break
        row -= 1
    return words


def mark(words):
    """Six digits that change with the words."""
    return hashlib.sha256(" ".join(words.split()).encode()).hexdigest()[:6]


class Contract:
    """The clauses of a function, each with its kind, its name (or None) and its words; and what `use` lines rename."""

    def __init__(self, text, code, at, renames):
        """The contract of the function whose name ends at an index."""
        self.clauses, self.renames = [], renames
        while code[at] not in "{;":
            word = re.compile(r"\b(requires|ensures)\b(?: (\w+))? \{").match(code, at)
            if word:
                end = closing(code, word.end() - 1)
                self.clauses.append((word[1], word[2], " ".join(text[word.end() : end].split())))
                at = end + 1
            elif code[at] in "([":
                at = closing(code, at) + 1
            else:
                at += 1
        self.owed = [(name, words) for kind, name, words in self.clauses if kind == "ensures"]

    def has(self, word):
        """Whether a clause has this name, or has the word and no name."""
        return any(word == name if name else re.search(rf"\b{word}\b", words) for name, words in self.owed)

    def __str__(self):
        """Its mark, whether it has a `requires`, and the names of its clauses: nothing if there is one alone without a name."""
        names = [f"`{name}`" if name else "unnamed" for name, _ in self.owed] or ["none"]
        given = ["requires"] * any(kind == "requires" for kind, _, _ in self.clauses)
        parts = given + [", ".join(names)] * (names != ["unnamed"])
        digits = [mark(f"{self.clauses} {self.renames}")] * bool(self.clauses)
        return " ".join(digits + [f"({'; '.join(parts)})"] * bool(parts))


class Module:
    """A file of a crate with the modules below it."""

    def __init__(self, file, path, alone=False):
        """`alone`: without the modules below it."""
        self.file, self.path, self.text = file, path, file.read_text(encoding="utf-8")
        self.code, self.lines = blanked(self.text), self.text.split("\n")
        uses = re.findall(r"^ *ghost use [^;]*;", self.code, re.M)
        self.renames = " ".join(it for it in uses if " as " in it)
        starts = [0]
        for line in self.lines:
            starts.append(starts[-1] + len(line) + 1)
        self.starts, self.below, self.uses = starts, [], []
        for row, line in enumerate(self.code.split("\n")):
            made = re.match(r"(pub )?(?:pub\(crate\) )?mod (\w+);", line)
            if made and not alone and "#[cfg(test)]" not in self.lines[row - 1]:
                folder = file.parent if file.stem in ("lib", "main") else file.parent / file.stem
                self.below.append((bool(made[1]), Module(folder / f"{made[2]}.rt", [*path, made[2]])))
        for used in re.finditer(r"^pub use (?:crate::|self::)?([\w:]+?)(?:::(\w+)|::\{([^}]*)\});", self.code, re.M):
            for name in re.findall(r"\w+", used[2] or used[3]):
                self.uses.append((used[1].split("::"), name))

    def items(self):
        """(kind, name, row) of each public item of the file."""
        for row, line in enumerate(self.lines):
            found = ITEM.match(line)
            if found:
                yield found[1], found[2], row

    def impls(self):
        """(trait or None, type, row, last row) of each impl."""
        for row, line in enumerate(self.code.split("\n")):
            if not re.match(r"(unsafe )?impl\b", line):
                continue
            start = self.starts[row]
            brace = self.code.index("{", start)
            head = " ".join(self.code[start:brace].split())
            head = re.sub(r"^impl(<(?:[^<>]|<[^<>]*>)*>)? ", "", head).split(" where ")[0]
            trait, _, of = head.rpartition(" for ")
            yield trait or None, of, row, self.code.count("\n", 0, closing(self.code, brace))

    def members(self, row, last, wants_pub):
        """(kind, name, row) of the functions and ghost members of an impl or a trait."""
        for at in range(row + 1, last):
            found = MEMBER.match(self.lines[at])
            if found and (not wants_pub or found[1] == "pub "):
                yield found[2], found[3], at

    def contract(self, name, row):
        at = self.code.index(f"fn {name}", self.starts[row]) + len(f"fn {name}")
        return Contract(self.text, self.code, at, self.renames)

    def functions(self):
        """(path, contract) of each function, private ones too, named after its module and its type or trait."""
        blocks = [(re.sub(r"<.*", "", of).split("::")[-1], row, last) for _, of, row, last in self.impls()]
        blocks += [(name, row, self.block_end(row)) for kind, name, row in self.items() if kind == "trait"]
        for row, line in enumerate(self.code.split("\n")):
            found = FUNCTION.match(line)
            if found:
                of = [name for name, first, last in blocks if found[1] and first < row < last]
                yield "::".join([*self.path, *of, found[2]]), self.contract(found[2], row)

    def ghosts(self, row, last):
        """The words of the ghost members that begin in these rows."""
        found = []
        for at in range(row, last + 1):
            if re.match(r" +(?:pub )?ghost (?!use )", self.lines[at]):
                end = self.starts[at]
                while self.code[end] != ";":
                    end = closing(self.code, end) + 1 if self.code[end] in "([{" else end + 1
                found.append(self.text[self.starts[at] : end])
        return " ".join(found)

    def block_end(self, row):
        """The last row of the braces that open after a row."""
        return self.code.count("\n", 0, closing(self.code, self.code.index("{", self.starts[row])))


def every(module):
    yield module
    for _, lower in module.below:
        yield from every(lower)
