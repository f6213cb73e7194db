"""Makes manual pages of what `--help` prints."""

import re


def page(name, purpose, version, text):
    """The page of a program in troff, from blocks of lines with an empty line between: the usage, paragraphs, and lists
    of words with what they mean, below a line that ends with a colon."""
    made = [f'.TH {name.upper()} 1 "" "jskw {version}"', ".SH NAME", f"{name} {plain('-')} {purpose}"]
    section = "NAME"
    for block in text.strip("\n").split("\n\n"):
        first, _, rest = block.partition("\n")
        kind = "SYNOPSIS" if first.startswith("usage: ") else "DESCRIPTION" if section == "SYNOPSIS" else section
        if first.endswith(":") and rest.startswith("  "):
            made.append(f".SH {first[:-1].upper()}")
            section = first
            made += entries(rest)
            continue
        if block.startswith("Exit status: "):
            kind, block = "EXIT STATUS", block.removeprefix("Exit status: ")
        elif section not in ("NAME", "SYNOPSIS", "DESCRIPTION"):
            kind = "OUTPUT"
        made.append(f".SH {kind}" if kind != section else ".PP")
        section = kind
        if kind == "SYNOPSIS":
            made += [".nf", *(plain(line[7:]) for line in block.split("\n")), ".fi"]
        else:
            made.append(plain(" ".join(block.split())))
    return "\n".join(made) + "\n"


def entries(text):
    """A list: a word, two spaces or a new line, and what it means in a column of its own."""
    for entry in re.split(r"\n(?=  \S)", text):
        word, _, meaning = re.sub(r"^  ", "", entry).partition("  " if re.match(r"  \S.*?  ", entry.split("\n")[0]) else "\n")
        yield from (".TP", f".B {plain(word.strip())}", plain(" ".join(meaning.split())))


def plain(text):
    """A text of which troff takes nothing as a request or an escape."""
    return re.sub(r"^(?=[.'])", r"\\&", text.replace("\\", r"\e").replace("-", r"\-"))
