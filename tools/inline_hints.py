"""The `#[inline]` attributes of sources, by the names that functions have in a module of LLVM: `rt` gives them to clang
when it compiles a proved program, and `rt try` does not."""
import re

from source_text import Module

HINTS = {None: "inlinehint", "never": "noinline", "always": "alwaysinline"}
ATTRIBUTE = re.compile(r"( *)#\[inline(?:\((never|always)\))?\]")


def hints(crate, folder):
    """Returns the attribute of LLVM of each function of a crate that has a hint, by the function's name."""
    found = {}
    for file in (folder / "src").rglob("*.rt"):
        way = [it for it in file.relative_to(folder / "src").with_suffix("").parts if it not in ("lib", "main", "mod")]
        module = Module(file, way, alone=True)
        blocks = [(plain(trait), plain(of), first, last) for trait, of, first, last in module.impls()]
        for row, line in enumerate(module.lines):
            hint = ATTRIBUTE.match(line)
            name = hint and re.search(r"\bfn (\w+)", "\n".join(module.lines[row + 1 : row + 6]))
            if name:
                within = [of + trait for trait, of, first, last in blocks if hint[1] and first < row < last]
                for of in {it for words in within for it in spellings(words)} or {""}:
                    path = "::".join(filter(None, [crate, *module.path, of, name[1]]))
                    found[path] = HINTS[hint[2]]
    return found


def plain(words):
    """The last part of a path without its parameters; none of nothing."""
    depth, bare = 0, ""
    for letter in words or "":
        depth += (letter == "<") - (letter == ">")
        bare += letter if depth == 0 and letter != ">" else ""
    return bare.strip().split("::")[-1]


def spellings(name):
    """How the name of a type is written: references and `str` have names of their own."""
    return {name, name.replace("&mut ", "RefMut").replace("&str", "RefStr").replace("&", "Ref"), re.sub("^str", "Str", name)}
