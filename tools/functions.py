"""The functions that are written in a crate: where each stands, its path in the checker, and its texts. They are read by the layout
that `rt fmt` gives to files of src/: an item ends at a line with its own indentation."""

import functools
import glob
import os
import re

from repository import TOP, text_of

# An item, with the words before it.
ITEM = re.compile(
    r'( *)(?:pub(?:\([^)]*\))? |unsafe |const (?=fn|unsafe|extern)|extern "C" (?=fn))*'
    r"(fn|struct|enum|union|type|trait|impl|mod|extern|macro_rules!)(?![\w:])\s*(\w*)"
)
GHOST_USE = re.compile(r"(?m)^ *ghost use ([^\s{;]+?)(?:\.\{([^}]*)\}| as (\w+))?;")


def impl_of(head):
    """Returns the type of an impl, whether it is of a trait, and the checker's name for both, by the text after the word `impl`."""
    text, depth = re.split(r"\bwhere\b", head)[0].replace("->", "").strip(), 0
    declared, rest = "", text
    for at, it in enumerate(text if text.startswith("<") else ""):
        depth += (it == "<") - (it == ">")
        if not depth:
            declared, rest = text[: at + 1], text[at + 1 :]
            break
    trait, _, of = re.sub(r"\w+::", "", rest).replace("()", "Unit").rpartition(" for ")
    params = {*re.findall(r"[<,] *(?:const )?('?\w+)", declared)}
    named = [[it for it in re.findall(r"(?<!')\b\w+", part) if it not in (*params, "dyn", "mut")] for part in (of, trait)]
    owner = (re.findall(r"(?<!')\b\w+", of) or [""])[0]
    return owner, bool(trait), "".join(it[0].upper() + it[1:] for it in (named[0] or ["Any"]) + named[1]) if trait else owner


class Function:
    """A function in a file of a crate. `at` is its line, and `lines` go from the comments above it to the next function. `head` has its
    contract, without comments, and `scope` is the checker's name for its type and trait. In a trait a function may have no body."""

    def __init__(self, file, name, scope, at, head, body):
        self.file, self.name, self.scope, self.at, self.head, self.body = file, name, scope, at, head, body
        self.calls_itself = re.search(rf"\b{name}\b", body or "") is not None
        self.path = ""


def code_of(line):
    return "" if line.lstrip().startswith("//") else line.rstrip()


def first_line(lines, at):
    """Returns the line in which an item begins: attributes and comments right above the item belong to it."""
    while at and lines[at - 1].strip().startswith(("#[", "//")):
        at -= 1
    return at


def end_of(lines, at, indent):
    return next((end for end in range(at, len(lines)) if lines[end].rstrip() == f"{indent}}}"), len(lines) - 1)


def body_of(lines, at, indent):
    """Returns the lines in which the body of a function begins and ends. Without a body the first of them is None."""
    depth = 0
    for begin in range(at, len(lines)):
        it = lines[begin].rstrip()
        depth += it.count("{") - it.count("}")
        if it.startswith(indent) and it[len(indent) : len(indent) + 1].strip() and it.endswith(("{", "{}")):
            return begin, begin if it.endswith("}") else end_of(lines, begin, indent)
        if it.endswith(";") and not depth:
            return None, begin
    raise ValueError(f"line {at + 1}: no end of a function")


class Source:
    """Reads a file of src/: its functions, and the modules of its types."""

    def __init__(self, file, text):
        self.file, self.lines, self.functions, self.homes = file, text.split("\n"), [], {}
        module = re.sub(r"(^|/)(lib|main|mod)$", "", file.removeprefix("src/").removesuffix(".rt"))
        # The open blocks: the indentation, the module, the owner of methods, whether it is an impl of a trait, and the scope.
        self.open, at = [(-1, module.replace("/", "::"), "", False, "")], 0
        while at < len(self.lines):
            found = ITEM.match(self.lines[at])
            at = self.item(at, *found.groups()) if found else at + 1
        begins = [*(first_line(self.lines, it.at - 1) + 1 for it in self.functions), len(self.lines) + 1]
        for it, begin, end in zip(self.functions, begins, begins[1:]):
            it.lines = range(begin, end)

    def item(self, at, indent, kind, name):
        """Reads the item of a line. Returns the next line to read."""
        while self.open[-1][0] >= len(indent):
            self.open.pop()
        _, module, owner, is_of_trait, scope = self.open[-1]
        if kind == "fn":
            return self.function(at, indent, name)
        if kind == "macro_rules!":
            return end_of(self.lines, at, indent) + 1
        if kind in ("struct", "enum", "union", "type", "trait") and not owner:
            self.homes[name] = module
        if kind == "impl":
            end = next(end for end in range(at, len(self.lines)) if self.lines[end].rstrip().endswith(("{", "{}")))
            owner, is_of_trait, scope = impl_of("\n".join(self.lines[at : end + 1]).partition("impl")[2].partition("{")[0])
        elif kind == "trait":
            owner, is_of_trait, scope = name, False, name
        elif kind == "mod" and not self.lines[at].rstrip().endswith(";"):
            module = f"{module}::{name}".removeprefix("::")
        if kind in ("impl", "trait", "mod", "extern"):
            self.open.append((len(indent), module, owner, is_of_trait, scope))
        return at + 1

    def function(self, at, indent, name):
        begin, end = body_of(self.lines, at, indent)
        first, opens = first_line(self.lines, at), end if begin is None else begin
        head, body = ("\n".join(filter(None, map(code_of, its))) for its in (self.lines[first : opens + 1], self.lines[opens + 1 : end + 1]))
        _, module, owner, is_of_trait, scope = self.open[-1]
        made = Function(self.file, name, scope, at + 1, head, None if begin is None else body)
        made.home = module, owner, is_of_trait
        self.functions.append(made)
        return end + 1


@functools.lru_cache(maxsize=None)
def functions_in(crate):
    """Returns the functions of a crate, in the order of its files."""
    folder = f"{TOP}/crates/{crate}"
    files = sorted(os.path.relpath(it, folder) for it in glob.glob(f"{folder}/src/**/*.rt", recursive=True))
    sources = [Source(file, text_of(f"{folder}/{file}")) for file in files]
    homes = {name: module for it in sources for name, module in it.homes.items()}
    for it in [it for source in sources for it in source.functions]:
        module, owner, is_of_trait = it.home
        it.path = "::".join(filter(None, (module if is_of_trait else homes.get(owner, module), it.scope, it.name)))
    return [it for source in sources for it in source.functions]
