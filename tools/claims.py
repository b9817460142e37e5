"""The code that docs/PROVED.md names. tools/conformance reports each function, clause, file and target there that does not exist."""

import functools
import glob
import os
import re

from repository import TOP, text_of

PAGE = "docs/PROVED.md"
SPAN = re.compile(r"`([^`\n]+)`")
# The kinds of a span: a file with a type or a function and its clause, a call and its clause, and a function and its clause. Then come a
# file, a lone name, a path with arguments, and a target of make.
PLACE = re.compile(r"(mq\w+)/(\w+(?:/\w+)*): (?:(\w+)::)?(\w+)((?: \w+)*)")
CALL = re.compile(r"(\w+)::(\w+)((?: \w+)*)")
WITH_CLAUSE = re.compile(r"([a-z]\w*) ([a-z]\w*)")
SOURCE = re.compile(r"(mq\w+)/(\w+)")
NAME = re.compile(r"[a-z]\w*")
PATH = re.compile(r"((?:tools|tests|crates|examples|bindings|page|vectors|include|docs|daemon|conform)/\S+)(?: .*)?")
TARGET = re.compile(r"make (\S+)")
# Names of other things: parts of the program's interface, and words of std.
OTHERS = {"main", "clap", "message", "check", "convert", "free", "std::alloc::Allocator", "bitlen n", "mq_mld_"}
COMMANDS = {"make", "mquerier"}
# Code.
OWNER = re.compile(r"(?:unsafe )?(?:impl(?:<.*?>)?(?: \S+ for)?|(?:pub )?(?:unsafe )?trait|pub struct|pub enum) (\w+)")
FUNCTION = re.compile(r'\s*(?:pub(?:\(\w+\))? )?(?:unsafe )?(?:const )?(?:extern "C" )?fn (\w+)')
CLAUSE = re.compile(r"\s*ensures\*?(?: (\w+))? \{")
DEFINED = re.compile(r"(?m)^\s*(?:\w+ )*pub (?!use |mod )(?:record |data )?(\S+)(?=[\s:])")
# Spans of a claim, each with True if it is right.
OWN = [
    ("mq_link/link: Link::tick ticks", True),
    ("mq_link/link: Link::tick tick", False),
    ("mq_link/link: Link::tock ticks", False),
    ("mq_link/tick: Link::tick ticks", False),
    ("mq_link/events: run runs", True),
    ("mq_link/events: run walks", False),
    ("mq_link/lonk", False),
    ("mq_held/group_edits: HeldGroups", True),
    ("Link::receive costs", True),
    ("Link::receive spends", False),
    ("Refusal::Memory", True),
    ("Refusal::Memories", False),
    ("mq_igmp_tick later", True),
    ("mq_igmp_tick sooner", False),
    ("limits_are_named_in_their_order", True),
    ("limits_are_named_in_some_order", False),
    ("tools/links", True),
    ("tools/lonks", False),
    ("make live-test", True),
    ("make live-toast", False),
]


@functools.cache
def code():
    """Returns the types of each file, and the clauses of each function by file, type (or None) and name."""
    types, functions = set(), {}
    for path in glob.glob("crates/*/src/**/*.rt", root_dir=TOP, recursive=True):
        crate, _, rest = path.removeprefix("crates/").partition("/src/")
        file, owner, clauses = f"{crate}/{rest.removesuffix('.rt')}", None, None
        for line in text_of(f"{TOP}/{path}").splitlines():
            if line == "}":
                owner, clauses = None, None
            elif at := OWNER.match(line):
                owner = at[1]
                types.add((file, owner))
            elif at := FUNCTION.match(line):
                clauses = functions.setdefault((file, owner, at[1]), set())
            elif (at := CLAUSE.match(line)) and clauses is not None:
                clauses.add(at[1])
    return types, functions


@functools.cache
def names():
    """Returns the names of all functions, clauses and definitions."""
    _, functions = code()
    found = {name for (_, _, name) in functions} | set().union(*functions.values())
    for path in glob.glob("crates/*/specs/**/*.antt", root_dir=TOP, recursive=True):
        found |= set(DEFINED.findall(text_of(f"{TOP}/{path}")))
    return found


def has(clauses, wanted):
    return all(it in clauses for it in wanted.split())


def is_part(types, whole, part):
    """True if a crate has a type of this name, or a type has a variant of this name."""
    if any((file.split("/")[0], name) == (whole, part) for file, name in types):
        return True
    return any(name == whole and re.search(rf"(?m)^    {part}\b", text_of(f"{TOP}/crates/{file.replace('/', '/src/', 1)}.rt")) for file, name in types)


def is_there(span):
    """True if the thing exists that a span names, or if it names none of these things."""
    types, functions = code()
    if at := PLACE.fullmatch(span):
        file = f"{at[1]}/{at[2]}"
        if at[3] is None and (file, at[4]) in types:
            return not at[5]
        found = [it for (place, owner, name), it in functions.items() if (place, name) == (file, at[4]) and at[3] in (None, owner)]
        return any(has(it, at[5]) for it in found)
    if span in OTHERS:
        return True
    if at := CALL.fullmatch(span):
        found = [it for (_, owner, name), it in functions.items() if (owner, name) == (at[1], at[2])]
        return any(has(it, at[3]) for it in found) if found or at[3] else is_part(types, at[1], at[2])
    if (at := WITH_CLAUSE.fullmatch(span)) and at[1] not in COMMANDS:
        return any(at[2] in it for (_, _, name), it in functions.items() if name == at[1])
    if at := SOURCE.fullmatch(span):
        return os.path.isfile(f"{TOP}/crates/{at[1]}/src/{at[2]}.rt")
    if at := TARGET.fullmatch(span):
        return re.search(rf"(?m)^{re.escape(at[1])}:", text_of(f"{TOP}/Makefile")) is not None
    if at := PATH.fullmatch(span):
        return os.path.exists(f"{TOP}/{at[1]}")
    families = {f"mq_{family}_{span}" for family in ("igmp", "mld")}
    return not NAME.fullmatch(span) or span in names() or bool(families & names()) or os.path.isdir(f"{TOP}/crates/{span}")


def faults():
    """Returns the faults of the page, and those of this check."""
    wrong = [f"not read as it has to be: {span}" for span, is_well in OWN if is_there(span) != is_well]
    for number, line in enumerate(text_of(f"{TOP}/{PAGE}").splitlines(), 1):
        wrong += [f"{PAGE}:{number}: there is no `{span}`" for span in SPAN.findall(line) if not is_there(span)]
    return wrong
