"""Finds the edits of functions that changed since a commit: the source of the function, its proof folder, a definition that its contract
names, or the edit itself."""

import os
import re

from functions import GHOST_USE, Source, functions_in
from repository import TOP, files_changed_since, text_in, text_of, with_those_below

# A name that a file of specs/ declares, also as a field or a constructor.
DECLARED = re.compile(r"(?m)^ *(?:(?:pub|abbrev|unfoldable|pattern|data|record|axiom) )*(\S+) :(?:\s|\Z)")
PLACE = re.compile(r"crates/(\w+)/(?:specs/(.+)\.antt|(src/.+\.rt))")


def declarations(text):
    """Returns the names that a file of specs/ declares, each with its text. A declaration is a line with the indented lines after it, and
    belongs to the last names before it if it has none."""
    found, names = {}, []
    for chunk in re.split(r"\n(?=[^\s])", re.sub(r"(?m)^\s*--.*\n?", "", text)):
        names = DECLARED.findall(chunk) or names
        for name in names:
            found[name] = found.get(name, "") + " ".join(chunk.split())
    return found


def functions_of(text):
    return {(it.scope, it.name): (it.head, it.body) for it in Source("", text).functions}


def differing(was, now):
    return {it for it in was.keys() | now.keys() if was.get(it) != now.get(it)}


class Changes:
    """The differences from a commit: files, functions by their files, and definitions by their modules."""

    def __init__(self, commit):
        self.files, self.functions, self.definitions = files_changed_since(commit), {}, {}
        for path in self.files:
            found = PLACE.fullmatch(path)
            if found:
                of = declarations if found[2] else functions_of
                now = text_of(f"{TOP}/{path}") if os.path.isfile(f"{TOP}/{path}") else ""
                changed = differing(of(text_in(commit, path)), of(now))
                if found[2]:
                    self.definitions[f"Rattle.{found[1]}.specs.{found[2].replace('/', '.')}"] = changed
                else:
                    self.functions[path] = changed

    def names_changed(self, file, head):
        """True if the head of a function in a file names a changed definition."""
        words = {*re.split(r"[\s(){}\[\],;]+", head)}
        parts = words | {part for it in words for part in it.split(".")}
        for module, names, alias in GHOST_USE.findall(text_of(f"{TOP}/{file}")):
            changed = self.definitions.get(module, ())
            pairs = [it.strip().partition(" as ") for it in names.split(",")]
            local = [pair[2] or pair[0] for pair in pairs if pair[0] in changed]
            if any(parts.issuperset(filter(None, it.split("◌"))) for it in local):
                return True
            if not names and any(f"{alias or module.split('.')[-1]}.{it}" in words for it in changed):
                return True
        return False

    def concern(self, edit):
        """True if an edit has to be tried again. A function of an impl has the contract of its trait."""
        folder, of = f"crates/{edit.crate}/", edit.of
        proofs = [it.removeprefix(folder) for it in self.files if it.startswith(f"{folder}proofs/")]
        if edit.path in self.files or any(map(edit.is_of_its_proof, proofs)):
            return True
        alike = [(name, it) for name in with_those_below([edit.crate]) for it in functions_in(name) if it.name == of.name]
        stated = {(f"crates/{name}/{it.file}", it) for name, it in alike if it == of or it.scope and of.scope.endswith(it.scope)}
        return any((it.scope, it.name) in self.functions.get(file, ()) or self.names_changed(file, it.head) for file, it in stated)
