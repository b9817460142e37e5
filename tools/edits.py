"""Edits of functions: where each stands, and the ways in which it is tried."""

import copy
import glob
import os

from answers import MOST_WAYS, answers_in, is_only_order, turned, turns, ways
from functions import functions_in
from repository import TOP, put, text_of
from verdicts import HOLDS, REFUSED, UNDECIDED, Heard


def read_edit(path):
    """Returns the file that an edit changes, and its pairs of an old and a new text."""
    lines = text_of(path).splitlines()
    texts = [line.partition(":")[2].removeprefix(" ") for line in lines[1:]]
    return lines[0].removeprefix("file: "), list(zip(texts[::2], texts[1::2]))


def once(text, pairs):
    """Yields the text to which each pair is applied, with its old text, which has to occur there once."""
    for old, new in pairs:
        if text.count(old) != 1:
            raise ValueError(f"{text.count(old)} times, and not once, its file has: {old}")
        yield text, old
        text = text.replace(old, new)


class Edit:
    """An edit of one function: the crate, the file, the texts, the function, and its lines and path in the checker."""

    def __init__(self, crate, path):
        self.crate, self.path, self.is_right = crate, os.path.relpath(path, TOP), "/right-bodies/" in path
        self.name = f"{crate}/{os.path.basename(path).removesuffix('.edit')}"
        self.file, self.pairs = read_edit(path)
        text = text_of(f"{TOP}/crates/{crate}/{self.file}")
        places = [left.count("\n", 0, left.find(old)) + 1 for left, old in once(text, self.pairs)]
        heads = [it for it in functions_in(crate) if it.file == self.file]
        found = {sum(it.at <= place for it in heads) - 1 for place in places}
        if len(found) != 1 or -1 in found:
            raise ValueError("it changes no function, or more than one")
        self.of = heads[found.pop()]
        self.function, self.lines, self.function_path = self.of.name, self.of.lines, f"{crate}::{self.of.path}"
        self.begin()

    def of_nothing(self):
        """Returns the edit that changes nothing in the same function. It counts as a right body."""
        made = copy.copy(self)
        made.begin()
        made.name, made.pairs, made.is_right = f"{self.crate}/{self.function} as it stands", [], True
        return made

    def is_of_its_proof(self, file):
        """True if a file belongs to the function's proof. If the function calls itself, its folder has a plus before the name."""
        folder, _, name = os.path.dirname(file).rpartition("/")
        return f"{folder}/{name.lstrip('+')}".split("/") == ["proofs", *self.function_path.split("::")[1:]]

    def texts(self):
        """Returns the files of its proof, as the next trial uses them."""
        folder = f"{TOP}/crates/{self.crate}"
        files = [os.path.relpath(it, folder) for it in glob.glob(f"{folder}/proofs/**/*.antt", recursive=True)]
        return self.answers or {it: text_of(f"{folder}/{it}") for it in files if self.is_of_its_proof(it)}

    def size(self):
        """Estimates the cost of a trial: the lines of the function and of its proof."""
        return len(self.lines) + sum(it.count("\n") for it in self.texts().values())

    def apply(self, folder):
        """Edits a copy of the crate, with other answers if these are to be tried."""
        text = text_of(f"{folder}/{self.file}")
        for old, new in self.pairs:
            text = text.replace(old, new)
        for file, its in {self.file: text, **(self.answers or {})}.items():
            put(f"{folder}/{file}", its)

    def begin(self):
        """Forgets all trials: the next one uses the proof of the repository, and there is no verdict."""
        self.answers, self.ways, self.verdicts, self.why, self.said = None, [], [], "", None

    def hear(self, said):
        """Reads the output of a check. True if the verdict needs the goals of the unedited function."""
        self.said = Heard(self, said)
        return self.said.is_open()

    def judge(self, goals):
        """Decides on the output of a check, if the unedited function has these goals. True if the edit is to be tried again, with other
        answers."""
        texts = self.texts()
        verdict = self.said.verdict(goals, {*answers_in(texts)})
        self.verdicts.append(verdict)
        self.why = "" if verdict == HOLDS else self.why or self.said.why()
        more = ways(texts, self.said, goals) if verdict == UNDECIDED else []
        more += turns(texts, self.pairs) if verdict == REFUSED and not self.answers else []
        self.ways += [it for it in more if it not in (texts, *self.ways)]
        is_left = self.ways and HOLDS not in self.verdicts and len(self.verdicts) <= MOST_WAYS
        self.answers = self.ways.pop(0) if is_left else self.answers
        return bool(is_left)

    def verdict(self):
        """Returns the verdict of all trials. An edit holds if one trial held. It is refused if one trial was refused and none held, unless
        it only swaps two sides or exchanges statements."""
        is_alike = turned(self.pairs) or is_only_order(self.pairs)
        said = [HOLDS] if is_alike else [HOLDS, REFUSED]
        return next((it for it in said if it in self.verdicts), UNDECIDED)


def edits_of(name, kinds, bad):
    """Yields the edits of a crate. It passes the name of an edit that does not fit to `bad`."""
    for path in sorted(it for kind in kinds for it in glob.glob(f"{TOP}/crates/{name}/{kind}/*.edit")):
        try:
            yield Edit(name, path)
        except (OSError, ValueError, IndexError) as why:
            bad(f"{name}/{os.path.basename(path)}: BAD EDIT: {why}")
