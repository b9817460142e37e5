"""Rewrites the answers of a function's proof for an edit that changed the names of its goals, or gave it new goals.

- An answer that lost its goal moves to a new goal, in each way to match them.
- A new goal of a return gets the answers of the other returns of its clause.
- A missing field gets the name of a new field, and a missing place that of a place after a new call.
- If an edit swaps the two sides of a symmetric operator, the answers swap them too.
- If an edit only moves words, the answers exchange a first and a second call.
"""

import itertools
import re

from verdicts import placed, siblings

# The most places that exchange their names, and the most ways that are tried for an edit.
MOST_PLACES, MOST_WAYS = 3, 8
# A name of a proof, with the character before it.
NAME = re.compile(r"(.?)(?<![^\s(){}\[\],;:←∙.])([^\s(){}\[\],;:←∙.]+)")
# The answer to a goal, down to the next declaration.
ANSWER = re.compile(r"(?ms)^pub (\S+) : goal\.\1(?=\s).*?(?=^(?:--|pub |abbrev |[^\s]+ : )|\Z)")
# A field that a record lacks, or a place that the function lacks, and those that there are.
MISSING = re.compile(r"has no (?:field `|`(?=After-))([^`]+)`")
NEAREST = re.compile(r"\(nearest: ([^)]*)\)")
OTHERS = re.compile(r"(?:the fields that can be named here are|names in it that begin alike:) ([^\n]*)")


# The sides of a symmetric operator in code and in terms, and these operators.
SIDE, TERM = r"[\w.]+(?:\[[\w. ]+\])?", r"[^\s(){}\[\],;]*"
UNORDERED = "+", "*", "==", "!=", "||", "&&"
# A symmetric method with its two sides.
METHOD = re.compile(r"(\([^()]*\)|[\w.]+(?:\(\))?)\.(min|max)\(((?:[^()]|\(\))*)\)")


def answers_in(texts):
    """Returns the answers of some proof files, by their goals."""
    return {at[1]: at[0] for text in texts.values() for at in ANSWER.finditer(text)}


def ways_of(lost, new):
    """Returns each way to match the places of lost goals with those of new goals: maps of places."""
    was, now = (list(dict.fromkeys(placed(it)[0] for it in goals)) for goals in (lost, new))
    held = {place: {what for at, what in map(placed, [*lost, *new]) if at == place} for place in {*was, *now}}
    if len(was) > MOST_PLACES:
        return []
    ways = [dict(zip(was, places)) for places in itertools.permutations(now, len(was))]
    return [way for way in ways if all(held[it] & held[to] for it, to in way.items())]


def renamed(text, way):
    """Returns the text of a proof in which the goals and the named fields have other places."""
    tokens = {}
    for was, now in way.items():
        one, other = was.split("-"), now.split("-")
        tokens |= dict(zip(one, other)) if len(one) == len(other) else {}

    def other(at):
        place, what = placed(at[2])
        if place in way:
            return at[1] + "-".join(filter(None, (way[place], what)))
        is_field = at[1] == "." or at[2].startswith("After-")
        return at[1] + ("-".join(tokens.get(it, it) for it in at[2].split("-")) if is_field else at[2])

    return NAME.sub(other, text)


def with_fields(texts, fields):
    """Returns proof files in which some fields have other names."""

    def other(at):
        return at[1] + (fields.get(at[2], at[2]) if at[1] == "." else at[2])

    return {file: NAME.sub(other, text) for file, text in texts.items()}


def fields_of(heard, texts):
    """Returns the fields and places that answers lack, each with its candidates. These are new fields of the same call that differ in a
    local's name, or places after a new call."""
    known, found = {at[2] for text in texts.values() for at in NAME.finditer(text)}, {}
    for note in [it for notes in heard.unfit.values() for it in notes]:
        missing = MISSING.search(note)
        if not missing:
            continue
        named = [it.strip(" .") for at in NEAREST.finditer(note) for it in at[1].split(",")]
        named += [it for at in OTHERS.finditer(note) for it in re.findall("`([^`]+)`", at[1])]
        head = missing[1].split("-")[0]
        found[missing[1]] = [it for it in dict.fromkeys(named) if it not in known and it.split("-")[0] == head and "-arg-" not in it]
    return found


def with_answers(texts, more):
    """Returns proof files with more answers: some goals get a renamed copy of another goal's answer."""
    texts, answers = dict(texts), answers_in(texts)
    for goal, of in more.items():
        file = next(it for it, text in texts.items() if any(at[1] == of for at in ANSWER.finditer(text)))
        texts[file] += "\n" + renamed(answers[of], {placed(of)[0]: placed(goal)[0]})
    return texts


def without(texts, lost):
    """Returns proof files without the answers to some goals."""
    return {file: ANSWER.sub(lambda at: "" if at[1] in lost else at[0], text) for file, text in texts.items()}


def ways(texts, heard, was):
    """Returns the proof files to try next, in each way that matches the output of a check. Each way maps files to texts."""
    fields = fields_of(heard, texts)
    if any(fields.values()):
        most = max(map(len, fields.values()))
        return [with_fields(texts, {it: its[min(at, len(its) - 1)] for it, its in fields.items() if its}) for at in range(most)][:MOST_WAYS]
    new, answers = heard.new(was) if heard.open else [], answers_in(texts)
    moved = [{file: renamed(text, way) for file, text in texts.items()} for way in ways_of(heard.lost, new)] if heard.lost else []
    alike = {it: [of for of in siblings(it, answers) if of not in new] for it in new if it not in answers}
    most = max(map(len, alike.values()), default=0)
    kept = [{it: its[min(at, len(its) - 1)] for it, its in alike.items() if its} for at in range(most)]
    return [*moved, *(without(with_answers(texts, more), heard.lost) for more in kept if more)][:MOST_WAYS]


def without_brackets(text):
    return re.sub(r"[\s()]", "", text)


def turned(pairs):
    """Returns the operator whose sides an edit swaps, with the two sides, or None if it does something else."""
    for old, new in pairs if len(pairs) == 1 else []:
        for at in METHOD.finditer(old):
            other = f"{old[:at.start()]}{at[3]}.{at[2]}({at[1]}){old[at.end():]}"
            if without_brackets(other) == without_brackets(new):
                return at[2], at[1], at[3]
        for operator in UNORDERED:
            for at in re.finditer(rf"({SIDE}) {re.escape(operator)} (?=({SIDE}))", old):
                if f"{old[:at.start()]}{at[2]} {operator} {at[1]}{old[at.end() + len(at[2]):]}".split() == new.split():
                    return operator, at[1], at[2]
    return None


def is_only_order(pairs):
    """True if an edit only exchanges whole statements. An answer that names a state between them then fails, also if the body is right."""
    before, after = ("".join("".join(pair[at] for pair in pairs).split()) for at in (0, 1))
    is_of_statements = before.endswith(";") and after.endswith(";") and not re.search("[{}]", before)
    return is_of_statements and before != after and sorted(before.split(";")) == sorted(after.split(";"))


def with_turned(texts, operator, left, right):
    """Returns proof files in which the sides of an operator are swapped wherever they are names with these ends."""
    left, right = (re.findall(r"\w+", it)[-1] for it in (left, right))
    there = re.compile(rf"(?<![^\s(])({TERM}(?<!\w){left}) {re.escape(operator)} ({TERM}(?<!\w){right})(?![^\s),;\]}}])")
    return {file: there.sub(lambda at: f"{at[2]} {operator} {at[1]}", text) for file, text in texts.items()}


def with_calls_exchanged(texts, pairs):
    """Returns, for an edit that only moves words, a way for each called name: proof files that exchange its first and its second call."""
    words = [sorted(re.findall(r"\w+|\S", "\n".join(it))) for it in zip(*pairs)]
    fields = {at[2] for text in texts.values() for at in NAME.finditer(text) if at[1] == "."}
    twice = [it for it in sorted(fields) if f"{it}-2" in fields] if words and words[0] == words[1] else []
    return [with_fields(texts, {it: f"{it}-2", f"{it}-2": it}) for it in twice]


def turns(texts, pairs):
    """Returns the proof files to try next if an answer is refused, though the edit may only have swapped two sides or two calls."""
    operator = turned(pairs)
    return [with_turned(texts, *operator)] if operator else with_calls_exchanged(texts, pairs)
