"""Decides on an edit of a function by the output of a check.

An edit is REFUSED only if a goal of its function has an answer, and that answer fails for its meaning. There are three ways:

- An answer that is written in the function's proof fails mathematically. It may stand at its own goal, or at a new goal to which
  tools/answers.py moved it.
- `search` fails at a goal of the unedited function. It is the answer of each goal without a written answer.
- `search` finds values for which a new goal of a return is false, and `search` is the answer of all other returns of that clause.

An edit HOLDS if every goal of its function is proved. Every other edit is UNDECIDED: an answer or an invariant names a thing that the
edit removed, or a new goal has no answer. Then the tools try the edit with other answers, or it needs another form.

An edit that only swaps the two sides of a symmetric operator, or only exchanges whole statements, is never REFUSED (tools/answers.py).
Its answers may name the sides, or the states between the statements.

A right body can be REFUSED if it calls a function once more, before the call that an answer names. The name then stands for the new
call. An example is `DeadlineTree::change` with a count of its own: `own.count(1); moves.count(own.made() as usize);`. It does the
same as the present body, so no clause can refuse it. right-bodies/ does not have it.
"""

import re

REFUSED, HOLDS, UNDECIDED = "refused", "holds", "undecided"
NOTE = re.compile(r"(?:note: )?(?:\./)?((?:src|proofs)/\S+?):(\d+):\d+: (.*)")
UNPROVED = re.compile(r"it is not proved that (?:.*?\(`([^`]+)`)?")
# The last line about a function: its path and its result.
TOLD = re.compile(r"fn (\S+): (proved|not proved|no proof|could not tell)(.*)")
# The declaration that has an error. An error without a declaration says that the file is not a proof in form.
OF = re.compile(r"error: `([^`]+)`: ")
# An answer that fails only in form: it names a thing that the edit removed, or cites an answer that does. It says little of the contract.
UNFIT = re.compile(
    r"has no field|\(nearest: |is not in scope|has no `|projects from a record, but|was not admitted|was rejected, was not checked"
    r"|replace that `_` with the term"
)
# An answer that cites a refused answer.
STANDS = re.compile(r"stands by its signature alone, since it was refused")
# An answer whose goal no longer exists.
LOST = re.compile(r"module `[^`]*\.Goals` has no `([^`]+)`")
# `search` knows values for which a goal is false.
FALSE = "allow values at which this goal is false"
# The place of a goal, and the condition that has to hold there.
PLACED = re.compile(r"(.*?)-(clause-.*|requires(?:-clause-.*)?)")


def placed(goal):
    at = PLACED.fullmatch(goal)
    return (at[1], at[2]) if at else (goal, "")


def is_return(goal):
    return goal.split("-")[0] == "returns"


def siblings(goal, goals):
    """Returns the goals of the same clause at the other returns, for a goal of a return."""
    return [it for it in sorted(goals) if it != goal and is_return(it) and is_return(goal) and placed(it)[1] == placed(goal)[1]]


def notes_of(said):
    """Returns the lines of a check about a file or a function, each with the indented lines below it."""
    found = []
    for line in said.splitlines():
        if line.startswith("  ") and found:
            found[-1] += f"\n{line}"
        elif NOTE.match(line) or TOLD.match(line):
            found.append(line)
        elif found:
            found.append("")
    return [it for it in found if it and not it.startswith("\n")]


class Heard:
    """The result of a check for the function of an edit and for its answers."""

    def __init__(self, edit, said):
        # `open`: goals that `search` did not prove, each with its message. `unfit`: answers that fail in form, with their messages.
        # `lost`: answers without a goal. `refused`: answers that fail for their meaning. The last one: an invariant has an error.
        self.open, self.unfit, self.lost, self.refused, self.is_without_invariants = {}, {}, {}, set(), False
        waiting = {}
        for note in notes_of(said):
            at, told = NOTE.match(note), TOLD.match(note)
            if told and told[1] == edit.function_path and told[2] != "proved":
                named = [it for part in re.findall("did not prove ([^;]*)", told[3]) for it in re.findall("`([^`]+)`", part)]
                self.open = {it: "" for it in named} | waiting | self.open
                is_known = self.refused or self.unfit or self.lost
                if told[2] == "could not tell" or "which antt refuses" in told[3] and not is_known:
                    self.unfit[""] = [note]
            if told:
                waiting = {}
            elif edit.is_of_its_proof(at[1]) and at[3].startswith("error"):
                self.hear_of_proof(at[1], note)
            elif goal := UNPROVED.match(at[3]):
                name = goal[1] or ""
                # The goal of a struct's invariant may stand outside the function.
                waiting |= {name: note} if name.startswith("invariant_of-") else {}
                self.open |= {name: note} if at[1] == edit.file and int(at[2]) in edit.lines else {}

    def hear_of_proof(self, file, note):
        """Adds an error of a proof file."""
        at, of, head = NOTE.match(note), OF.search(note), "\n".join(note.splitlines()[:2])
        self.is_without_invariants |= file.endswith("/Invariants.antt")
        goal = LOST.search(head)
        if goal and of and goal[1] == of[1]:
            self.lost[goal[1]] = file
        elif UNFIT.search(head) or STANDS.search(note) or not of:
            self.unfit.setdefault(of[1] if of else "", []).append(note)
        else:
            self.refused.add(of[1])

    def why(self):
        """Returns the first message that decides nothing."""
        said = [*sum(self.unfit.values(), []), *(f"{file}: no goal `{goal}`" for goal, file in self.lost.items()), *self.open.values()]
        return next((it.splitlines()[0] for it in said if it), "")

    def new(self, was):
        """Returns the unproved goals that the unedited function lacks."""
        return sorted(set(self.open) - was)

    def is_open(self):
        """True if the verdict depends on goals that `search` did not prove."""
        return bool(self.open) and not self.refused and not self.is_without_invariants

    def verdict(self, was, written):
        """Returns the verdict. `was` has the goals of the unedited function, and `written` the goals with written answers."""
        if self.is_without_invariants:
            return UNDECIDED
        if self.refused or set(self.open) & was - written:
            return REFUSED
        for goal in self.new(was):
            alike = siblings(goal, was)
            if alike and not written.intersection(alike) and FALSE in self.open[goal]:
                return REFUSED
        return UNDECIDED if self.open or self.unfit else HOLDS
