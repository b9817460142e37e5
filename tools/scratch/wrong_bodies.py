"""Tests of tools/wrong-bodies: the edits that it tries, and the reasons why they are refused."""

import json
import os
import re
import shutil

from scratch import committed, copy_tools, put, run, taken, want

PATH = "./proofs/{}/Answers.antt:3:1: error: "
CITES = "./proofs/renamed/Answers.antt:9:5: error: 1 declaration that depends on `cell-requires`, which was rejected, was not checked: returns\n"
LOST = PATH + "`{}`: `goal.{}`: module `low.renamed.Goals` has no `{}` that can be named\n"
FALSE = PATH + "`{}`: the goal does not follow\n"
PLACE = PATH + "`it`: `goal.{}`: module `low.{}.Goals` has no `{}` that can be named from here (names in it that begin alike: `After-x-arg-1`, `After-y`)\n"
FIELD = PATH + "`{}`: record `low.{}.Lts` (nearest: .{}, .other)\n  has no field `{}`\n"
OPEN = "note: src/lib.rt:{}:1: it is not proved that it holds (`{}`){}\n"
NOT_PROVED, VALUES = "fn low::{}: not proved\n", "; the facts known there allow values at which this goal is false"


def unproved(function, goals, more="; `search` gave up"):
    """Returns the output of a check for goals that `search` did not prove."""
    line = 3 * list(FUNCTIONS).index(function) + 2
    return "".join(OPEN.format(line, it, more) for it in goals) + NOT_PROVED.format(function)


def lost(function, goals):
    """Returns the output of a check for new goals if answers lost their own goals."""
    return "".join(LOST.format(function, it, it, it) for it in goals) + unproved(function, goals.values())


FUNCTIONS = (
    "callee caller single mentions right held loop renamed moved turned vanished folded unchecked unwritten uncited untold unsaid bare_name early early_false early_holds early_first "
    "searched limits stranger fields fields_fit fields_old places sits sides sides_false calls calls_false smaller order".split()
)
CELL, EXCHANGED = {"cell-requires": "slot-requires"}, {"a-requires": "c-requires", "b-requires": "d-requires"}
EARLY, TWO = "returns-then-x-clause-it", "returns-clause-it,returns-in-y-clause-it"


def early(function, first, second, more="; `search` gave up"):
    """Returns the outputs for a new return: without an answer, and with that of the first or the second other return."""
    return {f"{TWO}:y": unproved(function, [EARLY], more), f"{TWO},{EARLY}": first.format(function), f"{TWO},{EARLY}:x": second.format(function)}


UNFIT, REFUSES = FIELD.replace("`{}`", f"`{EARLY}`", 1).replace(".{},", ".up,").replace("field `{}`", "field `cell`").replace("low.{}", "low"), FALSE.replace("`{}`", f"`{EARLY}`")
# The output of a check for a function, by the answers in its proof, each with the fields that it names.
SAYS = {
    # An unproved goal, and a function that calls it.
    "callee": {"none": unproved("callee", ["returns"]) + "fn low::caller: no proof: it calls `low::callee`, which is not proved\n"},
    "caller": {"none": "./proofs/+caller/Answers.antt:3:1: error: `returns`: the goal does not follow\n"},
    # An edit that is refused only if it is tried alone.
    "single": {"none": "", "none alone": PATH.format("single") + "`returns`: the goal does not follow\n"},
    # A name that the edit removed, no error, an invariant outside the function, and a loop's invariant.
    "mentions": {"none": PATH.format("mentions") + "`returns`: record `low.mentions.Lts` has no field `cell`\n"},
    "right": {"none": ""},
    "held": {"none": OPEN.format(400, "invariant_of-self", "") + NOT_PROVED.format("held")},
    "loop": {"none": "./proofs/loop/Invariants.antt:3:1: error: `invariant-loop`: it differs\n" + unproved("loop", ["returns"])},
    # New goals, after answers lost their own goals. With the renamed answer, the first is refused and the second is not. Then come two
    # goals whose answers have to be exchanged, and a goal without an answer to rename.
    "renamed": {"cell-requires": lost("renamed", CELL) + CITES, "slot-requires": FALSE.format("renamed", "slot-requires")},
    "moved": {"cell-requires": lost("moved", CELL), "slot-requires": ""},
    "turned": {"a-requires,b-requires": lost("turned", EXCHANGED), "c-requires,d-requires": FALSE.format("turned", "c-requires"), "d-requires,c-requires": ""},
    "vanished": {"cell-requires": lost("vanished", {"cell-requires": "other-clause-it"})},
    # A name on two lines, answers that fail only in form, and an answer that only cites a refused one.
    "folded": {"none": PATH.format("folded") + "`returns`: record `low.folded.Lts`\n  has no field `cell`\n"},
    "unchecked": {"none": PATH.format("unchecked") + "`returns`: `cell-requires` was not admitted\n"},
    "unwritten": {"none": PATH.format("unwritten") + "`returns`: replace that `_` with the term it stands for\n"},
    "uncited": {"none": CITES.replace("renamed", "uncited")},
    # A check without a result for the function, a check that gives no reason, and an error of a file.
    "untold": {"none": "fn low::untold: could not tell\n"},
    "unsaid": {"none": "fn low::unsaid: not proved; it stands on `low.proofs.unsaid.Answers.returns`, which antt refuses\n"},
    "bare_name": {"none": PATH.format("bare_name") + "unexpected `=`\n"},
    # A new return with the answer of another return. It fails in form, is refused, holds with the first, or holds only with the second.
    "early": early("early", UNFIT, UNFIT, VALUES),
    "early_false": early("early_false", REFUSES, UNFIT),
    "early_holds": early("early_holds", "", UNFIT),
    "early_first": early("early_first", REFUSES, ""),
    # A new return whose clause `search` proved at all others. It knows values for which the new goal is false, or none.
    "searched": {"none": unproved("searched", [EARLY], VALUES)},
    "limits": {"none": unproved("limits", [EARLY])},
    # A new goal that does not belong to a return.
    "stranger": {"none": unproved("stranger", ["it-requires"], VALUES)},
    # A field with another name. The answer with the new name is refused, or holds. In the last edit the answer already has that name.
    "fields": {"returns:x-it": FIELD.format("fields", "returns", "fields", "x-now", "x-it"), "returns:x-now": FALSE.format("fields", "returns")},
    "fields_fit": {"returns:x-it": FIELD.format("fields_fit", "returns", "fields_fit", "x-now", "x-it"), "returns:x-now": ""},
    "fields_old": {"returns:x-it:x-now": FIELD.format("fields_old", "returns", "fields_old", "x-now", "x-it"), "returns:x-now:x-now": FALSE.format("fields_old", "returns")},
    # The place after a call that another call now follows.
    "places": {"it:After-x": PLACE.format("places", "After-x", "places", "After-x"), "it:After-y": FALSE.format("places", "it")},
    # A sum with swapped sides, whose answer with swapped sides holds or does not. Then two exchanged calls, with the same two results.
    "sides": {"returns:left:right": FALSE.format("sides", "returns"), "returns:right:left": ""},
    "sides_false": {it: FALSE.format("sides_false", "returns") for it in ("returns:left:right", "returns:right:left")},
    "calls": {"returns:f:f-2": FALSE.format("calls", "returns"), "returns:f-2:f": ""},
    "calls_false": {it: FALSE.format("calls_false", "returns") for it in ("returns:f:f-2", "returns:f-2:f")},
    # A symmetric method with swapped sides, and two exchanged statements. The answers fail in each form.
    "smaller": {"none": FALSE.format("smaller", "returns")},
    "order": {"none": FALSE.format("order", "returns")},
    # An answer that uses a refused invariant.
    "sits": {"none": PATH.format("sits") + "`returns`: it differs\n  `invariant` stands by its signature alone, since it was refused\n"},
}
# The texts of a body before and after the edit.
BODIES = {it: (f"{it} body", f"{it} wrong") for it in SAYS} | {
    "sides": ("sides; x.left + right;", "sides; right + x.left;"),
    "sides_false": ("sides_false; x.left + right;", "sides_false; right + x.left;"),
    "calls": ("calls; a b", "calls; b a"),
    "calls_false": ("calls_false; a b", "calls_false; b a"),
    "smaller": ("smaller; (a as u8).min(b.c())", "smaller; b.c().min(a as u8)"),
    "order": ("order; f(1); f(2);", "order; f(2) ; f(1);"),
}
# The edits that change several texts.
PAIRS = {"order": [("f(1);", "f(2) ;"), ("f(2);", "f(1);")]}
OF_EDITS = "wrong-bodies", "changes.py", "edits.py", "answers.py", "verdicts.py", "stubs.py", "functions.py"
# The edits that a contract refuses, those that it lets through, and the refused ones whose answers are first renamed or moved.
REFUSED = "callee", "caller", "single", "held", "renamed", "early_false", "searched", "fields", "places", "calls_false"
HOLDS = "right", "moved", "turned", "early_holds", "early_first", "fields_fit", "sides", "calls"
MOVED = "renamed", "early_false", "fields", "places", "calls_false"


def answers(says):
    """Returns the proof file for the first output of a function. Its last answer names the fields."""
    names, *fields = next(iter(says)).split(":")
    of = "".join(f"pub {it} : goal.{it}\n{it} g c = refl\n\n" for it in names.split(","))
    return of.removesuffix("refl\n\n") + " + ".join(["it", *(f"c.{it}" for it in fields)]) + "\n"


# A function with a contract, and the definitions that it names directly, by another definition, and by a module.
CONTRACT = """ghost use Rattle.low.specs.Words.{named, ◌⊓◌, far as near, at_trait};
ghost use Rattle.low.specs.Words as words;
/// A comment.
fn single()
    ensures { result ≡ named (1 ⊓ 2) near words.whole }
{
    single body
}
trait Trait {
    fn held()
        ensures { result ≡ at_trait };
}
impl Trait for It {
    fn held() {
        held body
    }
}
"""
WORDS = """use Rattle.std.specs.Prelude.{ℕ}

abbrev pub named : ℕ → ℕ
named n = indirect n

indirect : ℕ → ℕ
indirect n = n

infixl 40 ◌⊓◌
abbrev pub ◌⊓◌ : ℕ → ℕ → ℕ
left ⊓ right = left

record pub Far : Type 0 where
  pub far : ℕ

abbrev pub whole : ℕ
whole =
    -- a comment
    3

abbrev pub at_trait : ℕ
at_trait = 5
"""
# The changes of a file, and the edits that have to be tried again.
CHANGES = [
    ("specs/Words.antt", "named n = indirect n", "named n = n", ["single"]),
    ("specs/Words.antt", "indirect n = n", "indirect n = 0", []),
    ("specs/Words.antt", "left ⊓ right = left", "left ⊓ right = right", ["single"]),
    ("specs/Words.antt", "pub far : ℕ", "pub far : Bool", ["single"]),
    ("specs/Words.antt", "    3", "    4", ["single"]),
    ("specs/Words.antt", "-- a comment", "-- another comment", []),
    ("src/lib.rt", "result ≡ named", "result ≤ named", ["single"]),
    ("src/lib.rt", "/// A comment.", "/// Another comment.", []),
    ("src/lib.rt", "    single body", "    single body;", ["single"]),
    ("src/lib.rt", "callee body", "callee body;", []),
    ("proofs/single/Answers.antt", "-- as it was", "-- otherwise", ["single"]),
    ("proofs/caller/Answers.antt", "fields", "other fields", []),
    ("wrong-bodies/single.edit", "single wrong", "single is wrong", ["single"]),
    ("src/lib.rt", "result ≡ at_trait", "result ≤ at_trait", ["held"]),
    ("src/lib.rt", "        held body", "        held body;", ["held"]),
    ("specs/Words.antt", "at_trait = 5", "at_trait = 6", ["held"]),
]


def wrong_bodies_of_changes(top):
    """Makes each change since a commit alone, and checks whether `--since` finds the edit."""
    crate = f"{top}/crates/low"
    text = taken(f"{crate}/src/lib.rt")
    others = re.sub(r"fn (single|held)\(\) \{\n.*\n\}\n", "", text)
    put(f"{crate}/src/lib.rt", CONTRACT + others)
    put(f"{crate}/specs/Words.antt", WORDS)
    put(f"{crate}/proofs/single/Answers.antt", "-- as it was\n")
    put(f"{crate}/proofs/caller/Answers.antt", "-- fields\n")
    committed(top)
    for file, old, new, due in CHANGES:
        was = taken(f"{crate}/{file}")
        want(was.count(old) == 1, f"{file} has such a text", old)
        put(f"{crate}/{file}", was.replace(old, new))
        said = tried(top, "--since", "HEAD")[1]
        want([it for it in ("single", "held") if f"low/{it}:" in said] == due, f"the edits after {new!r} in {file}", said)
        put(f"{crate}/{file}", was)
    want(tried(top, "--since", "HEAD")[0] == (0, "0 passed, 0 failed"), "the edits since a commit without changes", "")
    put(f"{crate}/src/lib.rt", text)
    committed(top)


def wrong_bodies_drawn(top):
    """Checks that at most 120 edits of changed functions are tried, and 40 others if they are requested, each once."""
    crate, of, count = f"{top}/crates/low", f"{top}/crates/low/wrong-bodies/callee.edit", 200
    for number in range(count):
        shutil.copy(of, of.replace("callee.edit", f"callee_{number}.edit"))
    ended, said = tried(top, "--since", "HEAD")
    want((ended[0], said.count("refused by")) == (0, 120), "the edits of a function that changed", said)
    committed(top)
    ended, said = tried(top, "--drawn", "HEAD")
    want(ended == (0, "40 passed, 0 failed") and 0 < said.count("refused by") < 40, "edits that are drawn, some of which passed before", said)
    put(f"{crate}/wrong-bodies/caller.edit", taken(f"{crate}/wrong-bodies/caller.edit") + "\n")
    ended, said = tried(top, "--drawn", "HEAD")
    want(ended == (0, "41 passed, 0 failed") and "low/caller" in said, "an edit that changed, and others", said)
    for number in range(count):
        os.remove(of.replace("callee.edit", f"callee_{number}.edit"))
    committed(top)


def wrong_bodies_go_on(top):
    """Checks that a run of all edits passes over those that passed before, until the crate, the rule or the toolchain changes."""
    rule, kit = f"{top}/tools/verdicts.py", f"{top}/path/rt"
    tried(top, "low/caller")
    put(f"{top}/bin/tried", "".join(it for it in taken(f"{top}/bin/tried").splitlines(True) if "/caller." in it))
    ended, said = tried(top)
    want((ended, said.count("refused by")) == ((0, f"{len(REFUSED)} passed, 0 failed"), len(REFUSED) - 1), "a run after a stop", said)
    want("refused by" not in tried(top)[1], "a run where nothing changed", "")
    want("refused by" in tried(top, "low/caller")[1], "an edit that is named is tried again", "")
    for file, text in ((rule, "# changed\n"), (kit, "# changed\n"), (f"{top}/crates/low/specs/Words.antt", "-- changed\n")):
        was = taken(file)
        put(file, was + text, 0o755)
        want(tried(top)[1].count("refused by") == len(REFUSED), f"a run after a change of {file}", "")
        put(file, was, 0o755)


def scratch_edits(top):
    """Makes a crate with a function and a wrong body for each entry of SAYS, and an edit that can't be applied."""
    shutil.rmtree(f"{top}/crates")
    copy_tools(top, *OF_EDITS)
    put(f"{top}/crates.txt", "low:\n")
    crate = f"{top}/crates/low"
    put(f"{crate}/src/lib.rt", "#[inline]\n" + "".join(f"fn {it}() {{\n    {BODIES[it][0]}\n}}\n" for it in FUNCTIONS))
    for it, says in SAYS.items():
        for name, text in {**says, "wrong": BODIES[it][1]}.items():
            put(f"{top}/says/{it}/{name}", text)
        pairs = PAIRS.get(it, [BODIES[it]])
        put(f"{crate}/wrong-bodies/{it}.edit", "file: src/lib.rt\n" + "".join("old: {}\nnew: {}\n".format(*pair) for pair in pairs))
    for it, says in SAYS.items():
        if "none" not in says:
            put(f"{crate}/proofs/{it}/Answers.antt", answers(says))
    put(f"{crate}/wrong-bodies/absent.edit", "file: src/lib.rt\nold: no such text\nnew:\n")
    return crate


def tried(top, *words):
    """Returns the status and last line of tools/wrong-bodies, and its output."""
    status, said = run(top, f"{top}/tools/wrong-bodies", *words)
    return (status, said.splitlines()[-1] if said else ""), said


def wrong_bodies(top):
    """Checks the results of wrong bodies, an edit that can't be applied, and then right bodies."""
    crate = scratch_edits(top)
    ended, said = tried(top)
    want(ended == (1, f"{len(REFUSED)} passed, {len(SAYS) - len(REFUSED) + 1} failed"), "the sum of wrong bodies", said)
    for it in SAYS:
        how = f"refused by a goal of {it}" if it in REFUSED else "LET THROUGH" if it in HOLDS else "UNDECIDED"
        want(f"wrong-bodies low/{it}: {how}{', with other answers' * (it in MOVED)}" in said, f"the edit of {it}", said)
    want("wrong-bodies low/absent.edit: BAD EDIT" in said, "an edit that can't be applied", said)
    want(tried(top, "low/caller", "low/right")[0] == (1, "1 passed, 2 failed"), "edits that are tried by their names", "")
    for words in (["low/none"], ["--since"], ["--since", "HEAD", "1"], ["--drawn", "none"], ["none"], ["--fit", "low"]):
        want(tried(top, *words)[0][0] == 2, "words that are none of the tool's", words)
    found = {os.path.basename(line.split()[0]).removesuffix(".edit") for line in taken(f"{top}/bin/tried").splitlines()}
    want(found == {*REFUSED}, "which edits passed", found)
    wrong_and_right_bodies(top, crate)


def wrong_and_right_bodies(top, crate):
    """Checks a refused wrong body among the right ones. The wrong bodies that weren't refused serve as right bodies."""
    for it in set(SAYS) - set(REFUSED):
        put(f"{crate}/right-bodies/{it}.edit", taken(f"{crate}/wrong-bodies/{it}.edit"))
        os.remove(f"{crate}/wrong-bodies/{it}.edit")
    os.remove(f"{crate}/wrong-bodies/absent.edit")
    ended, said = tried(top)
    want(ended == (0, f"{len(SAYS)} passed, 0 failed"), "wrong bodies that are refused, and right ones that aren't", said)
    shutil.copy(f"{crate}/wrong-bodies/callee.edit", f"{crate}/right-bodies/callee.edit")
    ended, said = tried(top)
    want(ended[0] == 1 and "wrong-bodies low/callee: REFUSED, and right" in said, "a right body that is refused", said)
    shutil.rmtree(f"{crate}/right-bodies")


def wrong_bodies_fit(top):
    """Checks `--fit`, `--clean`, and a crate that isn't proved."""
    crate = f"{top}/crates/low"
    want(tried(top, "--fit")[0] == (0, f"{len(REFUSED)} passed, 0 failed"), "edits that fit", "")
    before = taken(f"{top}/bin/tried")
    ended, said = tried(top, "--clean")
    want(ended == (0, f"{len(REFUSED)} passed, 0 failed") and "low/caller as it stands: right" in said, "functions as they stand", said)
    want(taken(f"{top}/bin/tried") == before, "functions as they stand are written down as edits", "")
    put(f"{crate}/must-fail/absent.edit", "file: src/lib.rt\nold: no such text\nnew:\n")
    want(tried(top, "--fit")[0] == (1, f"{len(REFUSED)} passed, 1 failed"), "an edit that doesn't fit", "")
    os.remove(f"{crate}/must-fail/absent.edit")
    put(f"{crate}/src/lib.rt", taken(f"{crate}/src/lib.rt") + "// fails\n")
    ended, said = tried(top)
    want(ended[0] == 1 and "low: NOT PROVED as it stands" in said, "a crate that isn't proved", said)


def checks(top, *words):
    """Returns a line for each check of a run: the number of functions, and whether it takes over what an earlier check read."""
    put(f"{top}/checks", "")
    tried(top, *words)
    return taken(f"{top}/checks").splitlines()


def wrong_bodies_begin(top):
    """Checks that several checks begin with one of all functions, and that all others take over what it read."""
    first, *others = checks(top, "low")
    is_over = len(others) > 1 and all(it.endswith(" True") for it in others)
    want(first == f"{len(REFUSED)} False" and is_over, "the checks of several edits", [first, *others])
    found = checks(top, "low/caller", "low/callee")
    want(found == ["2 False"], "the only check of two edits", found)


FUNCTIONS_READ = {
    "lib.rt": "pub fn free(\n    a: u64,\n) -> u64\n    ensures { result ≡ record {\n      a = 1;\n    } }\n{\n    free(a)\n}\n\nmod counts;\n",
    "counts.rt": """struct Count;

macro_rules! made {
    () => {
        fn of_a_macro() {}
    };
}

impl<A: Held> Held<A> for Count
where
    A: Copy,
{
    ghost held = { λ c. c };

    fn hold(&self) -> u64 {
        0
    }
}

trait Held<A> {
    fn hold(&self) -> u64
        ensures { result ≡ 0 };
}

mod inner {
    fn it() {}
}
""",
    "more.rt": 'impl Count {\n    // fn no() {\n    pub const fn n(&self) -> u64 {\n        0\n    }\n}\nunsafe extern "C" fn call() {}\nimpl Drop for Count {\n    fn drop() {}\n}\n',
}
# Their paths, whether they have a body, and whether they call themselves.
PATHS = {
    "counts::CountHeld::hold": (True, False),
    "counts::Held::hold": (False, False),
    "counts::inner::it": (True, False),
    "free": (True, True),
    "counts::Count::n": (True, False),
    "more::call": (True, False),
    "more::CountDrop::drop": (True, False),
}
READ = "import json, functions; print(json.dumps({it.path: (it.body is not None, it.calls_itself) for it in functions.functions_in('read')}))"


def functions_are_read(top):
    """Checks the paths of functions in the checker."""
    for file, text in FUNCTIONS_READ.items():
        put(f"{top}/crates/read/src/{file}", text)
    status, said = run(top, "env", f"PYTHONPATH={top}/tools", "PYTHONDONTWRITEBYTECODE=1", "python3", "-c", READ)
    want(status == 0 and json.loads(said) == {path: [*it] for path, it in PATHS.items()}, "the functions of a crate", said)
    shutil.rmtree(f"{top}/crates/read")


def all_of_wrong_bodies(top):
    wrong_bodies(top)
    wrong_bodies_begin(top)
    wrong_bodies_of_changes(top)
    wrong_bodies_go_on(top)
    wrong_bodies_drawn(top)
    wrong_bodies_fit(top)
    functions_are_read(top)
