"""Tests of tools/compiled."""

import shutil

from scratch import copy_tools, put, run, taken, want


def compiled(top, *words):
    """Returns the status and output of the tool, and the checks that it made."""
    put(f"{top}/order", "")
    status, said = run(top, f"{top}/tools/compiled", *words)
    return status, said, taken(f"{top}/order").splitlines()


def edits_compile(top):
    """Compiles edits of two functions. One of them does not compile."""
    copy_tools(top, "compiled")
    put(f"{top}/crates.txt", "low:\nhigh: low\n")
    crate = f"{top}/crates/low"
    shutil.rmtree(f"{top}/crates")
    put(f"{crate}/src/lib.rt", "fn one() {\n    first body\n}\nfn other() {\n    second body\n}\n")
    put(f"{crate}/wrong-bodies/one.edit", "file: src/lib.rt\nold: first body\nnew: well typed\n")
    put(f"{crate}/wrong-bodies/other.edit", "file: src/lib.rt\nold: second body\nnew: well typed\n")
    status, said, checks = compiled(top)
    want(status == 0 and said.endswith("2 passed, 0 failed\n") and checks == ["low compiled"], "edits that compile", (said, checks))
    put(f"{crate}/wrong-bodies/other.edit", "file: src/lib.rt\nold: second body\nnew: ill typed\n")
    status, said, checks = compiled(top, "low")
    want(status == 1 and said.endswith("1 passed, 1 failed\n") and len(checks) == 2, "an edit that doesn't compile", (said, checks))
    want("low/other: NOT COMPILED: error[mismatched-types]: ill" in said and "low/one" not in said, "which edit doesn't compile", said)
    put(f"{crate}/wrong-bodies/other.edit", "file: src/lib.rt\nold: second body\nnew: stray\n")
    status, said, checks = compiled(top, "low")
    want("low/other: NOT COMPILED: error: elsewhere" in said and "low/one" not in said and len(checks) == 3, "an error elsewhere", (said, checks))
    put(f"{crate}/wrong-bodies/other.edit", "file: src/lib.rt\nold: second body\nnew: silent\n")
    status, said, _ = compiled(top)
    want(status == 1 and said.endswith("1 passed, 1 failed\n") and "other: NOT COMPILED: how" in said, "a check of which it isn't told how it ended", said)
    over_libraries(top)


def over_libraries(top):
    """Compiles an edit over a library's sources, and then over the built library."""
    shutil.rmtree(f"{top}/crates/low/wrong-bodies")
    put(f"{top}/crates/high/src/lib.rt", "fn one() {\n    first body\n}\n")
    put(f"{top}/crates/high/wrong-bodies/one.edit", "file: src/lib.rt\nold: first body\nnew: well typed\n")
    status, said, checks = compiled(top)
    want(status == 0 and checks == ["high compiled by sources"], "an edit over sources", (said, checks))
    run(top, f"{top}/tools/build", "--crates", "low")
    status, said, checks = compiled(top, "high")
    want(status == 0 and checks == ["high compiled"], "an edit over a built library", (said, checks))
    want(run(top, f"{top}/tools/compiled", "none")[0] == 2, "a crate that there isn't", "")
