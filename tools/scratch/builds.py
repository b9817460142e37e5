"""Tests of tools/build: the proofs, their order, and the end of a build."""

import os
import shutil

from scratch import CRATES, put, run, taken, want


def build(top, *words):
    """Returns the status of a build, its output, and the crates that it proved and built."""
    put(f"{top}/order", "")
    status, said = run(top, f"{top}/tools/build", *words)
    return status, said, taken(f"{top}/order").splitlines()


def checks(order):
    return [it for it in order if it.endswith("check")]


def emptied(top):
    shutil.rmtree(f"{top}/bin", ignore_errors=True)
    for name in os.listdir(f"{top}/crates"):
        shutil.rmtree(f"{top}/crates/{name}/out", ignore_errors=True)


def builds_libraries(top):
    """Builds the library for C, for two processors, and the page's module."""
    status, said, order = build(top, "--library")
    want((status, checks(order), order[-1]) == (0, ["low check", "right check"], "mq_c build x86_64-unknown-linux-gnu"), "a build of the library", (said, order))
    want("right: logic=proved functions=2 sum=0\n" in taken(f"{top}/lib/build.log"), "the log of the library lacks a line", "")
    want(build(top, "--library")[2] == [], "the library is built twice", "")
    status, said, order = build(top, "--library", "a-processor")
    want((status, order) == (0, ["mq_c build a-processor"]), "a build of the library for another processor", (said, order))
    put(f"{top}/crates.txt", f"{CRATES}mq_page staticlib: right\n")
    out = f"{top}/crates/mq_page/out"
    os.makedirs(os.path.dirname(out))
    status, said, order = build(top, "--crates", "mq_page")
    want((status, order) == (0, ["mq_page build wasm64-unknown-unknown"]), "a build of the page", (said, order))
    want(taken(f"{out}/mq_page.wasm") == f"linked {out}/libmq_page.a\n", "the page's module is not linked", said)
    shutil.rmtree(os.path.dirname(out))
    put(f"{top}/crates.txt", CRATES)


def builds_program(top):
    """Builds the program from nothing, again without a change, and after a change."""
    emptied(top)
    status, said, order = build(top, "some", "words")
    want(status == 0 and checks(order)[0] == "low check", "lower crates are proved first", (said, order))
    want(sorted(checks(order)[1:3]) == ["left check", "right check"] and checks(order)[3:] == ["mquerier check"], "crates are proved once, in order", order)
    want("beside check" not in order and "mq_c build" not in order, "what the program doesn't stand on is proved", order)
    want(said.splitlines()[-1].startswith("bin/mquerier is built: "), "the last line", said)
    want("right: 2 functions proved, " in said, "how many functions are proved", said)
    made = taken(f"{top}/bin/mquerier")
    want(made == "#!/bin/sh\n# built mquerier\n", "bin/mquerier is another program", made)
    status, said, order = build(top, "some", "words")
    want((status, order) == (0, []) and "right: proved before, unchanged" in said, "what is proved is proved again", (said, order))
    put(f"{top}/crates/left/src/lib.rt", "fn g() {}\n")
    order = build(top, "some", "words")[2]
    want(checks(order) == ["left check", "mquerier check"], "a changed crate and those above it are proved, and no other", order)


def takes_what_is_kept(top):
    """Checks that crates with a kept or earlier proof aren't proved again."""
    emptied(top)
    order = build(top, "--crates", "low")[2]
    key = taken(f"{top}/crates/low/out/rlib/low.rlib.key")
    shutil.copytree(f"{top}/crates/low/out/rlib/low.rlib", f"{top}/kit/kept/False-low-{key}/made/rlib/low.rlib")
    put(f"{top}/kit/kept/False-low-{key}/made.json", '{"key": "", "files": []}')
    emptied(top)
    status, said, order = build(top, "--crates", "left")
    want((status, checks(order)) == (0, ["left check"]), "what is kept is proved", (said, order))
    shutil.rmtree(f"{top}/kit/kept/False-low-{key}")


def uses_what_was_proved(top):
    """Checks a toolchain whose `ci` keeps nothing. A crate that it has just proved is adopted, and isn't proved again."""
    module, adopt = f"{top}/kit/bin/rt", f"import sys; sys.path.insert(0, '{top}/tools'); from kit import Kit; Kit().adopt('low')"
    text = taken(module)
    want("class Kept:" in text, "the toolchain keeps proofs", "")
    put(module, text.replace("class Kept:", "class Others:"), 0o755)
    emptied(top)
    want(checks(build(top, "--crates", "left")[2]) == ["low check", "left check"], "what nothing has proved is passed over", "")
    for name in ("low", "left"):
        os.remove(f"{top}/crates/{name}/out/rlib/{name}.rlib.key")
    status, said = run(top, "python3", "-c", adopt)
    order = build(top, "--crates", "left")[2]
    want((status, checks(order)) == (0, ["left check"]), "what is adopted is proved again, or what isn't is used", (said, order))
    put(module, text, 0o755)


def ends_where_a_crate_is_not_proved(top):
    emptied(top)
    build(top, "some", "words")
    put(f"{top}/crates/right/fails", "")
    put(f"{top}/crates/right/src/lib.rt", "fn h() {}\n")
    status, said, order = build(top, "some", "words")
    want(status == 1 and "mquerier check" not in order, "a failed crate is passed over", said)
    last = ["src/lib.rt:3:1: error: the goal is open", "fn right::f: not proved"]
    want(said.splitlines()[-2:] == last, "the reason is not last", said)
    want(taken(f"{top}/bin/mquerier") == "#!/bin/sh\n# built mquerier\n", "a failed build takes the program away", "")
    want("right: logic=not-proved\n" in taken(f"{top}/bin/build.log"), "the log lacks a line", "")
    os.remove(f"{top}/crates/right/fails")


def runs_tests(top):
    put(f"{top}/crates/beside/src/lib.rt", "#[test]\nfn f() {}\n")
    status, said, order = build(top, "--crates", "beside", "left")
    want(status == 0 and order.count("beside test") == 1 and "left test" not in order, "tests of the crates that have some are run", (said, order))
    os.remove(f"{top}/crates/beside/src/lib.rt")


def builds(top):
    for name in ("low", "left", "right", "beside", "mquerier", "mq_c"):
        os.makedirs(f"{top}/crates/{name}/src")
    builds_libraries(top)
    builds_program(top)
    takes_what_is_kept(top)
    uses_what_was_proved(top)
    ends_where_a_crate_is_not_proved(top)
    runs_tests(top)
    want(run(top, f"{top}/tools/build")[0] == 2, "a build of no words passes", "")
