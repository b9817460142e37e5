"""Tests of tools/gate: its counts, its end, and the quick gate."""

import re
import shutil
import time

from scratch import TOOLS, committed, git, put, run, taken, want

# The status of a script, the last line and the status of `rt ci`, and then the status of the gate with its counts of these two.
GATES = [
    (0, "rt: ok\n7 passed, 0 failed\n", 0, 0, 8, 0),
    (1, "rt: ok\n7 passed, 0 failed\n", 0, 1, 7, 1),
    (0, "rt: FAILED: low\n6 passed, 1 failed\n", 1, 1, 7, 1),
    (0, "rt: low proved\n", 2, 1, 1, 1),
    (0, "rt: low proved\n", 0, 1, 1, 1),
    (0, "7 passed, 0 failed\n", 1, 1, 8, 1),
    (0, "7 passed, 0 failed\nrt: it goes on\n", 0, 1, 1, 1),
]


def names_of_the_gate():
    names = {"__file__": f"{TOOLS}/gate"}
    exec(taken(f"{TOOLS}/gate").rpartition("sys.exit(")[0], names)
    return names


def gate(top, *parts):
    """Returns the gate's status and last line, and its output."""
    status, said = run(top, f"{top}/tools/gate", *parts)
    return (status, said.splitlines()[-1]), said


def stand_in(top, command, counts):
    """Writes a script in the place of a command. It prints a sum if the command does."""
    name = command.split()[0]
    script = name if "/" in name else f"path/{name}"
    put(f"{top}/{script}", f"#!/bin/sh\n{'echo 2 passed, 0 failed' if counts else ''}\necho {name} >> {top}/runs\n", 0o755)


def gates(top):
    parts, beside = names_of_the_gate()["PARTS"], {"test": 0, "mutants": 0}
    for part in beside:
        for command, counts in parts[part]:
            if command != "rt ci":
                stand_in(top, command, counts)
                beside[part] += (2 if counts else 1) * (command != "tools/meters")
    for script, said, status, wanted, passed, failed in GATES:
        put(f"{top}/tools/meters", f"#!/bin/sh\nexit {script}\n", 0o755)
        put(f"{top}/said", said)
        put(f"{top}/status", str(status))
        ended, printed = gate(top, "test", "mutants")
        last = f"{passed + sum(beside.values())} passed, {failed} failed"
        want(ended == (wanted, last), f"the gate of {script, said, status}", printed)
        told = printed.splitlines().count("rt: FAILED: low")
        want(told == 2 * said.count("FAILED: low"), "what failed stands once more at the end", printed)
    put(f"{top}/said", "7 passed, 0 failed\n")
    put(f"{top}/status", "0")
    put(f"{top}/tools/wrong-bodies", "#!/bin/sh\necho \"2 passed, $((1 - $#)) failed\"\nexit $((1 - $#))\n", 0o755)
    well = beside["test"] + 8
    for words, wanted in ((["test"], (0, well, 0)), (["mutants"], (1, 2, 1)), (["test", "mutants"], (1, well + 2, 1))):
        ended, printed = gate(top, *words)
        want(ended == (wanted[0], f"{wanted[1]} passed, {wanted[2]} failed"), f"the gate of {words}", printed)
    want(run(top, f"{top}/tools/gate")[0] == 2, "a gate of no part passes", "")
    put(f"{top}/tools/wrong-bodies", "#!/usr/bin/env python3\nimport time\nwhile time.process_time() < 1:\n    pass\nprint('2 passed, 0 failed')\n", 0o755)
    printed = gate(top, "mutants")[1]
    want(re.search(r"gate: tools/wrong-bodies: status 0, \d+ s, [123] s of processors\n", printed), "the processor seconds of a command", printed)
    tries_edits_beside(top)


# Tries edits until a command after `rt ci` ran.
GOES_ON = """#!/usr/bin/env python3
import os, sys, time
is_well, until = sys.argv[1] == "--fit", time.monotonic() + 20
while not is_well and time.monotonic() < until:
    time.sleep(0.1)
    is_well = "tools/links" in open("runs").read() and os.sched_getscheduler(0) == os.SCHED_IDLE
print("2 passed, 0 failed" if is_well else "0 passed, 2 failed")
sys.exit(0 if is_well else 1)
"""


def tries_edits_beside(top):
    """Tries edits from the start of `rt ci` on, beside later commands. The gate counts them, they know its process, and they end if it fails."""
    stand_in(top, "tools/wrong-bodies", True)
    put(f"{top}/tools/wrong-bodies", '#!/bin/sh\n[ "$1" = --fit ] || echo "beside $*" >> ' + f"{top}/runs\necho 2 passed, 0 failed\n", 0o755)
    put(f"{top}/runs", "")
    alone = gate(top, "test")[0]
    both, printed = gate(top, "test", "drawn")
    count = lambda it: int(it[1].split()[0])
    want((both[0], count(both)) == (0, count(alone) + 2), "the edits beside the proofs are not counted", printed)
    want(taken(f"{top}/runs").count("beside --drawn HEAD ") == 1, "edits are tried once, beside `rt ci`", taken(f"{top}/runs"))
    put(f"{top}/runs", "")
    put(f"{top}/tools/wrong-bodies", GOES_ON, 0o755)
    both, printed = gate(top, "test", "drawn")
    want((both[0], count(both)) == (0, count(alone) + 2), "edits hold up the commands after `rt ci`, or take their processors", printed)
    put(f"{top}/status", "1")
    put(f"{top}/said", "6 passed, 1 failed\n")
    put(f"{top}/tools/wrong-bodies", '#!/bin/sh\n[ "$1" = --fit ] || sleep 30\necho 2 passed, 0 failed\n', 0o755)
    began = time.monotonic()
    ended, printed = gate(top, "test", "drawn")
    want(ended[0] == 1 and time.monotonic() - began < 25, "edits go on where `rt ci` failed", printed)
    put(f"{top}/status", "0")


def quick_gate(top, *words):
    """Returns the status of a quick gate, its proofs and its runs of the program."""
    put(f"{top}/order", "")
    status, said = run(top, "env", *words, f"{top}/tools/gate", "quick")
    return status, sorted(taken(f"{top}/order").splitlines()), said


def begin_repository(top):
    """Makes a repository with all crates proved and everything committed."""
    names = names_of_the_gate()
    for command, counts in [*names["FIRST"], *names["runs_of"]("bin/mquerier"), ("tools/compiled", True), ("make", False)]:
        stand_in(top, command, counts)
    put(f"{top}/.gitignore", "out/\nbin/\nlib/\norder\nruns\nkit/\n")
    for name in ("low", "left", "right", "beside", "mquerier", "mq_c"):
        put(f"{top}/crates/{name}/src/lib.rt", "fn f() {}\n")
    git(top, "init", "--quiet")
    committed(top)
    run(top, f"{top}/tools/build", "--crates", "low", "left", "right", "beside", "mquerier", "mq_c")


def quick_gates(top):
    """Checks the proofs and runs after a change of a crate that the program uses, of a crate that nothing uses, and of none."""
    begin_repository(top)
    here = "x86_64-unknown-linux-gnu"
    for name, order in (("left", ["left build", "left check"]), ("beside", ["beside build", "beside check"]), ("right", [f"mq_c build {here}", "right build", "right check"])):
        put(f"{top}/runs", "")
        put(f"{top}/crates/{name}/src/lib.rt", "fn g() {}\n")
        ended = quick_gate(top)
        want(ended[:2] == (0, order), f"a quick gate where {name} changed", ended)
        is_run = "make\n" in taken(f"{top}/runs")
        want(is_run == (name != "beside"), f"the runs of the program where {name} changed", ended)
        ended = quick_gate(top, "SINCE=HEAD")
        want(ended[:2] == (0, []), f"a quick gate over what the last one proved, where {name} changed", ended)
        run(top, f"{top}/tools/build", "--crates", "mquerier")
        committed(top)
    put(f"{top}/runs", "")
    ended = quick_gate(top, "SINCE=HEAD")
    want(ended[:2] == (0, []) and "make\n" not in taken(f"{top}/runs"), "a quick gate where nothing changed", ended)
    shutil.rmtree(f"{top}/crates/beside/out")
    put(f"{top}/crates/beside/wrong-bodies/it.edit", "")
    committed(top)
    put(f"{top}/runs", "")
    ended = quick_gate(top, "SINCE=HEAD")
    want(ended[:2] == (0, ["beside build", "beside check"]), "a quick gate where nothing was left of a crate", ended)
    want("tools/compiled\n" not in taken(f"{top}/runs"), "edits are compiled where nothing changed", ended)
    put(f"{top}/crates/right/fails", "")
    put(f"{top}/crates/right/src/lib.rt", "fn h() {}\n")
    want(quick_gate(top, "SINCE=HEAD")[0] == 1, "a quick gate where a crate isn't proved", "")
    want(quick_gate(top, "SINCE=no-such-commit")[0] == 2, "a quick gate since no commit", "")


def commit_of_a_quick_gate(top):
    """Checks the commit of a quick gate in a repository with commits that are 20 hours, 10 hours and an hour old."""
    clone, now, made = f"{top}/clone", int(time.time()), []
    put(f"{clone}/tools/repository.py", taken(f"{TOOLS}/repository.py"))
    git(clone, "init", "--quiet")
    for hours in (20, 10, 1):
        put(f"{clone}/file", f"{hours}\n")
        git(clone, "add", "--all")
        date = f"GIT_COMMITTER_DATE=@{now - 3600 * hours}"
        run(top, "env", date, "git", "-C", clone, "-c", "user.name=it", "-c", "user.email=it@localhost", "commit", "--quiet", "--message", "it")
        made.append(run(top, "git", "-C", clone, "rev-parse", "HEAD")[1].strip())
    call = ["python3", "-B", "-c", f"import sys; sys.path.insert(0, '{clone}/tools'); import repository; print(repository.commit_before())"]
    for main, words, wanted in ((None, [], 1), (2, [], 1), (1, [], 1), (0, [], 0), (0, [f"SINCE={made[1][:9]}"], 1)):
        if main is not None:
            git(clone, "update-ref", "refs/remotes/origin/main", made[main])
        status, said = run(top, "env", *words, *call)
        want((status, said.strip()) == (0, made[wanted]), f"the commit of a quick gate with {words} over {main}", said)
    git(clone, "checkout", "--quiet", made[0])
    git(clone, "update-ref", "refs/remotes/origin/main", made[0])
    want(run(top, *call)[1].strip() == made[0], "the commit of a quick gate without an older one", "")
