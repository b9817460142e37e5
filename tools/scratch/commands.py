"""Tests of tools/needs, tools/try, tools/kept and tools/version."""

import os
import re
import time

from scratch import committed, copy_tools, git, put, run, taken, want


def names_what_is_missing(top):
    want(run(top, f"{top}/tools/needs", "sh", "cat") == (0, ""), "commands that are there", "")
    status, said = run(top, f"{top}/tools/needs", "sh", "no-such-command", "python3-json", "python3-no_such")
    wanted = ["`no-such-command` is missing.", "`python3-no_such` is missing. On Debian: apt-get install python3-no_such"]
    want(status == 1 and [line[: len(it)] for line, it in zip(said.splitlines(), wanted)] == wanted, "commands that are missing", said)
    os.rename(f"{top}/path/rt", f"{top}/rt")
    status, said = run(top, "env", f"PATH={top}/path:/usr/bin:/bin", f"{top}/tools/needs", "rt")
    want(status == 1 and "Rattle toolchain" in said, "the toolchain is missing", said)
    os.rename(f"{top}/rt", f"{top}/path/rt")


def tries(top):
    """Checks that the built program gets the words. Without it, a program without a proof gets them, and the tool says so."""
    os.makedirs(f"{top}/crates/mquerier", exist_ok=True)
    os.remove(f"{top}/bin/mquerier")
    put(f"{top}/capture", "bytes")
    status, said = run(top, f"{top}/tools/try", "show", f"{top}/capture")
    want(status == 0 and said.startswith("not proved yet: `make` proves the program"), "a try says that nothing is proved", said)
    want(said.splitlines()[-1] == f"try --data capture={top}/capture -- show capture", "the words of a try", said)
    put(f"{top}/bin/mquerier", "#!/bin/sh\necho proved $*\n", 0o755)
    want(run(top, f"{top}/tools/try", "show", "x") == (0, "proved show x\n"), "the program where it is built", "")


def ended(top):
    """Waits for the end of the last run in the background."""
    process = f"/proc/{taken(f'{top}/bin/kept.pid').strip()}/cmdline"
    while os.path.exists(process) and taken(process):
        time.sleep(0.1)


def keeps(top):
    """Checks that `rt ci` starts for the crates without a kept proof, and that its end is reported."""
    put(f"{top}/said", "rt: low proved\n7 passed, 0 failed (low and the crates below alone: not the gate)\n")
    put(f"{top}/status", "0")
    status, said = run(top, f"{top}/tools/kept", "low")
    want(status == 0 and "`rt ci low` is at work" in said, "a run in the background", said)
    ended(top)
    want("rt: low proved" in taken(f"{top}/bin/kept.log"), "what it says is kept", taken(f"{top}/bin/kept.log"))
    put(f"{top}/said", "rt: FAILED: low\n6 passed, 1 failed\n")
    put(f"{top}/status", "1")
    run(top, f"{top}/tools/kept", "low")
    ended(top)
    status, said = run(top, f"{top}/tools/kept", "low")
    want(status == 1 and "the last run failed" in said, "a run that fails", said)
    want(run(top, f"{top}/tools/kept", "no-such-crate")[0] == 2, "a crate that isn't there", "")
    module = taken(f"{top}/kit/bin/rt")
    put(f"{top}/kit/bin/rt", module.replace("class Kept:", "class Others:"), 0o755)
    want(run(top, f"{top}/tools/kept") == (0, "kept: the `rt ci` of this kit keeps no proofs\n"), "a kit that keeps nothing", "")
    put(f"{top}/kit/bin/rt", module, 0o755)


def prints_the_version(top):
    """Checks the version of a commit, of a tag, and of a release."""
    top = f"{top}/versions"
    copy_tools(top, "version")
    put(f"{top}/include/mquerier.h", '#define MQ_VERSION_TEXT "3.4.5"\n')
    git(top, "init", "--quiet")
    committed(top)
    version = f"{top}/tools/version"
    said = run(top, version)[1]
    want(re.fullmatch(r"3\.4\.5\+2\d{7}\.[0-9a-f]{8}\n", said), "the version of a commit", said)
    git(top, "tag", "v3.4.4")
    want(run(top, version) == (0, said), "the version with a tag of another one", said)
    git(top, "tag", "v3.4.5")
    want(run(top, version) == (0, "3.4.5\n"), "the version of a tag", run(top, version))
    for text, wanted in (("3.4.4+20261129.01234567", "3.4.4+20261129.g01234567"), ("3.4.4+20261129.0123456f", "3.4.4+20261129.0123456f")):
        put(f"{top}/RELEASE", f"mquerier {text}\ncommit it\n")
        want(run(top, version) == (0, f"{text}\n"), "the version of a release", run(top, version))
        want(run(top, version, "python") == (0, f"{wanted}\n"), "the version for Python", run(top, version, "python"))


def commands(top):
    copy_tools(top, "needs", "try", "kept")
    names_what_is_missing(top)
    tries(top)
    keeps(top)
    prints_the_version(top)
