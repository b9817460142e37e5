"""The calls of the toolchain by the tools.

`rt` proves one crate a call, and locks all crates below it meanwhile. To prove crates in parallel, the tools call the compiler `rattle`
with the words of `rt`. They use the proofs that `rt ci` kept on this machine. The results are in crates/NAME/out/rlib, where `rt` looks
for them. They have the stamp by which `rt` recognizes them, and a key that names the libraries below.
"""

import contextlib
import hashlib
import importlib.machinery
import importlib.util
import json
import os
import shutil
import subprocess
import sys
import time

from repository import TOP, said_by

CARRIES_ON = "--incremental", "out/incremental"
WASM = "wasm64-unknown-unknown"


def folder():
    """Returns the toolchain's folder, which has the page that `rt doc` names."""
    status, said = said_by(TOP, "rt", "doc")
    if status:
        raise ValueError(f"`rt doc` fails: {said.strip()}")
    return os.path.dirname(said.strip())


def loaded():
    """Returns the command `rt` as a module."""
    path = f"{folder()}/bin/rt"
    loader = importlib.machinery.SourceFileLoader("rt", path)
    made = importlib.util.module_from_spec(importlib.util.spec_from_loader("rt", loader))
    sys.modules["rt"] = made
    loader.exec_module(made)
    return made


def text_of(file):
    try:
        with open(file, encoding="utf-8", errors="replace") as it:
            return it.read()
    except FileNotFoundError:
        return None


def without(words, *flags):
    """Returns the words without these flags and the word after each of them."""
    for flag in flags:
        at = words.index(flag)
        words = [*words[:at], *words[at + 2 :]]
    return words


class NothingKept:
    """The proofs kept by an `rt` whose `ci` keeps none. It has the calls of the class `Kept` of later kits."""

    at = None

    def __init__(self):
        # The sum of each crate that is built, by its name.
        self.rlibs = {}

    def key(self, crate):
        return hashlib.sha256(repr((crate.stamp(), [self.rlibs[it.name] for it in crate.below()])).encode()).hexdigest()

    def give(self, crate, tests, key):
        return False

    def in_turn(self, crate, tests, key):
        return contextlib.nullcontext(False)

    def is_built(self, crate):
        self.rlibs[crate.name] = crate.stamp()


class Kit:
    """The crates of a repository, with their proofs. Calls may run in threads. A crate's call comes after all calls for the crates below."""

    def __init__(self, top=TOP, beside=None, anew=False):
        """`top` is the repository or a copy of its crates. `beside` is the process number of an `rt ci`: while it is at work, the kit uses the
        libraries that it makes. With `anew` the kit uses nothing that an `rt ci` kept."""
        self.rt = rt = loaded()
        self.top, self.beside, self.anew = top, beside, anew
        rt.Crate.allowed = rt.handles_of(top)
        rt.rtlib.Crate = rt.Crate
        found = rt.rtlib.crates_below(f"{top}/crates")
        self.crates = {it.name: it for it in sorted(found, key=lambda it: len(it.below()))}
        self.keeps = hasattr(rt, "Kept")
        self.kept = rt.Kept([*self.crates.values()]) if self.keeps else NothingKept()
        # Its first call starts a process, which is not safe once threads run.
        self.guard = rt.rtlib.guarded()
        # The processor seconds of `rattle` for each crate.
        self.spent = {}

    def out(self, name):
        return f"{self.crates[name].folder}/out"

    def has_kept_work(self, name):
        """True if checks of the crate left work that the next check continues."""
        return bool(os.path.isdir(f"{self.out(name)}/incremental") and os.listdir(f"{self.out(name)}/incremental"))

    def key(self, name, target=""):
        """Returns a sum of all texts that the crate's proof reads, once the crates below are built."""
        return self.kept.key(self.crates[name]) + target

    def is_made(self, file, key):
        return os.path.exists(file) and text_of(f"{file}.key") == key

    def made(self, file, key):
        with open(f"{file}.key", "w", encoding="utf-8") as it:
            it.write(key)

    def is_given(self, name, key):
        """True if an earlier `rt ci` on this machine, or a build of the copied repository, proved the same files. The results are then in out/.
        If an `rt ci` is just proving the crate, this waits for it."""
        crate, built = self.crates[name], f"{TOP}/crates/{name}/out/rlib/{name}.rlib"
        if self.anew:
            return False
        if self.top != TOP and crate.makes_rlib() and self.is_made(built, key):
            shutil.copytree(built, crate.rlib, copy_function=getattr(self.rt, "link_or_copy", shutil.copy2))
            return True
        with contextlib.ExitStack() as turn:
            is_given = self.kept.give(crate, False, key)
            if not is_given and turn.enter_context(self.kept.in_turn(crate, False, key)):
                is_given = self.kept.give(crate, False, key)
        return is_given

    def adopt(self, name):
        """Records that an `rt ci` that keeps nothing has just proved a crate. Its library or program in out/ is then used as it is."""
        crate = self.crates[name]
        made = crate.rlib if crate.makes_rlib() else f"{self.out(name)}/{name}" if crate.is_program else None
        if made and os.path.exists(made) and all(it.name in self.kept.rlibs for it in crate.below()):
            self.made(made, self.key(name))
            self.kept.is_built(crate)

    def is_beside(self):
        return self.beside is not None and os.path.isdir(f"/proc/{self.beside}")

    def is_given_in_time(self, name, key):
        """True if the crate is given, now or while this waits for an `rt ci`."""
        while not self.is_given(name, key):
            if not self.is_beside():
                return self.is_given(name, key)
            time.sleep(2)
        return True

    def kept_names(self):
        """Returns the crates whose current files `rt ci` has proved and kept on this machine, with their tests."""
        return self.names_of(lambda crate, key: crate.has_tests() and self.kept_sums(crate, True, key) is None)

    def proved_names(self):
        """Returns the kept crates, and those that were proved and built here."""
        return self.names_of(lambda crate, key: False, self.is_built)

    def is_built(self, crate, key):
        made = f"rlib/{crate.name}.rlib" if crate.makes_rlib() else crate.name if crate.is_program else f"lib{crate.name}.a"
        file = f"{self.out(crate.name)}/{made}"
        return os.path.exists(file) and (text_of(f"{file}.key") or "").startswith(key)

    def names_of(self, lacks, is_built=lambda crate, key: False):
        """Returns the crates that are kept or built, if all crates below them are too."""
        found = []
        for name, crate in self.crates.items():
            if any(it.name not in self.kept.rlibs for it in crate.below()):
                continue
            key = self.key(name)
            sums = self.kept_sums(crate, False, key)
            if is_built(crate, key):
                self.kept.is_built(crate)
            elif sums is None or lacks(crate, key):
                continue
            else:
                self.kept.rlibs[name] = hashlib.sha256(repr([] if crate.is_program else sums).encode()).hexdigest()
            found.append(name)
        return found

    def kept_sums(self, crate, tests, key):
        """Returns the kept files of a proof, each with its sum, or None if no proof is kept."""
        text = text_of(f"{self.kept.place(crate, tests, key)}/made.json") if self.kept.at else None
        return None if text is None else [tuple(it) for it in json.loads(text)["files"]]

    def call(self, folder, words, told=None, later=False):
        """Runs a command in a folder, with the lowest priority if `later`, and passes each line of its output to `told`. Returns its status and
        its lines."""
        how = {"stdin": subprocess.DEVNULL, "stdout": subprocess.PIPE, "stderr": subprocess.STDOUT, "text": True, "errors": "replace"}
        ran, lines = subprocess.Popen([*self.guard, *(["nice", "-n", "10"] if later else []), *words], cwd=folder, **how), []
        for line in ran.stdout:
            lines.append(line.rstrip("\n"))
            if told:
                told(line)
        _, status, used = os.wait4(ran.pid, 0)
        ran.returncode, name = os.waitstatus_to_exitcode(status), os.path.basename(folder)
        self.spent[name] = self.spent.get(name, 0) + used.ru_utime + used.ru_stime
        return ran.returncode, lines

    def rattle(self, crate, words, told=None, later=False):
        return self.call(crate.folder, [self.rt.rtlib.RATTLE, *words], told, later)

    def library(self, name, jobs, told=None, later=False):
        """Proves a library and builds it, unless that is done. Returns the status and the output."""
        crate, key = self.crates[name], self.key(name)
        rlib, lines, status = f"{self.out(name)}/rlib/{name}.rlib", [], 0
        if not self.is_made(rlib, key):
            shutil.rmtree(os.path.dirname(rlib), ignore_errors=True)
            os.makedirs(os.path.dirname(rlib))
            if not self.is_given_in_time(name, key):
                status, lines = self.proved_library(crate, rlib, jobs, told, later)
            if not status:
                self.made(rlib, key)
        if not status:
            self.kept.is_built(crate)
            # This file tells `rt` that the library is built.
            with open(f"{os.path.dirname(rlib)}/stamp", "w", encoding="utf-8") as it:
                it.write(crate.stamp())
        return status, lines

    def proved_library(self, crate, rlib, jobs, told, later):
        words = crate.words(["--jobs", str(jobs)])
        if self.has_kept_work(crate.name):
            return self.rattle(crate, ["build", *words, *CARRIES_ON, "-o", rlib], told, later)
        checked = f"{crate.folder}/out/checked"
        status, lines = self.rattle(crate, ["check", *words, "--progress", "--statements", "-o", checked], told, later)
        if not status:
            words = without(words, "--logic-built", "--jobs")
            status, more = self.rattle(crate, ["build", *words, "--crate-checked", checked, "-o", rlib], told, later)
            lines = [*lines, *more] if status else lines
        shutil.rmtree(checked, ignore_errors=True)
        return status, lines

    def program(self, name, jobs, told=None, later=False):
        """Proves a program and compiles it into out/NAME, unless that is done."""
        crate, key = self.crates[name], self.key(name)
        file, lines, status = f"{self.out(name)}/{name}", [], 0
        if not self.is_made(file, key):
            os.makedirs(self.out(name), exist_ok=True)
            if not self.is_given(name, key):
                status, lines = self.proved_program(crate, file, jobs, told, later)
            if not status:
                self.made(file, key)
        return status, lines

    def proved_program(self, crate, file, jobs, told, later):
        words, checked = crate.words(["--jobs", str(jobs)]), f"{crate.folder}/out/checked"
        toolchain = ["--toolchain", f"{self.rt.KIT}/toolchain", "--backend", "llvm"]
        if self.has_kept_work(crate.name):
            status, lines = self.rattle(crate, ["build", *words, *CARRIES_ON, *toolchain, "-o", f"{file}.o"], told, later)
        else:
            status, lines = self.rattle(crate, ["check", *words, "--progress", "-o", checked], told, later)
            if not status:
                words = [*without(words, "--logic-built", "--jobs"), "--crate-checked", checked]
                status, more = self.rattle(crate, ["build", *words, *toolchain, "-o", f"{file}.o"], told, later)
                lines = [*lines, *more] if status else lines
        shutil.rmtree(checked, ignore_errors=True)
        return (crate.link(f"out/{crate.name}.o", f"out/{crate.name}") if not status else status), lines

    def tests(self, name, told=None, later=False):
        """Proves and runs the tests of a crate. Returns the status and the output."""
        return self.call(self.crates[name].folder, ["rt", "test"], told, later)

    def archive(self, name, target, jobs, told=None, later=False):
        """Proves a static library and compiles it for a processor into out/libNAME.a, unless that is done. The next processor uses the same
        proofs."""
        crate, key = self.crates[name], self.key(name, target)
        file = f"{self.out(name)}/lib{name}.a"
        if self.is_made(file, key):
            return 0, []
        status, lines = self.call(crate.folder, ["rt", "lib", "--jobs", str(jobs), "--target", target], told, later)
        if not status:
            self.made(file, key)
        return status, lines

    def needs(self, name, jobs):
        """Estimates the memory of a proof of the crate in bytes, as was measured over libraries without their proofs. `rt` reserves twice as
        much."""
        crate = self.crates[name]
        antt = sum(text_of(it).count("\n") for it in self.rt.rtlib.files_of(crate.folder) if it.endswith(".antt"))
        return (1_000_000_000 + 350_000 * crate.count(rb"\n") + 100_000 * antt) * (1 + 0.35 * (jobs - 1))

    def memory(self):
        """Returns the memory in bytes that all proofs together may use."""
        return 0.85 * self.rt.free()

    def processors(self):
        return self.rt.processors()

    def link_page(self, name):
        """Links the module for WebAssembly from a static library for it."""
        out, kit = self.out(name), self.rt.KIT
        words = ["--target", WASM, "--toolchain", f"{kit}/toolchain", "-o", f"{out}/{name}.wasm", f"{out}/lib{name}.a"]
        return said_by(TOP, f"{kit}/bin/rattle-link", *words)
