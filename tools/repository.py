"""The shared part of the tools: files and commands, the crates, their dependencies, and changes since a commit."""

import concurrent.futures
import glob
import os
import re
import subprocess

TOP = os.path.dirname(os.path.dirname(os.path.abspath(__file__)))
PROGRAM, LIBRARY, PAGE = "mquerier", "mq_c", "mq_page"
PARTS = ("src", "specs", "proofs")
# The commits that landed last are at most so many hours older than HEAD.
HOURS = 8


def text_of(file):
    with open(file, encoding="utf-8") as it:
        return it.read()


def put(file, text):
    os.makedirs(os.path.dirname(file), exist_ok=True)
    with open(file, "w", encoding="utf-8") as it:
        it.write(text)


def said_by(folder, *words):
    """Returns the status and the whole output of a command that runs in a folder."""
    how = {"stdin": subprocess.DEVNULL, "stdout": subprocess.PIPE, "stderr": subprocess.STDOUT}
    ran = subprocess.run(words, cwd=folder, encoding="utf-8", errors="replace", check=False, **how)
    return ran.returncode, ran.stdout


def on_all_cores(work, items):
    with concurrent.futures.ThreadPoolExecutor(os.cpu_count() or 1) as pool:
        return list(pool.map(work, items))


def rows_of(text):
    """Returns the rows of a crates.txt: each crate with the words after it, and the crates that it names."""
    rows = [line.partition("#")[0].partition(":") for line in text.splitlines()]
    return {name.split()[0]: (name.split()[1:], named.split()) for name, colon, named in rows if colon}


def crates():
    """Returns the crates of the repository, each with the crates that it names."""
    rows = rows_of(text_of(f"{TOP}/crates.txt"))
    return {name: [it for it in named if it in rows] for name, (_, named) in rows.items()}


def with_those_below(wanted):
    """Returns these crates and those below them, lowest first."""
    named, found = crates(), []

    def find(name):
        for it in named[name]:
            find(it)
        if name not in found:
            found.append(name)

    for name in wanted:
        find(name)
    return found


def with_those_above(wanted):
    """Returns these crates and those above them, lowest first."""
    named, found = crates(), set(wanted)
    for name in with_those_below(named):
        if found & set(named[name]):
            found.add(name)
    return [it for it in with_those_below(named) if it in found]


def is_program(name):
    return os.path.isfile(f"{TOP}/crates/{name}/src/main.rt")


def has_tests(name):
    files = glob.glob(f"{TOP}/crates/{name}/src/**/*.rt", recursive=True)
    return any(re.search(r"(?m)^ *#\[test\]", text_of(it)) for it in files)


def git(*words):
    """Returns the output of git, or None if it fails."""
    how = {"stdin": subprocess.DEVNULL, "stdout": subprocess.PIPE, "stderr": subprocess.DEVNULL}
    ran = subprocess.run(["git", *words], cwd=TOP, encoding="utf-8", errors="replace", check=False, **how)
    return None if ran.returncode else ran.stdout


def files_changed_since(commit):
    """Returns the files that differ from the commit, with uncommitted edits and new files."""
    changed, new = git("diff", "--name-only", "--no-renames", commit, "--"), git("ls-files", "--others", "--exclude-standard")
    if changed is None or new is None:
        raise ValueError(f"git knows no commit {commit}")
    return {*changed.splitlines(), *new.splitlines()}


def commit_before():
    """Returns the commit that SINCE names, or else the last one of origin/main below HEAD. If nothing changed since, as in a fresh clone of
    main, it is the last commit before the HOURS hours before HEAD, or the first commit."""
    if named := os.environ.get("SINCE"):
        found = git("rev-parse", "--verify", "--quiet", f"{named}^{{commit}}")
        if not found:
            raise ValueError(f"git knows no commit {named}")
        return found.strip()
    base = (git("merge-base", "HEAD", "origin/main") or "").strip()
    if base and files_changed_since(base):
        return base
    before = int(git("log", "-1", "--format=%ct") or 0) - 3600 * HOURS
    older = git("rev-list", "-1", "--first-parent", f"--before={before}", "HEAD")
    return (older or git("rev-list", "--max-parents=0", "HEAD") or "HEAD").split()[0]


def text_in(commit, file):
    """Returns the file's text in a commit, or an empty text without the file."""
    return git("show", f"{commit}:{file}") or ""


def crates_changed_since(commit):
    """Returns the crates with a source, a definition, a proof or a row in crates.txt that differs from the commit."""
    found = {it.split("/")[1] for it in files_changed_since(commit) if re.match(rf"crates/\w+/({'|'.join(PARTS)})/", it)}
    was, rows = rows_of(text_in(commit, "crates.txt")), rows_of(text_of(f"{TOP}/crates.txt"))
    return [name for name in crates() if name in found or was.get(name) != rows[name]]
