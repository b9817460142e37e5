"""A scratch repository for a test of the tools, and the faults that the test finds."""

import os
import shutil
import subprocess

TOOLS = os.path.dirname(os.path.dirname(os.path.abspath(__file__)))
CRATES = "low:\nleft: low # words\nright: low byteorder\nbeside: low\nmquerier: left right clap\nmq_c staticlib: right core\n"
wrong = []


def want(is_so, what, said):
    if not is_so:
        wrong.append(f"itself: {what}\n{said}")


def put(file, text, mode=0o644):
    os.makedirs(os.path.dirname(file), exist_ok=True)
    with open(file, "w", encoding="utf-8") as to:
        to.write(text)
    os.chmod(file, mode)


def taken(file):
    with open(file, encoding="utf-8") as it:
        return it.read()


def copy_tools(top, *names):
    os.makedirs(f"{top}/tools", exist_ok=True)
    for name in names:
        shutil.copy(f"{TOOLS}/{name}", f"{top}/tools/{name}")


def run(top, *command):
    """Returns the status and the whole output of a command that runs with the scratch toolchain."""
    # The gate that runs this may have a commit of its own.
    path = {"PATH": f"{top}/path:{os.environ['PATH']}", "SINCE": ""}
    how = {"stdin": subprocess.DEVNULL, "stdout": subprocess.PIPE, "stderr": subprocess.STDOUT, "text": True}
    ran = subprocess.run(command, env={**os.environ, **path}, check=False, **how)
    return ran.returncode, ran.stdout


def git(top, *words):
    run(top, "git", "-C", top, "-c", "user.name=it", "-c", "user.email=it@localhost", *words)


def committed(top):
    git(top, "add", "--all")
    git(top, "commit", "--quiet", "--message", "it")
    git(top, "update-ref", "refs/remotes/origin/main", "HEAD")
