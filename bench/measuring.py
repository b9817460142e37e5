"""Runs of the program and of its peers on captures, their costs, and tables of these. The program is bin/mquerier, or the file in
the environment variable MQUERIER."""

import os
import platform
import re
import resource
import subprocess
import sys

import frames

TOP = os.path.dirname(os.path.dirname(os.path.abspath(__file__)))
PROGRAM = os.environ.get("MQUERIER") or os.path.join(TOP, "bin", "mquerier")


def written(folder, *words):
    """The name of a capture that `bench/capture` writes."""
    name = os.path.join(folder, "-".join(words) + ".pcap")
    with open(name, "wb") as to:
        subprocess.run([os.path.join(TOP, "bench", "capture"), *words], stdout=to, check=True)
    return name


def without_packets(folder):
    """The name of a capture that has no packet."""
    name = os.path.join(folder, "none.pcap")
    with open(name, "wb") as to:
        to.write(frames.capture_header(frames.ETHERNET))
    return name


def told(words, name):
    """The text of a run on standard error. The capture is its standard input."""
    with open(name, "rb") as capture:
        how = {"stdin": capture, "stdout": subprocess.DEVNULL, "stderr": subprocess.PIPE, "text": True}
        ran = subprocess.run(words, **how)
    if ran.returncode != 0:
        sys.exit(f"bench: {' '.join(words)}: {ran.stderr}")
    return ran.stderr


def worked():
    """The seconds that the processors worked on runs up to now, for the programs and for the system together."""
    usage = resource.getrusage(resource.RUSAGE_CHILDREN)
    return usage.ru_utime + usage.ru_stime


def run(words, name):
    """The seconds that the processors worked on a run, and the most memory that it had, in KiB."""
    begun = worked()
    said = told(["/usr/bin/time", "-f", "%M", *words], name)
    return worked() - begun, int(said.split()[-1])


def best(*runs):
    """The least seconds of three times and the most memory of some runs, each words and a capture. The runs take turns, so that the
    machine is the same for all."""
    rounds = [[run(*it) for it in runs] for _ in range(3)]
    return [(min(seconds for seconds, _ in them), max(memory for _, memory in them)) for them in zip(*rounds)]


def counted(words, name):
    """Counts the instructions and the mispredicted branches of a run, by valgrind. It would count one instruction for each byte that
    `rep movsb` copies and `rep stosb` sets, so these instructions are turned off."""
    plain = ["env", "GLIBC_TUNABLES=" + ":".join(f"glibc.cpu.x86_rep_{it}_threshold={2**40}" for it in ("movsb", "stosb"))]
    said = told([*plain, "valgrind", "--tool=callgrind", "--branch-sim=yes", "--callgrind-out-file=/dev/null", *words], name)
    all_of_them, _, conditional, _, indirect = map(int, re.search(r"Collected : (.*)", said)[1].split())
    return all_of_them, conditional + indirect


def allocated(words, name):
    """Counts the bytes that a run requests from the C library, by valgrind."""
    said = told(["valgrind", *words], name)
    return int(re.search(r"([\d,]+) bytes allocated", said)[1].replace(",", ""))


def said_by(*words):
    return subprocess.run(words, cwd=TOP, capture_output=True, text=True, check=True).stdout.strip()


def source():
    """The commit of the program, and the machine that it ran on."""
    commit = said_by("git", "rev-parse", "--short", "HEAD")
    changed = ", changed" if said_by("git", "status", "--porcelain", "--", "crates", "crates.txt") else ""
    with open("/proc/cpuinfo", encoding="utf-8") as it:
        model = re.search(r"model name\s*: (.*)", it.read())
    return f"Commit {commit}{changed}; {model[1] if model else platform.machine()}, {os.cpu_count()} processors"


def tell(script, head, rows, words, page="bench/README.md", how=""):
    """Prints a table of Markdown with its source. With `--write` it puts the table into a page, between the lines that name the
    script."""
    table = [f"| {' | '.join(row)} |" for row in (head, *rows)]
    text = "\n".join([f"{source()}{how}:", "", table[0], "|" + "---|" * len(head), *table[1:], ""])
    print(text, flush=True)
    if "--write" not in words:
        return
    if os.environ.get("MQUERIER"):
        sys.exit("bench: a page has figures of bin/mquerier alone")
    with open(f"{TOP}/{page}", encoding="utf-8") as it:
        before, begin, rest = it.read().partition(f"<!-- {script} -->\n")
    _, end, behind = rest.partition("<!-- end -->")
    if not end:
        sys.exit(f"bench: {page} has no place for {script}")
    with open(f"{TOP}/{page}", "w", encoding="utf-8") as to:
        to.write(f"{before}{begin}\n{text}\n{end}{behind}")
