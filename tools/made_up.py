"""The shared part of tools/made-up and tools/made-up-captures: many parallel runs with little memory."""

import concurrent.futures
import os
import subprocess
import sys

from repository import TOP

# The limits of a run: seconds, and kilobytes of address space. A check has a link with the greatest limits.
SECONDS, ROOM, ROOM_OF_CHECKS = 20, 73728, 188416


def run(program, words, data):
    room = ROOM_OF_CHECKS if words[0] == "check" else ROOM
    limited = ["/bin/sh", "-c", f'ulimit -v {room} && exec "$@"', "sh", program, *words]
    return subprocess.run(limited, input=data, capture_output=True, timeout=SECONDS)


def left(name, data):
    """Leaves a capture in bin/, and returns its name."""
    os.makedirs(f"{TOP}/bin", exist_ok=True)
    with open(f"{TOP}/bin/{name}", "wb") as to:
        to.write(data)
    return f"{TOP}/bin/{name}"


def main(usage, wrong, words):
    """Tries a program on as many captures as the words say, from a number on. `wrong` returns the fault of a capture, or None."""
    if len(words) > 3 or not all(word.isdigit() for word in words[:2]):
        print(usage, file=sys.stderr)
        return 2
    count, first, program = [*words, *["2000", "1", f"{TOP}/bin/mquerier"][len(words) :]]
    program, numbers = os.path.abspath(program), range(int(first), int(first) + int(count))
    tool = os.path.basename(sys.argv[0])
    if not os.path.isfile(program):
        sys.exit(f"{tool}: {program} is not there: `make` builds bin/mquerier")
    with concurrent.futures.ProcessPoolExecutor(os.cpu_count() or 1) as pool:
        found = [it for it in pool.map(wrong, [program] * len(numbers), numbers, chunksize=20) if it]
    for it in found[:10]:
        print(f"{tool}: {it}")
    print(f"{tool}: {len(numbers)} captures, {len(found)} wrong")
    return 1 if found or not numbers else 0
