"""The cost of each crate's proof in processor seconds, measured on this machine or else from tools/costs."""

import os

from repository import TOP, put, text_of

STATED, MEASURED = f"{TOP}/tools/costs", f"{TOP}/bin/costs"
# The cost of a crate without a measurement.
UNKNOWN = 60.0


def table(file):
    rows = [line.partition("#")[0].split() for line in text_of(file).splitlines()] if os.path.isfile(file) else []
    return {row[0]: float(row[1]) for row in rows if row}


def cost_of(name):
    for file in (MEASURED, STATED):
        if name in (found := table(file)):
            return found[name]
    return UNKNOWN


def note_cost(name, seconds):
    """Keeps the cost of a crate's proof on this machine."""
    now = {**table(MEASURED), name: seconds}
    put(MEASURED, "".join(f"{it} {now[it]:.0f}\n" for it in sorted(now)))
