"""The tests stand in the repository, whose vectors and model they use; the package may be an installed one."""

import os
import sys

TOP = os.path.dirname(os.path.dirname(os.path.dirname(os.path.dirname(os.path.abspath(__file__)))))
sys.path[:0] = [f"{TOP}/bindings", os.path.dirname(os.path.abspath(__file__))]


def used():
    """The memory of this process in bytes, without that of files. The kernel counts it page by page; /proc/self/statm is off by some."""
    with open("/proc/self/smaps_rollup", encoding="ascii") as it:
        sizes = dict(line.split(":") for line in it if line.endswith("kB\n"))
    return sum(int(sizes[name].split()[0]) * 1024 for name in ("Anonymous", "Swap"))
