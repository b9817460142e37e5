"""Faults: of an argument, which is named, and of a capture. `Error` is the base of both."""

from __future__ import annotations

import re
from typing import Any

# The statuses of the header from 1 on: the field that each names, and its words.
STATUSES = [
    ("robustness", "the robustness variable is not within 1 to 7"),
    ("query_interval", "the query interval is not within 1 to 31744 seconds"),
    ("response_interval", "the response interval is out of range or not below the query interval"),
    ("last_member_interval", "the last member query interval is out of range"),
    ("groups", "the limit of groups is not within 1 to 65535"),
    ("group_sources", "the limit of sources of a group is not within 1 to 1024"),
    ("sources", "the limit of sources is not within 1 to 65535"),
    ("scheduled", "the limit of schedules is not within 1 to 65535"),
    ("own", "no router may send queries from the own address"),
    ("memory", "the memory is too small"),
    ("now", "the time is later than 2^53 milliseconds"),
    ("workspace", "the workspace is too small for the link"),
    ("held", "the link holds more than the configuration allows"),
    ("last_member_query_count", "the last member query count is not within 0 to 7"),
]
FIELDS = [field for field, _ in STATUSES]
MEMORY, MOMENT = FIELDS.index("memory") + 1, FIELDS.index("now") + 1


class Error(Exception):
    """The base of the exceptions of this package."""


class Fault(Error, ValueError):
    """An argument that no link takes. `field` is its name."""

    def __init__(self, field: str, why: str) -> None:
        super().__init__(f"{field}: {why}")
        self.field, self.why = field, why

    def __reduce__(self) -> Any:
        return type(self), (self.field, self.why)

    @classmethod
    def of_status(cls, status: int) -> Fault:
        return cls(*STATUSES[status - 1])


class CaptureFault(Error, ValueError):
    """The reason why a capture was not read to its end."""


class NothingJudged(CaptureFault):
    """The reason why a check has no `Summary`: the capture has no query of its querier, or names none."""


# A line of the program on standard error, and the words for it. A second line has them too, after some commands.
LINE = re.compile(r"mquerier: (.+?)(?: (?:at|before) ((?:record|block) \d+))?")
WORDS = {
    "capture fault 1": "a read of the capture failed",
    "capture fault 2": "it is no classic capture file",
    "capture fault 3": "the version of the file is not 2.4",
    "capture fault 4": "the link type is neither Ethernet nor raw IP",
    "capture fault 5": "the file ends within a header",
    "capture fault 6": "the file ends within a packet",
    "capture fault 7": "the packet has more than 262144 bytes",
    "capture fault 8": "the file has more than 4294967295 packets",
    "gap": "more than a day lies between the packet before and this one, or the end",
}


def words_of(said: str) -> str:
    """Returns the words for a fault on standard error, as `record 46: the file ends within a packet`."""
    lines = said.splitlines()
    # A check that judged nothing can have a second line: its capture has several networks.
    last = max((at for at, line in enumerate(lines) if line.startswith("mquerier: ")), default=0)
    first, second = [*lines[last:], "", ""][:2]
    match = LINE.fullmatch(first)
    if match is None:
        return said.strip()
    fault, place = match.groups()
    if fault.startswith("more than one network"):
        return f"{fault}; choose one by interface or vlan, or take all for one by once"
    words = WORDS.get(fault) or second.strip().partition(";")[0] or fault
    return f"{place}: {words}" if place else words
