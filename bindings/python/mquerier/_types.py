"""The objects that a link returns."""

from __future__ import annotations

import dataclasses
import enum
from ipaddress import IPv4Address, IPv6Address
from typing import Dict, Literal, Optional, Tuple, Union

Address = Union[IPv4Address, IPv6Address]
FamilyName = Literal["igmp", "mld"]


class Dropped(enum.IntEnum):
    """The reason why a datagram was dropped: the lowest that holds."""

    TRUNCATED = 1
    CHECKSUM = 2
    UNKNOWN_TYPE = 3
    QUERY_LENGTH = 4
    SOURCE = 5
    HOP_LIMIT = 6
    NO_ALERT = 7
    OWN_OR_ZERO = 8
    IGMPV1_QUERY = 9
    GROUP = 10

    @classmethod
    def _missing_(cls, value: object) -> Optional[Dropped]:
        """Makes a reason that only a later library knows."""
        if not isinstance(value, int) or value <= len(cls):
            return None
        it = int.__new__(cls, value)
        it._name_, it._value_ = f"REASON_{value}", value
        return it


class Parsed(enum.IntEnum):
    """The kinds of datagrams that were parsed. LEAVE is also a Done."""

    QUERY = 0
    OLDER_QUERY = 1
    OLDER_REPORT = 2
    LEAVE = 3
    REPORT = 4


class Refused(enum.IntEnum):
    """The limit that a record would exceed."""

    LONG = 0
    REPEATED = 1
    GROUPS = 2
    GROUP_SOURCES = 3
    SOURCES = 4
    SCHEDULED = 5
    MEMORY = 6


@dataclasses.dataclass(frozen=True)
class Query:
    """A query to be sent from the own address: its destination, and its message without the IP header."""

    destination: Address
    message: bytes


@dataclasses.dataclass(frozen=True)
class Answer:
    """The result of a call: counts of a datagram's records or the reason why it was dropped, and the queries to send, in order. `unsent`
    counts queries that did not fit: only a body of more than 65535 bytes can cause some."""

    dropped: Optional[Dropped]
    applied: int
    ignored: int
    refused: int
    queries: Tuple[Query, ...]
    unsent: int


@dataclasses.dataclass(frozen=True)
class Source:
    """A source of a group. `deadline` is None if no timer runs. Then the source is not forwarded."""

    address: Address
    deadline: Optional[int]


@dataclasses.dataclass(frozen=True)
class Group:
    """A group. `deadline` is the end of EXCLUDE mode, or None in INCLUDE mode. `v1` and `v2` are the times until which hosts of these
    versions are assumed, or None."""

    address: Address
    deadline: Optional[int]
    sources: Tuple[Source, ...]
    v1: Optional[int] = None
    v2: Optional[int] = None


@dataclasses.dataclass(frozen=True)
class Counts:
    """The counts of a link since it was made."""

    received: int
    dropped: int
    dropped_by: Dict[Dropped, int]
    parsed: Dict[Parsed, int]
    applied: int
    ignored: int
    refused: int
    refused_by: Dict[Refused, int]
    sent: int
    unsent: int
    denied: int
