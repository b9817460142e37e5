"""The router side of IGMPv3 (RFC 3376) and MLDv2 (RFC 3810), over a library and a program that are proved.

`Link` is one interface of one family: it takes datagrams and the time, and returns the queries to be sent. `show`, `replay`, `check` and
`convert` read captures, and return objects while they read. Times are whole milliseconds of any clock that does not go back.
"""

from ._arguments import AddressLike
from ._files import Capture
from ._link import Link, message, message_line
from ._program import Conversion
from ._types import Address, Answer, Counts, Dropped, FamilyName, Group, Parsed, Query, Refused, Source
from ._version import __version__
from .captures import check, convert, replay, show
from .faults import CaptureFault, Error, Fault, NothingJudged
from .objects import (
    Change, Converted, DroppedMessage, End, Event, FaultyMessage, Finding, HeldGroup, HeldSource, KindCounts, LeaveMessage, LinkType,
    Message, Packet, PacketCounts, QueryMessage, Received, Record, ReportMessage, Roles, Sent, Skipped, Summary, Taken, Totals, Variables,
)  # fmt: skip

__all__ = [
    "Address", "AddressLike", "Answer", "Capture", "CaptureFault", "Change", "Conversion", "Converted", "Counts", "Dropped",
    "DroppedMessage", "End", "Error", "Event", "FamilyName", "Fault", "FaultyMessage", "Finding", "Group", "HeldGroup", "HeldSource",
    "KindCounts", "LeaveMessage", "Link", "LinkType", "Message", "NothingJudged", "Packet", "PacketCounts", "Parsed", "Query",
    "QueryMessage", "Received", "Record", "Refused", "ReportMessage", "Roles", "Sent", "Skipped", "Source", "Summary", "Taken", "Totals",
    "Variables", "__version__", "check", "convert", "message", "message_line", "replay", "show",
]  # fmt: skip
