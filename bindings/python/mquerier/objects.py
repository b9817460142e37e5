"""The objects that the program prints, as docs/OBJECTS.md explains them field by field."""

from __future__ import annotations

import dataclasses
import functools
import ipaddress
from typing import Any, Callable, ClassVar, Dict, Iterable, Literal, Optional, Tuple, Type, Union

from ._types import Address, FamilyName

RecordKind = Literal["IS_IN", "IS_EX", "TO_IN", "TO_EX", "ALLOW", "BLOCK"]
Filter = Literal["include", "exclude"]
Why = Literal["other", "cut", "fragment"]
Reason = Literal["truncated", "checksum", "unknown type", "query length"]
DropReason = Literal[
    "truncated", "checksum", "unknown type", "query length", "source", "hop limit", "router alert", "own query", "query of version 1", "group"
]  # fmt: skip
FindingKind = Literal["missing", "extra", "differs", "interval", "silence", "header"]
Field = Literal[
    "version", "response", "s", "qrv", "interval", "destination", "ttl", "alert", "precedence", "header checksum", "checksum", "reserved",
    "additional",
]  # fmt: skip
Unjudged = Literal["unread", "order", "no message", "no query", "limits"]


@dataclasses.dataclass(frozen=True)
class QueryMessage:
    """A query. One of an older version has neither `s`, `qrv`, `interval` nor sources, and one of IGMPv1 has no `response`."""

    type: ClassVar[Literal["query"]] = "query"
    version: int
    group: Address
    response: Optional[int] = None
    s: Optional[bool] = None
    qrv: Optional[int] = None
    interval: Optional[int] = None
    sources: Tuple[Address, ...] = ()


@dataclasses.dataclass(frozen=True)
class Record:
    """A record of a Report. `kind` is a number if the type is unknown."""

    kind: Union[RecordKind, int]
    group: Address
    sources: Tuple[Address, ...]


@dataclasses.dataclass(frozen=True)
class ReportMessage:
    """A Report: of an older version with its group, otherwise with records."""

    type: ClassVar[Literal["report"]] = "report"
    version: int
    group: Optional[Address] = None
    records: Tuple[Record, ...] = ()


@dataclasses.dataclass(frozen=True)
class LeaveMessage:
    """A Leave or a Done."""

    type: ClassVar[Literal["leave"]] = "leave"
    group: Address


@dataclasses.dataclass(frozen=True)
class FaultyMessage:
    """A message that can't be read, with the number of its fault. `at` is the offset of the first incomplete field of a truncated one."""

    type: ClassVar[Literal["fault"]] = "fault"
    number: int
    reason: Reason
    at: Optional[int] = None


Message = Union[QueryMessage, ReportMessage, LeaveMessage, FaultyMessage]


@dataclasses.dataclass(frozen=True)
class Packet:
    """A packet with a message. `packet` is its number, and `alert` is True if its header has Router Alert."""

    packet: int
    time: int
    family: FamilyName
    source: Address
    destination: Address
    ttl: int
    alert: bool
    message: Message


@dataclasses.dataclass(frozen=True)
class Skipped:
    """A packet without a message, or in a replay without one of the family."""

    packet: int
    time: int
    skipped: Why


@dataclasses.dataclass(frozen=True)
class Sent:
    """A query that the querier sends: its bytes as `hex`, and what they say."""

    event: ClassVar[Literal["send"]] = "send"
    time: int
    destination: Address
    hex: str
    message: QueryMessage


@dataclasses.dataclass(frozen=True)
class Received:
    """A message that is taken, with the counts of its records."""

    event: ClassVar[Literal["receive"]] = "receive"
    time: int
    packet: int
    source: Address
    applied: int
    ignored: int
    refused: int


@dataclasses.dataclass(frozen=True)
class DroppedMessage:
    """A message that is dropped."""

    event: ClassVar[Literal["drop"]] = "drop"
    time: int
    packet: int
    source: Address
    number: int
    reason: DropReason


@dataclasses.dataclass(frozen=True)
class HeldSource:
    """A source of a group. `timer` is the time until which it runs, or None if it is stopped."""

    source: Address
    timer: Optional[int]


@dataclasses.dataclass(frozen=True)
class GroupState:
    """A group: its filter mode, the time until which it is in EXCLUDE mode, its sources, and the times until which hosts of older versions
    are assumed. INCLUDE mode forwards the sources whose timers run, EXCLUDE mode all but those whose timers are stopped."""

    time: int
    group: Address
    filter: Filter
    timer: Optional[int]
    sources: Tuple[HeldSource, ...]
    v1: Optional[int]
    v2: Optional[int]

    def forwards(self, source: Address) -> bool:
        """Returns whether traffic of a source is forwarded."""
        timers = [it.timer for it in self.sources if it.source == source]
        return timers[0] is not None if timers else self.filter == "exclude"


@dataclasses.dataclass(frozen=True)
class Change(GroupState):
    """A group whose filter changed."""

    event: ClassVar[Literal["change"]] = "change"


@dataclasses.dataclass(frozen=True)
class HeldGroup(GroupState):
    """A group at the end of a replay."""

    event: ClassVar[Literal["group"]] = "group"


@dataclasses.dataclass(frozen=True)
class End:
    """The end of a replay. A `HeldGroup` follows for each group, and then `Totals`."""

    event: ClassVar[Literal["end"]] = "end"
    time: int
    querier: bool


@dataclasses.dataclass(frozen=True)
class Totals:
    """The counts of a replay."""

    event: ClassVar[Literal["counts"]] = "counts"
    received: int
    dropped: int
    applied: int
    ignored: int
    refused: int
    sent: int
    unsent: int


Event = Union[Sent, Received, DroppedMessage, Skipped, Change, End, HeldGroup, Totals]


@dataclasses.dataclass(frozen=True)
class Finding:
    """A difference between a querier and the standard. If it isn't certain, another reading or a state from before may explain it."""

    time: int
    finding: FindingKind
    certain: bool
    group: Optional[Address]
    source: Optional[Address]
    field: Optional[Field]
    seen: Union[int, bool, Address, None]
    wanted: Union[int, bool, Address, None]
    packet: Optional[int]
    rfc: Literal[3376, 3810]
    sections: Tuple[str, ...]

    @property
    def cited(self) -> str:
        """The sections of the standard, as `RFC 3376 section 6.6.3.1`."""
        return f"RFC {self.rfc} section {', '.join(self.sections)}"

    def __str__(self) -> str:
        subject = [str(it) for it in (self.group, self.source, self.field) if it is not None]
        values = f": {self.seen}, wanted {self.wanted}" if self.seen is not None else ""
        packet = f", packet {self.packet}" if self.packet is not None else ""
        kind = self.finding if self.certain else f"possibly {self.finding}"
        return f"{' '.join([f'{self.time} {kind}', *subject])}{values}{packet} ({self.cited})"


@dataclasses.dataclass(frozen=True)
class Roles:
    """How often the router lost the role of querier, when last and to which other one, and when it was querier again. It is `unseen` if
    nothing came from it, but a query from a higher address did."""

    lost: int
    last_at: Optional[int]
    other: Optional[Address]
    again_at: Optional[int]
    unseen: bool


@dataclasses.dataclass(frozen=True)
class PacketCounts:
    """Counts of the packets of a checked capture, and of the records that the limits refuse."""

    packets: int
    messages: int
    malformed: int
    cut: int
    unread: int
    back: int
    refused: int


@dataclasses.dataclass(frozen=True)
class KindCounts:
    """The numbers of certain findings of each kind."""

    missing: int
    extra: int
    differs: int
    interval: int
    silence: int
    header: int


@dataclasses.dataclass(frozen=True)
class Variables:
    """The variables of a check: the Robustness Variable, the Query Interval in seconds, the Query Response Interval and the Last Member
    (Last Listener) Query Interval in milliseconds."""

    rv: int
    qi: int
    qri: int
    lmqi: int


@dataclasses.dataclass(frozen=True)
class Summary:
    """The end of a check. `why` is the reason if nothing was judged. `general` and `specific` count the queries
    of the router, `findings` the certain ones, `possible` the others."""

    judged: bool
    why: Optional[Unjudged]
    general: int
    specific: int
    findings: int
    possible: int
    kinds: KindCounts
    querier: Address
    variables: Variables
    roles: Roles
    packets: PacketCounts


@dataclasses.dataclass(frozen=True)
class Taken:
    """The querier and the variables that a check took from the capture, and the other queriers: at most 8, and whether there are more.
    `rv` is 0 if it is above 7."""

    querier: Address
    rv: Optional[int]
    qi: Optional[int]
    qri: Optional[int]
    lmqi: Optional[int]
    beside: Tuple[Address, ...]
    more: bool


@dataclasses.dataclass(frozen=True)
class LinkType:
    """The number of packets of a link type that isn't read."""

    link: int
    packets: int


@dataclasses.dataclass(frozen=True)
class Converted:
    """The counts of a conversion: packets that came again, that the file records as dropped, and that aren't read."""

    repeated: int
    dropped: int
    unread: int
    links: Tuple[LinkType, ...]


# Few addresses have many packets.
address_of = functools.lru_cache(1 << 14)(ipaddress.ip_address)
Make = Callable[[Dict[str, Any]], Any]


def maker(kind: Type[Any]) -> Make:
    """Returns a function that makes an object of a class of the fields that JSON has. A frozen class sets one field after the other, which
    takes twice as long as all at once."""
    types = {it.name: it.type for it in dataclasses.fields(kind)}
    addresses = [name for name, it in types.items() if it in ("Address", "Optional[Address]")]
    values = [name for name, it in types.items() if it == "Union[int, bool, Address, None]"]
    lists = [(name, it == "Tuple[Address, ...]") for name, it in types.items() if str(it).startswith("Tuple")]
    new, put = object.__new__, object.__setattr__

    def make(fields: Dict[str, Any]) -> Any:
        for name in addresses:
            if fields.get(name) is not None:
                fields[name] = address_of(fields[name])
        for name, is_of_addresses in lists:
            if name in fields:
                fields[name] = tuple(map(address_of, fields[name]) if is_of_addresses else fields[name])
        for name in values:
            if isinstance(fields[name], str):
                fields[name] = address_of(fields[name])
        it = new(kind)
        put(it, "__dict__", fields)
        return it

    return make


def by(field: str, kinds: Iterable[Type[Any]]) -> Dict[str, Make]:
    return {getattr(it, field): maker(it) for it in kinds}


MESSAGES = by("type", (QueryMessage, ReportMessage, LeaveMessage, FaultyMessage))
EVENTS = {**by("event", (Sent, Received, DroppedMessage, Change, End, HeldGroup, Totals)), "skip": maker(Skipped)}
# The other classes, each by a field that those after it don't have.
OTHERS = [
    (name, maker(kind))
    for name, kind in (
        ("message", Packet), ("skipped", Skipped), ("finding", Finding), ("timer", HeldSource), ("judged", Summary), ("lost", Roles),
        ("messages", PacketCounts), ("missing", KindCounts), ("beside", Taken), ("rv", Variables), ("links", Converted), ("link", LinkType),
    )
]  # fmt: skip
record_of = maker(Record)


def object_of(fields: Dict[str, Any]) -> Any:
    """Returns the object of the fields of one of JSON. An object with one field, as `summary`, is what that holds."""
    if "kind" in fields:
        return record_of(fields)
    if "type" in fields:
        return MESSAGES[fields.pop("type")](fields)
    if "event" in fields:
        return EVENTS[fields.pop("event")](fields)
    for name, make in OTHERS:
        if name in fields:
            return make(fields)
    (it,) = fields.values()
    return it


def fields_of(it: Any) -> Dict[str, Any]:
    """Returns the fields of an object as JSON has them, but for addresses."""
    names = {Summary: "summary", Taken: "taken", Converted: "converted"}
    fields = dataclasses.asdict(it)
    return {names[type(it)]: fields} if type(it) in names else fields
