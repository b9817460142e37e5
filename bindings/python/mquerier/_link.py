"""A link: one interface of one family."""

from __future__ import annotations

import ctypes
import json
import os
import threading
import weakref
from typing import Any, List, Optional, Tuple, Union

from ._arguments import AddressLike, Ranges, config_of, family_named, flag, given, moment, octets, packed, set_variables, within
from ._library import COUNTERS, LATEST, NONE, Family, Handle
from ._memory import Memory, give_back, taken
from ._types import Address, Answer, Counts, Dropped, FamilyName, Group, Parsed, Query, Refused, Source
from .faults import Fault
from .objects import Message, object_of

LONGEST_BODY = 65535
GROUPS_A_PAGE = 64


def or_none(deadline: int) -> Optional[int]:
    return None if deadline == NONE else deadline


class Torn:
    """The lock of a link whose process was forked during a call: nobody gets it."""

    def __enter__(self) -> None:
        raise RuntimeError("another thread called this link while the process was forked: make a new link")

    def __exit__(self, *_: object) -> None:
        pass


class Link:
    """A querier on one interface. It begins at `start`, as querier: its first query is due then, and a tick sends it.

    `own` is the source address of queries. `query_interval` is in seconds, `response_interval` and `last_member_interval` are in
    milliseconds; a `last_member_query_count` of 0 is the Robustness Variable in force. `groups`, `group_sources`, `sources` and
    `scheduled` are limits. None stands for the standards' default. `ranges` are up to 16 pairs of `"allow"` or `"deny"` and a
    network. The first that has a group says whether hosts may ask for it. A group in no range is allowed unless some range allows.
    Threads may share a link: it serves one call at a time. After a fork the new process has a copy of its own.
    """

    def __init__(
        self,
        family: FamilyName,
        own: AddressLike,
        *,
        start: int = 0,
        robustness: Optional[int] = None,
        query_interval: Optional[int] = None,
        response_interval: Optional[int] = None,
        last_member_interval: Optional[int] = None,
        last_member_query_count: Optional[int] = None,
        groups: Optional[int] = None,
        group_sources: Optional[int] = None,
        sources: Optional[int] = None,
        scheduled: Optional[int] = None,
        source_specific: Optional[bool] = None,
        ranges: Optional[Ranges] = None,
    ) -> None:
        variables = given(locals())
        self._family = it = family_named(family)
        config = config_of(it, "own", own, variables)
        self._lock: Union[threading.Lock, Torn] = threading.Lock()
        self._memory, self._work = Memory(it.size(config)), Memory(it.workspace_size(config))
        self._link, self._workspace = Handle(), Handle()
        self._config = config
        self._group_sources = config.group_sources
        self._room = it.outlet_bytes(config, LONGEST_BODY)
        self._made(it.init_units(config, moment("start", start), self._memory.units, ctypes.byref(self._link)))
        self._made(it.workspace_init_units(config, self._work.units, ctypes.byref(self._workspace)))
        LINKS.add(self)

    def __repr__(self) -> str:
        return f"Link({self.family!r}, {str(self.own)!r})"

    def __reduce__(self) -> Any:
        raise TypeError("a link cannot be copied: its memory stays where it is")

    def _forked(self) -> None:
        """Frees the lock in a new process, where no other thread holds it any longer."""
        self._lock = Torn() if isinstance(self._lock, Torn) or self._lock.locked() else threading.Lock()

    @property
    def family(self) -> FamilyName:
        """The family of its addresses: `"igmp"` or `"mld"`."""
        return self._family.name

    @property
    def own(self) -> Address:
        """The source address of its queries."""
        return self._family.address(bytes(self._config.own))

    @staticmethod
    def _made(status: int) -> None:
        if status:
            raise Fault.of_status(status)

    def configure(
        self,
        *,
        own: Optional[AddressLike] = None,
        robustness: Optional[int] = None,
        query_interval: Optional[int] = None,
        response_interval: Optional[int] = None,
        last_member_interval: Optional[int] = None,
        last_member_query_count: Optional[int] = None,
        groups: Optional[int] = None,
        group_sources: Optional[int] = None,
        sources: Optional[int] = None,
        scheduled: Optional[int] = None,
        source_specific: Optional[bool] = None,
        ranges: Optional[Ranges] = None,
    ) -> None:
        """Sets other variables, limits and another own address while the link runs. None leaves one as it is. Groups, timers and
        schedules stay, and later calls use the new values; `next_deadline` may be earlier afterwards. Raises a fault of `memory` if a
        limit exceeds that with which the link was made, and of `held` if the link holds more. Then nothing changes."""
        it, variables = self._family, given(locals())
        address = None if own is None else packed(it, "own", own)
        with self._lock:
            config = type(self._config).from_buffer_copy(self._config)
            set_variables(it, config, variables)
            if address is not None:
                config.own = type(config.own)(*address)
            self._made(it.configure(ctypes.byref(self._link), config))
            self._config = config

    def receive(
        self,
        source: AddressLike,
        body: bytes,
        now: int,
        *,
        destination: Optional[AddressLike] = None,
        hop_limit: int = 1,
        alert: bool = True,
    ) -> Answer:
        """Takes a datagram: the source of its packet and the bytes after the IP header. For MLD also the destination, the hop limit
        and whether the packet has the Router Alert option; a link of IGMP does nothing with these. First it does what `tick` does."""
        it, data = self._family, octets("body", body)
        envelope: List[Any] = [packed(it, "source", source)]
        to = None if destination is None else packed(it, "destination", destination)
        more = [to, within("hop_limit", hop_limit, 255), flag("alert", alert)]
        if it.name == "mld":
            if to is None:
                raise TypeError("destination: a datagram of MLD needs it")
            envelope += more
        return self._call(it.receive, *envelope, data, len(data), moment("now", now))

    def tick(self, now: int) -> Answer:
        """Does what is due at `now` or before."""
        return self._call(self._family.tick, moment("now", now))

    def _call(self, call: Any, *arguments: Any) -> Answer:
        with self._lock:
            room = taken(self._room)
            try:
                raw = call(ctypes.byref(self._link), ctypes.byref(self._workspace), *arguments, room.at, self._room)
                written = room.pages[: raw.written]
            finally:
                give_back(room)
        if raw.status:
            raise Fault.of_status(raw.status)
        dropped = Dropped(raw.dropped) if raw.dropped else None
        return Answer(dropped, raw.applied, raw.ignored, raw.refused, queries_in(self._family, written), raw.unsent)

    @property
    def next_deadline(self) -> Optional[int]:
        """When the next tick is due; None if never again."""
        with self._lock:
            deadline = int(self._family.next_deadline(ctypes.byref(self._link)))
        return deadline if deadline <= LATEST else None

    def forwards(self, group: AddressLike, source: AddressLike) -> bool:
        """Returns whether traffic from a source to a group is forwarded, as of the last call."""
        it = self._family
        addresses = packed(it, "group", group), packed(it, "source", source)
        with self._lock:
            return bool(it.forwards(ctypes.byref(self._link), *addresses))

    @property
    def changed(self) -> Tuple[Address, ...]:
        """The groups whose filter the last `receive` or `tick` changed, in ascending order."""
        it = self._family
        with self._lock:
            count = it.changed(ctypes.byref(self._workspace), 0, None, 0)
            addresses = ctypes.create_string_buffer(it.width * count)
            it.changed(ctypes.byref(self._workspace), 0, addresses, count)
        return tuple(it.address(addresses.raw[at : at + it.width]) for at in range(0, it.width * count, it.width))

    def group(self, address: AddressLike) -> Optional[Group]:
        """Returns a group, or None if the link does not have it."""
        it, raw = self._family, self._family.RawGroup()
        sources = (it.RawSource * self._group_sources)()
        wanted = packed(it, "group", address)
        with self._lock:
            page = it.group_at(ctypes.byref(self._link), wanted, ctypes.byref(raw), sources, len(sources))
        return group_of(it, raw, sources[: page.sources]) if page.groups else None

    def groups(self) -> List[Group]:
        """Returns all groups in ascending order, each with its sources in ascending order."""
        it = self._family
        said: List[Group] = []
        groups, sources = (it.RawGroup * GROUPS_A_PAGE)(), (it.RawSource * max(4096, self._group_sources))()
        with self._lock:
            while len(said) < it.len(ctypes.byref(self._link)):
                page = it.groups(ctypes.byref(self._link), len(said), groups, len(groups), sources, len(sources))
                at = 0
                for raw in groups[: page.groups]:
                    said.append(group_of(it, raw, sources[at : at + raw.sources]))
                    at += raw.sources
        return said

    @property
    def is_querier(self) -> bool:
        with self._lock:
            return bool(self._family.is_querier(ctypes.byref(self._link)))

    @property
    def other_querier(self) -> Optional[Tuple[Address, int]]:
        """The querier with a lower address, and until when it is assumed; None while this router is querier."""
        address = ctypes.create_string_buffer(self._family.width)
        with self._lock:
            until = self._family.other_querier(ctypes.byref(self._link), address, len(address))
        return None if until == NONE else (self._family.address(address.raw), until)

    @property
    def counts(self) -> Counts:
        numbers = (ctypes.c_uint64 * COUNTERS)()
        with self._lock:
            self._family.counters(ctypes.byref(self._link), numbers, COUNTERS)
        received, dropped, *rest = numbers
        by_reason, rest = dict(zip(Dropped, rest)), rest[len(Dropped) :]
        parsed, rest = dict(zip(Parsed, rest)), rest[len(Parsed) :]
        applied, ignored, refused, *by_limit, sent, unsent, denied = rest
        limits = dict(zip(Refused, by_limit))
        return Counts(received, dropped, by_reason, parsed, applied, ignored, refused, limits, sent, unsent, denied)


LINKS: "weakref.WeakSet[Link]" = weakref.WeakSet()


def after_fork() -> None:
    for link in list(LINKS):
        link._forked()


os.register_at_fork(after_in_child=after_fork)


def queries_in(family: Family, written: bytes) -> Tuple[Query, ...]:
    """Returns the queries in memory: each is its destination, the length of its message in two bytes, and its message."""
    found, at = [], 0
    while at < len(written):
        head = at + family.width + 2
        end = head + int.from_bytes(written[head - 2 : head], "big")
        found.append(Query(family.address(written[at : head - 2]), written[head:end]))
        at = end
    return tuple(found)


def group_of(family: Family, raw: Any, sources: List[Any]) -> Group:
    each = tuple(Source(family.address(bytes(it.address)), or_none(it.deadline)) for it in sources)
    hosts = [or_none(getattr(raw, name, NONE)) for name in ("v1", "v2")]
    return Group(family.address(bytes(raw.address)), or_none(raw.deadline), each, *hosts)


def written(call: str, family: FamilyName, body: bytes, source: Optional[AddressLike], destination: Optional[AddressLike]) -> str:
    """Returns what a call of the library writes of a message."""
    it, data = family_named(family), octets("body", body)
    ends = []
    for field, value in (("source", source), ("destination", destination)) if it.name == "mld" else ():
        if value is None:
            raise TypeError(f"{field}: a message of MLD needs it")
        ends.append(packed(it, field, value))
    room = 256 + 64 * len(data)
    line = ctypes.create_string_buffer(room)
    return ctypes.string_at(line, getattr(it, call)(*ends, data, len(data), line, room)).decode()


def message(
    family: FamilyName, body: bytes, source: Optional[AddressLike] = None, destination: Optional[AddressLike] = None
) -> Message:
    """Returns a message as an object. The addresses are those of its packet; IGMP does not look at them."""
    it: Message = json.loads(written("json", family, body, source, destination), object_hook=object_of)
    return it


def message_line(
    family: FamilyName, body: bytes, source: Optional[AddressLike] = None, destination: Optional[AddressLike] = None
) -> str:
    """Returns a message as one line, or the line of its fault. The addresses are those of its packet; IGMP does not look at them."""
    return written("line", family, body, source, destination)
