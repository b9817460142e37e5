"""The querier's entries as they change, compared with the filters of the proved replay."""

import ipaddress
import socket
import struct
import threading
import time

from fabric import PROTOCOL, inside
from trunks import RCVBUFFORCE

NEWMDB, GROUP_OF_MDB, ADD_MEMBERSHIP, SOL_NETLINK = 84, 26, 1, 270  # <linux/rtnetlink.h>, <linux/netlink.h>
SOURCES, MODE, SOURCE, MAKER = 2, 3, 4, 5  # attributes of an entry, <linux/if_bridge.h>
HEADER, BYTES_OF_ENTRY, INCLUDE = 24, 28, 1
LATEST = 10**9  # nanoseconds after which an entry counts as not changed


def attributes(data):
    """Yields attributes of netlink, as (type, bytes)."""
    while len(data) >= 4:
        length, kind = struct.unpack("=HH", data[:4])
        yield kind & 0x3FFF, data[4:length]
        data = data[(length + 3) & ~3 :]


def entry_of(data):
    """Returns an entry of the querier as (port's index, VLAN, group, filter), or None."""
    port, vlan = struct.unpack("=IxxH", data[:8])
    beside = dict(attributes(data[BYTES_OF_ENTRY:]))
    if SOURCE in beside or str(beside.get(MAKER, b"\0")[0]) not in PROTOCOL.values():
        return None
    width = 16 if data[24:26] == b"\x86\xdd" else 4
    sources = frozenset(str(ipaddress.ip_address(dict(attributes(one))[1])) for _, one in attributes(beside.get(SOURCES, b"")))
    mode = "include" if beside.get(MODE, b"\0")[0] == INCLUDE else "exclude"
    return port, vlan, str(ipaddress.ip_address(data[8 : 8 + width])), (mode, sources)


class Entries:
    """Records the kernel's notifications about entries of a bridge."""

    def __init__(self, trunks):
        with inside(trunks.near):
            self.names = dict(socket.if_nameindex())
            self.news = socket.socket(socket.AF_NETLINK, socket.SOCK_RAW, socket.NETLINK_ROUTE)
        self.news.bind((0, 0))
        self.news.setsockopt(socket.SOL_SOCKET, RCVBUFFORCE, 1 << 24)
        self.news.setsockopt(SOL_NETLINK, ADD_MEMBERSHIP, GROUP_OF_MDB)
        self.heard = []
        threading.Thread(target=self.listen, daemon=True).start()

    def listen(self):
        while True:
            message = self.news.recv(1 << 16)
            self.heard.append((time.time_ns(), message))

    def changes(self):
        """Returns for each (far end, VLAN, group) the filters that its entry got, each with its time. None is no entry."""
        found = {}
        for moment, message in list(self.heard):
            kind = struct.unpack("=IH", message[:6])[1]
            for _, database in attributes(message[HEADER:]):
                for _, group in attributes(database):
                    for entry in filter(None, (entry_of(one) for _, one in attributes(group))):
                        place = f"h{self.names[entry[0]][1:]}", *entry[1:3]
                        found.setdefault(place, []).append((moment, entry[3] if kind == NEWMDB else None))
        return found


def made(real, moment, wanted):
    """Returns when an entry had a filter, at this time or later, or None."""
    before = [it for when, it in real if when <= moment]
    if (before[-1] if before else None) == wanted:
        return moment
    return next((when for when, it in real if when > moment and it == wanted), None)


def lateness(membership, judge, times):
    """Yields for each change of a membership's filters how many nanoseconds later its entry changed, with the time and the place. LATEST
    stands for an entry that did not change. Changes without a ready querier, and those that are not between two `times`, are left
    out, and filters that end within the tolerance before an entry has them."""
    for group, known in [pair for filters in membership.filters.values() for pair in filters.items()]:
        real = judge.changes.get((membership.end, membership.vlan, group), [])
        ends = [moment for moment, _ in known[1:]] + [membership.last]
        for (moment, wanted), end in zip(known, ends):
            is_judged = max(times[0], membership.served) <= moment < min(times[1], membership.last)
            if not is_judged or any(killed - LATEST <= moment <= gathered for killed, gathered in judge.gaps):
                continue
            when = made(real, moment, wanted)
            if when is not None and when <= end + judge.near:
                yield when - moment, moment, f"{membership.end} vlan {membership.vlan} {group}"
            elif end - moment > judge.near:
                yield LATEST, moment, f"{membership.end} vlan {membership.vlan} {group}"
