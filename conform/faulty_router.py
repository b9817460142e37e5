"""A router of IGMPv3 or MLDv2 for tests of conform: the model of vectors/ with a faster search, without limits. Its faults are in faults.py."""

import heapq
import itertools
import os
import sys

sys.dont_write_bytecode = True
HERE = os.path.dirname(os.path.abspath(__file__))
sys.path[:0] = [HERE, f"{os.path.dirname(HERE)}/vectors"]
# pylint: disable=wrong-import-position
import model
import wire
from model import IS_EX, TO_IN
from wire import IGMP

ALERT4 = b"\x94\x04\0\0"


class Router(model.Querier):
    """A router without a fault. A fault is a class below it, whose methods do something wrong."""

    families = ("igmp", "mld")
    # No case finds the fault.
    is_unseen = False
    # Most cases find the fault, and a line with this text says why.
    hint = ""
    hops, has_alert = 1, True

    def __init__(self, family, options, send):
        super().__init__(family, options)
        self.put, self.heap, self.later, self.order = send, [], [], itertools.count()

    # Moments.

    def next(self):
        election = self.general if self.other is None else self.other
        return min([election, *[it[0][0] for it in (self.heap, self.later) if it]])

    def wait_for(self, group):
        if group in self.groups:
            heapq.heappush(self.heap, (min(self.groups[group].moments()), group))

    def do_later(self, moment, *words):
        heapq.heappush(self.later, (moment, next(self.order), words))

    def tick(self, moment):
        """The model's, of the groups for which something is due."""
        self.now, due = max(self.now, moment), set()
        while self.later and self.later[0][0] <= self.now:
            self.transmit(*heapq.heappop(self.later)[2])
        while self.heap and self.heap[0][0] <= self.now:
            due.add(heapq.heappop(self.heap)[1])
        due &= set(self.groups)
        for it in due:
            self.expire(self.groups[it])
            if not self.groups[it].is_held():
                del self.groups[it]
        if self.other is not None and self.other <= self.now:
            self.come_back()
        if self.other is None and self.general <= self.now:
            self.ask_all()
        for it in sorted(due & set(self.groups)):
            for s, sources in self.round(self.groups[it]):
                self.send(it, sources, s, self.it.lmqi)
            self.wait_for(it)

    def expire(self, group):
        group.expire(self.now)

    def come_back(self):
        """The other querier is gone."""
        self.other, self.general, self.startup = None, self.now, 0
        self.rv, self.qi = self.it.rv, 1000 * self.it.qi

    def ask_all(self):
        self.send(self.family.zero(), [], False, self.it.qri)
        self.startup = max(0, self.startup - 1)
        self.general = self.now + self.phase()

    def phase(self):
        return self.qi // 4 if self.startup else self.qi

    # Received packets.

    def receive(self, packet, moment):
        self.tick(moment)
        message = self.read(packet)
        if message is None:
            return
        if message.what == "query":
            self.hear(packet.source, message)
            self.wait_for(message.group)
        for kind, group, sources in self.records(message):
            self.record(kind, group, sources, message, {})
            self.wait_for(group)

    def read(self, packet):
        """The message of a packet, or None if it is dropped."""
        try:
            message = wire.read(self.family, packet.body, packet.source, packet.to)
        except wire.Fault:
            return None
        return None if self.dropping(packet, message) else message

    def records(self, message):
        kinds = {"older": IS_EX, "leave": TO_IN}
        return [(kinds[message.what], message.group, [])] if message.what in kinds else message.records

    def fits(self, old, new):
        return True

    def forwarded(self):
        return {}

    def forwards(self, group, source):
        it = self.groups.get(group)
        if it is None:
            return False
        return source not in it.stopped() if it.until is not None else source in it.running()

    # Sent queries.

    def send(self, group, sources, s, response):
        self.transmit(group, list(sources), s, response, self.rv, self.qi)

    def transmit(self, group, sources, s, response, rv, qi):
        to = self.destination(group)
        self.put(self.frame(self.checked(self.body(group, sources, s, response, rv, qi), to), to))

    def body(self, group, sources, s, response, rv, qi):
        unit, bits = (100, 8) if self.family is IGMP else (1, 16)
        return wire.query(self.family, group, sources, s, wire.code_of(response // unit, bits), rv, self.interval_code(qi // 1000))

    def interval_code(self, seconds):
        return wire.code_of(seconds, 8)

    def destination(self, group):
        return group if any(group) else self.family.everyone

    def address(self):
        return self.it.own

    def checked(self, body, to):
        return wire.with_checksum(self.family, body, self.address(), to)

    def frame(self, body, to):
        """The frame of a query; the port adds its own address."""
        own = self.address()
        if self.family is IGMP:
            packet = wire.in_ipv4(body, own, to, options=ALERT4 if self.has_alert else b"", hops=self.hops)
        else:
            packet = wire.in_ipv6(body, own, to, options=wire.ALERT if self.has_alert else None, hops=self.hops)
        return wire.in_ethernet(packet, to)
