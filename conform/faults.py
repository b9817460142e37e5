"""The faults of conform/faulty, each a router that does one thing wrong. Its docstring is its description."""

import dataclasses
import re

from faulty_router import IGMP, IS_EX, TO_IN, Router, wire
from model import ALLOW, BLOCK, DAY, TO_EX  # of vectors/, whose folder faulty_router has named

GLOBAL = wire.address("2001:db8:9::9")


# When and how often it asks.


class NeverRetransmits(Router):
    """Asks once, whatever the Last Member Query Count."""

    def ask(self, group, asked, is_group):
        super().ask(group, asked, is_group)
        group.asked = group.asked and (1, group.asked[1])
        group.sources = {it: (deadline, min(left, 1)) for it, (deadline, left) in group.sources.items()}


class AsksTwice(Router):
    """Asks twice more than the Last Member Query Count."""

    is_first = False

    def record(self, kind, group, sources, message, met):
        self.is_first = True
        answer = super().record(kind, group, sources, message, met)
        self.is_first = False
        return answer

    def send(self, group, sources, s, response):
        super().send(group, sources, s, response)
        for at in range(2 if self.is_first else 0):
            self.do_later(self.now + (self.rv + at) * self.it.lmqi, group, list(sources), s, response, self.rv, self.qi)


class Late(Router):
    """Sends specific queries a second late."""

    delay = 1000

    def is_late(self, group):
        return any(group)

    def send(self, group, sources, s, response):
        words = group, list(sources), s, response, self.rv, self.qi
        if self.is_late(group):
            self.do_later(self.now + self.delay, *words)
        else:
            self.transmit(*words)


class AllLate(Late):
    """Sends all queries 350 ms late."""

    hint = " ms late: --within 400?"
    delay = 350

    def is_late(self, group):
        return True


class AsksFirstOnly(Router):
    """Sends the first query of those that a long list of sources takes."""

    def round(self, group):
        found = super().round(group)
        return [it for at, it in enumerate(found) if not it[1] or it[0] not in [s for s, sources in found[:at] if sources]]


class SlowGenerals(Router):
    """Sends general queries a twentieth of the Query Interval late."""

    def phase(self):
        return super().phase() * 21 // 20


class StartupAgain(Router):
    """Sends startup queries after it was not querier."""

    def come_back(self):
        super().come_back()
        self.startup = self.it.rv


class Dies(Router):
    """Sends nothing after 30 s."""

    hint = ": no query came after "

    def transmit(self, *words):
        if self.now < 30000:
            super().transmit(*words)


# Fields and headers of its queries.


class NeverSetsS(Router):
    """Never sets S."""

    def body(self, group, sources, s, response, rv, qi):
        return super().body(group, sources, False, response, rv, qi)


class AlwaysSetsS(Router):
    """Always sets S."""

    def body(self, group, sources, s, response, rv, qi):
        return super().body(group, sources, True, response, rv, qi)


class WrongResponse(Router):
    """Has the response code of general queries in specific ones."""

    def body(self, group, sources, s, response, rv, qi):
        return super().body(group, sources, s, self.it.qri, rv, qi)


class GeneralResponse(Router):
    """Has the response code of specific queries in general ones."""

    def body(self, group, sources, s, response, rv, qi):
        return super().body(group, sources, s, self.it.lmqi, rv, qi)


class QqicUnencoded(Router):
    """Writes the Query Interval as it is, also above 127."""

    def interval_code(self, seconds):
        return seconds & 255


class KeepsQqic(Router):
    """Announces the other querier's QQIC also after that is gone."""

    kept = None

    def come_back(self):
        self.kept = self.qi
        super().come_back()

    def body(self, group, sources, s, response, rv, qi):
        return super().body(group, sources, s, response, rv, self.kept or qi)


class KeepsInterval(Router):
    """Keeps the other querier's Query Interval after that is gone."""

    def come_back(self):
        kept = self.qi
        super().come_back()
        self.qi = kept


class OlderQueries(Router):
    """Sends queries of an older version for groups with older hosts."""

    def body(self, group, sources, s, response, rv, qi):
        held = self.groups.get(group)
        if not sources and held and held.hosts:
            code = wire.code_of(response // 100, 8) if self.family is IGMP else response
            return wire.older(self.family, self.family.query, group, code)
        return super().body(group, sources, s, response, rv, qi)


class AddsOctets(Router):
    """Adds octets after the fields of queries that have room for them."""

    def body(self, group, sources, s, response, rv, qi):
        return super().body(group, sources, s, response, rv, qi) + bytes(4 if len(sources) < self.family.per_query else 0)


class WrongChecksum(Router):
    """Sends wrong checksums."""

    def checked(self, body, to):
        body = super().checked(body, to)
        return body[:3] + bytes([body[3] ^ 1]) + body[4:]


class WrongDestination(Router):
    """Sends specific queries to all hosts."""

    def destination(self, group):
        return self.family.everyone


class WrongMac(Router):
    """Sends specific queries to the Ethernet address of all hosts."""

    def frame(self, body, to):
        return wire.in_ethernet(b"", self.family.everyone)[:6] + super().frame(body, to)[6:]


class GlobalAddress(Router):
    """Sends queries of MLD from a global address."""

    families = ("mld",)

    def address(self):
        return GLOBAL


class Ttl64(Router):
    """Sends with TTL or hop limit 64."""

    hops = 64


class NoAlert(Router):
    """Sends without Router Alert."""

    has_alert = False


# Records and messages of hosts.


class IgnoresBlock(Router):
    """Ignores BLOCK."""

    def record(self, kind, group, sources, message, met):
        return 1 if kind == BLOCK else super().record(kind, group, sources, message, met)


class IgnoresIsEx(Router):
    """Ignores IS_EX."""

    def record(self, kind, group, sources, message, met):
        return 1 if kind == IS_EX and message.what == "report" else super().record(kind, group, sources, message, met)


class IgnoresLeave(Router):
    """Ignores Leave and Done."""

    def records(self, message):
        return [] if message.what == "leave" else super().records(message)


class LosesGroups(Router):
    """Takes no more groups at 1,000."""

    def record(self, kind, group, sources, message, met):
        return 1 if group not in self.groups and len(self.groups) >= 1000 else super().record(kind, group, sources, message, met)


class TakesOneRecord(Router):
    """Takes the first record of a Report alone."""

    def records(self, message):
        return super().records(message)[:1]


class AuxiliaryEnds(Router):
    """Drops the records behind auxiliary data."""

    def read(self, packet):
        message, at = super().read(packet), 8
        for number, (_, group, sources) in enumerate(message.records if message else []):
            if packet.body[at + 1]:
                message.records = message.records[: number + 1]
                break
            at += 4 + len(group) * (1 + len(sources))
        return message


class DropsRepeated(Router):
    """Drops a record that names a source twice."""

    def record(self, kind, group, sources, message, met):
        return 1 if len(set(sources)) < len(sources) else super().record(kind, group, sources, message, met)


class DropsZero(Router):
    """Drops Reports from 0.0.0.0."""

    families = ("igmp",)

    def read(self, packet):
        return super().read(packet) if any(packet.source) else None


class AnswersMalformed(Router):
    """Takes malformed messages of hosts."""

    def read(self, packet):
        if packet.body[:1] == bytes([self.family.query]):
            return super().read(packet)
        kinds = [self.family.report, self.family.leave, *self.family.older]
        body = (packet.body if packet.body[0] in kinds else bytes([self.family.report]) + packet.body[1:]) + bytes(64)
        try:
            return wire.read(self.family, wire.with_checksum(self.family, body, packet.source, packet.to), packet.source, packet.to)
        except wire.Fault:
            return None

    def record(self, kind, group, sources, message, met):
        return super().record(kind if kind in range(1, 7) else ALLOW, group, sources, message, met)


# Timers.


class NeverRefreshesSources(Router):
    """Doesn't raise the timer of a source that runs."""

    def record(self, kind, group, sources, message, met):
        before = dict(self.groups[group].sources) if group in self.groups else {}
        answer = super().record(kind, group, sources, message, met)
        held = self.groups[group].sources if group in self.groups else {}
        for it, (deadline, left) in held.items():
            old = before.get(it, (None, 0))[0]
            if old is not None and deadline is not None:
                held[it] = min(old, deadline), left
        return answer


class SourcesEndEarly(Router):
    """Drops all sources 2 s after the group's timer ended."""

    def expire(self, group):
        was_exclude = group.until is not None
        super().expire(group)
        if was_exclude and group.until is None:
            group.ends = self.now + 2000

    def record(self, kind, group, sources, message, met):
        held = self.groups.get(group)
        if held and getattr(held, "ends", self.now) < self.now:
            del self.groups[group]
        return super().record(kind, group, sources, message, met)


class HoldsTwiceAsLong(Router):
    """Has twice the Group Membership Interval."""

    def interval(self):
        return 2 * super().interval()


class OlderOnce(Router):
    """Begins the Older Host Present Interval at the first Report alone."""

    def record(self, kind, group, sources, message, met):
        before = dict(self.groups[group].hosts) if group in self.groups else {}
        answer = super().record(kind, group, sources, message, met)
        if group in self.groups:
            self.groups[group].hosts.update(before)
        return answer


class IgnoresOlderHosts(Router):
    """Takes no notice of older hosts."""

    def record(self, kind, group, sources, message, met):
        answer = super().record(kind, group, sources, message, met)
        if group in self.groups:
            self.groups[group].hosts = {}
        return answer


# Other routers.


class AsksWhileOther(Router):
    """Goes on asking while another router is querier."""

    def hear(self, source, message):
        super().hear(max(source, self.it.own), message)


class DeafWhileAsking(Router):
    """Drops queries of other routers while one of its own for a group is pending: conform sends none then."""

    is_unseen = True

    def read(self, packet):
        message = super().read(packet)
        is_asking = any(it.asked or it.due is not None for it in self.groups.values())
        return None if message and message.what == "query" and is_asking else message


class NeverAdopts(Router):
    """Never takes over QRV."""

    def hear(self, source, message):
        before = self.rv
        super().hear(source, message)
        self.rv = before
        self.other = self.now + self.rv * self.qi + self.it.qri // 2 if self.other is not None and source < self.it.own else self.other


class YieldsToAll(Router):
    """Takes a router with a higher address for the querier."""

    def hear(self, source, message):
        super().hear(bytes(len(source)), message)


class NeverReturns(Router):
    """Asks nothing any more after it heard another querier."""

    def hear(self, source, message):
        super().hear(source, message)
        self.other = self.other and self.now + DAY


class NeverLowers(Router):
    """Doesn't lower timers by another router's query."""

    def hear(self, source, message):
        super().hear(source, dataclasses.replace(message, fields=message.fields and (1, *message.fields[1:])))


class LowersAsOther(Router):
    """Doesn't lower timers by another router's query while it is querier itself."""

    def hear(self, source, message):
        fields = (1, *message.fields[1:]) if message.fields and source > self.it.own else message.fields
        super().hear(source, dataclasses.replace(message, fields=fields))


class LowersGroupsAlone(Router):
    """Doesn't lower the timers of sources by another router's query."""

    def hear(self, source, message):
        fields = (1, *message.fields[1:]) if message.fields and message.sources else message.fields
        super().hear(source, dataclasses.replace(message, fields=fields))


class LowersWithS(Router):
    """Lowers timers also by a query with S set."""

    def hear(self, source, message):
        super().hear(source, dataclasses.replace(message, fields=message.fields and (0, *message.fields[1:])))


class DropsAdditional(Router):
    """Drops queries with octets after their fields."""

    def read(self, packet):
        message = super().read(packet)
        if message and message.what == "query" and message.fields:
            length = self.family.size * (1 + len(message.sources)) + (8 if self.family is IGMP else 12)
            return message if len(packet.body) == length else None
        return message


# Forwarding.


class ForwardsAll(Router):
    """Forwards all."""

    def forwards(self, group, source):
        return True


class ForwardsNothing(Router):
    """Forwards nothing."""

    def forwards(self, group, source):
        return False


class ForwardsStopped(Router):
    """Forwards stopped sources of groups in EXCLUDE mode."""

    def forwards(self, group, source):
        held = self.groups.get(group)
        return bool(held and held.until is not None) or super().forwards(group, source)


class LeavesAtOnce(Router):
    """Ends forwarding when a group is left, and not at the Last Member Query Time."""

    left = frozenset()

    def record(self, kind, group, sources, message, met):
        was_exclude = group in self.groups and self.groups[group].until is not None
        if kind == TO_IN and was_exclude:
            self.left |= {group}
        elif kind in (IS_EX, TO_EX):
            self.left -= {group}
        return super().record(kind, group, sources, message, met)

    def forwards(self, group, source):
        return group not in self.left and super().forwards(group, source)


class EndsForwardingLate(Router):
    """Ends forwarding 100 ms after the Last Member Query Time, which is within the tolerance."""

    is_unseen = True

    def asking_time(self):
        return super().asking_time() + 100


def name_of(it):
    """The name of a fault on the command line."""
    return re.sub(r"(?<=[a-z])(?=[A-Z0-9])", "-", it.__name__).lower()


FAULTS = {name_of(it): it for it in list(vars().values()) if isinstance(it, type) and issubclass(it, Router) and it is not Router}
