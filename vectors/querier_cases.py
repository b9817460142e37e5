"""Queriers that do something wrong, and queriers that do everything right, for checks. Each has its capture, and the findings
of the check, written by hand from the standards. `tools/queriers` compares the program and the model with them.

A querier here has the default variables: Query Interval 125 s, Query Response Interval 10 s, Robustness Variable 2, Last Member
Query Interval 1 s. It starts at 0, so its first interval may be that of a start, 31250 ms. What it has to do:

| At (ms) | A host sends | The querier sends |
|---|---|---|
| 0 | | a General Query |
| 5000 | TO_EX of the group A | |
| 7000 | ALLOW of the sources S and T of the group B | |
| 31250 | | a General Query |
| 40000 | TO_IN of A, that is a leave | Q(A), and again at 41000 |
| 50000 | BLOCK of S of B | Q(B,S), and again at 51000 |
| 156250 | | a General Query |
"""

import dataclasses
import functools

import wire
from wire import IGMP

IS_EX, TO_IN, TO_EX, ALLOW, BLOCK = 2, 3, 4, 5, 6
GENERAL, LEFT, BLOCKED = "general", "left", "blocked"
WITHIN, AGAIN = 100, 1000
ROUTER_ALERT = b"\x94\x04\0\0"


@dataclasses.dataclass(frozen=True)
class Query:
    """A query that a querier sends. `group` is None for all groups; `to` is None for the usual destination."""

    at: int
    why: str
    group: bytes | None = None
    sources: tuple = ()
    s: bool = False
    response: int = 1000
    qrv: int = 2
    seconds: int = 125
    to: bytes | None = None
    is_older: bool = False
    hops: int = 1
    has_alert: bool = True
    reserved: int | None = None
    is_broken: bool = False
    service: int = 0xC0
    has_broken_header: bool = False
    more: bytes = b""


@dataclasses.dataclass(frozen=True)
class Case:
    """A querier, and what is found of it with --began and --possible. `but` makes its queries of the right ones. `strict` is what is found with
    --strict, if that is something else. `before` has the lines without --began but with --possible, if the querier may have held groups before."""

    what: str
    but: object
    found: tuple = ()
    strict: tuple | None = None
    hosts: tuple = ()
    words: tuple = ()
    general: int = 3
    specific: int = 4
    form: object = None
    before: tuple | None = None


class Bench:
    """The addresses of a family, and its frames."""

    def __init__(self, family):
        self.family = family
        igmp = "10.0.0.1 10.0.0.0 10.0.0.7 10.0.0.50 239.1.1.1 232.1.1.1 239.1.1.2 10.9.0.1 10.9.0.2"
        mld = "fe80::a fe80::1 fe80::e fe80::50 ff1e::1 ff3e::1 ff1e::2 2001:db8::1 2001:db8::2"
        name = igmp if family is IGMP else mld
        self.querier, self.lower, self.higher, self.host, self.A, self.B, self.C, self.S, self.T = map(wire.address, name.split())
        self.zero, self.everyone = family.zero(), family.everyone
        self.routers = wire.address("224.0.0.2" if family is IGMP else "ff02::2")

    def code(self, milliseconds):
        return wire.code_of(milliseconds // 100, 8) if self.family is IGMP else wire.code_of(milliseconds, 16)

    def framed(self, body, source, to, hops=1, has_alert=True, is_broken=False, service=0xC0, has_broken_header=False):
        body = wire.with_checksum(self.family, body, source, to)
        body = body[:3] + bytes([body[3] ^ is_broken]) + body[4:]
        if self.family is IGMP:
            packet = wire.in_ipv4(body, source, to, ROUTER_ALERT if has_alert else b"", hops=hops, service=service)
            packet = packet[:11] + bytes([packet[11] ^ has_broken_header]) + packet[12:]
        else:
            packet = wire.in_ipv6(body, source, to, wire.ALERT if has_alert else None, hops)
        return wire.in_ethernet(packet, to)

    def query(self, it, source=None):
        group = it.group or self.zero
        to = it.to or it.group or self.everyone
        if it.is_older:
            kind = self.family.query
            body = wire.older(self.family, kind, group, self.code(it.response))
        else:
            body = wire.query(self.family, group, it.sources, it.s, self.code(it.response), it.qrv, wire.code_of(it.seconds, 8))
        if it.reserved is not None:
            body = body[: it.reserved] + bytes([body[it.reserved] | 0x10]) + body[it.reserved + 1 :]
        header = (it.hops, it.has_alert, it.is_broken, it.service, it.has_broken_header)
        return self.framed(body + it.more, source or self.querier, to, *header)

    def report(self, *records, **faults):
        to = wire.address("224.0.0.22" if self.family is IGMP else "ff02::16")
        return self.framed(wire.report(self.family, records), self.host, to, **faults)

    def general(self, at):
        return Query(at, GENERAL, response=10000)

    def right(self):
        """The queries of a querier that does everything right."""
        left = [Query(at, LEFT, self.A) for at in (40000, 41000)]
        blocked = [Query(at, BLOCKED, self.B, (self.S,)) for at in (50000, 51000)]
        return [self.general(0), self.general(31250), *left, *blocked, self.general(156250)]

    def events(self):
        """What the host sends."""
        return [
            (5000, self.report((TO_EX, self.A, ()))),
            (7000, self.report((ALLOW, self.B, (self.S, self.T)))),
            (40000, self.report((TO_IN, self.A, ()))),
            (50000, self.report((BLOCK, self.B, (self.S,)))),
        ]

    def capture(self, case):
        """A case's capture. A query comes behind what a host sends at its moment."""
        queries = case.but(self.right())
        frames = [(at, 0, frame) for at, frame in [*self.events(), *case.hosts]] + [(it.at, 1, self.query(it)) for it in queries]
        frames = [(at, frame) for at, _, frame in sorted(frames, key=lambda it: it[:2])]
        return case.form(frames) if case.form else wire.capture(frames)


# What changes the queries.


def each(why, later=0, **fields):
    """The queries that are sent for a reason with other fields, and so many milliseconds later."""
    return lambda queries: [dataclasses.replace(it, at=it.at + later, **fields) if it.why == why else it for it in queries]


def without(*moments):
    return lambda queries: [it for it in queries if it.at not in moments]


def having(*more):
    return lambda queries: [*queries, *more]


def moved(**moments):
    """Queries at other moments: `m40000=40101`."""
    to = {int(name[1:]): at for name, at in moments.items()}
    return lambda queries: [dataclasses.replace(it, at=to.get(it.at, it.at)) for it in queries]


def both(*changes):
    return lambda queries: functools.reduce(lambda made, change: change(made), changes, queries)


def all_with(**fields):
    return lambda queries: [dataclasses.replace(it, **fields) for it in queries]


def as_it_is(queries):
    return queries


def beside_reports(b):
    """Retransmissions beside a Report that sets the timer: the moment of the query, its subject, S, the Report and its moment, and whether S is right.
    A stamp may be a millisecond off."""
    for at, subject, record in ((41000, (b.A,), (IS_EX, b.A, ())), (51000, (b.B, b.S), (ALLOW, b.B, (b.S,)))):
        for later, s, is_right in ((0.4, True, True), (1.4, True, True), (2, True, False), (-0.4, False, True), (-1, False, True), (-1.4, False, False)):
            with_s = lambda queries, at=at, s=s: [dataclasses.replace(it, s=s) if it.at == at else it for it in queries]
            how = f"{'sets' if s else 'clears'} S {abs(later)} ms {'before' if later > 0 else 'after'} a Report for {' '.join(map(wire.text_of, subject))}"
            found = () if is_right else differing((at,), " ".join(map(wire.text_of, subject)), f"s {int(s)}, wanted {int(not s)}")
            yield is_right, Case(how, with_s, found, hosts=((at + later, b.report(record)),))


def differing(moments, what, *fields):
    return tuple(f"{at} differs {what}: {field}" for at in moments for field in fields)


def wrong(b):
    """The queriers that do something wrong."""
    igmp = b.family is IGMP
    text = wire.text_of
    a, s, t, other = text(b.A), f"{text(b.B)} {text(b.S)}", f"{text(b.B)} {text(b.T)}", text(b.C)
    everyone, version = text(b.everyone), 3 if igmp else 2
    zero = text(b.zero)
    left, blocked, general = (40000, 41000), (50000, 51000), (0, 31250, 156250)
    # For a leave.
    yield Case("doesn't ask at a leave at once", without(40000), (f"40000 missing {a}",), specific=3)
    yield Case("doesn't ask again at a leave", without(41000), (f"41000 missing {a}",), specific=3)
    yield Case("doesn't ask at a leave", without(*left), (f"40000 missing {a}", f"41000 missing {a}"), specific=2)
    yield Case("asks three times at a leave", having(Query(42000, LEFT, b.A)), (f"42000 extra {a}",), specific=5)
    yield Case("asks twice at each moment", having(Query(40000, LEFT, b.A), Query(41000, LEFT, b.A)), (f"40000 extra {a}", f"41000 extra {a}"), specific=6)
    yield Case("asks a millisecond too late at a leave", moved(m40000=40101), (f"40000 missing {a}", f"40101 extra {a}"))
    yield Case("asks again a millisecond too late", moved(m41000=41101), (f"41000 missing {a}", f"41101 extra {a}"))
    yield Case("asks again half a second too early", moved(m41000=40500), (f"40500 extra {a}", f"41000 missing {a}"))
    yield Case("asks before the leave", moved(m40000=39899), (f"39899 extra {a}", f"40000 missing {a}"))
    yield Case("sets S in queries for a group", each(LEFT, s=True), differing(left, a, "s 1, wanted 0"))
    yield Case("says the Query Response Interval in queries for a group", each(LEFT, response=10000), differing(left, a, "response 10000, wanted 1000"))
    yield Case("says another QRV in queries for a group", each(LEFT, qrv=3), differing(left, a, "qrv 3, wanted 2"))
    yield Case("says no QRV in queries for a group", each(LEFT, qrv=0), differing(left, a, "qrv 0, wanted 2"))
    yield Case("says another Query Interval in queries for a group", each(LEFT, seconds=60), differing(left, a, "interval 60, wanted 125"))
    yield Case("sends queries for a group to all hosts", each(LEFT, to=b.everyone), differing(left, a, f"to {everyone}, wanted {a}"))
    yield Case("sends queries for a group to another one", each(LEFT, to=b.C), differing(left, a, f"to {other}, wanted {a}"))
    yield Case("sends older queries for a group", each(LEFT, is_older=True), differing(left, a, f"version {version - 1}, wanted {version}"))
    two = tuple(f"{at} {what} {which}" for at in left for what, which in (("missing", a), ("extra", other)))
    yield Case("asks for another group", each(LEFT, group=b.C), two)
    yield Case("sets S and says another QRV", each(LEFT, s=True, qrv=1), differing(left, a, "s 1, wanted 0", "qrv 1, wanted 2"))
    yield Case(
        "asks all groups at a leave",
        both(without(*left), having(b.general(40000), b.general(41000))),
        (
            f"40000 missing {a}", "40000 general after 8750, wanted 125000", f"41000 missing {a}",
            "41000 general after 1000, wanted 125000", "156250 general after 115250, wanted 125000",
        ),
        general=5,
        specific=2,
    )
    yield from (case for is_right, case in beside_reports(b) if not is_right)
    # For a source that is blocked.
    yield Case("doesn't ask for a blocked source at once", without(50000), (f"50000 missing {s}",), specific=3)
    yield Case("doesn't ask again for a blocked source", without(51000), (f"51000 missing {s}",), specific=3)
    yield Case("doesn't ask for a blocked source", without(*blocked), (f"50000 missing {s}", f"51000 missing {s}"), specific=2)
    yield Case("asks for all sources of the group", each(BLOCKED, sources=(b.S, b.T)), (f"50000 extra {t}", f"51000 extra {t}"))
    swapped = tuple(f"{at} {what}" for at in blocked for what in (f"missing {s}", f"extra {t}"))
    yield Case("asks for another source", each(BLOCKED, sources=(b.T,)), swapped)
    grouped = tuple(f"{at} {what}" for at in blocked for what in (f"missing {s}", f"extra {text(b.B)}"))
    yield Case("asks for the group of a blocked source", each(BLOCKED, sources=()), grouped)
    yield Case("names the blocked source twice", each(BLOCKED, sources=(b.S, b.S)), (f"50000 extra {s}", f"51000 extra {s}"))
    yield Case("sets S in queries for sources", each(BLOCKED, s=True), differing(blocked, s, "s 1, wanted 0"))
    yield Case("says another response for sources", each(BLOCKED, response=500), differing(blocked, s, "response 500, wanted 1000"))
    yield Case("sends queries for sources to all hosts", each(BLOCKED, to=b.everyone), differing(blocked, s, f"to {everyone}, wanted {text(b.B)}"))
    yield Case("asks a third time for a source", having(Query(52000, BLOCKED, b.B, (b.S,))), (f"52000 extra {s}",), specific=5)
    yield Case("asks for a source a second too late", each(BLOCKED, later=1000), (f"50000 missing {s}", f"52000 extra {s}"))
    # Where nothing is to be asked.
    yield Case("asks when a host joins", having(Query(5000, "joined", b.A)), (f"5000 extra {a}",), specific=5)
    yield Case("asks when a source is allowed", having(Query(7000, "allowed", b.B, (b.S,))), (f"7000 extra {s}",), specific=5)
    for at in (20000, 260101):
        found = (f"{at} extra {other}",)
        yield Case(f"asks at {at} for a group that nobody reports", having(Query(at, "nothing", b.C)), found, words=("--until", "261000"), specific=5, before=found)
    unknown = wire.address("10.9.0.3" if igmp else "2001:db8::3")
    found = (f"20000 extra {text(b.B)} {text(unknown)}",)
    yield Case("asks for a source that nobody names", having(Query(20000, "nothing", b.B, (unknown,))), found, specific=5, before=found)
    found = tuple(f"{at} extra {text(b.B)} {text(unknown)}" for at in blocked)
    yield Case("asks for a source that nobody names beside a blocked one", each(BLOCKED, sources=(b.S, unknown)), found, before=found)
    # At the end of a capture.
    five = range(156260, 156310, 10)
    bogus, found = having(*(Query(at, LEFT, b.A) for at in five)), tuple(f"{at} extra {a}" for at in five)
    yield Case("asks five times before the end of the capture", bogus, found, specific=9)
    yield Case("asks five times before the requested end", bogus, found, words=("--until", "156350"), specific=9)
    yield Case("asks again too early at the end", both(moved(m51000=50899), without(156250)), (f"50899 extra {s}",), general=2)
    early = having(dataclasses.replace(b.right()[5], at=50950, qrv=3))
    yield Case("says another QRV in a last query that is early", both(without(51000, 156250), early), differing((50950,), s, "qrv 3, wanted 2"), general=2)
    yield Case("asks a last query twice", both(moved(m51000=50950), without(156250), having(Query(50960, BLOCKED, b.B, (b.S,)))), (f"50960 extra {s}",), general=2, specific=5)
    # General queries.
    yield Case("says the wrong response in general queries", each(GENERAL, response=1000), differing(general, zero, "response 1000, wanted 10000"))
    yield Case("sets S in general queries", each(GENERAL, s=True), differing(general, zero, "s 1, wanted 0"))
    yield Case("says another QRV in general queries", each(GENERAL, qrv=7), differing(general, zero, "qrv 7, wanted 2"))
    yield Case("says another Query Interval in general queries", each(GENERAL, seconds=31), differing(general, zero, "interval 31, wanted 125"))
    yield Case("sends general queries to all routers", each(GENERAL, to=b.routers), differing(general, zero, f"to {text(b.routers)}, wanted {everyone}"))
    yield Case("sends older general queries", each(GENERAL, is_older=True), differing(general, zero, f"version {version - 1}, wanted {version}"))
    yield Case(
        "starts twice as slowly",
        moved(m31250=62500, m156250=187500),
        ("62500 general after 62500, wanted 125000",),
    )
    yield Case("sends a general query too early", moved(m156250=156149), ("156149 general after 124899, wanted 125000",))
    yield Case("sends a general query too late", moved(m156250=156351), ("156351 general after 125101, wanted 125000",))
    yield Case("asks each minute", both(without(156250), having(*map(b.general, (91250, 151250)))), (
        "91250 general after 60000, wanted 125000", "151250 general after 60000, wanted 125000"), general=4)
    yield Case("sends no general query any more", without(156250), ("300000 general none for 268750, wanted 125000",), words=("--until", "300000"), general=2)
    yield Case("sends no general query", without(*general), ("300000 general none for 300000, wanted 125000",), words=("--until", "300000"), general=0)
    yield Case("sends two general queries at once", having(b.general(31251)), ("31251 general after 1, wanted 125000",), general=4)
    # Headers. Hosts drop such a query of MLD, so the one that is wanted before its packet is missing too.
    for field, fault in (({"hops": 64}, "ttl 64, wanted 1"), ({"has_alert": False}, "alert 0")):
        faulty = [f"40000 packet 6 {fault}", f"41000 packet 7 {fault}"]
        dropped = [f"40000 missing {a}", faulty[0], f"41000 missing {a}", faulty[1]]
        yield Case(f"sends queries for a group with {fault}", each(LEFT, **field), tuple(faulty if igmp else dropped), specific=4 if igmp else 2)
    # The message. Hosts drop a query with a wrong checksum, and ignore reserved fields.
    broken = [f"40000 missing {a}", "40000 packet 6 checksum", f"41000 missing {a}", "41000 packet 7 checksum"]
    yield Case("sends queries for a group with a wrong checksum", each(LEFT, is_broken=True), tuple(broken), specific=2)
    for place in (8,) if igmp else (1, 6, 7):
        fields = "40000 packet 6 reserved", "41000 packet 7 reserved"
        yield Case(f"sets a bit of the reserved byte {place}", each(LEFT, reserved=place), fields)
    for more in (b"\0", bytes(4), bytes(range(40))):
        found = "40000 packet 6 additional", "41000 packet 7 additional"
        yield Case(f"sends {len(more)} bytes after the fields of queries for a group", each(LEFT, more=more), found)
    found = "50000 packet 9 additional", "51000 packet 10 additional"
    yield Case("sends a source that is not counted", each(BLOCKED, more=b.T), found)
    # The rest of an IPv4 header.
    for service in (0, 0xA0, 0xE0) if igmp else ():
        fault = f"precedence {service >> 5}, wanted 6"
        yield Case(f"sends queries for a group with {fault}", each(LEFT, service=service), (f"40000 packet 6 {fault}", f"41000 packet 7 {fault}"))
    if igmp:
        found = "40000 packet 6 header checksum", "41000 packet 7 header checksum"
        yield Case("sends queries for a group with a wrong checksum of the header", each(LEFT, has_broken_header=True), found)
    # The election: another querier with a lower address is heard at 60000, and is gone 255000 later.
    heard = (60000, b.query(b.general(60000), b.lower))
    yield Case("goes on beside a lower querier", as_it_is, (f"156250 extra {zero}",), hosts=(heard,), words=("--until", "160000"))
    yield Case("goes on beside a lower querier until the end", as_it_is, (f"156250 extra {zero}",), hosts=(heard,))
    late = (70000, b.report((TO_EX, b.A, ()))), (80000, b.report((TO_IN, b.A, ())))
    yield Case(
        "answers a leave beside a lower querier",
        both(without(156250), having(Query(80000, LEFT, b.A), Query(81000, LEFT, b.A))),
        (f"80000 extra {a}", f"81000 extra {a}"),
        hosts=(heard, *late),
        words=("--until", "90000"),
        general=2,
        specific=6,
    )
    yield Case("doesn't come back when the lower querier is gone", without(156250), (f"315000 missing {zero}",), hosts=(heard,), words=("--until", "320000"), general=2)
    yield Case("comes back too early", both(without(156250), having(b.general(314000))), (f"314000 extra {zero}", f"315000 missing {zero}"), hosts=(heard,), words=("--until", "320000"))
    yield Case("gives way to a higher querier", without(156250), ("300000 general none for 268750, wanted 125000",), hosts=((60000, b.query(b.general(60000), b.higher)),), words=("--until", "300000"), general=2)


def right(b):
    """The queriers that do everything right."""
    heard = (60000, b.query(b.general(60000), b.lower))
    yield Case("is on time", as_it_is)
    if b.family is not IGMP:
        yield Case("sets a bit beside S and QRV, of which RFC 3810 says nothing", each(LEFT, reserved=24))
    if b.family is IGMP:
        yield Case("has the precedence of Internetwork Control beside other bits", all_with(service=0xDF))
        yield Case("is captured before the hardware writes the checksum of the header", as_it_is, form=lambda frames: wire.capture([(at, frame[:24] + b"\0\0" + frame[26:]) for at, frame in frames]))
    yield Case("is as late as the tolerance allows", both(*(each(why, later=WITHIN) for why in (GENERAL, LEFT, BLOCKED))))
    yield Case("answers before the leave is captured", moved(m40000=39900, m41000=40900))
    yield Case("is late at a leave and early behind it", moved(m40000=40100, m41000=40900))
    yield from (case for is_right, case in beside_reports(b) if is_right)
    for at, when, to in ((41030, "late query after", 41060), (40970, "early query before", 40940)):
        for what, s in (("sets", True), ("clears", False)):
            moved_to = lambda queries, s=s, to=to: [dataclasses.replace(it, at=to, s=s) if it.at == 41000 else it for it in queries]
            yield Case(f"{what} S in a {when} a Report that comes meanwhile", moved_to, hosts=((at, b.report((IS_EX, b.A, ()))),))
    yield Case("sends nothing but its start", without(156250), general=2)
    yield Case("starts with the capture under way", without(0), general=2)
    yield Case("is silent for an interval at the start of the capture", moved(m0=125000, m31250=250000, m156250=375000))
    yield Case("gives way to a lower querier", without(156250), hosts=(heard,), general=2)
    yield Case("comes back when the lower querier is gone", both(without(156250), having(b.general(315000))), hosts=(heard,), words=("--until", "320000"))
    yield Case("still asks while another takes the role", both(without(156250), having(b.general(60100))), hosts=(heard,))
    # Its partner is wanted after the end of the capture.
    again = both(without(156250), having(b.general(314950)))
    yield Case("comes back before the end, and the capture ends early", again, hosts=(heard,))
    yield Case("comes back before the end that is requested", again, hosts=(heard,), words=("--until", "314999"))
    yield Case("asks again before the end, and the capture ends early", both(moved(m51000=50950), without(156250)), general=2)
    yield Case("asks again as early as the tolerance allows", both(moved(m51000=50900), without(156250)), general=2)
    # The partner of a wanted query may come after the end.
    yield Case("may ask again after the end", without(51000, 156250), words=("--until", "51100"), general=2, specific=3)
    yield Case("stays beside a higher querier", as_it_is, hosts=((60000, b.query(b.general(60000), b.higher)),))
    yield Case("hears itself reported to", as_it_is, hosts=((6000, b.report((TO_EX, b.A, ()))), (8000, b.report((ALLOW, b.B, (b.S,))))))
    yield Case("is captured with nanoseconds", as_it_is, form=lambda frames: wire.capture(frames, nanoseconds=True))
    yield Case("is captured in the other byte order", as_it_is, form=lambda frames: wire.capture(frames, order=">"))
    yield Case("is captured behind a tag", as_it_is, form=lambda frames: wire.capture([(at, frame[:12] + b"\x81\0\0\7" + frame[12:]) for at, frame in frames]))
    yield Case("is captured without Ethernet", as_it_is, form=lambda frames: wire.capture([(at, frame[14:]) for at, frame in frames], 101))
    yield Case("is captured among other frames", as_it_is, hosts=tuple((at, bytes(12) + b"\x08\x06" + bytes(28)) for at in (10, 40000, 40500, 50500)))
    yield Case("is captured with frames that are cut", as_it_is, hosts=tuple((at, b.report((TO_EX, b.C, ()))[:30]) for at in (12000, 40500)))
    yield Case("hears a group of a higher querier asked for", as_it_is, hosts=((20000, b.query(Query(20000, LEFT, b.C), b.higher)),))
    yield Case("names its interval by --lmqi", both(each(LEFT, response=500), each(BLOCKED, response=500), moved(m41000=40500, m51000=50500)), words=("--lmqi", "500"))


# A Report names so many further groups that a check which refuses them judges no group.
MANY = 256


def limited(b):
    """Queriers beside a check whose limits refuse records on which the querier acts."""
    text = wire.text_of
    a, t, other = text(b.A), f"{text(b.B)} {text(b.T)}", text(b.C)
    two, three = ("--groups", "2"), ("--groups", "3")
    joins, leaves = b.report((TO_EX, b.C, ())), b.report((TO_IN, b.C, ()))
    there, asked = ((8000, joins), (60000, leaves)), having(Query(60000, LEFT, b.C), Query(61000, LEFT, b.C))
    yield Case("asks for a group that the check refuses", asked, hosts=there, words=two, specific=6)
    yield Case("asks for a group that the check doesn't refuse", asked, hosts=there, words=three, specific=6)
    # Another group is judged, and so are the general queries and the headers.
    beside = both(asked, having(Query(80000, LEFT, b.A)), moved(m156250=156400))
    found = (f"80000 extra {a}", "156400 general after 125150, wanted 125000")
    yield Case("asks for another group out of nothing", beside, found, hosts=there, words=two, specific=7)
    yield Case("doesn't ask at a leave of another group", both(asked, without(40000)), (f"40000 missing {a}",), hosts=there, words=two, specific=5)
    yield Case("asks for a source of another group", both(asked, having(Query(80000, BLOCKED, b.B, (b.T,)))), (f"80000 extra {t}",), hosts=there, words=two, specific=7)
    if b.family is IGMP:
        hops = both(asked, having(Query(70000, LEFT, b.C, hops=2)))
        yield Case("sends a query for the refused group with another TTL", hops, ("70000 packet 15 ttl 2, wanted 1",), hosts=there, words=two, specific=7)
    # The group is judged up to the record, but for what is pending then. Afterwards it isn't, though it is accepted later.
    before = both(asked, having(Query(3000, LEFT, b.C), Query(7950, LEFT, b.C)))
    yield Case("asked for the group before", before, (f"3000 extra {other}",), hosts=there, words=two, specific=8)
    gone = (270000, b.report((TO_EX, b.C, ()))), (290000, leaves)
    later = having(Query(290000, LEFT, b.C), b.general(281250))
    yield Case("doesn't ask again for the group when there is room", later, hosts=((8000, joins), *gone), words=(*two, "--until", "300000"), general=4, specific=5)
    yield Case("does the same in a check without that limit", later, (f"291000 missing {other}",), hosts=((8000, joins), *gone), words=("--until", "300000"), general=4, specific=5)
    # Sources, and the groups of one Report.
    more = b.report((ALLOW, b.B, (b.A[:-1] + b"\x07", b.A[:-1] + b"\x08")))
    yield Case("asks for a source of a group with more sources than the check takes", having(Query(80000, BLOCKED, b.B, (b.T,))), hosts=((8500, more),), words=("--group-sources", "3"), specific=5)
    five = b.report(*[(TO_EX, b.C, ())] * 6)
    yield Case("asks for a group that a Report repeats", both(asked, having(Query(80000, LEFT, b.C))), hosts=((8000, five), (60000, leaves)), specific=7)
    together = b.report((TO_EX, b.C, ()), (TO_EX, b.A, ()))
    yield Case("asks for a group of the refused Report", having(Query(80000, LEFT, b.A)), hosts=((8000, together),), words=two, specific=5)
    # So many groups that no group is judged.
    groups = [b.C[:-2] + (0x0300 + number).to_bytes(2, "big") for number in range(MANY)]
    most, fewer = b.report(*[(TO_EX, group, ()) for group in groups]), b.report(*[(TO_EX, group, ()) for group in groups[1:]])
    alone = both(having(Query(80000, LEFT, b.A)), moved(m156250=156400))
    yield Case("asks out of nothing beside many refused groups", alone, found, hosts=((8000, fewer),), words=two, specific=5)
    yield Case("asks out of nothing beside too many", both(alone, having(Query(3000, LEFT, b.A))), (f"3000 extra {a}", found[1]), hosts=((8000, most),), words=two, specific=6)


def possibly(*lines):
    """Findings that are only possible, since changes come close together."""
    return tuple(line.replace(" extra ", " possible extra ").replace(" missing ", " possible missing ") for line in lines)


def of_three(b, *more):
    """The queries of a querier with Robustness Variable 3, and more of them."""
    return both(having(Query(42000, LEFT, b.A), Query(52000, BLOCKED, b.B, (b.S,)), *more), all_with(qrv=3))


def other_readings(b):
    """Queriers that read a sentence of the standards in the other way (docs/READINGS.md), with what a check finds of them."""
    a, s, zero = wire.text_of(b.A), f"{wire.text_of(b.B)} {wire.text_of(b.S)}", wire.text_of(b.zero)
    left_again, blocked_again = (40400, b.report((TO_IN, b.A, ()))), (50400, b.report((BLOCK, b.B, (b.S,))))
    other_blocked = (50400, b.report((BLOCK, b.B, (b.T,))))
    ask_group, ask_source = (lambda at: Query(at, LEFT, b.A)), (lambda at, *sources: Query(at, BLOCKED, b.B, sources))
    # A change that comes again.
    later = both(without(41000), having(ask_group(40400), ask_group(41400)))
    yield Case("starts the count of a group anew", later, hosts=(left_again,), specific=5)
    earlier = both(later, having(ask_group(41000)))
    both_kept = f"41000 extra {a}"
    yield Case("keeps both schedules of a group", earlier, possibly(both_kept), (both_kept,), hosts=(left_again,), specific=6)
    late_and_early = both(without(41000), moved(m40000=40100), having(*map(ask_group, (40300, 41000, 41500))))
    yield Case("keeps both schedules within the tolerance", late_and_early, possibly(both_kept), (both_kept,), hosts=(left_again,), specific=6)
    for moment in (40999, 41201):
        found = (f"{moment} extra {a}",)
        off = both(without(41000), moved(m40000=40100), having(*map(ask_group, (40400, 41400, moment))))
        yield Case(f"keeps the earlier schedule at {moment}", off, possibly(*found), found, hosts=(left_again,), specific=6)
    thrice = both(earlier, having(ask_group(42000)))
    third = both_kept, f"42000 extra {a}"
    yield Case("asks a third time beside both schedules", thrice, possibly(*third), third, hosts=(left_again,), specific=7)
    twice = both(earlier, having(ask_group(41000)))
    yield Case("asks twice in the earlier schedule", twice, possibly(both_kept, both_kept), (both_kept, both_kept), hosts=(left_again,), specific=7)
    only = both_kept, f"41400 missing {a}"
    yield Case("keeps only the earlier schedule behind the new query", both(earlier, without(41400)), possibly(*only), only, hosts=(left_again,), specific=5)
    other_qrv = both(later, having(dataclasses.replace(ask_group(41000), qrv=3)))
    qrv_differs = possibly(both_kept) + differing((41000,), a, "qrv 3, wanted 2")
    yield Case("says another QRV in the earlier schedule", other_qrv, qrv_differs, (both_kept,), hosts=(left_again,), specific=6)
    yield Case("keeps a schedule that was not replaced", having(ask_group(41000)), (f"41000 extra {a}",), specific=5)
    found = f"40400 missing {a}", f"41000 extra {a}", f"41400 missing {a}"
    yield Case("asks nothing at a leave that comes again", as_it_is, possibly(*found[2:]), found, hosts=(left_again,))
    found = *found, f"42000 extra {a}", f"42400 missing {a}"
    thrice = {"words": ("--rv", "3")}
    yield Case("asks nothing at a leave that comes again, of three queries", of_three(b), possibly(*found[4:]), found, hosts=(left_again,), specific=6, **thrice)
    # A source that is blocked again.
    at = [f"{moment} {what} {s}" for moment in (50400, 51000, 51400) for what in ("extra", "missing")]
    asked_again, again = having(ask_source(50400, b.S)), {"hosts": (blocked_again,)}
    yield Case("waits with a source that is blocked again", as_it_is, hosts=(blocked_again,))
    yield Case("asks at once for a source that is blocked again", asked_again, possibly(at[0]), at[:1], specific=5, **again)
    anew = both(without(51000), having(ask_source(50400, b.S), ask_source(51400, b.S)))
    yield Case("starts the count of a source that is blocked again anew", anew, possibly(at[0], at[3], at[4]), (at[0], at[3], at[4]), specific=5, **again)
    beside = both(asked_again, having(ask_source(51400, b.S)))
    yield Case("keeps both schedules of a source that is blocked again", beside, possibly(at[0], at[4]), (at[0], at[4]), specific=6, **again)
    yield Case("doesn't ask again for a source that is blocked again", both(asked_again, without(51000)), possibly(at[0], at[3]), (at[0], at[3]), **again)
    yield Case("asks twice at once for a source that is blocked again", both(asked_again, asked_again), possibly(at[0], at[0]), at[:1] * 2, specific=6, **again)
    other_qrv = having(dataclasses.replace(ask_source(50400, b.S), qrv=3))
    qrv_differs = possibly(at[0]) + differing((50400,), s, "qrv 3, wanted 2")
    yield Case("says another QRV for a source that is blocked again", other_qrv, qrv_differs, at[:1], specific=5, **again)
    with_s = having(dataclasses.replace(ask_source(50400, b.S), s=True))
    yield Case("sets S for a source that is blocked again", with_s, possibly(at[0]), at[:1], specific=5, **again)
    for moment, is_certain in ((50300, True), (50500, False), (50501, False)):
        found = (f"{moment} extra {s}",)
        yield Case(f"asks at {moment} for a source that is blocked again", having(ask_source(moment, b.S)), found if is_certain else possibly(*found), found, specific=5, **again)
    yield Case("asks for a source that waits and isn't blocked again", asked_again, at[:1], specific=5)
    yield Case("asks for a source when another one is blocked", both(asked_again, having(ask_source(50400, b.T), ask_source(51400, b.T)), without(51000)), specific=6, hosts=(other_blocked,))
    once = both(without(41000, 51000), asked_again, moved(m31250=125000, m156250=250000), all_with(qrv=1))
    yield Case("asks again at once although it asks once", once, at[:1], words=("--rv", "1"), specific=3, **again)
    excluded = {"hosts": ((50400, b.report((TO_EX, b.B, (b.S,)))),)}
    yield Case("asks at once for a source that waits and is excluded", asked_again, possibly(at[0]), at[:1], specific=5, **excluded)
    left_out = {"hosts": ((50400, b.report((TO_IN, b.B, (b.T,)))),)}
    yield Case("asks at once for a source that waits and that a TO_IN leaves out", asked_again, possibly(at[0]), at[:1], specific=5, **left_out)
    for what, faults in (("a wrong checksum", {"is_broken": True}), ("hop limit 64", {"hops": 64}), ("no Router Alert", {"has_alert": False})):
        is_dropped = "is_broken" in faults or b.family is not IGMP
        faulty = {"hosts": ((50400, b.report((BLOCK, b.B, (b.S,)), **faults)),)}
        yield Case(f"asks at once for a source that is blocked again with {what}", asked_again, at[:1] if is_dropped else possibly(at[0]), at[:1], specific=5, **faulty)
    for moment, is_certain in ((51300, False), (52100, False), (52101, True)):
        late, found = {"hosts": ((moment, b.report((BLOCK, b.B, (b.S,)))),)}, (f"{moment} extra {s}",)
        yield Case(f"asks for a source that is blocked again at {moment}", having(ask_source(moment, b.S)), found if is_certain else possibly(*found), found, specific=5, **late)
    # A Report in the interval of another one, and one just before the retransmission that waits.
    blocked_thrice = {"hosts": (blocked_again, (50800, b.report((BLOCK, b.B, (b.S,)))))}
    found = tuple(f"{moment} {what} {s}" for moment, what in ((50400, "extra"), (50800, "extra"), (51000, "missing"), (51800, "extra")))
    each_time = both(without(51000), having(*(ask_source(moment, b.S) for moment in (50400, 50800, 51800))))
    yield Case("asks at once each time that a source is blocked again", each_time, possibly(*found), found, specific=6, **blocked_thrice)
    blocked_late = {"hosts": ((50950, b.report((BLOCK, b.B, (b.S,)))),)}
    found = tuple(f"{moment} extra {s}" for moment in (51000, 51950))
    late = having(ask_source(50950, b.S), ask_source(51950, b.S))
    yield Case("keeps both schedules of a source that is blocked again within the tolerance", late, possibly(*found), found, specific=6, **blocked_late)
    # A source that waits, beside a new one.
    together = both(without(51000), having(ask_source(50400, b.S, b.T), ask_source(51400, b.T)))
    yield Case("names a source that waits in the new sending", together, hosts=(other_blocked,), specific=5)
    own = having(ask_source(50400, b.T), ask_source(51400, b.T))
    apart, t = {"hosts": (other_blocked,)}, f"{wire.text_of(b.B)} {wire.text_of(b.T)}"
    found = f"50400 missing {s}", f"51000 extra {s}", f"51400 missing {t}"
    yield Case("asks for each source at its own moments", own, (), found[:2], specific=6, **apart)
    yield Case("doesn't ask again for the first source at its own moment", both(own, without(51000)), possibly(found[0]), found[:1], specific=5, **apart)
    yield Case("doesn't ask again for the second source at its own moment", both(own, without(51400)), possibly(*found[2:]), found, specific=5, **apart)
    with_s = both(own, without(51000), having(dataclasses.replace(ask_source(51000, b.S), s=True)))
    yield Case("sets S in a query at its own moment", with_s, (), found[:2], specific=6, **apart)
    late_response = both(own, without(51000), having(dataclasses.replace(ask_source(51000, b.S), response=500)))
    yield Case("says another response in a query at its own moment", late_response, differing((51000,), s, "response 500, wanted 1000"), found[:2], specific=6, **apart)
    three = lambda *moments: both(of_three(b, *(ask_source(at, b.T) for at in (50400, 51400, 52400))), without(*moments))
    found = f"50400 missing {s}", f"51000 extra {s}", f"51400 missing {s}", f"52000 extra {s}"
    yield Case("asks three times for each source at its own moments", three(), (), found, specific=9, **apart, **thrice)
    yield Case("leaves out the second query at its own moments", three(51000), possibly(found[0], *found[2:]), (found[0], *found[2:]), specific=8, **apart, **thrice)
    yield Case("leaves out the third query at its own moments", three(52000), possibly(*found[2:3]), found[:3], specific=8, **apart, **thrice)
    found = f"50400 missing {s}", f"51000 extra {s}"
    beside = both(together, having(ask_source(51000, b.S)))
    yield Case("keeps both schedules of a source", beside, possibly(*found[1:]), found[1:], specific=6, **apart)
    yield Case("asks a third time for a source beside both schedules", both(beside, having(ask_source(52000, b.S))), possibly(*found[1:], f"52000 extra {s}"), (*found[1:], f"52000 extra {s}"), specific=7, **apart)
    # A query for sources with S set, beside one for their group.
    excluded = (55000, b.report((TO_EX, b.C, ()))), (56000, b.report((ALLOW, b.C, (b.S,))))
    gone = (*excluded, (60000, b.report((TO_IN, b.C, ()))), (60500, b.report((ALLOW, b.C, (b.S,)))))
    asked = [Query(at, LEFT, b.C) for at in (60000, 61000)] + [Query(60000, LEFT, b.C, (b.S,))]
    half = Query(61000, LEFT, b.C, (b.S,), s=True)
    yield Case("sends the half with S set", having(*asked, half), hosts=gone, specific=8)
    yield Case("leaves out the half with S set", having(*asked), hosts=gone, specific=7)
    clear = f"61000 differs {wire.text_of(b.C)} {wire.text_of(b.S)}: s 0, wanted 1"
    yield Case("sends the half with S clear", having(*asked, dataclasses.replace(half, s=False)), (clear,), hosts=gone, specific=8)
    yield Case("leaves out a half with S clear", having(asked[0], asked[1], half), (f"60000 missing {wire.text_of(b.C)} {wire.text_of(b.S)}",), hosts=gone, specific=7)
    # A retransmission behind a late query.
    yield Case("counts a retransmission from the first moment", moved(m40000=40060, m41000=41060))
    found = f"41000 missing {a}", f"41120 extra {a}"
    yield Case("counts a late retransmission from a late query", moved(m40000=40060, m41000=41120), (), found)
    of_source = f"51000 missing {s}", f"51120 extra {s}"
    yield Case("counts a late retransmission for a source from a late query", moved(m50000=50060, m51000=51120), (), of_source)
    other_qrv = both(without(41000), moved(m40000=40060), having(dataclasses.replace(ask_group(41120), qrv=3)))
    yield Case("says another QRV in a retransmission that is counted from a late query", other_qrv, differing((41120,), a, "qrv 3, wanted 2"), found)
    yield Case("counts as late as the tolerance allows", moved(m40000=40060, m41000=41160), (), (found[0], f"41160 extra {a}"))
    yield Case("counts a millisecond too late", moved(m40000=40060, m41000=41161), (found[0], f"41161 extra {a}"))
    yield Case("asks again 200 ms too late", moved(m41000=41200), (found[0], f"41200 extra {a}"))
    yield Case("asks a third time behind a late retransmission", both(moved(m40000=40060, m41000=41120), having(ask_group(41320))), (f"41320 extra {a}",), (*found, f"41320 extra {a}"), specific=5)
    later = both(of_three(b), moved(m40000=40060, m41000=41120, m42000=42180))
    found = f"41000 missing {a}", f"41120 extra {a}", f"42000 missing {a}", f"42180 extra {a}"
    yield Case("is late by more each time", later, (), found, specific=6, **thrice)
    # The late query may come after the end.
    for end, is_missing in ((51160, False), (51161, True)):
        found = (f"51000 missing {s}",)
        yield Case(f"may ask again late after {end}", both(without(51000, 156250), moved(m50000=50060)), found if is_missing else (), found, words=("--until", str(end)), general=2, specific=3)
    for end, is_missing in ((51100, False), (51101, True)):
        found, first = (f"50400 missing {s}",), both(without(51000, 156250), having(ask_source(50400, b.T)))
        yield Case(f"may ask at its own moment after {end}", first, possibly(*found) if is_missing else (), found, words=("--until", str(end)), general=2, **apart)
    yield from from_before(b)
    # The phase of general queries.
    yield Case("counts an interval from the query before", moved(m31250=31300, m156250=156350))
    yield Case("counts intervals from the first query", moved(m31250=31350, m156250=156250))


def from_before(b):
    """Queriers that ask for a group or a source that no host reported in the capture. They may hold it since before the capture."""
    a, c, s, t = wire.text_of(b.A), wire.text_of(b.C), *(f"{wire.text_of(b.B)} {wire.text_of(it)}" for it in (b.S, b.T))
    of_c = f"{c} {wire.text_of(b.S)}"
    left = (90000, b.report((TO_IN, b.C, ())))
    left_by_older = (90000, b.framed(wire.older(b.family, b.family.leave, b.C), b.host, b.routers))
    joined, blocked = (90500, b.report((TO_EX, b.C, ()))), (90000, b.report((BLOCK, b.C, (b.S,))))
    ask, asks = lambda *moments: having(*(Query(at, LEFT, b.C) for at in moments)), (f"90000 extra {c}", f"91000 extra {c}")
    first = f"90000 possible extra {c}"
    yield Case("knows no group from before the capture", as_it_is, hosts=(left,), before=())
    yield Case("knows a group from before the capture", ask(90000, 91000), asks, hosts=(left,), specific=6, before=(first,))
    for what, hosts in (("a Report", (left, joined)), ("a Leave", (left_by_older, joined))):
        with_s = having(Query(90000, LEFT, b.C), Query(91000, LEFT, b.C, s=True))
        yield Case(f"knows a group from before {what}, and another host answers", with_s, asks, hosts=hosts, specific=6, before=(first,))
        without_s = (first, f"91000 differs {c}: s 0, wanted 1")
        yield Case(f"clears S although another host answers {what}", ask(90000, 91000), asks, hosts=hosts, specific=6, before=without_s)
    of_source = [Query(at, BLOCKED, b.C, (b.S,)) for at in (90000, 91000)]
    extra = tuple(f"{at} extra {of_c}" for at in (90000, 91000))
    source = f"90000 possible extra {of_c}"
    yield Case("knows a source from before the capture", having(*of_source), extra, hosts=(blocked,), specific=6, before=(source,))
    answered = (90500, b.report((ALLOW, b.C, (b.S,))))
    with_s = having(of_source[0], dataclasses.replace(of_source[1], s=True))
    yield Case("knows a source from before the capture, and another host answers", with_s, extra, hosts=(blocked, answered), specific=6, before=(source,))
    yield Case("asks once for a source from before the capture", having(of_source[0]), extra[:1], hosts=(blocked,), specific=5, before=(source, f"91000 possible missing {of_c}"))
    yield Case("asks once for a group from before the capture", ask(90000), asks[:1], hosts=(left,), specific=5, before=(first, f"91000 possible missing {c}"))
    late = (first, f"91000 possible missing {c}", f"94000 extra {c}")
    yield Case("asks again 3 s late for a group from before the capture", ask(90000, 94000), (asks[0], f"94000 extra {c}"), hosts=(left,), specific=6, before=late)
    third = f"92000 extra {c}"
    yield Case("asks a third time for a group from before the capture", ask(90000, 91000, 92000), (*asks, third), hosts=(left,), specific=7, before=(first, third))
    faulty = both(ask(90000, 91000), each(LEFT, qrv=3))
    of_left, of_known = (differing(moments, what, "qrv 3, wanted 2") for moments, what in (((40000, 41000), a), ((90000, 91000), c)))
    yield Case("says another QRV for a group from before the capture", faulty, of_left + asks, hosts=(left,), specific=6, before=(*of_left, first, *of_known))
    for at in (260100, 260101):
        is_old, asked = at > 260100, (f"{at} extra {c}", f"{at + 1000} extra {c}")
        hosts = ((at, b.report((TO_IN, b.C, ()))),)
        yield Case(f"knows a group at {at}", ask(at, at + 1000), asked, hosts=hosts, words=("--until", "262000"), specific=6, before=asked if is_old else (f"{at} possible extra {c}",))
    again = both(ask(90000, 91000), having(Query(120000, LEFT, b.A)))
    yield Case("asks for a group that it left", again, (*asks, f"120000 extra {a}"), hosts=(left,), specific=7, before=(first, f"120000 extra {a}"))
    # An older host from before the capture mutes BLOCK, until the querier asks because of one.
    missing = tuple(f"{at} missing {s}" for at in (50000, 51000))
    yield Case("may have heard an older host", without(50000, 51000), missing, specific=2, before=tuple(it.replace("missing", "possible missing") for it in missing))
    more = (70000, b.report((BLOCK, b.B, (b.T,))))
    missing = tuple(f"{at} missing {t}" for at in (70000, 71000))
    yield Case("asked for a source of the group before", as_it_is, missing, hosts=(more,), before=(missing[0], f"71000 possible missing {t}"))


# Captures in which very many queries are pending. A check of one takes little more time than a replay.

CROWD = 20000


def crowds(b):
    """Returns such captures by name."""
    leave, query = b.report((TO_IN, b.A, ())), b.query(Query(0, LEFT, b.A))
    starts = [(0, b.query(b.general(0))), (5000, b.report((TO_EX, b.A, ())))]
    leaves = [(10000 + 300 * n // CROWD, leave) for n in range(CROWD)]
    late = [(11001 + 80 * n // CROWD, query) for n in range(CROWD // 2)]
    pairs = [(10500 + 400 * n // CROWD, frame) for n in range(CROWD // 2) for frame in (leave, query)]
    # The program looks for the queries of these two groups in one place.
    first, second = (b.A[:-3] + bytes(end) for end in ((3, 100, 100), (4, 98, 86)))
    beside = [(5000, b.report((TO_EX, group, ()))) for group in (first, second)] + [(9999, b.report((TO_IN, first, ())))]
    leave, query = b.report((TO_IN, second, ())), b.query(Query(0, LEFT, second))
    more = [(10000 + 80 * n // CROWD, frame) for n in range(CROWD) for frame in (leave, query)]
    query = b.query(Query(0, LEFT, second, s=True))
    with_s = [(10000 + 80 * n // CROWD, frame) for n in range(CROWD) for frame in (leave, query)]
    return {
        "many leaves of a group, and queries after the tolerance": wire.capture(starts + leaves + late),
        "many leaves without a query, and then many with one": wire.capture(starts + leaves + pairs),
        "a pending query beside many of another group": wire.capture(starts + beside + more),
        "a Report beside many queries with S set": wire.capture(starts + beside + with_s),
    }
