"""A model of the check of another querier, written from docs/FORMATS.md.

The queries of a querier at the same address are wanted, and the capture's queries from that address were seen. The model compares
the two. Each group or source has its own state, and nothing is streamed. `check` returns the verdict of a
capture, and `check_taking` that about the querier which the capture names.
"""

from __future__ import annotations

import bisect
import copy
import dataclasses

from model import BLOCK, DAY, IS_EX, TO_EX, TO_IN, Options, Querier
from wire import IGMP, CaptureFault, Fault, code_of, moments, opened, placed, read, summed, text_of, unwrap, value_of


# Sections of RFC 3376 and of RFC 3810.
ELECTION, OLDER_HOSTS, INTERVAL = ("6.6.2", "7.6.2"), ("7.3.2", "8.3.2"), ("8.2", "9.2")
HEADERS, CHECKSUM, RESERVED, ADDITIONAL = ("4", "5"), ("4.1.2", "5.1.2"), ("4.1.4", "5.1"), ("4.1.10", "5.1.12")
FIELDS = {"version": ("7.1", "8.1"), "qrv": ("4.1.6", "5.1.8"), "interval": ("4.1.7", "5.1.9"), "to": ("4.1.12", "5.1.15")}


@dataclasses.dataclass
class CheckOptions(Options):
    """The options of a check, whose limits are the greatest if they aren't given."""

    groups: int = 65535
    group_sources: int | None = 1024
    sources: int = 65535
    scheduled: int = 65535


@dataclasses.dataclass
class Terms:
    """The fields of a query besides its group and sources. `querier` is S, QRV and the seconds of QQIC."""

    version: int
    response: int | None
    querier: tuple | None
    to: bytes


# What it means if no query is the partner of a wanted one: it is missing, or it is missing unless older hosts were heard before the capture,
# or it may be left out.
REQUIRED, POSSIBLE, OPTIONAL = "required", "possible", "optional"


@dataclasses.dataclass
class Asked:
    """A query for one thing: a group, a source of one (`source` is None without), or all groups (`group` is zero). `order` is
    its place in the order in which things happen, and `packet` the number of its packet. `partner` has the fields of the query that it pairs
    up with."""

    order: int
    at: int
    group: bytes
    source: bytes | None
    terms: Terms
    packet: int
    partner: Terms | None = None

    def thing(self):
        return self.group, self.source

    def text(self):
        return text_of(self.group) + (f" {text_of(self.source)}" if self.source is not None else "")

    def is_general(self):
        return not any(self.group) and self.source is None

    def judged_group(self):
        """The group whose refused records leave out what is found on the query. A general query has none."""
        return None if self.is_general() else self.group

    def sending(self):
        """The sections that say when the query is sent."""
        if self.is_general():
            return ELECTION
        return ("6.6.3.1", "7.6.3.1") if self.source is None else ("6.6.3.2", "7.6.3.2")

    def differing(self, name):
        """The sections of a field of the query."""
        if name in FIELDS:
            return FIELDS[name]
        if name == "response":
            return ("8.3", "9.3") if self.is_general() else ("8.8", "9.8")
        return ("4.1.5", "5.1.7") if self.is_general() else self.sending()


@dataclasses.dataclass
class Wanted(Asked):
    """A wanted query. `packet` is the last one before, or that which started the schedule. `may_come_later` says that the query may be seen
    after the end."""

    need: str = REQUIRED
    may_come_later: bool = False


@dataclasses.dataclass
class Seen(Asked):
    """A seen query. Without a partner it is extra, unless another reading, or a querier that held something before the capture, may send it
    with the fields `possible`. `is_muted` says that an older host mutes what asks for the query, and `s` is S by the timers of the link. If a
    Report sets the timer at most a millisecond before or after, it runs to `set_from` or longer. If `s_is_right`, the partner may have another
    S."""

    in_role: bool = True
    is_muted: bool = False
    s: bool = False
    set_from: int = 0
    s_is_right: bool = False
    possible: Terms | None = None

    def extra(self):
        """The sections that the query violates if nothing asks for it."""
        if not self.in_role:
            return ELECTION
        return OLDER_HOSTS if self.is_muted else self.sending()


@dataclasses.dataclass
class Next:
    """The next query of a schedule from before the capture: when it is due, its fields, the packet of its cause, and how many queries are left
    from it on."""

    order: int
    due: int
    terms: Terms
    packet: int
    left: int


@dataclasses.dataclass
class Last:
    """The last wanted query on a subject: its moment and packet."""

    at: int
    packet: int


def with_s(s, terms):
    return dataclasses.replace(terms, querier=(int(s), *terms.querier[1:])) if terms.querier else terms


def with_s_of(seen, wanted):
    """Fields that are wanted, with S as seen: it depends on a timer at the moment of a query."""
    return with_s(seen.querier[0] if seen.querier else 0, wanted)


@dataclasses.dataclass
class Rules:
    """What a check accepts: the tolerance, the interval of retransmissions, how many of them a schedule has, and how many a schedule has that
    counts from the query before. A change counts for `span`. A query waits for its partner for the time `keep`. Until `held_until` the
    querier may hold something since before the capture, and until `first_until` a schedule may have begun before it. If it is
    `above_7`, any number of queries may follow a first one, and the querier holds its groups for longer than the link."""

    within: int
    interval: int
    count: int
    more: int
    span: int
    keep: int
    held_until: int
    first_until: int
    above_7: bool

    def is_near(self, one, other):
        return abs(one - other) <= self.within


class Subject:
    """A group or a source, or all groups. `wanted` and `seen` have the queries that have no partner yet. `dues` has the moment at which each
    schedule's next query is due, and how many are left of it. `last` is the last wanted query, `cause` the moment, the fields and the packet of
    the last change, `close` those of the changes that come soon after another one, and `next` the next query of a schedule from before the
    capture."""

    def __init__(self, thing, rules, missed):
        self.thing, self.rules, self.missed = thing, rules, missed
        self.wanted, self.seen, self.dues, self.last, self.cause, self.next, self.close = [], [], [], None, None, None, []

    def move_to(self, now):
        """Forgets what is too old to matter at a moment."""
        rules = self.rules
        self.wanted = [it for it in self.wanted if now <= it.at + rules.keep]
        self.seen = [it for it in self.seen if now <= it.at + rules.keep]
        self.dues = [(due, left) for due, left in self.dues if now <= due + rules.within]
        if self.last and self.last.at + rules.interval + rules.within < now:
            self.last = None
        if self.next and self.next.due + rules.within < now:
            self.missed.append(Asked(self.next.order, self.next.due, *self.thing, self.next.terms, self.next.packet))
            self.next = None

    def first_near(self, now, them):
        return next((it for it in them if self.rules.is_near(it.at, now)), None)

    def want(self, it, is_again):
        """A query is wanted. Its partner is the first one within the tolerance that was seen and has none. If a tick sends it again, it has the
        packet of the one before. A schedule from before the capture is replaced."""
        self.move_to(it.at)
        if is_again and self.last:
            it.packet = self.last.packet
        if other := self.first_near(it.at, self.seen):
            other.partner, it.partner = it.terms, other.terms
            self.seen.remove(other)
        else:
            self.wanted.append(it)
        self.last, self.next = Last(it.at, it.packet), None

    def change(self, at, terms, packet):
        """A host changes the subject. It is close to the change before if that still counts."""
        self.move_to(at)
        if at < self.rules.held_until and at <= self.rules.span or self.has_changed(at):
            self.close.append((at, terms))
        self.cause = at, terms, packet

    def has_changed(self, now):
        """Whether the last change still counts."""
        return self.cause is not None and now <= self.cause[0] + self.rules.span

    def unclear(self, now):
        """The fields of a query that some reading may want now: changes came close together, and the last one still counts."""
        return next((terms for at, terms in self.close if self.rules.more and now <= at + self.rules.span), None)

    def caused(self, now, cause):
        """Whether a record may ask for a query that is seen now, for the first time."""
        is_unused = cause and (not self.last or self.last.at < cause[0])
        return bool(is_unused) and (self.rules.above_7 or cause[0] < self.rules.held_until) and now <= cause[0] + self.rules.within

    def find(self, it, wanted, partner):
        it.partner, wanted.partner = partner, it.terms
        self.wanted.remove(wanted)

    def see(self, it, causes, order):
        """A query is seen. Its partner is the first wanted one within the tolerance that has none. If there is none and the query comes
        when the next query of a schedule is due, its partner is the first wanted one before: the querier counts from its last query. If there is
        none either, the query may go on with a schedule from before the capture, or begin one. `causes` are the records that may ask for it."""
        self.move_to(it.at)
        rules = self.rules
        follows = bool(self.dues) and rules.is_near(self.dues[0][0], it.at)
        cause = next((cause for cause in causes if self.caused(it.at, cause)), None)
        is_unforeseen = it.at < rules.first_until or rules.above_7 and follows
        if it.possible is None and (cause or is_unforeseen):
            it.possible = with_s_of(it.terms, cause[1]) if cause else it.terms
        if other := self.first_near(it.at, self.wanted):
            self.find(it, other, other.terms)
        elif follows and self.wanted:
            self.find(it, self.wanted[0], with_s_of(it.terms, self.wanted[0].terms))
        elif not cause and self.next and rules.is_near(self.next.due, it.at):
            it.partner = with_s(it.s, self.next.terms)
            self.expect(order, it.at, self.next.terms, self.next.packet, self.next.left - 1)
        elif it.in_role and cause:
            self.last = Last(it.at, cause[2])
            self.expect(order, it.at, cause[1], cause[2], rules.count)
            self.go_on(it, follows, True)
            self.seen.append(it)
            return
        self.go_on(it, follows, it.partner is not None or rules.above_7 and it.in_role and it.possible is not None)
        if it.partner is None:
            self.seen.append(it)

    def expect(self, order, at, terms, packet, left):
        """The next query of a schedule from before the capture is due an interval after a query."""
        self.next = Next(order, at + self.rules.interval, terms, packet, left) if left else None

    def go_on(self, it, follows, starts):
        """A query goes on with the first schedule that waits. A query with a partner starts a schedule."""
        left = self.rules.more
        if follows:
            left = self.dues.pop(0)[1] - 1
        elif not starts:
            return
        if left:
            self.dues.append((it.at + self.rules.interval, left))

    def end(self, end):
        """The capture ends: which wanted queries may still be seen."""
        self.move_to(end)
        self.next = None
        for it in self.wanted:
            it.may_come_later = end <= it.at + self.rules.within or bool(self.dues)


# The latest moment, and the longest time for which a query waits for its partner.
LATEST, LONGEST = 2**53, 2**32 - 1

# The greatest Robustness Variable that is allowed for, if it is above 7.
GREATEST_VARIABLE = 255

# The most groups with refused records that are kept apart.
MOST_REFUSED = 256

# Types of Ethernet behind which an IP packet may stand that no check looks into: tags, MPLS, PPPoE, MACsec; and that of `convert`
# for a link type that it doesn't read.
WRAPPING = {0x8100, 0x88A8, 0x9100, 0x8847, 0x8848, 0x8864, 0x88E5, 0xFFFF}


def is_wrapped(kind, frame):
    """Whether an IP packet may stand in a frame that isn't looked into."""
    if kind == 101:
        return False
    start = 16 if frame[12:14] == b"\x81\x00" else 12
    return int.from_bytes(frame[start : start + 2], "big") in WRAPPING


class Basis:
    """What a verdict rests on: the packets, and who was querier."""

    def __init__(self, family, own):
        self.family, self.own = family, own
        self.packets, self.messages, self.malformed, self.cut, self.unread, self.back, self.refused = 0, 0, 0, 0, 0, 0, 0
        self.lost, self.lost_at, self.other, self.again = 0, 0, None, None
        self.is_heard, self.has_higher, self.is_crowded = False, False, False

    def count(self, kind, frame, packet, goes_back):
        self.packets += 1
        self.back += goes_back
        if isinstance(packet, str):
            self.cut += packet == "cut"
            self.unread += packet == "fragment" or packet == "other" and is_wrapped(kind, frame)
        elif packet.family is self.family:
            try:
                read(self.family, packet.body, packet.source, packet.to)
                self.messages += 1
            except Fault as fault:
                self.malformed += fault.number != 3
            self.is_heard |= packet.source == self.own
            self.has_higher |= packet.source > self.own and routers_query(packet, self.family) is not None

    def is_unseen(self):
        return self.has_higher and not self.is_heard

    def lines(self):
        counts = f"packets {self.packets} messages {self.messages} malformed {self.malformed} cut {self.cut} unread {self.unread}"
        counts += f" back {self.back}" if self.back else ""
        counts += f" refused {self.refused}" if self.refused else ""
        role = f"querier {text_of(self.own)} from 0" + (", unseen" if self.is_unseen() else "")
        if self.lost:
            role += f", lost {self.lost}, last at {self.lost_at}, other {text_of(self.other)}"
            role += f", again at {self.again}" if self.again is not None else ""
        return [f"{counts}; groups held before 0 are unknown", role]

    def unjudged(self, general, specific, findings):
        """Why nothing is judged, or None."""
        if 0 < 2 * (self.cut + self.unread) >= self.packets:
            return "every second packet or more is cut or isn't read"
        if 0 < 2 * self.back >= self.packets:
            return "every second packet or more has a stamp that goes back"
        if not self.messages and not self.malformed:
            return "there is no message of this family"
        if self.is_unseen() or not (general or specific or findings):
            return "no query from this address was seen"
        return "the limits refuse records about too many groups" if self.is_crowded and not findings else None


class Observed(Querier):
    """A querier whose queries are wanted, in place of sent: `want` takes each."""

    def __init__(self, family, options, want, above_7):
        super().__init__(family, options)
        self.want, self.is_back, self.order, self.heard, self.packet = want, False, 0, None, 0
        self.is_ticking, self.above_7 = False, above_7

    def next_order(self):
        self.order += 1
        return self.order

    def tick(self, moment):
        self.is_ticking = True
        super().tick(moment)
        self.is_ticking = False

    def hear(self, source, message):
        super().hear(source, message)
        self.heard = source if source < self.it.own else self.heard

    def terms(self, group, s, response):
        bits, unit = (8, 100) if self.family is IGMP else (16, 1)
        said = unit * value_of(code_of(response // unit, bits), bits)
        interval = value_of(code_of(self.qi // 1000, 8), 8)
        to = group if any(group) else self.family.everyone
        # (S isn't judged if the Robustness Variable is above 7. So a query for sources may be left out beside one for the group.)
        querier = (int(any(group)), 0, interval) if self.above_7 else (int(s), self.rv, interval)
        return Terms(self.family.version, said, querier, to)

    def timer(self, group, source):
        """The deadline of a group, or of a source of it, or None."""
        held = self.groups.get(group)
        return None if held is None else held.until if source is None else held.sources.get(source, (None, 0))[0]

    def is_above(self, group, source):
        """Whether the timer of a group, or of a source of it, exceeds the Last Member Query Time."""
        timer = self.timer(group, source)
        return timer is not None and timer > self.now + self.asking_time()

    def mutes(self, group, source):
        """Whether an older host mutes what asks for a query: BLOCK for a source, Leave and TO_IN for a group."""
        hosts = self.groups[group].hosts if group in self.groups else {}
        return bool(hosts) if source is not None else self.family is IGMP and 1 in hosts

    def send(self, group, sources, s, response):
        if not any(group) and not self.is_back:
            return
        terms = self.terms(group, s, response)
        for source in sources or [None]:
            self.want(group, source, terms, self.is_ticking and any(group))


@dataclasses.dataclass
class Verdict:
    """The lines of a check, its certain findings, its possible ones, and why it judged nothing, if it didn't."""

    lines: list
    findings: list
    possible: list
    unjudged: str | None

    def status(self):
        return 4 if self.unjudged else 3 if self.findings else 0

    def errors(self):
        return f"mquerier: nothing judged: {self.unjudged}\n".encode() if self.unjudged else b""


# The variables of a querier in its queries. If they come from the capture, a change of one has one line.
VARIABLES = ("response", "qrv", "interval")


@dataclasses.dataclass(frozen=True)
class Flags:
    """What a check is asked for. With `strict` no other readings are accepted, and with `began` the capture begins before the querier. With
    `possible` the lines have the possible findings, with `packets` each line has the number of its packet, and with `cite` its section. With
    `once` a changed variable is reported once. If it is `above_7`, the Robustness Variable of the querier is above 7."""

    strict: bool = False
    began: bool = False
    possible: bool = False
    packets: bool = False
    once: bool = False
    cite: bool = False
    above_7: bool = False


@dataclasses.dataclass
class Finding:
    """A line of a check. It is printed at the first event later than `until`: first those of queries, then what `is_next` of a schedule from
    before the capture, each by `order`. A difference has its kind of query, field and values."""

    until: int
    is_next: bool
    order: int
    line: str
    difference: tuple | None
    is_possible: bool


class Check:
    """A check of a capture."""

    def __init__(self, family, options, within, flags):
        self.family, self.it, self.within, self.flags = family, options, within, flags
        self.link = Observed(family, options, self.want, flags.above_7)
        self.wanted, self.seen, self.changes, self.findings, self.purges = [], [], [], [], []
        # The state of each subject, what was missed of schedules from before the capture, and the groups that no older host mutes.
        self.subjects, self.missed, self.unmuted = {}, [], set()
        # The seen queries whose S isn't judged yet.
        self.open = []
        # The groups that aren't judged any more, each with the moment since when.
        self.refused = {}
        count = options.rv - 1
        # The most queries of a schedule.
        most = GREATEST_VARIABLE if flags.above_7 else options.rv
        more = 0 if flags.strict and not flags.above_7 else most - 1
        first = 0 if flags.began else (most - 1) * options.lmqi + within + 1
        lasts = 0 if flags.began else LATEST + 1 if flags.above_7 else options.rv * 1000 * options.qi + options.qri + within + 1
        span = most * options.lmqi + within
        # The time for which a query waits for its partner.
        self.keep = within if flags.strict else max(within, min(within + options.lmqi, LONGEST))
        self.rules = Rules(within, options.lmqi, count, more, span, self.keep, lasts, first, flags.above_7)
        self.general, self.specific = 0, 0
        self.basis = Basis(family, options.own)
        # The last general query in this time as querier; None where there was none, or where it isn't known of any.
        self.before, self.is_known, self.startup = 0, False, most - 1
        self.last_general = None

    def is_near(self, one, other):
        return abs(one - other) <= self.within

    # Events.

    def step(self, what, *words):
        """Something that the link does, and whether the role changes by it."""
        had_role = self.link.other is None
        self.link.is_back = not had_role
        what(*words)
        has_role = self.link.other is None
        if had_role and not has_role:
            self.silence(self.link.now, self.link.next_order())
            self.changes.append(self.link.now)
            for it in self.subjects.values():
                it.move_to(self.link.now)
                it.next = None
            self.before = None
            self.basis.lost, self.basis.lost_at, self.basis.again = self.basis.lost + 1, self.link.now, None
        self.basis.other = self.link.heard
        if has_role and not had_role:
            self.changes.append(self.link.now)
            self.basis.again = self.link.now
            self.startup, self.is_known = 0, False
            if self.last_general is not None and self.link.now <= self.last_general + self.within:
                self.before, self.is_known = self.last_general, True

    def tick_to(self, moment):
        while self.link.next() <= moment:
            self.purges.append(self.link.next())
            self.judge_s(self.link.next())
            self.step(self.link.tick, self.link.next())

    def query_in(self, packet):
        """The query of the router that is checked, where hosts act on it."""
        if packet.source != self.it.own or self.family is not IGMP and (packet.hops != 1 or not packet.alert):
            return None
        try:
            message = read(self.family, packet.body, packet.source, packet.to)
        except Fault:
            return None
        return message if message.what == "query" else None

    def headers(self, moment, number, kind, frame, packet):
        """Finds the faults of the headers of a packet with a query of the router that is checked, whether hosts act on it or not."""
        if packet.source != self.it.own:
            return
        try:
            message = read(self.family, packet.body, packet.source, packet.to)
        except Fault as fault:
            if fault.number == 2 and packet.body[0] == self.family.query:
                self.find(self.link.next_order(), moment, f"packet {number} checksum", CHECKSUM)
            return
        if message.what != "query":
            return
        for fault, sections in self.packet_faults(ip_in(kind, frame), packet):
            self.find(self.link.next_order(), moment, f"packet {number} {fault}", sections)
        reserved = packet.body[8:9].hex()[:1] if self.family is IGMP else packet.body[1:2].hex() + packet.body[6:8].hex()
        if reserved.strip("0"):
            self.find(self.link.next_order(), moment, f"packet {number} reserved", RESERVED)
        fields = 12 if self.family is IGMP else 28
        if message.fields and len(packet.body) > fields + self.family.size * len(message.sources):
            self.find(self.link.next_order(), moment, f"packet {number} additional", ADDITIONAL)

    def packet_faults(self, ip, packet):
        """The faults of a query's IP header, with their sections. A checksum of 0 is one that the hardware has yet to write."""
        ttl, alert = (packet.hops, packet.alert) if packet.to else headers4(ip)
        if ttl != 1:
            yield f"ttl {ttl}, wanted 1", HEADERS
        if not alert:
            yield "alert 0", HEADERS
        if self.family is not IGMP:
            return
        if ip[1] >> 5 != 6:
            yield f"precedence {ip[1] >> 5}, wanted 6", HEADERS
        if any(ip[10:12]) and summed(ip[: 4 * (ip[0] & 15)]) % 0xFFFF:
            yield "header checksum", HEADERS

    def subject(self, thing):
        return self.subjects.setdefault(thing, Subject(thing, self.rules, self.missed))

    def want(self, group, source, terms, is_again):
        """The link sends a query for a group, or for a source of it. A tick sends it `is_again`."""
        now = self.link.now
        it = Wanted(self.link.next_order(), now, group, source, terms, self.link.packet)
        if source is not None and terms.querier[0] and any((one.at, one.group, one.source) == (now, group, None) for one in self.wanted):
            it.need = OPTIONAL
        elif self.unclear(now, group, source) or source is not None and now < self.rules.held_until and (is_again or group not in self.unmuted):
            it.need = POSSIBLE
        self.wanted.append(it)
        self.subject(it.thing()).want(it, is_again)

    def see(self, moment, message, to):
        has_response = message.version > 1 or self.family is not IGMP
        terms = Terms(message.version, message.response if has_response else None, message.fields, to)
        in_role, is_general = self.link.other is None, not any(message.group) and not message.sources
        self.general, self.specific = self.general + is_general, self.specific + (not is_general)
        if is_general and in_role:
            self.interval(moment)
        for source in message.sources or [None]:
            it = Seen(self.link.next_order(), moment, message.group, source, terms, self.link.packet, in_role=in_role)
            self.seen.append(it)
            if is_general and in_role:
                self.compare(it)
            else:
                self.see_one(it)
        self.last_general = moment if is_general else self.last_general

    def compare(self, it):
        """A general query is seen in the role. Its fields are compared whether one is wanted or not."""
        subject = self.subject(it.thing())
        subject.move_to(it.at)
        if other := subject.first_near(it.at, subject.wanted):
            subject.find(it, other, other.terms)
        it.partner = self.link.terms(self.family.zero(), False, self.it.qri)

    def see_one(self, it):
        """A query for a group or a source is seen, or a general one while another router is querier."""
        unclear = None
        if any(it.group):
            it.is_muted, it.s = self.link.mutes(it.group, it.source), self.link.is_above(it.group, it.source)
            unclear = self.unclear(it.at, it.group, it.source)
            it.possible = unclear and with_s_of(it.terms, unclear)
        subject, own = self.subject(it.thing()), self.subject(it.thing()).cause
        causes = [own, self.subject((it.group, None)).cause] if it.source is not None else [own]
        subject.see(it, causes, self.link.next_order())
        it.s_is_right = self.flags.above_7 or bool(it.terms.querier and it.terms.querier[0]) == it.s
        it.set_from = max(it.at - 1, 0) + self.link.interval()
        if not it.s_is_right and any(it.group):
            self.open.append(it)
        if it.in_role and it.source is not None and own and it.at <= own[0] + self.within and not unclear:
            self.unmuted.add(it.group)

    def judge_s(self, moment):
        """Judges S of the queries that no Report of this moment can change. At the end of a capture there is none: then all are judged."""
        while self.open and (moment is None or self.open[0].at + min(self.within, 1) < moment):
            it = self.open.pop(0)
            timer = self.link.timer(it.group, it.source)
            it.s_is_right = timer is not None and timer >= it.set_from

    def unclear(self, now, group, source):
        """The fields of a query that some reading may want, if changes of the group, or of its sources, came close together."""
        if source == self.family.zero() or not any(self.subject((group, of)).has_changed(now) for of in {source, None}):
            return None
        return self.subject((group, source and self.family.zero())).unclear(now)

    def interval(self, moment):
        """Judges the time since the general query before this one."""
        query, first = 1000 * self.it.qi, 1000 * self.it.qi // 4
        passed = None if self.before is None else moment - self.before
        startup, self.startup = self.startup, 0
        if passed is not None and self.is_known and startup and self.is_near(passed, first):
            self.startup = startup - 1
        elif passed is not None and (not self.is_near(passed, query) if self.is_known else passed > query + self.within):
            self.find(self.link.next_order(), moment, f"general after {passed}, wanted {query}", INTERVAL, self.link.packet)
        if not self.is_known and self.before is not None:
            self.startup = startup
        self.before, self.is_known = moment, True

    def silence(self, moment, order):
        if self.link.other is not None and self.before is None:
            return
        if self.before is not None and moment - self.before > 1000 * self.it.qi + self.within:
            self.find(order, moment, f"general none for {moment - self.before}, wanted {1000 * self.it.qi}", INTERVAL)

    def change(self, moment, packet):
        """Notes the changes of a Report, if routers don't drop it: BLOCK and TO_EX ask for their sources, TO_IN and Leave for the group and
        its sources. IS_EX and a Report of an older version end what is asked of sources. The source zero stands for all sources of a group."""
        try:
            message = read(self.family, packet.body, packet.source, packet.to)
        except Fault:
            return
        if self.family is not IGMP and (not is_router(self.family, packet.source) or packet.hops != 1 or not packet.alert):
            return
        kinds, every = {"leave": TO_IN, "older": IS_EX}, self.family.zero()
        records = message.records if message.what == "report" else [(kinds[message.what], message.group, [])] if message.what in kinds else []
        for kind, group, sources in records:
            subjects = {TO_IN: [None, every], TO_EX: [*sources, every], BLOCK: [*sources, every], IS_EX: [every]}.get(kind, [])
            for source in subjects if self.link.is_admitted(group) else []:
                self.subject((group, source)).change(moment, self.link.terms(group, False, self.it.lmqi), self.link.packet)

    def receive(self, moment, packet):
        """The link receives a packet. If it refuses a record, the groups of the message aren't judged any more."""
        before = self.link.counts[2]
        self.step(self.link.receive, packet, moment)
        if self.link.counts[2] == before:
            return
        message = read(self.family, packet.body, packet.source, packet.to)
        for group in [record[1] for record in message.records] or [message.group]:
            if len(self.refused) < MOST_REFUSED:
                self.refused.setdefault(group, moment)

    def is_crowded(self):
        """Whether no group is judged any more, since the link refused records about too many."""
        return len(self.refused) == MOST_REFUSED

    def is_unjudged(self, group, until):
        """Whether a finding on a group is left out that is printed after a moment."""
        since = self.refused.get(group)
        if since is None and self.is_crowded():
            since = max(self.refused.values())
        return since is not None and since <= until

    # Findings.

    def is_near_change(self, moment, waits):
        """Whether the role changed near a moment: the last change counts that comes while a query of the moment waits."""
        changes = [it for it in self.changes if it <= moment + waits]
        return bool(changes) and self.is_near(moment, changes[-1])

    def find(self, order, at, line, sections, packet=0, difference=None, is_possible=False, is_next=False, group=None):
        """Adds a finding, unless it is on a group that isn't judged. A silence has no packet, and the line of a packet's headers names it
        already."""
        until = at + (self.within if is_next else self.keep)
        if group is not None and self.is_unjudged(group, until):
            return
        line = f"{at} possible {line}" if is_possible else f"{at} {line}"
        line += f" packet {packet}" if self.flags.packets and packet else ""
        standard, section = ("3376", sections[0]) if self.family is IGMP else ("3810", sections[1])
        line += f" (RFC {standard} section {section})" if self.flags.cite else ""
        self.findings.append(Finding(until, is_next, order, line, difference, is_possible))

    def reported(self):
        """Returns the findings in order. With `once`, those are omitted that repeat the last difference of a variable in
        queries of one kind, general or not."""
        found, last = [], {}
        for it in sorted(self.findings, key=lambda it: (bisect.bisect_right(self.purges, it.until), it.is_next, it.order)):
            kind, values = (it.difference[:2], it.difference[2:]) if it.difference else (None, None)
            if not (self.flags.once and kind and last.get(kind) == values):
                found.append(it)
            if kind and kind[1] in VARIABLES:
                last[kind] = values
        return found

    def differences(self, it):
        """Finds each field of a seen query that differs from its partner, or from a possible query. If the query is possible, another S
        makes it possibly extra."""
        seen, wanted = it.terms, it.partner or it.possible
        wanted = with_s_of(seen, wanted) if it.partner and it.s_is_right else wanted
        has_other_s = None not in (seen.querier, wanted.querier) and seen.querier[0] != wanted.querier[0]
        if it.in_role and it.possible and has_other_s:
            wanted = with_s_of(seen, wanted)
            self.find(it.order, it.at, f"extra {it.text()}", it.sending(), it.packet, is_possible=True, group=it.judged_group())
        named = [("version", seen.version, wanted.version)]
        if None not in (seen.response, wanted.response):
            named.append(("response", seen.response, wanted.response))
        if None not in (seen.querier, wanted.querier):
            named += zip(("s", "qrv", "interval"), seen.querier, wanted.querier)
        named.append(("to", text_of(seen.to), text_of(wanted.to)))
        for name, one, other in named:
            if one != other:
                line = f"differs {it.text()}: {name} {one}, wanted {other}"
                self.find(it.order, it.at, line, it.differing(name), it.packet, (any(it.group), name, one, other), group=it.judged_group())

    def judge(self, end):
        """All lines, where the capture ends at a moment. The partner of a wanted query may come after the end: then it isn't missing. The
        partner of a seen query is wanted at most the tolerance later, and no report can come before that. So the link is asked
        what it will send by then. The silence and the basis are those of the end."""
        if self.link.other is None:
            self.silence(end, self.link.next_order())
        basis = copy.copy(self.basis)
        basis.refused, basis.is_crowded = self.link.counts[2], self.is_crowded()
        self.purges.append(end)
        self.judge_s(None)
        for it in self.subjects.values():
            it.end(end)
        self.tick_to(min(end + self.within, LATEST))
        for it in self.wanted:
            if not it.partner and it.need != OPTIONAL and not it.may_come_later and it.at + self.within < end:
                self.find(it.order, it.at, f"missing {it.text()}", it.sending(), it.packet, is_possible=it.need == POSSIBLE, group=it.judged_group())
        for it in self.seen:
            if it.partner:
                self.differences(it)
            elif not self.is_near_change(it.at, self.keep):
                self.alone(it)
        for it in self.missed:
            if not self.is_near_change(it.at, self.within):
                self.find(it.order, it.at, f"missing {it.text()}", it.sending(), it.packet, is_possible=True, is_next=True, group=it.judged_group())
        found = self.reported()
        lines, possible = [it.line for it in found if not it.is_possible], [it.line for it in found if it.is_possible]
        totals = [f"checked general {self.general} specific {self.specific}: {len(lines)} findings"]
        totals += [f"possible {len(possible)}: another reading or an earlier state may explain them"] if possible else []
        unjudged = basis.unjudged(self.general, self.specific, len(lines))
        shown = [it.line for it in found if self.flags.possible or not it.is_possible]
        return Verdict([*shown, *totals, *basis.lines()], lines, possible, unjudged)

    def alone(self, it):
        """Finds what is wrong with a seen query without a partner. A change of the role near it excuses it."""
        is_possible = it.in_role and it.possible is not None
        sections = it.sending() if is_possible else it.extra()
        self.find(it.order, it.at, f"extra {it.text()}", sections, it.packet, is_possible=is_possible, group=it.judged_group())
        if is_possible:
            self.differences(it)


def ip_in(kind, frame):
    """The IP packet of a frame."""
    return frame[0 if kind == 101 else 18 if frame[12:14] == b"\x81\x00" else 14 :]


def destination(kind, frame, packet):
    """Where a packet goes."""
    return packet.to or ip_in(kind, frame)[16:20]


def headers4(packet):
    """The TTL of an IPv4 packet, and whether it has a Router Alert option (type 148)."""
    at, end = 20, 4 * (packet[0] & 15)
    while at < end and packet[at] not in (0, 148):
        if packet[at] != 1 and (at + 1 == end or packet[at + 1] < 2):
            break
        at += 1 if packet[at] == 1 else packet[at + 1]
    # (An option that ends behind the header is none.)
    return packet[8], at + 1 < end and packet[at] == 148 and 2 <= packet[at + 1] <= end - at


def is_router(family, source):
    """A router may send queries from this address."""
    return any(source) and source[0] < 224 if family is IGMP else source[0] == 0xFE and source[1] >> 6 == 2


def routers_query(packet, family):
    """The query in a packet of the family, where hosts act on it and a router may have its source; else None."""
    if not is_router(family, packet.source) or family is not IGMP and (packet.hops != 1 or not packet.alert):
        return None
    try:
        message = read(family, packet.body, packet.source, packet.to)
    except Fault:
        return None
    return message if message.what == "query" else None


def routers_queries(data, family):
    """The queries of routers on which hosts act, with their moments and sources, up to a fault of the capture."""
    try:
        kind, records = opened(data)
        for _, moment, _, frame in placed(records):
            packet = unwrap(kind, frame)
            if isinstance(packet, str) or packet.family is not family or not is_router(family, packet.source):
                continue
            if message := routers_query(packet, family):
                yield moment, packet.source, message
    except CaptureFault as fault:
        yield None, None, fault.text


def shown(passed, unit, announced, said, most):
    """The interval that the time between two queries shows, in whole units, if it has the code of the announced one."""
    interval = (passed + unit // 2) // unit * unit
    return interval if interval <= most and said(interval) == announced else announced


def taken(data, family):
    """The querier of a capture and the variables that its first queries have, or None and why there is none. The lowest source of
    general queries is elected. `beside` are the others."""
    queries = list(routers_queries(data, family))
    fault = queries.pop()[2] if queries and queries[-1][0] is None else None
    is_general = [not any(query.group) and not query.sources for _, _, query in queries]
    sources = sorted({source for at, (_, source, _) in enumerate(queries) if is_general[at]})
    if not sources:
        return None, fault or "nothing judged: there is no general query of this family"
    querier = sources[0]
    own = [(it, general) for it, general in zip(queries, is_general) if it[1] == querier]
    first = next(at for at, (_, general) in enumerate(own) if general)
    general = [(moment, query) for (moment, _, query), general in own[first:] if general]
    specific = [(moment, query) for (moment, _, query), general in own[first:] if not general]
    _, robustness, interval = general[0][1].fields or (0, 0, 0)
    interval *= 1000
    for (before, _), (moment, _) in zip(general, general[1:]):
        interval = shown(moment - before, 1000, interval, lambda ms: 1000 * value_of(code_of(ms // 1000, 8), 8), 31744000)
    bits, unit = (8, 100) if family is IGMP else (16, 1)
    lmqi, last, at = 0, None, 0
    for moment, query in specific:
        lmqi = lmqi or query.response or 0
        if last == (query.group, len(query.sources)):
            lmqi = shown(moment - at, 100, lmqi, lambda ms: unit * value_of(code_of(ms // unit, bits), bits), 3174400)
        last, at = (query.group, len(query.sources)), moment
    found = {"qi": interval // 1000, "qri": general[0][1].response, "lmqi": lmqi}
    found = {name: value for name, value in found.items() if value}
    if general[0][1].fields:
        found = {"rv": robustness, **found}
    if len(sources) > 1:
        found["beside"] = sources[1:]
    return querier, found


# The most routers that are named beside the querier.
MOST_OTHERS = 8


def check_taking(data, family, given, within=100, flags=Flags()):
    """The verdict of a whole capture about the querier that it names, or None and what it says. `given` are the options."""
    querier, found = taken(data, family)
    if querier is None:
        return None, found
    beside, above_7 = found.pop("beside", None), found.get("rv") == 0 and "rv" not in given
    options = CheckOptions(querier, **{**found, **({"rv": 7} if above_7 else {}), **given})
    if options.qri >= 1000 * options.qi:
        return None, "configuration fault 3"
    verdict, fault = check(data, family, options, within, dataclasses.replace(flags, once=True, above_7=above_7))
    if verdict:
        words = [f" {name} {found[name]}" for name in ("rv", "qi", "qri", "lmqi") if name in found and name not in given]
        words = [" rv above 7", *words[1:]] if above_7 else words
        words += [f", beside {', '.join(map(text_of, beside[:MOST_OTHERS]))}"] if beside else []
        words += [" and more"] if beside and len(beside) > MOST_OTHERS else []
        words += ["; what depends on rv is not judged"] if above_7 else []
        verdict.lines.append(f"taken from the capture: querier {text_of(querier)}{''.join(words)}")
    return verdict, fault


def is_unseen(data, family, own):
    """Whether nothing of the family comes from a router in a capture without a fault, though a router with a higher address sends queries."""
    has_higher = False
    try:
        kind, records = opened(data)
        for _, _, _, frame in placed(records):
            packet = unwrap(kind, frame)
            if isinstance(packet, str) or packet.family is not family:
                continue
            if packet.source == own:
                return False
            has_higher |= packet.source > own and routers_query(packet, family) is not None
    except CaptureFault:
        return False
    return has_higher


def check(data, family, options, within=100, flags=Flags()):
    """The verdict of a whole capture, or None and what it says: a fault or a gap ends it, or the querier is unseen."""
    if not flags.began and is_unseen(data, family, options.own):
        return None, "nothing judged: no query from this address was seen"
    it, last, number = Check(family, options, within, flags), 0, 0
    try:
        kind, records = opened(data)
        for number, moment, goes_back, frame in placed(records):
            if moment - last > DAY:
                return None, f"gap before record {number}"
            last = moment
            it.tick_to(moment)
            it.link.packet = number
            packet = unwrap(kind, frame)
            it.basis.count(kind, frame, packet, goes_back)
            if isinstance(packet, str) or packet.family is not family:
                continue
            it.purges.append(moment)
            it.headers(moment, number, kind, frame, packet)
            message = it.query_in(packet)
            if message:
                it.see(moment, message, destination(kind, frame, packet))
            else:
                it.judge_s(moment)
                it.change(moment, packet)
                it.receive(moment, packet)
    except CaptureFault as fault:
        return None, fault.text
    ending = max(last, options.until or 0)
    if ending - last > DAY:
        return None, f"gap before record {number + 1}"
    it.tick_to(ending)
    return it.judge(ending), None
