"""A querier on one link, written from the tables and rules of RFC 3376 and RFC 3810 and from docs/FORMATS.md, with the
choices of docs/DECISIONS.md. `replay` gives the text of a capture. It is slow and plain: maps, sets, no order of search.
"""

from __future__ import annotations

import dataclasses

from wire import IGMP, CaptureFault, Fault, address, code_of, moments, object_of, opened, query, read, text_of, unwrap, with_checksum, written

IS_IN, IS_EX, TO_IN, TO_EX, ALLOW, BLOCK = range(1, 7)
DAY = 86400000
# So many records of a datagram may meet one group that is held.
MOST_MET = 4


@dataclasses.dataclass
class Options:
    """The command line behind the family. Spans are milliseconds, but for `qi`, which is seconds."""

    own: bytes
    rv: int = 2
    qi: int = 125
    qri: int = 10000
    lmqi: int = 1000
    groups: int = 1024
    group_sources: int | None = None
    sources: int = 16384
    scheduled: int = 256
    ssm: bool = False
    until: int | None = None
    changes: bool = False


def options_of(words, kind=Options):
    """The options of a command line behind the family."""
    found, words = {}, iter(words)
    for word in words:
        name = word[2:].replace("-", "_")
        found[name] = True if word in ("--ssm", "--changes") else address(next(words)) if word == "--own" else int(next(words))
    return kind(**found)


@dataclasses.dataclass
class Group:
    """A group: INCLUDE where `until` is None, else EXCLUDE up to then. A source has its deadline, None where its timer is
    stopped, and how many retransmissions are left for it. `asked` is how often the group is to be asked for, and when next."""

    until: int | None = None
    sources: dict = dataclasses.field(default_factory=dict)
    hosts: dict = dataclasses.field(default_factory=dict)
    asked: tuple | None = None
    due: int | None = None

    def copy(self):
        return Group(self.until, dict(self.sources), dict(self.hosts), self.asked, self.due)

    def running(self):
        return {it for it, (deadline, _) in self.sources.items() if deadline is not None}

    def stopped(self):
        return set(self.sources) - self.running()

    def forwarded(self):
        """The forwarded filter as a line has it: some sources, or all except some (RFC 3376 section 6.3, RFC 3810 section 7.3)."""
        if self.until is not None:
            return " ".join(["exclude", *(f"!{text_of(it)}" for it in sorted(self.stopped()))])
        return " ".join(["include", *(text_of(it) for it in sorted(self.running()))]) if self.running() else "none"

    def is_held(self):
        return self.until is not None or bool(self.sources)

    def moments(self):
        """When something is to be done for it."""
        found = [deadline for deadline, _ in self.sources.values()] + [self.until, self.due, *self.hosts.values()]
        return [it for it in found if it is not None] + ([self.asked[1]] if self.asked else [])

    def sizes(self):
        """Its share of the groups, of the sources and of the schedules."""
        return int(self.is_held()), len(self.sources), (self.asked is not None) + (self.due is not None)

    def settle(self):
        """Drops what is due where nothing is left to be sent."""
        if not any(left for _, left in self.sources.values()):
            self.due = None
        if self.until is None:
            self.asked = None

    def expire(self, now):
        """Timers that end: sources before the group (RFC 3376 sections 6.3 and 6.5, RFC 3810 sections 7.2.3 and 7.5)."""
        ended = {it for it in self.running() if self.sources[it][0] <= now}
        for it in ended:
            self.sources[it] = (None, 0)
        if self.until is not None and self.until <= now:
            self.until = None
        if self.until is None:
            self.sources = {it: self.sources[it] for it in self.running()}
        self.hosts = {version: deadline for version, deadline in self.hosts.items() if deadline > now}
        self.settle()


def table(old, kind, named, new_timer):
    """A record's row in the tables of RFC 3376 sections 6.4.1 and 6.4.2 (RFC 3810 sections 7.4.1 and 7.4.2).

    It returns the new group, the sources to query, and whether to query the group. `new_timer` is the end of an interval that
    begins now."""
    x, y, fresh, as_group, asked = old.running(), old.stopped(), set(), set(), set()
    is_exclude = old.until is not None
    until = old.until
    if kind in (IS_EX, TO_EX):
        until = new_timer
    if kind in (IS_IN, ALLOW, TO_IN):
        new_x, new_y, fresh = x | named, y - named, named
        asked = x - named if kind == TO_IN else set()
    elif not is_exclude and kind == BLOCK:
        new_x, new_y, asked = x, y, x & named
    elif not is_exclude:
        new_x, new_y, asked = x & named, named - x, x & named if kind == TO_EX else set()
    elif kind == BLOCK:
        new_x, new_y, as_group, asked = x | (named - y), y, named - x - y, named - y
    else:
        new_x, new_y = named - y, y & named
        fresh = named - x - y if kind == IS_EX else set()
        as_group, asked = (named - x - y, named - y) if kind == TO_EX else (set(), set())
    new = Group(until, {}, dict(old.hosts), old.asked, old.due)
    for it in new_x:
        deadline = new_timer if it in fresh else old.until if it in as_group else old.sources[it][0]
        new.sources[it] = (deadline, old.sources[it][1] if it in x else 0)
    new.sources.update({it: (None, 0) for it in new_y})
    new.settle()
    return new, asked, kind == TO_IN and is_exclude


def is_source_specific(group):
    """Returns whether a group is in 232.0.0.0/8 or ff3x::/32 (RFC 4604 section 1)."""
    return group[0] == 232 if len(group) == 4 else group[0] == 0xFF and group[1] >> 4 == 3 and not any(group[2:4])


class Querier:
    """A link. Its queries go to `lines`."""

    def __init__(self, family, options):
        self.family, self.it, self.lines = family, options, []
        self.most = options.group_sources or family.per_query
        self.rv, self.qi = options.rv, 1000 * options.qi
        self.groups, self.now, self.sent = {}, 0, 0
        self.other, self.general, self.startup = None, 0, options.rv
        self.received, self.dropped, self.counts = 0, 0, [0, 0, 0]
        # The states of each group, after each step of an event.
        self.seen = []

    def asking_time(self):
        return self.it.lmqi * self.rv

    def interval(self):
        """Group membership interval, multicast address listening interval, and older host present interval."""
        return self.rv * self.qi + self.it.qri

    def next(self):
        election = self.general if self.other is None else self.other
        return min([election] + [moment for group in self.groups.values() for moment in group.moments()])

    # Queries.

    def send(self, group, sources, s, response):
        unit, bits = (100, 8) if self.family is IGMP else (1, 16)
        body = query(self.family, group, sources, s, code_of(response // unit, bits), self.rv, code_of(self.qi // 1000, 8))
        to = group if any(group) else self.family.everyone
        body = with_checksum(self.family, body, self.it.own, to)
        self.lines.append(f"{self.now} send {text_of(to)} {body.hex()}")
        self.sent += 1

    def round(self, group):
        """The queries that are due for a group, each as the S flag and its sources (RFC 3376 section 6.6.3, RFC 3810 section 7.6.3)."""
        found, later = [], self.now + self.it.lmqi
        if group.asked and group.asked[1] <= self.now:
            left = group.asked[0] - 1
            group.asked = (left, later) if left else None
            found.append((group.until > self.now + self.asking_time(), []))
        if group.due is not None and group.due <= self.now:
            waiting = sorted(it for it, (_, left) in group.sources.items() if left)
            late = [it for it in waiting if group.sources[it][0] > self.now + self.asking_time()]
            for s, these in ((True, late), (False, [it for it in waiting if it not in late])):
                found += [(s, these[at : at + self.family.per_query]) for at in range(0, len(these), self.family.per_query)]
            for it in waiting:
                deadline, left = group.sources[it]
                group.sources[it] = (deadline, left - 1)
            group.due = later
            group.settle()
        return found

    def ask(self, group, asked, is_group):
        """Lowers what is asked for, and has it sent (RFC 3376 sections 6.6.3.1 and 6.6.3.2, RFC 3810 sections 7.6.3.1 and 7.6.3.2)."""
        lowered = self.now + self.asking_time()
        if is_group:
            group.until, group.asked = min(group.until, lowered), (self.rv, self.now)
        late = [it for it in asked if group.sources[it][0] > lowered]
        for it in late:
            group.sources[it] = (lowered, self.rv)
        if late:
            group.due = self.now

    # Events.

    def tick(self, moment):
        """Timers that end, the end of the other querier, the general query, and what is due for the groups."""
        self.now, self.seen = max(self.now, moment), [self.forwarded()]
        for group in self.groups.values():
            group.expire(self.now)
        self.groups = {it: group for it, group in self.groups.items() if group.is_held()}
        if self.other is not None and self.other <= self.now:
            self.other, self.general, self.startup = None, self.now, 0
            self.rv, self.qi = self.it.rv, 1000 * self.it.qi
        if self.other is None and self.general <= self.now:
            self.send(self.family.zero(), [], False, self.it.qri)
            self.startup = max(0, self.startup - 1)
            self.general = self.now + (self.qi // 4 if self.startup else self.qi)
        for it in sorted(self.groups):
            for s, sources in self.round(self.groups[it]):
                self.send(it, sources, s, self.it.lmqi)
        self.seen.append(self.forwarded())

    def forwarded(self):
        return {it: group.forwarded() for it, group in self.groups.items()}

    def changes(self):
        """The lines of the groups that the last event changed: their filter differs before and after one of its steps."""
        if not self.it.changes:
            return []
        steps = list(zip(self.seen, self.seen[1:]))
        groups = {it for before, after in steps for it in {*before, *after} if before.get(it, "none") != after.get(it, "none")}
        return [f"{self.now} change {text_of(it)} {self.seen[-1].get(it, 'none')}" for it in sorted(groups)]

    def receive(self, packet, moment):
        """The result of a packet: counts of its applied, ignored and refused records, or why it is dropped."""
        self.tick(moment)
        self.received += 1
        try:
            message = read(self.family, packet.body, packet.source, packet.to)
        except Fault as fault:
            reason = fault.number
        else:
            reason = self.dropping(packet, message)
        if reason:
            self.dropped += 1
            return f"dropped {reason}"
        self.totals = [sum(of) for of in zip(*(group.sizes() for group in self.groups.values()))] or [0, 0, 0]
        found, met = [0, 0, 0], {}
        if message.what == "query":
            self.hear(packet.source, message)
        kinds = {"older": IS_EX, "leave": TO_IN, "query": None, "report": None}
        records = message.records or ([(kinds[message.what], message.group, [])] if kinds[message.what] else [])
        for kind, group, sources in records:
            found[self.record(kind, group, sources, message, met)] += 1
            self.seen.append(self.forwarded())
        self.counts = [all_ + it for all_, it in zip(self.counts, found)]
        return "taken {} {} {}".format(*found)

    def dropping(self, packet, message):
        """The first reason to drop a message that could be read, or 0."""
        is_query, is_igmp = message.what == "query", self.family is IGMP
        if not is_igmp:
            if packet.source[0] != 0xFE or packet.source[1] >> 6 != 2:
                return 5
            if packet.hops != 1:
                return 6
            if not packet.alert:
                return 7
        if is_query and (packet.source == self.it.own or is_igmp and not any(packet.source)):
            return 8
        if is_query and is_igmp and message.version == 1:
            return 9
        return 10 if message.what in ("older", "leave") and not self.is_admitted(message.group) else 0

    def is_admitted(self, group):
        if self.family is IGMP:
            return group[0] >> 4 == 14 and group != self.family.everyone
        return group[0] == 0xFF and group[1] & 15 > 1 and group != self.family.everyone

    def is_muted(self, kind, group, message, hosts):
        """Returns whether a record is ignored because of an older host or the source-specific range (RFC 3376 section 7.3.2, RFC 3810
        section 8.3.2, RFC 4604 sections 3.1, 3.5 and 3.7)."""
        if self.it.ssm and is_source_specific(group) and (message.what != "report" or kind in (IS_EX, TO_EX)):
            return True
        return kind == BLOCK and bool(hosts) or kind == TO_IN and self.family is IGMP and 1 in hosts

    def record(self, kind, group, sources, message, met):
        """Works on a record: 0 it is applied, 1 ignored, 2 refused, with nothing changed then."""
        if kind not in range(1, 7) or not self.is_admitted(group):
            return 1
        if len(sources) > self.most:
            return 2
        old = self.groups.get(group, Group())
        if group in self.groups:
            met[group] = met.get(group, 0) + 1
            if met[group] > MOST_MET:
                return 2
        if self.is_muted(kind, group, message, old.hosts):
            return 1
        named = set() if kind == TO_EX and old.hosts else set(sources)
        new, asked, is_group = table(old, kind, named, self.now + self.interval())
        if message.what == "older":
            new.hosts[message.version] = self.now + self.interval()
        sent = []
        if self.other is None:
            self.ask(new, asked, is_group)
            sent = self.round(new)
        if not self.fits(old, new):
            return 2
        self.groups[group] = new
        if not new.is_held():
            del self.groups[group]
        for s, sources in sent:
            self.send(group, sources, s, self.it.lmqi)
        return 0

    def fits(self, old, new):
        """Returns whether the limits allow a change of a group."""
        most = [self.it.groups, self.it.sources, self.it.scheduled]
        self.totals = [total - was + will for total, was, will in zip(self.totals, old.sizes(), new.sizes())]
        is_well = len(new.sources) <= self.most and all(total <= limit for total, limit in zip(self.totals, most))
        if not is_well:
            self.totals = [total + was - will for total, was, will in zip(self.totals, old.sizes(), new.sizes())]
        return is_well

    def hear(self, source, message):
        """Another router's query: role, what is taken over, deadline, timers (RFC 3376 sections 4.1.6, 4.1.7, 6.6.1 and 6.6.2,
        RFC 3810 sections 5.1.8, 5.1.9, 7.6.1 and 7.6.2)."""
        if source < self.it.own and self.other is None:
            self.other = self.now
            for group in self.groups.values():
                group.asked = group.due = None
                group.sources = {it: (deadline, 0) for it, (deadline, _) in group.sources.items()}
        s, robustness, interval = message.fields or (0, None, None)
        if robustness is not None:
            self.rv = robustness or self.it.rv
            if self.other is not None:
                self.qi = 1000 * (interval or self.it.qi)
        if source < self.it.own:
            self.other = self.now + self.rv * self.qi + self.it.qri // 2
        group = self.groups.get(message.group)
        if s or group is None:
            return
        lowered = self.now + self.asking_time()
        if not message.sources and group.until is not None:
            group.until = min(group.until, lowered)
        for it in set(message.sources) & group.running():
            deadline, left = group.sources[it]
            group.sources[it] = (min(deadline, lowered), left)

    # Its text.

    def end(self, moment):
        said = [f"end {moment} {'querier' if self.other is None else 'other'}"]
        for it in sorted(self.groups):
            group = self.groups[it]
            told = [f"group {text_of(it)}", "include" if group.until is None else f"exclude {group.until}"]
            for source in sorted(group.sources):
                deadline, text = group.sources[source][0], text_of(source)
                told.append(f"!{text}" if deadline is None else f"{text}={deadline}")
            told += [f"v{version} {group.hosts[version]}" for version in sorted(group.hosts)]
            said.append(" ".join(told))
        names = ["received", "dropped", "applied", "ignored", "refused", "sent", "unsent"]
        numbers = [self.received, self.dropped, *self.counts, self.sent, 0]
        return said + ["counts " + " ".join(f"{name} {number}" for name, number in zip(names, numbers))]


# The words for the numbers of reasons to drop a message.
REASONS = ["truncated", "checksum", "unknown type", "query length", "source", "hop limit", "router alert", "own query", "query of version 1", "group"]


def timer(deadline):
    return None if deadline is None else int(deadline)


def event_of(line, family, own):
    """The object of a line of `replay`, without the timers of a changed group."""
    words = line.split()
    if words[0] == "end":
        return {"time": int(words[1]), "event": "end", "querier": words[2] == "querier"}
    if words[0] == "counts":
        return {"event": "counts"} | {name: int(count) for name, count in zip(words[1::2], words[2::2])}
    time = {"time": int(words[0])}
    if words[1] == "send":
        to, body = address(words[2]), bytes.fromhex(words[3])
        message = object_of(read(family, body, own, to))
        return time | {"event": "send", "destination": words[2], "hex": words[3], "message": message}
    packet = {"packet": int(words[2])}
    if words[1] == "skip":
        return time | {"event": "skip"} | packet | {"skipped": words[3]}
    packet |= {"source": words[3]}
    if words[4] == "dropped":
        return time | {"event": "drop"} | packet | {"number": int(words[5]), "reason": REASONS[int(words[5]) - 1]}
    return time | {"event": "receive"} | packet | dict(zip(("applied", "ignored", "refused"), map(int, words[5:])))


def group_of(line, time):
    """The object of a group at the end of a replay."""
    _, group, mode, *words = line.split()
    until = words.pop(0) if mode == "exclude" else None
    hosts = {"v1": None, "v2": None}
    while len(words) > 1 and words[-2] in hosts:
        deadline = words.pop()
        hosts[words.pop()] = int(deadline)
    sources = [(it[1:], None) if it.startswith("!") else it.split("=") for it in words]
    held = [{"source": source, "timer": timer(deadline)} for source, deadline in sources]
    return {"time": time, "event": "group", "group": group, "filter": mode, "timer": timer(until), "sources": held} | hosts


def objects(lines, family, own):
    """The objects of a replay's lines, without changed groups."""
    time = 0
    for line in lines:
        event = group_of(line, time) if line.startswith("group ") else event_of(line, family, own)
        time = event.get("time", time)
        yield written(event)


def replay(data, family, options, querier=Querier):
    """The lines that a replay of a capture writes, and what it says where a fault or a gap ends it."""
    link, last, number = querier(family, options), 0, 0
    said = link.lines

    def tick():
        link.tick(link.next())
        said.extend(link.changes())

    try:
        kind, records = opened(data)
        for number, moment, frame in moments(records):
            if moment - last > DAY:
                return said, f"gap before record {number}"
            last = moment
            while link.next() < moment:
                tick()
            packet = unwrap(kind, frame)
            if isinstance(packet, str) or packet.family is not family:
                said.append(f"{moment} skip {number} {packet if isinstance(packet, str) else 'other'}")
            else:
                answer = link.receive(packet, moment)
                said.append(f"{moment} receive {number} {text_of(packet.source)} {answer}")
                said.extend(link.changes())
    except CaptureFault as fault:
        return said, fault.text
    ending = max(last, options.until or 0)
    if ending - last > DAY:
        return said, f"gap before record {number + 1}"
    while link.next() <= ending:
        tick()
    return said + link.end(ending), None
