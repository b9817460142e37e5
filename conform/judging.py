"""The findings of a case: by `mquerier check` and `mquerier replay` over its capture, and by its own rules."""

import collections
import dataclasses
import json
import os
import subprocess

import link
from table import IGMP, text_of, wire

LIMITS = ["--groups=65535", "--group-sources=1024", "--sources=65535", "--scheduled=65535"]
# The judged property for each finding that isn't about a field.
KINDS = {"missing": "asks", "extra": "asks", "interval": "general", "silence": "general", "header": "header"}
# The filter of a group that nobody has named.
NONE = ("include", set())
MAGIC = b"conform"
IP_PRECEDENCE = 0xC0
# Gives a program the usual priority: conform itself has a higher one. A call between fork and exec would do it too. But it copies the
# process, and its threads stop meanwhile: for 24 ms in a process of 400 MB, and for 5 ms without such a call.
AS_OTHERS = ["chrt", "--other", "0"]


@dataclasses.dataclass
class Heard:
    """A frame of the recording, and its message, or None if the message can't be read."""

    stamp: int
    frame: bytes
    is_sent: bool
    packet: object = None
    message: object = None

    def is_query(self):
        return self.message is not None and self.message.what == "query"

    def is_general(self):
        return self.is_query() and not any(self.message.group)

    def groups(self):
        if self.message is None:
            return []
        return [self.message.group] if self.message.group else [group for _, group, _ in self.message.records]


@dataclasses.dataclass
class Finding:
    """A finding about the router: its time in the case, its group and source, and its packet in the capture."""

    at: int
    kind: str
    text: str
    is_general: bool = False
    packet: int = 0
    cite: str = ""
    case: str = ""
    group: bytes = b""
    source: str = None
    is_missing: bool = False


def heard(family, record):
    """Reads a record of the recording."""
    stamp, frame, is_sent = record
    it = Heard(stamp, frame, is_sent)
    packet = wire.unwrap(link.ETHERNET, frame)
    if isinstance(packet, str) or packet.family is not family:
        return it
    it.packet = packet
    try:
        body = packet.body
        it.message = wire.read(family, wire.with_checksum(family, body, packet.source, packet.to) if not is_sent else body, packet.source, packet.to)
    except wire.Fault:
        pass
    return it


def filters_of(history, begin, end):
    """The filters that were in force between two moments: the last one before, and those that began in between."""
    before = [it for at, it in history if at <= begin]
    return [before[-1] if before else NONE] + [it for at, it in history if begin < at <= end]


def filter_in(change):
    """Returns the mode of a group's filter, and the sources that are forwarded or stopped in it."""
    is_stopped = change["filter"] == "exclude"
    return change["filter"], {it["source"] for it in change["sources"] if (it["timer"] is None) == is_stopped}


def passes(mode, sources, source):
    """Returns whether a filter forwards a source."""
    return (text_of(source) in sources) == (mode == "include")


def words_of(it, moment):
    """A finding of a check in words, at its moment in the case."""
    subject = [word for word in (it["group"], it["source"]) if word is not None]
    field = f": {it['field']} {it['seen']}, wanted {it['wanted']}" if it["finding"] == "differs" else ""
    span = f"{it['seen']} ms, wanted {it['wanted']}" if it["finding"] in ("interval", "silence") else ""
    return " ".join(filter(None, [it["finding"], f"at {moment}", *subject, span])) + field


def is_link_local(address):
    return address[0] == 0xFE and address[1] >> 6 == 2


def content(frame):
    """The last octets of a frame, which tell a datagram of a forwarding case from all others."""
    return frame[-len(MAGIC) - 4 :]


def destination(frame, packet):
    return packet.to or frame[30:34]


class Judge:
    """Judges cases of one run."""

    def __init__(self, program, site, options):
        self.program, self.site, self.options = program, site, options
        self.family, self.mac = site.family, None
        # Findings of a field that no case judges for itself, and the queries that were compared.
        self.fields, self.compared = [], []

    # The capture of a case.

    def is_from_router(self, it):
        if it.is_sent or it.packet is None:
            return False
        return self.is_router(it.packet.source, it.frame[6:12])

    def is_router(self, source, mac):
        """Returns whether a source and a MAC address are the router's. For MLD its interface may have no link-local address."""
        return source == self.site.router or mac == self.mac and self.family is not IGMP and not is_link_local(source)

    def concerns(self, it, cast, wide):
        """Returns whether a frame belongs to the capture of a case: its own, those of its groups, and those that concern all."""
        if it.is_sent:
            return it.frame in wide or any(it.frame == step.frame for step in cast.steps)
        if any(cast.is_own(group) for group in it.groups()):
            return True
        return it.is_general() and self.is_from_router(it)

    def capture(self, cast, stage, records, began):
        """The frames of a case: those from its first step on, or of the first query of another router in its stage."""
        wide = {step.frame for other in stage for step in other.wide()}
        first = min([step.at for step in cast.steps] + [step.at for other in stage for step in other.wide()], default=cast.begin)
        least, most = began + (first - self.options.within) * 10**6, began + (cast.end + 2 * self.options.within) * 10**6
        found = [it for it in records if least <= it.stamp <= most and self.concerns(it, cast, wide)]
        while found and any(not step.what for step in cast.steps) and not found[0].is_sent:
            found.pop(0)
        return found

    def mended(self, it):
        """Returns a frame of the router's query with a correct header, since faults of headers are judged separately."""
        if not it.is_query() or not self.is_from_router(it):
            return it.frame
        to = destination(it.frame, it.packet)
        body = wire.with_checksum(self.family, it.packet.body, self.site.router, to)
        if self.family is IGMP:
            return wire.in_ethernet(wire.in_ipv4(body, self.site.router, to, options=b"\x94\x04\0\0"), to)
        return wire.in_ethernet(wire.in_ipv6(body, self.site.router, to), to)

    def run(self, words, frames, name):
        """The program's objects for frames. Its status is 0, 3, or 4 if a check has nothing to judge."""
        place = os.path.join(self.options.out, "captures", f"{name}.mended.pcap")
        with open(place, "wb") as to:
            to.write(link.written(frames))
        its = [*self.site.variables.words(), *LIMITS, *(["--ssm"] if self.options.ssm else [])] if words[1:] else []
        words = [self.program, words[0], "--json", *words[1:], *its, place]
        ran = subprocess.run([*AS_OTHERS, *words], capture_output=True, text=True, check=False)
        os.unlink(place)
        if ran.returncode not in (0, 3, 4):
            raise OSError(f"{' '.join(words)}: status {ran.returncode}: {ran.stderr.strip()}")
        return [json.loads(line) for line in ran.stdout.splitlines()]

    # Findings.

    def judged(self, cast, stage, records, began):
        """The findings of a case, and its capture."""
        frames = self.capture(cast, stage, records, began)
        if cast.case.own:
            return getattr(self, "own_" + cast.case.own.replace("-", "_"))(cast, frames, began), frames
        if cast.case.probes:
            return [], frames
        return self.checked(cast, frames, began), frames

    def checked(self, cast, frames, began, within=None):
        """The findings of a check of a case."""
        within = within or self.options.within
        if not frames:
            return [Finding(0, "asks", "nothing was recorded")]
        offset = (frames[0].stamp - began) / 10**6
        until = max(0, round(cast.end - offset))
        words = ["check", self.family.name, f"--querier={text_of(self.site.router)}", f"--within={within}", "--strict", "--began", f"--until={until}"]
        objects = self.run(words, [(it.stamp, self.mended(it)) for it in frames], cast.name)
        found = [self.finding(it, cast, offset) for it in objects if "finding" in it]
        self.compare(cast, frames, found, began)
        return [it for it in found if self.is_judged(it, cast)]

    def finding(self, it, cast, offset):
        """A finding of a check, at its time in the case."""
        moment, group = round(it["time"] + offset), wire.address(it["group"]) if it["group"] else self.family.zero()
        kind = KINDS.get(it["finding"]) or it["field"]
        cite = f"RFC {it['rfc']} section {', '.join(it['sections'])}"
        is_missing = it["finding"] == "missing"
        return Finding(moment, kind, words_of(it, moment), not any(group), it["packet"] or 0, cite, cast.name, group, it["source"], is_missing)

    def is_judged(self, it, cast):
        """Returns whether the case judges a finding."""
        if it.kind == "general":
            return "general" in cast.case.judged
        kinds = {not any(group) for _, group, _, _ in cast.wanted()} or {False}
        at = it.at - cast.shift(it.group)
        return it.kind in cast.case.judged and it.is_general in kinds and cast.begin - self.options.within <= at < cast.until

    def compare(self, cast, frames, found, began):
        """Keeps the findings about fields that the case does not judge, and the compared queries."""
        if cast.case.stage and cast.case.stage != "lower":
            return
        is_lower = cast.case.stage == "lower"
        self.compared += [it for it in frames if self.is_from_router(it) and it.is_query() and it.stamp >= began]
        for it in found:
            is_known = it.kind in ("asks", "general") or it.kind in cast.case.judged
            if not is_known and not (is_lower and it.kind in ("interval", "qrv")):
                self.fields.append(it)

    # Forwarding.

    def forwarded(self, cast, frames, began, sent, seen):
        """Returns the datagrams whose forwarding contradicts the filter of a replay at their time, and a tolerance before and after
        it. It also returns the capture with the forwarded datagrams."""
        history, wrong, within = self.history(cast, frames, began), {}, self.options.within
        frames = sorted([*frames, *seen.values()], key=lambda it: it.stamp)
        numbers = {content(it.frame): at for at, it in enumerate(frames, 1)}
        for payload, (stamp, group, source) in sorted(sent.items(), key=lambda it: it[1][0]):
            at = (stamp - began) / 10**6
            wanted = {passes(*it, source) for it in filters_of(history.get(group, []), at - within, at + within)}
            if at < cast.until and len(wanted) == 1 and wanted != {payload in seen}:
                wrong.setdefault((group, source, payload in seen), []).append((round(at), numbers.get(payload, 0)))
        found = []
        for (group, source, was), ones in wrong.items():
            (at, number), more = ones[0], f", and {len(ones) - 1} datagrams after it" if ones[1:] else ""
            text = f"{'forwarded' if was else 'not forwarded'} at {at} {text_of(group)} {text_of(source)}{more}"
            found.append(Finding(at, "forwarding", text, packet=number))
        return (found if sent else [Finding(0, "forwarding", "no datagram was sent")]), frames

    def history(self, cast, frames, began):
        """The filters of each group in a replay of a case's capture, with their moments."""
        if not frames:
            return {}
        offset = (frames[0].stamp - began) / 10**6
        words = ["replay", self.family.name, f"--own={text_of(self.site.router)}", "--changes", f"--until={max(0, round(cast.end - offset))}"]
        objects = self.run(words, [(it.stamp, self.mended(it)) for it in frames], cast.name)
        found = {}
        for it in objects:
            if it.get("event") == "change":
                found.setdefault(wire.address(it["group"]), []).append((it["time"] + offset, filter_in(it)))
        return found

    # Rules of cases.

    def seen(self, cast, frames, began):
        """Returns the router's queries in a capture: the time of each in the case, its group and its sources."""
        found = []
        for it in frames:
            if self.is_from_router(it) and it.is_query():
                found.append(((it.stamp - began) / 10**6, it))
        return found

    def own_times(self, cast, frames, began):
        """Checks that the router queries each group and source as often as the table says."""
        found = []
        for words in [one for its in cast.case.sees for _, one in (cast.each(its) if "~" in its[1] else [(0, its)])]:
            number, group, sources = cast.at(words[0]), cast.group(words[1]), cast.sources(words[2:])
            for source in sources:
                times = sum(group == it.message.group and source in it.message.sources for _, it in self.seen(cast, frames, began))
                if times != number:
                    found.append(Finding(0, "asks", f"{text_of(group)} {text_of(source)} was asked for {times} times, wanted {number}"))
        return found

    def own_at_most(self, cast, frames, began):
        """Checks that no group is queried more often than the Last Member Query Count, at any time. Other cases judge the times."""
        times = collections.Counter(it.message.group for _, it in self.seen(cast, frames, began) if not it.is_general())
        most = cast.names["RV"]
        return [Finding(0, "asks", f"{text_of(it)} was asked for {number} times, at most {most} wanted") for it, number in times.items() if number > most]

    def own_general(self, cast, frames, began):
        """Checks that there are two general queries, a Query Interval apart with a tolerance of a fiftieth."""
        number = sum(it.is_general() for _, it in self.seen(cast, frames, began))
        if number < 2:
            return [Finding(cast.until, "general", f"{number} general queries in {cast.until} ms", True)]
        return self.checked(cast, frames, began, max(self.options.within, cast.names["QI"] // 50))

    def generals(self, cast, frames, began):
        return [at for at, it in self.seen(cast, frames, began) if it.is_general()]

    def own_no_startup(self, cast, frames, began):
        """Checks that the second general query of the case does not come a Startup Query Interval after the first. Another case judges
        if a query comes."""
        moments = [at for at in self.generals(cast, frames, began) if at >= cast.begin - self.options.within]
        spans = [round(later - before) for before, later in zip(moments, moments[1:])]
        wrong = [it for it in spans if abs(it - cast.names["SQI"]) <= self.options.within]
        return [Finding(round(moments[1]), "general", f"general after {it}, a Startup Query Interval", True) for it in wrong]

    def own_startup(self, cast, frames, began):
        """Checks the number of general queries, which is the Robustness Variable, and their distance, a Startup Query Interval."""
        moments, number, span = self.generals(cast, frames, began), cast.names["RV"], cast.names["SQI"]
        if not moments:
            return [Finding(0, "general", "no general query after the start", True)]
        spans = [round(later - before) for before, later in zip(moments, moments[1:])][: number - 1]
        found = [Finding(0, "general", f"general after {it}, wanted {span}", True) for it in spans if abs(it - span) > self.options.within]
        if len(moments) != number:
            found.append(Finding(0, "general", f"{len(moments)} general queries at the start, wanted {number}", True))
        return found

    # Fields and headers of all queries.

    def over_all(self, case, queries):
        """Returns the findings of a case over all queries, or None if there was no query of its kind."""
        kind = case.of[0]
        is_of = {"general": Heard.is_general, "specific": lambda it: not it.is_general()}.get((*case.of, "")[1], lambda it: True)
        if kind in HEADERS:
            queries = [it for it in queries if is_of(it)]
            found = [(number, HEADERS[kind](self, it)) for number, it in enumerate(queries, 1)]
            return [Finding(0, kind, f"packet {number}: {text}", packet=number) for number, text in found if text] if queries else None
        if not any(is_of(it) for it in self.compared):
            return None
        general = {"general": True, "specific": False}.get((*case.of, "")[1])
        found = [it for it in self.fields if it.kind == kind and general in (None, it.is_general)]
        return [dataclasses.replace(it, text=f"{it.case}: {it.text}") for it in found]

    def ttl(self, it):
        hops = it.packet.hops if self.family is not IGMP else it.frame[22]
        return "" if hops == 1 else f"{'TTL' if self.family is IGMP else 'hop limit'} {hops}, wanted 1"

    def mac(self, it):
        to = destination(it.frame, it.packet)
        wanted = wire.in_ethernet(b"", to)[:6]
        is_multicast = to[0] >> 4 == 14 if self.family is IGMP else to[0] == 0xFF
        return "" if it.frame[:6] == wanted or not is_multicast else f"to {it.frame[:6].hex(':')}, wanted {wanted.hex(':')} for {text_of(to)}"

    def alert(self, it):
        if self.family is not IGMP:
            return "" if it.packet.alert else "no Router Alert"
        options = it.frame[34 : 14 + 4 * (it.frame[14] & 15)]
        return "" if b"\x94\x04\0\0" in options else "no Router Alert"

    def service(self, it):
        return "" if it.frame[15] & IP_PRECEDENCE == IP_PRECEDENCE else f"type of service 0x{it.frame[15]:02x}, wanted 0xc0"

    def source(self, it):
        it = it.packet.source
        return "" if is_link_local(it) else f"from {text_of(it)}, which isn't link-local"

    def checksum(self, it):
        to, packet = destination(it.frame, it.packet), it.packet
        if wire.with_checksum(self.family, packet.body, packet.source, to) != packet.body:
            return "a wrong checksum"
        if self.family is IGMP and wire.summed(it.frame[14 : 14 + 4 * (it.frame[14] & 15)]) % 0xFFFF:
            return "a wrong checksum of the IP header"
        return ""

    def octets(self, it):
        message, size = it.message, self.family.size
        length = size + (4 if self.family is IGMP else 8) + (4 + size * len(message.sources) if message.fields else 0)
        reserved = it.packet.body[length - size * len(message.sources) - 4] & 0xF0 if message.fields else 0
        if len(it.packet.body) != length:
            return f"{len(it.packet.body) - length} octets after the fields"
        return f"reserved bits 0x{reserved:02x}" if reserved else ""


HEADERS = {name: getattr(Judge, name) for name in ("mac", "ttl", "alert", "service", "source", "checksum", "octets")}
