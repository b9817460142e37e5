"""The router's presence on its link: whether it is the querier, and alone, and whether it still is, with the same variables."""

import time

import link
from judging import heard
from table import IGMP, Cast, Wrong, text_of, wire

ONLY_ONE = "the router has to be the only querier there"


class Probe:
    """Packets after which any querier sends a query: groups are left, in each way."""

    name, title, stage, own, spread = "probe", "", "", "", 0
    begin, until, sees, probes = "0", "1000", [], []
    steps = [
        ("0", "TO_EX G + ALLOW H a".split()),
        ("0", "older I".split()),
        ("500", "TO_IN G + BLOCK H a".split()),
        ("510", "leave I".split()),
    ]


class Presence:
    """Asks for the router by the packets of a probe."""

    def __init__(self, options, site, judge):
        self.name, self.site, self.judge, self.family = options.interface, site, judge, site.family
        # How long the router may take to ask after a group was left, and until it asks again after another querier, in seconds.
        its = site.variables
        self.seconds, self.longest = its.lmqi / 1000 + 3, its.rv * its.qi + its.qri / 2000 + 1
        # QRV and QQIC of the router's first specific query, and of its last one.
        self.first, self.last = None, None

    def find(self):
        """Reports if the querier isn't the router, or isn't alone."""
        recording, askers = self.probed()
        self.judge.mac = self.answered(recording)
        router = text_of(self.site.router)
        own = {it for it in askers if self.judge.is_router(*it)}
        if not askers:
            raise Wrong(f"{router} asks nothing on {self.name}: no query came in {self.seconds:.0f} s after groups were left")
        if not own:
            raise Wrong(f"the querier on {self.name} is {', '.join(sorted(text_of(it) for it, _ in askers))}, and not {router}")
        if askers - own:
            raise Wrong(f"{', '.join(sorted(text_of(it) for it, _ in askers - own))} asks on {self.name} too: {ONLY_ONE}")
        self.judge.mac = next(iter(own))[1]
        self.see(heard(self.family, it) for it in recording.found)

    def see(self, frames):
        """Keeps QRV and QQIC of the router's specific queries."""
        for it in frames:
            if it.is_query() and not it.is_general() and it.message.fields and self.judge.is_from_router(it):
                self.last = it.message.fields[1:]
                self.first = self.first or self.last

    def has_changed(self):
        return self.last != self.first

    def bring_back(self, note):
        """Has a router that keeps other routers' variables adopt its own ones again. A router with a higher address says them while one
        with a lower address is querier for a short time."""
        cast, sender = Cast(Probe, 0, self.site), link.Sender(self.name)
        frames = [cast.said(0, words.split())[0].frame for words in ("lower asks QQIC 1", "lower asks QQIC 1", "higher asks")]
        sender.play([(at * 10**8, frame) for at, frame in enumerate(frames)], time.monotonic_ns())
        self.asks_again(note)
        if self.has_changed():
            note(f"{text_of(self.site.router)} keeps QRV and QQIC of another router: {self.last}, before {self.first}")
            self.first = self.last

    def asks_again(self, note):
        """Waits until the router asks, at most as long as it may take another router for the querier, and returns whether it does."""
        limit, tries, began = time.monotonic() + self.longest, 0, 0
        # A probe that begins after the limit has to be answered.
        while began < limit:
            tries, began = tries + 1, time.monotonic()
            recording, askers = self.probed()
            self.see(heard(self.family, it) for it in recording.found)
            if any(self.judge.is_router(*it) for it in askers):
                return True
            if tries == 1:
                note(f"{text_of(self.site.router)} asks nothing after another router did: conform waits for up to {self.longest:.0f} s")
        return False

    def probed(self):
        """Sends the probe. Returns what was recorded until a query came, and who asked."""
        recording, sender = link.Recording(self.name), link.Sender(self.name)
        cast = Cast(Probe, 0, self.site)
        wanted = [(0, self.who_has())] + [(10**6 * step.at, step.frame) for step in cast.steps]
        sender.play(wanted, time.monotonic_ns() + 10**8)
        limit = time.monotonic() + self.seconds
        while time.monotonic() < limit and not self.askers(recording, cast):
            time.sleep(0.05)
        time.sleep(0.2)
        recording.end()
        return recording, self.askers(recording, cast)

    def askers(self, recording, cast):
        """Returns the senders of queries for the groups of a case: addresses, and those of their interfaces."""
        found = [heard(self.family, it) for it in list(recording.found) if not it[2]]
        return {(it.packet.source, it.frame[6:12]) for it in found if it.is_query() and any(map(cast.is_own, it.groups()))}

    def who_has(self):
        """A request of ARP, or a Neighbor Solicitation, for the router's address."""
        router, host, mac = self.site.router, self.site.host, self.site.mac
        if self.family is IGMP:
            return b"\xff" * 6 + mac + bytes.fromhex("0806 0001 0800 0604 0001") + mac + host + bytes(6) + router
        to = bytes.fromhex("ff0200000000000000000001ff") + router[13:]
        body = bytes.fromhex("87000000 00000000") + router + b"\1\1" + mac
        body = wire.with_checksum(self.family, body, host, to)
        frame = wire.in_ethernet(wire.in_ipv6(body, host, to, options=None, hops=255), to)
        return frame[:6] + mac + frame[12:]

    def answered(self, recording):
        """The interface's address that the router answered with, if it did."""
        for _, frame, is_sent in recording.found:
            if self.family is IGMP and not is_sent and frame[12:14] == b"\x08\x06" and frame[20:22] == b"\0\2" and frame[28:32] == self.site.router:
                return frame[22:28]
            if self.family is not IGMP and not is_sent and frame[12:14] == b"\x86\xdd" and frame[54:55] == b"\x88" and frame[62:78] == self.site.router:
                return frame[6:12]
        return None
