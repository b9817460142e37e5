"""Plays the cases to a router, stage by stage, and hands each one to the judge."""

import dataclasses
import os
import random
import struct
import subprocess
import threading
import time

import link
from judging import MAGIC, Judge, content, heard
from presence import ONLY_ONE, Presence
from table import BURST, QUICK, Cast, Site, Variables, Wrong, cases_of, text_of, wire

# Milliseconds between the beginnings of two cases that run side by side, before a stage begins, and after a case ends.
GAP, BEFORE, BEHIND = 30, 300, 100
TRIES = 3
# Milliseconds between two datagrams of a source to a group, where what is forwarded is tried.
PROBE = 250


@dataclasses.dataclass
class Verdict:
    """The verdict of a case: `pass`, `FAIL`, `late` if this machine was late each time, or `not applicable`."""

    case: object
    what: str
    findings: list = dataclasses.field(default_factory=list)
    frames: list = dataclasses.field(default_factory=list)
    began: int = 0
    tries: int = 1
    why: str = ""
    cast: object = None


class Run:
    """One run of a family's cases over an interface."""

    def __init__(self, options, say):
        self.options, self.say = options, say
        self.family = wire.FAMILIES[options.family]
        variables = Variables(options.rv, options.qi, options.qri, options.lmqi)
        self.site = Site(self.family, *addresses(options), link.mac_of(options.interface), variables)
        self.judge = Judge(options.program, self.site, options)
        self.presence = Presence(options, self.site, self.judge)
        self.number, self.verdicts, self.queries = 0, [], []
        self.left, self.fault, self.unasked = 0, None, set()
        # The stamp of the run's begin.
        self.began = time.time_ns()
        # The moment from which on no query for a group is pending; whether another router may have the role; whether it kept that.
        self.calm, self.is_unsure, self.is_gone = 0, False, False

    # Which cases are played.

    def why_not(self, case):
        """Why a case can't be played, if it can't."""
        if case.needs and not getattr(self.options, case.needs):
            return f"without --{case.needs}"
        if any(word in case.name for word in self.options.without):
            return "left out"
        cast = Cast(case, 0, self.site)
        if self.options.quick and cast.end > QUICK:
            return "longer than a quick run has time for"
        return ""

    def cast(self, case):
        """A case with groups that no other one had."""
        self.number += 8 if case.stage == "thousand" else 1
        it = Cast(case, self.number, self.site)
        self.number += 8 if case.stage == "thousand" else 0
        return it

    def all(self):
        """Plays all that applies."""
        cases = cases_of(self.options.family)
        asked = [it for it in cases if is_asked(it, self.options.words)]
        able = [it for it in cases if not self.why_not(it)]
        self.verdicts += [Verdict(it, "not applicable", why=self.why_not(it)) for it in asked if it not in able]
        os.makedirs(f"{self.options.out}/captures", exist_ok=True)
        self.presence.find()
        self.be_calm(time.monotonic())
        fields = [it for it in asked if it.of and it in able]
        played = [it for it in able if not it.of and (fields or it in asked)]
        self.unasked = {it.name for it in played if it not in asked}
        if self.unasked:
            self.say.note(f"{fields[0].name} is judged over the queries of all cases, so all are played")
        self.left = len(played)
        for stage in stages(played, self.options.order):
            self.stage(stage)
        for case in fields:
            self.over_all(case)
        return self.verdicts

    # A stage.

    def stage(self, cases):
        """Plays cases that run side by side, and those again at which this machine was late."""
        tries = 0
        while cases and tries < TRIES:
            tries += 1
            casts = [self.cast(it) for it in cases]
            self.be_ready(casts)
            verdicts = self.play(casts, tries)
            again = [it for it in verdicts if it.what == "late"] if tries < TRIES else []
            cases = [it.case for it in again]
            self.verdicts += [it for it in verdicts if it not in again and it.case.name not in self.unasked]
            for it in again:
                if it.case.name not in self.unasked:
                    self.say.again(it)

    def play(self, casts, tries):
        """Plays cases once, and judges each when it is over."""
        is_alone = bool(casts[0].case.stage)
        name = self.options.interface
        recording, pauses, sender = link.Recording(name), link.Pauses(), link.Sender(name)
        began = time.monotonic_ns() + BEFORE * 10**6
        stamp = time.time_ns() + BEFORE * 10**6
        begins = [0 if is_alone else at * GAP * 10**6 for at in range(len(casts))]
        wanted = [(begin + step.at * 10**6, self.action(cast, step, recording, sender)) for cast, begin in zip(casts, begins) for step in cast.steps]
        wanted = sorted(dict.fromkeys(wanted), key=lambda it: it[0])
        probes = Probes(self.options, self.site, zip(casts, begins)) if any(it.case.probes for it in casts) else None
        self.shortfall = {}
        threads = [self.sending(sender, wanted, began)]
        threads += [self.sending(probes.sender, probes.wanted, began)] if probes else []
        records, verdicts = Records(self.family, recording), []
        behind = (2 * self.options.within + BEHIND) * 10**6
        for cast, begin in sorted(zip(casts, begins), key=lambda it: it[0].end * 10**6 + it[1]):
            self.wait(began + begin + cast.end * 10**6 + behind)
            verdicts.append(self.verdict(cast, casts if is_alone else [cast], records, stamp + begin, tries, pauses, probes))
            self.tell(verdicts[-1])
        for thread in threads:
            thread.join()
        if probes:
            probes.recording.end()
        pauses.is_over = True
        if lost := recording.end():
            self.say.note(f"{lost} frames were lost by this machine")
        self.look_back(casts, records.read(), (began + (wanted[-1][0] if wanted else 0)) / 10**9)
        return verdicts

    def tell(self, verdict):
        """Has a verdict's line printed, if it is the last one of its case."""
        if verdict.what != "late" or verdict.tries == TRIES:
            self.left -= 1
            if verdict.case.name not in self.unasked:
                self.say.case(verdict)

    def action(self, cast, step, recording, sender):
        if step.what == "restart":
            return lambda: subprocess.run(self.options.restart, shell=True, check=False)
        if step.what == "burst":
            return lambda: self.burst(cast, recording, sender)
        return None if step.what else step.frame

    def burst(self, cast, recording, sender):
        recording.ignore_outgoing(True)
        sent = sender.burst(cast.burst(), BURST["rate"], BURST["seconds"])
        recording.ignore_outgoing(False)
        self.shortfall[cast.name] = BURST["rate"] * BURST["seconds"] - sent

    def sending(self, sender, wanted, began):
        """Starts a thread that sends the frames of the cases, or keeps the reason why it failed."""

        def send():
            try:
                sender.play(wanted, began)
            except OSError as why:
                self.fault = why

        thread = threading.Thread(target=send, daemon=True)
        thread.start()
        return thread

    def wait(self, end):
        """Waits until a time, and prints the progress."""
        while (left := end - time.monotonic_ns()) > 0:
            if self.fault:
                raise Wrong(f"{self.options.interface}: {self.fault.strerror}")
            self.say.progress(self.left, left / 10**9)
            time.sleep(min(left / 10**9, 0.5))

    def verdict(self, cast, stage, records, began, tries, pauses, probes):
        """Judges a case that is over."""
        known = records.read()
        findings, frames = self.judge.judged(cast, stage, known, began)
        if cast.case.probes:
            findings, frames = self.judge.forwarded(cast, frames, began, probes.sent(cast), probes.seen(cast, known))
        it = Verdict(cast.case, "FAIL" if findings else "pass", findings, frames, began, tries, cast=cast)
        if why := self.was_late(cast, known, began, pauses):
            it.what, it.why = "late", why
        return it

    def was_late(self, cast, known, began, pauses):
        """Returns whether this machine was late during a case: by timestamps of packets, by pauses, or by a short burst."""
        # The interval of general queries has a greater tolerance.
        most, latest = max(self.options.late, cast.names["QI"] // 100 if cast.case.own == "general" else 0), 0
        stamps = {}
        for it in known:
            if it.is_sent and it.stamp >= began - 10**9:
                stamps.setdefault(it.frame, []).append(it.stamp)
        for step in cast.steps:
            if not step.what and step.at < cast.end:
                wanted = began + step.at * 10**6
                latest = max(latest, min((abs(it - wanted) for it in stamps.get(step.frame, [])), default=10**10) / 10**6)
        if latest > most:
            return f"a packet went {latest:.0f} ms late"
        pause = max((pauses.longest(began + begin * 10**6, began + end * 10**6) for begin, end in self.sharp(cast)), default=0)
        if pause > most:
            return f"this machine paused for {pause:.0f} ms"
        if (short := self.shortfall.get(cast.name, 0)) > 0.02 * BURST["rate"] * BURST["seconds"]:
            return f"{short} Reports of the burst didn't go"
        return ""

    def sharp(self, cast):
        """Returns the times at which a pause of this machine counts: around sent packets and expected queries."""
        within, span = self.options.within, cast.names["LMQI"]
        moments = [step.at for step in cast.steps] + ([] if cast.case.own else [it[0] for it in cast.wanted()])
        return [(at - within, at + span + within) for at in moments if at < cast.end] or [(0, cast.end)]

    # Between two stages.

    def look_back(self, casts, known, last):
        """Keeps from a stage's frames what later cases need. The last frame was sent at a moment."""
        queries = [it for it in known if it.is_query() and not it.is_sent]
        self.queries += [it for it in queries if self.judge.is_from_router(it)]
        others = {text_of(it.packet.source) for it in queries if not self.judge.is_from_router(it)}
        if others:
            raise Wrong(f"{', '.join(sorted(others))} asks on {self.options.interface} too: {ONLY_ONE}")
        self.be_calm(last)
        wide = {step.frame for cast in casts for step in cast.wide() if step.frame}
        stamps = [it.stamp + self.options.within * 10**6 for it in known if it.is_sent and it.frame in wide] or [0]
        does_ask = any(it.stamp > min(stamps) for it in self.queries)
        self.is_unsure, self.is_gone = bool(wide) and not does_ask, self.is_gone and not does_ask
        self.presence.see(it for it in queries if it.stamp > max(stamps))

    def be_calm(self, last):
        """Notes from when on no query is pending, if a group may have been left at a moment."""
        its = self.site.variables
        self.calm = last + its.rv * its.lmqi / 1000

    def be_ready(self, casts):
        """Waits until the router asks, with its own variables. Before queries of other routers waits until none of the router's is
        pending, since some routers don't hear them otherwise."""
        if not self.is_gone and not any(step.what == "restart" for it in casts for step in it.steps):
            if self.is_unsure:
                self.is_gone = not self.presence.asks_again(self.say.note)
                self.be_calm(time.monotonic())
            if not self.is_gone and self.presence.has_changed():
                self.wait_for_calm()
                self.presence.bring_back(self.say.note)
                self.be_calm(time.monotonic())
        firsts = [step.at / 1000 for it in casts for step in it.wide()]
        if firsts:
            self.wait_for_calm(min(firsts))

    def wait_for_calm(self, earlier=0):
        """Waits until so many seconds before no query is pending."""
        time.sleep(max(0, self.calm - earlier - time.monotonic()))

    def over_all(self, case):
        found = self.judge.over_all(case, self.queries)
        if found is None:
            it = Verdict(case, "not applicable", why="no query of the kind was heard")
        else:
            it = Verdict(case, "FAIL" if found else "pass", found, self.queries)
        self.verdicts.append(it)
        self.say.case(it)


class Probes:
    """Datagrams of sources to the groups of cases, sent where the router hears sources. Each carries its case and its number."""

    def __init__(self, options, site, casts):
        self.recording, self.sender = link.Recording(options.upstream), link.Sender(options.upstream)
        self.mac, self.whose, self.wanted = link.mac_of(options.upstream), {}, []
        for cast, begin in casts:
            for word, *sources in cast.case.probes:
                for at in range(0, cast.until, PROBE):
                    for source in cast.sources(sources):
                        self.add(cast, begin + (at + 7 * len(self.wanted) % PROBE) * 10**6, cast.group(word), source)
        self.wanted.sort(key=lambda it: it[0])

    def add(self, cast, at, group, source):
        payload = MAGIC + struct.pack(">I", len(self.whose))
        self.whose[payload] = cast.number, group, source
        self.wanted.append((at, datagram(self.mac, source, group, payload)))

    def sent(self, cast):
        """Returns the sent datagrams of a case by their contents: the timestamp, the group and the source of each."""
        found = {}
        for stamp, frame, is_sent in self.recording.found:
            of = self.whose.get(content(frame)) if is_sent else None
            if of and of[0] == cast.number:
                found[content(frame)] = stamp, of[1], of[2]
        return found

    def seen(self, cast, known):
        """Returns the datagrams that were forwarded to the link, by their contents."""
        found = [it for it in known if not it.is_sent and it.packet is None]
        return {payload: it for it in found if self.whose.get(payload := content(it.frame), (None,))[0] == cast.number}


def datagram(mac, source, group, payload):
    """A frame with a datagram of UDP, from port 9 to port 9."""
    udp = struct.pack(">HHHH", 9, 9, 8 + len(payload), 0) + payload
    if len(group) == 4:
        packet = wire.in_ipv4(udp, source, group, protocol=17)
        packet = packet[:1] + b"\0" + packet[2:8] + b"\x10" + packet[9:10] + b"\0\0" + packet[12:]
        packet = packet[:10] + struct.pack(">H", (0xFFFF - wire.summed(packet[:20]) % 0xFFFF) % 0xFFFF) + packet[12:]
    else:
        whole = source + group + struct.pack(">II", len(udp), 17) + udp
        check = (0xFFFF - wire.summed(whole) % 0xFFFF) % 0xFFFF or 0xFFFF
        packet = struct.pack(">IHBB", 6 << 28, len(udp), 17, 16) + source + group + udp[:6] + struct.pack(">H", check) + udp[8:]
    frame = wire.in_ethernet(packet, group)
    return frame[:6] + mac + frame[12:]


class Records:
    """The frames of a recording, each read once."""

    def __init__(self, family, recording):
        self.family, self.recording, self.found = family, recording, []

    def read(self):
        known = self.recording.found
        for at in range(len(self.found), len(known)):
            self.found.append(heard(self.family, known[at]))
        return self.found


def is_asked(case, words):
    """Returns whether words ask for a case: a word is a part of its name, or `=` and its name."""
    return not words or any(word == f"={case.name}" or word in case.name for word in words)


def stages(cases, order):
    """The cases of each stage, in the order of the table, in the reversed order, or in an order drawn by a number."""
    found = {}
    for case in cases:
        found.setdefault(case.stage, []).append(case)
    found = list(found.values())
    if order == "reversed":
        return [its[::-1] for its in reversed(found)]
    if order != "table":
        draw = random.Random(int(order))
        for its in (*found, found):
            draw.shuffle(its)
    return found


def addresses(options):
    """The addresses of the router, the played host, a lower and a higher router, and the first source."""
    is_igmp = options.family == "igmp"
    router = wire.address(options.router)
    number = int.from_bytes(router, "big")
    if is_igmp:
        last = 77 if router[3] not in (76, 77, 78) else 177
        host = router[:3] + bytes([last])
    else:
        host = bytes.fromhex("fe80000000000000000000000c0f0001")
    near = [(number + step).to_bytes(len(router), "big") for step in (-1, 1)]
    chosen = [wire.address(it) if it else None for it in (options.host, options.lower, options.higher)]
    first = wire.address(options.sources or ("10.9.9.1" if is_igmp else "2001:db8::1"))
    return [router, chosen[0] or host, chosen[1] or near[0], chosen[2] or near[1], first]
