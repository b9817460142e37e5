"""Datagrams in VLANs, judged by the proved replay of what the hosts at each port and VLAN sent."""

import bisect
import ctypes
import struct
import threading

from fabric import REPORTS
from frames import data_frame
from lab import is_true
from replayed import filters
from trunks import PACKET_OUTGOING, VLAN_VALID, listen

ATTACH_FILTER, STATISTICS, TIMESTAMPNS = 26, 6, 35  # <asm-generic/socket.h>, <linux/if_packet.h>
OWN = {"igmp": "10.0.101.1", "mld": "fe80::1"}
NEVER = 1 << 63
# Nanoseconds for which the kernel may drop a source at ports with EXCLUDE entries, after the entry of another port changed.
UNSTEADY = 10**7
# For packet sockets: all frames that are sent, and those with UDP that arrive.
CHOSEN = [(0x20, 0, 0, 0xFFFFF004), (0x15, 4, 0, PACKET_OUTGOING), (0x30, 0, 0, 23), (0x15, 2, 0, 17), (0x30, 0, 0, 20), (0x15, 0, 1, 17), (6, 0, 0, 0xFFFF), (6, 0, 0, 0)]


def choose(ears):
    """Leaves queries to the kernel, since a slow machine reads too many otherwise."""
    code = ctypes.create_string_buffer(b"".join(struct.pack("=HBBI", *it) for it in CHOSEN))
    ears.setsockopt(1, ATTACH_FILTER, struct.pack("@HP", len(CHOSEN), ctypes.addressof(code)))


class Recorder:
    """The frames that far ends sent, and the datagrams that arrived there, with the kernel's timestamps."""

    def __init__(self, trunks):
        self.heard, self.ears = [], listen(trunks.far)
        choose(self.ears)
        self.ears.setsockopt(1, TIMESTAMPNS, 1)
        threading.Thread(target=self.listen, daemon=True).start()

    def listen(self):
        while True:
            self.heard.append(self.ears.recvmsg(2048, 256))

    def frames(self):
        """Returns each frame as (time, whether it was sent, far end, VLAN of its tag or None, frame). No frame was lost."""
        _, lost = struct.unpack("=II", self.ears.getsockopt(263, STATISTICS, 8))
        is_true(lost == 0, f"the test lost {lost} frames")
        found = []
        for frame, beside, _, at in list(self.heard):
            of = {(level, kind): data for level, kind, data in beside}
            seconds, nanoseconds = struct.unpack("=qq", of[1, TIMESTAMPNS][:16])
            status, tag = struct.unpack("=I12xHH", of[263, 8][:20])[:2]
            vlan = tag & 0xFFF if status & VLAN_VALID else None
            if frame[12:14] == b"\x81\x00":
                vlan, frame = struct.unpack(">H", frame[14:16])[0] & 0xFFF, frame[:12] + frame[16:]
            if "." not in at[0]:
                found.append((seconds * 10**9 + nanoseconds, at[2] == PACKET_OUTGOING, at[0], vlan, frame))
        return found


class Membership:
    """A port in a VLAN, from a time to another. Datagrams are judged between `strict` and `last`; from `served` on none is lost."""

    def __init__(self, end, vlan, is_tagged, first=0, strict=0, served=0):
        self.end, self.vlan, self.is_tagged, self.first, self.strict, self.served = end, vlan, is_tagged, first, strict, served
        self.last, self.until, self.frames, self.filters = NEVER, NEVER, {"igmp": [], "mld": []}, {}

    def has(self, vlan, moment):
        """Returns whether a frame of a host belongs here. While the port changes, it may belong to two."""
        return self.first <= moment <= self.until and (vlan == self.vlan if self.is_tagged else vlan is None)

    def wants(self, group, source, first, last):
        """Returns whether the hosts want a datagram all the time from `first` to `last`, and whether at any time."""
        known = self.filters["mld" if ":" in group else "igmp"].get(group, [])
        at = bisect.bisect_right(known, first, key=lambda it: it[0])
        states = [known[at - 1][1] if at else None] + [it for moment, it in known[at:] if moment <= last]
        found = [it is not None and (source in it[1]) == (it[0] == "include") for it in states]
        return all(found), any(found)

    def replay(self, until):
        for family, frames in self.frames.items():
            self.filters[family] = filters(frames, family, until, OWN[family])


class Judge:
    """Judges the datagrams of a run. `near` is the tolerance in nanoseconds. A list of `gaps` has the times without a ready querier.
    `excused` counts what the kernel lost while it changed an entry."""

    def __init__(self, recorder, memberships, sent, near):
        self.recorder, self.memberships, self.sent, self.near, self.gaps = recorder, memberships, sent, near, []
        self.began, self.arrived, self.changes, self.excused = {}, {}, {}, 0

    def read(self, until):
        """Distributes what was recorded to ports in VLANs, and replays it."""
        by_end = {}
        for it in self.memberships:
            by_end.setdefault(it.end, []).append(it)
        numbers = {data_frame(*case[1:], struct.pack(">I", number)): number for number, case in enumerate(self.sent)}
        for moment, is_sent, end, vlan, frame in self.recorder.frames():
            if (number := numbers.get(frame)) is not None:
                if is_sent:
                    self.began[number] = moment
                else:
                    self.arrived.setdefault(number, set()).add((end, vlan))
            elif is_sent and REPORTS.match(frame):
                family = "igmp" if frame[12:14] == b"\x08\x00" else "mld"
                for it in by_end.get(end, []):
                    if it.has(vlan, moment):
                        it.frames[family].append((moment, frame))
        for it in self.memberships:
            it.replay(min(until, it.until))

    def verdicts(self):
        """Returns for each datagram its time, its VLAN, source and group, the number of places where it was wanted all the time, and what
        is wrong."""
        for number, moment in self.began.items():
            case, arrived, wanted, wrong = self.sent[number], set(self.arrived.get(number, ())), 0, []
            for it in self.memberships:
                if it.vlan != case[0] or not it.first <= moment <= it.until:
                    continue
                place = it.end, it.vlan if it.is_tagged else None
                has_arrived = place in arrived
                arrived.discard(place)
                always, word = self.judged(it, case, moment, has_arrived)
                wanted += always
                wrong += [f"{word} at {place[0]} vlan {it.vlan}"] if word else []
            wrong += [f"outside of its VLAN at {place}" for place in arrived]
            yield moment, case, wanted, wrong

    def judged(self, it, case, moment, has_arrived):
        """Returns whether a datagram had to arrive at a place, and what is wrong there. Without a querier what was wanted before stays."""
        first, last = moment - self.near, moment + self.near
        for killed, gathered in self.gaps:
            if killed - self.near <= moment <= gathered + self.near:
                first = killed - self.near
        always, ever = it.wants(case[2], case[1], first, last)
        if not it.strict <= moment <= it.last:
            return False, None
        if always and moment >= it.served and not has_arrived:
            is_excused = self.is_unsteady(it, case, moment)
            self.excused += is_excused
            return True, None if is_excused else "lost"
        return always, "unwanted" if has_arrived and not ever else None

    def is_unsteady(self, it, case, moment):
        """Returns whether the kernel may drop a datagram at a place in EXCLUDE mode, since the entry of another port just changed."""
        known = it.filters["mld" if ":" in case[2] else "igmp"][case[2]]
        mode = known[bisect.bisect_right(known, moment, key=lambda one: one[0]) - 1][1][0]
        others = [changes for (end, vlan, group), changes in self.changes.items() if end != it.end and (vlan, group) == (case[0], case[2])]
        return mode == "exclude" and any(0 <= moment - when <= UNSTEADY for changes in others for when, _ in changes)
