"""Switches with VLANs: a bridge with access ports and trunks, and hosts in VLANs."""

import ipaddress
import itertools
import json
import os
import socket
import struct
import subprocess
import tempfile
import time

from fabric import FAMILIES, Host, Querier, inside, run
from frames import data_frame
from lab import Wrong, ip, is_true

AUXDATA, RCVBUFFORCE, PACKET_OUTGOING = 8, 33, 4
VLAN_VALID = 1 << 4
ETH_P_8021Q, ETH_P_8021AD = 0x8100, 0x88A8
SECONDS = 1.2  # in which a frame arrives, on the slow machine
PAUSE = 0.5  # seconds between two looks at a state. Idle time of the machine takes no time here, and a look does.


def tagged(frame, vlan, protocol=ETH_P_8021Q):
    """Returns a frame with a tag, or as it is without a VLAN."""
    return frame if vlan is None else frame[:12] + struct.pack(">HH", protocol, vlan) + frame[12:]


def listen(space):
    """Returns a socket that hears all frames in a namespace."""
    with inside(space):
        ears = socket.socket(socket.AF_PACKET, socket.SOCK_RAW, socket.htons(3))
    ears.setsockopt(socket.SOL_SOCKET, RCVBUFFORCE, 1 << 24)
    ears.setsockopt(263, AUXDATA, 1)  # SOL_PACKET
    return ears


def next_frame(ears, limit):
    """Returns the next frame that arrived, as (interface, VLAN or None, frame), or None at a time."""
    while (left := limit - time.monotonic()) > 0:
        ears.settimeout(left)
        try:
            frame, beside, _, at = ears.recvmsg(4096, 256)
        except TimeoutError:
            return None
        if at[2] == PACKET_OUTGOING or "." in at[0]:  # a frame in a VLAN arrives at the VLAN's interface too
            continue
        status, _, _, _, _, tag, _ = struct.unpack("=IIIHHHH", beside[0][2][:20])
        return at[0], tag & 0xFFF if status & VLAN_VALID else None, frame
    return None


def own_of_query(frame):
    """Returns the family and the source of a query, or None."""
    if frame[12:15] == b"\x08\x00\x46" and frame[23] == 2 and frame[38] == 0x11:
        return "igmp", str(ipaddress.ip_address(frame[26:30]))
    if frame[12:15] == b"\x86\xdd\x60" and frame[20] == 0 and frame[54] == 58 and frame[62] == 130:
        return "mld", str(ipaddress.ip_address(frame[22:38]))
    return None


class Patient(Querier):
    """A querier on a slow machine."""

    PAUSE = PAUSE

    def gathered(self):
        """Waits until all links that began know what hosts want: as long as the status says, and then until it is so."""
        limit = time.monotonic() + 60
        while left := [port[of]["gathers"] for port in self.status()["ports"] for of in FAMILIES if "gathers" in port[of]]:
            is_true(time.monotonic() < limit, f"still gathering: {max(left)} ms are left; {self.errors[-5:]}")
            time.sleep(max(left) / 1000 + PAUSE / 10)

    def resident(self):
        """Returns the bytes of its memory that are in use."""
        with open(f"/proc/{self.process.pid}/statm", encoding="ascii") as it:
            return int(it.read().split()[1]) * os.sysconf("SC_PAGE_SIZE")


class Trunks:
    """A bridge br0 with ports p1 .. and their far ends h1 .. . `members` has for each port its VLANs: a number with a tag, `-number`
    without one, which is the port's own VLAN."""

    numbers = itertools.count()

    def __init__(self, members, options=(), bridge=()):
        name = f"mqv{os.getpid()}-{next(Trunks.numbers)}"
        self.near, self.far = f"{name}-near", f"{name}-far"
        self.folder = tempfile.TemporaryDirectory()  # pylint: disable=consider-using-with
        self.run, self.bridges, self.protocol = self.folder.name, ["br0"], ETH_P_8021Q
        os.chmod(self.run, 0o755)
        self.options, self.queriers, self.streams = ["--setup", *options], [], []
        self.members, self.hosts = {}, {}
        for space in (self.near, self.far):
            ip("netns", "add", space)
            run(space, "sh", "-c", "for it in all default; do echo 0 > /proc/sys/net/ipv6/conf/$it/accept_dad; done; echo 1000 > /proc/sys/net/ipv4/igmp_max_memberships")
        self.makes(members, bridge)
        with inside(self.far):
            self.wire = socket.socket(socket.AF_PACKET, socket.SOCK_RAW, 0)
        self.ears = listen(self.far)

    def __enter__(self):
        return self

    def __exit__(self, *_):
        for stream in self.streams:
            stream.is_over = True
            stream.thread.join()
        for querier in self.queriers:
            querier.process.kill()
            querier.process.wait()
        for space in (self.near, self.far):
            subprocess.run(["ip", "netns", "del", space], check=False)
        self.folder.cleanup()

    def makes(self, members, bridge):
        """Makes the bridge, its ports with their VLANs, and the interfaces of VLANs. Few commands do it, because each takes its time."""
        lines = [f"link add br0 type bridge vlan_filtering 1 vlan_default_pvid 0 {' '.join(bridge)}", "link set br0 up"]
        for port in range(1, len(members) + 1):
            lines += [f"link add p{port} type veth peer name h{port} netns {self.far}", f"link set p{port} master br0 up"]
        run(self.near, "ip", "-batch", "-", text="\n".join(lines) + "\n")
        run(self.far, "ip", "-batch", "-", text="".join(f"link set h{port} up\n" for port in range(1, len(members) + 1)))
        self.members = {f"p{port}": {} for port in range(1, len(members) + 1)}
        self.bridge(*(line for port, vlans in enumerate(members, 1) for line in self.joining(f"p{port}", vlans)))
        self.has_interfaces(*sorted({abs(it) for vlans in members for it in vlans}))

    def bridge(self, *lines):
        """Runs lines of the command `bridge`."""
        run(self.near, "bridge", "-batch", "-", text="\n".join(lines) + "\n")

    def joining(self, port, vlans):
        """Notes that a port joins VLANs. Returns the lines for that."""
        self.members[port] |= {abs(vlan): vlan > 0 for vlan in vlans}
        return [f"vlan add dev {port} vid {abs(vlan)}{' pvid untagged' if vlan < 0 else ''}" for vlan in vlans]

    def joins(self, port, vlans):
        self.bridge(*self.joining(port, vlans))

    def leaves(self, port, vlan):
        del self.members[port][vlan]
        self.bridge(f"vlan del dev {port} vid {vlan}")

    def has_interfaces(self, *vlans):
        """Makes the interfaces of VLANs, with addresses."""
        self.bridge(*(f"vlan add dev br0 vid {vlan} self" for vlan in vlans))
        lines = []
        for vlan in vlans:
            name = f"br0.{vlan}"
            lines += [f"link add link br0 name {name} type vlan id {vlan}", f"address add {self.own('igmp', vlan)}/24 dev {name}", f"link set {name} up"]
        run(self.near, "ip", "-batch", "-", text="\n".join(lines) + "\n")

    @staticmethod
    def own(family, vlan):
        is_true(family == "igmp", "only of IGMP")
        return f"10.{vlan // 256}.{vlan % 256}.1"

    def ready(self):
        limit = time.monotonic() + 30
        while "tentative" in (shown := ip("-n", self.near, "-6", "address", "show", "scope", "link")) or " br0:" not in shown:
            is_true(time.monotonic() < limit, f"no link-local address: {shown}")
            time.sleep(0.2)

    def querier(self, *options, **how):
        self.ready()
        self.queriers.append(Patient(self, *self.options, *options, **how))
        return self.queriers[-1]

    def host(self, end, vlan=None):
        """Returns a host at a far end, in a VLAN or without a tag."""
        name = end if vlan is None else f"{end}.{vlan}"
        if name not in self.hosts:
            lines = [] if vlan is None else [f"link add link {end} name {name} type vlan id {vlan}", f"link set {name} up"]
            lines += [f"address add 10.200.{len(self.hosts) + 1}.9/24 dev {name}"]
            run(self.far, "ip", "-batch", "-", text="\n".join(lines) + "\n")
            self.hosts[name] = Host(self, name)
        return self.hosts[name]

    def puts(self, end, vlan, frame):
        """Sends a frame from a far end in a VLAN, with the tag that the port expects."""
        is_tagged = self.members[f"p{end[1:]}"].get(vlan, True)
        self.wire.sendto(tagged(frame, vlan if is_tagged else None, self.protocol), (end, 0))

    def places(self, vlan):
        """Returns the far ends in a VLAN, each with the tag that arrives there."""
        return {(f"h{port[1:]}", vlan if vlans[vlan] else None) for port, vlans in self.members.items() if vlan in vlans}

    def received(self, sender, cases, quiet=0.05):
        """Sends a datagram of each (VLAN, source, group) from a far end. Returns for each the places (far end, tag) that received it until
        nothing came for `quiet` seconds. A second one at a place is named `twice`."""
        self.forget()
        found = {case: set() for case in cases}
        for case in cases:  # one after the other, because a datagram is the same in two VLANs
            frame = data_frame(*case[1:])
            self.puts(sender, case[0], frame)
            limit = time.monotonic() + SECONDS
            while heard := next_frame(self.ears, min(limit, time.monotonic() + quiet)):
                if heard[2] == frame:
                    found[case].add(heard[:2] if heard[:2] not in found[case] else (*heard[:2], "twice"))
        return found

    def forget(self):
        """Drops all frames that arrived."""
        self.ears.setblocking(False)
        while True:
            try:
                self.ears.recv(64)
            except BlockingIOError:
                return

    def heard(self, seconds):
        """Returns the frames that arrive within some seconds."""
        limit, found = time.monotonic() + seconds + 0.001, []
        while heard := next_frame(self.ears, limit):
            found.append(heard)
        return found

    def gets(self, sender, wanted, seconds=10):
        """Waits until each datagram arrives at exactly the wanted places: {(VLAN, source, group): places}."""
        limit = time.monotonic() + seconds
        while (found := self.received(sender, wanted)) != wanted:
            if time.monotonic() > limit:
                wrong = {case: (found[case] - wanted[case], wanted[case] - found[case]) for case in wanted if found[case] != wanted[case]}
                raise Wrong(f"too much and missing: {str(wrong)[:800]}; {[it.errors[-5:] for it in self.queriers]}")
            time.sleep(PAUSE)

    def entries(self):
        """Returns the querier's permanent entries: (port, VLAN, group) with a mode and sources."""
        shown = json.loads(run(self.near, "bridge", "-d", "-j", "mdb", "show"))[0]["mdb"]
        found = {}
        for it in shown:
            if it.get("protocol") in ("211", "212") and "src" not in it and it["state"] == "permanent":
                sources = frozenset(one["address"] for one in it.get("source_list", []))
                found[it["port"], it.get("vid", 0), it["grp"]] = (it["filter_mode"], sources)
        return found

    def comes(self, port, vlan, group, wanted, seconds=8):
        """Waits until an entry is as wanted: a mode and sources, or None."""
        wanted = wanted and (wanted[0], frozenset(wanted[1:]))
        limit = time.monotonic() + seconds
        while (found := self.entries().get((port, vlan, group))) != wanted:
            is_true(time.monotonic() < limit, f"{port} {vlan} {group}: {found}, not {wanted}; {[it.errors[-5:] for it in self.queriers]}")
            time.sleep(PAUSE)

    def shown(self, *words):
        """Returns the settings of the bridge."""
        found = json.loads(run(self.near, "ip", "-d", "-j", "link", "show", "br0"))[0]["linkinfo"]["info_data"]
        return {word: found.get(word) for word in words}
