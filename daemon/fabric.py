"""Switches of the live test: bridges with many ports in one namespace, the far ends of the ports in another, and the querier.

The test's own process has sockets in both namespaces. A host is a far end that uses the calls of the Linux kernel: it joins groups,
and the kernel reports them and answers queries. Packet sockets see the frames that a far end sends or receives."""

import contextlib
import ctypes
import ipaddress
import itertools
import json
import os
import re
import signal
import socket
import struct
import subprocess
import tempfile
import threading
import time

from frames import data_frame
from lab import PROGRAM, Wrong, ip, is_true

LIBC = ctypes.CDLL(None, use_errno=True)
QUERY_INTERVAL = 4
SHORT = ["--qi", str(QUERY_INTERVAL), "--qri", "1000", "--lmqi", "500"]
MEMBERSHIP = 9
OWN = {"igmp": "10.0.0.1", "mld": "fe80::1"}
FAMILIES = ("igmp", "mld")
PROTOCOL = {"igmp": "211", "mld": "212"}
OF_SOURCES = {"block": 43, "unblock": 44, "allow": 46, "disallow": 47}  # MCAST_BLOCK_SOURCE and so on, <linux/in.h>
PACKET_OUTGOING = 4
REPORTS = re.compile(rb"(.{12}\x08\x00.{9}\x02|.{12}\x86\xdd.{6}\x00.{33}\x3a)", re.S)


@contextlib.contextmanager
def inside(space):
    """Runs the block in a namespace. Sockets that it makes stay there."""
    with open("/proc/thread-self/ns/net", "rb") as here, open(f"/run/netns/{space}", "rb") as there:
        if LIBC.setns(there.fileno(), 0x40000000):
            raise Wrong(f"setns: {os.strerror(ctypes.get_errno())}")
        try:
            yield
        finally:
            LIBC.setns(here.fileno(), 0x40000000)


def run(space, *words, text=None):
    """Runs a command in a namespace, and returns its output."""
    with inside(space):
        ran = subprocess.run(words, input=text, capture_output=True, text=True, check=False)
    if ran.returncode:
        raise Wrong(f"{' '.join(words)}: {ran.stderr.strip()[:300]}")
    return ran.stdout


def waiting(ears):
    """Returns the frames that arrived at a socket that does not wait."""
    frames = []
    while True:
        try:
            frame, at = ears.recvfrom(2048)
        except BlockingIOError:
            return frames
        if at[2] != PACKET_OUTGOING:
            frames.append(frame)


def place_of(address):
    """Returns an address as `sockaddr_storage`."""
    if address.version == 4:
        return struct.pack("=HH4s120x", socket.AF_INET, 0, address.packed)
    return struct.pack("=HHI16sI100x", socket.AF_INET6, 0, 0, address.packed, 0)


class Host:
    """A far end, as a host of the kernel."""

    def __init__(self, fabric, name):
        self.fabric, self.name, self.sockets = fabric, name, {}
        with inside(fabric.far):
            self.index = socket.if_nametoindex(name)

    def put(self, frame):
        self.fabric.wire.sendto(frame, (self.name, 0))

    def do(self, word, group, source=None):
        """Joins or leaves a group, or changes one of its sources."""
        group = ipaddress.ip_address(group)
        is_v4 = group.version == 4
        if group not in self.sockets:
            with inside(self.fabric.far):
                self.sockets[group] = socket.socket(socket.AF_INET if is_v4 else socket.AF_INET6, socket.SOCK_DGRAM)
        level = socket.IPPROTO_IP if is_v4 else socket.IPPROTO_IPV6
        if word in OF_SOURCES:
            value = struct.pack("=I4x128s128s", self.index, place_of(group), place_of(ipaddress.ip_address(source)))
            self.sockets[group].setsockopt(level, OF_SOURCES[word], value)
        else:
            value = struct.pack("=I4x128s", self.index, place_of(group))
            self.sockets[group].setsockopt(level, 42 if word == "join" else 45, value)  # MCAST_JOIN_GROUP, MCAST_LEAVE_GROUP
            if word == "leave":
                self.sockets.pop(group).close()


class Querier:
    """A running `mquerier-live bridge`. PAUSE is the time between two looks at its status, in seconds."""

    PAUSE = 0.1

    def __init__(self, fabric, *options, before=(), env=None):
        words = [*before, PROGRAM, "bridge", *fabric.bridges, *SHORT, "--run", fabric.run, *options]
        self.fabric, self.errors = fabric, []
        # pylint: disable-next=consider-using-with
        self.process = subprocess.Popen(["ip", "netns", "exec", fabric.near, *words], env={**os.environ, **(env or {})}, stderr=subprocess.PIPE, text=True)
        self.reading = threading.Thread(target=self.listen, daemon=True)
        self.reading.start()

    def listen(self):
        for line in self.process.stderr:
            self.errors.append(line.rstrip("\n"))

    def status(self, bridge="br0"):
        words = [PROGRAM, "status", bridge, "--json", "--run", self.fabric.run]
        for _ in range(100):
            with inside(self.fabric.near):
                ran = subprocess.run(words, capture_output=True, text=True, check=False)
            if ran.returncode == 0:
                return json.loads(ran.stdout)
            if self.process.poll() is not None:
                raise Wrong(f"it ended: {self.errors[-5:]}")
            time.sleep(0.05)
        raise Wrong(f"no status: {ran.stderr}")

    def until(self, test, what, seconds=8, bridge="br0"):
        limit = time.monotonic() + seconds
        while not test(found := self.status(bridge)):
            if time.monotonic() > limit:
                raise Wrong(f"not {what}: {str(found)[:600]} {self.errors[-5:]}")
            time.sleep(self.PAUSE)
        return found

    def gathered(self):
        """Waits until all links that began know what hosts want."""
        for bridge in self.fabric.bridges:
            self.until(lambda it: all("gathers" not in port[of] for port in it["ports"] for of in FAMILIES if port[of]["on"]), "gathered", 12, bridge)

    def end(self, number=signal.SIGTERM):
        self.process.send_signal(number)
        status = self.process.wait(20)
        self.reading.join(5)
        return status


class Fabric:
    """Bridges br0, br1 .., each with a number of ports: b0p1 .. with the far ends b0h1 .. ."""

    numbers = itertools.count()

    def __init__(self, ports=24, bridges=2, setup=True):
        name = f"mqs{os.getpid()}-{next(Fabric.numbers)}"
        self.near, self.far = f"{name}-near", f"{name}-far"
        self.folder = tempfile.TemporaryDirectory()  # pylint: disable=consider-using-with
        self.run = self.folder.name
        os.chmod(self.run, 0o755)
        self.bridges = [f"br{number}" for number in range(bridges)]
        self.ends = {f"b{number}h{port}": f"b{number}p{port}" for number in range(bridges) for port in range(1, ports + 1)}
        self.options, self.queriers, self.streams = (["--setup"] if setup else []), [], []
        for space in (self.near, self.far):
            ip("netns", "add", space)
        run(self.far, "sh", "-c", "echo 0 > /proc/sys/net/ipv6/conf/default/accept_dad; echo 1000 > /proc/sys/net/ipv4/igmp_max_memberships")
        run(self.near, "sh", "-c", "echo 0 > /proc/sys/net/ipv6/conf/default/accept_dad; echo 0 > /proc/sys/net/ipv6/conf/all/accept_dad")
        for number in range(bridges):
            self.make_bridge(number)
        lines = []
        for end, port in self.ends.items():
            lines += self.port_lines(end, port)
        run(self.near, "ip", "-batch", "-", text="\n".join(lines) + "\n")
        lines = [f"address add 10.{it[1]}.{it[3:]}.9/24 dev {it}\nlink set {it} up" for it in self.ends]
        run(self.far, "ip", "-batch", "-", text="\n".join(lines) + "\n")
        with inside(self.far):
            self.wire = socket.socket(socket.AF_PACKET, socket.SOCK_RAW, 0)
        self.hosts = {name: Host(self, name) for name in self.ends}

    def make_bridge(self, number):
        ip("-n", self.near, "link", "add", f"br{number}", "type", "bridge")
        ip("-n", self.near, "address", "add", f"10.0.{number}.1/24", "dev", f"br{number}")
        ip("-n", self.near, "link", "set", f"br{number}", "up")

    def port_lines(self, end, port):
        return [f"link add {port} type veth peer name {end} netns {self.far}", f"link set {port} master br{port[1]} up"]

    def __enter__(self):
        return self

    def __exit__(self, *_):
        for stream in self.streams:
            stream.is_over = True
            stream.thread.join()
        for querier in self.queriers:
            querier.process.kill()
            querier.process.wait()
        for space in (self.near, self.far):
            subprocess.run(["ip", "netns", "del", space], check=False)
        self.folder.cleanup()

    def ready(self):
        """Waits until each bridge has a link-local address, and every port forwards."""
        limit = time.monotonic() + 20
        while "tentative" in (shown := ip("-n", self.near, "-6", "address", "show", "scope", "link")) or any(f" {it}:" not in shown for it in self.bridges):
            is_true(time.monotonic() < limit, f"no link-local address: {shown}")
            time.sleep(0.1)

    def querier(self, *options, **how):
        self.ready()
        self.queriers.append(Querier(self, *self.options, *options, **how))
        return self.queriers[-1]

    def shown(self):
        """Returns all entries of the databases, as `bridge` prints them."""
        ran = subprocess.run(["bridge", "-n", self.near, "-d", "-j", "mdb", "show"], capture_output=True, text=True, check=True)
        return json.loads(ran.stdout)[0]["mdb"]

    def entries(self):
        """Returns the querier's permanent entries: for each port and family, its groups with a mode and sources."""
        found = {}
        for it in self.shown():
            family = next((of for of in FAMILIES if it.get("protocol") == PROTOCOL[of]), None)
            if family and "src" not in it and it["state"] == "permanent":
                sources = frozenset(one["address"] for one in it.get("source_list", []))
                found.setdefault((it["port"], family), {})[it["grp"]] = (it["filter_mode"], sources)
        return found

    def entry(self, port, group):
        family = "mld" if ":" in group else "igmp"
        return self.entries().get((port, family), {}).get(group)

    def comes(self, port, group, wanted, seconds=6):
        """Waits until an entry is as wanted: a mode and sources, or None."""
        wanted = wanted and (wanted[0], frozenset(wanted[1:]))
        limit = time.monotonic() + seconds
        while (found := self.entry(port, group)) != wanted:
            is_true(time.monotonic() < limit, f"{port} {group}: {found}, not {wanted}; {[it.errors[-5:] for it in self.queriers]}")
            time.sleep(0.05)

    def received(self, sender, cases, others=()):
        """Sends a datagram of each (source, group) into a bridge. Returns the far ends that received it."""
        with inside(self.far), socket.socket(socket.AF_PACKET, socket.SOCK_RAW, socket.htons(3)) as ears:
            ears.setsockopt(socket.SOL_SOCKET, socket.SO_RCVBUF, 1 << 22)
            ears.settimeout(0.5)
            frames = {data_frame(*case): case for case in cases}
            for frame in frames:
                self.hosts[sender].put(frame)
            found = {case: set() for case in cases}
            limit = time.monotonic() + 0.4
            while time.monotonic() < limit:
                try:
                    frame, at = ears.recvfrom(2048)
                except TimeoutError:
                    break
                if frame in frames and at[2] != PACKET_OUTGOING:
                    found[frames[frame]].add(at[0])
        return found

    def gets(self, sender, wanted, seconds=8):
        """Waits until each datagram arrives at exactly the wanted far ends: {(source, group): names}."""
        limit = time.monotonic() + seconds
        while (found := self.received(sender, wanted)) != wanted:
            if time.monotonic() > limit:
                wrong = {case: (sorted(found[case] - wanted[case]), sorted(wanted[case] - found[case])) for case in wanted if found[case] != wanted[case]}
                raise Wrong(f"too much and missing: {str(wrong)[:800]}; {[it.errors[-5:] for it in self.queriers]}")
            time.sleep(0.2)


class Stream:
    """A stream of datagrams, and those that a far end misses."""

    def __init__(self, fabric, sender, cases):
        self.fabric, self.sender, self.cases, self.is_over, self.rounds, self.missed = fabric, sender, cases, False, 0, []
        self.thread = threading.Thread(target=self.run)
        fabric.streams.append(self)
        self.thread.start()

    def run(self):
        while not self.is_over:
            found = self.fabric.received(self.sender, self.cases)
            self.rounds += 1
            self.missed += [(case, sorted(wanted - found[case])) for case, wanted in self.cases.items() if wanted - found[case]]

    def end(self):
        self.is_over = True
        self.thread.join()
        is_true(self.rounds > 3 and not self.missed, f"{len(self.missed)} missed in {self.rounds} rounds: {self.missed[:4]}")
