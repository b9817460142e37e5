"""Networks of the tests of routers: namespaces with interfaces between them, senders and receivers of datagrams."""

import collections
import ctypes
import glob
import ipaddress
import itertools
import json
import os
import signal
import socket
import struct
import subprocess
import tempfile
import threading
import time
from concurrent import futures

from lab import PROGRAM, Wrong, ip, is_true

PORT, CLONE_NEWNET, SO_TIMESTAMPNS = 5000, 0x40000000, 35
JOIN, LEAVE, JOIN_SOURCE, LEAVE_SOURCE = 42, 45, 46, 47  # MCAST_JOIN_GROUP and so on, <linux/in.h>
# A Query Interval of 4 s, and a Last Member Query Time of 400 ms.
QUICK = "--qi 4 --qri 1000 --lmqi 200".split()
libc = ctypes.CDLL(None, use_errno=True)


def inside(space, action, *rest):
    """Calls an action in a namespace, and returns its result. Sockets that it opens stay there."""

    def entered():
        with open(f"/run/netns/{space}", encoding="ascii") as it:
            if libc.setns(it.fileno(), CLONE_NEWNET):
                raise OSError(ctypes.get_errno(), f"setns {space}")
        return action(*rest)

    with futures.ThreadPoolExecutor(1) as pool:
        return pool.submit(entered).result()


def place_of(address):
    """Returns the `sockaddr_storage` of an address."""
    address = ipaddress.ip_address(address)
    if address.version == 4:
        return struct.pack("=HH4s120x", socket.AF_INET, 0, address.packed)
    return struct.pack("=HHI16sI100x", socket.AF_INET6, 0, 0, address.packed, 0)


def family_of(address):
    return (socket.AF_INET6, socket.IPPROTO_IPV6) if ":" in address else (socket.AF_INET, socket.IPPROTO_IP)


def filter_for(group):
    """Returns a filter of BPF that keeps datagrams of UDP to a group."""
    address = ipaddress.ip_address(group)
    first, protocol = (16, 9) if address.version == 4 else (24, 6)
    words = struct.unpack(f"!{len(address.packed) // 4}I", address.packed)
    tests = [(0x30, protocol, 17), *((0x20, first + 4 * at, word) for at, word in enumerate(words))]
    program = [line for at, (load, place, value) in enumerate(tests) for line in ((load, 0, 0, place), (0x15, 0, 2 * (len(tests) - at) - 1, value))]
    program += [(6, 0, 0, 256), (6, 0, 0, 0)]
    return b"".join(struct.pack("=HBBI", *line) for line in program), len(program)


class Watcher:
    """A host that joins a group when it is asked to, and all of the group that comes at its interface."""

    def __init__(self, space, group, source=None, interface="eth0"):
        """Without a namespace, that of this thread is meant."""
        self.group, self.source = group, source
        self.level = family_of(group)[1]
        self.member, self.socket, self.index = inside(space, self.opened, interface) if space else self.opened(interface)
        self.filtered = struct.pack("=I4x", self.index) + place_of(group) + (place_of(source) if source else b"")
        self.head = 28 if self.level == socket.IPPROTO_IP else 48

    @staticmethod
    def many(space, groups):
        """Returns a watcher for each group."""
        return inside(space, lambda: [Watcher(None, it) for it in groups])

    def opened(self, interface):
        kind = 0x800 if ":" not in self.group else 0x86DD
        member, index = socket.socket(family_of(self.group)[0], socket.SOCK_DGRAM), socket.if_nametoindex(interface)
        packets = socket.socket(socket.AF_PACKET, socket.SOCK_DGRAM | socket.SOCK_NONBLOCK, 0)
        lines, count = filter_for(self.group)
        memory = ctypes.create_string_buffer(lines)
        packets.setsockopt(socket.SOL_SOCKET, 26, struct.pack("=H6xQ", count, ctypes.addressof(memory)))  # SO_ATTACH_FILTER
        packets.setsockopt(socket.SOL_SOCKET, 33, 1 << 24)  # SO_RCVBUFFORCE
        packets.setsockopt(socket.SOL_SOCKET, SO_TIMESTAMPNS, 1)
        packets.setsockopt(263, 23, 1)  # PACKET_IGNORE_OUTGOING
        packets.bind((interface, kind))
        return member, packets, index

    def close(self):
        self.member.close()
        self.socket.close()

    def join(self):
        """Joins, and returns the time at which it did."""
        now = time.time()
        self.member.setsockopt(self.level, JOIN_SOURCE if self.source else JOIN, self.filtered)
        return now

    def leave(self):
        now = time.time()
        self.member.setsockopt(self.level, LEAVE_SOURCE if self.source else LEAVE, self.filtered)
        return now

    def read(self):
        """Returns the waiting datagrams: for each the kernel's time and its number."""
        found = []
        while True:
            try:
                data, extra, _, _ = self.socket.recvmsg(2048, 128)
            except BlockingIOError:
                return found
            seconds, nanoseconds = struct.unpack("=qq", extra[0][2][:16])
            found.append((seconds + nanoseconds / 1e9, struct.unpack("=Q", data[self.head : self.head + 8])[0]))

    def first(self, seconds=3.0):
        """Waits for a datagram, and returns the kernel's time of the first one."""
        limit = time.monotonic() + seconds
        while not (found := self.read()):
            if time.monotonic() > limit:
                raise Wrong(f"no datagram of {self.group} in {seconds} s")
            time.sleep(0.001)
        return found[0][0]

    def silent(self, seconds=0.5):
        """Nothing comes for some time."""
        self.read()
        time.sleep(seconds)
        found = self.read()
        is_true(not found, f"{len(found)} datagrams of {self.group}")

    def last(self, quiet=0.4, seconds=5.0):
        """Waits until nothing came for some time, and returns the kernel's time of the last datagram, or None."""
        last, limit = None, time.monotonic() + seconds
        while time.monotonic() < limit:
            time.sleep(quiet)
            found = self.read()
            if not found:
                return last
            last = found[-1][0]
        raise Wrong(f"datagrams of {self.group} do not end")


class Sender:
    """A sender of numbered datagrams to groups, in a thread."""

    def __init__(self, space, groups, rate=200, interface="eth0", source=None):
        self.sockets = [(inside(space, self.opened, group, interface, source), group) for group in groups]
        self.gap, self.number, self.is_over = 1 / rate, 0, False
        self.thread = threading.Thread(target=self.send, daemon=True)
        self.thread.start()

    @staticmethod
    def opened(group, interface, source):
        family, level = family_of(group)
        one, index = socket.socket(family, socket.SOCK_DGRAM), socket.if_nametoindex(interface)
        if family == socket.AF_INET:
            one.setsockopt(level, socket.IP_MULTICAST_IF, struct.pack("=4s4si", bytes(4), bytes(4), index))
            one.setsockopt(level, socket.IP_MULTICAST_TTL, 8)
        else:
            one.setsockopt(level, socket.IPV6_MULTICAST_IF, index)
            one.setsockopt(level, socket.IPV6_MULTICAST_HOPS, 8)
        if source:
            one.bind((source, 0) if family == socket.AF_INET else (source, 0, 0, index))
        return one

    def send(self):
        begun = time.monotonic()
        while not self.is_over:
            for one, group in self.sockets:
                try:
                    one.sendto(struct.pack("=Q", self.number) + bytes(92), (group, PORT))
                except OSError:
                    pass
            self.number += 1
            time.sleep(max(0, begun + self.number * self.gap - time.monotonic()))

    def end(self):
        self.is_over = True
        self.thread.join()


class Running:
    """A running process in a namespace, whose lines on standard error are kept."""

    def __init__(self, space, *words):
        words = ["ip", "netns", "exec", space, *words]
        # with LD_PRELOAD, a program with the compiler's checks has another library first
        environment = {**os.environ, "ASAN_OPTIONS": "verify_asan_link_order=0"}
        how = {"stdout": subprocess.DEVNULL, "stderr": subprocess.PIPE, "text": True, "env": environment}
        # pylint: disable-next=consider-using-with
        self.process = subprocess.Popen(words, **how)
        self.errors = []
        self.thread = threading.Thread(target=lambda: self.errors.extend(self.process.stderr), daemon=True)
        self.thread.start()

    def end(self, number=signal.SIGTERM):
        self.process.send_signal(number)
        status = self.process.wait(10)
        self.thread.join(10)
        return status


class Network:
    """Namespaces and what runs in them, which go at the end."""

    numbers = itertools.count()

    def __init__(self):
        self.name = f"route{os.getpid()}-{next(Network.numbers)}"
        self.spaces, self.running, self.folder = [], [], tempfile.mkdtemp(prefix="route")
        os.chmod(self.folder, 0o755)

    def __enter__(self):
        return self

    def __exit__(self, *_):
        for one in self.running:
            if isinstance(one, Sender):
                one.end()
            elif one.process.poll() is None:
                one.end()
        for space in self.spaces:
            subprocess.run(["ip", "netns", "del", space], check=False)
        subprocess.run(["rm", "-rf", self.folder], check=False)

    def space(self, name, **settings):
        """Makes a namespace, without rp_filter and duplicate address detection."""
        space = f"{self.name}-{name}"
        ip("netns", "add", space)
        self.spaces.append(space)
        for which in ("all", "default"):
            self.set(space, f"ipv4/conf/{which}/rp_filter", 0)
            self.set(space, f"ipv6/conf/{which}/accept_dad", 0)
        self.set(space, "ipv4/igmp_max_memberships", 10000)
        for setting, value in settings.items():
            self.set(space, setting.replace("__", "/"), value)
        ip("-n", space, "link", "set", "lo", "up")
        return space

    @staticmethod
    def set(space, name, value):
        subprocess.run(["ip", "netns", "exec", space, "sh", "-c", f"echo {value} > /proc/sys/net/{name}"], check=True)

    @staticmethod
    def get(space, name):
        ran = subprocess.run(["ip", "netns", "exec", space, "cat", f"/proc/sys/net/{name}"], capture_output=True, text=True, check=True)
        return ran.stdout.strip()

    def wire(self, space, interface, number, other, name="eth0", station=2):
        """Puts a wire with a network of its own between two namespaces. The first has the address 1 there, the other its station's."""
        ip("-n", space, "link", "add", interface, "type", "veth", "peer", "name", name, "netns", other)
        for one, end, host in ((space, interface, 1), (other, name, station)):
            self.address(one, end, number, host)

    def address(self, space, interface, number, host):
        for address in (f"10.{number}.0.{host}/24", f"2001:db8:{number:x}::{host:x}/64", f"fe80::{number:x}:{host:x}/64"):
            flags = ["nodad"] if ":" in address else []
            subprocess.run(["ip", "-n", space, "address", "add", address, "dev", interface, *flags], capture_output=True, check=False)
        ip("-n", space, "link", "set", interface, "up")

    def route(self, space, upstream, *downstream, options=(), is_ready=True):
        """Starts a router, and waits until it is ready."""
        words = ["route", "--upstream", upstream, *downstream, *QUICK, "--run", f"{self.folder}/{space}", *options]
        one = Running(space, PROGRAM, *words)
        self.running.append(one)
        limit = time.monotonic() + 5
        while is_ready and not glob.glob(f"{self.folder}/{space}/{upstream.split(',')[0].split('=')[0]}/status-*"):
            is_true(one.process.poll() is None and time.monotonic() < limit, f"not ready: {one.errors}")
            time.sleep(0.02)
        return one

    def sender(self, *words, **named):
        one = Sender(*words, **named)
        self.running.append(one)
        return one

    def status(self, space, upstream, form="--json"):
        words = ["ip", "netns", "exec", space, PROGRAM, "status", upstream, form, "--run", f"{self.folder}/{space}"]
        ran = subprocess.run([it for it in words if it], capture_output=True, text=True, check=False)
        is_true(ran.returncode == 0, ran.stderr)
        return json.loads(ran.stdout) if form == "--json" else ran.stdout

    @staticmethod
    def filters(space, is_mld, interface):
        """Returns the filters that a namespace's host side has at an interface: for each group with a list, its sources."""
        name = f"/proc/net/{'mcfilter6' if is_mld else 'mcfilter'}"
        found = collections.defaultdict(set)
        ran = subprocess.run(["ip", "netns", "exec", space, "cat", name], capture_output=True, text=True, check=True)
        for line in ran.stdout.splitlines()[0 if is_mld else 1 :]:
            words = line.split()
            if words[1] == interface:
                group, source = (ipaddress.ip_address(int(it, 16)) if not is_mld else ipaddress.IPv6Address(bytes.fromhex(it)) for it in words[2:4])
                found[str(group)].add(("+" if int(words[4], 0) else "-") + str(source))
        return dict(found)

    @staticmethod
    def groups(space, is_mld, interface):
        """Returns the groups that a namespace's host side is in at an interface."""
        shown = json.loads(ip("-n", space, "-j", "-6" if is_mld else "-4", "maddress", "show", "dev", interface))
        return {it["address"] for it in shown[0]["maddr"] if "address" in it} if shown else set()


def until(test, what, seconds=5.0):
    """Waits until a test holds."""
    limit = time.monotonic() + seconds
    while not (found := test()):
        if time.monotonic() > limit:
            raise Wrong(f"not {what}")
        time.sleep(0.02)
    return found
