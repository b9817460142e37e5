"""Cases of `switches` with multicast routers: behind a port, and on the machine itself."""

import ipaddress
import socket
import struct
import time

import lab
from fabric import FAMILIES, Fabric, inside, place_of, waiting
from frames import igmp_frame, mld_frame, report_frame, summed
from lab import GROUPS, MANY, SOURCES, is_true

TO_EX = 4
ROUTER = {"igmp": "10.0.4.9", "mld": "fe80::9"}
LOCAL = {"igmp": "239.3.3.3", "mld": "ff0e::3:3"}


def a_router_behind_a_port():
    """With --report a router behind a port learns what the hosts of all other ports want, and what the machine itself wants. It stays
    querier there though its address is higher."""
    with Fabric(4, 1) as fabric:
        querier = fabric.querier("--router-port", "b0p4", "--report")
        routers = {family: lab.Querier(fabric.far, "b0h4", family, ROUTER[family]) for family in FAMILIES}
        try:
            with inside(fabric.near):
                own = [joined(fabric, LOCAL[family]) for family in FAMILIES]
            for family, router in routers.items():
                one, other = SOURCES[family]
                fabric.hosts["b0h1"].do("allow", GROUPS[family], one)
                router.has(GROUPS[family], f"include {one}")
                fabric.hosts["b0h2"].do("allow", GROUPS[family], other)
                router.has(GROUPS[family], f"include {one} {other}")
                fabric.hosts["b0h3"].do("join", GROUPS[family])
                router.until(lambda state, of=family: (state.shape(GROUPS[of]) or "").startswith("exclude"), "all sources")
                router.has(LOCAL[family], "exclude")
            time.sleep(lab.MEMBERSHIP / 1000 + 0.5)
            for family, router in routers.items():
                one, other = SOURCES[family]
                router.has(LOCAL[family], "exclude", 0)
                fabric.hosts["b0h3"].do("leave", GROUPS[family])
                router.has(GROUPS[family], f"include {one} {other}", 12)
                fabric.hosts["b0h1"].do("disallow", GROUPS[family], one)
                router.has(GROUPS[family], f"include {other}", 8)
                fabric.hosts["b0h2"].do("disallow", GROUPS[family], other)
                router.has(GROUPS[family], None, 8)
                is_true(router.state().role == "querier", "another is querier at the router's port")
            for one in own:
                one.close()
            is_true(all("and is querier there now" in line for line in querier.errors), f"{querier.errors}")
        finally:
            for router in routers.values():
                router.process.kill()
                router.process.wait()


def an_older_router_behind_a_port():
    """A router of IGMPv2 and MLDv1 behind a port gets Reports, Leaves and Dones of its version, and lines tell of its queries."""
    with Fabric(3, 1) as fabric:
        querier = fabric.querier("--router-port", "b0p3", "--report")
        querier.gathered()
        with inside(fabric.far), socket.socket(socket.AF_PACKET, socket.SOCK_RAW, socket.htons(3)) as ears:
            ears.bind(("b0h3", 3))
            ears.setblocking(False)
            for frame in (
                igmp_frame("10.0.0.200", "224.0.0.1", summed(bytes.fromhex("110a0000 00000000"))),
                mld_frame("fe80::ffff:1", "ff02::1", bytes.fromhex("82000000 03e80000") + bytes(16)),
            ):
                fabric.hosts["b0h3"].put(frame)
            querier.until(lambda it: it["faults"]["routers_heard"] >= 2, "two older queries")
            for word in ("join", "leave"):
                for family in FAMILIES:
                    fabric.hosts["b0h1"].do(word, GROUPS[family])
                time.sleep(0.5)
            time.sleep(2)
            frames = waiting(ears)
            igmp, mld = (ipaddress.ip_address(GROUPS[family]).packed for family in FAMILIES)
            for start, group in ((b"\x16\x00", igmp), (b"\x17\x00", igmp), (b"\x83\x00", mld), (b"\x84\x00", mld)):
                is_true(any(start in frame and group in frame for frame in frames), f"no message {start.hex()}")


def joined(fabric, group):
    """Returns a socket that joined a group at the bridge itself."""
    address = ipaddress.ip_address(group)
    family, level = (socket.AF_INET, socket.IPPROTO_IP) if address.version == 4 else (socket.AF_INET6, socket.IPPROTO_IPV6)
    one = socket.socket(family, socket.SOCK_DGRAM)
    one.setsockopt(level, 42, struct.pack("=I4x128s", socket.if_nametoindex(fabric.bridges[0]), place_of(address)))
    return one


def a_router_on_the_machine():
    """Raw sockets at the bridge hear the Reports of hosts, as without the querier. The kernel's own snooping learns nothing, and no
    other port hears them."""
    with Fabric(3, 1) as fabric:
        querier = fabric.querier()
        querier.gathered()
        with inside(fabric.near):
            ears = [socket.socket(socket.AF_INET, socket.SOCK_RAW, 2), socket.socket(socket.AF_INET6, socket.SOCK_RAW, 58)]
            members = [joined(fabric, group) for group in ("224.0.0.22", "ff02::16")]
        time.sleep(0.5)
        with inside(fabric.far), socket.socket(socket.AF_PACKET, socket.SOCK_RAW, socket.htons(3)) as others:
            others.bind(("b0h2", 3))
            others.setblocking(False)
            for family, ear in zip(FAMILIES, ears):
                group = MANY[family][0]
                fabric.hosts["b0h1"].put(report_frame(family, TO_EX, group, []))
                packed = ipaddress.ip_address(group).packed
                is_true(heard(ear, packed), f"{family}: a raw socket doesn't hear it")
                fabric.comes("b0p1", group, ("exclude",))
                is_true(not heard(others, packed, 0.2), f"{family}: another port hears it")
        learned = [it for it in fabric.shown() if it.get("protocol") == "kernel" and it["port"] == "b0p1" and it["grp"] in (MANY["igmp"][0], MANY["mld"][0])]
        is_true(not learned, f"{learned}")
        for one in (*ears, *members):
            one.close()


def heard(ear, packed, seconds=2):
    """Waits until a socket receives a message with these bytes. Returns whether one came."""
    limit = time.monotonic() + seconds
    ear.setblocking(False)
    while time.monotonic() < limit:
        try:
            if packed in ear.recv(2048):
                return True
        except BlockingIOError:
            time.sleep(0.01)
    return False


CASES = [a_router_behind_a_port, an_older_router_behind_a_port, a_router_on_the_machine]
