"""Cases of `switches` that count datagrams while the querier starts, stops and waits. It never takes what a host wants."""

import os
import shutil
import signal
import socket
import time

from fabric import FAMILIES, PROTOCOL, Fabric, Host, Stream, inside, run, waiting
from frames import report_frame
from lab import GROUPS, SOURCES, ip, is_true

PAUSE = 3  # seconds without a querier
IS_IN, IS_EX, TO_IN, ALLOW, BLOCK = 1, 2, 3, 5, 6


def snooping(fabric, querier):
    """Has the kernel snoop as querier with sources, and wait 1 s for responses to its first query; or flood."""
    versions = ["mcast_igmp_version", "3", "mcast_mld_version", "2"] if querier else []
    for words in (["mcast_query_response_interval", "100", *versions], ["mcast_querier", str(querier)]):
        ip("-n", fabric.near, "link", "set", "br0", "type", "bridge", *words)


def members(fabric):
    """One host wants a group, another only one source of it. Returns who receives what."""
    for family in FAMILIES:
        fabric.hosts["b0h1"].do("join", GROUPS[family])
        fabric.hosts["b0h2"].do("allow", GROUPS[family], SOURCES[family][0])
    return {(SOURCES[family][0], GROUPS[family]): {"b0h1", "b0h2"} for family in FAMILIES}


def restarts(kernel):
    """The querier starts and stops, and starts again at once and later. Hosts lose no datagram, also if they join in between."""
    with Fabric(5, 1) as fabric:
        snooping(fabric, kernel)
        wanted = members(fabric)
        if kernel:  # it floods no more
            fabric.gets("b0h4", wanted, 10)
        with inside(fabric.far), socket.socket(socket.AF_PACKET, socket.SOCK_RAW, socket.htons(3)) as ears:
            ears.bind(("b0h5", 3))
            ears.setblocking(False)
            stream = Stream(fabric, "b0h4", wanted)
            for pause in (0, PAUSE, 0):
                querier = started(fabric)
                is_true(querier.end() == 0 and not querier.errors, f"{querier.errors}")
                time.sleep(pause)
            stream.end()
            asked = sum(is_query(frame) and frame[12:14] == b"\x08\x00" and frame[26:30] == bytes(4) for frame in waiting(ears))
        is_true(kernel or not asked, f"{asked} queries from 0.0.0.0")
        ip("-n", fabric.near, "link", "set", "br0", "type", "bridge", "mcast_igmp_version", "3", "mcast_mld_version", "2")  # sources are shown
        found = [it for it in fabric.shown() if it.get("protocol") in PROTOCOL.values()]
        is_true(found and all(it["state"] == "temp" for it in found), f"{found}")
        is_true(any("source_list" in it for it in found) == bool(kernel), f"an older version looks at no source: {found}")
        for family in FAMILIES:
            fabric.hosts["b0h3"].do("join", GROUPS[family])
        time.sleep(1)
        late = Stream(fabric, "b0h4", {case: {*hosts, "b0h3"} for case, hosts in wanted.items()})
        started(fabric)
        for family in FAMILIES:
            fabric.comes("b0p1", GROUPS[family], ("exclude",))
        late.end()
        print(f"querier {kernel} before: {stream.rounds + late.rounds} rounds of datagrams, none missed", flush=True)


def started(fabric):
    """Starts the querier. Returns it when the links know what hosts want, and the kernel floods no more."""
    querier = fabric.querier()
    querier.gathered()
    time.sleep(2.5)
    return querier


def a_slow_start():
    """After a kill `nft` takes longer than the links need to know what hosts want. Entries stay until the late queries are answered."""
    with Fabric(4, 1) as fabric:
        snooping(fabric, 1)
        wanted = members(fabric)
        first = started(fabric)
        fabric.gets("b0h4", wanted, 10)
        name = f"{fabric.run}/path/nft"
        os.mkdir(os.path.dirname(name))
        with open(name, "w", encoding="ascii") as to:
            to.write(f'#!/bin/sh\nsleep 2.4\nexec {shutil.which("nft")} "$@"\n')
        os.chmod(name, 0o755)
        stream = Stream(fabric, "b0h4", wanted)
        first.end(signal.SIGKILL)
        fabric.querier(env={"PATH": f"{os.path.dirname(name)}:{os.environ['PATH']}"}).gathered()
        time.sleep(1)
        stream.end()


def restarts_where_the_kernel_asks():
    restarts(1)


def restarts_where_the_kernel_floods():
    restarts(0)


def without_an_address(kernel):
    """The bridge has no IPv4 address. A line says so, and the kernel forwards as before; MLD is served. With an address IGMP is served,
    and nothing was lost in between."""
    with Fabric(4, 1) as fabric:
        ip("-n", fabric.near, "address", "flush", "dev", "br0", "scope", "global")
        snooping(fabric, kernel)
        wanted = members(fabric)
        if kernel:
            fabric.gets("b0h4", wanted, 10)
        stream = Stream(fabric, "b0h4", wanted)
        querier = fabric.querier()
        found = querier.until(lambda it: all(port["mld"]["on"] for port in it["ports"]), "MLD begun")
        is_true(not any(port["igmp"]["on"] for port in found["ports"]), "IGMP began without an address")
        is_true(any("no IPv4 address" in line for line in querier.errors), f"{querier.errors}")
        time.sleep(PAUSE)
        for family in FAMILIES:
            fabric.hosts["b0h3"].do("join", GROUPS[family])
        time.sleep(1)
        wanted = {case: {*hosts, "b0h3"} for case, hosts in wanted.items()}
        late = Stream(fabric, "b0h4", wanted)
        time.sleep(PAUSE)
        late.end()
        stream.end()
        is_true("mcast_router 1 " in ip("-n", fabric.near, "-d", "link", "show", "b0p1"), "a setting changed")
        stream = Stream(fabric, "b0h4", wanted)
        ip("-n", fabric.near, "address", "add", "10.0.0.3/24", "dev", "br0")
        querier.until(lambda it: all(port["igmp"]["on"] for port in it["ports"]), "IGMP begun")
        querier.gathered()
        time.sleep(2.5)
        stream.end()
        fabric.gets("b0h4", wanted)
        print(f"querier {kernel} before, no address: {stream.rounds} rounds of datagrams, none missed", flush=True)


def without_ipv6():
    """The bridge has no IPv6. IGMP is served, and the kernel stops flooding it. MLD is flooded as before, also while it begins late."""
    with Fabric(4, 1) as fabric:
        run(fabric.near, "sh", "-c", "echo 1 > /proc/sys/net/ipv6/conf/br0/disable_ipv6")
        snooping(fabric, 0)
        wanted = members(fabric)
        fabric.ready = lambda: None
        querier = fabric.querier()
        querier.gathered()
        igmp = {case: hosts for case, hosts in wanted.items() if case[1] == GROUPS["igmp"]}
        fabric.gets("b0h4", igmp)
        fabric.gets("b0h4", {case: hosts if case in igmp else {"b0h1", "b0h2", "b0h3"} for case, hosts in wanted.items()})
        is_true([port["mld"]["on"] for port in querier.status()["ports"]] == [False] * 4, "MLD began without an address")
        stream = Stream(fabric, "b0h4", wanted)
        run(fabric.near, "sh", "-c", "echo 0 > /proc/sys/net/ipv6/conf/br0/disable_ipv6")
        querier.until(lambda it: all(port["mld"]["on"] for port in it["ports"]), "MLD begun")
        querier.gathered()
        time.sleep(2.5)
        stream.end()
        fabric.gets("b0h4", wanted)


def without_an_address_where_the_kernel_asks():
    without_an_address(1)


def without_an_address_where_the_kernel_floods():
    without_an_address(0)


def the_tree_moves(root):
    """The link to another bridge breaks, and its hosts are behind another port. They are queried there at once: the Query Interval is
    125 s. The kernel of the querier sees the other port forward, or the other bridge reports the change."""
    tree = "stp_state 1 forward_delay 200 hello_time 100 max_age 600".split()
    with Fabric(4, 1) as fabric:
        ip("-n", fabric.near, "link", "set", "br0", "type", "bridge", *tree, "mcast_query_response_interval", "100")
        ip("-n", fabric.far, "link", "add", "sw", "type", "bridge", *tree, "mcast_snooping", "0", "priority", {"sw": "4096", "br0": "61440"}[root])
        ip("-n", fabric.far, "link", "add", "end", "type", "veth", "peer", "name", "host")
        for words in ("b0h1 master sw", "b0h2 master sw", "end master sw up", "sw up", "host up"):
            ip("-n", fabric.far, "link", "set", *words.split())
        ip("-n", fabric.far, "address", "add", "10.0.0.7/24", "dev", "host")
        stands = 0
        while stands < 3:  # in a row, each after 0.2 s
            time.sleep(0.2)
            shown = "".join(run(space, "bridge", "link", "show") for space in (fabric.near, fabric.far))
            stands = 0 if "listening" in shown or "learning" in shown or "blocking" not in shown else stands + 1
        with inside(fabric.far), socket.socket(socket.AF_PACKET, socket.SOCK_RAW, socket.htons(3)) as ears:
            ears.bind(("b0h2", 3))
            ears.setblocking(False)
            querier = fabric.querier("--qi", "125", "--rv", "1")
            querier.until(lambda it: all(port["mld"]["on"] for port in it["ports"]), "begun")
            time.sleep(0.5)
            is_blocked = "state blocking" in run(fabric.near, "bridge", "link", "show", "dev", "b0p2")
            asked = sum(is_query(frame) for frame in waiting(ears))
        is_true(is_blocked == (root == "sw") and (asked == 0 or not is_blocked), f"{asked} queries at a blocked port")
        querier.gathered()
        host, cases = Host(fabric, "host"), {(SOURCES[family][0], GROUPS[family]): {"host"} for family in FAMILIES}
        for family in FAMILIES:
            host.do("join", GROUPS[family])
            fabric.comes("b0p1", GROUPS[family], ("exclude",), 10)
        while "topology_change 1" in ip("-n", fabric.near, "-d", "link", "show", "br0"):
            time.sleep(0.2)
        time.sleep(1.5)
        ip("-n", fabric.far, "link", "set", "b0h1", "down")
        begin = time.monotonic()
        while any("host" not in found for found in fabric.received("b0h3", cases).values()):
            is_true(time.monotonic() < begin + 40, "no data after 40 s")
        took = time.monotonic() - begin
        print(f"root {root}: {took:.1f} s without data", flush=True)
        is_true(took < 12, f"no data for {took:.1f} s")


def is_query(frame):
    return (frame[12:14], frame[23:24], frame[38:39]) == (b"\x08\x00", b"\x02", b"\x11") or (frame[12:14], frame[62:63]) == (b"\x86\xdd", b"\x82")


def the_tree_moves_here():
    the_tree_moves("sw")


def the_tree_moves_elsewhere():
    the_tree_moves("br0")


def a_source_goes():
    """A port's list of sources changes, its entry goes, and a port leaves the bridge. Each time the kernel forgets that ports with
    EXCLUDE entries get these sources, until their entries are made again. They miss nothing."""
    with Fabric(6, 1) as fabric:
        querier = fabric.querier("--qi", "20")
        querier.gathered()
        for family in FAMILIES:
            one, other, group = *SOURCES[family], GROUPS[family]

            def put(number, kind, *sources, to=group, of=family):
                fabric.hosts[f"b0h{number}"].put(report_frame(of, kind, to, sources))

            def gets(its, others, cases=((one, group), (other, group))):
                wanted = {case: {f"b0h{number}" for number in numbers} for case, numbers in zip(cases, (its, others))}
                fabric.gets("b0h6", wanted, 25)

            for number, kind, *sources in ((1, IS_IN, one), (2, IS_IN, one), (3, IS_EX), (4, IS_EX, one)):
                put(number, kind, *sources)
            gets((1, 2, 3), (3, 4))
            put(4, ALLOW, one)
            put(4, BLOCK, other)
            gets((1, 2, 3, 4), (3,))
            put(1, BLOCK, one)
            gets((2, 3, 4), (3,))
            put(1, IS_EX)
            gets((1, 2, 3, 4), (1, 3))
            put(1, TO_IN)
            gets((2, 3, 4), (3,))
            put(5, IS_IN, one, other)
            gets((2, 3, 4, 5), (3, 5))
            ip("-n", fabric.near, "link", "set", "b0p5", "nomaster")
            gets((2, 3, 4), (3,))
            ip("-n", fabric.near, "link", "set", "b0p5", "master", "br0")
        is_true(not querier.errors, f"{querier.errors}")


CASES = [a_source_goes, a_slow_start, restarts_where_the_kernel_asks, restarts_where_the_kernel_floods, the_tree_moves_here, the_tree_moves_elsewhere]
CASES += [without_an_address_where_the_kernel_asks, without_an_address_where_the_kernel_floods, without_ipv6]
