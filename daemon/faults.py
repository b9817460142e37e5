"""Cases of `switches` with faults of the kernel, of the wire and of other programs. None ends the querier. Each is counted, and the
right data is forwarded again within a Query Interval."""

import mmap
import os
import random
import shutil
import signal
import struct
import subprocess
import time

from fabric import FAMILIES, QUERY_INTERVAL, Fabric, Stream, run
from frames import igmp_frame, mld_frame, report_frame, summed
from lab import GROUPS, MANY, SOURCES, TOP, ip, is_true

IS_IN, IS_EX, ALLOW = 1, 2, 5
AGAIN = QUERY_INTERVAL + 3  # seconds in which all is right again, on a machine that has other work


class Kernel:
    """A kernel with faults for one querier, by daemon/tried/faulty.c."""

    def __init__(self, fabric):
        shared, orders = f"{fabric.run}/faulty.so", f"{fabric.run}/orders"
        words = [os.environ.get("CC", "cc"), "-std=gnu99", "-O1", "-shared", "-fPIC", f"{TOP}/daemon/tried/faulty.c", "-o", shared]
        subprocess.run(words, check=True)
        with open(orders, "wb+") as file:
            file.write(bytes(16))
            file.flush()
            self.orders = mmap.mmap(file.fileno(), 16)
        self.env = {"LD_PRELOAD": shared, "FAULTY": orders, "ASAN_OPTIONS": "verify_asan_link_order=0"}

    def does(self, each=0, filters=False, ahead=0):
        self.orders[:] = struct.pack("=iiq", each, filters, ahead)


def joined(fabric, *names):
    for family in FAMILIES:
        for name in names:
            fabric.hosts[name].do("join", GROUPS[family])


def come(fabric, port, seconds=AGAIN):
    for family in FAMILIES:
        fabric.comes(port, GROUPS[family], ("exclude",), seconds)


def malformed_frames():
    """Malformed frames of each kind and fragments of IGMP and MLD are counted, by two names. Fragments of an unknown message are
    not heard. Useless messages are counted at their link."""
    with Fabric(2, 1) as fabric:
        querier, host = fabric.querier(), fabric.hosts["b0h1"]
        querier.gathered()
        begin = querier.status()["faults"]
        igmp, mld = (report_frame(family, IS_EX, GROUPS[family], []) for family in FAMILIES)

        def changed(frame, place, *values):
            return frame[:place] + bytes(values) + frame[place + len(values) :]

        malformed = [igmp[:30], igmp[:34], mld[:70], changed(igmp, 24, 0xFF), changed(igmp, 14, 0x66), changed(igmp, 14, 0x44), changed(igmp, 14, 0x4F)]
        malformed += [changed(igmp, 16, 0, 20), changed(igmp, 16, 0xFF, 0xFF), changed(mld, 18, 0xFF, 0xFF), changed(mld, 14, 0x70), changed(mld, 18, 0, 4)]
        fragments, unknown = mld_fragments()
        malformed.append(changed(fragments[0], 18, 0, 16))  # which ends with its fragment header
        fragments += [igmp_frame("10.0.0.7", "224.0.0.22", bytes(8), fragment=it) for it in (0x2000, 0x2001, 1)]
        for frame in (*unknown, *fragments, *malformed):
            host.put(frame)
        counted = {"frames_malformed": len(malformed), "frames_fragmented": len(fragments)}
        querier.until(lambda it: all(it["faults"][name] >= begin[name] + count for name, count in counted.items()), f"{counted}")
        before = querier.status()["ports"][0]
        useless = {
            "igmp": [igmp_frame("10.0.0.7", "224.0.0.22", it) for it in (b"\x22\0\0", changed(summed(b"\x22" + bytes(15)), 2, 1), summed(b"\x22" + bytes(6) + b"\x02"))],
            "mld": [mld_frame("fe80::7", "ff02::16", b"\x8f" + bytes(2)), changed(mld, 64, 1), mld_frame("2001:db8::7", "ff02::16", b"\x8f" + bytes(7))],
        }
        useless["mld"] += [mld_frame("fe80::7", "ff02::16", b"\x8f" + bytes(7), hop_limit=2), mld_frame("fe80::7", "ff02::16", b"\x8f" + bytes(7), alert=False)]
        for family in FAMILIES:
            for frame in useless[family]:
                host.put(frame)
        is_dropped = [lambda it, of=of: it["ports"][0][of]["dropped"] == before[of]["dropped"] + len(useless[of]) for of in FAMILIES]
        found = querier.until(lambda it: all(of(it) for of in is_dropped), f"dropped: {useless}")
        is_true(all(found["faults"][name] == begin[name] + count for name, count in counted.items()), f"{found['faults']}")
        joined(fabric, "b0h1")
        come(fabric, "b0p1")


def mld_fragments():
    """Returns first fragments of MLD, and other fragments. The first ones have each type after Router Alert, and one has no
    options. The others are later fragments, and fragments of other messages of ICMPv6 and of UDP."""
    def fragment(kind, word=1, **options):
        return mld_frame("fe80::7", "ff02::16", bytes([kind]) + bytes(23), fragment=word, **options)

    first = [fragment(kind) for kind in (130, 131, 132, 143)] + [fragment(143, alert=None), fragment(143, 0)]
    udp = fragment(143)[:62] + b"\x11" + fragment(143)[63:]
    return first, [fragment(143, 9), fragment(143, 8), fragment(128), fragment(129), fragment(133), fragment(142), fragment(144), udp]


def full_queues_and_lost_notifications():
    """A full queue rejects queries, and notifications overrun the socket. The querier reads ports and entries again."""
    with Fabric(4, 1) as fabric:
        querier = fabric.querier()
        querier.gathered()
        run(fabric.near, "tc", "qdisc", "add", "dev", "b0p2", "root", "tbf", "rate", "1kbit", "burst", "1600", "limit", "1")
        querier.until(lambda it: it["faults"]["queries_unsent"] > 0, "queries that can't be sent", 15)
        run(fabric.near, "tc", "qdisc", "del", "dev", "b0p2", "root")
        querier.process.send_signal(signal.SIGSTOP)
        lines = [f"address {word} 10.77.{number // 250}.{number % 250 + 1}/32 dev br0" for number in range(6000) for word in ("add", "del")]
        joined(fabric, "b0h2", "b0h3")
        try:
            run(fabric.near, "ip", "-batch", "-", text="\n".join(lines) + "\n")
        finally:
            querier.process.send_signal(signal.SIGCONT)
        querier.until(lambda it: it["faults"]["netlink_overruns"] > 0, "an overrun", 15)
        come(fabric, "b0p2")
        come(fabric, "b0p3")


def others_change_it():
    """Others remove all rules, end the snooping of a bridge, and remove an entry. The querier corrects all of it."""
    with Fabric(2, 1) as fabric:
        querier = fabric.querier()
        querier.gathered()
        run(fabric.near, "nft", "flush", "ruleset")
        ip("-n", fabric.near, "link", "set", "br0", "type", "bridge", "mcast_snooping", "0")
        joined(fabric, "b0h2")
        come(fabric, "b0p2")
        run(fabric.near, "bridge", "mdb", "del", "dev", "br0", "port", "b0p2", "grp", GROUPS["igmp"], "permanent")
        come(fabric, "b0p2")
        limit = time.monotonic() + AGAIN
        while "from_port" not in run(fabric.near, "nft", "list", "ruleset"):
            is_true(time.monotonic() < limit, "the rules aren't made again")
            time.sleep(0.2)


def nft_runs_after_changes_only():
    """The querier does not run `nft` again while nobody changes a rule. It runs it once after a change, of its own rules or of
    others."""
    with Fabric(2, 1) as fabric:
        name, log = f"{fabric.run}/path/nft", f"{fabric.run}/log"
        os.mkdir(os.path.dirname(name))
        for file, text, mode in ((log, "", 0o666), (name, f'#!/bin/sh\necho run >> {log}\nexec {shutil.which("nft")} "$@"\n', 0o755)):
            with open(file, "w", encoding="ascii") as to:
                to.write(text)
            os.chmod(file, mode)

        def runs():
            return os.path.getsize(log) // len("run\n")

        querier = fabric.querier(env={"PATH": f"{os.path.dirname(name)}:{os.environ['PATH']}"})
        querier.gathered()
        time.sleep(QUERY_INTERVAL + 1)
        begin = runs()
        is_true(begin > 0, "nft wasn't run")
        time.sleep(2 * QUERY_INTERVAL + 1)
        is_true(runs() == begin, f"nft was run {runs() - begin} times")
        for count, words in enumerate(("add table inet another", "flush ruleset", "add table inet another"), begin + 1):
            run(fabric.near, "nft", *words.split())
            limit = time.monotonic() + AGAIN
            while "from_port" not in run(fabric.near, "nft", "list", "ruleset") or runs() < count:
                is_true(time.monotonic() < limit, f"{words}: the rules aren't made again")
                time.sleep(0.2)
        time.sleep(2 * QUERY_INTERVAL + 1)
        is_true(runs() == begin + 3, f"nft was run {runs() - begin} times after 3 changes")


def sockets_without_room():
    """Every seventh call of each kind fails with ENOBUFS while hosts join and leave. Then all is right within a Query Interval."""
    chance = random.Random(59)
    with Fabric(4, 1) as fabric:
        kernel = Kernel(fabric)
        querier = fabric.querier(env=kernel.env)
        querier.gathered()
        kernel.does(each=7)
        wanted = {}
        for _ in range(120):
            family, name = chance.choice(FAMILIES), f"b0h{chance.randrange(1, 5)}"
            source, is_wanted = SOURCES[family][0], wanted.get((name, family), False)
            fabric.hosts[name].do("disallow" if is_wanted else "allow", GROUPS[family], source)
            wanted[name, family] = not is_wanted
            time.sleep(QUERY_INTERVAL / 60)
        ip("-n", fabric.near, "link", "set", "b0p1", "down")
        ip("-n", fabric.near, "link", "set", "b0p1", "up")
        time.sleep(1)
        kernel.does()
        for (name, family), is_wanted in wanted.items():
            entry = ("include", SOURCES[family][0]) if is_wanted else None
            fabric.comes(name.replace("h", "p"), GROUPS[family], entry, AGAIN)
        faults = querier.status()["faults"]
        for name in ("queries_unsent", "entries_refused", "netlink_overruns", "netlink_refusals"):
            is_true(faults[name] > 0, f"no {name}: {faults}")
        is_true(querier.process.poll() is None, "it ended")


def the_clock_jumps():
    """The clock jumps by an hour. Later the querier is stopped for longer than a Query Interval, like a machine that sleeps. Wanted
    data arrives all the time, and data that is no longer wanted stops."""
    with Fabric(4, 1) as fabric:
        kernel = Kernel(fabric)
        querier = fabric.querier(env=kernel.env)
        joined(fabric, "b0h1")
        cases = {(SOURCES[family][0], GROUPS[family]): {"b0h1", "b0h2"} for family in FAMILIES}
        for family in FAMILIES:
            fabric.hosts["b0h2"].do("allow", GROUPS[family], SOURCES[family][0])
        querier.gathered()
        fabric.gets("b0h4", cases, 20)
        stream = Stream(fabric, "b0h4", cases)
        try:
            for times, sleeps in ((1, False), (2, True)):
                for family in FAMILIES:
                    fabric.hosts["b0h3"].put(report_frame(family, IS_EX, MANY[family][0], []))
                    fabric.comes("b0p3", MANY[family][0], ("exclude",))
                if sleeps:
                    querier.process.send_signal(signal.SIGSTOP)
                    time.sleep(QUERY_INTERVAL + 2)
                    querier.process.send_signal(signal.SIGCONT)
                else:
                    kernel.does(ahead=3600 * 1000)
                querier.until(lambda it, times=times: it["faults"]["clock_jumps"] >= times, f"{times} jumps")
                for family in FAMILIES:
                    fabric.comes("b0p3", MANY[family][0], None, AGAIN)
        finally:
            stream.end()
        fabric.gets("b0h4", cases)
        is_true(sum("passed unseen: each link begins anew" in line for line in querier.errors) >= 2, f"{querier.errors}")


def a_bridge_filters_vlans():
    """A bridge filters VLANs, and the kernel does not report them: no port is served, and a line has the kernel's words. The querier serves
    the bridge once it filters no more. If it begins again, its entries go."""
    with Fabric(2, 1) as fabric:
        kernel = Kernel(fabric)
        kernel.does(filters=True)
        querier = fabric.querier(env=kernel.env)
        joined(fabric, "b0h1")
        found = querier.until(lambda it: it["faults"]["netlink_refusals"] > 0, "no VLANs reported")
        is_true(not found["ports"], f"{found}")
        is_true("mquerier-live: br0: Operation not supported" in querier.errors, f"{querier.errors}")
        kernel.does()
        querier.until(lambda it: len(it["ports"]) == 2, "served", AGAIN)
        come(fabric, "b0p1")
        kernel.does(filters=True)
        querier.until(lambda it: not it["ports"], "VLANs again", AGAIN)
        is_true(not fabric.entries(), f"{fabric.entries()}")


def killed_with_lists(fabric, env):
    """Ports have lists of their own for one group when the querier is killed. The next one adds a source at each, and keeps the others
    until hosts had time to answer."""
    more = {"igmp": "10.9.9.3", "mld": "2001:db8::3"}
    querier = fabric.querier("--qi", "20", env=env)
    querier.gathered()
    before, during, after = {}, {}, {}
    for family in FAMILIES:
        one, other, third, group = *SOURCES[family], more[family], GROUPS[family]
        for number, kind, sources in ((1, IS_IN, [one]), (2, IS_IN, [other]), (3, IS_EX, [one, other]), (4, IS_EX, [])):
            fabric.hosts[f"b0h{number}"].put(report_frame(family, kind, group, sources))
        before |= {("b0p1", group): ("include", one), ("b0p2", group): ("include", other), ("b0p3", group): ("exclude", one, other), ("b0p4", group): ("exclude",)}
        during |= {("b0p1", group): ("include", one, third), ("b0p2", group): ("include", other, third), ("b0p3", group): ("exclude", one, other), ("b0p4", group): ("exclude",)}
        after |= {(f"b0p{number}", group): ("include", third) for number in range(1, 5)}
    for place, wanted in before.items():
        fabric.comes(*place, wanted)
    querier.end(signal.SIGKILL)
    querier = fabric.querier("--qi", "20", env=env)
    querier.until(lambda it: all("gathers" in port[of] for port in it["ports"] for of in FAMILIES) and len(it["ports"]) == 4, "begun")
    for family in FAMILIES:
        for number in range(1, 5):
            fabric.hosts[f"b0h{number}"].put(report_frame(family, ALLOW, GROUPS[family], [more[family]]))
    querier.until(lambda it: all(port[of]["groups"] for port in it["ports"] for of in FAMILIES), "heard")
    time.sleep(0.5)
    for place, wanted in during.items():
        fabric.comes(*place, wanted, 0.5)
    for place, wanted in after.items():
        fabric.comes(*place, wanted, 9)
    return querier


def each_port_inherits_its_list():
    """After a kill, each port of a group inherits its own list."""
    with Fabric(4, 1) as fabric:
        killed_with_lists(fabric, None)


def an_older_kernel():
    """A kernel of 6.2 to 6.7 reads entries and removes them by older requests. Lists are inherited there too. All entries go if the bridge
    begins to filter VLANs."""
    with Fabric(4, 1) as fabric:
        kernel = Kernel(fabric)
        querier = killed_with_lists(fabric, {**kernel.env, "FAULTY_OLDER": "1"})
        is_true(querier.status()["faults"]["netlink_refusals"] == 0, f"{querier.errors}")
        kernel.does(filters=True)
        querier.until(lambda it: not it["ports"], "VLANs", AGAIN + 20)
        is_true(not fabric.entries(), f"{fabric.entries()}")


CASES = [each_port_inherits_its_list, an_older_kernel, the_clock_jumps, sockets_without_room, a_bridge_filters_vlans, full_queues_and_lost_notifications, malformed_frames, others_change_it]
CASES.append(nft_runs_after_changes_only)
