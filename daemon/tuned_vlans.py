"""Cases of `vlans` with options of ports in VLANs, ranges of groups and fast leave, and with options that are read again."""

import collections
import ipaddress
import signal
import struct
import time

from fabric import FAMILIES, MEMBERSHIP
from followed import Entries
from frames import report_frame
from lab import GROUPS, MANY, SOURCES, is_true
from trunks import Trunks, own_of_query

# For Reports that nobody repeats: a Group Membership Interval of 41 s.
SLOW = ["--qi", "20"]
IS_EX, TO_IN = 2, 3
# For each family the ranges of GROUPS and of MANY, and another group in the first one.
RANGES = {"igmp": ("239.1.0.0/16", "239.8.0.0/16"), "mld": ("ff0e::1:0/112", "ff0e::8:0/112")}
BESIDE = {"igmp": "239.1.1.2", "mld": "ff0e::1:2"}
# Milliseconds: the Last Member Query Interval with fast leave and without, and by how much an entry may end late.
FAST, USUAL, LATE = 100, 500, 250


def denied(status):
    """Returns how many records each port in a VLAN denied: (port, VLAN) with the counts of both families."""
    return {(it["port"], it["vlan"]): tuple(it[family]["denied"] for family in FAMILIES) for it in status["ports"]}


def ranges_of_one_vlan():
    """Ranges of a port in a VLAN count there only, each for its family. A group that they deny is not forwarded there, and its record is
    counted. All other groups are forwarded."""
    words, wanted, ranged = [], {}, {"igmp": 10, "mld": 20}
    for family, vlan in ranged.items():
        words += ["--deny", f"p1:{vlan}={RANGES[family][1]}", "--allow", f"p2:{vlan}={RANGES[family][1]}"]
    with Trunks([[10, 20], [-10, 20], [10, 20]]) as trunks:
        querier = trunks.querier(*words, *SLOW)
        querier.gathered()
        for vlan in (10, 20):
            places = sorted(it for it in trunks.places(vlan) if it[0] != "h3")
            for family in FAMILIES:
                for group, place in zip((GROUPS[family], MANY[family][0]), places):
                    for end, _ in places:
                        trunks.puts(end, vlan, report_frame(family, IS_EX, group, []))
                    wanted[vlan, SOURCES[family][0], group] = {place} if ranged[family] == vlan else set(places)
        trunks.gets("h3", wanted, 30)
        counts = {(port, vlan): (int(vlan == 10), int(vlan == 20)) if port != "p3" else (0, 0) for port in trunks.members for vlan in (10, 20)}
        found = denied(querier.status())
        is_true(found == counts, f"{found}, not {counts}")
        is_true(not querier.errors, f"{querier.errors}")


def put(trunks, *lines):
    """Writes the bridge's own file of options."""
    with open(f"{trunks.run}/br0.conf", "w", encoding="ascii") as to:
        to.write("".join(f"{line}\n" for line in lines))


def read_again(trunks, querier, *lines):
    put(trunks, *lines)
    querier.process.send_signal(signal.SIGHUP)


def ranges_are_read_again():
    """A file that is read again denies a group that hosts in two VLANs hold. In the denied one it stays until its timer ends, although a
    host there still asks for it. A file with a range before that allows the group again, and no other one."""
    with Trunks([[10, 20]] * 3) as trunks:  # at the third port nobody asks: it shows when the kernel floods no more
        querier = trunks.querier("--config", trunks.run)
        querier.gathered()
        held = {(vlan, SOURCES[family][0], GROUPS[family]): {("h1", vlan)} for vlan in (10, 20) for family in FAMILIES}
        for vlan in (10, 20):
            for family in FAMILIES:
                trunks.host("h1", vlan).do("join", GROUPS[family])
        trunks.gets("h2", held, 25)
        denying = [f"deny p1:10={RANGES[family][0]}" for family in FAMILIES]
        read_again(trunks, querier, *denying)
        time.sleep(1)
        trunks.gets("h2", held, 0.1)
        trunks.gets("h2", {it: places if it[0] == 20 else set() for it, places in held.items()}, MEMBERSHIP)
        counts = denied(querier.status())
        is_true(min(counts["p1", 10]) >= 1 and all(count == (0, 0) for place, count in counts.items() if place != ("p1", 10)), f"{counts}")
        read_again(trunks, querier, *(f"allow p1:10={ipaddress.ip_network(GROUPS[family])}" for family in FAMILIES), *denying)
        trunks.gets("h2", held, MEMBERSHIP)
        for family in FAMILIES:
            before = denied(querier.status())["p1", 10]
            trunks.puts("h1", 10, report_frame(family, IS_EX, BESIDE[family], []))
            querier.until(lambda it, old=before: denied(it)["p1", 10] > old, "denied beside the allowed group")
            is_true(("p1", 10, BESIDE[family]) not in trunks.entries(), f"{trunks.entries()}")
        trunks.gets("h2", held, 0.1)
        is_true(not querier.errors, f"{querier.errors}")


def vlans_are_read_again():
    """A file that is read again serves one more VLAN, with an address of its own, and later only that one, with another address. A VLAN
    that stays served keeps its groups. A fault has one line, and changes nothing."""
    with Trunks([[10, 20], [10, 20]]) as trunks:

        def serves(**own):
            wanted = {(port, int(vlan[1:])): address for port in trunks.members for vlan, address in own.items()}
            querier.until(lambda it: {(port["port"], port["vlan"]): port["igmp"].get("own") for port in it["ports"]} == wanted, f"served: {own}")

        def keeps(vlan):
            trunks.comes("p1", vlan, GROUPS["igmp"], ("exclude",), 1)
            link = next(port["igmp"] for port in querier.status()["ports"] if (port["port"], port["vlan"]) == ("p1", vlan))
            is_true("gathers" not in link and [it["group"] for it in link["groups"]] == [GROUPS["igmp"]], f"VLAN {vlan} began again: {link}")

        put(trunks, "vlans 10")
        querier = trunks.querier("--config", trunks.run, *SLOW)
        serves(v10="10.0.10.1")
        querier.gathered()
        trunks.puts("h1", 10, report_frame("igmp", IS_EX, GROUPS["igmp"], []))
        trunks.comes("p1", 10, GROUPS["igmp"], ("exclude",))
        read_again(trunks, querier, "vlans 10,20", "own 20=10.0.20.9")
        serves(v10="10.0.10.1", v20="10.0.20.9")
        keeps(10)
        querier.gathered()
        trunks.puts("h1", 20, report_frame("igmp", IS_EX, GROUPS["igmp"], []))
        trunks.comes("p1", 20, GROUPS["igmp"], ("exclude",))
        read_again(trunks, querier, "vlans 20", "own 20=10.0.20.8", "limit p1:20=0")
        time.sleep(1)
        serves(v10="10.0.10.1", v20="10.0.20.9")
        is_true(len(querier.errors) == 1 and "br0.conf:3: a limit is GROUPS or GROUPS,SOURCES" in querier.errors[0], f"{querier.errors}")
        read_again(trunks, querier, "vlans 20", "own 20=10.0.20.8")
        serves(v20="10.0.20.8")
        keeps(20)
        is_true({vlan for _, vlan, _ in trunks.entries()} == {20} and len(querier.errors) == 1, f"{trunks.entries()}, {querier.errors}")


def question_of(frame):
    """Returns the group of a query, and its Max Resp Time in milliseconds."""
    if own_of_query(frame)[0] == "igmp":
        return str(ipaddress.ip_address(frame[42:46])), 100 * frame[39]
    return str(ipaddress.ip_address(frame[70:86])), *struct.unpack(">H", frame[66:68])


def fast_leave_in_vlans():
    """Hosts leave, and no host answers. With fast leave, of a port in one VLAN or of a whole port, one query goes and the entry ends
    after 100 ms. Elsewhere two queries go, and it ends after both Last Member Query Intervals."""
    fast, usual = [("h1", 10), ("h2", 10), ("h2", 20)], [("h1", 20), ("h3", 10)]
    with Trunks([[10, 20], [-10, 20], [10]]) as trunks:
        entries = Entries(trunks)
        querier = trunks.querier("--fast-leave", "p1:10", "--fast-leave", "p2", *SLOW)
        querier.gathered()
        cases = [(end, vlan, family) for end, vlan in fast + usual for family in FAMILIES]
        for end, vlan, family in cases:
            trunks.puts(end, vlan, report_frame(family, IS_EX, GROUPS[family], []))
        for end, vlan, family in cases:
            trunks.comes(f"p{end[1]}", vlan, GROUPS[family], ("exclude",))
        trunks.forget()
        left, wanted = {}, collections.Counter()
        for end, vlan, family in cases:
            left[end, vlan, GROUPS[family]] = time.time_ns()
            trunks.puts(end, vlan, report_frame(family, TO_IN, GROUPS[family], []))
            tag = dict(trunks.places(vlan))[end]
            wanted[end, tag, GROUPS[family], FAST if (end, vlan) in fast else USUAL] = 1 if (end, vlan) in fast else 2
        heard = [(end, tag, *question_of(frame)) for end, tag, frame in trunks.heard(2.5) if own_of_query(frame)]
        asked = collections.Counter(it for it in heard if it[2] in GROUPS.values())
        is_true(asked == wanted, f"queries: {asked}, not {wanted}")
        changes = entries.changes()
        for place, begin in left.items():
            moment, last = changes[place][-1]
            took, least = (moment - begin) / 10**6, FAST if place[:2] in fast else 2 * USUAL
            is_true(last is None and least <= took <= least + LATE, f"{place}: {last} after {took:.0f} ms, not after {least}")
        is_true(not querier.errors, f"{querier.errors}")


CASES = [ranges_of_one_vlan, ranges_are_read_again, vlans_are_read_again, fast_leave_in_vlans]
