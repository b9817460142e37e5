"""Cases of the live test with a bridge that snoops. The querier keeps its database for the port of host 2."""

import ipaddress
import json
import os
import signal
import subprocess
import time

from frames import data_frame, report_frame
from lab import GROUPS, MANY, MEMBERSHIP, PROGRAM, SOURCES, Wrong, ip, is_true

SNOOPING = "mcast_snooping 1 mcast_querier 0 mcast_igmp_version 3 mcast_mld_version 2 mcast_hash_max 65536".split()
PORT = "p2"
PROTOCOL = {"igmp": "211", "mld": "212"}  # what the entries say of who made them
OTHERS = {"igmp": ["239.7.7.1", "239.7.7.2"], "mld": ["ff0e::7:1", "ff0e::7:2"]}
ALWAYS = {"igmp": "224.0.0.251", "mld": "ff02::fb"}  # of IGMP forwarded without an entry
IS_IN, IS_EX = 1, 2
GREATEST_LIST = 31
KIND = {"igmp": "ip protocol igmp", "mld": "icmpv6 type { 130, 131, 132, 143 }"}


def snooping(lab):
    """Makes the bridge snoop, and adds a host."""
    ip("-n", lab.switch, "link", "set", "br0", "type", "bridge", *SNOOPING)
    return lab.host(2)


def keeper(lab, *options, port=PORT, interface=None, family=None):
    """Starts a querier that keeps the database for a port, at that port or at the bridge."""
    return lab.querier_at(lab.switch, interface or port, 1, "--mdb", "br0", port, "--changes", *options, family=family)


def bridge(lab, *words):
    ran = subprocess.run(["bridge", "-n", lab.switch, *words], capture_output=True, text=True, check=False)
    if ran.returncode:
        raise Wrong(f"bridge {' '.join(words)}: {ran.stderr.strip()}")
    return ran.stdout


def entries(lab):
    """Returns the entries of the database."""
    return json.loads(bridge(lab, "-d", "-j", "mdb", "show", "dev", "br0"))[0]["mdb"]


def written(mode, sources):
    sources = sorted(sources, key=ipaddress.ip_address)
    return " ".join([mode, *(("!" if mode == "exclude" else "") + source for source in sources)])


def kept(lab, family=None, port=PORT):
    """Returns the filters of the querier's permanent entries at a port by group, in the form of lines of changes."""
    found = [it for it in entries(lab) if it.get("protocol") == PROTOCOL[family or lab.family] and "src" not in it]
    found = [it for it in found if it["port"] == port and it["state"] == "permanent"]
    return {it["grp"]: written(it["filter_mode"], [one["address"] for one in it.get("source_list", [])]) for it in found}


def forwarded(state):
    """Returns the filters of a printed state by group, without the groups that a bridge always forwards."""
    found = {}
    for group, (mode, *words) in state.groups.items():
        chosen = [word for word in words if (word.startswith("!") if mode == "exclude" else "=" in word)]
        if not group.startswith("224.0.0."):
            found[group] = written(mode, [word.lstrip("!").split("=")[0] for word in chosen])
    return found


def agreed(lab, querier):
    """Returns the filters by group, which the querier and the database agree on while the querier changes nothing."""
    for _ in range(50):
        before, found, after = forwarded(querier.state()), kept(lab), forwarded(querier.state())
        if before == after:
            wrong = {it: (before.get(it), found.get(it)) for it in {*before, *found} if before.get(it) != found.get(it)}
            is_true(not wrong, f"held and kept: {dict(list(wrong.items())[:9])}")
            return found
    raise Wrong("it changes all the time")


def comes_to(lab, querier, group, wanted, seconds=6):
    """Waits until the filter of a group is as wanted, and compares the database."""
    querier.until(lambda state: forwarded(state).get(group) == wanted, f"{group} {wanted}", seconds)
    is_true(agreed(lab, querier).get(group) == wanted, "it changed by itself")


def changes(querier, group):
    """Returns the lines of a group's changes, without times."""
    words = [line.split(" ", 3) for line in querier.lines if f" change {group} " in line]
    return [it[3] for it in words]


def joins_and_leaves(lab):
    """A host joins a group and leaves it, and stays in a higher group and in a group that bridges always forward."""
    group, higher, host = GROUPS[lab.family], OTHERS[lab.family][1], snooping(lab)
    querier = keeper(lab)
    host.do("join", group, 1)
    host.do("join", higher, 1)
    host.do("join", ALWAYS[lab.family], 1)
    querier.has(ALWAYS[lab.family], "exclude")
    comes_to(lab, querier, group, "exclude")
    time.sleep(MEMBERSHIP / 1000 + 0.5)
    comes_to(lab, querier, group, "exclude", 0)
    host.do("leave", group, 1)
    comes_to(lab, querier, group, None)
    comes_to(lab, querier, higher, "exclude", 0)
    is_true(changes(querier, group) == ["exclude", "none"], f"{changes(querier, group)}")
    always = f"mquerier-live: mdb {ALWAYS['igmp']} at {PORT}: the kernel forwards 224.0.0.0/24 always, and takes no entry for it"
    is_true(querier.errors == [always] * (lab.family == "igmp"), f"{querier.errors}")


def sources_come_and_go(lab):
    group, (one, other), host = GROUPS[lab.family], SOURCES[lab.family], snooping(lab)
    querier = keeper(lab)
    wanted = [f"include {one}", f"include {one} {other}", f"include {other}", "none"]
    steps = [("allow", one), ("allow", other), ("disallow", one), ("disallow", other)]
    for (word, source), then in zip(steps, wanted):
        host.do(word, group, source)
        comes_to(lab, querier, group, None if then == "none" else then)
    is_true(changes(querier, group) == wanted, f"{changes(querier, group)}")


def a_source_is_blocked(lab):
    group, one, host = GROUPS[lab.family], SOURCES[lab.family][0], snooping(lab)
    querier = keeper(lab)
    host.do("join", group, 1)
    comes_to(lab, querier, group, "exclude")
    host.do("block", group, one)
    comes_to(lab, querier, group, f"exclude !{one}")
    host.do("unblock", group, one)
    comes_to(lab, querier, group, "exclude")
    is_true(changes(querier, group) == ["exclude", f"exclude !{one}", "exclude"], f"{changes(querier, group)}")


def ends_by_timers(lab):
    """No host answers for two groups, one in EXCLUDE mode and one in INCLUDE mode."""
    (group, other), sources, host = OTHERS[lab.family], SOURCES[lab.family], snooping(lab)
    querier = keeper(lab)
    host.do("put", report_frame(lab.family, IS_EX, group, sources[:1]).hex())
    host.do("put", report_frame(lab.family, IS_IN, other, sources).hex())
    comes_to(lab, querier, group, f"exclude !{sources[0]}")
    comes_to(lab, querier, other, f"include {sources[0]} {sources[1]}")
    comes_to(lab, querier, group, None, MEMBERSHIP / 1000 + 1)
    comes_to(lab, querier, other, None)


def one_source_for_another(lab):
    """The timer of a source expires in the call in which another source arrives. The querier is stopped meanwhile."""
    (group, _), (one, other), host = OTHERS[lab.family], SOURCES[lab.family], snooping(lab)
    querier = keeper(lab, "--rv", "1", "--qi", "8")  # timers of 9 s, and it is stopped for less than a Query Interval
    host.do("put", report_frame(lab.family, IS_IN, group, [one]).hex())
    comes_to(lab, querier, group, f"include {one}")
    state = querier.state()
    left = int(state.groups[group][-1].split("=")[1]) - state.moment
    time.sleep(max(0, left / 1000 - 4))
    querier.process.send_signal(signal.SIGSTOP)
    host.do("put", report_frame(lab.family, IS_IN, group, [other]).hex())
    time.sleep(5)
    querier.process.send_signal(signal.SIGCONT)
    querier.line(lambda line: f" change {group} include {other}" in line, "the other source")  # a signal would call for a tick
    comes_to(lab, querier, group, f"include {other}")
    is_true(changes(querier, group) == [f"include {one}", f"include {other}"], f"{changes(querier, group)}")


def many_at_once(lab):
    """A host joins 1,024 groups at once, leaves them at once, and joins again. At the end no entry is left."""
    host = snooping(lab)
    querier = keeper(lab, "--groups", "1100", "--scheduled", "1100")
    if lab.family == "igmp":
        host.do("set", "ipv4/igmp_max_memberships", "2000")
    first, front = MANY[lab.family]

    def are_held(count):
        querier.until(lambda state: sum(group.startswith(front) for group in state.groups) == count, f"{count} groups", 9)
        found = agreed(lab, querier)
        is_true(sum(group.startswith(front) for group in found) == count, f"{len(found)} entries")

    host.do("join", first, 1024)
    are_held(1024)
    host.do("leave", first, 1024)
    are_held(0)
    host.do("join", first, 1024)
    are_held(1024)
    told = [line.split(" ", 3) for line in querier.lines if f" change {front}" in line]
    for what in ("exclude", "none"):
        moments = [int(it[0]) for it in told if it[3] == what]
        is_true(len(moments) == (2048 if what == "exclude" else 1024), f"{len(moments)} changes to {what}")
    is_true(querier.end() == 0 and not kept(lab) and not querier.errors, f"{len(kept(lab))} left, {querier.errors}")


def those_of_others_stay(lab):
    """Entries of other programs stay as they are, even if the host joins their group. So do the kernel's own entries of a port."""
    group, (mine, both), host, third = GROUPS[lab.family], OTHERS[lab.family], snooping(lab), lab.host(3)
    other_family = OTHERS["mld" if lab.family == "igmp" else "igmp"][0]
    made = {(mine, PORT), (both, PORT), (mine, "p3"), (other_family, PORT)}
    for it, port in made:
        bridge(lab, "mdb", "add", "dev", "br0", "port", port, "grp", it, "permanent")
    third.do("join", both, 1)
    third.do("join", group, 1)
    querier = keeper(lab)
    host.do("join", both, 1)
    host.do("join", group, 1)
    querier.error(f"mdb {both} at {PORT}: there is an entry of another's, which stays")
    querier.has(group, "exclude")
    host.do("leave", both, 1)
    querier.has(both, None)
    is_true(kept(lab).get(group) == "exclude", "no entry of its own")
    is_true(querier.end() == 0 and not kept(lab), "something of its own is left")
    found = {(it["grp"], it["port"], it["protocol"]) for it in entries(lab) if it["port"] != "br0"}
    is_true((group, PORT, PROTOCOL[lab.family]) in found, "its own entry isn't left to the kernel")
    found = {it for it in found if it[2] != PROTOCOL[lab.family]}
    is_true({it[:2] for it in found if it[2] == "static"} == made, f"{found}")
    is_true({it[2] for it in found} == {"static", "kernel"}, f"{found}")
    is_true({(both, "p3", "kernel"), (group, "p3", "kernel")} <= found, f"{found}")


def what_was_left(lab):
    """The next querier of the family inherits the entries of a killed one. They stay until hosts have answered, then the unwanted
    ones go. Entries of the other family stay."""
    group, host, other = GROUPS[lab.family], snooping(lab), "mld" if lab.family == "igmp" else "igmp"
    first, beside = keeper(lab), keeper(lab, family=other)
    host.do("join", group, 1)
    host.do("put", report_frame(other, IS_EX, GROUPS[other], []).hex())
    comes_to(lab, first, group, "exclude")
    beside.has(GROUPS[other], "exclude")
    first.process.send_signal(signal.SIGKILL)
    first.process.wait(10)
    is_true(kept(lab).get(group) == "exclude", "nothing is left of one that was killed")
    host.do("leave", group, 1)
    second = keeper(lab)
    is_true(kept(lab).get(group) == "exclude" and group not in second.state().groups, "it isn't inherited")
    second.until(lambda _: group not in kept(lab), "removed")
    is_true(second.end() == 0 and kept(lab, other).get(GROUPS[other]) == "exclude", "that of the other family is gone")


def modes_change(lab):
    """A bridge hears two hosts: one wants a source, the other wants any source for a while."""
    group, one, host = GROUPS[lab.family], SOURCES[lab.family][0], snooping(lab)
    third = lab.host(3)
    querier = keeper(lab, interface="br0")
    host.do("allow", group, one)
    comes_to(lab, querier, group, f"include {one}")
    third.do("join", group, 1)
    comes_to(lab, querier, group, "exclude")
    third.do("leave", group, 1)
    comes_to(lab, querier, group, f"include {one}")
    is_true(changes(querier, group) == [f"include {one}", "exclude", f"include {one}"], f"{changes(querier, group)}")


def frames_with_a_tag(lab):
    """The querier does not hear frames of a VLAN at a port."""
    (group, other), host = OTHERS[lab.family], snooping(lab)
    querier = keeper(lab)
    frame = report_frame(lab.family, IS_EX, group, []).hex()
    host.do("put", frame[:24] + "81000005" + frame[24:])
    host.do("put", report_frame(lab.family, IS_EX, other, []).hex())
    querier.has(other, "exclude")
    is_true(group not in querier.state().groups, "it was heard")


def more_sources(lab):
    """A group with more sources than an entry can have is forwarded whole. A group with 31 sources has all of them in its entry,
    also later."""
    (group, other), host = OTHERS[lab.family], snooping(lab)
    querier = keeper(lab)
    front = "10.9.8." if lab.family == "igmp" else "2001:db8::"
    most = [f"{front}{number + 1}" for number in range(9)] + [f"{front}{number}" for number in range(20, 43)]
    host.do("put", report_frame(lab.family, IS_IN, other, most[:GREATEST_LIST]).hex())
    comes_to(lab, querier, other, written("include", most[:GREATEST_LIST]))
    is_true(not querier.errors, f"{querier.errors}")
    host.do("put", report_frame(lab.family, IS_IN, group, most).hex())
    querier.error(f"mdb {group} at {PORT}: more sources than the kernel takes: all are forwarded")
    querier.state()  # the lines of changes are there by then
    is_true(changes(querier, group) == [written("include", most)], f"{changes(querier, group)}")
    is_true(kept(lab).get(group) == "exclude", "it isn't forwarded whole")
    time.sleep(MEMBERSHIP / 1000 / 2)
    host.do("put", report_frame(lab.family, IS_IN, group, most[:GREATEST_LIST]).hex())
    comes_to(lab, querier, group, written("include", most[:GREATEST_LIST]), MEMBERSHIP / 1000 / 2 + 1)
    querier.until(lambda state: not {group, other} & set(state.groups), "ended", MEMBERSHIP / 1000 + 1)
    is_true(not agreed(lab, querier).keys() & {group, other}, "it is still there")


def refusals_are_told(lab):
    """The bridge does not snoop for a while. The querier prints the rejected entries, and goes on."""
    (group, other), host = OTHERS[lab.family], snooping(lab)
    querier = keeper(lab)
    ip("-n", lab.switch, "link", "set", "br0", "type", "bridge", "mcast_snooping", "0")
    host.do("join", group, 1)
    querier.error(f"mdb {group} at {PORT}: ")
    is_true(querier.state().shape(group) == "exclude" and group not in kept(lab), "it has an entry")
    ip("-n", lab.switch, "link", "set", "br0", "type", "bridge", "mcast_snooping", "1")
    host.do("join", other, 1)
    querier.has(other, "exclude")
    is_true(kept(lab).get(other) == "exclude", "no entry")
    is_true(querier.end() == 0 and not kept(lab), "something is left")


def settings_are_told(lab):
    """At a bridge with the settings of the kernel and without snooping, the querier prints each wrong setting, and no other."""
    lab.host(2)
    ip("-n", lab.switch, "link", "set", "br0", "type", "bridge", "mcast_hash_max", "4096")
    name, version = ("mcast_igmp_version", 3) if lab.family == "igmp" else ("mcast_mld_version", 2)
    told = [
        "br0: mcast_snooping is 0, and should be 1: it takes no entry, and floods",
        f"br0: {name} is {version - 1}, and should be {version}: it looks at no source",
        "br0: mcast_hash_max is 4096, and should be 4097: with more entries it snoops no more",
    ]
    for groups, lines in (("97", told), ("96", told[:2])):
        querier = keeper(lab, "--groups", groups, "--sources", "4000")
        is_true(querier.end() == 0, f"{querier.errors}")
        # The bridge takes no entry for the group of the host's own address, which the host reports at any time.
        said = [line for line in querier.errors if not line.startswith("mquerier-live: mdb ff02::1:ff")]
        is_true(said == [f"mquerier-live: {line}" for line in lines], f"{querier.errors}")


def only_one_privilege(lab):
    """The process is nobody. It has only CAP_NET_ADMIN, and only sockets and the files that it waits with are open."""
    snooping(lab)
    querier = keeper(lab)
    place = f"/proc/{querier.process.pid}"
    with open(f"{place}/status", encoding="ascii") as status:
        fields = dict(line.rstrip("\n").split(":\t", 1) for line in status if ":\t" in line)
    is_true(fields["Uid"].split() == fields["Gid"].split() == ["65534"] * 4, f"{fields['Uid']} {fields['Gid']}")
    wanted = {"CapPrm": 1 << 12, "CapEff": 1 << 12, "CapInh": 0, "CapAmb": 0}
    is_true({name: int(fields[name], 16) for name in wanted} == wanted, f"{fields}")
    is_true(fields["NoNewPrivs"] == "1" and not fields["Groups"].strip(), "new privileges or groups")
    opened = [os.readlink(f"{place}/fd/{name}") for name in os.listdir(f"{place}/fd") if int(name) > 2]
    is_true(all(it.startswith(("socket:", "anon_inode:")) for it in opened), f"open: {opened}")


def refused_databases(lab):
    """The querier rejects what it cannot keep, with one line and the status, and sends no query."""
    snooping(lab)
    lab.host(3)
    ip("-n", lab.switch, "link", "add", "br1", "type", "bridge")
    ip("-n", lab.switch, "link", "set", "p3", "nomaster", "up")
    weak = ["setpriv", "--bounding-set=-net_admin"]
    for status, before, words, why in [
        (2, [], ["br0"], "--mdb wants a bridge and a port of it"),
        (2, [], ["br0", "--changes"], "--mdb wants a bridge and a port of it"),
        (1, [], ["br9", PORT], "br9: No such device"),
        (1, [], ["br0", "p9"], "p9: No such device"),
        (1, [], ["br0", "p3"], "p3: it is no port of the bridge"),
        (1, [], ["br1", PORT], f"{PORT}: it is no port of the bridge"),
        (1, [], ["p3", PORT], "p3: Device does not support MDB"),
        (1, [], ["br0", "a-name-that-no-port-has"], "a-name-that-no-port-has: No such device"),
        (1, weak, ["br0", PORT], "br0: Operation not permitted"),
    ]:
        command = [*before, PROGRAM, "interface", PORT, "igmp", "--own", "10.0.0.1", "--mdb", *words]
        command = ["ip", "netns", "exec", lab.switch, *command]
        ran = subprocess.run(command, capture_output=True, text=True, timeout=10, check=False)
        is_true(ran.returncode == status and ran.stdout == "" and why in ran.stderr, f"{words}: {ran}")
        is_true(ran.stderr.count("\n") == 1, f"{words}: {ran}")


def comes_to_each(sender, hosts, wanted):
    """Waits until each host receives the wanted datagrams, which are pairs of a source and a group, and no others."""
    for host in hosts:
        host.do("listen")

    def found(case):
        frame = data_frame(*case).hex()
        sender.do("put", frame)
        time.sleep(0.05)
        return [host.ask("heard", frame) == "yes" for host in hosts]

    limit = time.monotonic() + 15  # once it knows of a querier, a bridge waits for a query's response time
    while (seen := {case: found(case) for case in wanted}) != wanted and time.monotonic() < limit:
        time.sleep(0.3)
    is_true(seen == wanted, f"{seen}, not {wanted}")


def forwards(lab, interface):
    """The host receives from another port what the querier forwards, with both ways to have a bridge use its database."""
    (group, other), (one, two), host, third = OTHERS[lab.family], SOURCES[lab.family], snooping(lab), lab.host(3)
    if interface == PORT:
        has_the_kernel_kept_out(lab, PORT)
    querier = keeper(lab, interface=interface)
    host.do("allow", group, one)
    host.do("join", other, 1)
    host.do("block", other, one)
    comes_to(lab, querier, group, f"include {one}")
    comes_to(lab, querier, other, f"exclude !{one}")
    nobodys = GROUPS[lab.family]
    wanted = {(one, group): [True], (two, group): [False], (one, other): [False], (two, other): [True]}
    comes_to_each(third, [host], {**wanted, (one, nobodys): [False], (two, nobodys): [False]})
    if interface == PORT:
        learned = [it for it in entries(lab) if it["port"] == PORT and it["state"] != "permanent"]
        is_true(not learned, f"the kernel made {learned}")


def two_ports(lab):
    """A switch has a querier for each of two ports. Each host receives what it asks for, and no more."""
    (group, other), (one, two), host, third = OTHERS[lab.family], SOURCES[lab.family], snooping(lab), lab.host(3)
    has_the_kernel_kept_out(lab, PORT, "p3")
    first, second = keeper(lab), keeper(lab, port="p3")
    host.do("allow", group, one)
    third.do("join", group, 1)
    third.do("block", group, one)
    third.do("allow", other, two)
    comes_to(lab, first, group, f"include {one}")
    second.until(lambda state: forwarded(state).get(group) == f"exclude !{one}", "blocked")
    wanted = {group: f"exclude !{one}", other: f"include {two}"}
    is_true(kept(lab, port="p3").items() >= wanted.items(), f"{kept(lab, port='p3')}")
    is_true(other not in first.state().groups, "a Report came through the bridge")
    cases = {(one, group): [True, False], (two, group): [False, True]}
    cases |= {(one, other): [False, False], (two, other): [False, True]}
    comes_to_each(lab.host(4), [host, third], cases)
    is_true(first.end() == 0 and not kept(lab) and kept(lab, port="p3").items() >= wanted.items(), "another's are gone")


RULES = """table bridge querier {{
    chain from_port {{ type filter hook prerouting priority 0; iifname {{ {ports} }} {kind} drop; }}
    chain to_port {{ type filter hook postrouting priority 0; oifname {{ {ports} }} {kind} drop; }}
    chain own_to_port {{ type filter hook output priority 0; oifname {{ {ports} }} {kind} drop; }}
}}"""


def has_the_kernel_kept_out(lab, *ports):
    """The kernel takes itself for the querier, but neither hears nor sends messages of the protocol at these ports. For MLD it is
    querier only with a link-local address."""
    rules = RULES.format(ports=", ".join(f'"{port}"' for port in ports), kind=KIND[lab.family])
    words = ["ip", "netns", "exec", lab.switch, "nft", "-f", "-"]
    ran = subprocess.run(words, input=rules, capture_output=True, text=True, check=False)
    is_true(ran.returncode == 0, f"nft: {ran.stderr}")
    limit = time.monotonic() + 10
    while not ip("-n", lab.switch, "-6", "address", "show", "dev", "br0", "scope", "link", "-tentative"):
        is_true(time.monotonic() < limit, "the bridge has no link-local address")
        time.sleep(0.1)
    ip("-n", lab.switch, "link", "set", "br0", "type", "bridge", "mcast_querier", "1")


BOTH = [joins_and_leaves, sources_come_and_go, a_source_is_blocked, ends_by_timers, one_source_for_another, many_at_once]
BOTH += [those_of_others_stay, what_was_left, more_sources, refusals_are_told, modes_change, frames_with_a_tag]
BOTH += [two_ports, settings_are_told]
CASES = [(f"{family}: bridge: {case.__name__}", family, case, ()) for family in ("igmp", "mld") for case in BOTH] + [
    (f"{family}: bridge: forwards, querier at {interface}", family, forwards, (interface,))
    for family in ("igmp", "mld")
    for interface in (PORT, "br0")
] + [
    ("igmp: bridge: only_one_privilege", "igmp", only_one_privilege, ()),
    ("igmp: bridge: refused_databases", "igmp", refused_databases, ()),
]
