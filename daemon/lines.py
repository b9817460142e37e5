"""Cases of `switches` about limits, settings, names and files: what is served, and what a line tells."""

import os
import subprocess
import time

from fabric import FAMILIES, PROGRAM, Fabric, run
from frames import igmp_frame, report_frame, summed
from lab import ip, is_true

IS_EX, TO_IN = 2, 3
GREATEST = "--ports 1024 --groups 65535 --group-sources 1024 --sources 65535 --scheduled 65535".split()
SMALL = 256 << 20  # bytes


def leaves_many(fabric, count):
    """A host joins and leaves many groups. Returns the numbers of records that were not applied, by family."""
    querier = fabric.querier(*fabric.words)
    querier.gathered()
    fronts = {"igmp": lambda it: f"239.9.{it // 200}.{it % 200 + 1}", "mld": lambda it: f"ff0e::9:{it + 1:x}"}
    for kind in (IS_EX, TO_IN):
        for family, front in fronts.items():
            for number in range(count):
                fabric.hosts["b0h1"].put(report_frame(family, kind, front(number), []))
        time.sleep(0.3)
    port = querier.status()["ports"][0]
    return querier, {family: port[family]["refused"] for family in FAMILIES}


def limits_have_lines():
    """A host may leave 1,100 groups at once. With smaller limits, each that refuses has one line at each port, with its option."""
    for words, limit, count in (([], None, 1100), (["--scheduled", "32"], "--scheduled", 300), (["--groups", "200"], "--groups", 300)):
        with Fabric(2, 1) as fabric:
            fabric.words = words
            querier, refused = leaves_many(fabric, count)
            print(f"{' '.join(words) or 'defaults'}: {count} groups joined and left, refused {refused}", flush=True)
            told = [line for line in querier.errors if "exceeds" in line]
            is_true(querier.status()["faults"]["records_refused"] == sum(refused.values()), f"{refused}")
            is_true(len(told) == (2 if limit else 0) and all(f"b0p1: a record of {of} exceeds {limit} " in "\n".join(told) for of in ("IGMP", "MLD") if limit), f"{told}")
            is_true(all((it > 0) == bool(limit) for it in refused.values()), f"{refused}")


def the_greatest_limits():
    """At the greatest limits the querier runs `nft`, prints its status, and touches less than 256 MB of memory."""
    with Fabric(3, 1) as fabric:
        querier = fabric.querier(*GREATEST)
        querier.gathered()
        is_true("from_port" in run(fabric.near, "nft", "list", "ruleset"), "no rules")
        with open(f"/proc/{querier.process.pid}/status", encoding="ascii") as status:
            found = {line.split(":")[0]: int(line.split()[1]) << 10 for line in status if line.startswith("Vm")}
        print(f"greatest limits: {found['VmSize'] >> 20} MB of addresses, {found['VmRSS'] >> 20} MB resident", flush=True)
        is_true(found["VmRSS"] < SMALL and querier.end() == 0 and not querier.errors, f"{found}, {querier.errors}")


def settings_have_lines():
    """Without --setup each wrong setting has a line, also the ninth. With it, an administrator's port of a router stays one."""
    with Fabric(4, 1, setup=False) as fabric:
        for words in ("fastleave on", "mcast_to_unicast on"):
            run(fabric.near, "bridge", "link", "set", "dev", "b0p1", *words.split())
        querier = fabric.querier("--router-port", "nosuchport")
        querier.gathered()
        names = "mcast_igmp_version mcast_mld_version mcast_hash_max mcast_querier mcast_router mcast_fast_leave mcast_to_unicast nosuchport".split()
        missing = [name for name in names if not any(name in line for line in querier.errors)]
        is_true(not missing, f"no line: {missing}: {querier.errors}")
        is_true(querier.end() == 0, "it failed")
        ip("-n", fabric.near, "link", "set", "b0p2", "type", "bridge_slave", "mcast_router", "2")
        fabric.options = ["--setup"]
        querier = fabric.querier()
        querier.gathered()
        shown = ip("-n", fabric.near, "-d", "link", "show", "b0p2")
        is_true("mcast_router 2 " in shown and any("b0p2: mcast_router is 2 and stays" in line for line in querier.errors), f"{querier.errors}")
        fabric.hosts["b0h3"].put(igmp_frame("9.0.0.1", "224.0.0.1", summed(bytes.fromhex("11640000 00000000"))))
        fabric.hosts["b0h1"].put(igmp_frame("10.0.0.200", "224.0.0.1", summed(bytes.fromhex("11000000 00000000"))))
        querier.until(lambda it: it["faults"]["routers_heard"] >= 2, "two queries of older versions")
        for text in ("b0p3: 9.0.0.1 sends queries of IGMPv2", "b0p1: 10.0.0.200 sends queries of IGMPv1"):
            is_true(any(text in line for line in querier.errors), f"{text}: {querier.errors}")


def names_and_files():
    """Bridges of like names have rules of their own. Namespaces with one folder have files of their own. In a namespace one process
    serves a bridge, whatever its folder. With a full folder no setting changes."""
    with Fabric(1, 1) as fabric, Fabric(1, 1) as other:
        other.run = fabric.run
        for number, name in enumerate(("br-0", "br.0")):
            ip("-n", fabric.near, "link", "add", name, "type", "bridge")
            ip("-n", fabric.near, "address", "add", f"10.9.{number}.1/24", "dev", name)
            run(fabric.near, "sh", "-c", f"ip link add q{number} type veth peer name r{number}; ip link set q{number} master {name} up; ip link set r{number} up; ip link set {name} up")
        fabric.bridges += ["br-0", "br.0"]
        queriers = [one.querier() for one in (fabric, other)]
        for querier in queriers:
            querier.gathered()
        rules = run(fabric.near, "nft", "list", "tables")
        is_true(rules.count("table bridge mquerier_") == 3, rules)
        is_true(len(queriers[1].status()["ports"]) == 1 and not queriers[1].errors, f"{queriers[1].errors}")
        metrics = [subprocess.run(["ip", "netns", "exec", fabric.near, PROGRAM, "status", name, "--metrics", "--run", fabric.run], capture_output=True, text=True, check=True).stdout for name in fabric.bridges]
        is_true("".join(metrics).count("\nmquerier_frames_lost_total ") == 1, "a counter of faults stands twice")
        for words, text in (
            (["bridge", "br0", "--run", f"{fabric.run}/other"], "br0: another mquerier-live serves it"),
            (["bridge", "br0", "br0"], "named twice: br0"),
            (["bridge", "lo"], "lo: it is no bridge"),
            (["interface", "lo", "igmp", "--own", "10.0.0.1", "--setup"], "that option is for bridge, not for interface: --setup"),
            (["bridge", "br0", "--report"], "--report is for a --router-port"),
        ):
            ran = subprocess.run(["ip", "netns", "exec", fabric.near, PROGRAM, *words], capture_output=True, text=True, check=False)
            is_true(ran.returncode > 0 and text in ran.stderr, f"{words}: {ran}")
        is_true(subprocess.run([PROGRAM, "--version"], capture_output=True, text=True, check=True).stdout.startswith("mquerier-live "), "no version")


def a_full_folder():
    """If the earlier settings cannot be written down, they stay, and a line says so. Without `nft` a line says so too."""
    with Fabric(1, 1) as fabric:
        os.mkdir(f"{fabric.run}/full")
        script = f"mount -t tmpfs -o size=4k none {fabric.run}/full; mkdir {fabric.run}/full/br0; head -c 9999 /dev/zero > {fabric.run}/full/used; exec \"$@\""
        before = ip("-n", fabric.near, "-d", "link", "show", "br0").split("mcast_snooping")[1]
        querier = fabric.querier("--run", f"{fabric.run}/full", before=["unshare", "--mount", "sh", "-c", script, "sh"])
        limit = time.monotonic() + 10
        while not any("can't be written down" in line for line in querier.errors):
            is_true(time.monotonic() < limit and querier.process.poll() is None, f"{querier.errors}")
            time.sleep(0.1)
        time.sleep(3)
        found = ip("-n", fabric.near, "-d", "link", "show", "br0").split("mcast_snooping")[1]
        is_true(found == before, f"{before}, then {found}")
        querier.end()
        querier = fabric.querier(before=["env", "PATH=/nowhere"])
        querier.until(lambda it: it["faults"]["netlink_refusals"] > 0, "nft missed")
        is_true(any("nft can't be run" in line and "No such file" in line for line in querier.errors), f"{querier.errors}")


CASES = [limits_have_lines, the_greatest_limits, settings_have_lines, names_and_files, a_full_folder]
