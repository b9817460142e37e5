"""The routers on which conform is tested. Each is started at one end of a lab's link."""

import glob
import os
import shutil
import subprocess
import threading
import time

from lab import OWN, TOP, Failed, run

LIVE = f"{TOP}/bin/mquerier-live"
# Programs of Debian that can't be installed side by side are unpacked here.
UNPACKED = f"{TOP}/bin/peers"
LIMITS = "--groups 4096 --sources 65535 --group-sources 1024 --scheduled 4096".split()
FRR = {
    "igmp": "ip pim rp 10.9.9.254\ninterface q0\n ip igmp\n{} ip pim\ninterface u0\n ip pim\n",
    "mld": "interface q0\n ipv6 mld\n{}interface u0\n ipv6 pim\n",
}
# FRR's names of variables, whose spans are seconds and tenths of one.
FRR_NAMES = {"--qi": ("query-interval", 1), "--qri": ("query-max-response-time", 100)}
# The packages of Debian 13 that pim6d needs in addition.
FRR_13 = "frr libcares2 libjson-c5 liblua5.3-0 libpcre2-8-0 libprotobuf-c1 libreadline8t64 libunwind8 libxxhash0 libyang3"
# One at a time installs.
MAKING = threading.RLock()
PIMD = """phyint q0 enable igmpv3
phyint u0 enable
igmp-query-interval 125
bsr-candidate u0 priority 5
rp-candidate u0 time 30 priority 20
group-prefix 224.0.0.0 masklen 4
"""
IGMPPROXY = """quickleave
phyint u0 upstream ratelimit 0 threshold 1
 altnet 10.0.0.0/8
phyint q0 downstream ratelimit 0 threshold 1
phyint lo disabled
"""


def installed(package, program):
    """Returns the program of a package of Debian, and installs it if it is missing. None if that fails."""
    with MAKING:
        if not os.path.exists(program):
            quiet = {"env": {**os.environ, "DEBIAN_FRONTEND": "noninteractive", "RUNLEVEL": "1"}, "stdout": subprocess.DEVNULL, "stderr": subprocess.DEVNULL}
            words = ["apt-get", "install", "-y", "-q", "--no-install-recommends", package]
            if subprocess.run(words, check=False, **quiet).returncode:
                subprocess.run(["apt-get", "update", "-q"], check=False, **quiet)
                subprocess.run(words, check=False, **quiet)
    return program if os.path.exists(program) else None


def unpacked(package, program):
    """The program of a package that is unpacked and not installed."""
    place = f"{UNPACKED}/{package}"
    with MAKING:
        if not os.path.exists(f"{place}{program}"):
            os.makedirs(place, exist_ok=True)
            subprocess.run(["apt-get", "download", "-q", package], cwd=place, capture_output=True, check=False)
            for name in os.listdir(place):
                if name.endswith(".deb"):
                    subprocess.run(["dpkg", "-x", f"{place}/{name}", place], capture_output=True, check=False)
    return f"{place}{program}" if os.path.exists(f"{place}{program}") else None


def put(lab, name, text):
    """A file of the lab's own."""
    place = f"/tmp/{lab.space}.{name}"
    with open(place, "w", encoding="utf-8") as it:
        it.write(text)
    return place


# Each answers the options of conform besides the family, the router and its variables.


def live(lab, family, variables=()):
    """bin/mquerier-live. It keeps the source-specific range and can be restarted."""
    if not os.access(LIVE, os.X_OK):
        raise Failed("bin/mquerier-live is not there: `make live` builds it")
    lab.both()
    words = [LIVE, "interface", "q0", family, "--own", OWN[family], *without_within(variables), *LIMITS, "--ssm"]
    place = put(lab, "restart", f"#!/bin/sh\nkill $(cat /tmp/{lab.space}.pid)\nsleep 0.3\nexec /bin/sh /tmp/{lab.space}.start\n")
    put(lab, "start", f"chrt -r 1 {' '.join(words)} < /dev/null > /tmp/{lab.space}.live 2>&1 &\necho $! > /tmp/{lab.space}.pid\n")
    run(*lab.words("sh", f"/tmp/{lab.space}.start"))
    return ["--ssm", "--restart", f"sh {place}"]


def without_within(variables):
    """The variables that a router has: all but the tolerance."""
    pairs = zip(variables[::2], variables[1::2])
    return [word for pair in pairs for word in pair if pair[0] != "--within"]


def bridge(lab, family):
    """A bridge of the kernel as querier of its ports, which forwards from one of them to the other."""
    a_bridge(lab, "mcast_querier 1 mcast_query_use_ifaddr 1")
    lab.setting("ipv6/conf/br0/accept_dad", 0)
    lab.address("br0", "10.0.0.9/24", "fe80::9/64")
    return ["--upstream", "v0"]


def a_bridge(lab, how):
    lab.ip("link", "add", "br0", "type", "bridge", "mcast_snooping", "1", *how.split(), "mcast_igmp_version", "3", "mcast_mld_version", "2")
    for name in ("q0", "u0"):
        lab.setting(f"ipv6/conf/{name}/disable_ipv6", 1)
        lab.ip("link", "set", name, "master", "br0", "up")


def live_bridge(lab, family):
    """bin/mquerier-live with --mdb: it decides what a bridge forwards to its port."""
    if not os.access(LIVE, os.X_OK):
        raise Failed("bin/mquerier-live is not there: `make live` builds it")
    a_bridge(lab, "mcast_querier 0 mcast_hash_max 65536")
    lab.address("br0", "10.0.0.9/24", "fe80::9/64")
    lab.ip("link", "set", "q0", "type", "bridge_slave", "mcast_router", "0")
    lab.start(LIVE, "interface", "br0", family, "--own", OWN[family], *LIMITS, "--mdb", "br0", "q0", until=" send ")
    return ["--upstream", "v0"]


def live_switch(lab, family):
    """bin/mquerier-live as the querier of all ports of a bridge, which it sets up itself."""
    if not os.access(LIVE, os.X_OK):
        raise Failed("bin/mquerier-live is not there: `make live` builds it")
    a_bridge(lab, "mcast_querier 0")
    lab.address("br0", "10.0.0.9/24", "fe80::9/64")
    own = "--own6" if family == "mld" else "--own"
    place = f"/tmp/{lab.space}.run"
    lab.start(LIVE, "bridge", "br0", "--setup", "--family", family, own, OWN[family], *LIMITS, "--ports", "2", "--run", place)
    wait_for(f"{place}/br0/status-*")
    return ["--upstream", "v0"]


def live_route(lab, family):
    """bin/mquerier-live as a multicast router between the two links."""
    if not os.access(LIVE, os.X_OK):
        raise Failed("bin/mquerier-live is not there: `make live` builds it")
    lab.both()
    own = "--own6" if family == "mld" else "--own"
    place = f"/tmp/{lab.space}.run"
    words = ["route", "--upstream", "u0", "q0", "--scope", "8", "--family", family, own, OWN[family], *LIMITS, "--ports", "1", "--run", place]
    lab.start(LIVE, *words)
    wait_for(f"{place}/u0/status*")
    return ["--upstream", "v0"]


def debian_13():
    """Returns a folder with Debian 13 and its FRR, and makes it if it is missing. The FRR of Debian 12 has no pim6d."""
    place = f"{UNPACKED}/trixie"
    with MAKING:
        if not os.path.exists(f"{place}/usr/lib/frr/pim6d"):
            installed("debootstrap", "/usr/sbin/debootstrap")
            shutil.rmtree(place, ignore_errors=True)
            os.makedirs(UNPACKED, exist_ok=True)
            run("debootstrap", "--variant=minbase", "trixie", place, "http://deb.debian.org/debian")
            words = f"apt-get update -q; apt-get download -q {FRR_13}; for it in *.deb; do dpkg -x $it /; done; rm *.deb; groupadd -r frrvty; usermod -aG frrvty root"
            run("chroot", place, "sh", "-ec", f"cd /root; {words}")
    return place


def frr(lab, family, variables=()):
    """FRR: its pimd of Debian 12, its pim6d of Debian 13."""
    daemon = f"/usr/lib/frr/{'pimd' if family == 'igmp' else 'pim6d'}"
    root = "" if family == "igmp" else debian_13()
    if not root and not installed("frr", daemon):
        raise Failed(f"{daemon} is not there")
    lab.both()
    place = f"/tmp/{lab.space}.frr"
    os.makedirs(f"{root}{place}", exist_ok=True)
    said = [(FRR_NAMES[name], int(value)) for name, value in zip(variables[::2], variables[1::2])]
    prefix = {"igmp": "ip igmp", "mld": "ipv6 mld"}[family]
    lines = [f" {prefix} {name} {value // unit}\n" for (name, unit), value in said]
    for name, text in (("zebra", ""), ("pim", FRR[family].format("".join(lines)))):
        with open(f"{root}{place}/{name}.conf", "w", encoding="utf-8") as it:
            it.write(text)
    if not root:
        shutil.chown(place, "frr", "frr")
    inside = ["unshare", "--mount", "sh", "-c", f'mount -t proc proc {root}/proc; exec chroot {root} "$@"', "chroot"] if root else []
    how = ["-z", f"{place}/zebra.sock", "--vty_socket", place, "-P", "0", *(["-u", "root", "-g", "root"] if root else [])]
    lab.start(*inside, "/usr/lib/frr/zebra", *how, "-i", f"{place}/zebra.pid", "-f", f"{place}/zebra.conf")
    wait_for(f"{root}{place}/zebra.sock")
    lab.start(*inside, daemon, *how, "-i", f"{place}/pim.pid", "-f", f"{place}/pim.conf")
    return ["--upstream", "v0"] if family == "igmp" else []


def pimd(lab, family):
    """pimd by troglobit, of IGMP alone."""
    program = unpacked("pimd", "/usr/sbin/pimd")
    if not program or family != "igmp":
        raise Failed("it has no MLD" if program else "pimd is not there")
    lab.both()
    lab.start(program, "-f", "-N", "-c", put(lab, "pimd.conf", PIMD))
    return ["--upstream", "v0"]


def igmpproxy(lab, family):
    """igmpproxy, of IGMP alone."""
    program = installed("igmpproxy", "/usr/sbin/igmpproxy")
    if not program or family != "igmp":
        raise Failed("it has no MLD" if program else "igmpproxy is not there")
    lab.both()
    lab.start(program, "-n", put(lab, "igmpproxy.conf", IGMPPROXY))
    return ["--upstream", "v0"]


def wait_for(place, seconds=10):
    """Waits until there is a file with a name, or of a pattern."""
    limit = time.monotonic() + seconds
    while not glob.glob(place):
        if time.monotonic() > limit:
            raise Failed(f"{place} doesn't come")
        time.sleep(0.05)


PEERS = {
    "live": live,
    "bridge": bridge,
    "live-bridge": live_bridge,
    "live-switch": live_switch,
    "live-route": live_route,
    "frr": frr,
    "pimd": pimd,
    "igmpproxy": igmpproxy,
}
