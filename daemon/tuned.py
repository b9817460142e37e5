"""Cases of `switches` with options of single ports, and with a bridge's own file of options."""

import ipaddress
import signal
import socket
import time

from fabric import FAMILIES, Fabric, inside, waiting
from frames import report_frame
from lab import GROUPS, MANY, SOURCES, is_true
from losses import is_query

IS_EX, TO_IN = 2, 3
OTHERS = {"igmp": ["239.5.0.1", "239.5.0.2", "239.5.0.3"], "mld": ["ff0e::5:1", "ff0e::5:2", "ff0e::5:3"]}
# A group of Neighbor Discovery.
LINK_SCOPE = "ff02::1:ff00:77"


def limits_of_ports():
    """A port with --limit takes as many groups as it says, and the other ports more. A line names the limit."""
    with Fabric(3, 1) as fabric:
        querier = fabric.querier("--qi", "30", "--limit", "b0p1=2", "--limit", "b0p2=2,1")
        querier.gathered()
        before = {family: [port[family]["refused"] for port in querier.status()["ports"]] for family in FAMILIES}
        for family in FAMILIES:
            for end in ("b0h1", "b0h3"):
                for group in OTHERS[family]:
                    fabric.hosts[end].put(report_frame(family, IS_EX, group, []))
            fabric.hosts["b0h2"].put(report_frame(family, 1, OTHERS[family][0], SOURCES[family]))
            fabric.comes("b0p3", OTHERS[family][2], ("exclude",))
            is_true(fabric.entry("b0p1", OTHERS[family][2]) is None and fabric.entry("b0p2", OTHERS[family][0]) is None, "a limit is exceeded")
            found = querier.status()
            refused = [port[family]["refused"] - old for port, old in zip(found["ports"], before[family])]
            is_true(refused[0] >= 1 and refused[1] == 1 and refused[2] == 0, f"{family}: {refused}")
        is_true(any("b0p2: a record of IGMP exceeds --sources" in line for line in querier.errors), f"{querier.errors}")


def fast_leave():
    """At a port with --fast-leave, one query goes for a left group, and the entry goes 100 ms after it. At another port two queries
    go. If another host there still wants the group, it stays."""
    with Fabric(3, 1) as fabric:
        querier = fabric.querier("--fast-leave", "b0p1", "--lmqi", "2000")
        querier.gathered()
        is_true([port.get("fast_leave") for port in querier.status()["ports"]] == [True, None, None], "the status doesn't show it")
        took, asked = {}, {}
        with inside(fabric.far):
            ears = socket.socket(socket.AF_PACKET, socket.SOCK_RAW | socket.SOCK_NONBLOCK, socket.htons(3))
        for family in FAMILIES:
            to = ipaddress.ip_address(OTHERS[family][0]).packed
            for port, end in (("b0p1", "b0h1"), ("b0p2", "b0h2")):
                fabric.hosts[end].put(report_frame(family, IS_EX, OTHERS[family][0], []))
                fabric.comes(port, OTHERS[family][0], ("exclude",))
                waiting(ears)
                begin = time.monotonic()
                fabric.hosts[end].put(report_frame(family, TO_IN, OTHERS[family][0], []))
                fabric.comes(port, OTHERS[family][0], None, 8)
                took[port] = time.monotonic() - begin
                time.sleep(0.3)
                asked[port] = sum(is_query(frame) and to in frame[:54] for frame in waiting(ears))
            is_true(took["b0p1"] < 1.5 < 3.5 < took["b0p2"], f"{took}")
            is_true(asked == {"b0p1": 1, "b0p2": 2}, f"queries of {family}: {asked}")
            fabric.hosts["b0h1"].do("join", GROUPS[family])
            fabric.comes("b0p1", GROUPS[family], ("exclude",))
            fabric.hosts["b0h1"].put(report_frame(family, TO_IN, GROUPS[family], []))
            time.sleep(0.5)
            fabric.comes("b0p1", GROUPS[family], ("exclude",), 1)


def ranges_of_groups():
    """Hosts may not ask for groups that ranges deny, of all ports or of one, nor for groups beside those that ranges allow. Records for
    them are counted. Groups of link scope stay allowed."""
    words = []
    for family, bits in (("igmp", 32), ("mld", 128)):
        words += ["--deny", f"b0p1={OTHERS[family][1]}/{bits}", "--deny", f"{OTHERS[family][2]}/{bits}"]
        words += ["--allow", f"b0p3={OTHERS[family][0]}/{bits}"]
    with Fabric(3, 1) as fabric:
        querier = fabric.querier(*words)
        querier.gathered()
        fabric.hosts["b0h3"].put(report_frame("mld", IS_EX, LINK_SCOPE, []))
        for family in FAMILIES:
            for end in ("b0h1", "b0h2", "b0h3"):
                for group in reversed(OTHERS[family]):
                    fabric.hosts[end].put(report_frame(family, IS_EX, group, []))
            for port, group in (("b0p1", 0), ("b0p2", 0), ("b0p2", 1), ("b0p3", 0)):
                fabric.comes(port, OTHERS[family][group], ("exclude",))
            for port, group in (("b0p1", 1), ("b0p1", 2), ("b0p2", 2), ("b0p3", 1), ("b0p3", 2)):
                is_true(fabric.entry(port, OTHERS[family][group]) is None, f"{port} has {OTHERS[family][group]}")
            found = [port[family]["denied"] for port in querier.status()["ports"]]
            is_true(found == [2, 1, 2], f"{family}: {found}")
        fabric.comes("b0p3", LINK_SCOPE, ("exclude",))


def static_groups():
    """Static groups are forwarded whatever hosts say: all sources of one, one source of another, beside what hosts want."""
    words = []
    for family in FAMILIES:
        words += ["--static", f"b0p1={OTHERS[family][0]}", "--static", f"b0p2={GROUPS[family]},{SOURCES[family][0]}"]
    with Fabric(4, 1) as fabric:
        querier = fabric.querier(*words)
        for family in FAMILIES:
            fabric.comes("b0p1", OTHERS[family][0], ("exclude",))
            fabric.comes("b0p2", GROUPS[family], ("include", SOURCES[family][0]))
        querier.gathered()
        for family in FAMILIES:
            one, other = SOURCES[family]
            fabric.gets("b0h4", {(one, OTHERS[family][0]): {"b0h1"}, (one, GROUPS[family]): {"b0h2"}, (other, GROUPS[family]): set()}, 20)
            fabric.hosts["b0h2"].do("allow", GROUPS[family], other)
            fabric.comes("b0p2", GROUPS[family], ("include", one, other))
            fabric.hosts["b0h2"].do("disallow", GROUPS[family], other)
            fabric.comes("b0p2", GROUPS[family], ("include", one))
            fabric.hosts["b0h1"].put(report_frame(family, TO_IN, OTHERS[family][0], []))
        time.sleep(2)
        for family in FAMILIES:
            fabric.comes("b0p1", OTHERS[family][0], ("exclude",), 1)
        querier.end(signal.SIGKILL)
        querier = fabric.querier()  # without them
        querier.gathered()
        for family in FAMILIES:
            fabric.comes("b0p1", OTHERS[family][0], None)


def put(fabric, text):
    with open(f"{fabric.run}/br0.conf", "w", encoding="ascii") as to:
        to.write(text)


def a_file_is_read_again():
    """SIGHUP reads the bridge's own file again. Changes take effect, memberships stay, and a fault has one line with its number and
    changes nothing."""
    with Fabric(4, 1) as fabric:
        put(fabric, f"# ports\nstatic b0p1={OTHERS['igmp'][0]}\n\n--fast-leave b0p2 # as on the command line\nlmqi 600\n")
        querier = fabric.querier("--config", fabric.run)
        querier.gathered()
        found = querier.status()
        is_true(found["last_member_interval"] == 600 and found["ports"][1].get("fast_leave"), f"{found}")
        fabric.comes("b0p1", OTHERS["igmp"][0], ("exclude",))
        for end in ("b0h2", "b0h3"):
            fabric.hosts[end].do("join", GROUPS["igmp"])
            fabric.comes(f"b0p{end[3]}", GROUPS["igmp"], ("exclude",))

        def again(text, what):
            errors = len(querier.errors)
            time.sleep(1.2)  # a kind of fault has a line a second
            put(fabric, text)
            querier.process.send_signal(signal.SIGHUP)
            limit = time.monotonic() + 5
            while what and not any(what in line for line in querier.errors[errors:]):
                is_true(time.monotonic() < limit, f"no {what}: {querier.errors}")
                time.sleep(0.05)
            is_true(len(querier.errors) - errors == (1 if what else 0), f"{querier.errors[errors:]}")

        def stays():
            for port in ("b0p2", "b0p3"):
                is_true(fabric.entry(port, GROUPS["igmp"]) == ("exclude", frozenset()), f"{port} lost its group")

        for text, what in (
            ("lmqi 600\nstatic b0p3=10.0.0.1\n", "br0.conf:2: no group that can have an entry"),
            ("\n\nlimit b0p3=0\n", "br0.conf:3: a limit is GROUPS or GROUPS,SOURCES"),
            ("deny b0p3=239.1.0.0\n", "br0.conf:1: a range is PREFIX/LENGTH"),
            ("allow 239.1.0.0/33\n", "br0.conf:1: the length of a range is 0 to 32"),
            ("deny b0p3:10=239.1.0.0/16\n" + 15 * "deny 239.1.0.0/16\n", "br0.conf:16: more than 15 ranges of a port"),
            (15 * "deny b0p3:10=239.1.0.0/16\n" + "deny 239.1.0.0/16\n", "br0.conf:16: more than 15 ranges of a port"),
            ("wrong 1\n", "br0.conf:1: no such option"),
            ("lmqi 600\nlmqi 1 2\n", "br0.conf:2: a line has one option and its value"),
            ("run /tmp\n", "br0.conf:1: this option is for the command line alone"),
            ("limit b0p3=1\nlimit b0p2=70000\n", "br0.conf:2: "),
        ):
            again(text, what)
            is_true(querier.status()["last_member_interval"] == 600 and fabric.entry("b0p1", OTHERS["igmp"][0]) is not None, "a fault changed something")
            stays()
        for group in OTHERS["igmp"]:
            fabric.hosts["b0h3"].put(report_frame("igmp", IS_EX, group, []))
            fabric.comes("b0p3", group, ("exclude",))
        again("limit b0p3=2\n", "b0p3 holds more than its new --limit: nothing changes")
        is_true(fabric.entry("b0p1", OTHERS["igmp"][0]) is not None, "a refused file changed something")
        again(f"lmqi 600\nlimit b0p3=100\nstatic b0p4={MANY['igmp'][0]}\n", None)
        fabric.comes("b0p4", MANY["igmp"][0], ("exclude",))
        stays()
        fabric.comes("b0p1", OTHERS["igmp"][0], None)
        querier.gathered()
        stays()
        is_true(not querier.status()["ports"][1].get("fast_leave"), "fast leave stays")


CASES = [limits_of_ports, fast_leave, ranges_of_groups, static_groups, a_file_is_read_again]
