"""What zaps and groups cost in routers: `mquerier-live route` beside igmpproxy, for one receiver of IGMPv3 and a sender of channels."""

import os
import sys
import time

from frames import V4, ethernet, ipv4, record, report
from measuring import TOP

sys.path.insert(0, os.path.join(TOP, "daemon"))
# pylint: disable=wrong-import-position
import zaps
from router import Network, inside

TO_IN, TO_EX = 3, 4
# A channel is wanted again a second after it was left, when it has ended.
ZAPS, A_SECOND, CHANNELS, GROUPS = 10000, 1000, 1000, 1000


def raw():
    """Opens a socket that sends frames."""
    import socket  # pylint: disable=import-outside-toplevel

    one = socket.socket(socket.AF_PACKET, socket.SOCK_RAW)
    one.bind(("eth0", 0))
    return one


def framed(kind, group):
    return ethernet(ipv4(report(V4, [record(kind, group, [])]), source="10.60.0.2"))


def send(one, frames):
    """Sends frames, two for each zap, evenly."""
    begun = time.monotonic()
    for number, frame in enumerate(frames):
        one.send(frame)
        if number % 20 == 19:
            time.sleep(max(0, begun + number / (2 * A_SECOND) - time.monotonic()))


def live(network, router):
    one = network.route(router, "up0", "dn0", options=["--groups", str(2 * GROUPS), "--scope", "8"])
    return one.process.pid


def igmpproxy(network, router):
    one = zaps.igmpproxy(network, router, 1)
    return one and one.process.pid


ROUTERS = [("mquerier-live", live), ("igmpproxy", igmpproxy)]


def costs(start, rested, held):
    """The processor's seconds for all zaps, and the million bytes with all groups; or None if the router is not installed."""
    with Network() as network:
        router, upstream, (host,) = zaps.home(network, 1)
        pid = start(network, router)
        if not pid:
            return None
        channels = [bytes((233, 7, at >> 8, at & 255)) for at in range(1, CHANNELS + 1)]
        network.sender(upstream, [".".join(map(str, it)) for it in channels[:50]], rate=10)
        one = inside(host, raw)
        time.sleep(2)
        begun = rested(pid)
        turns = [(TO_IN, channels[(at - 1) % CHANNELS]) if half == 0 else (TO_EX, channels[at % CHANNELS]) for at in range(ZAPS) for half in (0, 1)]
        send(one, [framed(*it) for it in turns])
        took = (rested(pid) - begun) / 1e9
        send(one, [framed(TO_EX, bytes((233, 8, at >> 8, at & 255))) for at in range(1, 1 + GROUPS)])
        time.sleep(3)
        joined = len(network.groups(router, False, "up0"))
        one.close()
        assert joined >= GROUPS, f"{joined} groups are joined upstream"
        return took, held({"RssAnon", "RssFile", "RssShmem"}, f"/proc/{pid}/status")
