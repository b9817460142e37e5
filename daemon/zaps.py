"""Zapping between channels below a router: how long a channel takes to come and to go. Channels are groups of one source upstream."""

import statistics
import time

from lab import Wrong
from router import Running, Watcher

CHANNELS = [f"232.7.0.{number}" for number in range(1, 51)]
SOURCE = "10.50.0.2"
IGMPPROXY = "/usr/sbin/igmpproxy"


def home(network, receivers=3):
    """A router between a network of channels and some receivers, each at an interface of its own."""
    router, upstream = network.space("router"), network.space("upstream")
    network.wire(router, "up0", 50, upstream)
    hosts = [network.space(f"host{at}") for at in range(receivers)]
    for at, host in enumerate(hosts):
        network.wire(router, f"dn{at}", 60 + at, host)
    return router, upstream, hosts


def igmpproxy(network, router, receivers=3):
    """Starts igmpproxy, which leaves a group at once if it was left once. Returns None if it is not installed."""
    place = f"{network.folder}/igmpproxy.conf"
    with open(place, "w", encoding="ascii") as it:
        it.write("quickleave\nphyint up0 upstream ratelimit 0 threshold 1\n altnet 10.0.0.0/8\nphyint lo disabled\n")
        it.writelines(f"phyint dn{at} downstream ratelimit 0 threshold 1\n" for at in range(receivers))
    try:
        one = Running(router, IGMPPROXY, "-n", place)
    except OSError:
        return None
    network.running.append(one)
    time.sleep(1)
    if one.process.poll() is not None:
        return None
    return one


def zap(hosts, rounds, wanted=2.0):
    """Each receiver turns from channel to channel. Returns the seconds that each first datagram took, and how many came too late."""
    came, late, watching = [], 0, [None] * len(hosts)
    for number in range(rounds):
        host = number % len(hosts)
        if watching[host]:
            watching[host].leave()
            watching[host].close()
        watching[host] = Watcher(hosts[host], CHANNELS[number * 7 % len(CHANNELS)], SOURCE)
        watching[host].read()
        joined = watching[host].join()
        try:
            came.append(watching[host].first(wanted) - joined)
        except Wrong:
            late += 1
    for one in watching:
        one.leave()
        one.close()
    return came, late


def gone(hosts, rounds, limit=12.0, quiet=1.0):
    """Returns the seconds from leaves of the last receiver to the last datagram of each channel, at most `limit`."""
    watching = [Watcher(hosts[at % len(hosts)], CHANNELS[-1 - at], SOURCE) for at in range(rounds)]
    for one in watching:
        one.join()
    for one in watching:
        one.first()
    left = last = [one.leave() for one in watching]
    begun = time.time()
    while begun + limit > time.time() and max(last) + quiet > time.time():
        time.sleep(0.1)
        last = [found[-1][0] if found else before for found, before in ((one.read(), it) for one, it in zip(watching, last))]
    for one in watching:
        one.close()
    return [it - then for it, then in zip(last, left)]


def told(name, came, late, took):
    """Returns a line about both."""
    text = f"{name}: {len(came)} first datagrams, median {1000 * statistics.median(came):.1f} ms, at most {1000 * max(came):.1f} ms"
    return f"{text}, {late} after 2 s; last ones {1000 * min(took):.0f} to {1000 * max(took):.0f} ms after the leave"
