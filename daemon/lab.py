"""Links of the live test: queriers and hosts in network namespaces of their own, on a bridge."""

import itertools
import os
import signal
import subprocess
import threading
import time

HERE = os.path.dirname(os.path.abspath(__file__))
TOP = os.path.dirname(HERE)
# LIVE names another build of the program.
PROGRAM = os.path.join(TOP, os.environ.get("LIVE", "bin/mquerier-live"))
ADDRESSES = {"igmp": "10.0.0.{}", "mld": "fe80::{:x}"}
# Milliseconds: the Last Member Query Time and the Group Membership Interval that come of SHORT.
SHORT = ["--qi", "2", "--qri", "1000", "--lmqi", "500"]
LAST_MEMBER, MEMBERSHIP = 1000, 5000
GROUPS = {"igmp": "239.1.1.1", "mld": "ff0e::1:1"}
MANY = {"igmp": ("239.8.0.0", "239.8."), "mld": ("ff0e::8:0", "ff0e::8:")}
SOURCES = {"igmp": ["10.9.9.1", "10.9.9.2"], "mld": ["2001:db8::1", "2001:db8::2"]}


class Wrong(Exception):
    """A fault that a case found."""


def is_true(test, what):
    if not test:
        raise Wrong(what)


def ip(*words):
    ran = subprocess.run(["ip", *words], capture_output=True, text=True, check=False)
    if ran.returncode:
        raise Wrong(f"ip {' '.join(words)}: {ran.stderr.strip()}")
    return ran.stdout


class State:
    """The printed state of a querier: its role, its groups by address, its counters."""

    def __init__(self, lines):
        self.moment, self.role = int(lines[0].split()[1]), lines[0].split()[2]
        self.groups = {line.split()[1]: line.split()[2:] for line in lines if line.startswith("group ")}
        words = lines[-1].split()[1:]
        self.counts = dict(zip(words[::2], map(int, words[1::2])))

    def shape(self, group):
        """Returns a group's words without times: `exclude`, `include 10.9.9.1` or `exclude !10.9.9.1 v2`."""
        words = self.groups.get(group)
        return words and " ".join(word.split("=")[0] for word in words if not word.isdigit())

    def deadline(self, group):
        return int(self.groups[group][1])


class Querier:
    """A running mquerier-live."""

    def __init__(self, space, interface, family, own, *options):
        words = ["ip", "netns", "exec", space, PROGRAM, "interface", interface, family, "--own", own, *SHORT, *options]
        # pylint: disable-next=consider-using-with
        self.process = subprocess.Popen(words, stdout=subprocess.PIPE, stderr=subprocess.PIPE, text=True)
        self.lines, self.errors, self.news = [], [], threading.Condition()
        streams = ((self.process.stdout, self.lines), (self.process.stderr, self.errors))
        self.listening = [threading.Thread(target=self.listen, args=it, daemon=True) for it in streams]
        for thread in self.listening:
            thread.start()
        self.line(lambda line: " send " in line, "its first query")

    def listen(self, stream, lines):
        for line in stream:
            with self.news:
                lines.append(line.rstrip("\n"))
                self.news.notify_all()

    def line(self, test, what, begin=0, seconds=10):
        """Waits for the first line from `begin` on that fits the test, and returns its place."""
        def found():
            return next((at for at in range(begin, len(self.lines)) if test(self.lines[at])), None)

        with self.news:
            if not self.news.wait_for(lambda: found() is not None, seconds):
                raise Wrong(f"no line with {what}; {self.errors}{self.lines[-5:]}")
            return found()

    def error(self, text, seconds=4):
        """Waits for a line on standard error with a text."""
        with self.news:
            if not self.news.wait_for(lambda: any(text in line for line in self.errors), seconds):
                raise Wrong(f"no error with {text}: {self.errors}")

    def state(self):
        begin = len(self.lines)
        self.process.send_signal(signal.SIGUSR1)
        first = self.line(lambda line: line.startswith("end "), "an end", begin)
        last = self.line(lambda line: line.startswith("counts "), "counts", first)
        return State(self.lines[first : last + 1])

    def until(self, test, what, seconds=4):
        """Waits for the first state that fits the test, and returns it."""
        limit = time.monotonic() + seconds
        while not test(state := self.state()):
            if time.monotonic() > limit:
                raise Wrong(f"not {what}: {state.role} {state.groups if len(state.groups) < 9 else len(state.groups)}")
            time.sleep(0.05)
        return state

    def has(self, group, shape, seconds=4):
        return self.until(lambda state: state.shape(group) == shape, f"{group} {shape}", seconds)

    def queries(self, to):
        """Returns the times of its queries to an address."""
        sent = [line.split() for line in self.lines if " send " in line]
        return [int(words[0]) for words in sent if words[2] == to]

    def end(self):
        """Ends it, and returns its status after all its lines were read."""
        self.process.send_signal(signal.SIGTERM)
        status = self.process.wait(10)
        for thread in self.listening:
            thread.join(10)
        return status


class Host:
    """A running host."""

    def __init__(self, space, port):
        words = ["ip", "netns", "exec", space, os.path.join(HERE, "host")]
        self.port = port
        # pylint: disable-next=consider-using-with
        self.process = subprocess.Popen(words, stdin=subprocess.PIPE, stdout=subprocess.PIPE, text=True)

    def ask(self, *words):
        self.process.stdin.write(" ".join(map(str, words)) + "\n")
        self.process.stdin.flush()
        return self.process.stdout.readline().strip()

    def do(self, *words):
        answer = self.ask(*words)
        if answer != "ok":
            raise Wrong(answer)


class Lab:
    """A link of its own: a bridge in a namespace, and the stations on it."""

    numbers = itertools.count()

    def __init__(self, family):
        self.family, self.name = family, f"mql{os.getpid()}-{next(Lab.numbers)}"
        self.spaces, self.running = [], []
        self.switch = self.space("switch")
        ip("-n", self.switch, "link", "add", "br0", "type", "bridge", "mcast_snooping", "0")
        ip("-n", self.switch, "link", "set", "br0", "up")

    def __enter__(self):
        return self

    def __exit__(self, *_):
        for one in self.running:
            one.process.kill()
            one.process.wait()
        for space in self.spaces:
            subprocess.run(["ip", "netns", "del", space], check=False)

    def space(self, name):
        space = f"{self.name}-{name}"
        ip("netns", "add", space)
        self.spaces.append(space)
        return space

    def station(self, number):
        """Makes a namespace on the bridge, with the address of that number. Returns it and its port of the bridge."""
        space, port = self.space(f"s{number}"), f"p{number}"
        ip("-n", self.switch, "link", "add", port, "type", "veth", "peer", "name", "eth0", "netns", space)
        setting = "accept_dad" if self.family == "mld" else "disable_ipv6"
        command = f"echo {int(self.family == 'igmp')} > /proc/sys/net/ipv6/conf/eth0/{setting}"
        ip("netns", "exec", space, "sh", "-c", command)
        ip("-n", self.switch, "link", "set", port, "master", "br0", "up")
        if self.family == "igmp":
            ip("-n", space, "address", "add", ADDRESSES["igmp"].format(number) + "/24", "dev", "eth0")
        ip("-n", space, "link", "set", "eth0", "up")
        return space, port

    def querier(self, number, *options):
        space, _ = self.station(number)
        return self.querier_at(space, "eth0", number, *options)

    def querier_at(self, space, interface, number, *options, family=None):
        family = family or self.family
        querier = Querier(space, interface, family, ADDRESSES[family].format(number), *options)
        self.running.append(querier)
        return querier

    def host(self, number, version=None):
        host = Host(*self.station(number))
        self.running.append(host)
        if version:
            name = "ipv4/conf/eth0/force_igmp_version" if self.family == "igmp" else "ipv6/conf/eth0/force_mld_version"
            host.do("set", name, version)
        return host

    def mac(self, number):
        """Returns the MAC address of a station's interface."""
        place = "/sys/class/net/eth0/address"
        words = ["ip", "netns", "exec", f"{self.name}-s{number}", "cat", place]
        ran = subprocess.run(words, capture_output=True, text=True, check=True)
        return bytes.fromhex(ran.stdout.strip().replace(":", ""))

    def cut(self, host):
        ip("-n", self.switch, "link", "set", host.port, "down")
