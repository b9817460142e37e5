"""Links of the tests of conform: network namespaces of their own, with a router at one end and conform at the other."""

import glob
import itertools
import os
import shutil
import subprocess
import time

HERE = os.path.dirname(os.path.abspath(__file__))
TOP = os.path.dirname(HERE)
OWN = {"igmp": "10.0.0.9", "mld": "fe80::9"}


class Failed(Exception):
    """The reason why a router could not be started."""


def run(*words, is_checked=True):
    ran = subprocess.run(words, capture_output=True, text=True, check=False)
    if is_checked and ran.returncode:
        raise Failed(f"{' '.join(words)}: {ran.stderr.strip()}")
    return ran.stdout


class Lab:
    """A namespace with two links.

    The tested link has the ends q0, of the router, and p0. The link of sources has the ends u0, of the router, and v0."""

    numbers = itertools.count()

    def __init__(self):
        self.space = f"mqc{os.getpid()}-{next(Lab.numbers)}"
        self.running, self.log = [], f"/tmp/{self.space}.log"
        run("ip", "netns", "add", self.space)

    def __enter__(self):
        self.ip("link", "set", "lo", "up")
        for ends in (("q0", "p0"), ("u0", "v0")):
            self.ip("link", "add", ends[0], "type", "veth", "peer", "name", ends[1])
        for name in ("p0", "v0"):
            self.setting(f"ipv6/conf/{name}/disable_ipv6", 1)
            self.ip("link", "set", name, "up")
        return self

    def __exit__(self, *_):
        for one in self.running:
            one.kill()
            one.wait()
        for number in run("ip", "netns", "pids", self.space, is_checked=False).split():
            run("kill", "-9", number, is_checked=False)
        run("ip", "netns", "del", self.space, is_checked=False)
        for it in glob.glob(f"/tmp/{self.space}.*"):
            if os.path.isdir(it):
                shutil.rmtree(it)
            else:
                os.unlink(it)

    def ip(self, *words):
        return run("ip", "-n", self.space, *words)

    def words(self, *words):
        return ["ip", "netns", "exec", self.space, *words]

    def setting(self, name, value):
        run(*self.words("sh", "-c", f"echo {value} > /proc/sys/net/{name}"))

    def address(self, name, *addresses):
        """Sets an interface up with exactly these addresses."""
        self.setting(f"ipv6/conf/{name}/addr_gen_mode", 1)
        for it in addresses:
            self.ip("address", "add", it, "dev", name, *(["nodad"] if ":" in it else []))
        self.ip("link", "set", name, "up")

    def both(self):
        """The router's ends with addresses, those of sources above."""
        self.address("q0", "10.0.0.9/24", "fe80::9/64")
        self.address("u0", "10.9.9.254/24", "2001:db8::fe/64")

    def start(self, *words, until=None, seconds=10):
        """Starts a program in the namespace, and waits until it prints a text."""
        with open(self.log, "ab") as log:
            begin = log.tell()
            # pylint: disable-next=consider-using-with
            self.running.append(subprocess.Popen(self.words("chrt", "-r", "1", *words), stdout=log, stderr=log, stdin=subprocess.DEVNULL))
        limit = time.monotonic() + seconds
        while until and until not in self.said()[begin:]:
            if time.monotonic() > limit or self.running[-1].poll() is not None:
                raise Failed(f"{words[0]} says {self.said()[begin:].strip()[-300:]!r}")
            time.sleep(0.05)
        return self.running[-1]

    def said(self):
        with open(self.log, encoding="utf-8", errors="replace") as it:
            return it.read()

    def conform(self, family, *words, out=None):
        """Runs conform. Returns its status, its lines and its standard error."""
        out = out or f"/tmp/{self.space}.report"
        its = self.words(f"{HERE}/conform", "p0", family, "--router", OWN[family], "--out", out, *words)
        ran = subprocess.run(its, capture_output=True, text=True, check=False)
        return ran.returncode, ran.stdout.splitlines(), ran.stderr


def verdicts(lines):
    """The verdict of each case of a run's lines."""
    found = {}
    for line in lines:
        words = line.split()
        if len(words) > 1 and words[1] in ("pass", "FAIL", "late"):
            found[words[0]] = words[1]
    return found
