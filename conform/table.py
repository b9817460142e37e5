"""The table of cases, read from the file `cases`: the packets, their times and senders, and the expected queries."""

import dataclasses
import os
import re
import sys

sys.dont_write_bytecode = True
HERE = os.path.dirname(os.path.abspath(__file__))
TOP = os.path.dirname(HERE)
sys.path.insert(0, f"{TOP}/vectors")
# pylint: disable=wrong-import-position
import wire
from wire import IGMP, KINDS, text_of

KIND_OF = {name: kind for kind, name in KINDS.items()}
ALL_REPORTS = {"igmp": "224.0.0.22", "mld": "ff02::16"}
ALL_ROUTERS = {"igmp": "224.0.0.2", "mld": "ff02::2"}
# As many sources as take several queries.
MANY = {"igmp": 400, "mld": 120}
BURST = {"rate": 10000, "seconds": 5}
# Octets behind the fields of a message.
ADDITIONAL = b"\5\6\7\10"
# Where the groups of G~N begin, and how many milliseconds apart they come by default: twelve within a second, since some routers look
# at their timers once a second. In cases of minutes they are further apart, since some routers count general queries.
EACH, SPREAD = 64, 83
# How long a case may be that a quick run plays, in milliseconds.
QUICK = 20000


class Wrong(Exception):
    """The fault of the table, the command line or the link."""


@dataclasses.dataclass
class Variables:
    """A router's variables: `qi` in seconds, the other spans in milliseconds."""

    rv: int = 2
    qi: int = 125
    qri: int = 10000
    lmqi: int = 1000

    def names(self, family):
        """The names of the table's formulas."""
        query = 1000 * self.qi
        return {
            "RV": self.rv,
            "QI": query,
            "QRI": self.qri,
            "LMQI": self.lmqi,
            "LMQT": self.rv * self.lmqi,
            "GMI": self.rv * query + self.qri,
            "SQI": query // 4,
            "BACK": self.rv * 1000 + self.qri // 2,
            "MANY": MANY[family],
        }

    def words(self):
        return [f"--rv={self.rv}", f"--qi={self.qi}", f"--qri={self.qri}", f"--lmqi={self.lmqi}"]


@dataclasses.dataclass
class Case:
    """A case of the table, for one family; moments are texts up to `at`."""

    name: str
    title: str
    section: str = ""
    level: str = ""
    steps: list = dataclasses.field(default_factory=list)
    sees: list = dataclasses.field(default_factory=list)
    probes: list = dataclasses.field(default_factory=list)
    begin: str = "0"
    until: str = ""
    judged: tuple = ("asks",)
    own: str = ""
    stage: str = ""
    needs: str = ""
    of: tuple = ()
    finds: tuple = ()
    spread: int = SPREAD

    def cite(self):
        """The section and its level, as a report has them."""
        said = self.section if self.section.startswith("RFC") else f"RFC {self.standard} {self.section}"
        return f"{said} ({self.level})" if self.level not in ("", "-") else said

    standard: str = ""


WORDS = {
    "until": lambda case, rest: setattr(case, "until", rest),
    "from": lambda case, rest: setattr(case, "begin", rest),
    "judge": lambda case, rest: setattr(case, "judged", tuple(rest.split())),
    "own": lambda case, rest: setattr(case, "own", rest),
    "stage": lambda case, rest: setattr(case, "stage", rest),
    "needs": lambda case, rest: setattr(case, "needs", rest),
    "of": lambda case, rest: setattr(case, "of", tuple(rest.split())),
    "finds": lambda case, rest: setattr(case, "finds", tuple(rest.split())),
    "spread": lambda case, rest: setattr(case, "spread", int(rest)),
    "see": lambda case, rest: case.sees.append(rest.split()),
    "probe": lambda case, rest: case.probes.append(rest.split()),
}


def cases_of(family):
    """The cases of a family, in the order of the table."""
    with open(f"{HERE}/cases", encoding="utf-8") as it:
        lines = [line.rstrip("\n") for line in it]
    blocks, at = [], 0
    for line in lines:
        if line and line[0] not in " #":
            blocks.append([line])
        elif line.startswith("    "):
            blocks[-1].append(line.strip())
    found = [case_of(block, at, family) for at, block in enumerate(blocks)]
    return [it for it in found if it]


def case_of(block, at, family):
    """Returns the case of a block of lines, or None if it is not a case of the family."""
    name, title = block[0].split(" | ", 1)
    sections = [it.strip() for it in block[1].split("|")]
    section = sections[0 if family == "igmp" else 1]
    if not section:
        return None
    found = re.fullmatch(r"((?:RFC \d+ )?[\d., ]+) (-|may|must|MAY|SHOULD|MUST|MUST NOT)", section)
    if not found:
        raise Wrong(f"the table: {name}: {section}")
    case = Case(name, title, *found.groups(), standard="3376" if family == "igmp" else "3810")
    for line in block[2:]:
        word, rest = line.split(None, 1)
        if word in WORDS:
            WORDS[word](case, rest)
        else:
            case.steps.append((word, rest.split()))
    return case


def value(text, names):
    """The value of a formula of the table."""
    if not re.fullmatch(r"[0-9A-Z+*/() -]+", text):
        raise Wrong(f"the table: the formula {text}")
    return int(eval(text.replace("/", "//"), {"__builtins__": {}}, names))  # pylint: disable=eval-used


@dataclasses.dataclass
class Site:
    """The stations on the link: the addresses of the router, of the played hosts and routers, and of the first source."""

    family: object
    router: bytes
    host: bytes
    lower: bytes
    higher: bytes
    first: bytes
    mac: bytes
    variables: Variables

    def names(self):
        return self.variables.names(self.family.name)

    def source(self, at):
        return (int.from_bytes(self.first, "big") + at).to_bytes(len(self.first), "big")


@dataclasses.dataclass
class Step:
    """A frame with its time. `is_wide` is true if it concerns all groups. `what` is `burst`, `restart` or `quiet` for an event without frame."""

    at: int
    frame: bytes
    told: str
    is_wide: bool = False
    what: str = ""


class Cast:
    """A case with groups of its own: number N of a run has those of N."""

    def __init__(self, case, number, site):
        self.case, self.number, self.site, self.names = case, number, site, site.names()
        self.family, self.name, self.spread = site.family, case.name, case.spread
        self.begin, self.until = self.at(case.begin), self.at(case.until) if case.until else 0
        self.number_each = max((int(word.split("~")[1]) for _, words in case.steps for word in words if "~" in word), default=0)
        # The moment up to which the last of the groups is judged.
        self.end = self.until + self.spread * max(0, self.number_each - 1)
        self.steps = [step for moment, words in case.steps for step in self.said(self.at(moment), words)]

    def at(self, text):
        return value(text, self.names)

    def group(self, word):
        """The group of a letter."""
        if word.startswith("G@"):
            return self.group_at(EACH + int(word[2:]))
        at, is_range = "GHI".find(word), word == "R"
        if at < 0 and not is_range:
            raise Wrong(f"the table: {self.name}: the group {word}")
        return self.group_at(max(at, 0), is_range)

    def group_at(self, at, is_range=False):
        """Group AT of the case: 256 of them for letters, from there on for lists."""
        if self.family is IGMP:
            first = (232 if is_range else 239) << 24 | 77 << 16
            return (first + (self.number << 8) + 1 + at).to_bytes(4, "big")
        first = (0xFF3E if is_range else 0xFF1E) << 112 | 0x77 << 32
        return (first + (self.number << 16) + 1 + at).to_bytes(16, "big")

    def shift(self, group):
        """The milliseconds between the first group of G~N and this group."""
        at = int.from_bytes(group, "big") - int.from_bytes(self.group_at(EACH), "big")
        return self.spread * at if 0 <= at < self.number_each else 0

    def groups(self, word):
        """The groups of a word: a letter, G*N, or each Kth of them, G*N/K."""
        if "~" in word:
            return [self.group_at(EACH + at) for at in range(self.number_each)]
        if "*" not in word:
            return [self.group(word)]
        number, _, each = word.split("*")[1].partition("/")
        return [self.group_at(256 + at) for at in range(0, int(number), int(each or 1))]

    def sources(self, words):
        """The sources of words: letters, a*N, or a*N@FIRST."""
        found = []
        for word in words:
            if word in "abcd":
                found.append(self.site.source("abcd".index(word)))
            else:
                number, _, first = word.removeprefix("a*").partition("@")
                first = self.at(first or "0")
                found += [self.site.source(at) for at in range(first, first + self.at(number))]
        return found

    def is_own(self, group):
        """Returns whether a group belongs to this case."""
        base = self.group_at(-1)
        step = 256 if self.family is IGMP else 65536
        is_range = self.group_at(-1, True)
        number = int.from_bytes(group, "big")
        least = int.from_bytes(base, "big"), int.from_bytes(is_range, "big")
        room = 8 * step if self.case.stage == "thousand" else step
        return any(it <= number < it + room for it in least)

    def each(self, words):
        """For words of G~N, those of each of N groups, and how much later than the first one it comes."""
        return [(self.spread * at, [f"G@{at}" if word.startswith("G~") else word for word in words]) for at in range(self.number_each)]

    # Packets.

    def said(self, at, words):
        """The steps of a line of the table."""
        what = words[0]
        if any("~" in word for word in words):
            return [step for spread, one in self.each(words) for step in self.said(at + spread, one)]
        if what == "restart":
            return [Step(at, b"", "the router is restarted", True, what)]
        if what == "quiet":
            return [Step(at, b"", "", False, what)]
        if what == "burst":
            return [Step(at, b"", f"{BURST['rate']} Reports a second for {BURST['seconds']} s", False, what)]
        if what in ("lower", "higher"):
            return [self.asks(at, getattr(self.site, what), words[1:], what)]
        if what == "bad":
            return self.bad(at, words[1], words[2:])
        if what in ("older", "v1", "leave"):
            return [self.older(at, what, words[1])]
        how = {"source": bytes(4)} if what == "zero" else {"additional": True} if what == "additional" else {}
        return self.reports(at, words[1:] if how else words, **how)

    def reports(self, at, words, source=None, additional=False):
        """Reports of the records of words, as many as are needed for a link with an MTU of 1500."""
        records, told = [], " ".join(words)
        for record in told.split(" + "):
            kind, group, *sources = record.split()
            number = KIND_OF[kind] if kind in KIND_OF else int(kind.removeprefix("TYPE"))
            records += [(number, one, self.sources(sources)) for one in self.groups(group)]
        most, found, taken = 1400, [], []
        for record in records:
            taken.append(record)
            if len(wire.report(self.family, taken)) > most and len(taken) > 1:
                found.append(taken[:-1])
                taken = [record]
        return [self.report(at, it, told, source, additional) for it in [*found, taken]]

    def report(self, at, records, told, source=None, additional=False):
        body = wire.report(self.family, records)
        if additional:
            one = wire.report(self.family, records[:1], b"\1\2\3\4")
            body = body[:8] + one[8:] + wire.report(self.family, records[1:])[8:] + ADDITIONAL
        return Step(at, self.frame(body, ALL_REPORTS[self.family.name], source), told)

    def older(self, at, what, word):
        group = self.group(word)
        kinds = {"leave": self.family.leave, "v1": min(self.family.older), "older": max(self.family.older)}
        to = ALL_ROUTERS[self.family.name] if what == "leave" else text_of(group)
        return Step(at, self.frame(wire.older(self.family, kinds[what], group), to), f"{what} {word}")

    def asks(self, at, source, words, who):
        """A query of another router: `additional`, `asks`, then `QRV n`, `QQIC n`, `S`, and then a group and its sources."""
        told, fields = f"{who} {' '.join(words)}", {"QRV": self.site.variables.rv, "QQIC": self.site.variables.qi}
        behind = ADDITIONAL if words[0] == "additional" else b""
        words, is_set = words[words.index("asks") + 1 :], False
        while words and words[0] in ("QRV", "QQIC", "S"):
            name = words.pop(0)
            if name == "S":
                is_set = True
            else:
                fields[name] = self.at(words.pop(0))
        group = self.group(words[0]) if words else self.family.zero()
        body = self.query(group, self.sources(words[1:]), is_set, fields["QRV"], fields["QQIC"]) + behind
        to = text_of(group) if words else text_of(self.family.everyone)
        return Step(at, self.frame(body, to, source), told, True)

    def query(self, group, sources, is_set, qrv, qqic):
        it, is_igmp = self.site.variables, self.family is IGMP
        span = it.lmqi if any(group) else it.qri
        code = wire.code_of(span // 100, 8) if is_igmp else wire.code_of(span, 16)
        return wire.query(self.family, group, sources, is_set, code, qrv, wire.code_of(qqic, 8))

    def bad(self, at, kind, words):
        """A malformed message."""
        told = f"bad {kind} {' '.join(words)}"
        if kind.startswith("query"):
            return [self.bad_query(at, kind, told)]
        if kind == "leave":
            body = wire.older(self.family, self.family.leave, self.group(words[0]))
            return [Step(at, self.frame(body, ALL_ROUTERS[self.family.name], is_wrong=True), told)]
        body = wire.report(self.family, [(KIND_OF[words[0]], self.group(words[1]), self.sources(words[2:]))])
        how = {}
        if kind == "length":
            # It says two sources and has one.
            size = self.family.size
            body = body[: -size - size - 2] + b"\0\2" + body[-size - size :]
        elif kind == "short":
            body = body[:4]
        elif kind == "type":
            body = (b"\x30" if self.family is IGMP else b"\xc8") + body[1:]
        elif kind == "checksum":
            how = {"is_wrong": True}
        elif kind in ("source", "unspecified"):
            how = {"source": self.site.source(0) if kind == "source" else bytes(16)}
        elif kind == "hops":
            how = {"hops": 2}
        elif kind == "alert":
            how = {"options": None}
        return [Step(at, self.frame(body, ALL_REPORTS[self.family.name], **how), told)]

    def bad_query(self, at, kind, told):
        """A query of a router with a lower address that no router may act on; its Query Interval is 1 s."""
        body = self.query(self.family.zero(), [], False, self.site.variables.rv, 1)
        how = {"query-length": {}, "query-checksum": {"is_wrong": True}, "query-source": {}}[kind]
        source = self.site.lower
        if kind == "query-length":
            body = body[:-2]
        if kind == "query-source":
            source = self.site.source(0)
        return Step(at, self.frame(body, text_of(self.family.everyone), source, **how), told, True)

    def frame(self, body, to, source=None, is_wrong=False, **how):
        """Returns a frame with a message. Its source is by default the played host."""
        source, to = source or self.site.host, wire.address(to)
        source = self.site.host if source == bytes(4) and self.family is not IGMP else source
        body = wire.with_checksum(self.family, body, source, to)
        if is_wrong:
            body = body[:3] + bytes([body[3] ^ 1]) + body[4:]
        if self.family is IGMP:
            packet = wire.in_ipv4(body, source, to, **{"options": b"\x94\x04\0\0", **how})
        else:
            packet = wire.in_ipv6(body, source, to, **how)
        frame = wire.in_ethernet(packet, to)
        return frame[:6] + self.site.mac + frame[12:]

    def burst(self):
        """Frames of Reports that refresh the sources of groups of the case."""
        sources = [self.site.source(at) for at in range(4)]
        return [self.report(0, [(KIND_OF["IS_IN"], self.group_at(8 + at), sources)], "burst").frame for at in range(8)]

    # Expected queries.

    def wanted(self):
        """The queries that the table names, each as its moment, its group, its sources and whether S is set."""
        found = []
        for words in self.case.sees:
            words = list(words)
            moment, is_set = words.pop(0), words[0] == "S"
            words = words[1:] if is_set else words
            first, _, last = moment.partition("..")
            moments = range(self.at(first), self.at(last) + 1, self.names["LMQI"]) if last else [self.at(first)]
            groups = [self.family.zero()] if words[0] == "0" else self.groups(words[0])
            sources = tuple(sorted(self.sources(words[1:])))
            found += [(at + self.shift(group), group, sources, is_set) for at in moments for group in groups]
        return found

    def named(self):
        """The meaning of the letters of the case."""
        words = [word.split("*")[0] for _, its in self.case.steps for word in its]
        groups = [f"{it} is {text_of(self.group(it))}" for it in "GHIR" if it in words]
        if self.number_each:
            groups.append(f"G~{self.number_each} are {self.number_each} groups from {text_of(self.group('G@0'))} on, {self.spread} ms apart")
        return [*groups, *(f"{it} is {text_of(self.sources([it])[0])}" for it in "abcd" if it in words)]

    def wide(self):
        return [step for step in self.steps if step.is_wide]
