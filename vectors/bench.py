"""The parts of cases: addresses, packets with their descriptions, and cases."""

import dataclasses

import wire
from wire import IGMP, KINDS, address, text_of

IS_IN, IS_EX, TO_IN, TO_EX, ALLOW, BLOCK = range(1, 7)


@dataclasses.dataclass
class Case:
    """A vector. `steps` are packets with their times. `has` lists the beginnings of lines of its text in order, apart from the model.

    If `has` has a line, it names each query except general ones. If it names a group or the counts, it names each group. `own` is
    a choice of this project."""

    name: str
    shows: str
    sections: tuple
    steps: list
    options: str = ""
    own: str = ""
    has: tuple = ()
    link: int = 1
    order: str = "<"
    nanoseconds: bool = False


@dataclasses.dataclass
class Step:
    """A frame, and its words in the README."""

    frame: bytes
    told: str


class Bench:
    """The addresses of a family, and packets between them."""

    def __init__(self, family):
        self.family, is_igmp = family, family is IGMP
        texts = {
            "own": ("10.0.0.9", "fe80::9"),
            "host": ("10.0.0.1", "fe80::1"),
            "lower": ("10.0.0.2", "fe80::2"),
            "lowest": ("10.0.0.1", "fe80::1"),
            "higher": ("10.0.0.200", "fe80::200"),
            "all_reports": ("224.0.0.22", "ff02::16"),
            "all_routers": ("224.0.0.2", "ff02::2"),
            "G": ("239.1.2.3", "ff0e::2345"),
            "G2": ("239.1.2.4", "ff0e::2346"),
            "G3": ("239.1.2.5", "ff0e::2347"),
            "H": ("232.1.1.1", "ff0e::1234"),
            "R": ("232.1.1.2", "ff3e::1234"),
            "a": ("10.0.0.1", "2001:db8::1"),
            "b": ("10.0.0.2", "2001:db8::2"),
            "c": ("10.0.0.3", "2001:db8::3"),
            "d": ("10.0.0.4", "2001:db8::4"),
        }
        self.__dict__.update({name: address(both[0 if is_igmp else 1]) for name, both in texts.items()})
        self.everyone, self.zero = family.everyone, family.zero()
        self.names = {self.__dict__[name]: name for name in ("G", "G2", "G3", "H", "R")}
        self.letters = {self.__dict__[name]: name for name in "abcd"}
        self.senders = {self.__dict__[name]: name for name in ("lower", "higher", "own")}

    def sources(self, number, first=1):
        """`number` addresses in ascending order."""
        base = int.from_bytes(self.a, "big") - 1 + (0 if len(self.a) == 16 else 1 << 16)
        return [(base + first + at).to_bytes(len(self.a), "big") for at in range(number)]

    def listed(self, sources):
        if len(sources) > 8:
            return f"{{{len(sources)} sources}}"
        return "{" + ", ".join(self.letters.get(it, text_of(it)) for it in sources) + "}"

    def named(self, group):
        return self.names.get(group, text_of(group))

    # Packets.

    def packet(self, body, to, source=None, has_checksum=True, **how):
        source = self.host if source is None else source
        body = wire.with_checksum(self.family, body, source, to) if has_checksum else body
        if self.family is IGMP:
            return wire.in_ipv4(body, source, to, **{"options": b"\x94\x04\0\0", **how})
        return wire.in_ipv6(body, source, to, **how)

    def step(self, body, to, told, source=None, **how):
        return Step(wire.in_ethernet(self.packet(body, to, source, **how), to), told)

    def report(self, *records, source=None, auxiliary=b"", behind=b"", **how):
        told = " + ".join(f"{KINDS.get(kind, f'type {kind}')} {self.named(group)} {self.listed(sources)}" for kind, group, sources in records)
        body = wire.report(self.family, records, auxiliary) + behind
        return self.step(body, self.all_reports, told or "a Report of no records", source, **how)

    def older(self, version=None, group=None, **how):
        """A Report of an older version, by default of the last one."""
        kinds = {number: kind for kind, number in self.family.older.items()}
        group, told = self.G if group is None else group, f"v{version}" if version else "older"
        return self.step(
            wire.older(self.family, kinds[version or max(kinds)], group),
            group,
            f"{told} Report {self.named(group)}",
            **how,
        )

    def leave(self, group=None):
        group = self.G if group is None else group
        return self.step(wire.older(self.family, self.family.leave, group), self.all_routers, f"Leave {self.named(group)}")

    def query(self, source, group=None, sources=(), s=False, qrv=2, qqic=125, told=None, behind=b""):
        general = group is None
        code = (100 if general else 10) if self.family is IGMP else (10000 if general else 1000)
        body = wire.query(self.family, self.zero if general else group, sources, s, code, qrv, qqic) + behind
        what = "general query" if general else f"Q({self.named(group)}{', ' + self.listed(sources) if sources else ''})"
        fields = ["S set"] * s + [f"QRV {qrv}"] * (qrv != 2) + [f"QQIC {qqic}"] * (qqic != 125)
        what += f"{' with ' if fields else ''}{', '.join(fields)} from {told or self.senders.get(source, text_of(source))}"
        what += f", with {len(behind)} bytes after its fields" if behind else ""
        return self.step(body, self.everyone if general else group, what, source)

    def older_query(self, source, group=None, version=None):
        told, version = f"v{version}" if version else "older", version or (2 if self.family is IGMP else 1)
        code = (100 if version == 2 else 0) if self.family is IGMP else 10000
        body = wire.older(self.family, self.family.query, self.zero if group is None else group, code)
        what = "general query" if group is None else f"query for {self.named(group)}"
        return self.step(body, group or self.everyone, f"{told} {what} from {self.senders.get(source, text_of(source))}", source)

    def bare(self, hexadecimal, told, to=None, **how):
        """A message of these bytes, with a right checksum."""
        return self.step(bytes.fromhex(hexadecimal), to or self.all_reports, told, **how)
