"""Messages, frames and captures, both ways, and their texts, as docs/FORMATS.md has them.

Addresses are `bytes`, 4 of them in IGMP and 16 in MLD; moments and spans are milliseconds.
"""

from __future__ import annotations

import dataclasses
import functools
import ipaddress
import json
import struct

KINDS = {1: "IS_IN", 2: "IS_EX", 3: "TO_IN", 4: "TO_EX", 5: "ALLOW", 6: "BLOCK"}
REASONS = {1: "truncated", 2: "checksum", 3: "unknown type", 4: "query length"}
MOST_CAPTURED = 262144
# The magic numbers of captures: the byte order, and the units of a millisecond.
MAGICS = {
    b"\xa1\xb2\xc3\xd4": (">", 1000),
    b"\xd4\xc3\xb2\xa1": ("<", 1000),
    b"\xa1\xb2\x3c\x4d": (">", 1000000),
    b"\x4d\x3c\xb2\xa1": ("<", 1000000),
}


@dataclasses.dataclass(frozen=True)
class Family:
    """The differences between the two families."""

    name: str
    size: int
    query: int
    older: dict
    leave: int
    report: int
    version: int
    per_query: int
    everyone: bytes

    def zero(self):
        return bytes(self.size)


IGMP = Family("igmp", 4, 0x11, {0x12: 1, 0x16: 2}, 0x17, 0x22, 3, 366, bytes([224, 0, 0, 1]))
MLD = Family("mld", 16, 130, {131: 1}, 132, 143, 2, 89, bytes([0xFF, 2] + 13 * [0] + [1]))
FAMILIES = {"igmp": IGMP, "mld": MLD}


class Fault(Exception):
    """The fault of a message, and its place for fault 1."""

    def __init__(self, number, at=0):
        super().__init__(number, at)
        self.number, self.at = number, at

    def line(self):
        return f"fault {self.number} {REASONS[self.number]}" + (f" at {self.at}" if self.number == 1 else "")

    def object(self):
        return {"type": "fault", "number": self.number, "reason": REASONS[self.number]} | ({"at": self.at} if self.number == 1 else {})


class CaptureFault(Exception):
    """A fault of a capture, and for 5 to 7 at which record."""

    def __init__(self, number, record=0):
        super().__init__(number, record)
        self.text = f"capture fault {number}" + (f" at record {record}" if number in (5, 6, 7) else "")


@dataclasses.dataclass
class Message:
    """A message: `what` is query, older, leave or report. A query has `fields` (S, QRV, QQIC's value) in the current version alone."""

    what: str
    version: int = 0
    group: bytes = b""
    response: int = 0
    fields: tuple | None = None
    sources: list = dataclasses.field(default_factory=list)
    records: list = dataclasses.field(default_factory=list)


# Codes and checksums.


def value_of(code, bits):
    """The value of a code of 8 bits with a mantissa of 4, or of 16 with one of 12."""
    mantissa = 4 if bits == 8 else 12
    if code < 1 << (bits - 1):
        return code
    return ((code & ((1 << mantissa) - 1)) | 1 << mantissa) << ((code >> mantissa & 7) + 3)


@functools.lru_cache
def code_of(value, bits):
    """The code of the greatest value not above `value`."""
    return max(code for code in range(1 << bits) if value_of(code, bits) <= value)


def summed(data):
    """The sum of the words of 16 bits; an odd last byte is followed by a zero byte."""
    data += bytes(len(data) % 2)
    return sum(struct.unpack(f">{len(data) // 2}H", data))


def pseudo_header(family, source, to, length):
    return source + to + struct.pack(">II", length & 0xFFFFFFFF, 58) if family is MLD else b""


def with_checksum(family, body, source=b"", to=b""):
    """The message with its checksum at 2, for MLD that of the packet's addresses."""
    rest = (summed(pseudo_header(family, source, to, len(body)) + body) - summed(body[2:4])) % 0xFFFF
    return body[:2] + struct.pack(">H", (0xFFFF - rest) % 0xFFFF) + body[4:]


# Messages.


def query(family, group, sources=(), s=False, response=0, qrv=0, qqic=0):
    """A query of the current version without its checksum; `response` and `qqic` are codes."""
    first = struct.pack(">BBH", family.query, response, 0) if family is IGMP else struct.pack(">BBHHH", family.query, 0, 0, response, 0)
    return first + group + struct.pack(">BBH", s << 3 | qrv, qqic, len(sources)) + b"".join(sources)


def older(family, kind, group, response=0):
    """A message of an older version: a Report, a Leave or Done, or a query with its response."""
    if family is IGMP:
        return struct.pack(">BBH", kind, response, 0) + group
    return struct.pack(">BBHHH", kind, 0, 0, response, 0) + group


def report(family, records, auxiliary=b""):
    """A Report of the current version: records are kind, group and sources."""
    each = [struct.pack(">BBH", kind, len(auxiliary) // 4, len(sources)) + group + b"".join(sources) + auxiliary for kind, group, sources in records]
    return struct.pack(">BBHHH", family.report, 0, 0, 0, len(records)) + b"".join(each)


class Fields:
    """The fields of a message, one behind the other."""

    def __init__(self, body, at):
        self.body, self.at = body, at

    def take(self, length):
        if self.at + length > len(self.body):
            raise Fault(1, self.at)
        self.at += length
        return self.body[self.at - length : self.at]

    def number(self, length):
        return int.from_bytes(self.take(length), "big")


def read(family, body, source=b"", to=b""):
    """Parses a body: its message or its fault."""
    if len(body) < 4:
        raise Fault(1, min(len(body), 2))
    total = summed(pseudo_header(family, source, to, len(body)) + body)
    if total == 0 or total % 0xFFFF:
        raise Fault(2)
    kind, fields = body[0], Fields(body, 4)
    if kind == family.query:
        return read_query(family, body, fields)
    if kind == family.report:
        fields.take(2)
        return Message("report", family.version, records=[read_record(family, fields) for _ in range(fields.number(2))])
    if kind not in family.older and kind != family.leave:
        raise Fault(3)
    if family is MLD:
        fields.take(2), fields.take(2)
    group = fields.take(family.size)
    return Message("leave", 0, group) if kind == family.leave else Message("older", family.older[kind], group)


def read_query(family, body, fields):
    short = family.size + (4 if family is IGMP else 8)
    if len(body) != short and len(body) < short + 4:
        raise Fault(4)
    is_current, code = len(body) > short, body[1]
    if family is MLD:
        code = fields.number(2)
        fields.take(2)
    group = fields.take(family.size)
    if not is_current:
        version = 1 if family is MLD or code == 0 else 2
        return Message("query", version, group, code if family is MLD else 100 * code)
    flags, interval, number = fields.number(1), value_of(fields.number(1), 8), fields.number(2)
    sources = [fields.take(family.size) for _ in range(number)]
    response = value_of(code, 16) if family is MLD else 100 * value_of(code, 8)
    return Message("query", family.version, group, response, (flags >> 3 & 1, flags & 7, interval), sources)


def read_record(family, fields):
    kind, auxiliary, number = fields.number(1), fields.number(1), fields.number(2)
    group = fields.take(family.size)
    sources = [fields.take(family.size) for _ in range(number)]
    fields.take(4 * auxiliary)
    return kind, group, sources


# Texts.


@functools.lru_cache(4096)
def text_of(address):
    """An address as its text; of IPv6 the first of the longest runs of two or more zero groups is `::`."""
    if len(address) == 4:
        return ".".join(map(str, address))
    groups = [f"{it:x}" for it in struct.unpack(">8H", address)]
    runs = [(size, -at) for at in range(8) for size in range(2, 9 - at) if set(groups[at : at + size]) == {"0"}]
    if not runs:
        return ":".join(groups)
    size, at = max(runs)
    return ":".join(groups[:-at]) + "::" + ":".join(groups[size - at :])


def address(text):
    return ipaddress.ip_address(text).packed


def line_of(message):
    """The line of a message."""
    group = text_of(message.group) if message.group else ""
    if message.what == "report":
        told = "".join(f" [{' '.join([KINDS.get(kind, f'TYPE {kind}'), *map(text_of, [of, *sources])])}]" for kind, of, sources in message.records)
        return f"report v{message.version} records {len(message.records)}{told}"
    if message.what != "query":
        return f"leave group {group}" if message.what == "leave" else f"report v{message.version} group {group}"
    told = f"query v{message.version} group {group}"
    if message.version > 1 or len(message.group) == 16:
        told += f" response {message.response}"
    if message.fields:
        told += " s {} qrv {} interval {}".format(*message.fields)
        told += "".join([f" sources {len(message.sources)}", *(f" {text_of(it)}" for it in message.sources)])
    return told


def object_of(message):
    """The object of a message."""
    group = {"group": text_of(message.group)} if message.group else {}
    if message.what == "report":
        each = [{"kind": KINDS.get(kind, kind), "group": text_of(of), "sources": [*map(text_of, sources)]} for kind, of, sources in message.records]
        return {"type": "report", "version": message.version, "records": each}
    if message.what != "query":
        return {"type": "leave"} | group if message.what == "leave" else {"type": "report", "version": message.version} | group
    told = {"type": "query", "version": message.version} | group
    if message.version > 1 or len(message.group) == 16:
        told["response"] = message.response
    if message.fields:
        s, qrv, interval = message.fields
        told |= {"s": s == 1, "qrv": qrv, "interval": interval, "sources": [*map(text_of, message.sources)]}
    return told


# Frames.


@dataclasses.dataclass
class Packet:
    """A message's packet."""

    family: Family
    source: bytes
    body: bytes
    to: bytes
    hops: int
    alert: bool


def unwrap(link, frame):
    """The packet of a frame, or `other`, `cut` or `fragment`."""
    if link == 101:
        version = frame[0] >> 4 if frame else None
        return "cut" if not frame else unwrap_v4(frame) if version == 4 else unwrap_v6(frame) if version == 6 else "other"
    is_tagged = frame[12:14] == b"\x81\x00"
    start = 18 if is_tagged else 14
    if len(frame) < start:
        return "cut"
    kind, packet = frame[start - 2 : start], frame[start:]
    return unwrap_v4(packet) if kind == b"\x08\x00" else unwrap_v6(packet) if kind == b"\x86\xdd" else "other"


def unwrap_v4(packet):
    if len(packet) < 20:
        return "cut"
    header, total = 4 * (packet[0] & 15), int.from_bytes(packet[2:4], "big")
    if packet[0] >> 4 != 4 or packet[9] != 2 or header < 20 or total < header:
        return "other"
    if int.from_bytes(packet[6:8], "big") & 0x3FFF:
        return "fragment"
    if total > len(packet):
        return "cut"
    return Packet(IGMP, packet[12:16], packet[header:total], packet[16:20], packet[8], has_alert_v4(packet[20:header]))


def has_alert_v4(options):
    """Whether Router Alert (type 148) is among the options of an IPv4 header, up to the first that does not fit."""
    at = 0
    while at < len(options) and options[at]:
        if options[at] == 1:
            at += 1
            continue
        size = options[at + 1] if at + 1 < len(options) else 0
        if size < 2 or at + size > len(options):
            return False
        if options[at] == 148:
            return True
        at += size
    return False


def unwrap_v6(packet):
    if len(packet) < 40:
        return "cut"
    if packet[0] >> 4 != 6 or packet[6] not in (0, 44, 58):
        return "other"
    if packet[6] == 44:
        return "fragment"
    length = int.from_bytes(packet[4:6], "big")
    if 40 + length > len(packet):
        return "cut"
    rest, options, kind = packet[40 : 40 + length], b"", packet[6]
    if kind == 0:
        if length < 8 or 8 + 8 * rest[1] > length:
            return "other"
        kind, options, rest = rest[0], rest[2 : 8 + 8 * rest[1]], rest[8 + 8 * rest[1] :]
    if kind != 58:
        return "fragment" if kind == 44 else "other"
    return Packet(MLD, packet[8:24], rest, packet[24:40], packet[7], has_alert(options))


def has_alert(options):
    at = 0
    while at < len(options):
        if options[at] == 0:
            at += 1
            continue
        if at + 1 == len(options) or at + 2 + options[at + 1] > len(options):
            return False
        if options[at : at + 4] == b"\x05\x02\x00\x00":
            return True
        at += 2 + options[at + 1]
    return False


# The Router Alert option, and an empty PadN.
ALERT = bytes.fromhex("050200000100")


def in_ipv4(body, source, to, options=b"", protocol=2, flags=0, total=None, hops=1, service=0xC0):
    """A packet of IPv4, by default with time to live 1 and the precedence of IGMP."""
    header = 20 + len(options)
    length = header + len(body) if total is None else total
    first = struct.pack(">BBHHHBBH", 0x40 | header // 4, service, length, 0, flags, hops, protocol, 0) + source + to + options
    check = (0xFFFF - summed(first) % 0xFFFF) % 0xFFFF
    return first[:10] + struct.pack(">H", check) + first[12:] + body


def in_ipv6(body, source, to, options=ALERT, hops=1, following=58):
    """A packet of IPv6 with a hop-by-hop header where there are options (6 bytes of them, or 8 more each)."""
    between = bytes([following, len(options) // 8]) + options if options is not None else b""
    return struct.pack(">IHBB", 6 << 28, len(between + body), following if options is None else 0, hops) + source + to + between + body


def in_ethernet(packet, to, kind=None, tag=b""):
    """A frame from a host, to the group address `to` or its like."""
    end = bytes([1, 0, 94, to[1] & 127, to[2], to[3]]) if len(to) == 4 else b"\x33\x33" + to[12:]
    kind = (0x0800 if len(to) == 4 else 0x86DD) if kind is None else kind
    return end + bytes([2, 0, 0, 0, 0, 1]) + tag + struct.pack(">H", kind) + packet


# Captures.


def capture(frames, link=1, order="<", nanoseconds=False):
    """A capture of frames, each with its moment in milliseconds, which may have a fraction."""
    unit = 1000 if nanoseconds else 1
    said = struct.pack(order + "IHHIIII", 0xA1B23C4D if nanoseconds else 0xA1B2C3D4, 2, 4, 0, 0, 262144, link)
    for moment, frame in frames:
        seconds, fraction = divmod(round(1000 * moment), 1000000)
        said += struct.pack(order + "IIII", seconds, fraction * unit, len(frame), len(frame)) + frame
    return said


def opened(data):
    """The link type of a capture, and its records one after the other: the moment's stamp and the bytes."""
    if len(data) < 24:
        raise CaptureFault(5)
    if data[:4] not in MAGICS:
        raise CaptureFault(2)
    order, unit = MAGICS[data[:4]]
    major, minor = struct.unpack(order + "HH", data[4:8])
    if (major, minor) != (2, 4):
        raise CaptureFault(3)
    link = struct.unpack(order + "I", data[20:24])[0] & 0xFFFF
    if link not in (1, 101):
        raise CaptureFault(4)
    return link, records_of(data, order, unit)


def records_of(data, order, unit):
    at, number = 24, 0
    while at < len(data):
        number += 1
        if at + 16 > len(data):
            raise CaptureFault(5, number)
        seconds, fraction, length, _ = struct.unpack(order + "IIII", data[at : at + 16])
        if length > MOST_CAPTURED:
            raise CaptureFault(7, number)
        at += 16 + length
        if at > len(data):
            raise CaptureFault(6, number)
        yield seconds * 1000 + fraction // unit, data[at - length : at]


def placed(records):
    """The records with their number, their moment from the first one's, which never goes back, and whether their stamp does."""
    first, last = None, 0
    for number, (stamp, frame) in enumerate(records, 1):
        first = stamp if first is None else first
        goes_back = stamp - first < last
        last = max(last, stamp - first)
        yield number, last, goes_back, frame


def moments(records):
    """The records with their number and their moment."""
    for number, moment, _, frame in placed(records):
        yield number, moment, frame


def answer(packet):
    """The message of a packet, or its fault."""
    try:
        return read(packet.family, packet.body, packet.source, packet.to)
    except Fault as fault:
        return fault


def listed(line_of_packet, data):
    """The lines of a capture's packets, and the fault that ends it."""
    said = []
    try:
        link, records = opened(data)
        for number, moment, frame in moments(records):
            said.append(line_of_packet(number, moment, unwrap(link, frame)))
    except CaptureFault as fault:
        return said, fault.text
    return said, None


def listed_line(number, moment, packet):
    if isinstance(packet, str):
        return f"{number} {moment} {packet}"
    found = answer(packet)
    line = found.line() if isinstance(found, Fault) else line_of(found)
    return f"{number} {moment} {text_of(packet.source)} {packet.family.name} {line}"


def listed_object(number, moment, packet):
    place = {"packet": number, "time": moment}
    if isinstance(packet, str):
        return written(place | {"skipped": packet})
    found = answer(packet)
    addresses = {"source": text_of(packet.source), "destination": text_of(packet.to)}
    message = found.object() if isinstance(found, Fault) else object_of(found)
    return written(place | {"family": packet.family.name} | addresses | {"ttl": packet.hops, "alert": packet.alert, "message": message})


def written(it):
    return json.dumps(it, separators=(",", ":"))


def listing(data):
    """The text of `show` for a capture, and the fault that ends it."""
    return listed(listed_line, data)


def objects(data):
    """The objects of `show --json` for a capture, and the fault that ends it."""
    return listed(listed_object, data)
