"""Frames by the formats of the standards, for the live test. The code is independent of the program's."""

import ipaddress
import struct


def checksum(data):
    data += bytes(len(data) % 2)
    total = sum(struct.unpack(f">{len(data) // 2}H", data))
    while total > 0xFFFF:
        total = (total & 0xFFFF) + (total >> 16)
    return total ^ 0xFFFF


def summed(message):
    """Returns a message with its checksum in place."""
    return message[:2] + struct.pack(">H", checksum(message)) + message[4:]


def padded(frame):
    return frame + bytes(max(0, 60 - len(frame)))


def igmp_frame(source, destination, message, fragment=0x4000):
    """Returns a frame from MAC 02:00:00:00:00:07, with TTL 1, Type of Service 0xc0 and Router Alert (RFC 3376 section 4)."""
    source, destination = ipaddress.ip_address(source).packed, ipaddress.ip_address(destination).packed
    header = struct.pack(">BBHHHBBH", 0x46, 0xC0, 24 + len(message), 0, fragment, 1, 2, 0) + source + destination
    header += bytes.fromhex("94040000")
    header = header[:10] + struct.pack(">H", checksum(header)) + header[12:]
    mac = b"\x01\x00\x5e" + bytes([destination[1] & 0x7F]) + destination[2:]
    return padded(mac + bytes.fromhex("020000000007 0800") + header + message)


def mld_frame(source, destination, message, hop_limit=1, alert=True, fragment=None):
    """Returns a frame of a message with its checksum. It has Router Alert, other options only (`alert` is False), or no options
    (None). `fragment` adds a fragment header with this word: the offset, and the bit for more fragments."""
    source, destination = ipaddress.ip_address(source).packed, ipaddress.ip_address(destination).packed
    pseudo = source + destination + struct.pack(">II", len(message), 58)
    message = message[:2] + struct.pack(">H", checksum(pseudo + message)) + message[4:]
    options = {True: bytes.fromhex("3a00050200000100"), False: bytes.fromhex("3a00010400000000"), None: b""}[alert]
    first = 0 if options else 58
    if fragment is not None:
        message = struct.pack(">BBHI", 58, 0, fragment, 7) + message
        options, first = options and b"\x2c" + options[1:], 0 if options else 44
    header = struct.pack(">IHBB", 6 << 28, len(options + message), first, hop_limit) + source + destination
    mac = b"\x33\x33" + destination[12:]
    return padded(mac + bytes.fromhex("020000000007 86dd") + header + options + message)


def report_of(family, records, host=7):
    """Returns a Report of IGMPv3 (RFC 3376 section 4.2) or MLDv2 (RFC 3810 section 5.2), from a host by its number. A record is
    (type, group, sources), and may have auxiliary data: words of four bytes."""
    body = struct.pack(">HHHH", 0, 0, 0, len(records))
    for kind, group, sources, *words in records:
        body += struct.pack(">BBH", kind, sum(words), len(sources)) + ipaddress.ip_address(group).packed
        body += b"".join(ipaddress.ip_address(it).packed for it in sources) + bytes(4 * sum(words))
    if family == "igmp":
        return igmp_frame(f"10.0.0.{host}", "224.0.0.22", summed(b"\x22" + body[1:]))
    return mld_frame(f"fe80::{host:x}", "ff02::16", b"\x8f" + body[1:])


def report_frame(family, kind, group, sources):
    """Returns a Report of one record."""
    return report_of(family, [(kind, group, sources)])


def older_frame(family, group, host=7):
    """Returns a Report of IGMPv2 or MLDv1."""
    packed = ipaddress.ip_address(group).packed
    if family == "igmp":
        return igmp_frame(f"10.0.0.{host}", group, summed(b"\x16\0\0\0" + packed))
    return mld_frame(f"fe80::{host:x}", group, b"\x83" + bytes(7) + packed)


def data_frame(source, group, data=b""):
    """Returns a datagram of UDP, from port 9 to port 9."""
    source, group, length = ipaddress.ip_address(source), ipaddress.ip_address(group), 8 + len(data)
    if group.version == 4:
        header = struct.pack(">BBHHHBBH", 0x45, 0, 20 + length, 0, 0, 4, 17, 0) + source.packed + group.packed
        header = header[:10] + struct.pack(">H", checksum(header)) + header[12:]
        mac = b"\x01\x00\x5e" + bytes([group.packed[1] & 0x7F]) + group.packed[2:] + bytes.fromhex("020000000007 0800")
    else:
        header = struct.pack(">IHBB", 6 << 28, length, 17, 4) + source.packed + group.packed
        mac = b"\x33\x33" + group.packed[12:] + bytes.fromhex("020000000007 86dd")
    return mac + header + struct.pack(">HHHH", 9, 9, length, 0) + data
