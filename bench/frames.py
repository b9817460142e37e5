"""Messages of both families, the packets that carry them, and captures of these."""

import functools
import socket
import struct

V4, V6 = socket.AF_INET, socket.AF_INET6
ETHERNET, RAW_IP = 1, 101
# The longest messages that a packet carries beside the options here.
MOST_IGMP, MOST_MLD = 65535 - 24, 65535 - 8


@functools.lru_cache(1000)
def address(family, text):
    return socket.inet_pton(family, text)


def numbered(family, first, number):
    """The address that stands so far behind the first one."""
    return (int.from_bytes(address(family, first), "big") + number).to_bytes(4 if family == V4 else 16, "big")


def checksum(data):
    """The checksum of data whose field is zero: the complement of the sum of its words, which is the rest modulo 65535."""
    data += b"\0" * (len(data) % 2)
    return struct.pack(">H", -int.from_bytes(data, "big") % 0xFFFF)


def signed(message, pseudo=b""):
    return message[:2] + checksum(pseudo + message) + message[4:]


def ipv4(message, source="10.0.0.7", destination="224.0.0.22"):
    """A packet of an IGMP message, with Router Alert."""
    header = struct.pack(">BBHHHBBH4s4s4s", 0x46, 0xC0, 24 + len(message), 7, 0, 1, 2, 0,
                         address(V4, source), address(V4, destination), b"\x94\x04\0\0")
    return header[:10] + checksum(header) + header[12:] + signed(message)


def ipv6(message, source="fe80::7", destination="ff02::16"):
    """A packet of an MLD message, with Router Alert."""
    ends = address(V6, source) + address(V6, destination)
    options = bytes((58, 0, 5, 2, 0, 0, 1, 0))
    header = struct.pack(">IHBB", 0x60000000, len(options) + len(message), 0, 1) + ends
    return header + options + signed(message, ends + struct.pack(">II", len(message), 58))


def ethernet(packet):
    """A frame to the multicast address that the packet goes to (of IPv4: RFC 1112 section 6.4)."""
    is_ipv4 = packet[0] >> 4 == 4
    to = b"\x01\x00\x5e" + bytes((packet[17] & 0x7F, *packet[18:20])) if is_ipv4 else b"\x33\x33" + packet[36:40]
    return to + bytes.fromhex("020000000001") + (b"\x08\x00" if is_ipv4 else b"\x86\xdd") + packet


def record(kind, group, sources=()):
    """A record of a Report; group and sources are bytes."""
    return struct.pack(">BBH", kind, 0, len(sources)) + group + b"".join(sources)


def report(family, records):
    return (b"\x22" if family == V4 else b"\x8f") + bytes(5) + struct.pack(">H", len(records)) + b"".join(records)


def capture_header(link):
    return struct.pack("<IHHiIII", 0xA1B2C3D4, 2, 4, 0, 0, 262144, link)


def captured(microseconds, frame):
    """A frame as a record of a capture."""
    seconds, fraction = divmod(microseconds, 1_000_000)
    return struct.pack("<IIII", 1_700_000_000 + seconds, fraction, len(frame), len(frame)) + frame
