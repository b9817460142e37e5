"""Captures in which each packet comes twice, made of captures in which it comes once."""

import struct

NANOSECONDS = 0xA1B23C4D
LATER = 40_000  # ns
PORT, BRIDGE = 3, 7
TO_ALL, OUT = 2, 4


def packets(data):
    """The time in nanoseconds and the frame of each record of a capture of Ethernet. None if the capture has something else, or if
    a record is incomplete, since such packets are never left out."""
    order, unit = {b"\xd4\xc3\xb2\xa1": ("<", 1000), b"\xa1\xb2\xc3\xd4": (">", 1000), b"\x4d\x3c\xb2\xa1": ("<", 1)}[data[:4]]
    if struct.unpack_from(order + "I", data, 20)[0] != 1:
        return None
    at, found = 24, []
    while at < len(data):
        seconds, part, captured, original = struct.unpack_from(order + "IIII", data, at)
        frame = data[at + 16 : at + 16 + captured]
        if captured != original or captured < 14:
            return None
        found.append((seconds * 10**9 + part * unit, frame))
        at += 16 + captured
    return found


def have_repeats(them):
    """Whether a frame comes twice within 5 ms, or a little more."""
    return any(frame == other and 0 <= later - time <= 5_000_000 + LATER for at, (time, frame) in enumerate(them) for later, other in them[at + 1 :])


def classic(link, them):
    data = struct.pack("<IHHIIII", NANOSECONDS, 2, 4, 0, 0, 262144, link)
    for time, packet in them:
        data += struct.pack("<IIII", time // 10**9, time % 10**9, len(packet), len(packet)) + packet
    return data


def mirrored(them):
    """A mirror port sends each frame as it comes in and as it goes out."""
    return classic(1, [(time + later, frame) for time, frame in them for later in (0, LATER)])


def tagged(them):
    """The same where the mirrored port that the frames come in on has a tag."""
    return classic(1, [it for time, frame in them for it in ((time, frame[:12] + b"\x81\0\0\7" + frame[12:]), (time + LATER, frame))])


def cooked(them):
    """`tcpdump -i any -y LINUX_SLL`: in on one interface, out on another."""
    header = lambda kind, frame: struct.pack(">HHH", kind, 1, 6) + frame[6:12] + b"\0\0" + frame[12:14]
    return classic(113, [(time + later, header(kind, frame) + frame[14:]) for time, frame in them for later, kind in ((0, TO_ALL), (LATER, OUT))])


def cooked2(them):
    """`tcpdump -i any`: on a port of a bridge, and on the bridge."""
    header = lambda index, frame: frame[12:14] + struct.pack(">HIHBB", 0, index, 1, TO_ALL, 6) + frame[6:12] + b"\0\0"
    return classic(276, [(time + later, header(index, frame) + frame[14:]) for time, frame in them for later, index in ((0, PORT), (LATER, BRIDGE))])


def block(kind, body):
    body += bytes(-len(body) % 4)
    size = struct.pack("<I", 12 + len(body))
    return struct.pack("<I", kind) + size + body + size


def of_two_interfaces(them):
    """A pcapng file of a port of a bridge and of the bridge."""
    data = block(0x0A0D0D0A, struct.pack("<IHHq", 0x1A2B3C4D, 1, 0, -1))
    for name in (b"eth0", b"br0"):
        data += block(1, struct.pack("<HHIHH", 1, 0, 0, 2, len(name)) + name.ljust(4, b"\0") + struct.pack("<HHBxxxI", 9, 1, 9, 0))
    for time, frame in them:
        for later, which in ((0, 0), (LATER, 1)):
            said = struct.pack("<IIIII", which, time + later >> 32, time + later & 0xFFFFFFFF, len(frame), len(frame))
            data += block(6, said + frame)
    return data


WAYS = {
    "a mirror port": (mirrored, ["--once"]),
    "a mirror port with a tag": (tagged, ["--once"]),
    "cooked, in and out": (cooked, ["--once"]),
    "cooked of version 2, of two interfaces": (cooked2, ["--once"]),
    "cooked of version 2, of one of the interfaces": (cooked2, ["--interface", str(BRIDGE)]),
    "pcapng of two interfaces": (of_two_interfaces, ["--once"]),
    "pcapng, of one of the interfaces": (of_two_interfaces, ["--interface", "br0"]),
}
