"""Plays frames on an interface of Linux at their times, and records frames with the kernel's timestamps."""

import fcntl
import socket
import struct
import threading
import time

EVERY = 0x0003
ETHERNET, RAW_IP = 1, (101, 12, 14, 228, 229)
SO_TIMESTAMPNS, SO_RCVBUFFORCE, SOL_PACKET = 35, 33, 263
PACKET_STATISTICS, PACKET_IGNORE_OUTGOING, OUTGOING = 6, 23, 4
SIOCGIFHWADDR = 0x8927
ROOM = 64 << 20
# A pause of this machine from which on it counts as late, in nanoseconds.
PAUSE = 20000000


class Faulty(Exception):
    """The fault of a capture."""


def packets(name):
    """The packets of a classic capture: the nanoseconds of each after the first one, and its frame."""
    with open(name, "rb") as it:
        data = it.read()
    forms = {b"\xd4\xc3\xb2\xa1": ("<", 1000), b"\xa1\xb2\xc3\xd4": (">", 1000), b"\x4d\x3c\xb2\xa1": ("<", 1), b"\xa1\xb2\x3c\x4d": (">", 1)}
    order, unit = forms.get(data[:4], (None, None))
    if order is None or len(data) < 24:
        raise Faulty("not a classic capture")
    link = struct.unpack(order + "I", data[20:24])[0]
    if link != ETHERNET and link not in RAW_IP:
        raise Faulty(f"link type {link}")
    found, at = [], 24
    while at < len(data):
        if at + 16 > len(data):
            raise Faulty("a capture that ends within a header")
        seconds, fraction, length, _ = struct.unpack(order + "IIII", data[at : at + 16])
        bytes_of = data[at + 16 : at + 16 + length]
        if len(bytes_of) < length:
            raise Faulty("a capture that ends within a packet")
        found.append((seconds * 10**9 + fraction * unit, bytes_of if link == ETHERNET else framed(bytes_of)))
        at += 16 + length
    if not found:
        raise Faulty("a capture without packets")
    return [(moment - found[0][0], frame) for moment, frame in found]


def framed(packet):
    """A packet in a frame to the multicast address that it goes to (of IPv4: RFC 1112 section 6.4)."""
    version = packet[0] >> 4 if packet else None
    if version == 4 and len(packet) >= 20:
        return b"\x01\x00\x5e" + bytes((packet[17] & 0x7F, *packet[18:20])) + b"\x02\0\0\0\0\x01\x08\x00" + packet
    if version == 6 and len(packet) >= 40:
        return b"\x33\x33" + packet[36:40] + b"\x02\0\0\0\0\x01\x86\xdd" + packet
    raise Faulty("a packet that is neither of IPv4 nor of IPv6")


def written(found):
    """A classic capture of Ethernet in nanoseconds, of stamps and frames."""
    each = [struct.pack("<IIII", *divmod(stamp, 10**9), len(frame), len(frame)) + frame for stamp, frame in found]
    return struct.pack("<IHHiIII", 0xA1B23C4D, 2, 4, 0, 0, 262144, ETHERNET) + b"".join(each)


def mac_of(interface):
    with socket.socket(socket.AF_INET, socket.SOCK_DGRAM) as it:
        return fcntl.ioctl(it, SIOCGIFHWADDR, struct.pack("256s", interface.encode()))[18:24]


class Recording:
    """The traffic of an interface. `found` has timestamps, frames, and whether this machine sent them."""

    def __init__(self, interface):
        self.packets = socket.socket(socket.AF_PACKET, socket.SOCK_RAW, socket.htons(EVERY))
        self.packets.setsockopt(socket.SOL_SOCKET, SO_TIMESTAMPNS, 1)
        self.packets.setsockopt(socket.SOL_SOCKET, SO_RCVBUFFORCE, ROOM)
        self.packets.bind((interface, EVERY))
        self.packets.settimeout(0.05)
        self.found, self.is_over, self.thread = [], False, threading.Thread(target=self.listen, daemon=True)
        self.thread.start()

    def listen(self):
        while not self.is_over:
            try:
                frame, told, _, source = self.packets.recvmsg(65600, 64)
            except socket.timeout:
                continue
            except OSError:
                self.is_over = True
                return
            seconds, nanoseconds = next(struct.unpack("qq", data) for _, kind, data in told if kind == SO_TIMESTAMPNS)
            self.found.append((seconds * 10**9 + nanoseconds, frame, source[2] == OUTGOING))

    def ignore_outgoing(self, is_so):
        """Leaves out frames that this machine sends, or not."""
        self.packets.setsockopt(SOL_PACKET, PACKET_IGNORE_OUTGOING, int(is_so))

    def end(self):
        """Ends the recording, and returns the number of frames that the kernel lost."""
        self.is_over = True
        self.thread.join()
        lost = struct.unpack("II", self.packets.getsockopt(SOL_PACKET, PACKET_STATISTICS, 8))[1]
        self.packets.close()
        return lost


class Pauses:
    """Times at which this machine paused: `found` has the moment and the length of each, in nanoseconds of the kernel's stamps."""

    def __init__(self):
        self.found, self.is_over, self.thread = [], False, threading.Thread(target=self.look, daemon=True)
        self.thread.start()

    def look(self):
        before = time.time_ns()
        while not self.is_over:
            time.sleep(0.005)
            now = time.time_ns()
            if now - before > PAUSE:
                self.found.append((now, now - before))
            before = now

    def longest(self, begin, end):
        """The longest pause between two moments, in milliseconds."""
        return max([length for at, length in self.found if begin <= at and at - length <= end], default=0) / 10**6


class Sender:
    """Sends frames at their moments."""

    def __init__(self, interface):
        self.socket = socket.socket(socket.AF_PACKET, socket.SOCK_RAW, 0)
        self.socket.bind((interface, 0))

    def play(self, wanted, began, is_over=lambda: False):
        """Sends frames, each at its nanoseconds after `began` (of the monotonic clock). It calls a function, and waits for None."""
        for moment, what in wanted:
            time.sleep(max(0, began + moment - time.monotonic_ns()) / 10**9)
            if is_over():
                return
            if callable(what):
                what()
            elif what:
                self.socket.send(what)

    def burst(self, frames, rate, seconds):
        """Sends frames in turn at this rate per second, and returns the number of sent frames."""
        began, sent, wanted = time.monotonic(), 0, int(rate * seconds)
        while (passed := time.monotonic() - began) < seconds:
            due = min(wanted, int(rate * passed) + 1)
            while sent < due:
                try:
                    self.socket.send(frames[sent % len(frames)])
                except OSError:
                    break
                sent += 1
            time.sleep(0.001)
        return sent


def play(interface, capture, until=None):
    """Plays a capture. Returns the recording and how many packets were sent.

    The recording ends `until` milliseconds after the first packet, or by default a second after the last one."""
    wanted = packets(capture)
    sender, recording = Sender(interface), Recording(interface)
    began = time.monotonic_ns()
    sender.play(wanted, began)
    last = wanted[-1][0] + 10**9 if until is None else until * 10**6
    time.sleep(max(0, began + last - time.monotonic_ns()) / 10**9)
    recording.end()
    return written([it[:2] for it in recording.found]), len(wanted)
