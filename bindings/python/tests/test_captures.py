"""Captures: objects, faults, and the command line."""

import collections
import concurrent.futures
import dataclasses
import glob
import gzip
import io
import ipaddress
import json
import os
import pathlib
import pickle
import resource
import subprocess
import sys
import threading
import typing
from xml.etree import ElementTree

import mquerier
import pytest
from conftest import TOP, used
from mquerier import CaptureFault, Fault, NothingJudged, _program, objects

PROGRAM = _program.program()
SAMPLE = f"{TOP}/samples/igmp.pcap"
VARIABLES = {"response_interval": 2000, "last_member_interval": 500}
GROUP = "239.1.2.3"
DATA = pathlib.Path(SAMPLE).read_bytes()
CAPTURES = sorted(glob.glob(f"{TOP}/vectors/*.pcap") + glob.glob(f"{TOP}/samples/*.pcap*"))
QUERIERS = ("10.9.0.1", "10.0.0.9", "fe80::9")
SCHEMA = json.loads(pathlib.Path(f"{TOP}/docs/mquerier.schema.json").read_text(encoding="utf-8"))["definitions"]
# The captures whose first interface has two networks.
TWO_NETWORKS = {
    "mixed.pcap": "interface 0 untagged, interface 0 vlan 100",
    "igmp-frames-tag.pcap": "interface 0 vlan 5, interface 0 untagged",
}


def converted(file):
    return mquerier.convert(file).read()


def printed(data, *words):
    """Returns what the program prints of a capture: its objects, its status and its standard error."""
    ran = subprocess.run([PROGRAM, words[0], "--json", *words[1:]], input=data, stdout=subprocess.PIPE, stderr=subprocess.PIPE, check=False)
    return [json.loads(line) for line in ran.stdout.splitlines()], ran.returncode, ran.stderr.decode()


def as_json(it):
    """Returns an object as the program prints it, but for fields that JSON leaves out or that name its class."""
    return json.loads(json.dumps(objects.fields_of(it), default=str))


def without(it):
    """Returns what JSON says without those fields."""
    if isinstance(it, dict):
        return {key: without(value) for key, value in it.items() if key not in ("type", "event") and value is not None and value != []}
    return [without(one) for one in it] if isinstance(it, list) else it


def taken(found):
    """Returns the objects of an iterator before its fault, and the fault."""
    them = []
    try:
        them.extend(found)
        return them, None
    except CaptureFault as fault:
        return them, fault


def is_as_printed(data, words, found):
    """True if a call returns the objects that the program prints, and fails exactly if the program fails or prints none since nothing is
    judged."""
    wanted, status, _ = printed(data, *words)
    them, fault = taken(found)
    assert (fault is not None) == (status == 1 or status == 4 and not wanted)
    assert isinstance(fault, NothingJudged) == (status == 4 and not wanted)
    return [without(as_json(it)) for it in them] == [without(it) for it in wanted]


def are_as_printed(data):
    assert is_as_printed(data, ["show"], mquerier.show(data))
    for own in QUERIERS:
        family = "mld" if ":" in own else "igmp"
        assert is_as_printed(data, ["replay", family, "--own", own, "--changes"], mquerier.replay(data, own, changes=True))
        check = ["check", family, "--querier", own, "--possible", "--within", "9"]
        assert is_as_printed(data, check, mquerier.check(data, own, tolerance=9, possible=True))


def test_a_first_stamp_of_an_hour_later():
    later = (int.from_bytes(DATA[24:28], "little") + 3600).to_bytes(4, "little")
    data = DATA[:24] + later + DATA[28:]
    are_as_printed(data)
    summary = [*mquerier.check(data, "10.9.0.1")][-1]
    assert (summary.judged, summary.why) == (False, "order")


@pytest.mark.parametrize("file", CAPTURES, ids=os.path.basename)
def test_objects_are_those_of_the_program(file):
    ran = subprocess.run([PROGRAM, "convert", file], stdout=subprocess.PIPE, check=True)
    with mquerier.convert(file) as found:
        assert found.read() == ran.stdout
        assert found.counts.unread == 0
    are_as_printed(pathlib.Path(file).read_bytes())


@pytest.mark.parametrize("length", [0, 3, 23, 24, 30, 60, 1000, len(DATA) - 1])
def test_objects_of_what_is_truncated(length):
    are_as_printed(DATA[:length])


def test_objects_of_other_settings():
    words = "--rv 3 --qi 20 --qri 1500 --lmqi 700 --groups 2 --group-sources 3 --sources 5 --scheduled 1 --ssm --until 86000000"
    names = ("robustness", "query_interval", "response_interval", "last_member_interval", "groups", "group_sources", "sources", "scheduled")
    more = {**dict(zip(names, (3, 20, 1500, 700, 2, 3, 5, 1))), "source_specific": True, "until": 86000000}
    assert is_as_printed(DATA, ["replay", "igmp", "--own", "10.9.0.1", *words.split()], mquerier.replay(DATA, "10.9.0.1", **more))
    check = ["check", "igmp", "--querier", "10.9.0.1", *words.split()]
    assert is_as_printed(DATA, check, mquerier.check(DATA, "10.9.0.1", **more))
    for flags in ({"began": True}, {"strict": True}, {"possible": True}, {"began": True, "strict": True, "possible": True}):
        with_flags = [*check, *(f"--{name}" for name in flags)]
        assert is_as_printed(DATA, with_flags, mquerier.check(DATA, "10.9.0.1", **flags, **more))


def test_a_querier_that_the_capture_names():
    for file, family in ((SAMPLE, "igmp"), (f"{TOP}/samples/mld.pcap", "mld")):
        for capture in (file, pathlib.Path(file).read_bytes()):
            words = ["check", family, "--querier", "auto", "--began"]
            found = [*mquerier.check(capture, auto=family, began=True)]
            assert [without(as_json(it)) for it in found] == [without(it) for it in printed(pathlib.Path(file).read_bytes(), *words)[0]]
            assert isinstance(found[-1], mquerier.Taken) and isinstance(found[-2], mquerier.Summary)
            assert found[-1].querier == found[-2].querier
    with pytest.raises(NothingJudged, match="nothing judged: there is no general query of this family"):
        list(mquerier.check(SAMPLE, auto="mld"))
    for both in ({}, {"querier": "10.9.0.1", "auto": "igmp"}):
        with pytest.raises(TypeError, match="querier"):
            mquerier.check(SAMPLE, **both)


@pytest.mark.parametrize(
    "words, choice",
    [
        ("--interface 0", {"interface": 0}), ("--interface 1", {"interface": 1}), ("--interface 2", {"interface": 2}),
        ("--interface 3", {"interface": 3}), ("--interface lo", {"interface": "lo"}), ("--interface any", {"interface": "any"}),
        ("--interface br0", {"interface": "br0"}), ("--vlan 0", {"vlan": 0}), ("--vlan 20", {"vlan": 20}), ("--once", {"once": True}),
        ("--interface 18446744073709551615", {"interface": 2**64 - 1}), ("--once --interface 1 --vlan 20", {"once": True, "interface": 1, "vlan": 20}),
    ],
)  # fmt: skip
def test_conversion_of_a_choice(words, choice):
    for file in (*CAPTURES, f"{TOP}/samples/cooked2.pcap"):
        if "samples" in file or "tag" in file:
            ran = subprocess.run([PROGRAM, "convert", *words.split(), file], stdout=subprocess.PIPE, check=True)
            assert mquerier.convert(file, **choice).read() == ran.stdout
            networks = TWO_NETWORKS.get(os.path.basename(file)) if choice == {"interface": 0} else None
            if networks is not None:
                with pytest.raises(CaptureFault, match=f"more than one network: {networks};"):
                    list(mquerier.check(file, "10.0.0.9", **choice))
            else:
                chosen, of_converted = (taken(mquerier.check(it, "10.0.0.9", **of)) for it, of in ((file, choice), (ran.stdout, {})))
                assert chosen[0] == of_converted[0] and type(chosen[1]) is type(of_converted[1])


def cooked(packets):
    """Returns a cooked capture of version 2: packets with their times and the indexes of their interfaces."""
    records = [DATA[:20] + (276).to_bytes(4, "little")]
    for now, index, data in packets:
        numbers = (now // 1000, now % 1000 * 1000, 20 + len(data), 20 + len(data))
        records += [*(it.to_bytes(4, "little") for it in numbers), b"\x08\0\0\0", index.to_bytes(4, "big"), bytes(12), data]
    return b"".join(records)


def test_a_router_with_two_links():
    """A host of one link joins and leaves. Each link by itself is right. Judged as one, the other link's querier misses two queries."""
    links = {index: mquerier.Link("igmp", f"10.{index}.0.1") for index in (3, 4)}
    heard = []
    for now, index, kind in ((0, 3, None), (0, 4, None), (500, 4, 0x16), (3500, 4, 0x17), (4500, 4, None)):
        link, source = links[index], f"10.{index}.0.5"
        message = kind and bytes([kind, 0, *(0xFFFF - (kind * 256 + 0xEF01 + 0x0203) % 0xFFFF).to_bytes(2, "big"), 239, 1, 2, 3])
        answer = link.receive(source, message, now) if kind else link.tick(now)
        assert answer.dropped is None
        heard += [(now, index, ipv4(source, GROUP, message))] if kind else []
        heard += [(now, index, ipv4(str(link.own), str(it.destination), it.message)) for it in answer.queries]
    assert len(heard) == 6
    *found, _ = mquerier.check(mquerier.convert(cooked(heard)), "10.3.0.1", until=9000)
    assert [(it.finding, str(it.group)) for it in found] == 2 * [("missing", GROUP)]
    for index in (3, 4):
        (summary,) = mquerier.check(cooked(heard), f"10.{index}.0.1", until=9000, interface=index)
        assert (summary.findings, summary.judged) == (0, True)
    both = "more than one network: interface 3 untagged, interface 4 untagged; choose one by interface or vlan, or take all for one by once"
    assert fault_of(lambda it: mquerier.check(it, "10.3.0.1", until=9000), cooked(heard)) == both


def ipv4(source, destination, message, ttl=1):
    """Returns a packet of IGMP with Router Alert."""
    words = [0x46C0, 24 + len(message), 0, 0, ttl * 256 + 2, 0]
    ends = [ipaddress.ip_address(it).packed for it in (source, destination)]
    return b"".join(it.to_bytes(2, "big") for it in words) + b"".join(ends) + b"\x94\x04\0\0" + message


def test_packets_of_a_link_type_that_is_not_read():
    with mquerier.convert(DATA[:20] + (147).to_bytes(4, "little") + DATA[24:]) as found:
        data = found.read()
        assert found.counts == mquerier.Converted(0, 0, 46, (mquerier.LinkType(147, 46),))
    assert {it.skipped for it in mquerier.show(data)} == {"other"}


def test_a_conversion_piece_by_piece():
    with open(f"{TOP}/samples/merged.pcapng", "rb") as file:
        found = mquerier.convert(file)
        pieces = [*iter(lambda: found.read(100), b"")]
    assert b"".join(pieces) == converted(f"{TOP}/samples/merged.pcapng") and len(pieces) > 10
    found.close()
    assert found.closed


def test_threads():
    with concurrent.futures.ThreadPoolExecutor(8) as pool:
        found = list(pool.map(lambda _: tuple(mquerier.replay(DATA, "10.9.0.1")), range(64)))
    assert set(found) == {tuple(mquerier.replay(DATA, "10.9.0.1"))}


def test_packets():
    packets = [*mquerier.show(SAMPLE)]
    source, destination, group = map(ipaddress.ip_address, ("10.9.0.11", "224.0.0.22", "232.1.1.1"))
    record = mquerier.Record("BLOCK", group, (ipaddress.ip_address("10.9.0.101"),))
    message = mquerier.ReportMessage(3, records=(record,))
    assert len(packets) == 46 and packets[9] == mquerier.Packet(10, 4263, "igmp", source, destination, 1, True, message)
    assert hash(packets[9]) == hash(mquerier.Packet(10, 4263, "igmp", source, destination, 1, True, message))
    other = next(mquerier.show(f"{TOP}/vectors/mld-frames-other.pcap"))
    assert (type(other), other.skipped) == (mquerier.Skipped, "other")


def test_a_message_is_one_object_everywhere():
    query = "1164ec1e00000000027d0000"
    wanted = mquerier.QueryMessage(3, ipaddress.ip_address("0.0.0.0"), 10000, False, 2, 125)
    assert mquerier.message("igmp", bytes.fromhex(query)) == wanted
    sent = next(mquerier.replay(f"{TOP}/vectors/igmp-startup.pcap", own="10.0.0.9"))
    assert (sent.hex, sent.message) == (query, wanted)
    assert mquerier.message("igmp", b"\x11") == mquerier.FaultyMessage(1, "truncated", 1)
    for it in mquerier.show(f"{TOP}/samples/mld.pcap"):
        if isinstance(it, mquerier.Packet):
            assert it.family == "mld" and it.message.type in ("query", "report", "leave")


@pytest.mark.parametrize("piece", [1, 7, 100, 1000, 1 << 20])
def test_objects_of_what_comes_piece_by_piece(monkeypatch, piece):
    monkeypatch.setattr(_program, "PIECE", piece)
    for data in (DATA, DATA[:24], DATA[:-1]):
        wanted, found = (taken(mquerier.show(it)) for it in (data, io.BytesIO(data)))
        assert (wanted[0], str(wanted[1])) == (found[0], str(found[1]))


def many(tmp_path, count):
    with open(tmp_path / "many.pcap", "wb") as file:
        subprocess.run([f"{TOP}/bench/capture", str(count)], stdout=file, check=True)
    return tmp_path / "many.pcap"


def test_many_packets_in_little_memory(tmp_path):
    file = many(tmp_path, 100_000)
    pieces = iter(lambda found=mquerier.convert(file): found.read(1 << 16), b"")
    counts = []
    for found in (mquerier.show(file), mquerier.replay(file, "10.0.0.9"), mquerier.check(file, "10.0.0.9", possible=True), pieces):
        number, most, before = 0, 0, used()
        for number, _ in enumerate(found, 1):
            most = max(most, used()) if number % 10_000 == 0 else most
        counts.append(number)
        assert most - before < 4 << 20
    assert counts[0] == 100_000 < counts[1] and counts[2] > 0 and counts[3] > 50
    assert resource.getrusage(resource.RUSAGE_CHILDREN).ru_maxrss < 64 << 10


def test_an_iterator_that_is_left_ends_its_program(tmp_path):
    file = many(tmp_path, 100_000)
    for capture in (file, file.read_bytes()):
        found = mquerier.show(capture)
        assert next(found).packet == 1
        found.close()
        with mquerier.convert(capture) as begun:
            assert len(begun.read(10)) == 10
    with pytest.raises(ChildProcessError):
        os.waitpid(-1, os.WNOHANG)
    assert threading.active_count() == 1 or all(it.name != "Feeder" for it in threading.enumerate())


def test_files_that_are_open(tmp_path):
    wanted = list(mquerier.show(DATA))
    (tmp_path / "link.pcap.gz").write_bytes(gzip.compress(DATA))
    for opened in (lambda: open(SAMPLE, "rb"), lambda: io.BytesIO(DATA), lambda: gzip.open(tmp_path / "link.pcap.gz")):
        with opened() as file:
            assert list(mquerier.show(file)) == wanted
        with opened() as file:
            assert converted(file) == converted(DATA)
        with opened() as file:
            assert [*mquerier.check(file, "10.9.0.1")] == [*mquerier.check(DATA, "10.9.0.1")]
            assert not file.closed
    with open(SAMPLE, "rb") as file:
        file.seek(1)
        assert fault_of(mquerier.show, file).startswith(f"{SAMPLE}: it is no classic capture file")
    with open(SAMPLE, encoding="latin-1") as file, pytest.raises(TypeError, match="capture: expected bytes, a path or a file"):
        list(mquerier.show(file))
    with gzip.open(io.BytesIO(gzip.compress(DATA)[:-9])) as file, pytest.raises(EOFError):
        list(mquerier.show(file))


def test_a_pipe_is_read_as_it_comes():
    read, write = os.pipe()
    with open(read, "rb") as file, open(write, "wb", buffering=0) as to:
        found = mquerier.show(file)
        to.write(DATA[:1000])
        assert [next(found).packet for _ in range(12)] == [*range(1, 13)]
        to.write(DATA[1000:])
        assert next(found).packet == 13


def test_a_program_that_is_killed():
    read, write = os.pipe()
    with open(read, "rb") as file, open(write, "wb", buffering=0) as to:
        found = mquerier.show(file)
        to.write(DATA[:1000])
        assert next(found).packet == 1
        found.gi_frame.f_locals["run"].process.kill()
        with pytest.raises(mquerier.Error, match="mquerier show --json: status -9"):
            list(found)


def test_messages_that_come_again():
    packets = [*mquerier.show(DATA), *mquerier.show(DATA)]
    head, records = DATA[:24], DATA[24:]
    twice = [*mquerier.show(head + records + records)]
    assert [getattr(it, "message", None) for it in twice] == [getattr(it, "message", None) for it in packets]
    assert [it.packet for it in twice] == [*range(1, 93)]


def test_events_add_up():
    events = [*mquerier.replay(DATA, "10.9.0.1", changes=True, **VARIABLES)]
    totals, kinds = events[-1], collections.Counter(map(type, events))
    assert (totals.sent, totals.dropped) == (kinds[mquerier.Sent], kinds[mquerier.DroppedMessage])
    received = [it for it in events if isinstance(it, mquerier.Received)]
    assert (totals.received, totals.applied) == (len(received) + totals.dropped, sum(it.applied for it in received))
    groups = {it.group for it in events if isinstance(it, mquerier.HeldGroup)}
    assert kinds[mquerier.Change] > 0 and groups <= {it.group for it in events if isinstance(it, mquerier.Change)}
    assert [it.time for it in events if isinstance(it, mquerier.End)] == [11983]


LITERALS = [
    ("RecordKind", SCHEMA["record"]["properties"]["kind"]["anyOf"][0]["enum"]),
    ("Filter", SCHEMA["filter"]["enum"]),
    ("Why", SCHEMA["why"]["enum"]),
    ("Reason", ["truncated", *SCHEMA["fault"]["properties"]["reason"]["enum"]]),
    ("DropReason", SCHEMA["drop"]["properties"]["reason"]["enum"]),
    ("FindingKind", ["missing", "extra", "differs", "interval", "silence", "header"]),
    ("Field", [*SCHEMA["difference"]["properties"]["field"]["enum"], *SCHEMA["headerFault"]["properties"]["field"]["enum"]]),
    ("Unjudged", SCHEMA["summary"]["properties"]["summary"]["properties"]["why"]["enum"][1:]),
]


@pytest.mark.parametrize("name, words", LITERALS, ids=[name for name, _ in LITERALS])
def test_types_have_the_words_of_the_schema(name, words):
    assert [*typing.get_args(getattr(objects, name))] == words


def test_faults_of_captures():
    for data, why, read in [
        (b"", "record 0: the file ends within a header", 0),
        (b"x" * 99, "it is no classic capture file", 0),
        (DATA[:-1], "record 46: the file ends within a packet", 45),
        (DATA + b"\0", "record 47: the file ends within a header", 46),
        (DATA + bytes(8) + (262145).to_bytes(4, "little") + bytes(300_000), "record 47: the packet has more than 262144 bytes", 46),
    ]:
        found, fault = taken(mquerier.show(data))
        assert (str(fault), len(found)) == (why, read)
    with pytest.raises(CaptureFault, match="block 46: the file ends within the block"):
        converted(DATA[:-1])
    with pytest.raises(CaptureFault, match="block 46: the file ends within the block"):
        list(mquerier.check(DATA[:-1], "10.9.0.1", once=True))
    for call in (mquerier.replay, mquerier.check):
        found, fault = taken(call(DATA, "10.9.0.1", until=2**53))
        assert str(fault) == "record 47: more than a day lies between the packet before and this one, or the end"
        assert found and not isinstance(found[-1], (mquerier.Totals, mquerier.Summary))


def fault_of(call, capture):
    with pytest.raises(CaptureFault) as fault:
        list(call(capture))
    return str(fault.value)


def test_fault_names_its_file(tmp_path):
    truncated = tmp_path / os.fsdecode(b"link \xff.pcap")
    truncated.write_bytes(DATA[:-1])
    assert fault_of(mquerier.show, truncated) == f"{truncated}: record 46: the file ends within a packet"
    assert fault_of(mquerier.show, str(truncated)) == fault_of(mquerier.show, truncated)
    assert fault_of(mquerier.convert, truncated) == f"{truncated}: block 46: the file ends within the block"
    for capture, error in [(tmp_path, IsADirectoryError), ("/no/such/file", FileNotFoundError), ("", FileNotFoundError)]:
        with pytest.raises(error):
            mquerier.show(capture)


def test_fault_names_another_kind_of_file():
    with open(f"{TOP}/samples/igmp.pcapng", "rb") as file:
        pcapng = file.read()
    unknown = "it is no classic capture file"
    for call in (mquerier.show, lambda it: mquerier.replay(it, "10.0.0.9")):
        assert fault_of(call, pcapng) == f"{unknown}: the file is pcapng, which convert() reads"
        path = f"{TOP}/samples/igmp.pcapng"
        assert fault_of(call, path) == f"{path}: {unknown}: the file is pcapng, which convert() reads"
        assert fault_of(call, gzip.compress(DATA)) == f"{unknown}: the file is compressed by gzip"
        assert fault_of(call, b"\x28\xb5\x2f\xfd" + DATA) == f"{unknown}: the file is compressed by zstd"
        assert fault_of(call, b"text" * 9) == unknown
    assert fault_of(lambda it: mquerier.check(it, "10.0.0.9"), gzip.compress(DATA)) == f"{unknown}: the file is compressed by gzip"
    assert list(mquerier.check(pcapng, "10.9.0.1")) == list(mquerier.check(mquerier.convert(pcapng), "10.9.0.1"))
    assert fault_of(mquerier.convert, gzip.compress(DATA)).endswith(": the file is compressed by gzip")
    assert "pcapng" not in fault_of(mquerier.convert, pcapng[:-1])


def test_findings_of_nothing():
    def why(*arguments, **more):
        return [*mquerier.check(*arguments, **more)][-1].why

    assert why(SAMPLE, "10.9.0.1") is None
    assert why(SAMPLE, "fe80::1") == "no message"
    assert why(f"{TOP}/vectors/igmp-startup.pcap", "10.0.0.77", until=1000) == "no query"
    with pytest.raises(NothingJudged, match=f"{SAMPLE}: nothing judged: no query from this address was seen"):
        why(SAMPLE, "10.8.0.1")
    assert why(SAMPLE, "10.8.0.1", began=True) == "no query"


def test_findings_are_counted():
    *found, summary = mquerier.check(SAMPLE, "10.9.0.1", possible=True, **VARIABLES)
    assert (summary.findings, summary.possible) == (sum(it.certain for it in found), sum(not it.certain for it in found))
    assert summary.findings > 0 and summary.possible > 0
    certain = collections.Counter(it.finding for it in found if it.certain)
    assert dataclasses.asdict(summary.kinds) == {kind: certain[kind] for kind in typing.get_args(objects.FindingKind)}
    assert summary.variables == mquerier.Variables(rv=2, qi=125, qri=2000, lmqi=500)
    assert [it for it in found if it.certain] == [*mquerier.check(SAMPLE, "10.9.0.1", **VARIABLES)][:-1]
    assert str(found[0]) == "999 differs 0.0.0.0 s: True, wanted False, packet 4 (RFC 3376 section 4.1.5)"


def test_faults_are_copied_whole():
    for it in (CaptureFault("record 46: the file ends"), Fault("now", "too late")):
        copied = pickle.loads(pickle.dumps(it))
        assert (type(copied), str(copied)) == (type(it), str(it))
    assert pickle.loads(pickle.dumps(Fault("now", "too late"))).field == "now"
    for it in (*mquerier.show(DATA), *mquerier.replay(DATA, "10.9.0.1"), *mquerier.check(DATA, "10.9.0.1")):
        assert pickle.loads(pickle.dumps(it)) == it


def test_faults_of_arguments():
    for field, call in [
        ("own", lambda: mquerier.replay(DATA, "0.0.0.0")),
        ("querier", lambda: mquerier.check(DATA, "2001:db8::1")),
        ("family", lambda: mquerier.check(DATA, auto="ipv4")),
        ("robustness", lambda: mquerier.check(DATA, auto="igmp", robustness=8)),
        ("scheduled", lambda: mquerier.replay(DATA, "10.9.0.1", scheduled=0)),
        ("until", lambda: mquerier.replay(DATA, "10.9.0.1", until=2**53 + 1)),
        ("tolerance", lambda: mquerier.check(DATA, "10.9.0.1", tolerance=-1)),
        ("interface", lambda: mquerier.convert(DATA, interface=-1)),
        ("interface", lambda: mquerier.check(DATA, "10.9.0.1", interface=2**64)),
        ("interface", lambda: mquerier.convert(DATA, interface="")),
        ("interface", lambda: mquerier.convert(DATA, interface="a" * 17)),
        ("interface", lambda: mquerier.convert(DATA, interface="\udcff")),
        ("vlan", lambda: mquerier.convert(DATA, vlan=4096)),
    ]:
        with pytest.raises(Fault) as fault:
            call()
        assert fault.value.field == field
    for field, call in [
        ("capture", lambda: mquerier.show(7)),
        ("capture", lambda: mquerier.convert(None)),
        ("querier", lambda: mquerier.check(DATA, 7)),
        ("own", lambda: mquerier.replay(DATA, None)),
        ("rv", lambda: mquerier.replay(DATA, "10.9.0.1", rv=2)),
        ("until", lambda: mquerier.replay(DATA, "10.9.0.1", until=1.5)),
        ("changes", lambda: mquerier.replay(DATA, "10.9.0.1", changes=1)),
        ("tolerance", lambda: mquerier.check(DATA, "10.9.0.1", tolerance=True)),
        ("possible", lambda: mquerier.check(DATA, "10.9.0.1", possible="no")),
        ("interface", lambda: mquerier.convert(DATA, interface=1.5)),
        ("interface", lambda: mquerier.convert(DATA, interface=b"eth0")),
        ("vlan", lambda: mquerier.convert(DATA, vlan="20")),
        ("once", lambda: mquerier.convert(DATA, once=1)),
    ]:
        with pytest.raises(TypeError, match=field):
            call()


def ran(*words):
    return subprocess.run([sys.executable, "-m", "mquerier", *words], stdout=subprocess.PIPE, stderr=subprocess.PIPE, text=True, check=False)


def test_command_line():
    words = ["--querier", "10.9.0.1", "--response-interval", "2000", "--last-member-interval", "500"]
    it = ran("check", SAMPLE, SAMPLE, *words)
    found = [json.loads(line) for line in it.stdout.splitlines()]
    wanted = printed(DATA, "check", "igmp", "--querier", "10.9.0.1", "--qri", "2000", "--lmqi", "500")[0]
    assert it.returncode == 3 and found == 2 * [{"file": SAMPLE, **one} for one in wanted]
    right = ran("check", f"{TOP}/vectors/igmp-query-from-lower.pcap", "--auto", "igmp", "--possible", "--began")
    assert (right.returncode, right.stderr, right.stdout.count("summary")) == (0, "", 1)


def test_report_of_junit(tmp_path):
    right, report = f"{TOP}/vectors/igmp-query-from-lower.pcap", tmp_path / "report.xml"
    words = ["--response-interval", "2000", "--last-member-interval", "500", "--junit", str(report)]
    it = ran("check", SAMPLE, right, f"{TOP}/samples/mld.pcap", "/no/such/file", "--querier", "10.9.0.1", *words)
    assert it.returncode == 1
    suites = ElementTree.parse(report).getroot()
    counts = [tuple(int(suite.get(it)) for it in ("tests", "failures", "errors", "skipped")) for suite in suites]
    assert counts == [(7, 1, 0, 0), (7, 0, 1, 0), (7, 0, 1, 0), (7, 0, 1, 0)]
    failed = {case.get("name"): case.find("failure") for case in suites[0]}
    *found, _ = mquerier.check(SAMPLE, "10.9.0.1", **VARIABLES)
    lines = [str(it) for it in found if it.finding == "differs"]
    assert (failed["differs"].get("message"), failed["differs"].text) == (lines[0], "\n".join(lines))
    assert [case.find("error").get("message") for case in (suites[2][0], suites[3][0])] == [
        "nothing judged: no message", "/no/such/file: No such file or directory",
    ]  # fmt: skip


def test_version_of_the_command_line():
    it = ran("--version")
    assert (it.returncode, it.stdout) == (0, f"mquerier {mquerier.__version__}\n")


def test_command_line_with_faults(tmp_path):
    (tmp_path / "truncated.pcap").write_bytes(DATA[:-1])
    it = ran("check", "/no/such/file", str(tmp_path / "truncated.pcap"), SAMPLE, "--querier", "10.9.0.1")
    files = [json.loads(line)["file"] for line in it.stdout.splitlines()]
    assert it.returncode == 1 and set(files) == {str(tmp_path / "truncated.pcap"), SAMPLE}
    why = ["/no/such/file: No such file or directory", f"{tmp_path}/truncated.pcap: record 46: the file ends within a packet"]
    assert it.stderr.splitlines() == why
    nothing = ran("check", SAMPLE, "--querier", "fe80::1")
    assert (nothing.returncode, nothing.stderr) == (4, f"{SAMPLE}: nothing judged: no message\n")
    unseen = ran("check", SAMPLE, "--querier", "10.8.0.1")
    assert (unseen.returncode, unseen.stdout) == (4, "")
    assert unseen.stderr == f"{SAMPLE}: nothing judged: no query from this address was seen\n"
    assert ran("check", SAMPLE, "--querier", "0.0.0.0").returncode == 2 and ran("check", SAMPLE).returncode == 2


def test_command_line_that_nobody_reads():
    words = [sys.executable, "-m", "mquerier", "check", SAMPLE, "--querier", "10.9.0.1"]
    with subprocess.Popen(words, stdout=subprocess.PIPE, stderr=subprocess.PIPE, text=True) as it:
        it.stdout.close()
        assert (it.stderr.read(), it.wait()) == ("", 1)
