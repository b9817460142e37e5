"""Links: what they return, faults, wrong arguments, memory and threads."""

import copy
import dataclasses
import gc
import inspect
import ipaddress
import os
import pickle
import re
import threading
import typing

import mquerier
import pytest
from conftest import TOP, used
from mquerier import Dropped, Fault, Link, faults

HOST, GROUP = "10.0.0.1", "239.1.2.3"
JOIN = bytes.fromhex("1600f8faef010203")
HEADER = open(f"{TOP}/include/mquerier.h", encoding="utf-8").read()


def made(**more):
    return Link("igmp", own="10.0.0.9", **more)


def test_a_use():
    link = made()
    first = link.tick(0)
    assert [str(it.destination) for it in first.queries] == ["224.0.0.1"] and link.next_deadline == 31250
    answer = link.receive(HOST, JOIN, 40)
    assert (answer.dropped, answer.applied, answer.queries) == (None, 1, ())
    assert link.changed == (ipaddress.ip_address(GROUP),) and link.forwards(GROUP, "10.0.0.5")
    assert link.group(GROUP).deadline == 260040 and link.group(GROUP).v2 == 260040 and link.group("239.1.2.4") is None
    assert link.receive(HOST, JOIN[:-1], 50).dropped is Dropped.CHECKSUM
    assert link.counts.received == 2 and link.counts.dropped_by[Dropped.CHECKSUM] == 1
    assert link.counts.parsed[mquerier.Parsed.OLDER_REPORT] == 1
    while link.next_deadline <= 280000:
        link.tick(link.next_deadline)
    assert not link.forwards(GROUP, "10.0.0.5") and link.groups() == []


def test_what_a_link_says_of_itself():
    for family, own in (("igmp", "10.0.0.9"), ("mld", "fe80::9")):
        link = Link(family, own)
        assert (link.family, link.own) == (family, ipaddress.ip_address(own))
        assert repr(link) == f"Link({family!r}, {own!r})" and repr(eval(repr(link))) == repr(link)


def test_an_envelope_for_both_families():
    envelope = {"destination": GROUP, "hop_limit": 1, "alert": True}
    assert made().receive(HOST, JOIN, 0, **envelope) == made().receive(HOST, JOIN, 0)


def test_faults_have_a_base():
    assert issubclass(Fault, mquerier.Error) and issubclass(mquerier.CaptureFault, mquerier.Error)
    assert issubclass(Fault, ValueError) and issubclass(mquerier.CaptureFault, ValueError)
    with pytest.raises(mquerier.Error):
        made(groups=0)


def test_version():
    assert mquerier.__version__.split("+")[0] == re.search('MQ_VERSION_TEXT "(.*)"', HEADER)[1]


def test_another_querier():
    link = Link("mld", own="fe80::9")
    query = bytes.fromhex("8200ca4d27100000") + bytes(16) + bytes.fromhex("027d0000")
    assert "checksum" in mquerier.message_line("mld", query, "fe80::2", "ff02::1")
    total = sum(int.from_bytes(it[at : at + 2], "big") for it in (ip("fe80::2"), ip("ff02::1"), query) for at in range(0, len(it), 2))
    rest = (total + len(query) + 58 - 0xCA4D) % 0xFFFF
    query = query[:2] + (0xFFFF - rest).to_bytes(2, "big") + query[4:]
    assert mquerier.message_line("mld", query, "fe80::2", "ff02::1").startswith("query v2 group :: response 10000")
    assert link.is_querier and link.other_querier is None
    assert link.receive("fe80::2", query, 5, destination="ff02::1").dropped is None
    assert not link.is_querier and link.other_querier == (ipaddress.ip_address("fe80::2"), 255005)
    assert link.receive("fe80::2", query, 5, destination="ff02::1", hop_limit=2).dropped is Dropped.HOP_LIMIT
    assert link.receive("fe80::2", query, 5, destination="ff02::1", alert=False).dropped is Dropped.NO_ALERT


def test_one_query_for_a_group_that_is_left():
    link = made(last_member_query_count=1)
    link.tick(0)
    link.receive(HOST, JOIN, 40)
    assert len(link.receive(HOST, bytes.fromhex("1700f7faef010203"), 100).queries) == 1 and link.next_deadline == 1100
    assert link.tick(1100).queries == () and link.groups() == []


def test_another_configuration():
    link = made(groups=10, last_member_interval=2000)
    link.tick(0)
    link.receive(HOST, JOIN, 40)
    link.configure(own="10.0.0.7", query_interval=20, groups=1)
    assert str(link.own) == "10.0.0.7" and link.next_deadline == 20040
    assert link.tick(20040).queries[0].message == bytes.fromhex("1164ec870000000002140000")
    assert link.groups()[0].deadline == 260040
    for field, words in [("groups", {"groups": 0}), ("own", {"own": "0.0.0.0"}), ("memory", {"groups": 11}), ("own", {"own": "fe80::1"})]:
        with pytest.raises(Fault) as fault:
            link.configure(**words)
        assert fault.value.field == field and str(link.own) == "10.0.0.7"
    link.configure(groups=10)
    link.receive(HOST, bytes.fromhex("1600f8f9ef010204"), 20050)
    with pytest.raises(Fault) as fault:
        link.configure(groups=1)
    assert fault.value.field == "held"


def test_ranges_of_groups():
    link = made(ranges=[("deny", "239.1.2.3/32"), ("allow", ipaddress.ip_network("239.1.0.0/16"))])
    for body, applied in ((JOIN, 0), (bytes.fromhex("1600f8f9ef010204"), 1), (bytes.fromhex("1600f8f9ef000205"), 0)):
        answer = link.receive(HOST, body, 40)
        assert (answer.dropped, answer.applied, answer.ignored) == (None, applied, 1 - applied)
    assert link.counts.denied == link.counts.ignored == 2 and [str(it.address) for it in link.groups()] == ["239.1.2.4"]
    link.configure(ranges=[])
    assert link.receive(HOST, JOIN, 50).applied == 1
    for ranges in ([("deny", "ff00::/8")], [("deny", "239.1.2.3/33")], [("refuse", "239.1.2.3/32")], [("deny", "239.0.0.0/8")] * 17, ["deny"]):
        with pytest.raises(Fault) as fault:
            link.configure(ranges=ranges)
        assert fault.value.field == "ranges" and link.receive(HOST, JOIN, 60).applied == 1
    with pytest.raises(TypeError, match="ranges"):
        link.configure(ranges="239.0.0.0/8")
    link = Link("mld", "fe80::9", ranges=[("deny", "ff00::/8")])
    assert link.counts.denied == 0


def ip(text):
    return ipaddress.ip_address(text).packed


@pytest.mark.parametrize(
    "field, value",
    [
        ("robustness", 0), ("robustness", 8), ("robustness", -1), ("query_interval", 31745), ("response_interval", 125000),
        ("last_member_interval", 99), ("groups", 0), ("groups", 65536), ("group_sources", 1025), ("sources", 0), ("scheduled", 2**32),
        ("own", "0.0.0.0"), ("own", "224.0.0.1"), ("own", "fe80::9"), ("own", "10.0.0"), ("own", b"123"), ("start", 2**53 + 1),
        ("last_member_query_count", 8), ("last_member_query_count", -1), ("last_member_query_count", 2**32),
        ("own", "10.0.0.9/24"), ("own", "host"), ("own", b"10.0.0.9"), ("start", -1), ("family", "ipv4"), ("family", "IGMP"),
    ],
)  # fmt: skip
def test_fault_names_its_field(field, value):
    words = {"family": "igmp", "own": "10.0.0.9", field: value}
    with pytest.raises(Fault) as fault:
        Link(**words)
    assert fault.value.field == field and str(fault.value).startswith(field)


def test_faults_of_calls():
    link = made()
    for field, call in [
        ("now", lambda: link.tick(2**53 + 1)),
        ("now", lambda: link.receive(HOST, JOIN, -1)),
        ("source", lambda: link.receive("fe80::1", JOIN, 0)),
        ("source", lambda: link.receive(b"\x0a\0\0", JOIN, 0)),
        ("destination", lambda: link.receive(HOST, JOIN, 0, destination="ff02::1")),
        ("hop_limit", lambda: link.receive(HOST, JOIN, 0, hop_limit=256)),
        ("group", lambda: link.forwards("ff02::1", HOST)),
        ("group", lambda: link.group("239.1.2")),
        ("hop_limit", lambda: Link("mld", "fe80::9").receive("fe80::1", b"", 0, destination="ff02::1", hop_limit=256)),
    ]:
        with pytest.raises(Fault) as fault:
            call()
        assert fault.value.field == field
    assert link.counts.received == 0 and link.next_deadline == 0


def mld(**more):
    return Link("mld", "fe80::9").receive(**{"source": "fe80::1", "body": b"", "now": 0, "destination": "ff02::1", **more})


@pytest.mark.parametrize(
    "field, call",
    [
        ("now", lambda link: link.tick(1.5)),
        ("now", lambda link: link.tick(None)),
        ("now", lambda link: link.tick("1")),
        ("now", lambda link: link.tick(True)),
        ("body", lambda link: link.receive(HOST, "text", 0)),
        ("body", lambda link: link.receive(HOST, 8, 0)),
        ("body", lambda link: link.receive(HOST, None, 0)),
        ("source", lambda link: link.receive(167772161, JOIN, 0)),
        ("source", lambda link: link.forwards(GROUP, None)),
        ("group", lambda link: link.group(7)),
        ("destination", lambda _: mld(destination=None)),
        ("destination", lambda link: link.receive(HOST, JOIN, 0, destination=5)),
        ("hop_limit", lambda link: link.receive(HOST, JOIN, 0, hop_limit="1")),
        ("alert", lambda link: link.receive(HOST, JOIN, 0, alert=None)),
        ("hop_limit", lambda _: mld(hop_limit=1.0)),
        ("alert", lambda _: mld(alert=1)),
        ("family", lambda _: Link(4, "10.0.0.9")),
        ("family", lambda _: Link(["igmp"], "10.0.0.9")),
        ("own", lambda _: Link("igmp", 7)),
        ("start", lambda _: made(start=0.5)),
        ("robustness", lambda _: made(robustness="2")),
        ("robustness", lambda _: made(robustness=True)),
        ("groups", lambda _: made(groups=1e3)),
        ("source_specific", lambda _: made(source_specific="no")),
        ("nothing", lambda _: made(nothing=2)),
        ("destination", lambda _: mquerier.message_line("mld", JOIN, "fe80::1")),
        ("copied", copy.copy),
        ("copied", copy.deepcopy),
        ("copied", pickle.dumps),
    ],
)
def test_wrong_type_names_its_argument(field, call):
    with pytest.raises(TypeError, match=field):
        call(made())


def test_numbers_of_any_size():
    for number in (-1, 2**31, 2**32 + 2, 2**64, -(10**5000), 10**5000):
        for field in ("robustness", "groups", "start"):
            if (field, number) != ("start", 2**31) and (field, number) != ("start", 2**32 + 2):
                with pytest.raises(Fault) as fault:
                    made(**{field: number})
                assert fault.value.field == field
    assert made(robustness=None).next_deadline == 0


@pytest.mark.parametrize("length", [0, 1, 3, 7, 9, 1480, 65535, 1 << 20])
def test_any_length(length):
    assert made().receive(HOST, bytes(length), 0).dropped in (Dropped.TRUNCATED, Dropped.CHECKSUM)


def test_anything_with_bytes():
    for body in (bytearray(JOIN), memoryview(JOIN), memoryview(JOIN + b"more")[:8]):
        assert made().receive(HOST, body, 0).applied == 1


def test_texts_and_fields_are_those_of_the_header():
    texts = HEADER[HEADER.index("mq_status_text") :].partition("};")[0]
    assert [text for _, text in faults.STATUSES] == re.findall(r'"([^"]+)"', texts)[1:]
    reasons = re.findall(r"MQ_DROPPED_(\w+)(?: = 1)?[,\s]", HEADER[HEADER.index("MQ_DROPPED_TRUNCATED = 1") :].partition("}")[0])
    assert [it.name for it in Dropped] == reasons
    assert (Dropped(11).name, Dropped(11)) == ("REASON_11", 11)
    with pytest.raises(ValueError):
        Dropped(0)
    for kind, prefix in ((mquerier.Parsed, "MQ_PARSED_"), (mquerier.Refused, "MQ_REFUSED_")):
        names = HEADER[HEADER.index(f"enum {{ {prefix}") if prefix == "MQ_PARSED_" else HEADER.index(f"  {prefix}LONG") :]
        assert [it.name for it in kind] == re.findall(rf"{prefix}(\w+)", names.partition("}")[0])


def test_a_million_calls_take_no_memory():
    link = made()
    for now in range(1_000_000):
        link.receive(HOST, JOIN, now) if now % 2 else link.tick(now)
        if now == 100_000:
            before = used()
    assert used() - before < 1 << 20


@pytest.mark.parametrize("family, own", [("igmp", "10.0.0.9"), ("mld", "fe80::9")])
def test_memory_of_a_link(family, own):
    """Links with the default limits, which all make calls, take at most 200 KB each."""
    kept = [Link(family, own)]
    kept[0].tick(0)
    before = used()
    for _ in range(100):
        kept.append(Link(family, own))
        assert len(kept[-1].tick(0).queries) == 1
    each = (used() - before) // 100
    print(f"a link of {family} takes {each} bytes")
    assert 0 < each <= 200_000


def test_links_that_end_give_their_memory_back():
    for number in range(300):
        made().tick(0)
        if number == 20:
            gc.collect()
            before = used()
    gc.collect()
    assert used() - before < 8 << 20


def played(link, seen):
    for now in range(0, 300_000, 50):
        answer = link.receive(HOST, JOIN, now) if now % 3 else link.tick(now)
        seen.extend((now, it.message) for it in answer.queries)


def test_threads_with_a_link_each():
    alone, each = [], [[] for _ in range(8)]
    played(made(), alone)
    threads = [threading.Thread(target=played, args=(made(), it)) for it in each]
    for it in threads:
        it.start()
    for it in threads:
        it.join()
    assert all(it == alone for it in each)


def test_threads_that_share_a_link():
    link, seen = made(), [[] for _ in range(8)]
    threads = [threading.Thread(target=played, args=(link, it)) for it in seen]
    for it in threads:
        it.start()
    for it in threads:
        it.join()
    assert link.counts.sent == sum(map(len, seen)) and link.counts.dropped == 0


def in_a_fork(call):
    """Returns the text that a call returns in a new process."""
    read, write = os.pipe()
    child = os.fork()
    if not child:
        try:
            text = call()
        except RuntimeError as why:
            text = str(why)
        os.write(write, text.encode())
        os._exit(0)
    os.close(write)
    with open(read, encoding="utf-8") as said:
        text = said.read()
    os.waitpid(child, 0)
    return text


def test_a_fork_has_links_of_its_own():
    link = made()
    assert in_a_fork(lambda: link.tick(0).queries[0].message.hex()) == link.tick(0).queries[0].message.hex()


def test_a_fork_during_a_call_leaves_no_deadlock():
    link, other = made(), made()
    with link._lock:  # as another thread in a call
        assert "another thread" in in_a_fork(lambda: str(link.tick(0)))
        assert in_a_fork(lambda: in_a_fork(lambda: str(link.is_querier))).startswith("another thread")
        assert in_a_fork(lambda: str(len(other.tick(0).queries))) == "1"
    assert len(link.tick(0).queries) == 1


def calls_of(it):
    """Returns the calls of a function or a class that a user makes."""
    if not inspect.isclass(it):
        return [it] if inspect.isfunction(it) else []
    public = [of for name, of in vars(it).items() if name == "__init__" or not name.startswith("_")]
    return [of.fget if isinstance(of, property) else of for of in public if isinstance(of, property) or inspect.isfunction(of)]


@pytest.mark.parametrize("name", mquerier.__all__)
def test_types_are_whole(name):
    it = getattr(mquerier, name)
    for call in calls_of(it):
        assert {*inspect.signature(call).parameters, "return"} - {"self"} == {*typing.get_type_hints(call)}
    if dataclasses.is_dataclass(it):
        of_instances = {name for name, of in typing.get_type_hints(it).items() if typing.get_origin(of) is not typing.ClassVar}
        assert {of.name for of in dataclasses.fields(it)} == of_instances
