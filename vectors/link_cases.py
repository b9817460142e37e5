"""The cases of limits, dropped messages, older hosts, the source-specific range, large groups, frames and captures."""

import wire
from bench import ALLOW, BLOCK, IS_EX, IS_IN, TO_EX, TO_IN, Bench, Case, Step
from wire import ALERT, FAMILIES, IGMP, text_of


def limits(b):
    """Each reason to refuse a record, alone. The standards have no limits."""
    g, g2, a, bb, c = b.G, b.G2, b.a, b.b, b.c
    own, sections = "the limit; the standard has none", ("6.4", "7.4")
    host = text_of(b.host)
    yield Case(
        "refused-long",
        "a record with more sources than a group may have",
        sections,
        [(0, b.report((ALLOW, g, [a, bb, c]))), (1000, b.report((ALLOW, g, [a, bb])))],
        "--group-sources 2",
        own,
        has=(f"0 receive 1 {host} taken 0 0 1", f"1000 receive 2 {host} taken 1 0 0"),
    )
    yield Case(
        "refused-repeated",
        "the fifth and sixth record of one Report for a known group",
        sections,
        [(0, b.report((ALLOW, g, [a]))), (1000, b.report(*[(BLOCK, g, [])] * 6))],
        own=own,
        has=(f"1000 receive 2 {host} taken 4 0 2",),
    )
    yield Case(
        "refused-groups",
        "one group more than the limit",
        sections,
        [(0, b.report((ALLOW, g, [a]))), (1000, b.report((ALLOW, g2, [a])))],
        "--groups 1",
        own,
        has=(f"1000 receive 2 {host} taken 0 0 1", "end", f"group {text_of(g)} include {text_of(a)}=260000", "counts"),
    )
    yield Case(
        "refused-group-sources",
        "one source more than the limit of a group",
        sections,
        [(0, b.report((ALLOW, g, [a, bb]))), (1000, b.report((IS_IN, g, [c])))],
        "--group-sources 2",
        own,
        has=(f"1000 receive 2 {host} taken 0 0 1", f"group {text_of(g)} include {text_of(a)}=260000 {text_of(bb)}=260000"),
    )
    yield Case(
        "refused-sources",
        "one source more than the limit of all groups",
        sections,
        [(0, b.report((ALLOW, g, [a, bb]))), (1000, b.report((ALLOW, g2, [a]), (ALLOW, g, [bb])))],
        "--sources 2",
        own,
        has=(f"1000 receive 2 {host} taken 1 0 1", f"group {text_of(g)} include {text_of(a)}=260000 {text_of(bb)}=261000"),
    )
    yield Case(
        "refused-scheduled",
        "one group with pending queries more than the limit",
        sections,
        [(0, b.report((ALLOW, g, [a]), (ALLOW, g2, [a]))), (1000, b.report((BLOCK, g, [a]), (BLOCK, g2, [a])))],
        "--scheduled 1 --until 3000",
        own,
        has=(
            "1000 send",
            f"1000 receive 2 {host} taken 1 0 1",
            "2000 send",
            "end",
            f"group {text_of(g2)} include {text_of(a)}=260000",
            "counts",
        ),
    )
    groups = [(int.from_bytes(g, "big") + at).to_bytes(len(g), "big") for at in range(257)]
    those = f"for each of 257 groups from {b.named(g)} up"
    yield Case(
        "refused-scheduled-by-default",
        "256 groups may have pending queries, and not one more",
        sections,
        [
            (0, Step(b.report(*[(ALLOW, it, [a]) for it in groups]).frame, f"ALLOW {{a}} {those}")),
            (1000, Step(b.report(*[(BLOCK, it, [a]) for it in groups]).frame, f"BLOCK {{a}} {those}")),
        ],
        "--until 3000",
        own,
        has=(
            *[f"1000 send {text_of(it)} " for it in groups[:-1]],
            f"1000 receive 2 {host} taken 256 0 1",
            *[f"2000 send {text_of(it)} " for it in groups[:-1]],
            "end",
            f"group {text_of(groups[-1])} include {text_of(a)}=260000",
            "counts",
        ),
    )


def older_hosts(b):
    g, a, bb = b.G, b.a, b.b
    host = text_of(b.host)
    sections, version = ("7.3.2", "8.3.2"), 2 if b.family is IGMP else 1
    yield Case(
        f"v{version}-host-mutes",
        f"while a version {version} host is present, BLOCK is ignored, and TO_EX loses its sources; other records act",
        sections,
        [
            (0, b.older()),
            (500, b.report((TO_EX, g, [a]))),
            (1000, b.report((BLOCK, g, [a]))),
            (1500, b.report((ALLOW, g, [bb]))),
            (2000, b.report((TO_IN, g, []))),
        ],
        has=(
            f"500 receive 2 {host} taken 1 0 0",
            f"1000 receive 3 {host} taken 0 1 0",
            f"1500 receive 4 {host} taken 1 0 0",
            "2000 send",
            "2000 send",
            f"group {text_of(g)} exclude 4000 {text_of(bb)}=4000 v{version} 260000",
        ),
    )
    yield Case(
        f"v{version}-host-is-ex",
        f"while a version {version} host is present, IS_EX keeps its sources",
        sections,
        [(0, b.older()), (1000, b.report((IS_EX, g, [a])))],
        own="the standard names only BLOCK and TO_EX",
        has=(f"group {text_of(g)} exclude 261000 {text_of(a)}=261000 v{version} 260000",),
    )
    yield Case(
        "older-host-gone",
        "after the older host present interval BLOCK acts again",
        ("7.3.2, 8.13", "8.3.2, 9.13"),
        [
            (0, b.older()),
            (100000, b.report((IS_EX, g, []))),
            (259999, b.report((BLOCK, g, [a]))),
            (260000, b.report((BLOCK, g, [a]))),
        ],
        own="a timer is at zero at its deadline",
        has=(
            f"259999 receive 3 {host} taken 0 1 0",
            "260000 send",
            f"260000 receive 4 {host} taken 1 0 0",
            f"group {text_of(g)} exclude 360000 {text_of(a)}=262000",
        ),
    )
    yield Case(
        "older-report-of-sources",
        "an older Report makes an INCLUDE group EXCLUDE without sources",
        sections,
        [(0, b.report((ALLOW, g, [a]))), (1000, b.older())],
        has=(f"group {text_of(g)} exclude 261000 v{version} 261000",),
    )
    if b.family is IGMP:
        yield from version_one(b, host)
    else:
        yield Case(
            "v1-host-done",
            "Done acts while a version 1 host is present",
            ("", "8.3.2"),
            [(0, b.older()), (1000, b.leave())],
            "--until 3000",
            has=("1000 send", "2000 send", "end", "counts"),
        )


def version_one(b, host):
    g, a, sections = b.G, b.a, ("7.3.2", "")
    yield Case(
        "v1-host-mutes-leave",
        "while a version 1 host is present, Leave is ignored",
        sections,
        [(0, b.older(1)), (1000, b.leave())],
        "--until 3000",
        has=(f"1000 receive 2 {host} taken 0 1 0", "end 3000", "group 239.1.2.3 exclude 260000 v1 260000"),
    )
    yield Case(
        "v1-host-mutes",
        "while a version 1 host is present, TO_IN and BLOCK are ignored, and TO_EX loses its sources; ALLOW acts",
        sections,
        [
            (0, b.older(1)),
            (500, b.report((TO_IN, g, []))),
            (1000, b.report((BLOCK, g, [a]))),
            (1500, b.report((TO_EX, g, [a]))),
            (2000, b.report((ALLOW, g, [b.b]))),
        ],
        has=(
            f"500 receive 2 {host} taken 0 1 0",
            f"1000 receive 3 {host} taken 0 1 0",
            f"1500 receive 4 {host} taken 1 0 0",
            f"2000 receive 5 {host} taken 1 0 0",
            "group 239.1.2.3 exclude 261500 10.0.0.2=262000 v1 260000",
        ),
    )
    yield Case(
        "v1-and-v2-hosts",
        "hosts of versions 1 and 2: after the interval of version 1 Leave acts, and BLOCK is still ignored",
        sections,
        [(0, b.older(1)), (200000, b.older(2)), (259999, b.leave()), (260000, b.report((BLOCK, g, [a]))), (260001, b.leave())],
        own="a timer is at zero at its deadline",
        has=(
            f"259999 receive 3 {host} taken 0 1 0",
            f"260000 receive 4 {host} taken 0 1 0",
            "260001 send",
            f"260001 receive 5 {host} taken 1 0 0",
            "group 239.1.2.3 exclude 262001 v2 460000",
        ),
    )


def source_specific(b):
    h, a, host = b.R, b.a, text_of(b.host)
    steps = [
        (0, b.report((TO_EX, h, []), (IS_EX, h, []))),
        (1000, b.report((ALLOW, h, [a]))),
        (1500, b.older(group=h)),
        (2000, b.leave(h)),
        (2500, b.report((BLOCK, h, [a]))),
    ]
    sections = ("RFC 4604 3.1, 3.5, 3.7", "RFC 4604 3.1, 3.5, 3.7")
    yield Case(
        "range-kept",
        "in the source-specific range TO_EX, IS_EX, older Reports and Leave are ignored; other records act",
        sections,
        steps,
        "--ssm --until 3500",
        has=(
            f"0 receive 1 {host} taken 0 2 0",
            f"1500 receive 3 {host} taken 0 1 0",
            f"2000 receive 4 {host} taken 0 1 0",
            "2500 send",
            "3500 send",
            "end",
            f"group {text_of(h)} include {text_of(a)}=4500",
        ),
    )
    yield Case(
        "range-not-kept",
        "if the source-specific range is not kept, TO_EX, IS_EX, older Reports and Leave act",
        ("6.4, 7.3.2", "7.4, 8.3.2"),
        steps,
        "--until 3500",
        has=(
            f"0 receive 1 {host} taken 2 0 0",
            f"1500 receive 3 {host} taken 1 0 0",
            "2000 send",
            f"2000 receive 4 {host} taken 1 0 0",
            f"2500 receive 5 {host} taken 0 1 0",
            "3000 send",
            "end 3500 querier",
            f"group {text_of(h)} exclude 4000 v{2 if b.family is IGMP else 1} 261500",
        ),
    )
    yield Case(
        "range-and-others",
        "groups outside the range do not depend on it",
        sections,
        [(0, b.older()), (1000, b.leave()), (1500, b.report((TO_EX, b.G2, [a])))],
        "--ssm --until 3000",
        has=("1000 send", "2000 send", "end", f"group {text_of(b.G2)} exclude 261500 !{text_of(a)}", "counts"),
    )
    yield Case(
        "range-to-in",
        "TO_IN acts in the range",
        sections,
        [(0, b.report((ALLOW, h, [a]))), (1000, b.report((TO_IN, h, [])))],
        "--ssm --until 3000",
        has=("1000 send", "2000 send", "end", "counts"),
    )


def large(b):
    """Sendings of as many sources as one query holds, and of more."""
    g, most = b.H, b.family.per_query
    sections, own = (
        ("4.1.8, 6.6.3.2", "5.1.10, 7.6.3.2"),
        "how the sources are split",
    )

    def blocked(number, *more):
        sources = b.sources(number)
        return [(0, b.report((ALLOW, g, sources))), (1000, b.report((BLOCK, g, sources))), *more]

    yield Case(
        "full-query",
        f"{most} sources in one query, the largest on an MTU of 1500",
        sections,
        blocked(most),
        "--until 3000",
        has=("0 send", "1000 send", "1000 receive", "2000 send", "end 3000", "counts"),
    )
    yield Case(
        "several-queries",
        f"{most + 1} sources in two queries: a full one, and the greatest source alone",
        sections,
        blocked(most + 1),
        f"--group-sources {400 if b.family is IGMP else 90} --until 3000",
        own,
        has=("1000 send", "1000 send", "1000 receive", "2000 send", "2000 send", "end 3000", "counts"),
    )
    again = b.sources(2 * most + 2)
    number = len(again)
    yield Case(
        "several-queries-with-s",
        "half of the blocked sources are allowed again: queries with S set, then with S clear, and no empty query",
        sections,
        [*blocked(number), (1500, b.report((ALLOW, g, again[::2])))],
        f"--group-sources {number} --until 2000",
        own,
        has=("1000 send", "1000 send", "1000 send", "1000 receive", *["2000 send"] * 4, "end 2000"),
    )
    if b.family is IGMP:
        yield Case(
            "sending-of-1024-sources",
            "1024 sources in three queries",
            sections,
            blocked(1024),
            "--group-sources 1024 --until 3000",
            own,
            has=("1000 send",) * 3 + ("1000 receive",) + ("2000 send",) * 3 + ("end 3000", "counts"),
        )


def dropping(b):
    """Each reason to drop a message. A correct message follows."""
    g, a = b.G, b.a
    good, host = (1000, b.report((ALLOW, g, [a]))), text_of(b.host)
    igmp = b.family is IGMP

    def dropped(name, number, shows, sections, step, own="", source=host):
        return Case(
            f"dropped-{name}",
            shows,
            sections,
            [(0, step), good],
            own=own,
            has=(f"0 receive 1 {source} dropped {number}", f"1000 receive 2 {host} taken 1 0 0"),
        )

    cut = wire.report(b.family, [(ALLOW, g, [a])])[:-1]
    yield dropped(
        "truncated",
        1,
        "a Report with a truncated last source",
        ("4.2", "5.2"),
        b.bare(cut.hex(), "a Report with a truncated record"),
        "the records before it are dropped too",
    )
    yield dropped(
        "checksum",
        2,
        "a message with a wrong checksum",
        ("4.1.2, 4.2.2", "5.1.2, 5.2.2"),
        b.step(wire.report(b.family, [(ALLOW, g, [a])]), b.all_reports, "a Report with checksum 0", has_checksum=False),
    )
    yield dropped(
        "unknown-type",
        3,
        "a message of an unknown type",
        ("4", "5"),
        b.bare("13000000" if igmp else "99000000", "a message of type 0x13" if igmp else "a message of type 153"),
    )
    length = ("1164000000000000" if igmp else "82000000" + 20 * "00") + "0000"
    yield dropped(
        "query-length",
        4,
        f"a query of {len(length) // 2} bytes, a length that no version has",
        ("7.1", "8.1"),
        b.bare(length, f"a query of {len(length) // 2} bytes", b.everyone),
    )
    nobody = [b.everyone] if igmp else [b.everyone, bytes([0xFF, 1, *12 * [0], 1, 1]), bytes([0xFF, 0, *12 * [0], 1, 1])]
    for number, group in enumerate(nobody):
        yield dropped(
            "group" + ("", "-scope-1", "-scope-0")[number],
            10,
            "an older Report for a group that hosts do not report",
            ("5", "6"),
            b.older(group=group),
            "a reason to drop the message",
        )
    if igmp:
        yield dropped(
            "query-from-zero",
            8,
            "a query from 0.0.0.0",
            ("6.6.2", ""),
            b.query(b.zero),
            "the standard has no rule for it",
            "0.0.0.0",
        )
        yield dropped(
            "v1-query",
            9,
            "a query of IGMPv1, which has no election",
            ("6.6.2, 7.1", ""),
            b.older_query(b.lower, version=1),
            "dropped and counted",
            text_of(b.lower),
        )
        yield Case(
            "report-from-zero",
            "a Report from 0.0.0.0 acts",
            ("4.2.13", ""),
            [(0, b.report((ALLOW, g, [a]), source=b.zero))],
            has=("0 receive 1 0.0.0.0 taken 1 0 0",),
        )
        return
    everywhere, sections = bytes.fromhex("20010db8000000000000000000000009"), ("", "5.2.13, 7.4")
    record = (ALLOW, g, [a])
    yield dropped(
        "source",
        5,
        "a Report from an address that is not link-local",
        sections,
        b.report(record, source=everywhere),
        source="2001:db8::9",
    )
    yield dropped("zero-source", 5, "a Report from ::", sections, b.report(record, source=b.zero), source="::")
    yield dropped("query-source", 5, "a query from ::", ("", "5.1.14"), b.query(b.zero), source="::")
    yield dropped("hop-limit", 6, "a Report with hop limit 255", ("", "5, 7.4"), b.report(record, hops=255))
    yield dropped(
        "no-alert",
        7,
        "a Report with a hop-by-hop header without Router Alert",
        ("", "5, 7.4"),
        b.report(record, options=b"\1\4\0\0\0\0"),
    )
    yield dropped("no-options", 7, "a Report without a hop-by-hop header", ("", "5, 7.4"), b.report(record, options=None))
    yield dropped(
        "older-without-alert",
        7,
        "a version 1 Report without Router Alert",
        ("", "5"),
        b.older(options=None),
        "older messages get the same tests",
    )


def frames(b):
    """Contents of frames, each followed by a Report."""
    good = b.report((ALLOW, b.G, [b.a]))
    to, host, igmp = b.all_reports, text_of(b.host), b.family is IGMP
    body = wire.with_checksum(b.family, wire.report(b.family, [(ALLOW, b.G2, [b.b])]), b.host, to)

    def in_ip(**how):
        return wire.in_ipv4(body, b.host, to, **how) if igmp else wire.in_ipv6(body, b.host, to, **how)

    def case(name, shows, wanted, packets, link=1, **how):
        steps = [(at * 1000, step) for at, step in enumerate(packets)] + [(len(packets) * 1000, good if link == 1 else Step(good.frame[14:], good.told))]
        has = [f"{at * 1000} skip {at + 1} {wanted}" for at in range(len(packets))] if isinstance(wanted, str) else wanted
        return Case(
            name,
            shows,
            ("no section", "no section"),
            steps,
            has=tuple(has) + (f"{len(packets) * 1000} receive {len(packets) + 1} {host} taken 1 0 0",),
            link=link,
            own="the words `cut`, `fragment` and `other`" if isinstance(wanted, str) or link == 101 else "",
            **how,
        )

    def ethernet(packet, told, **how):
        return Step(wire.in_ethernet(packet, to, **how), told)

    whole, tag = in_ip(), b"\x81\0\0\5"
    arp = ethernet(bytes(28), "ARP", kind=0x0806)
    if igmp:
        other = [
            ethernet(b"\x66" + whole[1:], "an IPv4 frame whose packet says version 6"),
            ethernet(in_ip(protocol=17), "UDP"),
            ethernet(b"\x44" + whole[1:], "a header length of 16"),
            ethernet(in_ip(total=19), "a total length below the header's"),
        ]
        cut = [ethernet(whole[:19], "less than a header"), ethernet(whole[:-1], "less than the total length")]
        fragment = [
            ethernet(in_ip(flags=0x2000), "more fragments"),
            ethernet(in_ip(flags=1), "an offset"),
            ethernet(in_ip(flags=0x2000)[:-1], "a truncated fragment"),
        ]
    else:
        other = [
            ethernet(b"\x40" + whole[1:], "an IPv6 frame whose packet says version 4"),
            ethernet(whole[:6] + b"\6" + whole[7:], "TCP"),
            ethernet(whole[:4] + b"\0\7" + whole[6:], "a payload of 7 bytes with options"),
            ethernet(whole[:41] + b"\xff" + whole[42:], "options that are longer than the payload"),
            ethernet(in_ip(following=17), "UDP after options"),
            ethernet(whole[:40] + b"\0" + whole[41:], "a second hop-by-hop header"),
        ]
        cut = [ethernet(whole[:39], "less than a header"), ethernet(whole[:-1], "less than the payload length")]
        fragment = [
            ethernet(whole[:6] + b"\x2c" + whole[7:], "a fragment"),
            ethernet(whole[:40] + b"\x2c" + whole[41:], "a fragment after options"),
            ethernet(whole[:6] + b"\x2c" + whole[7:-1], "a truncated fragment"),
        ]
    yield case(
        "frames-other",
        "packets without a message of the family",
        "other",
        [arp, ethernet(whole, "two tags", tag=tag + tag), *other],
    )
    yield case(
        "frames-cut",
        "frames captured in part",
        "cut",
        [Step(arp.frame[:13], "less than an Ethernet header"), Step(wire.in_ethernet(whole, to, tag=tag)[:17], "a truncated tag"), *cut],
    )
    yield case("frames-fragment", "fragments, which are not reassembled", "fragment", fragment)
    taken = [f"{at * 1000} receive {at + 1} {host} taken 1 0 0" for at in range(2)]
    yield case(
        "frames-tag",
        "a Report after a VLAN tag, and a Report before padding",
        taken,
        [ethernet(whole, "a Report after a tag", tag=tag), ethernet(whole + bytes(18), "a Report with padding")],
    )
    bare = [Step(b"", "no byte"), Step(b"\x50" + whole[1:], "version 5")]
    yield case(
        "raw",
        "raw IP packets (link type 101)",
        ["0 skip 1 cut", "1000 skip 2 other", f"2000 receive 3 {host} taken 1 0 0"],
        [*bare, Step(whole, "a Report")],
        101,
    )
    yield case("big-endian", "a capture in the other byte order", taken[:1], [ethernet(whole, "a Report")], order=">")
    yield case("nanoseconds", "a capture with nanoseconds", taken[:1], [ethernet(whole, "a Report")], nanoseconds=True)
    yield case(
        "big-endian-nanoseconds",
        "a capture in the other byte order, with nanoseconds",
        taken[:1],
        [ethernet(whole, "a Report")],
        order=">",
        nanoseconds=True,
    )
    if igmp:
        yield case(
            "ip-options",
            "IP options before the message",
            taken[:1],
            [ethernet(in_ip(options=b"\x94\x04\0\0" + bytes(4)), "a Report after 8 bytes of options")],
        )
        yield case(
            "do-not-fragment",
            "the flag that forbids fragments",
            taken[:1],
            [ethernet(in_ip(flags=0x4000), "a Report that must not be fragmented")],
        )
    else:
        yield from alerts(case, lambda options, told: ethernet(in_ip(options=options), told), host)
        empty = [
            ethernet(wire.in_ipv6(b"", b.host, to), "no byte after options"),
            ethernet(wire.in_ipv6(b"", b.host, to, None), "no byte after the header"),
        ]
        yield case(
            "empty-message",
            "packets with an empty message",
            [f"{at * 1000} receive {at + 1} {host} dropped 1" for at in range(2)],
            empty,
        )
    other = "mld" if igmp else "igmp"
    yield family_case(b, other, good, host)


def alerts(case, report, host):
    """Places of Router Alert among the options of a hop-by-hop header, and options that are not Router Alert."""
    there = [
        report(b"\0\1\4\0\0\0\0" + ALERT[:4] + b"\1\1\0", "after Pad1 and PadN of 4, before PadN of 1"),
        report(b"\0\0" + ALERT[:4], "after two Pad1"),
        report(b"\1\0" + ALERT[:4], "after PadN of 0"),
        report(b"\1\0\1\0\1\0" + ALERT[:4] + b"\1\2\0\0", "after three PadN of 0, before PadN of 2"),
        report(ALERT[:4] + b"\1\xff", "before an option that does not fit"),
    ]
    yield case(
        "alert-among-options",
        "Router Alert among other options",
        [f"{at * 1000} receive {at + 1} {host} taken 1 0 0" for at in range(len(there))],
        there,
    )
    lacking = [
        report(b"\1\xff" + ALERT[:4], "after an option that does not fit"),
        report(b"\1\5" + ALERT[:4], "after an option that is a byte too long"),
        report(b"\1\1\0" + ALERT[:3], "truncated by the header's end"),
        report(b"\0\1\3\0\0\0", "absent: PadN ends with the header"),
        report(b"\5\3\0\0\0\0", "another length"),
        report(b"\5\2\0\1\1\0", "another value"),
        report(b"\6\2\0\0\1\0", "another type"),
    ]
    yield case(
        "alert-not-there",
        "options without Router Alert",
        [f"{at * 1000} receive {at + 1} {host} dropped 7" for at in range(len(lacking))],
        lacking,
    )


def family_case(b, other, good, host):
    """A message of the other family is skipped."""
    it = Bench(FAMILIES[other])
    return Case(
        "other-family",
        "a message of the other family is skipped",
        ("no section", "no section"),
        [(0, it.older()), (1000, good)],
        own="the word `other`",
        has=("0 skip 1 other", f"1000 receive 2 {host} taken 1 0 0"),
    )
