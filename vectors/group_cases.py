"""The cases: packets with their times, their subject, and their sections of RFC 3376 and RFC 3810."""

import wire
from bench import ALLOW, BLOCK, IS_EX, IS_IN, TO_EX, TO_IN, Case
from wire import IGMP, KINDS, address, text_of

# The rows of the standards' tables: the record, the group afterwards, and the queries at its time. `=N` is a timer that expires at
# N, `!` a stopped timer; `G` is the group itself.
INCLUDE_ROWS = [
    (IS_IN, "include a=260000 b=261000 c=261000", []),
    (IS_EX, "exclude 261000 b=260000 !c", []),
    (ALLOW, "include a=260000 b=261000 c=261000", []),
    (BLOCK, "include a=260000 b=3000", ["b"]),
    (TO_EX, "exclude 261000 b=3000 !c", ["b"]),
    (TO_IN, "include a=3000 b=261000 c=261000", ["a"]),
]
EXCLUDE_ROWS = [
    (IS_IN, "exclude 260000 a=260500 b=261000 c=261000 d=261000", []),
    (IS_EX, "exclude 261000 !b c=261000 d=260500", []),
    (ALLOW, "exclude 260000 a=260500 b=261000 c=261000 d=261000", []),
    (BLOCK, "exclude 260000 a=260500 !b c=3000 d=3000", ["cd"]),
    (TO_EX, "exclude 261000 !b c=3000 d=3000", ["cd"]),
    (TO_IN, "exclude 3000 a=3000 b=261000 c=261000 d=261000", ["G", "a"]),
]


def state_of(b, words):
    """The line of a group whose sources are letters."""
    found = [f"group {text_of(b.H)}"]
    for word in words.split():
        letter = word.lstrip("!")[0]
        found.append(
            word if letter not in "abcd" or word in ("include", "exclude") else word.replace(letter, text_of(getattr(b, letter)), 1),
        )
    return " ".join(found)


def asked_of(b, asked, moment):
    """The line of a query with S clear and default variables."""
    sources = [] if asked == "G" else [getattr(b, it) for it in asked]
    body = wire.query(b.family, b.H, sources, False, 10 if b.family is IGMP else 1000, 2, 125)
    body = wire.with_checksum(b.family, body, b.own, b.H)
    return f"{moment} send {text_of(b.H)} {body.hex()}"


def tables(b):
    g, a, bb, c, d = b.H, b.a, b.b, b.c, b.d
    begun = {
        "include": [(0, b.report((ALLOW, g, [a, bb])))],
        "exclude": [(0, b.report((TO_EX, g, [a, bb]))), (500, b.report((ALLOW, g, [a, d])))],
    }
    named = {"include": [bb, c], "exclude": [bb, c, d]}
    for mode, rows in (("include", INCLUDE_ROWS), ("exclude", EXCLUDE_ROWS)):
        for kind, state, asked in rows:
            name = f"{mode}-{KINDS[kind].lower().replace('_', '-')}"
            shows = f"{mode.upper()}, {KINDS[kind]}"
            has = (*[asked_of(b, it, 1000) for it in asked], "end 1000 querier", state_of(b, state))
            sections = ("6.4.1", "7.4.1") if kind in (IS_IN, IS_EX) else ("6.4.2, 6.6.3", "7.4.2, 7.6.3")
            own = "a source new to X gets the group timer from before the record" if (mode, kind) == ("exclude", TO_EX) else ""
            yield Case(name, shows, sections, [*begun[mode], (1000, b.report((kind, g, named[mode])))], own=own, has=has)


def worked(b):
    """Leaves, repeated queries and the S flag."""
    g, h, a, bb = b.G, b.H, b.a, b.b
    is_igmp = b.family is IGMP
    twice = (
        "110afb73ef010203027d0000",
        "110af373ef0102030a7d0000",
        "110aef70e8010101027d00020a0000010a000002",
        "110af173e80101010a7d00010a000001",
        "110af972e8010101027d00010a000002",
    )

    def sends(moment, at, to):
        return (f"{moment} send {text_of(to)} {twice[at]}",) if is_igmp else (f"{moment} send {text_of(to)} ",)

    version = "v2" if is_igmp else "v1"
    older = ("7.3.2, 6.4.2, 6.6.3.1", "8.3.2, 7.4.2, 7.6.3.1")
    yield Case(
        "leave",
        "an older host leaves: a query for the group is sent at once and a Last Member Query Interval later; the group ends after the Last Member Query Time",
        older,
        [(0, b.older()), (1000, b.leave())],
        "--until 3000",
        has=sends(1000, 0, g) + sends(2000, 0, g) + ("end 3000 querier", "counts "),
    )
    yield Case(
        "leave-and-report-again",
        "a Report between the two queries: the second query has S set, and the group stays",
        older,
        [(0, b.older()), (1000, b.leave()), (1500, b.older())],
        "--until 3000",
        has=sends(1000, 0, g) + sends(2000, 1, g) + (f"group {text_of(g)} exclude 261500 {version} 261500",),
    )
    yield Case(
        "leave-without-group",
        "a Leave for an unknown group causes no query",
        ("6.4.2", "7.4.2"),
        [(0, b.leave())],
        "--until 3000",
        own="it acts as TO_IN({}) also where no older host was heard",
        has=("end", "counts "),
    )
    yield Case(
        "leave-of-sources",
        "a Leave for a group in INCLUDE mode causes queries for its sources",
        ("6.4.2, 6.6.3.2", "7.4.2, 7.6.3.2"),
        [(0, b.report((ALLOW, g, [a, bb]))), (1000, b.leave())],
        "--until 2999",
        own="it acts as TO_IN({}) also where no older host was heard",
        has=("1000 send", "2000 send", "end", f"group {text_of(g)} include {text_of(a)}=3000 {text_of(bb)}=3000"),
    )
    yield Case(
        "blocked-and-one-refreshed",
        "two sources are blocked and one is allowed again: two queries are sent the second time, with S set for this source and with S clear for the other",
        ("6.6.3.2", "7.6.3.2"),
        [(0, b.report((ALLOW, h, [a, bb]))), (1000, b.report((BLOCK, h, [a, bb]))), (1500, b.report((ALLOW, h, [a])))],
        "--until 3000",
        has=sends(1000, 2, h) + sends(2000, 3, h) + sends(2000, 4, h) + (f"group {text_of(h)} include {text_of(a)}=261500",),
    )
    yield Case(
        "blocked-again",
        "a second BLOCK of a source with a lowered timer causes no query",
        ("6.6.3.2", "7.6.3.2"),
        [(0, b.report((ALLOW, g, [a]))), (1000, b.report((BLOCK, g, [a]))), (1100, b.report((BLOCK, g, [a])))],
        "--until 2999",
        has=("1000 send", "1100 receive 3", "2000 send", "end", f"group {text_of(g)} include {text_of(a)}=3000"),
    )
    yield Case(
        "blocked-one-by-one",
        "a source is blocked between two queries for another: a query for both is sent at once, and one for the second source an interval later",
        ("6.6.3.2", "7.6.3.2"),
        [(0, b.report((ALLOW, g, [a, bb]))), (1000, b.report((BLOCK, g, [a]))), (1500, b.report((BLOCK, g, [bb])))],
        "--until 3500",
        own="the query for the new source is also the second query for the first source",
        has=("1000 send", "1500 send", "2500 send", "end 3500"),
    )
    yield Case(
        "blocked-near-the-end",
        "a source new to an EXCLUDE group gets the group timer; if this is within the Last Member Query Time, no query is sent",
        ("6.4.2, 6.6.3.2", "7.4.2, 7.6.3.2"),
        [(0, b.report((TO_EX, g, []))), (259000, b.report((BLOCK, g, [a])))],
        "--until 259999",
        has=("259000 receive", "end", f"group {text_of(g)} exclude 260000 {text_of(a)}=260000"),
    )
    yield Case(
        "blocked-and-gone",
        "a blocked source without a listener ends after the Last Member Query Time, and the group with it",
        ("6.3, 6.6.3.2", "7.3, 7.6.3.2"),
        [(0, b.report((ALLOW, g, [a]))), (1000, b.report((BLOCK, g, [a])))],
        "--until 3000",
        has=("1000 send", "2000 send", "end 3000 querier", "counts"),
    )


def timers(b):
    """Timers that end, and moments."""
    g, g2, g3, a, bb = b.G, b.G2, b.G3, b.a, b.b
    yield Case(
        "startup",
        "general queries at startup: the Robustness Variable is their number, a quarter of the Query Interval their interval; then a Query Interval",
        ("8.2, 8.6, 8.7", "9.2, 9.6, 9.7"),
        [(0, b.report())],
        "--until 281250",
        own="each later query is due a Query Interval after the previous one",
        has=("0 send", "31250 send", "156250 send", "281250 send", "end"),
    )
    yield Case(
        "startup-three",
        "general queries at startup with Robustness Variable 3",
        ("8.6, 8.7", "9.6, 9.7"),
        [(0, b.report())],
        "--rv 3 --until 187500",
        has=("0 send", "31250 send", "62500 send", "187500 send"),
    )
    yield Case(
        "startup-one",
        "general queries at startup with Robustness Variable 1",
        ("8.1, 8.7", "9.1, 9.7"),
        [(0, b.report())],
        "--rv 1 --until 125000",
        has=("0 send", "125000 send", "end"),
    )
    yield Case(
        "until-before-a-query",
        "the text ends a millisecond before a general query is due",
        ("8.6", "9.6"),
        [(0, b.report())],
        "--until 31249",
        has=("0 send", "end 31249"),
    )
    yield Case(
        "until-at-a-query",
        "the text ends exactly when a general query is due",
        ("8.6", "9.6"),
        [(0, b.report())],
        "--until 31250",
        has=("31250 send", "end 31250"),
    )
    yield Case(
        "until-before-the-last-packet",
        "`--until` before the last packet changes nothing",
        ("6.4.2", "7.4.2"),
        [(0, b.report()), (2000, b.report((ALLOW, g, [a])))],
        "--until 1000",
        has=("2000 receive", "end 2000"),
    )
    yield Case(
        "variables",
        "other variables: timers, queries and their fields follow",
        ("8.1 to 8.10", "9.1 to 9.10"),
        [(0, b.report((TO_EX, g, [a]))), (1000, b.report((TO_IN, g, [])))],
        "--rv 3 --qi 60 --qri 5000 --lmqi 500 --until 16000",
        has=("0 send", "1000 send", "1500 send", "2000 send", "15000 send", "end"),
    )
    yield Case(
        "variables-between-codes",
        "intervals that no code has: queries have the greatest lower value, timers are exact",
        ("4.1.1, 4.1.7, 8.8", "5.1.3, 5.1.9, 9.8"),
        [(0, b.older()), (1000, b.leave())],
        "--qi 135 --qri 40001 --lmqi 33001",
        own="the standards say this only of the Last Member Query Interval",
    )
    yield Case(
        "several-records",
        "the records of a Report act in order; a record of an unknown type or for a group that hosts do not report is ignored",
        ("4.2.12, 6.4", "5.2.12, 7.4"),
        [
            (
                0,
                b.report(
                    (ALLOW, g, [a]),
                    (TO_EX, g2, [bb]),
                    (9, g, [a]),
                    (ALLOW, b.everyone, [a]),
                    (BLOCK, g, [a]),
                    (ALLOW, g, [bb]),
                ),
            ),
        ],
        "--until 1000",
        has=("0 send", "0 send", "0 receive 1 " + text_of(b.host) + " taken 4 2 0", "1000 send"),
    )
    yield Case(
        "sources-repeated",
        "repeated sources, auxiliary data and bytes after the last record change nothing",
        ("4.2.10, 4.2.11", "5.2.10, 5.2.11"),
        [(0, b.report((ALLOW, g, [bb, a, bb, a]), auxiliary=b"\1\2\3\4", behind=b"\5\6"))],
        has=(f"group {text_of(g)} include {text_of(a)}=260000 {text_of(bb)}=260000",),
    )
    ends = [(0, b.report((ALLOW, g, [a]))), (1000, b.report((TO_EX, g2, []))), (2000, b.report((ALLOW, g3, [bb])))]
    yield Case(
        "groups-end",
        "groups reported at different times: the first two have ended",
        ("6.3, 6.5", "7.3, 7.5"),
        ends,
        "--until 261000",
        has=("end", f"group {text_of(g3)} include {text_of(bb)}=262000", "counts"),
    )
    yield Case(
        "groups-end-all",
        "groups reported at different times: all have ended",
        ("6.3, 6.5", "7.3, 7.5"),
        ends,
        "--until 262000",
        has=("end", "counts"),
    )
    both = [(0, b.report((TO_EX, g, [a, bb]))), (40000, b.report((ALLOW, g, [a])))]
    yield Case(
        "exclude-ends-as-include",
        "when the group timer expires, the sources with running timers stay, in INCLUDE mode",
        ("6.5", "7.5"),
        both,
        "--until 260000",
        has=("end", f"group {text_of(g)} include {text_of(a)}=300000"),
    )
    yield Case(
        "exclude-ends-as-include-ends",
        "the sources that stayed in INCLUDE mode end, and the group with them",
        ("6.3, 6.5", "7.3, 7.5"),
        both,
        "--until 300000",
        has=("end", "counts"),
    )
    yield Case(
        "source-ends-in-exclude",
        "a source whose timer expires in EXCLUDE mode stays, stopped, and is no longer forwarded",
        ("6.2.3, 6.3", "7.2.3, 7.3"),
        [(0, b.report((TO_EX, g, []))), (1000, b.report((BLOCK, g, [a])))],
        "--until 3000",
        has=("1000 send", "2000 send", "end", f"group {text_of(g)} exclude 260000 !{text_of(a)}"),
    )
    yield Case(
        "packet-as-timers-end",
        "a packet exactly when timers expire comes after their end",
        ("6.3", "7.3"),
        [(0, b.report((ALLOW, g, [a]))), (260000, b.report((BLOCK, g, [a])))],
        own="a timer is at zero at its deadline",
        has=("260000 receive 2 " + text_of(b.host) + " taken 1 0 0", "end", "counts"),
    )


def elections(b):
    g, a, lower, higher = b.G, b.a, b.lower, b.higher
    allow, elected = (0, b.report((ALLOW, g, [a]))), ("6.6.2", "7.6.2")
    adopted = ("4.1.6, 4.1.7", "5.1.8, 5.1.9")
    first = "everything due at a packet's time comes before the packet"
    yield Case(
        "query-from-lower",
        "a query from a lower address: the router is not querier for the Other Querier Present Interval, and sends no general query",
        ("6.6.2, 8.5", "7.6.2, 9.5"),
        [allow, (5000, b.query(lower))],
        "--until 259999",
        has=("0 send", "end 259999 other", f"group {text_of(g)} include {text_of(a)}=260000"),
    )
    yield Case(
        "other-querier-gone",
        "the Other Querier Present Interval ends: the router is querier again, and sends general queries",
        ("6.6.2, 8.5", "7.6.2, 9.5"),
        [allow, (5000, b.query(lower))],
        "--until 385000",
        own="it does not start up again",
        has=("0 send", "260000 send", "385000 send", "end 385000 querier"),
    )
    yield Case(
        "query-from-higher",
        "a query from a higher address: the router stays querier",
        elected,
        [allow, (5000, b.query(higher))],
        "--until 31250",
        has=("0 send", "31250 send", "end 31250 querier"),
    )
    yield Case(
        "query-as-general-query-is-due",
        "a query from a lower address exactly when the general query is due: the general query is sent first",
        elected,
        [allow, (31250, b.query(lower))],
        own=first,
        has=("31250 send", "31250 receive", "end 31250 other"),
    )
    yield Case(
        "query-before-general-query-is-due",
        "a query from a lower address a millisecond before the general query is due: the general query is not sent",
        elected,
        [allow, (31249, b.query(lower))],
        "--until 31250",
        has=("0 send", "end 31250 other"),
    )
    yield Case(
        "query-as-other-querier-ends",
        "the other querier's next query comes exactly at the end of the interval: the router sends a general query, and loses the role again",
        elected,
        [(0, b.query(lower)), (255000, b.query(lower))],
        "--until 509999",
        own=first,
        has=("0 send", "255000 send", "255000 receive", "end 509999 other"),
    )
    yield Case(
        "query-before-other-querier-ends",
        "the other querier's next query comes a millisecond before the end of the interval: the router does not become querier",
        elected,
        [(0, b.query(lower)), (254999, b.query(lower))],
        "--until 509998",
        has=("0 send", "end 509998 other"),
    )
    yield Case(
        "queries-of-two-other-queriers",
        "two routers have lower addresses: the interval starts at the last query of either",
        elected,
        [(0, b.query(lower)), (1000, b.query(b.lowest)), (2000, b.query(lower))],
        "--until 257000",
        has=("0 send", "257000 send", "end 257000 querier"),
    )
    yield Case(
        "query-from-own-address",
        "a query from the router's own address is dropped",
        elected,
        [allow, (5000, b.query(b.own))],
        "--until 31250",
        own="dropped and counted",
        has=("5000 receive 2 " + text_of(b.own) + " dropped 8", "31250 send"),
    )
    g13 = "1164ec1e00000000027d0000"
    yield Case(
        "variables-of-other-querier",
        "a router that loses the role takes QRV and QQIC; as querier again it has its own",
        ("4.1.6, 4.1.7, 6.6.2", "5.1.8, 5.1.9, 7.6.2"),
        [(0, b.query(lower, qrv=3, qqic=60))],
        "--until 310000",
        own="it takes the variables before it starts the interval; as querier again it has the configured ones",
        has=tuple(f"{it} send 224.0.0.1 {g13}" if b.family is IGMP else f"{it} send" for it in (0, 185000, 310000)) + ("end 310000 querier",),
    )
    yield Case(
        "variables-back",
        "as querier again the router's timers use its own variables",
        adopted,
        [(0, b.query(lower, qrv=3, qqic=60)), (1000, b.report((ALLOW, g, [a]))), (186000, b.report((ALLOW, b.G2, [a])))],
        own="the standard says this only of received zeros",
        has=(f"group {text_of(g)} include {text_of(a)}=191000", f"group {text_of(b.G2)} include {text_of(a)}=446000"),
    )
    yield Case(
        "qrv-of-higher",
        "the querier takes QRV from a query of a higher address, but not QQIC",
        adopted,
        [(0, b.query(higher, qrv=3, qqic=60)), (1000, b.report((ALLOW, g, [a]))), (2000, b.report((BLOCK, g, [a])))],
        "--until 31250",
        has=("2000 send", "3000 send", "4000 send", "31250 send", "end 31250 querier", "counts"),
    )
    yield Case(
        "qrv-zero",
        "QRV 0 restores the router's own value",
        adopted,
        [(0, b.query(higher, qrv=3)), (1000, b.query(higher, qrv=0)), (2000, b.report((ALLOW, g, [a])))],
        own="the standard allows the default or the configured value; it takes the configured one, the same here",
        has=(f"group {text_of(g)} include {text_of(a)}=262000",),
    )
    yield Case(
        "qrv-zero-configured",
        "QRV 0 restores a configured value that is not the default",
        adopted,
        [(0, b.query(higher, qrv=3)), (1000, b.query(higher, qrv=0)), (2000, b.report((ALLOW, g, [a])))],
        "--rv 4",
        own="the standard allows the default or the configured value; it takes the configured one",
        has=(f"group {text_of(g)} include {text_of(a)}=512000",),
    )
    yield Case(
        "qqic-zero",
        "QQIC 0 restores the Query Interval",
        adopted,
        [(0, b.query(lower, qqic=60)), (1000, b.query(lower, qqic=0)), (2000, b.report((ALLOW, g, [a])))],
        own="the standard takes the default; it takes the configured value, the same here",
        has=(f"group {text_of(g)} include {text_of(a)}=262000",),
    )
    yield Case(
        "qqic-zero-configured",
        "QQIC 0 restores a configured Query Interval that is not the default",
        adopted,
        [(0, b.query(lower, qqic=60)), (1000, b.query(lower, qqic=0)), (2000, b.report((ALLOW, g, [a])))],
        "--qi 100",
        own="the standard takes the default, 125 seconds; it takes the configured value",
        has=(f"group {text_of(g)} include {text_of(a)}=212000",),
    )
    yield Case(
        "qqic-code",
        "a QQIC of 143 is a code: 248 seconds",
        ("4.1.7", "5.1.9"),
        [(0, b.query(lower, qqic=143)), (1000, b.report((ALLOW, g, [a])))],
        has=("end 1000 other", f"group {text_of(g)} include {text_of(a)}=507000"),
    )
    yield Case(
        "older-query-from-lower",
        "an older query from a lower address: the router is not querier, and keeps its variables",
        ("6.6.2, 7.3.1", "7.6.2, 8.3.1"),
        [allow, (5000, b.older_query(lower))],
        "--until 260000",
        own="it stays in its own version; the standard requires an administrator to change it",
        has=("0 send", "260000 send", "end 260000 querier"),
    )
    yield Case(
        "older-query-for-a-group",
        "an older query for a group lowers its timer",
        ("6.6.1", "7.6.1"),
        [(0, b.older()), (1000, b.older_query(lower, g))],
        "--until 2999",
        own="it counts as a query with S clear, and lowers to the router's own Last Member Query Time",
        has=("end 2999 other", f"group {text_of(g)} exclude 3000"),
    )
    s18 = [allow, (4000, b.query(lower, g, [a]))]
    yield Case(
        "query-lowers",
        "a query for a source with S clear lowers its timer",
        ("6.6.1", "7.6.1"),
        s18,
        "--until 5999",
        has=("end 5999 other", f"group {text_of(g)} include {text_of(a)}=6000"),
    )
    yield Case(
        "query-lowers-as-its-own-would",
        "a query for a source with the bytes of the router's own query lowers its timer",
        ("6.6.1", "7.6.1"),
        [(0, b.report((ALLOW, b.H, [a]))), (4000, b.query(lower, b.H, [a]))],
        "--until 5999",
        has=("end 5999 other", f"group {text_of(b.H)} include {text_of(a)}=6000"),
    )
    yield Case(
        "query-with-s-lowers-as-little",
        "a query for a source with S set, from a higher address, lowers no timer",
        ("6.6.1, 6.6.2", "7.6.1, 7.6.2"),
        [(0, b.report((ALLOW, b.H, [a]))), (4000, b.query(higher, b.H, [a], s=True))],
        "--until 6000",
        has=("end 6000 querier", f"group {text_of(b.H)} include {text_of(a)}=260000"),
    )
    if b.family is not IGMP:
        second, least = address("fe80::2"), address("fe80::")
        yield Case(
            "query-lowers-from-the-one-below",
            "a query for a source from the only address below the router's own, fe80::1, lowers its timer",
            ("", "7.6.1, 7.6.2"),
            [(0, b.report((ALLOW, b.H, [a]), source=second)), (4000, b.query(least, b.H, [a]))],
            "--own fe80::1 --until 5999",
            has=("end 5999 other", f"group {text_of(b.H)} include {text_of(a)}=6000"),
        )
        yield Case(
            "query-with-s-from-the-one-above",
            "a query for a source with S set, from the next higher address, lowers no timer",
            ("", "7.6.1, 7.6.2"),
            [(0, b.report((ALLOW, b.H, [a]), source=second)), (4000, b.query(second, b.H, [a], s=True))],
            "--own fe80::1 --until 6000",
            has=("end 6000 querier", f"group {text_of(b.H)} include {text_of(a)}=260000"),
        )
    yield Case(
        "query-with-bytes-behind",
        "bytes after the fields of a query, without and with a source, only count for the checksum",
        ("4.1.10", "5.1.12"),
        [allow, (1000, b.query(lower, behind=b"\1\2")), (4000, b.query(lower, g, [a], behind=bytes(b.a)))],
        "--until 5999",
        has=(
            "0 send",
            f"1000 receive 2 {text_of(lower)} taken",
            f"4000 receive 3 {text_of(lower)} taken",
            "end 5999 other",
            f"group {text_of(g)} include {text_of(a)}=6000",
        ),
    )
    yield Case(
        "query-lowers-to-the-end",
        "a source whose timer a query lowered ends at the lowered deadline",
        ("6.6.1", "7.6.1"),
        s18,
        "--until 6000",
        has=("end 6000 other", "counts"),
    )
    yield Case(
        "query-with-s-lowers-nothing",
        "a query with S set lowers no timer, and a query from a higher address does not change the role",
        ("6.6.1, 6.6.2", "7.6.1, 7.6.2"),
        [allow, (4000, b.query(higher, g, [a], s=True))],
        "--until 6000",
        has=("end 6000 querier", f"group {text_of(g)} include {text_of(a)}=260000"),
    )
    yield Case(
        "query-lowers-the-group",
        "a query for a group with S clear lowers the group timer, but no source timer",
        ("6.6.1", "7.6.1"),
        [(0, b.report((TO_EX, g, []))), (500, b.report((ALLOW, g, [a]))), (1000, b.query(higher, g))],
        "--until 2999",
        has=("end 2999 querier", f"group {text_of(g)} exclude 3000 {text_of(a)}=260500"),
    )
    yield Case(
        "query-for-a-group-in-include",
        "a query for a group in INCLUDE mode lowers no timer",
        ("6.6.1", "7.6.1"),
        [allow, (1000, b.query(higher, g))],
        "--until 2999",
        has=("end", f"group {text_of(g)} include {text_of(a)}=260000"),
    )
    yield Case(
        "role-lost-while-asking",
        "a router that loses the role between two queries for a source does not send the second; the timer stays lowered",
        elected,
        [allow, (1000, b.report((BLOCK, g, [a]))), (1500, b.query(lower))],
        "--until 2999",
        own="pending queries are dropped for good",
        has=("1000 send", "1500 receive", "end 2999 other", f"group {text_of(g)} include {text_of(a)}=3000"),
    )
    yield Case(
        "no-querier-asks-nothing",
        "a router that is not querier sends no query and lowers no timer if a source is blocked or a group is left",
        ("6.4.2, 6.6.3.2", "7.1, 7.4.2"),
        [
            (0, b.query(lower)),
            (500, b.report((ALLOW, g, [a]), (TO_EX, b.G2, []))),
            (1000, b.report((BLOCK, g, [a]), (TO_IN, b.G2, []))),
        ],
        "--until 4000",
        own="" if b.family is IGMP else "the standard does not say that only the querier lowers timers",
        has=(
            "0 send",
            "end 4000 other",
            f"group {text_of(g)} include {text_of(a)}=260500",
            f"group {text_of(b.G2)} exclude 260500",
        ),
    )
    yield Case(
        "no-querier-to-ex",
        "a source new to an EXCLUDE group at TO_EX gets the group timer",
        ("6.4.2", "7.4.2"),
        [(0, b.query(lower)), (500, b.report((TO_EX, g, [b.b]))), (1000, b.report((TO_EX, g, [a])))],
        own="it is the group timer from before the record",
        has=("end 1000 other", f"group {text_of(g)} exclude 261000 {text_of(a)}=260500"),
    )
