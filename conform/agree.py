"""Compares the table of cases with the model of vectors/: the model has to send exactly the queries that the table expects."""

from table import Cast, Site, Variables, cases_of, wire
import model  # of vectors/, whose folder `table` has named

ADDRESSES = {
    "igmp": ("10.0.0.9", "10.0.0.77", "10.0.0.8", "10.0.0.10", "10.9.9.1"),
    "mld": ("fe80::9", "fe80::77", "fe80::8", "fe80::a", "2001:db8::1"),
}


class Quiet(model.Querier):
    """The model without its history of filters, which takes most of its time."""

    def forwarded(self):
        return {}


def a_site(family, variables):
    return Site(wire.FAMILIES[family], *map(wire.address, ADDRESSES[family]), bytes.fromhex("020000000001"), variables)


def sent(cast, others, options):
    """The queries of the model for a case, played with the queries of other routers in its stage."""
    wide = [step for other in others if other is not cast for step in other.wide()]
    steps = sorted([*cast.steps, *wide], key=lambda step: step.at)
    data = wire.capture([(step.at, step.frame) for step in steps if not step.what])
    first = steps[0].at if steps else 0
    lines, fault = model.replay(data, cast.family, model.Options(**options, until=max(cast.end - first, 0)), Quiet)
    if fault:
        raise AssertionError(fault)
    found = []
    for line in lines:
        moment, what, *words = line.split()
        moment = int(moment) + first if moment.isdigit() else 0
        if what != "send":
            continue
        message = wire.read(cast.family, bytes.fromhex(words[1]), options["own"], wire.address(words[0]))
        if not cast.begin <= moment - cast.shift(message.group) < cast.until:
            continue
        if cast.is_own(message.group) or not any(message.group) and any(not any(it[1]) for it in cast.wanted()):
            found += [(moment, message.group, source, bool(message.fields[0])) for source in message.sources or [None]]
    return sorted(found, key=str)


def flat(wanted):
    """Splits the expected queries, one for each source."""
    return sorted(((at, group, source, is_set) for at, group, sources, is_set in wanted for source in sources or [None]), key=str)


def differences(family, variables):
    """The differences between the table and the model."""
    site, found = a_site(family, variables), []
    casts = [Cast(it, at * 10 + 1, site) for at, it in enumerate(cases_of(family)) if not it.of]
    its = {"own": site.router, "rv": variables.rv, "qi": variables.qi, "qri": variables.qri, "lmqi": variables.lmqi}
    for cast in casts:
        is_long = cast.case.stage == "thousand" and variables != Variables()
        if cast.case.own or cast.case.needs in ("upstream", "restart") or is_long:
            continue
        stage = [it for it in casts if cast.case.stage and it.case.stage == cast.case.stage]
        limits = {"groups": 65535, "group_sources": 1024, "sources": 65535, "scheduled": 65535, "ssm": cast.case.needs == "ssm"}
        is_sent, wanted = sent(cast, stage, {**its, **limits}), flat(cast.wanted())
        if is_sent != wanted:
            found.append(f"{family} {cast.name}: the table wants {wanted[:4]}, the model sends {is_sent[:4]}")
    return found


def all_differences():
    variables = (Variables(), Variables(3, 60, 5000, 2000), Variables(2, 20, 2000, 1000))
    return [line for family in ("igmp", "mld") for it in variables for line in differences(family, it)]
