"""A link of the package, as a querier that `model.replay` can drive."""

import mquerier


def filter_of(group):
    """Returns the filter of a group, as a line has it."""
    if group is None:
        return "none"
    if group.deadline is not None:
        return " ".join(["exclude", *(f"!{it.address}" for it in group.sources if it.deadline is None)])
    return " ".join(["include", *(str(it.address) for it in group.sources)])


def line_of(group):
    mode = "include" if group.deadline is None else f"exclude {group.deadline}"
    sources = [f"!{it.address}" if it.deadline is None else f"{it.address}={it.deadline}" for it in group.sources]
    hosts = [f"{name} {until}" for name, until in (("v1", group.v1), ("v2", group.v2)) if until is not None]
    return " ".join([f"group {group.address}", mode, *sources, *hosts])


def change_line(it):
    is_stopped = it.filter == "exclude"
    sources = [f"{'!' * is_stopped}{one.source}" for one in it.sources if it.forwards(one.source) != is_stopped]
    filter_now = it.filter if sources or is_stopped else "none"
    return " ".join([f"{it.time} change {it.group} {filter_now}", *sources])


def group_line(it):
    sources = tuple(mquerier.Source(source.source, source.timer) for source in it.sources)
    return line_of(mquerier.Group(it.group, it.timer, sources, it.v1, it.v2))


LINES = {
    mquerier.Sent: lambda it: f"{it.time} send {it.destination} {it.hex}",
    mquerier.Received: lambda it: f"{it.time} receive {it.packet} {it.source} taken {it.applied} {it.ignored} {it.refused}",
    mquerier.DroppedMessage: lambda it: f"{it.time} receive {it.packet} {it.source} dropped {it.number}",
    mquerier.Skipped: lambda it: f"{it.time} skip {it.packet} {it.skipped}",
    mquerier.Change: change_line,
    mquerier.End: lambda it: f"end {it.time} {'querier' if it.querier else 'other'}",
    mquerier.HeldGroup: group_line,
    mquerier.Totals: lambda it: "counts " + " ".join(f"{name} {value}" for name, value in vars(it).items()),
}


def event_line(it):
    """Returns the line of an event of a replay."""
    return LINES[type(it)](it)


class Played:
    def __init__(self, family, options):
        limits = {"group_sources": options.group_sources} if options.group_sources else {}
        self.link = mquerier.Link(
            family.name, options.own, robustness=options.rv, query_interval=options.qi, response_interval=options.qri,
            last_member_interval=options.lmqi, groups=options.groups, sources=options.sources, scheduled=options.scheduled,
            source_specific=options.ssm, **limits,
        )  # fmt: skip
        self.with_changes, self.now, self.lines = options.changes, 0, []

    def next(self):
        return self.link.next_deadline

    def sent(self, answer):
        self.lines += [f"{self.now} send {it.destination} {it.message.hex()}" for it in answer.queries]
        assert answer.unsent == 0
        return answer

    def tick(self, moment):
        self.now = max(self.now, moment)
        self.sent(self.link.tick(moment))

    def receive(self, packet, moment):
        self.now = max(self.now, moment)
        more = {"destination": packet.to, "hop_limit": packet.hops, "alert": packet.alert} if packet.to else {}
        answer = self.sent(self.link.receive(packet.source, packet.body, moment, **more))
        return f"dropped {int(answer.dropped)}" if answer.dropped else f"taken {answer.applied} {answer.ignored} {answer.refused}"

    def changes(self):
        changed = self.link.changed if self.with_changes else ()
        return [f"{self.now} change {it} {filter_of(self.link.group(it))}" for it in changed]

    def end(self, moment):
        groups, counts = self.link.groups(), self.link.counts
        assert groups == [self.link.group(it.address) for it in groups]
        numbers = [f"{it} {getattr(counts, it)}" for it in ("received", "dropped", "applied", "ignored", "refused", "sent", "unsent")]
        role = "querier" if self.link.is_querier else "other"
        return [f"end {moment} {role}", *map(line_of, groups), f"counts {' '.join(numbers)}"]
