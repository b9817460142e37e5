"""What the page has to show of a capture: the texts of the program, and the bars and marks that its objects say."""

import json
import re
import subprocess

FIELDS = {"rv": "rv", "qi": "qi", "qri": "qri", "lmqi": "lmqi", "groups": "groups", "group-sources": "group_sources",
          "sources": "sources", "scheduled": "scheduled", "until": "until"}
DEFAULTS = {"rv": 2, "qi": 125, "qri": 10000, "lmqi": 1000, "groups": 1024, "sources": 16384, "scheduled": 256}
GROUP_SOURCES = {"igmp": 366, "mld": 89}


def run(program, words, data):
    """What the program writes of a capture, and what it says of a fault."""
    ran = subprocess.run([program, *words], input=data, capture_output=True, check=False)
    return ran.stdout, "" if ran.returncode in (0, 3, 4) else ran.stderr.decode()


def converted(program, data):
    """A capture as a classic one, as the page has it."""
    fault = run(program, ["show"], data)[1]
    return run(program, ["convert"], data)[0] if re.search("capture fault [24]\n", fault) else data


def fields_of(family, words):
    """The fields of the page's form for the options of `mquerier replay`."""
    options = dict(zip(words[:-1], words[1:]))
    fields = {"family": family, "own": options["--own"], **DEFAULTS, "group_sources": GROUP_SOURCES[family], "until": ""}
    fields.update({name: options[f"--{option}"] for option, name in FIELDS.items() if f"--{option}" in options})
    return {**{name: str(value) for name, value in fields.items()}, "ssm": "--ssm" in words}


def options_of(fields):
    words = [word for option, name in FIELDS.items() if fields[name] != "" for word in (f"--{option}", fields[name])]
    return words + ["--ssm"] if fields["ssm"] else words


def commands(fields, is_checked):
    """The words of the program for each text of the page, for the fields that it has."""
    words, family = options_of(fields), fields["family"]
    found = {"listing": ["show"], "replay": ["replay", family, "--own", fields["own"], *words, "--changes"]}
    if is_checked:
        found["check"] = ["check", family, "--querier", fields["own"], *words, "--within", fields["within"], "--possible"]
    return found


def texts(program, data, fields, is_checked):
    """The texts of a capture by name."""
    cited = {"check": ["--cite"]}
    return {name: run(program, [*words, *cited.get(name, [])], data)[0] for name, words in commands(fields, is_checked).items()}


def objects(program, words, data):
    """The objects of a run, one after the other."""
    for line in run(program, [words[0], "--json", *words[1:]], data)[0].splitlines():
        yield json.loads(line)


def verdict(program, data, fields, is_checked):
    """The sentence at the top of the page, by the summary of the program and its reason on standard error."""
    if not is_checked:
        return "Nothing was judged: there is no general query of this family."
    words = ["check", "--json", *commands(fields, True)["check"][1:]]
    ran = subprocess.run([program, *words], input=data, capture_output=True, check=False)
    if ran.returncode == 4:
        return f"Nothing was judged: {ran.stderr.decode().strip().partition('nothing judged: ')[2]}."
    found = json.loads(ran.stdout.splitlines()[-1])["summary"]
    standard, count = {"igmp": "RFC 3376", "mld": "RFC 3810"}[fields["family"]], found["findings"]
    if count == 0:
        return f"{fields['own']} is as {standard} says."
    return f"{fields['own']} differs from {standard} in {count:,} place{'s' * (count != 1)}."


class Counts:
    """What the objects of a capture say: marks are records, older and empty Reports, Leaves and queries of the family, queries that are
    sent, and certain findings. A group has a bar for each time that it comes into a mode, and for each time that a source comes to be
    forwarded or stopped in it. All groups are counted but the address that stands for all."""

    def __init__(self, program, data, fields, is_checked):
        self.family, self.marks, self.bars, self.findings, self.groups, self.filters = fields["family"], 0, 0, 0, set(), {}
        for name, words in commands(fields, is_checked).items():
            for it in objects(program, words, data):
                getattr(self, name)(it)
        self.groups -= {"0.0.0.0", "::", None}

    def listing(self, it):
        message = it.get("message")
        if it.get("family") == self.family and message["type"] != "fault":
            its = [message] if "group" in message else message["records"]
            self.marks += max(1, len(its))
            self.groups |= {one["group"] for one in its}

    def replay(self, it):
        self.marks += it["event"] == "send"
        if it["event"] == "change":
            is_stopped = it["filter"] == "exclude"
            after = {(it["filter"], one["source"]) for one in it["sources"] if (one["timer"] is None) == is_stopped}
            after |= {it["filter"]} if after or is_stopped else set()
            self.bars += len(after - self.filters.get(it["group"], set()))
            self.filters[it["group"]] = after
            self.groups.add(it["group"])

    def check(self, it):
        if it.get("certain"):
            self.marks += 1
            self.groups.add(it["group"])
        if "summary" in it:
            self.findings = it["summary"]["findings"]
