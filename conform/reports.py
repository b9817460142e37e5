"""The output of a run: lines, and the files of a report: report.xml (JUnit), report.html, and captures."""

import html
import importlib.machinery
import importlib.util
import json
import os
import subprocess
import sys

import link
from hints import hint
from table import TOP, text_of

sys.path.append(f"{TOP}/bindings/python")
# pylint: disable=wrong-import-position
from mquerier.junit import Case, Suite, junit  # noqa: E402

STYLE = """
body { max-width: 75rem; margin: 0 auto; padding: 0 1rem 2rem; }
table { border-collapse: collapse; margin: 0.5rem 0; }
th, td { border-bottom: 1px solid var(--line); padding: 0.2rem 0.7rem 0.2rem 0; text-align: left; vertical-align: top; }
td:first-child { white-space: nowrap; }
.FAIL, .late { color: var(--finding); font-weight: bold; }
.case { border-top: 1px solid var(--line); padding-top: 0.5rem; }
.detail { border-left: 5px solid var(--select); background: var(--panel); padding: 0.35rem 0.75rem; overflow-wrap: anywhere; }
pre { overflow-x: auto; }
"""
POLICY = "default-src 'none'; script-src 'unsafe-inline'; style-src 'unsafe-inline'; img-src data:"
MOST_WANTED = 8
ORDER = ["FAIL", "late", "pass", "not applicable"]


def line_of(it):
    """The line of a verdict."""
    told = it.case.cite()
    if it.what == "not applicable":
        return f"{it.case.name:34} -      {it.why}"
    if it.what == "FAIL":
        told += f": {it.findings[0].text}"
    if it.what == "late":
        told += f": {it.why}"
    again = f" (played {it.tries} times)" if it.tries > 1 else ""
    return f"{it.case.name:34} {it.what:6} {told}{again}"


def span_of(seconds):
    minutes, seconds = divmod(round(seconds), 60)
    return f"{minutes} min {seconds} s" if minutes else f"{seconds} s"


def finding_line(it):
    """A finding with the number of its packet and the section that the check cites."""
    packet = f"packet {it.packet}: " if it.packet and not it.text.startswith("packet") else ""
    return f"{packet}{it.text}{f' ({it.cite})' if it.cite else ''}"


def end(run, seconds, say):
    """Writes the reports, prints the last line, and returns the status."""
    verdicts, out = run.verdicts, run.options.out
    for it in verdicts:
        if it.frames:
            with open(os.path.join(out, "captures", f"{it.case.name}.pcap"), "wb") as to:
                to.write(link.written([(one.stamp, one.frame) for one in it.frames]))
    number = {what: sum(it.what == what for it in verdicts) for what in ORDER}
    late = f"{number['late']} not judged, " if number["late"] else ""
    common = hint(run)
    total = f"{number['pass']} passed, {number['FAIL']} failed, {number['not applicable']} not applicable, {late}{span_of(seconds)}"
    with open(os.path.join(out, "report.xml"), "wb") as to:
        to.write(junit([suite_of(run, seconds)]))
    with open(os.path.join(out, "report.html"), "w", encoding="utf-8") as to:
        to.write(page(run, f"{total}. {common}" if common else total))
    if common:
        say.note(common)
    say.line(f"{total}; report in {out}/")
    if number["FAIL"]:
        return 3
    return 1 if number["late"] or not number["pass"] else 0


# report.xml.


OUTCOMES = {"pass": "passed", "FAIL": "failure", "late": "error", "not applicable": "skipped"}


def suite_of(run, seconds):
    """A test suite of JUnit: a case for each, by the sections of the standard."""
    cases = []
    for it in run.verdicts:
        line = it.findings[0].text if it.what == "FAIL" else it.why
        text = "\n".join(map(finding_line, it.findings)) if it.what == "FAIL" else ""
        cases.append(Case(it.case.name, it.case.cite(), OUTCOMES[it.what], line, text, it.cast.end / 1000 if it.cast else 0))
    return Suite(f"conform {run.options.family} {run.options.router}", cases, seconds)


# report.html.


def page_make():
    """The module page/make, which joins scripts of the page."""
    loader = importlib.machinery.SourceFileLoader("page_make", f"{TOP}/page/make")
    module = importlib.util.module_from_spec(importlib.util.spec_from_loader("page_make", loader))
    loader.exec_module(module)
    return module


def page(run, total):
    """The report as one file."""
    make, family = page_make(), run.options.family
    failed = [it for it in run.verdicts if it.what == "FAIL"]
    objects = {it.case.name: said for it in failed if (said := objects_of(run, it))}
    data = json.dumps({"family": family, "cases": objects}).replace("<", "\\u003c")
    style = make.text_of("page.css").replace("#timeline", ".timeline") + STYLE
    site = run.site
    names = f"{family.upper()}, router {text_of(site.router)} on {run.options.interface}"
    its = site.variables
    body = [
        f"<h1>conform: {html.escape(names)}</h1>",
        f"<p>{html.escape(total)}. Robustness Variable {its.rv}, Query Interval {its.qi} s, Query Response Interval {its.qri} ms, Last Member",
        f"Query Interval {its.lmqi} ms; a query may come {run.options.within} ms earlier or later.",
        "Moments count milliseconds from the begin of a case, those of a timeline from its first packet.</p>",
        "<h2>By section</h2>",
        summary(run.verdicts),
        "<h2>Cases</h2>",
        listing(run.verdicts),
        "<h2>Failures</h2>" if failed else "",
        '<ul id="legend"></ul>' if objects else "",
        *[failure(it, it.case.name in objects) for it in failed],
    ]
    return (
        '<!doctype html>\n<html lang="en">\n<head>\n<meta charset="utf-8">\n'
        f'<meta http-equiv="Content-Security-Policy" content="{POLICY}">\n<meta name="viewport" content="width=device-width">\n'
        f"<title>conform: {html.escape(names)}</title>\n<style>\n{style}</style>\n</head>\n<body>\n" + "\n".join(filter(None, body)) + "\n"
        f'<script type="application/json" id="cases">{data}</script>\n<script>\n{make.joined("report.js")}</script>\n</body>\n</html>\n'
    )


def row(cells, name="td"):
    return "<tr>" + "".join(f"<{name}>{it}</{name}>" for it in cells) + "</tr>"


def by_section(text):
    """A key by which sections stand in order."""
    return [(0, int(it)) if it.isdigit() else (1, it) for it in text.replace("RFC ", "").replace(" ", ".").split(".")]


def sections_of(case):
    standard = " ".join(case.section.split()[:2]) if case.section.startswith("RFC") else f"RFC {case.standard}"
    return [f"{standard} {it.strip()}" for it in case.section.removeprefix(standard).split(",")]


def summary(verdicts):
    """The numbers of passed and failed cases of each section."""
    found = {}
    for it in verdicts:
        for section in sections_of(it.case):
            found.setdefault(section, []).append(it)
    rows = [row(["Section", "passed", "failed", "not judged", "not applicable", "failed cases"], "th")]
    for section in sorted(found, key=by_section):
        its = found[section]
        number = [sum(it.what == what for it in its) for what in ("pass", "FAIL", "late", "not applicable")]
        failed = ", ".join(f'<a href="#{it.case.name}">{it.case.name}</a>' for it in its if it.what == "FAIL")
        rows.append(row([html.escape(section), *(it or "" for it in number), failed]))
    return "<table>\n" + "\n".join(rows) + "\n</table>"


def listing(verdicts):
    """A row for each case, those that failed first."""
    rows = [row(["Case", "", "Section", "What is seen"], "th")]
    for it in sorted(verdicts, key=lambda it: ORDER.index(it.what)):
        name = f'<a href="#{it.case.name}">{it.case.name}</a>' if it.what == "FAIL" else it.case.name
        what = f'<span class="{it.what.split()[0]}">{it.what}</span>' + (f", played {it.tries} times" if it.tries > 1 else "")
        told = it.case.title + (f" ({it.why})" if it.why else "")
        rows.append(row([name, what, html.escape(it.case.cite()), html.escape(told)]))
    return "<table>\n" + "\n".join(rows) + "\n</table>"


def failure(it, has_timeline):
    """A failed case: its packets, its findings, and its timeline."""
    steps = [f"at {it.cast.at(moment)}: {' '.join(words)}" for moment, words in it.case.steps] if it.cast else []
    steps += [", ".join(it.cast.named())] if steps else []
    wanted = wanted_of(it)
    wanted, more = wanted[:MOST_WANTED], len(wanted[MOST_WANTED:])
    wanted = [f"wanted at {at}: {wanted_line(group, sources, is_set)}" for at, group, sources, is_set in wanted]
    wanted += [f"and {more} more"] if more else []
    place = f"captures/{it.case.name}.pcap"
    return "\n".join(
        [
            f'<section class="case" id="{it.case.name}">',
            f"<h3>{it.case.name}: {html.escape(it.case.title)}</h3>",
            f'<p>{html.escape(it.case.cite())}; <a href="{place}">{place}</a></p>',
            "<pre>" + html.escape("\n".join([*steps, *wanted])) + "</pre>" if steps or wanted else "",
            '<pre class="FAIL">' + html.escape("\n".join(map(finding_line, it.findings[:40]))) + "</pre>",
            timeline() if has_timeline else "",
            "</section>",
        ]
    )


def timeline():
    box = '<div class="timeline" tabindex="0" role="application" aria-roledescription="timeline" aria-label="History of the groups">'
    return f'{box}<canvas aria-hidden="true"></canvas><div class="spacer"></div></div>\n<p class="detail" aria-live="polite"></p>'


def wanted_of(it):
    own = it.cast is None or it.case.own == "times"
    return [] if own else it.cast.wanted()


def wanted_line(group, sources, is_set):
    named = " ".join(map(text_of, sources[:8])) + (f" and {len(sources) - 8} more" if sources[8:] else "")
    return f"{'S set, ' if is_set else ''}{text_of(group)} {named}".strip()


def objects_of(run, it):
    """Returns the objects of a failed case's capture for its timeline, or None if it has no capture of its own."""
    if it.cast is None or not it.frames or len(it.frames) > 5000:
        return None
    judge, frames = run.judge, [(one.stamp, run.judge.mended(one)) for one in it.frames]
    until = f"--until={max(0, round(it.cast.end - (it.frames[0].stamp - it.began) / 10**6))}"
    family, router = run.options.family, text_of(run.site.router)
    try:
        return {
            "listing": judge.run(["show"], frames, it.case.name),
            "replay": judge.run(["replay", family, f"--own={router}", "--changes", until], frames, it.case.name),
            "check": judge.run(["check", family, f"--querier={router}", f"--within={run.options.within}", "--strict", "--began", until], frames, it.case.name),
        }
    except (OSError, subprocess.SubprocessError):
        return None
