"""Reports of JUnit, which runners of tests show."""

from __future__ import annotations

import dataclasses
from typing import Iterable, List, Literal, Optional, Sequence, Tuple
from xml.etree import ElementTree

Outcome = Literal["passed", "failure", "error", "skipped"]
PLURAL = {"failure": "failures", "error": "errors", "skipped": "skipped"}


@dataclasses.dataclass(frozen=True)
class Case:
    """A case of a suite. If it didn't pass it has a line, and a failure may have a longer text."""

    name: str
    classname: str
    outcome: Outcome = "passed"
    line: str = ""
    text: str = ""
    seconds: Optional[float] = None


@dataclasses.dataclass(frozen=True)
class Suite:
    """Some cases under one name."""

    name: str
    cases: Sequence[Case]
    seconds: Optional[float] = None


def time_of(seconds: Optional[float]) -> List[Tuple[str, str]]:
    return [] if seconds is None else [("time", f"{seconds:.1f}")]


def junit(suites: Iterable[Suite]) -> bytes:
    """Returns the report of some suites."""
    top = ElementTree.Element("testsuites")
    for suite in suites:
        counts = {plural: str(sum(it.outcome == what for it in suite.cases)) for what, plural in PLURAL.items()}
        its = {"name": suite.name, "tests": str(len(suite.cases)), **counts, **dict(time_of(suite.seconds))}
        element = ElementTree.SubElement(top, "testsuite", its)
        for it in suite.cases:
            case = ElementTree.SubElement(element, "testcase", {"classname": it.classname, "name": it.name, **dict(time_of(it.seconds))})
            if it.outcome != "passed":
                ElementTree.SubElement(case, it.outcome, {"message": it.line}).text = it.text or None
    ElementTree.indent(top)
    return ElementTree.tostring(top, encoding="utf-8", xml_declaration=True)
