"""python -m mquerier check FILE ..: prints what the querier of captures does otherwise than the standards want, as JSON."""

from __future__ import annotations

import argparse
import json
import os
import sys
from typing import Any, Dict, List, Optional, get_args

from . import CaptureFault, Fault, Finding, NothingJudged, Summary, Taken, __version__, check
from ._library import VARIABLES
from .junit import Case, Suite, junit
from .objects import FindingKind, fields_of


def arguments(words: Optional[List[str]]) -> argparse.Namespace:
    parser = argparse.ArgumentParser(prog="python -m mquerier")
    parser.add_argument("--version", action="version", version=f"mquerier {__version__}")
    commands = parser.add_subparsers(dest="command", required=True)
    text = "prints an object of JSON for each finding, and a summary; the status is 3 if a finding is certain, 4 if a check judged nothing, 1 if a capture has a fault"
    of_check = commands.add_parser("check", help=text, description=text)
    of_check.add_argument("files", nargs="+", metavar="FILE", help="a capture")
    whose = of_check.add_mutually_exclusive_group(required=True)
    whose.add_argument("--querier", metavar="ADDR", help="the querier's address, which says the family")
    whose.add_argument("--auto", choices=("igmp", "mld"), help="the capture names the querier of this family")
    of_check.add_argument("--junit", metavar="REPORT", help="writes a report of JUnit too, with a suite for each file")
    of_check.add_argument("--tolerance", type=int, default=100, metavar="MS", help="the tolerance (default: %(default)s)")
    of_check.add_argument("--until", type=int, metavar="MS", help="the end of the check (default: the last packet)")
    of_check.add_argument("--began", action="store_true", help="the capture begins before the querier")
    of_check.add_argument("--strict", action="store_true", help="only one reading of the standards is accepted")
    of_check.add_argument("--possible", action="store_true", help="also what another reading or a state from before may explain")
    of_check.add_argument("--interface", metavar="WHICH", help="only packets of this interface")
    of_check.add_argument("--vlan", type=int, metavar="ID", help="only packets of this network")
    of_check.add_argument("--once", action="store_true", help="leaves out packets that come again")
    for name in VARIABLES:
        of_check.add_argument(f"--{name.replace('_', '-')}", type=int, metavar="N", help="as of a link (default: the standards')")
    of_check.add_argument("--source-specific", action="store_true", default=None, help="the range for it is kept")
    return parser.parse_args(words)


class Checked:
    """A check of a file: its objects, and its fault."""

    def __init__(self, file: str, given: Dict[str, Any]) -> None:
        self.file, self.findings, self.fault = file, [], ""  # type: str, List[Finding], str
        self.summary: Optional[Summary] = None
        self.has_ended = False
        try:
            for it in check(file, **given):
                self.take(it)
                print(json.dumps({"file": file, **fields_of(it)}, default=str), flush=True)
        except CaptureFault as fault:
            self.fault, self.has_ended = str(fault), isinstance(fault, NothingJudged)
        except BrokenPipeError:
            raise
        except OSError as why:
            self.fault = f"{file}: {why.strerror}"
        if self.fault or self.unjudged:
            print(self.fault or f"{file}: nothing judged: {self.unjudged}", file=sys.stderr)

    def take(self, it: Any) -> None:
        if isinstance(it, Finding):
            self.findings.append(it)
        elif isinstance(it, Summary):
            self.summary = it

    @property
    def unjudged(self) -> Optional[str]:
        return self.summary.why if self.summary else None

    @property
    def status(self) -> int:
        if self.fault and not self.has_ended:
            return 1
        return 4 if self.fault or self.unjudged else 3 if any(it.certain for it in self.findings) else 0

    def suite(self) -> Suite:
        """A case that the file was judged, and one for each kind of finding."""
        why = self.fault or (self.unjudged and f"nothing judged: {self.unjudged}")
        judged = Case("judged", "check", "error", str(why)) if why else Case("judged", "check")
        return Suite(self.file, [judged, *map(self.case, get_args(FindingKind))])

    def case(self, kind: str) -> Case:
        lines = [str(it) for it in self.findings if it.finding == kind and it.certain]
        return Case(kind, "check", "failure", lines[0], "\n".join(lines)) if lines else Case(kind, "check")


def checked(files: List[str], report: Optional[str], given: Dict[str, Any]) -> int:
    """Checks files, and returns the status."""
    checks = [Checked(file, given) for file in files]
    if report is not None:
        with open(report, "wb") as to:
            to.write(junit(it.suite() for it in checks))
    statuses = {it.status for it in checks}
    return 1 if 1 in statuses else max(statuses)


def main(words: Optional[List[str]] = None) -> int:
    given = vars(arguments(words))
    if given["interface"] is not None and given["interface"].isdigit():
        given["interface"] = int(given["interface"])
    del given["command"]
    try:
        return checked(given.pop("files"), given.pop("junit"), given)
    except Fault as fault:
        print(fault, file=sys.stderr)
        return 2
    except BrokenPipeError:
        # Nobody reads the rest. Python would write it at its end.
        os.dup2(os.open(os.devnull, os.O_WRONLY), sys.stdout.fileno())
        return 1


if __name__ == "__main__":
    sys.exit(main())
