"""The line about the common reason of most failed cases of a run."""

import math
import statistics

from table import text_of

# So many failures are needed for a hint, and their share of all.
LEAST, SHARE = 3, 0.5


def hint(run):
    """Returns the line about most failures, or None if they have nothing in common."""
    failed = [it for it in run.verdicts if it.what == "FAIL" and it.cast]
    for found, text in (silent(run, failed), without_sources(run, failed), shifted(run, failed)):
        if len(found) >= LEAST and len(found) > SHARE * len(failed):
            return f"{len(found)} of {len(failed)} failures: {text}"
    return None


def moments(verdict):
    """The wanted moments of queries that are missing: by the clock in nanoseconds, each with its group and its source."""
    return [(verdict.began + it.at * 10**6, it.group, it.source) for it in verdict.findings if it.is_missing]


def silent(run, failed):
    """The failures that end after the router's last query, and when that was."""
    last = max((it.stamp for it in run.queries), default=run.began)
    found = [it for it in failed if any(at > last for at, _, _ in moments(it)) or it.began > last]
    return found, f"no query came after {(last - run.began) / 10**9:.0f} s"


def without_sources(run, failed):
    """The failures that lack queries for sources, if none was ever heard."""
    heard = any(it.message.sources for it in run.queries)
    return [it for it in failed if not heard and any(source for _, _, source in moments(it))], "no query for a source ever came"


def shifted(run, failed):
    """The failures whose missing queries came at another time, with about the same delay, and that delay."""
    delays = [(it, found) for it in failed if (found := [delay for one in moments(it) if (delay := delay_of(run, *one)) is not None])]
    if not delays:
        return [], ""
    middle, within = statistics.median_low(delay for _, found in delays for delay in found), run.options.within
    near = [(it, found) for it, found in delays if any(abs(delay - middle) <= within for delay in found)]
    those = [delay for _, found in near for delay in found if abs(delay - middle) <= within]
    least, most = sorted((round(abs(min(those, key=abs))), round(abs(max(those, key=abs)))))
    wanted = 50 * math.ceil((most + 10) / 50)
    advice = f": --within {wanted}?" if fits(wanted, run.options.lmqi) else ""
    return [it for it, _ in near], f"queries came {least} to {most} ms {'late' if middle > 0 else 'early'}{advice}"


def delay_of(run, at, group, source):
    """The delay of a missing query in milliseconds, or None if it didn't come within about a Last Member Query Interval."""
    its = [it for it in run.queries if it.message.group == group and (source in map(text_of, it.message.sources) if source else not it.message.sources)]
    delays = [(it.stamp - at) / 10**6 for it in its]
    return min((it for it in delays if -run.options.lmqi < it < 1.5 * run.options.lmqi), key=abs, default=None)


def fits(within, lmqi):
    """Returns whether a tolerance is small enough to tell queries apart."""
    return 1 <= within <= lmqi * 2 // 5
