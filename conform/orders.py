"""Tests that a case has one verdict: alone, and beside all others in three orders."""

from concurrent import futures

from table import cases_of

ORDERS = ("table", "reversed", "7")
TRIES = 4


class Job:
    """A run of cases against a router, and the verdicts that each case had in its tries."""

    def __init__(self, name, words):
        self.name, self.words, self.found, self.why = name, words, {}, ""

    def run(self, play):
        """Plays the cases once more. `play` returns their verdicts, and why there are none."""
        verdicts, self.why = play(self.words)
        for case, verdict in verdicts.items():
            if verdict != "late":
                self.found.setdefault(case, set()).add(verdict)


def jobs_of(family, words):
    """The runs: three orders, each case alone, and the fields of all queries, which send nothing, in one."""
    cases = [it for it in cases_of(family) if not words or any(word in it.name for word in words)]
    fields = [f"={it.name}" for it in cases if it.of]
    found = [Job(f"in the order {it}", ["--order", it, *words]) for it in ORDERS]
    found += [Job(f"{it.name} alone", [f"={it.name}"]) for it in cases if not it.of]
    return found + ([Job("the fields alone", fields)] if fields else [])


def different(jobs):
    """Returns the cases for which no verdict is among those of all jobs, each with its verdicts by job."""
    found = {}
    for case in sorted({case for job in jobs for case in job.found}):
        those = {job: job.found[case] for job in jobs if case in job.found}
        if not set.intersection(*those.values()):
            found[case] = those
    return found


def deviating(cases):
    """The jobs of cases with different verdicts that lack the most frequent one."""
    jobs = set()
    for those in cases.values():
        verdicts = [verdict for its in those.values() for verdict in its]
        most = max(sorted(set(verdicts)), key=verdicts.count)
        jobs |= {job for job, its in those.items() if most not in its}
    return jobs


def played(family, words, play, side_by_side):
    """Plays all jobs, and those again that differ from most, since this machine may be late. Returns what differs, in lines, and how many
    cases were compared."""
    jobs = jobs_of(family, words)
    again, tries = jobs, 0
    with futures.ThreadPoolExecutor(side_by_side) as pool:
        while again and tries < TRIES:
            tries += 1
            list(pool.map(lambda job: job.run(play), again))
            cases = different(jobs)
            again = sorted({*deviating(cases), *(job for job in jobs if job.why)}, key=lambda job: job.name)
            lines = [f"{job.name}: {job.why}" for job in jobs if job.why] + [line_of(*it) for it in cases.items()]
            if again and tries < TRIES:
                print("\n    ".join([f"again: {', '.join(job.name for job in again)}", *lines]), flush=True)
    return lines, len({case for job in jobs for case in job.found})


def line_of(case, those):
    """The verdicts of a case by the job."""
    return f"{case}: " + "; ".join(f"{job.name}: {' '.join(sorted(its))}" for job, its in those.items())
