"""The rules of answering in plain Python, written from docs/RULES.md alone.

Windows are taken literally: a job has a free unit when there is room in each window in which it lies.
"""

import rules

CLOCK_END = 1000000
JOBS = 96

VERDICTS = {}


def verdict(sheets):
    """The admission test's verdict, kept for the next scheduler over the same sheets."""
    key = rules.file_of(sheets)
    if key not in VERDICTS:
        VERDICTS[key] = rules.admission(sheets)
    return VERDICTS[key]


class Job:
    """An accepted arrive."""

    def __init__(self, component, arrival, due):
        self.component = component
        self.arrival = arrival
        self.due = due
        self.units = 0
        self.status = "open"

    def lies_in(self, start, end):
        return start <= self.arrival and self.due <= end


class Scheduler:
    """A scheduler over a binder, which is a list of sheets.

    A call is ("arrive", component, deadline), ("finish", number) or ("tick",).
    """

    def __init__(self, sheets):
        self.sheets = sheets
        self.admitted = verdict(sheets) == (0, 0)
        self.clock = 0
        self.jobs = []

    # ------------------------------------------------------------ windows

    def last_due(self):
        """No window that ends later has another load, and none of them a smaller bound."""
        return max(job.due for job in self.jobs)

    def load(self, component, start, end):
        """What the component's jobs in the window have run, those that have ended too."""
        return sum(job.units for job in self.jobs if job.component == component and job.lies_in(start, end))

    def bound(self, component, start, end):
        return rules.bound_of(self.sheets, component, end - start)

    def windows_of(self, job):
        """The windows in which the job lies."""
        return [(start, end) for start in range(job.arrival + 1) for end in range(job.due, self.last_due() + 1)]

    def has_free_unit(self, job):
        k = job.component
        return all(self.load(k, s, e) + 1 <= self.bound(k, s, e) for s, e in self.windows_of(job))

    # ------------------------------------------------------------ the calls

    def arrive(self, component, deadline):
        """("job", number) or ("refused", number)"""
        if not self.admitted:
            return ("refused", 11)
        if self.clock == CLOCK_END:
            return ("refused", 14)
        if component >= len(self.sheets):
            return ("refused", 12)
        if deadline < 1 or deadline > 4096:
            return ("refused", 13)
        if len(self.jobs) == JOBS:
            return ("refused", 15)
        self.jobs.append(Job(component, self.clock, self.clock + deadline))
        return ("job", len(self.jobs) - 1)

    def finish(self, number):
        """("finished", units) or ("refused", number)"""
        if not self.admitted:
            return ("refused", 11)
        if number >= len(self.jobs):
            return ("refused", 16)
        if self.jobs[number].status != "open":
            return ("refused", 17)
        self.jobs[number].status = "finished"
        return ("finished", self.jobs[number].units)

    def tick(self):
        """("ticked", the job that ran or None, held, cut) or ("refused", number)"""
        if not self.admitted:
            return ("refused", 11)
        if self.clock == CLOCK_END:
            return ("refused", 14)
        cut = 0
        for job in self.jobs:
            if job.status == "open" and job.due <= self.clock:
                job.status = "cut"
                cut += 1
        still_open = [number for number, job in enumerate(self.jobs) if job.status == "open"]
        ready = [number for number in still_open if self.has_free_unit(self.jobs[number])]
        ran = self.first_of(ready)
        if ran is not None:
            self.jobs[ran].units += 1
        self.clock += 1
        return ("ticked", ran, len(still_open) - len(ready), cut)

    def perform(self, call):
        """The answer to a call of any kind."""
        if call[0] == "arrive":
            return self.arrive(call[1], call[2])
        if call[0] == "finish":
            return self.finish(call[1])
        return self.tick()

    def first_of(self, ready):
        """The one due first, ties going to the lower component, then to the lower number."""
        return min(ready, key=lambda n: (self.jobs[n].due, self.jobs[n].component, n), default=None)
