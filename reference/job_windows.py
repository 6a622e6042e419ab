"""The same scheduler, with a free unit decided at finitely many windows.

A window that matters begins where a job of the component arrives and ends where one is due. laws.py holds this
scheduler to the one with literal windows; the long histories are answered by this one.
"""

from scheduler import CLOCK_END, Scheduler


class JobWindowScheduler(Scheduler):
    def __init__(self, sheets):
        super().__init__(sheets)
        self.bounds = {}
        self.spent = {}

    # ------------------------------------------------------------ windows

    def bound(self, component, start, end):
        key = (component, end - start)
        if key not in self.bounds:
            self.bounds[key] = super().bound(component, start, end)
        return self.bounds[key]

    def job_windows(self, component):
        """(start, end, load) for each window from an arrival to a due tick of the component's jobs."""
        mine = [job for job in self.jobs if job.component == component]
        for end in sorted({job.due for job in mine}):
            inside = [job for job in mine if job.due <= end]
            load = sum(job.units for job in inside)
            before = None
            for job in inside:
                # Jobs stand in the order of their arrivals: the ones passed so far arrived before.
                if job.arrival != before:
                    yield (job.arrival, end, load)
                before = job.arrival
                load -= job.units

    def spent_windows(self, component):
        """The windows without room for a unit more, kept until a job of the component arrives or runs."""
        if component not in self.spent:
            windows = self.job_windows(component)
            self.spent[component] = [(s, e) for s, e, load in windows if load + 1 > self.bound(component, s, e)]
        return self.spent[component]

    def has_free_unit(self, job):
        return not any(job.lies_in(s, e) for s, e in self.spent_windows(job.component))

    # ------------------------------------------------------------ the calls

    def arrive(self, component, deadline):
        self.spent.pop(component, None)
        return super().arrive(component, deadline)

    def tick(self):
        answer = super().tick()
        if answer[0] == "ticked" and answer[1] is not None:
            self.spent.pop(self.jobs[answer[1]].component, None)
        return answer

    def idle(self, ticks):
        """So many ticks at once, without an open job: nothing runs, is held or is cut."""
        assert self.admitted and self.clock + ticks <= CLOCK_END
        assert all(job.status != "open" for job in self.jobs)
        self.clock += ticks
        return ("ticked", None, 0, 0)
