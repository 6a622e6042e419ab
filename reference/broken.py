"""Schedulers that each turn one rule, so that a law fails."""

from scheduler import Scheduler


class EndedJobsDropped(Scheduler):
    """Polices by the units of the open jobs alone."""

    def has_free_unit(self, job):
        kept = self.jobs
        self.jobs = [other for other in kept if other.status == "open"]
        free = super().has_free_unit(job)
        self.jobs = kept
        return free


class OwnDueTickOnly(Scheduler):
    """Looks only at windows that end at the job's own due tick."""

    def has_free_unit(self, job):
        k, end = job.component, job.due
        return all(self.load(k, s, end) + 1 <= self.bound(k, s, end) for s in range(job.arrival + 1))


class HoldingStopsTheComponent(Scheduler):
    """Holds every job of a component that has one without a free unit."""

    def has_free_unit(self, job):
        same = [other for other in self.jobs if other.status == "open" and other.component == job.component]
        return all(super(HoldingStopsTheComponent, self).has_free_unit(other) for other in same)


class NeverRuns(Scheduler):
    def first_of(self, ready):
        return None


class PolicesTheFirstTickOnly(Scheduler):
    def has_free_unit(self, job):
        return self.clock > 0 or super().has_free_unit(job)


class NeverAsksItsBinder(Scheduler):
    def has_free_unit(self, job):
        return True


class LastDueFirst(Scheduler):
    def first_of(self, ready):
        return max(ready, key=lambda n: self.jobs[n].due, default=None)


BROKEN = [
    EndedJobsDropped,
    OwnDueTickOnly,
    HoldingStopsTheComponent,
    NeverRuns,
    PolicesTheFirstTickOnly,
    NeverAsksItsBinder,
    LastDueFirst,
]
