"""Random call lists over random admitted binders, on the scheduler of scheduler.py; both laws are checked on each run.

    python3 reference/laws.py

The scheduler of job_windows.py has to give the same answers. It prints what the runs had in them. Then a law has
to fail for each scheduler of broken.py, which shows that the check can tell. It ends with status 1 where a law
fails that holds, or none fails that has to.
"""

import os
import random
import sys

sys.path.insert(0, os.path.dirname(os.path.abspath(__file__)))

import rules
from broken import BROKEN
from job_windows import JobWindowScheduler
from rules import Line, Rows
from scheduler import Scheduler, verdict

BINDERS = 200
PAIRS = 100
LISTS_PER_BINDER = 5


# ---------------------------------------------------------------- the two laws


def overrun(scheduler):
    """A component and a window in which it has run past its bound, or None.

    The units run never fall, so that a look at the end of a run covers each call before it.
    """
    if not scheduler.jobs:
        return None
    for k in range(len(scheduler.sheets)):
        for start in range(scheduler.clock + 1):
            for end in range(start, scheduler.last_due() + 1):
                if scheduler.load(k, start, end) > scheduler.bound(k, start, end):
                    return (k, start, end)
    return None


def is_spent(scheduler, job):
    """The job lies in a window in which its component has run exactly its bound."""
    k = job.component
    return any(scheduler.load(k, s, e) == scheduler.bound(k, s, e) for s, e in scheduler.windows_of(job))


# ---------------------------------------------------------------- random binders and calls


def random_sheet(rng):
    if rng.random() < 0.4:
        q = rng.choice([2, 4, 8, 16])
        return Line(rng.randrange(1, 17), rng.randrange(4), q, rng.randrange(q // 2 + 1))
    rows = set()
    for _ in range(rng.randrange(1, 4)):
        t = rng.choice([4, 8, 16, 32, 64])
        rows.add((rng.randrange(1, t + 1), t, rng.randrange(1, 4)))
    return Rows([(t, d, c, rng.choice([1, 1, 2])) for d, t, c in sorted(rows)])


def random_sheets(rng, counts):
    return [random_sheet(rng) for _ in range(rng.choice(counts))]


def random_binder(rng):
    return random_sheets(rng, [1, 2, 2, 3, 3, 4, 8])


def random_pair(rng):
    """Two binders side by side."""
    return rules.side_by_side(random_sheets(rng, [0, 1, 1, 2, 4]), random_sheets(rng, [1, 1, 2, 3]))


def admitted(draw, rng):
    """The first of the drawn binders that is admitted."""
    while True:
        sheets = draw(rng)
        if verdict(sheets) == (0, 0):
            return sheets


def random_call(rng, scheduler):
    what = rng.random()
    if what < 0.3:
        component = rng.randrange(len(scheduler.sheets) + (rng.random() < 0.1))
        return ("arrive", component, rng.choice([0, 1, 2, 3, 4, 5, 6, 8, 8, 10, 12, 16, 24, 4097]))
    if what < 0.38:
        return ("finish", rng.randrange(len(scheduler.jobs) + 1))
    return ("tick",)


# ---------------------------------------------------------------- runs


class Seen:
    """What the runs had in them."""

    def __init__(self):
        self.counts = {}

    def add(self, what, more=1):
        self.counts[what] = self.counts.get(what, 0) + more

    def answer(self, answer):
        self.add("calls")
        if answer[0] == "refused":
            self.add("refused " + str(answer[1]))
        elif answer[0] == "ticked":
            self.add("ran" if answer[1] is not None else "idle")
            self.add("held", answer[2])
            self.add("cut", answer[3])


def run(scheduler, twin, rng, calls, seen):
    """Makes so many calls on both; answers what failed, in words, or None."""
    for _ in range(calls):
        cut_before = [job for job in scheduler.jobs if job.status == "cut"]
        call = random_call(rng, scheduler)
        answer = scheduler.perform(call)
        if twin is not None and twin.perform(call) != answer:
            return "the windows that matter give another answer"
        seen.answer(answer)
        for job in scheduler.jobs:
            if job.status == "cut" and job not in cut_before and not is_spent(scheduler, job):
                return "a job was cut in no spent window"
    window = overrun(scheduler)
    return None if window is None else "component %d ran past its bound from %d to %d" % window


def failure(draw, binders, make, make_twin, seen):
    """What fails first on the lists over so many drawn binders, with the scheduler that `make` gives for one, or None.

    Where there is a `make_twin`, its scheduler has to give the same answers.
    """
    rng = random.Random(20)
    for _ in range(binders):
        sheets = admitted(draw, rng)
        for _ in range(LISTS_PER_BINDER):
            seen.add("lists")
            twin = None if make_twin is None else make_twin(sheets)
            failed = run(make(sheets), twin, rng, rng.randrange(20, 70), seen)
            if failed is not None:
                return failed
    return None


def main():
    for draw, binders in ((random_binder, BINDERS), (random_pair, PAIRS)):
        seen = Seen()
        failed = failure(draw, binders, Scheduler, JobWindowScheduler, seen)
        if failed is not None:
            print(failed)
            return 1
        print(draw.__name__.replace("_", " ") + ":")
        for what in sorted(seen.counts):
            print(" ", what, seen.counts[what])
    for broken in BROKEN:
        failed = failure(random_binder, BINDERS, broken, None, Seen())
        if failed is None:
            print(broken.__name__ + ": no law fails")
            return 1
        print(broken.__name__ + ": " + failed)
    print("both laws hold")
    return 0


if __name__ == "__main__":
    sys.exit(main())
