"""Histories of a scheduler over binders of every kind, made from fixed seeds and answered by job_windows.py.

    python3 reference/histories.py

prints what the histories have in them; history_cases.py prints the histories themselves. README.md tells the line format.
"""

import os
import random
import sys

sys.path.insert(0, os.path.dirname(os.path.abspath(__file__)))

import rules
from job_windows import JobWindowScheduler
from rules import Line, Rows
from scheduler import CLOCK_END, verdict

TOP32 = 4294967295
TOP64 = 18446744073709551615


def pick(rng, things):
    """One of a list of things."""
    return things[rng.randrange(len(things))]


def happens(rng, percent):
    return rng.randrange(100) < percent


# ---------------------------------------------------------------- random sheets


def row_sheet(rng, periods, budget):
    """One to three rows with these periods, and budgets up to that one."""
    rows = {}
    for _ in range(1 + rng.randrange(3)):
        t = pick(rng, periods)
        rows[(1 + rng.randrange(t), t, 1 + rng.randrange(budget))] = pick(rng, [1, 1, 2])
    return Rows([(t, d, c, rows[(d, t, c)]) for d, t, c in sorted(rows)])


def short_line(rng):
    q = pick(rng, [1, 2, 4, 8, 16])
    return Line(1 + rng.randrange(16), rng.randrange(5), q, rng.randrange(q // 2 + 1))


def burstless_line(rng):
    """Jobs of a deadline up to D and a little beyond are held from their arrival."""
    q = pick(rng, [4, 8, 16])
    return Line(2 + rng.randrange(16), 0, q, 1 + rng.randrange(3))


def long_line(rng):
    q = pick(rng, [16, 64, 256, 1024, 4096])
    d = 1 + rng.randrange(4096)
    return Line(d, rng.randrange(1 + min(d, 40)), q, rng.randrange(q // 8 + 1))


def random_rows(rng, count):
    """A row sheet for a binder of so many sheets."""
    way = rng.randrange(8)
    if count == 1 and way == 0:
        return pick(rng, [Rows([(1, 1, 1, 1)]), Rows([(2, 1, 1, 1), (2, 2, 1, 1)]), Rows([(4, 4, 1, 4)])])
    if way < 2:
        return row_sheet(rng, [256, 1024, 4096], 30)
    return row_sheet(rng, [4, 8, 16, 32, 64] if count < 4 else [32, 64, 128], 3)


def random_line(rng, count):
    """A line for a binder of so many sheets."""
    way = rng.randrange(8)
    if count == 1 and way == 0:
        return pick(rng, [Line(1, 1, 1, 1), Line(4, 4, 1, 1), Line(1, 0, 1, 1)])
    if way < 2:
        return long_line(rng)
    return burstless_line(rng) if way < 4 else short_line(rng)


def random_sheet(rng, count):
    return random_rows(rng, count) if happens(rng, 50) else random_line(rng, count)


# ---------------------------------------------------------------- binders


class Kind:
    """A binder of one of the kinds: its name, and the sheets of its file or of its two files."""

    def __init__(self, name, parts):
        self.name = name
        self.parts = parts
        self.sheets = parts[0] if len(parts) == 1 else rules.side_by_side(parts[0], parts[1])

    def words(self):
        files = [rules.file_of(part) for part in self.parts]
        name = self.name if self.name in ("file", "pair") else "sheet"
        return [name] + [data.hex().upper() if len(data) > 0 else "-" for data in files]


def admitted_sheets(rng, count):
    """So many sheets that are admitted together."""
    sheets = [random_sheet(rng, count) for _ in range(count)]
    while verdict(sheets) != (0, 0):
        sheets[rng.randrange(count)] = random_sheet(rng, count)
    return sheets


def admitted_alone(rng, make):
    while True:
        sheet = make(rng, 1)
        if verdict([sheet]) == (0, 0):
            return [sheet]


def admitted_binder(rng, name):
    """An admitted binder of the kind."""
    if name == "rows":
        return Kind(name, [admitted_alone(rng, random_rows)])
    if name == "line":
        return Kind(name, [admitted_alone(rng, random_line)])
    if name == "file":
        return Kind(name, [admitted_sheets(rng, pick(rng, [1, 2, 2, 3, 3, 4, 5, 6, 7, 8]))])
    sheets = admitted_sheets(rng, pick(rng, [1, 2, 2, 3, 4, 6, 8]))
    at = rng.randrange(len(sheets) + 1)
    return Kind(name, [sheets[:at], sheets[at:]])


KINDS = ["rows", "line", "file", "pair"]


# ---------------------------------------------------------------- one run of calls


class Run:
    """A scheduler over a binder, and its calls with their answers so far."""

    def __init__(self, binder, make=JobWindowScheduler):
        self.binder = binder
        self.scheduler = make(binder.sheets)
        self.events = []

    def make(self, call):
        answer = self.scheduler.perform(call)
        if answer[0] == "ticked" and answer[3] > 0:
            self.check_second_law()
        self.events.append((call, 1, answer))
        return answer

    def arrive(self, component, deadline):
        return self.make(("arrive", component, deadline))

    def finish(self, number):
        return self.make(("finish", number))

    def tick(self, times=1):
        for _ in range(times):
            self.make(("tick",))

    def idle(self, times):
        """Ticks without an open job, all at once."""
        self.events.append((("tick",), times, self.scheduler.idle(times)))

    # ------------------------------------------------------------ what the calls go by

    def count(self):
        return len(self.scheduler.sheets)

    def jobs(self):
        return self.scheduler.jobs

    def clock(self):
        return self.scheduler.clock

    def numbers(self, is_open):
        return [n for n, job in enumerate(self.jobs()) if (job.status == "open") == is_open]

    # ------------------------------------------------------------ the two laws, at the windows that matter

    def check_second_law(self):
        for job in self.jobs():
            assert job.status != "cut" or not self.scheduler.has_free_unit(job)

    def check_first_law(self):
        for k in range(self.count()):
            for start, end, load in self.scheduler.job_windows(k):
                assert load <= self.scheduler.bound(k, start, end)


# ---------------------------------------------------------------- random calls


def some_component(rng, run):
    if happens(rng, 6):
        return pick(rng, [run.count(), run.count() + 1, 8, 9, 255, 65536, TOP32])
    return rng.randrange(run.count())


def near_deadline(rng, sheet):
    """A deadline around one that the sheet names."""
    if sheet.kind == 1:
        t, d, _, _ = pick(rng, sheet.rows)
        middle = pick(rng, [d, d, d + t])
    else:
        middle = pick(rng, [sheet.d, sheet.d, sheet.d + sheet.q])
    return max(1, middle - 1 + rng.randrange(3))


def some_deadline(rng, run, component):
    way = rng.randrange(16)
    if way == 0:
        return pick(rng, [0, 0, 1, 4096, 4096, 4097, 4097, 5000, 65536, TOP32])
    if way == 1:
        return 1 + rng.randrange(4096)
    if way < 6 and component < run.count():
        return min(4096, near_deadline(rng, run.binder.sheets[component]))
    return 1 + rng.randrange(24)


def some_job(rng, run):
    """A job to finish: open, ended, or none."""
    way = rng.randrange(10)
    if way == 0:
        return pick(rng, [len(run.jobs()), len(run.jobs()) + 1, 95, 96, 97, TOP32, TOP64])
    numbers = run.numbers(way > 3)
    return pick(rng, numbers) if numbers else rng.randrange(len(run.jobs()) + 1)


def some_arrive(rng, run):
    component = some_component(rng, run)
    run.arrive(component, some_deadline(rng, run, component))


def mixed(rng, run, calls):
    """Any call at any time."""
    for _ in range(calls):
        way = rng.randrange(100)
        if way < 28:
            some_arrive(rng, run)
        elif way < 38:
            run.finish(some_job(rng, run))
        else:
            run.tick()


def last_moment(rng, run, calls):
    """Jobs that are due now are often finished now."""
    for _ in range(calls):
        due = [n for n in run.numbers(True) if run.jobs()[n].due == run.clock()]
        if due and happens(rng, 60):
            run.finish(pick(rng, due))
        elif happens(rng, 30):
            component = rng.randrange(run.count())
            run.arrive(component, 1 + rng.randrange(8))
        else:
            run.tick()


def dutiful(rng, run, calls):
    """A job is finished once it has run its units, which some have too many of."""
    wanted = {}
    for _ in range(calls):
        done = [n for n in run.numbers(True) if run.jobs()[n].units >= wanted[n]]
        if done:
            run.finish(pick(rng, done))
        elif happens(rng, 22):
            component = rng.randrange(run.count())
            deadline = min(4096, near_deadline(rng, run.binder.sheets[component]))
            wanted[len(run.jobs())] = pick(rng, [1, 1, 2, 3, 5, 9, 1000])
            run.arrive(component, deadline)
        else:
            run.tick()


def overruns(rng, run, calls):
    """Bursts of jobs that never finish."""
    while calls > 0:
        burst = 1 + rng.randrange(5)
        ticks = rng.randrange(24)
        for _ in range(burst):
            component = rng.randrange(run.count())
            run.arrive(component, some_deadline(rng, run, component))
        run.tick(ticks)
        calls -= burst + ticks


def ties(rng, run, calls):
    """Jobs that arrive at several ticks and are due at the same one."""
    while calls > 0:
        due = run.clock() + 4 + rng.randrange(28)
        if happens(rng, 50):
            due += min(100, near_deadline(rng, pick(rng, run.binder.sheets)))
        for _ in range(2 + rng.randrange(5)):
            run.arrive(rng.randrange(run.count()), due - run.clock())
            calls -= 1
            if happens(rng, 25) and due - run.clock() > 1:
                run.tick()
                calls -= 1
            if happens(rng, 10):
                run.finish(some_job(rng, run))
                calls -= 1
        ticks = rng.randrange(due - run.clock() + 3)
        run.tick(ticks)
        calls -= min(ticks, 20)


def early_and_late(rng, run, calls):
    """Jobs with late deadlines run first; jobs with earlier ones come behind them."""
    while calls > 0:
        component = rng.randrange(run.count())
        late = min(4096, near_deadline(rng, run.binder.sheets[component]) + rng.randrange(40))
        run.arrive(component, late)
        ticks = 1 + rng.randrange(8)
        run.tick(ticks)
        more = 1 + rng.randrange(3)
        for _ in range(more):
            left = max(1, late - ticks)
            run.arrive(component, 1 + rng.randrange(left))
        after = rng.randrange(12)
        run.tick(after)
        calls -= 1 + ticks + more + after


def lulls(rng, run, calls):
    """A few jobs, and long stretches without a call but ticks."""
    while calls > 0:
        for _ in range(1 + rng.randrange(3)):
            some_arrive(rng, run)
            calls -= 1
        stretch = pick(rng, [10, 40, 100, 300])
        run.tick(1 + rng.randrange(stretch))
        if happens(rng, 40):
            run.finish(some_job(rng, run))
        calls -= 12


def far_dues(rng, run, calls):
    """Deadlines of thousands of ticks, awaited to their end."""
    for _ in range(4 + rng.randrange(6)):
        component = rng.randrange(run.count())
        run.arrive(component, pick(rng, [4096, 4095, 1 + rng.randrange(4096), 1000 + rng.randrange(1000)]))
        run.tick(rng.randrange(40))
    run.tick(1000 + rng.randrange(3500))
    mixed(rng, run, calls)


def ages(rng, run, calls):
    """Jobs that are thousands of ticks apart, so that windows are long."""
    for _ in range(6):
        for _ in range(1 + rng.randrange(4)):
            component = rng.randrange(run.count())
            run.arrive(component, min(4096, near_deadline(rng, run.binder.sheets[component]) + rng.randrange(20)))
        run.tick(pick(rng, [20, 100, 500, 2000, 4096, 4097]))
    mixed(rng, run, calls)


def crowd(rng, run, calls):
    """More arrives than the table has room for, then ticks."""
    longest = pick(rng, [40, 200, 600])
    for _ in range(97 + rng.randrange(14)):
        run.arrive(rng.randrange(run.count()), 1 + rng.randrange(longest))
        if happens(rng, 30):
            run.tick()
        if happens(rng, 8):
            run.finish(some_job(rng, run))
    # A full table is what a refusal says last.
    for component, deadline in ((0, 8), (0, 0), (0, 4097), (run.count(), 8), (run.count(), 0), (TOP32, TOP32)):
        run.arrive(component, deadline)
    for _ in range(calls):
        run.tick(1 + rng.randrange(4))
        if happens(rng, 10):
            run.finish(some_job(rng, run))
        if happens(rng, 3):
            some_arrive(rng, run)


USUAL = [mixed, overruns, ties, early_and_late, dutiful, last_moment, lulls, mixed]


# ---------------------------------------------------------------- all histories


def usual_runs(make):
    """Lists of 20 to 120 calls over admitted binders of each kind."""
    rng = random.Random(707)
    for name, binders in (("rows", 64), ("line", 64), ("file", 100), ("pair", 64)):
        for turn in range(binders):
            binder = admitted_binder(rng, name)
            for at in range(4):
                run = Run(binder, make)
                USUAL[(4 * turn + at) % len(USUAL)](rng, run, 20 + rng.randrange(80))
                yield run


def long_runs(make):
    rng = random.Random(808)
    for turn in range(24):
        run = Run(admitted_binder(rng, KINDS[turn % 4]), make)
        far_dues(rng, run, 30)
        yield run
    for turn in range(16):
        run = Run(admitted_binder(rng, KINDS[turn % 4]), make)
        ages(rng, run, 30)
        yield run
    for turn in range(16):
        run = Run(admitted_binder(rng, KINDS[turn % 4]), make)
        crowd(rng, run, 60 + rng.randrange(100))
        yield run


def refused_binders(rng):
    """Binders that the admission test refuses, with each of its numbers."""
    row, line, full = Rows([(8, 4, 2, 1)]), Line(4, 3, 2, 1), Rows([(1, 1, 1, 1)])
    steep = Line(4096, 0, 4, 3)
    few = [row, Line(64, 1, 64, 1)]
    yield Kind("rows", [[Rows([(4, 4, 5, 1)])]])
    yield Kind("rows", [[Rows([(1, 1, 1, 2)])]])
    yield Kind("rows", [[Rows([(4096, 4096, 4096, 2)])]])
    yield Kind("line", [[Line(1, 2, 1, 0)]])
    yield Kind("line", [[Line(4, 5, 2, 1)]])
    yield Kind("file", [[]])
    yield Kind("file", [[steep, steep]])
    yield Kind("file", [[full, line]])
    yield Kind("file", [[Rows([(4096, 1, 1, 1)])] * 2])
    yield Kind("pair", [[], []])
    yield Kind("pair", [[steep], [steep]])
    yield Kind("pair", [[full], [full]])
    yield Kind("pair", [[full], few])
    for first, second in ((8, 1), (1, 8), (5, 4), (8, 8), (2, 8)):
        yield Kind("pair", [[Line(4096, 0, 4096, 1)] * first, [Rows([(4096, 4096, 1, 1)])] * second])
    made = 0
    while made < 22:
        sheets = [random_sheet(rng, 1) for _ in range(1 + rng.randrange(4))]
        if verdict(sheets) != (0, 0):
            at = rng.randrange(len(sheets) + 1)
            yield Kind("file", [sheets]) if made % 2 == 0 else Kind("pair", [sheets[:at], sheets[at:]])
            made += 1


def refused_runs(make):
    rng = random.Random(909)
    for binder in refused_binders(rng):
        run = Run(binder, make)
        for _ in range(8 + rng.randrange(24)):
            component = pick(rng, [0, 0, 1, 7, 8, 9, TOP32])
            call = pick(rng, [("tick",), ("finish", pick(rng, [0, 1, 96, TOP64])),
                              ("arrive", component, pick(rng, [0, 1, 8, 4096, 4097, TOP32]))])
            run.make(call)
        yield run


def clock_end_runs(make):
    """The clock reaches its end; what comes before is idle."""
    rng = random.Random(1010)
    # Jobs that are still open at the clock's end.
    run = Run(Kind("line", [[Line(4, 3, 2, 1)]]), make)
    run.idle(CLOCK_END - 6)
    for deadline in (4096, 5, 6, 7):
        run.arrive(0, deadline)
        run.tick()
    at_the_end(run)
    yield run
    # A full table, which is not what the refusal says.
    run = Run(Kind("rows", [[Rows([(16, 4, 3, 1)])]]), make)
    run.idle(CLOCK_END - 9)
    for _ in range(97):
        run.arrive(0, 1 + rng.randrange(20))
    at_the_end(run)
    yield run
    # Jobs that ended long before; the line's burst is spent for ever.
    run = Run(Kind("pair", [[Rows([(8, 4, 2, 1)])], [Line(8, 1, 8, 0)]]), make)
    run.arrive(1, 8)
    run.arrive(0, 4)
    run.tick(5)
    run.finish(0)
    run.idle(CLOCK_END - 8)
    run.arrive(1, 8)
    run.arrive(1, 4096)
    run.arrive(0, 9)
    at_the_end(run)
    yield run


def at_the_end(run):
    while run.clock() < CLOCK_END:
        run.tick()
    run.tick()
    for component, deadline in ((0, 5), (9, 5), (0, 0), (0, 4097), (9, 0)):
        run.arrive(component, deadline)
    for number in range(min(12, len(run.jobs()))):
        run.finish(number)
    for number in (0, len(run.jobs()), 96, TOP64):
        run.finish(number)
    run.tick()


def runs(make=JobWindowScheduler):
    for group in (usual_runs, long_runs, refused_runs, clock_end_runs):
        for run in group(make):
            run.check_first_law()
            yield run


# ---------------------------------------------------------------- the lines


def answer_words(answer):
    if answer[0] == "job":
        return ["j", answer[1]]
    if answer[0] == "finished":
        return ["u", answer[1]]
    if answer[0] == "refused":
        return ["x", answer[1]]
    _, ran, held, cut = answer
    return ["i", held, cut] if ran is None else ["r", ran, held, cut]


def call_words(call, times):
    if call[0] == "arrive":
        return ["a", call[1], call[2]]
    if call[0] == "finish":
        return ["f", call[1]]
    return ["t"] if times == 1 else ["m", times]


def steps_of(events):
    """The events, with ticks that follow each other and have the same answer as one step."""
    steps = []
    for call, times, answer in events:
        if call[0] == "tick" and steps and steps[-1][0] == call and steps[-1][2] == answer:
            steps[-1] = (call, steps[-1][1] + times, answer)
        else:
            steps.append((call, times, answer))
    return steps


def line_of(run):
    steps = steps_of(run.events)
    words = ["history"] + run.binder.words() + [len(steps)]
    for call, times, answer in steps:
        words += call_words(call, times) + answer_words(answer)
    return " ".join(str(word) for word in words)


def history_cases():
    for run in runs():
        print(line_of(run))


# ---------------------------------------------------------------- what the histories have in them


class Watched(JobWindowScheduler):
    """Counts what happens inside its ticks."""

    seen = {}

    def add(self, what, more=1):
        Watched.seen[what] = Watched.seen.get(what, 0) + more

    def has_free_unit(self, job):
        spent = [(s, e) for s, e in self.spent_windows(job.component) if job.lies_in(s, e)]
        if spent and job.status == "open":
            self.add("held, having run" if job.units > 0 else "held, not having run")
            if all(e > job.due for _, e in spent):
                self.add("held by windows that end later than its due tick only")
            if self.bound(job.component, job.arrival, job.due) == 0:
                self.add("held with a bound of 0")
        return not spent

    def first_of(self, ready):
        first = super().first_of(ready)
        if first is not None:
            same = [self.jobs[n].component for n in ready if n != first and self.jobs[n].due == self.jobs[first].due]
            if any(k == self.jobs[first].component for k in same):
                self.add("ran, with a tie in its component")
            if any(k != self.jobs[first].component for k in same):
                self.add("ran, with a tie between components")
            if any(n < first for n in ready):
                self.add("ran, before a ready job of a lower number")
        return first

    def finish(self, number):
        answer = super().finish(number)
        if answer[0] == "finished" and self.jobs[number].due == self.clock:
            self.add("finished at its due tick")
        return answer


WANTED = [
    "held, having run", "held, not having run", "held by windows that end later than its due tick only",
    "held with a bound of 0", "ran, with a tie in its component", "ran, with a tie between components",
    "ran, before a ready job of a lower number", "finished at its due tick", "finished", "job", "cut", "idle",
    "job left open at the end", "due more than 1000 ticks after the end", "job with deadline 1", "job with deadline 4096",
    "refused deadline 0", "refused deadline 4097", "refused 11", "refused 12", "refused 13", "refused 14", "refused 15",
    "refused 16", "refused 17", "histories of rows", "histories of line", "histories of file", "histories of pair",
]


def count_events(run, add):
    for call, times, answer in run.events:
        add("calls", times)
        if answer[0] == "refused":
            add("refused %d" % answer[1])
            if answer[1] == 13:
                add("refused deadline %d" % call[2])
        elif answer[0] == "ticked":
            add("idle" if answer[1] is None else "ran", times)
            add("held", times * answer[2])
            add("cut", answer[3])
        else:
            add(answer[0])
            if answer[0] == "job" and call[2] in (1, 4096):
                add("job with deadline %d" % call[2])


def count_run(run, add):
    add("histories")
    add("histories of " + run.binder.name)
    if not run.scheduler.admitted:
        add("histories over a refused binder")
    if run.count() == 8:
        add("histories over eight components")
    if len(run.jobs()) == 96:
        add("histories with a full table")
    for n in run.numbers(True):
        add("job left open at the end")
        if run.jobs()[n].due > run.clock() + 1000:
            add("due more than 1000 ticks after the end")
    count_events(run, add)


def main():
    seen = Watched.seen

    def add(what, more=1):
        seen[what] = seen.get(what, 0) + more

    for run in runs(Watched):
        count_run(run, add)
    for what in sorted(seen):
        print(what, seen[what])
    missing = [what for what in WANTED if seen.get(what, 0) == 0]
    for what in missing:
        print("no history has: " + what)
    return 1 if missing else 0


if __name__ == "__main__":
    sys.exit(main())
