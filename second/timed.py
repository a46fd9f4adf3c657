"""Timed runs of the scheduler: jobs that follow plans tick by tick, and when each of them is over."""

from dataclasses import dataclass, replace

from analysis import analyse
from analysis_cases import cut, one_in, within
from call_files import call
from scheduler import set_up
from table_cases import pick
from tables import Task, Use, table_bytes

# A period so long that most tables of small figures have verdict yes.
LONG = 90

# A plan is a list of parts: ("work", ticks), ("section", ticks, resource) and ("sleep", ticks).


# One job: what is left of its plan, the ticks done in the part that stands first, and what became of the job.
@dataclass
class Job:
    number: tuple
    release: int
    parts: list
    done: int = 0
    inside: bool = False
    wake: int | None = None
    sleeps: int = 0
    blocked: int = 0
    done_at: int = 0
    over: int | None = None

    # The call that the job makes at once when it is named, or None while it has ticks to execute first.
    def wanted(self):
        while self.parts and self.parts[0] == ("work", self.done):
            self.next_part()
        if not self.parts:
            return "c", *self.number
        kind, ticks, *resource = self.parts[0]
        if kind == "sleep":
            return "s", *self.number
        if kind == "section" and not self.inside:
            return "l", *self.number, *resource
        return ("u", *self.number, *resource) if self.inside and self.done == ticks else None

    # Go on to the next part.
    def next_part(self):
        self.parts, self.done = self.parts[1:], 0

    # What a call of its own makes of the job.
    def called(self, kind, now):
        if kind == "s":
            self.wake = now + self.parts[0][1]
            self.sleeps += 1
        if kind == "c":
            self.over = now
        self.inside = kind == "l"
        if kind in "us":
            self.next_part()


# A run on a table; comings has a list for each priority: ticks since the last release or since 0, patience, and a plan.
class Run:
    # Start at instant 0 with nobody there; what is due comes in the order of comings, resumes last, or as an rng says.
    def __init__(self, tasks, uses, comings, rng=None):
        self.state = set_up(table_bytes(tasks, uses))[2]
        self.comings = {priority: list(queue) for priority, queue in comings.items()}
        self.last = dict.fromkeys(comings, 0)
        self.rng = rng
        self.now = 0
        self.named = None
        self.current = {}
        self.jobs = []
        self.calls = []

    # Make a call, which must be accepted, and note it with its instant.
    def make(self, *made):
        refusal, self.named, self.state = call(self.state, *made)
        self.calls.append((self.now, *made))
        if refusal:
            raise ValueError(f"refusal {refusal} of {self.calls}")

    # The call that the job that is named wants to make at once, or None.
    def wanted(self):
        return None if self.named is None else self.current[self.named[0]].wanted()

    # Make the call that the job that is named wants.
    def own_call(self):
        job, made = self.current[self.named[0]], self.wanted()
        self.make(*made)
        job.called(made[0], self.now)
        if job.over is not None:
            del self.current[job.number[0]]

    # The calls of whoever is named, again and again until that job has to execute first or nobody is named.
    def own_calls(self):
        while self.wanted() is not None:
            self.own_call()

    # Whether the job that is named wants to be completed.
    def at_end(self):
        return (self.wanted() or " ")[0] == "c"

    # Whether a task is to be released: its ticks are past, and a lower job holds a section or the patience is past too.
    def comes(self, priority):
        if priority in self.current or not self.comings[priority]:
            return False
        ticks, patience, _ = self.comings[priority][0]
        waited = self.now - self.last[priority] - ticks
        return waited >= patience or waited >= 0 and any(
            job.inside and job.number[0] < priority for job in self.current.values())

    # The priorities of the tasks to be released.
    def releases(self):
        return [priority for priority in self.comings if self.comes(priority)]

    # The jobs whose sleep is over.
    def wakers(self):
        return [job for job in self.current.values() if job.wake is not None and job.wake <= self.now]

    # The first of these, or any.
    def chosen(self, due):
        return due[0] if self.rng is None else pick(self.rng, due)

    # A release.
    def release(self, priority):
        *_, plan = self.comings[priority].pop(0)
        serial = sum(job.number[0] == priority for job in self.jobs)
        self.current[priority] = Job((priority, serial), self.now, plan)
        self.jobs.append(self.current[priority])
        self.last[priority] = self.now
        self.make("r", priority)

    # A release or a resume.
    def arrive(self, due):
        if not isinstance(due, Job):
            return self.release(due)
        due.wake = None
        self.make("w", *due.number)

    # All calls of an instant.
    def instant(self):
        self.own_calls()
        while due := self.releases() + self.wakers():
            self.arrive(self.chosen(due))
            self.own_calls()

    # The job that is named executes for a tick; higher ones that do not sleep are blocked meanwhile.
    def tick(self):
        self.now += 1
        for job in self.current.values():
            if job.wake is not None or job.number == self.named:
                job.done_at = self.now
        if self.named is not None:
            self.current[self.named[0]].done += 1
            for job in self.current.values():
                job.blocked += job.number[0] > self.named[0] and job.wake is None

    # Go on until all have come and are over.
    def go(self):
        while self.current or any(self.comings.values()):
            self.instant()
            self.tick()
        return self


# A run in which a complete comes before what is due at its instant, and any other calls come in any order.
class AnyOrder(Run):
    # All calls of an instant.
    def instant(self):
        while True:
            due = self.releases() + self.wakers()
            if self.wanted() is not None and (not due or self.at_end() or one_in(self.rng, 2)):
                self.own_call()
            elif due:
                self.arrive(self.chosen(due))
            else:
                break


# A run in which all calls of an instant come in any order, also a complete after a release.
class NoOrder(AnyOrder):
    # Nothing comes first.
    def at_end(self):
        return False


# The bounds by priority if the verdict is yes, else None.
def bounds_of(tasks, uses):
    bounds = analyse(tasks, uses).bounds
    return None if None in bounds else {task.priority: bound for task, bound in zip(tasks, bounds)}


# By how much a job was over before its bound; below 0 it was late.
def to_spare(job, bounds):
    return job.release + bounds[job.number[0]] - job.over


# The jobs that were late.
def late(run, bounds):
    return [job for job in run.jobs if to_spare(job, bounds) < 0]


# The uses of the task with this priority.
def uses_of(uses, priority):
    return [use for use in uses if use.priority == priority]


# A number up to the most, mostly the most.
def mostly(rng, most, many=4):
    return within(rng, 0, most) if one_in(rng, many) else most


# Sections of these uses, with so many ticks in all at most.
def some_sections(rng, uses, room):
    parts = []
    for use in uses:
        for _ in range(mostly(rng, use.n, 2)):
            ticks = min(room, mostly(rng, use.l))
            room -= ticks
            parts.append(("section", ticks, use.resource))
    return parts


# A plan that keeps to a task and its uses and ends with a tick of work.
def a_plan(rng, task, uses):
    left = max(1, mostly(rng, task.c))
    parts = some_sections(rng, uses_of(uses, task.priority), left - 1)
    left -= sum(ticks for _, ticks, _ in parts)
    sleeps = mostly(rng, task.x)
    if sleeps:
        parts += [("sleep", ticks) for ticks in cut(rng, mostly(rng, task.s), sleeps)]
    rng.shuffle(parts)
    work = cut(rng, left - 1, len(parts) + 1)
    plan = [part for ticks, after in zip(work, parts) for part in (("work", ticks), after)]
    return [part for part in plan if part != ("work", 0)] + [("work", work[-1] + 1)]


# The comings of a task in about so many ticks, mostly just T apart or as soon after as they are blocked.
def some_comings(rng, task, uses, length):
    apart = [within(rng, 0, task.priority)]
    while sum(apart) < length:
        apart.append(task.t + (within(rng, 1, 4) if one_in(rng, 4) else 0))
    return [(ticks, pick(rng, [0, 20]), a_plan(rng, task, uses)) for ticks in apart]


# A random run on a table in which the jobs keep to these tasks and uses, the table's own or others.
def random_run(rng, table, kept, length, kind=Run):
    tasks, uses = kept
    comings = {task.priority: some_comings(rng, task, uses, length) for task in tasks}
    return kind(*table, comings, rng).go()


# Small sections for a task with this C.
def small_uses(rng, priority, resources, c):
    uses = []
    for resource in range(1, resources + 1):
        n, l = pick(rng, [1, 1, 2]), pick(rng, [1, 1, 2, 3])
        if n * l <= c and not one_in(rng, 3):
            uses.append(Use(priority, resource, n, l))
            c -= n * l
    return uses


# A table of small figures, with settings or with none above 0, its periods long.
def small_table(rng, settings):
    count, resources = within(rng, 2, 4), within(rng, 1, 2)
    tasks, uses = [], []
    for priority in range(count, 0, -1):
        c, x = within(rng, 1, 4), pick(rng, [0, 0, 1, 2])
        s = within(rng, 0, 4) if x else 0
        tasks.append(Task(priority, rng.randrange(priority) if settings else 0, x, c, s, LONG, LONG))
        uses += small_uses(rng, priority, resources, c)
    return tasks, uses


# A like table with shorter periods, down to where the verdict is still yes, with some deadlines at the bounds.
def tightened(rng, tasks, uses):
    bounds = bounds_of(tasks, uses)
    for _ in range(3 * len(tasks)):
        at = rng.randrange(len(tasks))
        least = bounds[tasks[at].priority]
        t = within(rng, least, min(2 * least, tasks[at].t))
        shorter = tasks[:at] + [replace(tasks[at], d=t, t=t)] + tasks[at + 1:]
        found = bounds_of(shorter, uses)
        if found is not None:
            tasks, bounds = shorter, found
    tasks = [replace(task, d=pick(rng, [task.d, bounds[task.priority]])) for task in tasks]
    return (tasks, uses), bounds_of(tasks, uses)


# A small table with verdict yes, and its bounds.
def good_table(rng, settings):
    while True:
        tasks, uses = small_table(rng, settings)
        if bounds_of(tasks, uses) is not None:
            return tightened(rng, tasks, uses)
