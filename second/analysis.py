"""The analysis of task tables: equations, rounds, and the lines that the bounds program prints."""

from dataclasses import dataclass, replace

from tables import Refused, read

ALLOWANCE = 100_000


# An analysis that came to its end; a bound is None where the answer is "none".
@dataclass(frozen=True)
class Analysed:
    vector: list
    bounds: list
    evaluations: int


# Says that more right sides were evaluated than the caller allows.
class Spent(Exception):
    pass


# A quotient rounded up.
def rounded_up(number, divisor):
    return -(-number // divisor)


# The equations and the round as they read; i and j are places in the list of tasks.
class Words:
    # Start with no right side evaluated; no allowance means that any total will do.
    def __init__(self, tasks, uses, allowance=None):
        self.tasks = tasks
        self.uses = uses
        self.allowance = allowance
        self.evaluations = 0

    # The ceiling of a resource: the highest priority among tasks with a use of it.
    def ceiling(self, resource):
        return max(use.priority for use in self.uses if use.resource == resource)

    # The places of the higher tasks.
    def higher(self, i):
        return [j for j, task in enumerate(self.tasks) if task.priority > self.tasks[i].priority]

    # The places of the lower tasks.
    def lower(self, i):
        return [j for j, task in enumerate(self.tasks) if task.priority < self.tasks[i].priority]

    # The middle set: the lower tasks with a priority above the system setting of i.
    def middle(self, i):
        return [j for j in self.lower(i) if self.tasks[j].priority > self.tasks[i].setting]

    # The lower tasks outside the middle set.
    def outside(self, i):
        return [j for j in self.lower(i) if j not in self.middle(i)]

    # Whether the ceiling of a resource is at or above the priority of i.
    def conflicts(self, i, resource):
        return self.ceiling(resource) >= self.tasks[i].priority

    # The uses of task j, over resources that conflict with i.
    def conflicting_uses(self, i, j):
        return [use for use in self.uses
                if use.priority == self.tasks[j].priority and self.conflicts(i, use.resource)]

    # How many jobs of a middle task count for length t.
    def middle_jobs(self, j, t, v):
        return rounded_up(t + v[j], self.tasks[j].t)

    # How often the length of a use by task j stands in the bag.
    def repeats(self, use, j, t, v):
        return use.n * self.middle_jobs(j, t, v)

    # The section bag of i for length t, as a list of lengths.
    def bag(self, i, t, v):
        lengths = []
        for j in self.middle(i):
            for use in self.conflicting_uses(i, j):
                lengths += [use.l] * self.repeats(use, j, t, v)
        return lengths

    # The sum of the x largest in the bag, or of all if there are fewer.
    def largest(self, i, x, t, v):
        return sum(sorted(self.bag(i, t, v), reverse=True)[:x])

    # B0: the largest section length of a lower task outside the middle set, or 0.
    def extra_block(self, i):
        return max([use.l for j in self.outside(i) for use in self.conflicting_uses(i, j)], default=0)

    # The larger of the two forms of blocking.
    def blocking(self, i, t, v):
        x = self.tasks[i].x
        return max(self.largest(i, x + 1, t, v), self.extra_block(i) + self.largest(i, x, t, v))

    # What a higher task adds when its sleep is charged.
    def with_sleep(self, j, t, v):
        task = self.tasks[j]
        return rounded_up(t, task.t) * (task.c + task.s)

    # What any other higher task adds, with jitter.
    def with_jitter(self, j, t, v):
        task = self.tasks[j]
        return rounded_up(t + v[j] - task.c, task.t) * task.c

    # Whether the sleep of the higher task j is charged to i.
    def sleep_is_charged(self, i, j):
        return self.tasks[j].setting >= self.tasks[i].priority

    # What the higher task j adds to the right side of i.
    def addition(self, i, j, t, v):
        return self.with_sleep(j, t, v) if self.sleep_is_charged(i, j) else self.with_jitter(j, t, v)

    # The right side of i at t.
    def right_side(self, i, t, v):
        own = self.tasks[i].c + self.tasks[i].s
        return own + self.blocking(i, t, v) + sum(self.addition(i, j, t, v) for j in self.higher(i))

    # Count one more right side, and stop everything once there are too many.
    def count(self):
        self.evaluations += 1
        if self.allowance is not None and self.evaluations > self.allowance:
            raise Spent

    # The bound of one task under v, found from C + S upwards, or None.
    def bound(self, i, v):
        task = self.tasks[i]
        t = task.c + task.s
        while t <= task.d:
            self.count()
            right = self.right_side(i, t, v)
            if right == t:
                return t
            t = right
        return None

    # One round: every task by falling priority, a smaller bound put into v at once.
    def one_round(self, v):
        bounds = []
        for i in range(len(self.tasks)):
            bounds.append(self.bound(i, v))
            if bounds[i] is not None and bounds[i] < v[i]:
                v[i] = bounds[i]
        return bounds

    # Rounds from the deadlines until one changes nothing.
    def answer(self):
        v = [task.d for task in self.tasks]
        while True:
            before = list(v)
            bounds = self.one_round(v)
            if v == before:
                return Analysed(v, bounds, self.evaluations)


# The same, with the bag as pairs of length and count and with what never changes kept.
class Quick(Words):
    # Find what depends on the table alone.
    def __init__(self, tasks, uses, allowance=None):
        super().__init__(tasks, uses, allowance)
        places = range(len(tasks))
        self.ceiling_of = {use.resource: super(Quick, self).ceiling(use.resource) for use in uses}
        self.higher_of = [super(Quick, self).higher(i) for i in places]
        self.extra_block_of = [super(Quick, self).extra_block(i) for i in places]
        self.sections_of = [self.sections(i) for i in places]

    # The uses in the bag of i with their owners, longest sections first.
    def sections(self, i):
        found = [(use, j) for j in self.middle(i) for use in self.conflicting_uses(i, j)]
        return sorted(found, key=lambda pair: pair[0].l, reverse=True)

    # The ceiling, as found at the start.
    def ceiling(self, resource):
        return self.ceiling_of[resource]

    # The higher tasks, as found at the start.
    def higher(self, i):
        return self.higher_of[i]

    # B0, as found at the start.
    def extra_block(self, i):
        return self.extra_block_of[i]

    # The sum of the x largest, taken from the pairs until x are taken.
    def largest(self, i, x, t, v):
        total = 0
        for use, j in self.sections_of[i]:
            if x == 0:
                break
            taken = min(x, self.repeats(use, j, t, v))
            total += taken * use.l
            x -= taken
        return total


# Analyse a table, with other system settings if they are given: the answer, or refusal 8.
def analyse(tasks, uses, settings=None, allowance=None, rules=Quick):
    if settings is not None:
        tasks = [replace(task, setting=setting) for task, setting in zip(tasks, settings, strict=True)]
    try:
        return rules(tasks, uses, allowance).answer()
    except Spent:
        return Refused(8, 0)


# The answer of one task as it is printed.
def answer_words(bound, conditional):
    if bound is None:
        return "none"
    return f"if {bound}" if conditional else f"bound {bound}"


# The text of an analysis that came to its end.
def report(tasks, answer):
    conditional = None in answer.bounds
    verdict = "no" if conditional else "yes"
    text = f"verdict {verdict} evaluations {answer.evaluations}\n"
    for task, bound in zip(tasks, answer.bounds):
        text += f"{task.priority} {answer_words(bound, conditional)} deadline {task.d}\n"
    return text


# The text that the bounds program prints for these bytes.
def lines(data, allowance=ALLOWANCE, rules=Quick):
    table = read(data)
    if isinstance(table, Refused):
        return f"refused {table.number} at {table.place}\n"
    answer = analyse(table.tasks, table.uses, allowance=allowance, rules=rules)
    if isinstance(answer, Refused):
        return f"refused {answer.number} at {answer.place}\n"
    return report(table.tasks, answer)
