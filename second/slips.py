"""Analyses with one slip each: rules that must not pass for those of the scope document."""

from analysis import Analysed, Words, rounded_up


class SleepAndJitter(Words):
    # Jitter is charged to a task whose sleep is charged.
    def with_sleep(self, j, t, v):
        task = self.tasks[j]
        return rounded_up(t + v[j] - task.c, task.t) * (task.c + task.s)


class NoJitter(Words):
    # The value of a higher task is left out.
    def with_jitter(self, j, t, v):
        return rounded_up(t, self.tasks[j].t) * self.tasks[j].c


class JitterFromDeadline(Words):
    # The deadline stands where the value should.
    def with_jitter(self, j, t, v):
        return super().with_jitter(j, t, [task.d for task in self.tasks])


class JitterWithoutC(Words):
    # C is not taken off the value.
    def with_jitter(self, j, t, v):
        return rounded_up(t + v[j], self.tasks[j].t) * self.tasks[j].c


class JitterLessSleep(Words):
    # S is taken off the value too.
    def with_jitter(self, j, t, v):
        task = self.tasks[j]
        return rounded_up(t + v[j] - task.c - task.s, task.t) * task.c


class AlwaysJitter(Words):
    # No sleep is ever charged.
    def sleep_is_charged(self, i, j):
        return False


class AlwaysSleep(Words):
    # Every higher task's sleep is charged.
    def sleep_is_charged(self, i, j):
        return True


class StrictSetting(Words):
    # The sleep of a task whose setting equals the priority is not charged.
    def sleep_is_charged(self, i, j):
        return self.tasks[j].setting > self.tasks[i].priority


class NoSleepInCharge(Words):
    # A task whose sleep should be charged adds C alone.
    def with_sleep(self, j, t, v):
        return rounded_up(t, self.tasks[j].t) * self.tasks[j].c


class NoCeilings(Words):
    # Every resource conflicts.
    def conflicts(self, i, resource):
        return True


class StrictCeiling(Words):
    # A ceiling equal to the priority does not conflict.
    def conflicts(self, i, resource):
        return self.ceiling(resource) > self.tasks[i].priority


class OwnResources(Words):
    # Only resources that the task itself uses conflict.
    def conflicts(self, i, resource):
        return any(use.resource == resource and use.priority == self.tasks[i].priority for use in self.uses)


class Smallest(Words):
    # The smallest sections are summed.
    def largest(self, i, x, t, v):
        return sum(sorted(self.bag(i, t, v))[:x])


class OnlyExtra(Words):
    # Only B0 is counted.
    def blocking(self, i, t, v):
        return self.extra_block(i)


class ExtraManyTimes(Words):
    # B0 is counted X + 1 times.
    def blocking(self, i, t, v):
        x = self.tasks[i].x
        return max(self.largest(i, x + 1, t, v), (x + 1) * self.extra_block(i) + self.largest(i, x, t, v))


class OnlyExtraManyTimes(Words):
    # B0 is counted X + 1 times and nothing else is.
    def blocking(self, i, t, v):
        return (self.tasks[i].x + 1) * self.extra_block(i)


class NoExtra(Words):
    # B0 is left out.
    def extra_block(self, i):
        return 0


class AlwaysExtra(Words):
    # Only the second form of blocking is used.
    def blocking(self, i, t, v):
        return self.extra_block(i) + self.largest(i, self.tasks[i].x, t, v)


class ExtraAndOneMore(Words):
    # B0 is put on top of X + 1 sections.
    def blocking(self, i, t, v):
        return self.extra_block(i) + self.largest(i, self.tasks[i].x + 1, t, v)


class ExtraFromMiddle(Words):
    # B0 looks at all lower tasks.
    def outside(self, i):
        return self.lower(i)


class MiddleWithSetting(Words):
    # A task whose priority is the setting itself is in the middle set.
    def middle(self, i):
        return [j for j in self.lower(i) if self.tasks[j].priority >= self.tasks[i].setting]


class AllMiddle(Words):
    # Every lower task is in the middle set.
    def middle(self, i):
        return self.lower(i)


class FloorInBag(Words):
    # The job count of the bag is rounded down.
    def middle_jobs(self, j, t, v):
        return (t + v[j]) // self.tasks[j].t


class FloorAndOneInBag(Words):
    # The job count of the bag is rounded down and one is added.
    def middle_jobs(self, j, t, v):
        return (t + v[j]) // self.tasks[j].t + 1


class NoValueInBag(Words):
    # The value of a middle task is left out.
    def middle_jobs(self, j, t, v):
        return rounded_up(t, self.tasks[j].t)


class DeadlineInBag(Words):
    # The deadline stands where the value of a middle task should.
    def middle_jobs(self, j, t, v):
        return rounded_up(t + self.tasks[j].d, self.tasks[j].t)


class FloorWithSleep(Words):
    # The job count of a task with its sleep charged is rounded down.
    def with_sleep(self, j, t, v):
        task = self.tasks[j]
        return t // task.t * (task.c + task.s)


class FloorAndOneWithSleep(Words):
    # The same, and one is added.
    def with_sleep(self, j, t, v):
        task = self.tasks[j]
        return (t // task.t + 1) * (task.c + task.s)


class FloorWithJitter(Words):
    # The job count of a task with jitter is rounded down.
    def with_jitter(self, j, t, v):
        task = self.tasks[j]
        return (t + v[j] - task.c) // task.t * task.c


class FloorAndOneWithJitter(Words):
    # The same, and one is added.
    def with_jitter(self, j, t, v):
        task = self.tasks[j]
        return ((t + v[j] - task.c) // task.t + 1) * task.c


class NumberIgnored(Words):
    # One section a job, whatever N says.
    def repeats(self, use, j, t, v):
        return self.middle_jobs(j, t, v)


class JobsIgnored(Words):
    # One job of each middle task.
    def repeats(self, use, j, t, v):
        return use.n


class RepeatsInByte(Words):
    # The repeats are kept in eight bits.
    def repeats(self, use, j, t, v):
        return super().repeats(use, j, t, v) % 2**8


class RepeatsInTwoBytes(Words):
    # The repeats are kept in sixteen bits.
    def repeats(self, use, j, t, v):
        return super().repeats(use, j, t, v) % 2**16


class RightSideInFourBytes(Words):
    # The right side is kept in 32 bits.
    def right_side(self, i, t, v):
        return super().right_side(i, t, v) % 2**32


class OneRound(Words):
    # The first round is the last.
    def answer(self):
        v = [task.d for task in self.tasks]
        bounds = self.one_round(v)
        return Analysed(v, bounds, self.evaluations)


class StopWhenBounded(Words):
    # Rounds stop once every task is bounded.
    def answer(self):
        v = [task.d for task in self.tasks]
        while True:
            before = list(v)
            bounds = self.one_round(v)
            if v == before or None not in bounds:
                return Analysed(v, bounds, self.evaluations)


class ReplacedAfterRound(Words):
    # Smaller bounds are put into v when the round is over.
    def one_round(self, v):
        bounds = [self.bound(i, v) for i in range(len(self.tasks))]
        v[:] = [old if new is None else min(old, new) for old, new in zip(v, bounds)]
        return bounds


class RisingPriority(Words):
    # Tasks are taken from the lowest up.
    def one_round(self, v):
        bounds = [None] * len(self.tasks)
        for i in reversed(range(len(self.tasks))):
            bounds[i] = self.bound(i, v)
            v[i] = v[i] if bounds[i] is None else min(v[i], bounds[i])
        return bounds


class FromPeriods(Words):
    # v starts at the periods.
    def answer(self):
        v = [task.t for task in self.tasks]
        while True:
            before = list(v)
            bounds = self.one_round(v)
            if v == before:
                return Analysed(v, bounds, self.evaluations)


class FromBelow(Words):
    # v starts low and rises to the least vector that agrees.
    def answer(self):
        v = [min(task.c + task.s, task.d) for task in self.tasks]
        while True:
            before = list(v)
            bounds = [self.bound(i, v) for i in range(len(v))]
            v = [task.d if bound is None else bound for task, bound in zip(self.tasks, bounds)]
            if v == before:
                return Analysed(v, bounds, self.evaluations)


class FromOne(Words):
    # The search for a bound starts at 1.
    def bound(self, i, v):
        task = self.tasks[i]
        t = 1
        while t <= task.d:
            self.count()
            right = self.right_side(i, t, v)
            if right == t:
                return t
            t = right
        return None


SLIPS = [rule for rule in list(globals().values())
         if isinstance(rule, type) and issubclass(rule, Words) and rule is not Words]
