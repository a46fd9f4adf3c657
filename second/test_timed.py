"""Tests of timed runs: where the verdict is yes and the jobs keep to the table, none of them is late."""

import random
import unittest
from collections import Counter
from dataclasses import replace
from unittest.mock import patch

import scheduler
from analysis_cases import from_rows
from call_files import call
from running_slips import eligible_above_only
from scheduler import set_up
from table_cases import pick
from tables import Accepted, read, table_bytes
from timed import AnyOrder, NoOrder, Run, a_plan, bounds_of, good_table, late, random_run, some_comings, to_spare
from timed import uses_of

# Tables in rows: priority, setting, X, C, S, D, T, then uses as resource, N, L.
AT_BOUNDS = from_rows([(2, 0, 1, 2, 1, 20, 20, (1, 1, 1)), (1, 0, 0, 4, 0, 20, 20, (1, 2, 1))])
HELD_BACK = from_rows([(3, 1, 1, 1, 3, 10, 10), (2, 0, 0, 1, 0, 4, 8, (1, 1, 1)), (1, 0, 0, 2, 0, 12, 12, (1, 1, 1))])
SECTION_LAST = from_rows([(3, 0, 0, 1, 0, 4, 4), (2, 0, 0, 1, 0, 9, 9, (1, 1, 1)), (1, 0, 0, 2, 0, 9, 9, (1, 1, 1))])
SLEEP_LAST = from_rows([(2, 0, 0, 1, 0, 3, 3), (1, 0, 1, 1, 1, 3, 3)])

# The former rule: a ready job is eligible only above the system priority, whether or not it holds a section.
FORMER = patch.object(scheduler, "eligible", eligible_above_only)
# Ticks in which the tasks of a random run go on coming.
LENGTH = 40


# A run in which the releases of an instant are called before the complete of work that ended at it.
class ReleasesFirst(Run):
    # All calls of an instant.
    def instant(self):
        while self.at_end() and (due := self.releases()):
            self.arrive(self.chosen(due))
        super().instant()


# A run of one job for each task that comes at instant 0, in this order.
def single(table, plans):
    return Run(*table, {priority: [(0, 0, plan)] for priority, plan in plans}).go()


# The instants at which the jobs of a run were over.
def overs(run):
    return {job.number: job.over for job in run.jobs}


# So many random tables with verdict yes and random runs on each: the table, its bounds and the run.
def runs(seed, settings, tables, many=4, kind=Run):
    rng = random.Random(seed)
    for _ in range(tables):
        table, bounds = good_table(rng, settings)
        for _ in range(many):
            yield table, bounds, random_run(rng, table, table, LENGTH, kind)


# What the jobs of a run break, found from the calls alone: T, C, S, X, N or L of the table; "u" or "w" for a complete
# with no tick after an unlock or a resume, and "order" for any other past the end of work or after a release at it.
def broken(table, calls):
    tasks, uses = table
    by_priority = {task.priority: task for task in tasks}
    most = {(use.priority, use.resource): use for use in uses}
    found, jobs, sections = set(), {}, Counter()
    state, named, now, released = set_up(table_bytes(tasks, uses))[2], None, 0, None
    for instant, kind, priority, *rest in calls:
        if named is not None and instant > now:
            jobs[named[0]]["work"] += instant - now
            jobs[named[0]]["since"] += instant - now
            jobs[named[0]]["last"] = instant
        now, task, job = instant, by_priority[priority], jobs.get(priority)
        if kind == "r":
            found |= {"T"} if job and instant - job["release"] < task.t else set()
            jobs[priority] = {"release": instant, "work": 0, "slept": 0, "sleeps": 0}
            released = instant
        elif kind == "l":
            sections[priority, *rest] += 1
            found |= {"N"} if sections[priority, *rest] > most[priority, rest[1]].n else set()
        elif kind == "u":
            found |= {"L"} if job["since"] > most[priority, rest[1]].l else set()
        elif kind == "s":
            job["sleeps"], job["slept"] = job["sleeps"] + 1, job["slept"] - instant
            found |= {"X"} if job["sleeps"] > task.x else set()
        elif kind == "w":
            job["slept"] += instant
            found |= {"S"} if job["slept"] > task.s else set()
        else:
            found |= {"C"} if job["work"] > task.c else set()
            found |= {job["call"]} if job["since"] == 0 else set()
            found |= {"order"} if job["since"] and (job["last"] < instant or released == instant) else set()
        if kind != "c":
            jobs[priority].update(since=0, call=kind)
        refusal, named, state = call(state, kind, priority, *rest)
        assert refusal == 0
    return found


class NamedRuns(unittest.TestCase):
    def test_over_just_at_the_bounds(self):
        bounds = bounds_of(*AT_BOUNDS)
        self.assertEqual(bounds, {2: 5, 1: 6})
        run = single(AT_BOUNDS, [(1, [("section", 1, 1), ("work", 1), ("section", 1, 1), ("work", 1)]),
                                 (2, [("work", 1), ("sleep", 1), ("work", 1)])])
        self.assertEqual(run.calls, [
            (0, "r", 1), (0, "l", 1, 0, 1), (0, "r", 2), (1, "u", 1, 0, 1), (2, "s", 2, 0), (3, "l", 1, 0, 1),
            (3, "w", 2, 0), (4, "u", 1, 0, 1), (5, "c", 2, 0), (6, "c", 1, 0)])
        self.assertEqual([to_spare(job, bounds) for job in run.jobs], [0, 0])
        self.assertEqual(broken(AT_BOUNDS, run.calls), set())

    # The run on the second table, whatever the rule.
    def held_back(self):
        return single(HELD_BACK, [(1, [("section", 1, 1), ("work", 1)]), (3, [("sleep", 3), ("work", 1)]),
                                  (2, [("work", 1)])])

    def test_late_under_the_former_rule(self):
        bounds = bounds_of(*HELD_BACK)
        self.assertEqual(bounds, {3: 4, 2: 3, 1: 8})
        with FORMER:
            run = self.held_back()
            self.assertEqual(broken(HELD_BACK, run.calls), set())
        self.assertEqual(run.calls, [
            (0, "r", 1), (0, "l", 1, 0, 1), (0, "r", 3), (0, "s", 3, 0), (0, "r", 2), (3, "w", 3, 0), (4, "c", 3, 0),
            (5, "u", 1, 0, 1), (6, "c", 2, 0), (7, "c", 1, 0)])
        self.assertEqual([job.number for job in late(run, bounds)], [(2, 0)])
        run = self.held_back()
        self.assertEqual(overs(run), {(3, 0): 4, (2, 0): 2, (1, 0): 5})
        self.assertEqual(late(run, bounds), [])


class RandomTables(unittest.TestCase):
    def test_tables_are_accepted_and_varied(self):
        rng, found = random.Random(1), Counter()
        for at in range(200):
            (tasks, uses), bounds = good_table(rng, at % 2 == 1)
            self.assertIsInstance(read(table_bytes(tasks, uses)), Accepted)
            self.assertTrue(all(bounds[task.priority] <= task.d for task in tasks))
            self.assertTrue(at % 2 or not any(task.setting for task in tasks))
            found["settings"] += any(task.setting for task in tasks)
            found["deadline below period"] += any(task.d < task.t for task in tasks)
            found["deadline at bound"] += any(task.d == bounds[task.priority] for task in tasks)
            found["shared"] += len({use.resource for use in uses}) < len(uses)
            found["sleeps"] += any(task.s for task in tasks)
        self.assertTrue(all(number > 50 for number in found.values()), found)

    def test_plans_keep_to_the_table(self):
        rng, found = random.Random(2), Counter()
        for _ in range(100):
            (tasks, uses), _ = good_table(rng, True)
            for task in tasks:
                plan = a_plan(rng, task, uses)
                ticks = Counter({"work": 0, "section": 0, "sleep": 0})
                for kind, length, *_ in plan:
                    ticks[kind] += length
                self.assertEqual(plan[-1][0], "work")
                self.assertLessEqual(ticks["work"] + ticks["section"], task.c)
                found["C in full"] += ticks["work"] + ticks["section"] == task.c
                found["S in full"] += ticks["sleep"] == task.s > 0
                found["L in full"] += any(("section", use.l, use.resource) in plan
                                          for use in uses_of(uses, task.priority))
                found["no ticks inside"] += any(part[:2] == ("section", 0) for part in plan)
                found["no ticks of sleep"] += ("sleep", 0) in plan
        self.assertTrue(all(number > 20 for number in found.values()), found)


class Bounds(unittest.TestCase):
    # The counts of random runs in which no job may be late.
    def counts(self, *numbers, **more):
        found = Counter()
        for at, (table, bounds, run) in enumerate(runs(*numbers, **more)):
            self.assertEqual(late(run, bounds), [], (table, run.calls))
            if at % 8 == 0:
                self.assertEqual(broken(table, run.calls), set())
            periods = {task.priority: task.t for task in table[0]}
            releases = {job.number: job.release for job in run.jobs}
            for job in run.jobs:
                exact = to_spare(job, bounds) == 0
                before = releases.get((job.number[0], job.number[1] - 1))
                found.update({"jobs": 1, "blocked": job.blocked > 0, "sleeps": job.sleeps, "at the bound": exact,
                              "blocked, at the bound": exact and job.blocked > 0,
                              "not the highest, at the bound": exact and job.number[0] < max(bounds),
                              "T apart": before is not None and job.release - before == periods[job.number[0]]})
        return found

    # See that runs have something of everything.
    def assert_full(self, found, jobs):
        self.assertGreater(found["jobs"], jobs)
        self.assertTrue(all(number >= 5 for number in found.values()), found)
        self.assertGreater(found["sleeps"], found["jobs"] // 4)
        self.assertGreater(found["T apart"], found["jobs"] // 4)

    def test_no_job_is_late_without_settings(self):
        self.assert_full(self.counts(3, False, 80), 4000)

    def test_no_job_is_late_with_settings(self):
        self.assert_full(self.counts(4, True, 80), 4000)

    def test_no_job_is_late_in_any_order(self):
        self.assert_full(self.counts(5, False, 40, kind=AnyOrder), 2000)
        self.assert_full(self.counts(6, True, 40, kind=AnyOrder), 2000)

    def test_former_rule_is_enough_without_settings(self):
        with FORMER:
            self.assert_full(self.counts(7, False, 40), 2000)

    def test_former_rule_makes_jobs_late_with_settings(self):
        found = 0
        with FORMER:
            for table, bounds, run in runs(24, True, 50):
                if late(run, bounds):
                    self.assertEqual(broken(table, run.calls), set())
                    self.assertTrue(any(task.setting for task in table[0]))
                    found += 1
        self.assertGreater(found, 1)


class Work(unittest.TestCase):
    # A run of plans that end with a section or a sleep where they have one: the work after it comes first.
    def ends_inside(self, rng, table):
        tasks, uses = table
        comings = {task.priority: [(ticks, patience, plan[-1:] + plan[:-1]) for ticks, patience, plan
                                   in some_comings(rng, task, uses, LENGTH)] for task in tasks}
        return NoOrder(tasks, uses, comings, rng).go()

    def test_no_work_is_late_though_jobs_may_be(self):
        rng, found = random.Random(8), Counter()
        for at in range(400):
            if at % 4 == 0:
                table, bounds = good_table(rng, at % 8 == 4)
            for job in self.ends_inside(rng, table).jobs:
                self.assertLessEqual(job.done_at, job.release + bounds[job.number[0]], table)
                found.update({"jobs": 1, "work just at the bound": job.done_at == job.release + bounds[job.number[0]],
                              "over later": to_spare(job, bounds) < 0, "sleeps": job.sleeps})
        self.assertGreater(found["jobs"], 5000)
        self.assertTrue(all(found.values()), found)


class Assumptions(unittest.TestCase):
    # Look for a run that breaks one assumption alone and has a late job: of another task, where one task is altered.
    def look(self, seed, letter, alter=None, kind=Run, tables=400):
        rng = random.Random(seed)
        for at in range(tables):
            table, bounds = good_table(rng, at % 2 == 1)
            priority = pick(rng, table[0]).priority
            kept = table if alter is None else alter(*table, priority)
            if alter is not None and kept == table:
                continue
            for _ in range(4):
                run = random_run(rng, table, kept, LENGTH, kind)
                others = [job for job in late(run, bounds) if alter is None or job.number[0] != priority]
                if others and broken(table, run.calls) == {letter}:
                    return
        self.fail("no job was late")

    # Other figures for one task.
    def with_task(self, **changes):
        return lambda tasks, uses, priority: ([replace(task, **{name: change(task) for name, change in changes.items()})
                                               if task.priority == priority else task for task in tasks], uses)

    # Sections of one task a tick longer.
    def longer_sections(self, tasks, uses, priority):
        return tasks, [replace(use, l=use.l + 1) if use.priority == priority else use for use in uses]

    def test_releases_a_deadline_apart(self):
        self.look(11, "T", self.with_task(t=lambda task: task.d))

    def test_sections_a_tick_longer(self):
        self.look(12, "L", self.longer_sections)

    def test_a_tick_more_of_sleep(self):
        self.look(13, "S", self.with_task(s=lambda task: task.s + (task.x > 0)))

    def test_a_tick_more_of_work(self):
        self.look(14, "C", self.with_task(c=lambda task: task.c + 1))

    def test_releases_before_the_complete(self):
        self.look(15, "order", kind=ReleasesFirst)

    def test_no_work_after_the_last_section(self):
        self.assertEqual(bounds_of(*SECTION_LAST), {3: 1, 2: 3, 1: 4})
        self.assertEqual(broken(SECTION_LAST, [
            (0, "r", 3), (0, "r", 1), (1, "c", 3, 0), (2, "l", 1, 0, 1), (2, "r", 2), (3, "u", 1, 0, 1), (4, "c", 2, 0),
            (4, "r", 3), (5, "c", 3, 1), (5, "c", 1, 0)]), {"u"})

    def test_no_work_after_the_last_sleep(self):
        bounds = bounds_of(*SLEEP_LAST)
        self.assertEqual(bounds, {2: 1, 1: 3})
        run = Run(*SLEEP_LAST, {2: [(0, 0, [("work", 1)]), (3, 0, [("work", 1)])],
                                1: [(0, 0, [("work", 1), ("sleep", 1)])]}).go()
        self.assertEqual(run.calls, [(0, "r", 2), (0, "r", 1), (1, "c", 2, 0), (2, "s", 1, 0), (3, "r", 2),
                                     (3, "w", 1, 0), (4, "c", 2, 1), (4, "c", 1, 0)])
        self.assertEqual([job.number for job in late(run, bounds)], [(1, 0)])
        self.assertEqual(broken(SLEEP_LAST, run.calls), {"w"})


if __name__ == "__main__":
    unittest.main()
