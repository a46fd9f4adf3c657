"""Tests of who runs, written from the scope document's rules: eligible jobs on made-up states and in random lists."""

import random
import unittest

from call_lists import pressing_call, sleepers_table
from scheduler import (ASLEEP, NO_JOB, READY, WAITING, ceiling, changed, complete, eligible, lock, places, release,
                       running_place, suspend, system_priority, unlock)
from scheduler_fixtures import made, rules, statuses, steps

# A sleeper that makes the system priority 5.
SLEEPER = rules(9, 5), {"status": ASLEEP, "started": True, "next": 1}
# A ready job without a held mark.
FREE = {"status": READY, "next": 1}
# A ready job with a held mark.
HOLDER = {**FREE, "held": 1}


class Eligible(unittest.TestCase):
    def test_above_the_system_priority_or_a_holder(self):
        for priority, values, right in [(6, FREE, True), (5, FREE, False), (1, FREE, False), (6, HOLDER, True),
                                        (5, HOLDER, True), (4, HOLDER, True), (1, HOLDER, True)]:
            state = made(SLEEPER, (rules(priority, r1=1), values))
            self.assertEqual(system_priority(state), 5)
            self.assertEqual(eligible(state, 1, 5), right)
            self.assertEqual(running_place(state), 1 if right else None)

    def test_the_mark_alone_tells_who_holds(self):
        for mark in (1, 2, 16, 17, 255):
            for sections in ([], [(0, 1)], [(1, 1)], [(1, 1), (0, 1)]):
                state = {**made(SLEEPER, (rules(3, r1=1), {**FREE, "held": mark})), "open": sections}
                self.assertEqual(running_place(state), 1)
                self.assertIsNone(running_place(changed(state, 1, held=0)))

    def test_a_holder_that_is_not_ready_does_not_run(self):
        for status in (NO_JOB, WAITING, ASLEEP):
            state = made(SLEEPER, (rules(8, r1=1), {**HOLDER, "status": status}), (rules(3), FREE), (rules(2), HOLDER))
            self.assertEqual(running_place(state), 3)
            self.assertIsNone(running_place(changed(state, 3, held=0)))

    def test_the_highest_of_the_eligible_runs(self):
        state = made((rules(2), HOLDER), (rules(7), FREE), (rules(5), FREE), SLEEPER, (rules(3), HOLDER),
                     (rules(4), FREE))
        self.assertEqual(running_place(state), 1)
        state = changed(state, 1, status=NO_JOB)
        self.assertEqual(running_place(state), 4)
        self.assertEqual(running_place(changed(state, 4, held=0)), 0)
        self.assertEqual(running_place(changed(state, 2, held=1)), 2)

    def test_the_first_that_is_ready_and_eligible_counts(self):
        state = made((rules(4), FREE), (rules(4), {**HOLDER, "status": WAITING}), SLEEPER,
                     (rules(4), {**HOLDER, "next": 8}), (rules(4), HOLDER))
        self.assertEqual(running_place(state), 3)
        self.assertEqual(release(state, 99)[:2], (11, (4, 7)))
        self.assertEqual(running_place(changed(state, 3, held=0)), 4)
        self.assertEqual(running_place(changed(state, 2, status=NO_JOB)), 0)

    def test_who_sleeps_or_waits_counts_for_the_system_priority(self):
        for status, place in (ASLEEP, 1), (WAITING, 1), (NO_JOB, 2):
            state = made((SLEEPER[0], {**SLEEPER[1], "status": status}), (rules(3), HOLDER), (rules(4), FREE))
            self.assertEqual(running_place(state), place)


class CallsOfAHolder(unittest.TestCase):
    # A holder below the system priority, with its section open.
    def setUp(self):
        self.state = made(SLEEPER, (rules(3, 0, 1, r1=2), HOLDER), (rules(2), FREE), sections=[(1, 1)])

    def test_an_accepted_call_starts_it(self):
        state = changed(self.state, 2, status=NO_JOB)
        refusal, job, after = release(state, 2)
        self.assertEqual((refusal, job, statuses(after)), (0, (3, 0), [ASLEEP, READY, WAITING]))
        self.assertEqual([after["entries"][place]["started"] for place in places(after)], [True, True, False])

    def test_refusals_name_it_and_start_nobody(self):
        for answer, refusal in [(lock(self.state, 3, 0, 1), 15), (suspend(self.state, 3, 0), 18),
                                (complete(self.state, 3, 0), 18), (unlock(self.state, 3, 0, 2), 17),
                                (complete(self.state, 2, 0), 13), (complete(self.state, 9, 0), 13)]:
            self.assertEqual(answer, (refusal, (3, 0), self.state))

    def test_after_its_unlock_it_stands_still(self):
        for sections in ([], [(1, 1)]):
            refusal, job, after = unlock({**self.state, "open": sections}, 3, 0, 1)
            self.assertEqual((refusal, job, after["open"]), (0, None, []))
            self.assertEqual(after["entries"][1], {**self.state["entries"][1], "held": 0})
            self.assertEqual(complete(after, 3, 0), (13, None, after))

    def test_the_next_holder_follows(self):
        for sections in ([], [(1, 1)], [(2, 1), (1, 1)]):
            state = changed({**self.state, "open": sections}, 2, held=1)
            self.assertEqual(unlock(state, 3, 0, 1)[:2], (0, (2, 0)))


class RandomCalls(unittest.TestCase):
    # Steps of random calls in which tasks sleep above others with sections.
    def steps(self, seed, lists, length):
        rng = random.Random(seed)
        for _ in range(lists):
            table = sleepers_table(rng, 1 + rng.randrange(3), 2 + rng.randrange(4))
            yield from steps(rng, table, pressing_call, length)

    def test_somebody_runs_while_a_section_is_open(self):
        below = 0
        for *_, job, after in self.steps(1, 60, 80):
            if after["open"]:
                self.assertIsNotNone(job)
                below += job[0] <= system_priority(after)
        self.assertGreater(below, 200)

    def test_who_is_not_above_the_system_priority_runs_to_the_end_of_its_section_only(self):
        found = 0
        for state, step, refusal, job, after in self.steps(2, 60, 80):
            place = running_place(state)
            if place is None or state["tasks"][place]["priority"] > system_priority(state):
                continue
            self.assertIn((place, state["entries"][place]["held"]), state["open"])
            self.assertTrue(refusal or step[0] in "rwu", step)
            if step[0] == "u" and refusal == 0:
                self.assertNotEqual(running_place(after), place)
                found += 1
        self.assertGreater(found, 50)

    def test_a_job_above_the_system_priority_waits_only_for_sections_that_reach_it(self):
        waits, passed = 0, 0
        for *_, job, after in self.steps(3, 60, 80):
            for place in places(after):
                priority = after["tasks"][place]["priority"]
                if job is None or job[0] >= priority or after["entries"][place]["status"] not in (READY, WAITING):
                    continue
                if priority > system_priority(after):
                    held = after["entries"][running_place(after)]["held"]
                    self.assertGreaterEqual(ceiling(after, held), priority)
                    waits += 1
                else:
                    passed += after["entries"][place]["status"] == READY
        self.assertGreater(waits, 50)
        self.assertGreater(passed, 50)


if __name__ == "__main__":
    unittest.main()
