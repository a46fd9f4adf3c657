"""Tests of scheduler.py, written from the scope document's rules: named lists, setting up, refusals, serials."""

import unittest

from call_cases import (AFTER_SLEEP, AFTER_SLEEP_TABLE, BESIDE_K, FAIR, FAIR_TABLE, K, L, TWO_HELD, TWO_HELD_TABLE,
                        refused_tables)
from call_files import call
from scheduler import (ASLEEP, NO_JOB, PLACES, READY, SERIALS, WAITING, ceiling, changed, complete, fresh_state,
                       release, set_up, system_ceiling, system_priority, task_rules)
from tables import Refused, read
from scheduler_fixtures import A, B, fresh, rules, made, follow, statuses


class CheckedLists(unittest.TestCase):
    # Every call of a list is accepted, and these priorities run, None for idle.
    def runs(self, table, calls, priorities):
        refusals, jobs, state = follow(fresh(table), calls)
        self.assertEqual(refusals, [0] * len(calls))
        self.assertEqual(jobs, [None if priority is None else (priority, 0) for priority in priorities])
        return state

    def test_k(self):
        state = self.runs(A, K, [1, 1, 1, 1, 3, 2, 1, 1, 1, 3])
        self.assertEqual(call(state, *BESIDE_K), (13, (3, 0), state))

    def test_k_with_the_13_inside(self):
        state = self.runs(A, K[:5], [1, 1, 1, 1, 3])
        self.assertEqual(call(state, *BESIDE_K), (13, (3, 0), state))

    def test_l(self):
        self.runs(B, L, [1, 1, 1, 3, None, 2, None, 3, 1])

    def test_a_holder_goes_on_through_a_sleep(self):
        state = self.runs(FAIR_TABLE, FAIR[:5], [1, 1, 3, 1, 1])
        self.assertEqual(statuses(state), [ASLEEP, WAITING, READY])
        self.runs(FAIR_TABLE, FAIR, [1, 1, 3, 1, 1, 2, None, 3, 1, None])

    def test_two_sections_in_one_wait(self):
        state = self.runs(TWO_HELD_TABLE, TWO_HELD[:7], [1, 1, 2, 2, 4, 4, 2])
        self.assertEqual((statuses(state), system_priority(state)), ([ASLEEP, READY, READY, READY], 3))
        self.runs(TWO_HELD_TABLE, TWO_HELD, [1, 1, 2, 2, 4, 4, 2, 1, None, 4, 3, 2, 1, None])

    def test_a_holder_goes_on_after_a_sleep(self):
        state = self.runs(AFTER_SLEEP_TABLE, AFTER_SLEEP[:7], [1, 1, 2, 1, 3, 3, 1])
        self.assertEqual((statuses(state), system_priority(state)), ([ASLEEP, READY, READY], 2))
        self.runs(AFTER_SLEEP_TABLE, AFTER_SLEEP, [1, 1, 2, 1, 3, 3, 1, None, 3, 2, 1, None])

    # After each call the system ceiling and the system priority are these.
    def system_values(self, table, calls, values):
        state = fresh(table)
        found = []
        for step in calls:
            state = call(state, *step)[2]
            found.append((system_ceiling(state), system_priority(state)))
        self.assertEqual(found, values)

    def test_system_values(self):
        self.system_values(A, K, [(0, 0), (3, 0), (3, 0), (3, 0), (0, 0), (0, 0), (0, 0), (3, 0), (3, 0), (0, 0)])
        self.system_values(B, L, [(0, 0), (3, 0), (3, 0), (0, 1), (0, 1), (0, 1), (0, 1), (0, 1), (0, 0)])
        self.system_values(FAIR_TABLE, FAIR, [(0, 0), (2, 0), (2, 1), (2, 1), (2, 1), (0, 1), (0, 1), (0, 1), (0, 0),
                                              (0, 0)])


class SettingUp(unittest.TestCase):
    def test_accepted(self):
        number, place, state = set_up(A)
        self.assertEqual((number, place, state["count"], state["open"]), (0, 0, 3, []))
        self.assertEqual(state["tasks"][:4], [rules(3, 0, 1, r1=1), rules(2), rules(1, r1=2), task_rules()])
        self.assertEqual([len(state["tasks"]), len(state["entries"])], [PLACES, PLACES])
        self.assertTrue(all(entry["next"] == 0 and entry["status"] == NO_JOB for entry in state["entries"]))
        self.assertEqual([ceiling(state, resource) for resource in (0, 1, 2, 16, 17)], [0, 3, 0, 0, 0])

    def test_refused(self):
        for table in refused_tables():
            answer = read(table)
            self.assertIsInstance(answer, Refused)
            self.assertEqual(set_up(table), (answer.number, answer.place, fresh_state([])))
        self.assertEqual(set_up(b"")[:2], (1, 0))
        self.assertEqual(set_up(A + b"\0")[:2], (7, 77))

    def test_calls_without_tasks(self):
        state = fresh(b"")
        for kind, numbers, refusal in [("r", (0,), 11), ("r", (3,), 11), ("l", (0, 0, 1), 13), ("u", (0, 0, 0), 13),
                                       ("s", (0, 0), 13), ("c", (0, 0), 13), ("w", (0, 0), 20)]:
            self.assertEqual(call(state, kind, *numbers), (refusal, None, state))


class Refusals(unittest.TestCase):
    # A call is refused so after these calls on a table, names the running job, and leaves the state.
    def refuses(self, table, before, step, refusal, job):
        refusals, _, state = follow(fresh(table), before)
        self.assertEqual(refusals, [0] * len(before))
        self.assertEqual(call(state, *step), (refusal, job, state))

    def test_11_and_12(self):
        for priority in (0, 4, 255):
            self.refuses(A, [("r", 1)], ("r", priority), 11, (1, 0))
        self.refuses(A, [("r", 1)], ("r", 1), 12, (1, 0))
        self.refuses(A, [("r", 3), ("s", 3, 0)], ("r", 3), 12, None)
        self.refuses(A, K[:3], ("r", 3), 12, (1, 0))
        self.refuses(B, L[:6], ("r", 1), 12, (2, 0))

    def test_13(self):
        for step in (("l", 1, 0, 1), ("u", 1, 0, 1), ("s", 1, 0), ("c", 1, 0), ("l", 1, 0, 0), ("u", 1, 0, 0)):
            self.refuses(A, [], step, 13, None)
            self.refuses(A, [("r", 1), ("r", 3)], step, 13, (3, 0))
            self.refuses(A, [("r", 1), ("c", 1, 0), ("r", 1)], step, 13, (1, 1))
        self.refuses(B, L[:5], ("c", 1, 0), 13, None)

    def test_14(self):
        for resource in (0, 2, 16, 17, 255):
            self.refuses(A, [("r", 1)], ("l", 1, 0, resource), 14, (1, 0))
            self.refuses(A, K[:2], ("l", 1, 0, resource), 14, (1, 0))
        self.refuses(A, [("r", 2)], ("l", 2, 0, 1), 14, (2, 0))

    def test_15_and_16(self):
        self.refuses(A, K[:2], ("l", 1, 0, 1), 15, (1, 0))
        twice = [("r", 1)] + [("l", 1, 0, 1), ("u", 1, 0, 1)] * 2
        self.refuses(A, twice, ("l", 1, 0, 1), 16, (1, 0))
        self.refuses(A, twice[:-1], ("l", 1, 0, 1), 15, (1, 0))

    def test_counts_begin_afresh(self):
        twice = [("r", 1)] + [("l", 1, 0, 1), ("u", 1, 0, 1)] * 2 + [("c", 1, 0), ("r", 1), ("l", 1, 1, 1)]
        self.assertEqual(follow(fresh(A), twice)[0], [0] * 8)
        again = [("r", 3), ("s", 3, 0), ("w", 3, 0), ("c", 3, 0), ("r", 3), ("s", 3, 1)]
        self.assertEqual(follow(fresh(A), again)[0], [0] * 6)

    def test_17(self):
        for resource in (0, 1, 2, 17, 255):
            self.refuses(A, [("r", 1)], ("u", 1, 0, resource), 17, (1, 0))
        for resource in (0, 2, 17, 255):
            self.refuses(A, K[:2], ("u", 1, 0, resource), 17, (1, 0))

    def test_18_and_19(self):
        self.refuses(A, [("r", 3), ("l", 3, 0, 1)], ("s", 3, 0), 18, (3, 0))
        self.refuses(A, K[:2], ("s", 1, 0), 18, (1, 0))
        self.refuses(A, K[:2], ("c", 1, 0), 18, (1, 0))
        self.refuses(A, [("r", 1)], ("s", 1, 0), 19, (1, 0))
        self.refuses(A, [("r", 3), ("s", 3, 0), ("w", 3, 0)], ("s", 3, 0), 19, (3, 0))

    def test_20(self):
        for number in ((3, 0), (3, 65535), (1, 0), (2, 0), (0, 0)):
            self.refuses(A, [("r", 1)], ("w", *number), 20, (1, 0))
        for number in ((3, 1), (3, 65535), (2, 0)):
            self.refuses(A, [("r", 3), ("s", 3, 0)], ("w", *number), 20, None)

    def test_26(self):
        state = {**made((rules(1), {"status": READY})), "count": 33}
        for kind, *numbers in ("r", 1), ("w", 1, 0), ("l", 1, 65535, 1), ("u", 1, 65535, 0), ("s", 1, 0), ("c", 1, 0):
            self.assertEqual(call(state, kind, *numbers), (26, None, state))


class Serials(unittest.TestCase):
    def test_from_0_one_by_one(self):
        state = fresh(A)
        for serial in range(5):
            refusal, job, state = release(state, 2)
            self.assertEqual((refusal, job), (0, (2, serial)))
            state = complete(state, 2, serial)[2]

    def test_past_the_last(self):
        state = changed(fresh(A), 1, next=SERIALS - 2)
        for serial in (SERIALS - 2, SERIALS - 1, 0, 1):
            refusal, job, state = release(state, 2)
            self.assertEqual((refusal, job), (0, (2, serial)))
            self.assertEqual(complete(state, 2, (serial + 1) % SERIALS)[0], 13)
            state = complete(state, 2, serial)[2]

    def test_each_task_has_its_own(self):
        jobs = follow(fresh(A), [("r", 1), ("c", 1, 0), ("r", 1), ("r", 2), ("c", 2, 0), ("c", 1, 1), ("r", 2)])[1]
        self.assertEqual(jobs, [(1, 0), None, (1, 1), (2, 0), (1, 1), None, (2, 1)])

    def test_a_refused_release_takes_none(self):
        state = follow(fresh(A), [("r", 1), ("r", 1), ("r", 1)])[2]
        self.assertEqual(state["entries"][2]["next"], 1)
