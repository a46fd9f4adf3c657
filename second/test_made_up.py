"""Tests of scheduler.py on made-up states and on random calls, and of the case files."""

import copy
import random
import unittest

from call_files import burst, call, case_bytes, cases_in, play, state_numbers
from call_lists import call_table, next_call, pressing_call, sleepers_table
from made_up import made_up_list
from scheduler import (ASLEEP, NO_JOB, READY, RESOURCES, SERIALS, SLOTS, WAITING, ceiling, changed, complete, fit,
                       fresh_state, job_number, lock, places, release, resume, running_place, suspend,
                       system_ceiling, system_priority, unlock)
from scheduler_fixtures import A, fresh, rules, made, statuses, steps


class MadeUp(unittest.TestCase):
    def test_fit_and_unfit(self):
        one = made((rules(5, 4, r3=1), {}))
        for state, right in [
                (one, True), (fresh_state([]), True), ({**one, "open": [(0, 3)]}, True),
                ({**one, "open": [(0, 3)] * SLOTS}, True), ({**one, "open": [(0, 3)] * (SLOTS + 1)}, False),
                ({**one, "open": [(1, 3)]}, False), ({**one, "open": [(255, 3)]}, False),
                ({**one, "open": [(0, 3), (0, 2)]}, False), ({**one, "open": [(0, 0)]}, False),
                ({**one, "open": [(0, 17)]}, False), ({**one, "open": [(0, 255), (0, 3)]}, False),
                (made((rules(5, 5), {})), False), (made((rules(5, 255), {})), False), (made((rules(0), {})), False),
                (made((rules(1), {}), (rules(1), {})), True), ({**one, "count": 0}, True),
                ({**fresh_state([rules(9)] * 32), "count": 32}, True),
                ({**fresh_state([rules(9)] * 32), "count": 33}, False),
                ({**fresh_state([rules(9)] * 32), "count": 257}, False)]:
            self.assertEqual(fit(state), right)

    def test_places_past_the_tasks_do_not_count(self):
        ghost = rules(9, 9, 3, r4=1)
        state = made((rules(5, 0, r3=1), {"status": READY, "next": 1}), (ghost, {"status": READY, "started": True}))
        state = {**state, "count": 1}
        self.assertTrue(fit(state))
        self.assertFalse(fit({**state, "open": [(0, 4)]}))
        self.assertFalse(fit({**state, "open": [(1, 3)]}))
        self.assertEqual(release(state, 9)[0], 11)
        self.assertEqual(lock(state, 5, 0, 3)[:2], (0, (5, 0)))
        self.assertEqual(resume(changed(state, 1, status=ASLEEP), 9, SERIALS - 1)[0], 20)
        state = changed({**state, "open": [(0, 3)]}, 0, held=3)
        after = unlock(changed(state, 1, status=WAITING), 5, 0, 3)[2]
        self.assertEqual(after["entries"][1]["status"], WAITING)

    def test_the_first_of_a_priority_is_released(self):
        state = made((rules(4), {"status": ASLEEP}), (rules(4), {}))
        self.assertEqual(release(state, 4)[0], 12)
        state = made((rules(4), {"next": 7}), (rules(4), {"status": READY, "next": 3}))
        refusal, job, after = release(state, 4)
        self.assertEqual((refusal, job, statuses(after)), (0, (4, 7), [READY, READY]))

    def test_the_first_sleeper_of_a_number_wakes(self):
        state = made((rules(4), {"next": 7}), (rules(4), {"status": ASLEEP, "next": 8}),
                     (rules(4), {"status": ASLEEP, "next": 7}), (rules(4), {"status": ASLEEP, "next": 7}))
        self.assertEqual(statuses(resume(state, 4, 6)[2]), [NO_JOB, ASLEEP, READY, ASLEEP])
        self.assertEqual(resume(state, 4, 5)[0], 20)

    def test_the_first_of_the_highest_runs(self):
        ready = {"status": READY, "next": 1}
        state = made((rules(3), ready), (rules(5), {"status": READY, "next": 2}), (rules(5), ready))
        self.assertEqual(running_place(state), 1)
        self.assertEqual(complete(state, 5, 0)[:2], (13, (5, 1)))
        self.assertEqual(complete(state, 5, 1)[:2], (0, (5, 0)))

    def test_a_refusal_starts_nobody(self):
        state = made((rules(3, 2), {"status": READY}), (rules(2), {"status": READY}))
        self.assertEqual(release(state, 9), (11, (3, SERIALS - 1), state))
        self.assertEqual(suspend(state, 3, SERIALS - 1), (19, (3, SERIALS - 1), state))
        after = resume(changed(state, 1, status=ASLEEP), 2, SERIALS - 1)[2]
        self.assertEqual([after["entries"][place]["started"] for place in range(2)], [True, False])

    def test_an_unlock_without_a_section_frees_the_entry(self):
        state = made((rules(3, r1=1, r2=1), {"status": READY, "next": 1, "held": 2}), (rules(2), {"status": WAITING}))
        for sections in ([], [(0, 1)], [(1, 2)]):
            refusal, job, after = unlock({**state, "open": sections}, 3, 0, 2)
            self.assertEqual((refusal, job, after["open"]), (0, (3, 0), sections))
            self.assertEqual((after["entries"][0]["held"], statuses(after)), (0, [READY, WAITING]))

    def test_the_mark_alone_tells_what_is_held(self):
        state = made((rules(3, 0, 1, r1=1), {"status": READY, "next": 1}), sections=[(0, 1)])
        self.assertEqual(unlock(state, 3, 0, 1)[0], 17)
        self.assertEqual(suspend(state, 3, 0)[0], 0)
        self.assertEqual(complete(state, 3, 0)[0], 0)
        self.assertEqual(lock(state, 3, 0, 1)[2]["open"], [(0, 1), (0, 1)])
        for mark in (1, 2, 16, 17, 255):
            held = changed({**state, "open": []}, 0, held=mark)
            self.assertEqual([lock(held, 3, 0, 1)[0], suspend(held, 3, 0)[0], complete(held, 3, 0)[0]], [15, 18, 18])
            self.assertEqual(unlock(held, 3, 0, mark)[0], 0)
            self.assertEqual(unlock(held, 3, 0, 0)[0], 17)

    def test_an_inner_section_closes_and_the_rest_keep_their_order(self):
        state = made((rules(3, r1=1, r2=1), {"status": READY, "next": 1, "held": 1}), (rules(2, r3=1), {}),
                     sections=[(1, 3), (0, 1), (0, 2), (0, 1)])
        self.assertEqual(unlock(state, 3, 0, 1)[2]["open"], [(1, 3), (0, 2), (0, 1)])

    def test_the_last_section_alone_makes_the_ceiling(self):
        state = made((rules(9, r1=1), {}), (rules(2, r2=1), {}), (rules(5), {}), sections=[(1, 1), (1, 2)])
        self.assertEqual((system_ceiling(state), statuses(release(state, 5)[2])[2]), (2, READY))
        state = {**state, "open": [(1, 2), (1, 1)]}
        self.assertEqual((system_ceiling(state), statuses(release(state, 9)[2])[0]), (9, WAITING))

    def test_sixteen_open_sections(self):
        state = made((rules(3, r1=2), {"status": READY, "next": 1}), (rules(2, r2=1), {}), sections=[(1, 2)] * SLOTS)
        self.assertEqual(lock(state, 3, 0, 1), (15, (3, 0), state))
        self.assertEqual(lock({**state, "open": [(1, 2)] * (SLOTS - 1)}, 3, 0, 1)[0], 0)

    def test_reached_means_equal_or_above(self):
        for sleeps, opened, refusals in (1, 1, [0, 0]), (2, 2, [19, 16]), (3, 3, [19, 16]), (255, 255, [19, 16]):
            values = {"status": READY, "next": 1, "sleeps": sleeps, "opened": [opened] * RESOURCES}
            state = made((rules(3, 0, 2, r1=2), values))
            self.assertEqual([suspend(state, 3, 0)[0], lock(state, 3, 0, 1)[0]], refusals)

    def test_complete_changes_the_status_only(self):
        values = {"status": READY, "started": True, "sleeps": 2, "opened": [1] * RESOURCES, "next": 4}
        state = made((rules(3, 1, 2, r1=1), values))
        after = complete(state, 3, 3)[2]
        self.assertEqual(after, changed(state, 0, status=NO_JOB))
        self.assertEqual(system_priority(after), 0)
        held = changed(after, 0, held=1)
        again = release(held, 3)[2]
        self.assertEqual(again["entries"][0], {"status": READY, "started": True, "sleeps": 0,
                                               "opened": [0] * RESOURCES, "held": 1, "next": 5})

    def test_ready_need_not_run(self):
        state = made((rules(5, 4), {"status": ASLEEP, "started": True, "next": 1}), (rules(4), {}), (rules(3), {}))
        refusal, job, after = release(state, 4)
        self.assertEqual((refusal, job, statuses(after)), (0, None, [ASLEEP, READY, NO_JOB]))
        self.assertEqual(release(after, 4)[0], 12)
        self.assertFalse(after["entries"][1]["started"])


class RandomCalls(unittest.TestCase):
    # Steps of random calls from fresh schedulers, on tables of two kinds in turn.
    def steps(self, seed, lists, length):
        rng = random.Random(seed)
        for _ in range(lists // 2):
            yield from steps(rng, call_table(rng, 1 + rng.randrange(7), 4), next_call, length)
            yield from steps(rng, sleepers_table(rng, 2, 4), pressing_call, length)

    def test_no_resource_is_held_twice(self):
        deepest = 0
        for state, step, refusal, _, after in self.steps(1, 60, 120):
            resources = [resource for _, resource in after["open"]]
            self.assertEqual(len(set(resources)), len(resources))
            if step[0] == "l" and refusal == 0:
                self.assertNotIn(step[3], [resource for _, resource in state["open"]])
            deepest = max(deepest, len(resources))
        self.assertGreater(deepest, 1)

    def test_marks_and_sections_go_together(self):
        for *_, after in self.steps(2, 40, 100):
            marks = [(place, after["entries"][place]["held"]) for place in places(after)]
            held = [mark for mark in marks if mark[1]]
            self.assertEqual(sorted(after["open"]), held)
            self.assertTrue(all(after["entries"][place]["status"] == READY for place, _ in held))
            self.assertTrue(fit(after))

    # The open sections of lower tasks whose ceilings reach the task at a place.
    def met_by(self, state, place, births):
        priority = state["tasks"][place]["priority"]
        return {birth for birth, (other, resource) in zip(births, state["open"])
                if state["tasks"][other]["priority"] < priority <= ceiling(state, resource)}

    def test_a_job_meets_at_most_one_section_more_than_its_sleeps(self):
        most, births, met = 0, [], {}
        for at, (state, step, refusal, _, after) in enumerate(self.steps(3, 80, 150)):
            if not state["open"]:
                births = []
            if step[0] == "l" and refusal == 0:
                births = births + [at]
            if step[0] == "u" and refusal == 0:
                births = births[:-1]
            for place in places(after):
                entry = after["entries"][place]
                if step[0] == "r" and refusal == 0 and entry["next"] != state["entries"][place]["next"]:
                    met[place] = set()
                if entry["status"] in (READY, WAITING):
                    met.setdefault(place, set())
                    met[place] |= self.met_by(after, place, births)
                    self.assertLessEqual(len(met[place]), entry["sleeps"] + 1)
                    most = max(most, len(met[place]))
        self.assertGreater(most, 1)

    def test_sections_close_from_the_last(self):
        for state, step, refusal, _, after in self.steps(4, 40, 100):
            if step[0] == "u" and refusal == 0:
                self.assertEqual(after["open"], state["open"][:-1])

    def test_who_runs_is_ready_started_and_above_the_ceiling_of_others(self):
        for *_, job, after in self.steps(5, 40, 100):
            place = running_place(after)
            self.assertEqual(job, None if place is None else job_number(after, place))
            if place is not None:
                entry = after["entries"][place]
                self.assertEqual((entry["status"], entry["started"]), (READY, True))
                others = [ceiling(after, resource) for other, resource in after["open"] if other != place]
                self.assertTrue(all(after["tasks"][place]["priority"] > other for other in others))

    def test_a_refusal_changes_nothing_and_the_state_handed_in_stays(self):
        refused = 0
        for state, step, refusal, _, after in self.steps(6, 12, 60):
            before = copy.deepcopy(state)
            self.assertEqual(call(state, *step)[2], after)
            self.assertEqual(state, before)
            if refusal:
                self.assertEqual(after, before)
                refused += 1
        self.assertGreater(refused, 50)

    def test_the_same_for_made_up_states(self):
        rng = random.Random(7)
        for _ in range(150):
            cases = made_up_list(rng)["cases"]
            state = cases[0][1]
            before = copy.deepcopy(state)
            refusal, job, after = call(state, *cases[1])
            self.assertEqual(state, before)
            self.assertEqual(refusal == 26, not fit(state))
            if refusal:
                self.assertEqual(after, before)
            if refusal == 26:
                self.assertIsNone(job)


class CaseFiles(unittest.TestCase):
    def test_bytes_and_back(self):
        rng = random.Random(8)
        for _ in range(20):
            cases = made_up_list(rng)["cases"] + [("T", A), ("B", 3, 2**17)]
            self.assertEqual(list(cases_in(b"".join(case_bytes(case) for case in cases))), cases)

    def test_bytes_of_a_call(self):
        self.assertEqual(case_bytes(("l", 3, 258, 16)), bytes([108, 3, 2, 1, 16]))
        self.assertEqual(case_bytes(("B", 3, 258)), bytes([66, 3, 2, 1, 0, 0]))
        self.assertEqual(case_bytes(("T", b"\3")), bytes([84, 1, 0, 3]))

    def test_bytes_of_a_state(self):
        state = made((rules(7, 6, 5, r1=4, r16=3), {"status": ASLEEP, "started": True, "sleeps": 2, "held": 9,
                                                    "next": 258}), sections=[(0, 16)])
        data = case_bytes(("M", state))
        self.assertEqual(len(data), 1349)
        self.assertEqual(data[:24], bytes([77, 1, 0, 1, 0, 7, 6, 5, 4] + [0] * 14 + [3]))
        self.assertEqual(data[613:635], bytes([3, 1, 2] + [0] * 16 + [9, 2, 1]))
        self.assertEqual(data[1317:], bytes([0, 16] + [0] * 30))
        self.assertEqual(len(state_numbers(state)), 2 + 32 * 19 + 32 * 21 + 32)

    def test_lines(self):
        cases = [("T", A), ("r", 1), ("u", 1, 0, 1), ("c", 1, 0), ("T", b""), ("r", 1)]
        self.assertEqual(list(play(cases)), ["set up 0 at 0\n", "0 1 0\n", "17 1 0\n", "0 idle\n", "set up 1 at 0\n",
                                             "11 idle\n"])

    def test_burst(self):
        numbers, state = burst(fresh(A), 2, 2)
        self.assertEqual(numbers, [0, 2, 0, 0, 256, 0, 0, 2, 1, 0, 256, 0])
        self.assertEqual(state["entries"][1]["next"], 2)
        numbers, _ = burst(fresh(A), 9, 1)
        self.assertEqual(numbers, [11, 256, 0, 13, 256, 0])
        numbers, _ = burst(release(fresh(A), 3)[2], 2, 2)
        self.assertEqual(numbers, [0, 3, 0, 0, 2, 0, 12, 2, 0, 13, 2, 0])

    def test_a_burst_past_the_last_serial(self):
        numbers, _ = burst(changed(fresh(A), 1, next=SERIALS - 1), 2, 2)
        self.assertEqual(numbers, [0, 2, SERIALS - 1, 0, 256, 0, 0, 2, 0, 0, 256, 0])


if __name__ == "__main__":
    unittest.main()
