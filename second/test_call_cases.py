"""Tests of the call cases: the files have what they should, and each slip shows."""

import unittest
from collections import Counter
from pathlib import Path
from unittest.mock import patch

import scheduler
from call_cases import AFTER_SLEEP, BESIDE_K, DATA, FAIR, K, L, LINES, MADE_UP, TWO_HELD
from call_files import CALLS, case_bytes, cases_in, play
from call_slips import FITTING, SLIPS
from running_slips import (eligible_above_only, running_place_first_equal, running_place_sleeping_holder,
                           running_place_waiting_holder)
from scheduler import NO_JOB, PLACES, SERIALS, SLOTS, fit, places, running_place, system_priority
from tables import Accepted, read

ROOT = Path(__file__).resolve().parent.parent
REFUSALS = [11, 12, 13, 14, 15, 16, 17, 18, 19, 20, 26]


# The lists of a file: each begins with a table or a made-up state and has its cases and its lines.
def lists_of(data, text):
    lines = iter(text.splitlines(keepends=True))
    lists = []
    for case in cases_in(data):
        if case[0] in "TM":
            lists.append(([], []))
        lists[-1][0].append(case)
        if case[0] != "M":
            lists[-1][1].append(next(lines))
    return lists, list(lines)


# Whether a list prints other lines with a slip.
def shows(name, slip, part):
    with patch.object(scheduler, name, slip):
        return list(play(part[0])) != part[1]


# Whether two tasks of a state have one priority.
def has_twins(state):
    priorities = [state["tasks"][place]["priority"] for place in places(state)]
    return len(set(priorities)) < len(priorities)


# The places and resources that the held marks speak of.
def marks(state):
    return [(place, state["entries"][place]["held"]) for place in places(state) if state["entries"][place]["held"]]


# Whether a holder that is not above the system priority runs though no open section is its own.
def runs_by_mark(state):
    place = running_place(state)
    return (place is not None and state["tasks"][place]["priority"] <= system_priority(state)
            and place not in [opener for opener, _ in state["open"]])


# Whether another job, or none, would run in a state by this slip.
def runs_else(slip):
    return lambda state: slip(state) != running_place(state)


# The files as they stand, read once.
class Files(unittest.TestCase):
    @classmethod
    def setUpClass(cls):
        cls.data, cls.text = (ROOT / DATA).read_bytes(), (ROOT / LINES).read_text("ascii")
        cls.lists, cls.rest = lists_of(cls.data, cls.text)
        cls.cases = [case for cases, _ in cls.lists for case in cases]
        cls.states = [case[1] for case in cls.cases if case[0] == "M"]
        cls.fit_states = [state for state in cls.states if fit(state)]
        pairs = [pair for cases, lines in cls.lists
                 for pair in zip([case for case in cases if case[0] != "M"], lines)]
        cls.answers = [(case, line.split()) for case, line in pairs if case[0] in CALLS]

    # The lists in which slips are looked for: the first on tables, then on made-up states, then more of both.
    def some_lists(self):
        tables = [part for part in self.lists if part[0][0][0] == "T"]
        made_up = [part for part in self.lists if part[0][0][0] == "M"]
        return tables[:50] + made_up[:400] + tables[50:500] + made_up[400:]

    def test_lines_and_cases_go_together(self):
        self.assertEqual(self.rest, [])
        self.assertEqual(b"".join(case_bytes(case) for case in self.cases), self.data)

    def test_some_lists_again(self):
        for cases, lines in self.lists[::9]:
            if not any(case[0] == "B" and case[2] > 1000 for case in cases):
                self.assertEqual(list(play(cases)), lines)

    def test_the_named_lists_come_first(self):
        for part, calls in zip(self.lists, (K + [BESIDE_K], L, FAIR, TWO_HELD, AFTER_SLEEP)):
            self.assertEqual([case for case in part[0] if case[0] in CALLS], calls)

    def test_number_of_calls(self):
        self.assertGreaterEqual(len(self.answers), 110_000)
        self.assertGreaterEqual(sum(line[0] == "0" for _, line in self.answers), 80_000)
        found = Counter(case[0] for case, line in self.answers if line[0] == "0")
        self.assertTrue(all(found[kind] >= 10_000 for kind in CALLS), found)

    def test_every_refusal(self):
        found = Counter(int(line[0]) for _, line in self.answers)
        self.assertEqual(sorted(found), [0] + REFUSALS)
        self.assertTrue(all(found[number] >= 200 for number in REFUSALS), found)

    def test_every_refusal_of_the_reader(self):
        tables = [case[1] for case in self.cases if case[0] == "T"]
        refused = [read(table).number for table in tables if not isinstance(read(table), Accepted)]
        self.assertEqual(sorted(set(refused)), [1, 2, 3, 4, 5, 6, 7])
        self.assertGreater(len(tables) - len(refused), 1200)

    def test_number_of_made_up_states(self):
        self.assertGreaterEqual(MADE_UP, 1_000)
        self.assertGreaterEqual(len(self.states), MADE_UP)
        self.assertGreaterEqual(len(self.fit_states), MADE_UP // 2)
        self.assertGreaterEqual(len(self.states) - len(self.fit_states), MADE_UP // 4)

    def test_unfit_in_one_respect_alone(self):
        for name in FITTING[1:]:
            alone = [state for state in self.states if [other for other in FITTING[1:]
                     if not getattr(scheduler, other)(state)] == [name]]
            self.assertGreater(len(alone), MADE_UP // 40, name)

    def test_kinds_of_fit_states(self):
        for kind, share in [
                (has_twins, 8),
                (lambda state: len(marks(state)) > 1, 8),
                (lambda state: bool(set(marks(state)) - set(state["open"])), 8),
                (lambda state: bool(set(state["open"]) - set(marks(state))), 8),
                (lambda state: any(entry["status"] != NO_JOB for entry in state["entries"][state["count"]:]), 8),
                (lambda state: state["entries"][0]["next"] >= SERIALS - 2, 20),
                (lambda state: len(state["open"]) == SLOTS, 20),
                (lambda state: len(set(state["open"])) < len(state["open"]), 20),
                (lambda state: state["count"] == PLACES, 50),
                (runs_by_mark, 20),
                (runs_else(running_place_waiting_holder), 20),
                (runs_else(running_place_sleeping_holder), 20),
                (runs_else(running_place_first_equal), 100)]:
            self.assertGreater(sum(kind(state) for state in self.fit_states), MADE_UP // share)

    def test_lists_in_which_a_holder_not_above_the_system_priority_runs(self):
        found = Counter(part[0][0][0] for part in self.some_lists() if shows("eligible", eligible_above_only, part))
        self.assertGreaterEqual(found["T"], 100)
        self.assertGreaterEqual(found["M"], 50)

    def test_serials_wrap(self):
        bursts = [case for case in self.cases if case[0] == "B"]
        self.assertGreater(max(count for _, _, count in bursts), SERIALS)
        self.assertGreater(len(bursts), 100)
        serials = {line[2] for case, line in self.answers if case[0] == "r" and line[0] == "0" and len(line) == 3}
        self.assertLessEqual({"0", "1", str(SERIALS - 1), str(SERIALS - 2)}, serials)

    def test_every_slip_shows(self):
        for name, slip in SLIPS:
            self.assertTrue(any(shows(name, slip, part) for part in self.some_lists()), (name, slip.__name__))


if __name__ == "__main__":
    unittest.main()
