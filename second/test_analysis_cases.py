"""Tests of analysis_cases.py: the tables are accepted, varied and few enough, and each slip shows."""

import random
import unittest

from analysis import lines
from analysis_cases import MANY_ROUNDS, SHOWN_BY, from_rows, make_cases, slow_tables
from slips import SLIPS, OneRound
from tables import Accepted, read, table_bytes

# Slips that leave the answers alone and alter only the number of right sides evaluated.
TOTAL_ONLY = {"ReplacedAfterRound", "RisingPriority", "FromOne"}


class Slips(unittest.TestCase):
    def test_every_slip_has_a_table(self):
        self.assertEqual(sorted(SHOWN_BY), sorted(slip.__name__ for slip in SLIPS))

    def test_every_slip_changes_the_lines(self):
        for slip in SLIPS:
            data = table_bytes(*from_rows(SHOWN_BY[slip.__name__]))
            right, wrong = lines(data), lines(data, rules=slip)
            self.assertNotEqual(right, wrong, slip.__name__)
            same_answers = right.splitlines()[1:] == wrong.splitlines()[1:]
            self.assertEqual(same_answers, slip.__name__ in TOTAL_ONLY, slip.__name__)

    def test_many_rounds(self):
        for rows in MANY_ROUNDS:
            data = table_bytes(*from_rows(rows))
            self.assertNotEqual(lines(data).splitlines()[1:], lines(data, rules=OneRound).splitlines()[1:])


class Cases(unittest.TestCase):
    # The cases of one seed, read once.
    @classmethod
    def setUpClass(cls):
        cls.cases = list(make_cases(random.Random(4)))
        cls.tables = [read(data) for data in cls.cases]

    def test_number_and_size(self):
        self.assertGreaterEqual(len(self.cases), 2000)
        self.assertLess(sum(len(data) for data in self.cases), 350_000)
        self.assertEqual(len(set(self.cases)), len(self.cases))

    def test_all_are_accepted(self):
        self.assertTrue(all(isinstance(table, Accepted) for table in self.tables))

    def test_one_seed_gives_one_list(self):
        self.assertEqual(list(make_cases(random.Random(4))), self.cases)

    def test_edges_are_there(self):
        tasks = [task for table in self.tables for task in table.tasks]
        self.assertTrue(any(task.t == 1 for task in tasks))
        self.assertTrue(any(task.c + task.s > task.d for task in tasks))
        self.assertTrue(any(task.setting == task.priority - 1 > 0 for task in tasks))
        self.assertEqual(max(task.t for task in tasks), 1_000_000)
        self.assertEqual(max(task.x for task in tasks), 64)
        self.assertEqual(max(len(table.tasks) for table in self.tables), 32)
        self.assertEqual(max(len(table.uses) for table in self.tables), 512)

    def test_verdicts(self):
        found = [lines(data).split()[1] for data in self.cases[-1500::5]]
        self.assertGreater(found.count("yes"), 60)
        self.assertGreater(found.count("no"), 60)

    def test_both_sides_of_the_allowance(self):
        found = [lines(table_bytes(*table)).splitlines()[0] for table in slow_tables()[2:4]]
        self.assertEqual(found, ["verdict no evaluations 100000", "refused 8 at 0"])


if __name__ == "__main__":
    unittest.main()
