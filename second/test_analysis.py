"""Tests of analysis.py, written from the scope document's equations and rounds."""

import random
import unittest
from itertools import product

from analysis import ALLOWANCE, Analysed, Quick, Words, analyse, lines, rounded_up
from analysis_cases import (MANY_ROUNDS, TWO_AGREEING, blocked, doubling, entwined, experiment, from_rows,
                            sharing, small_numbers)
from slips import OneRound
from table_cases import named_tables
from tables import Refused, Task, Use, table_bytes

A, B, C, D, E, F, G, H = named_tables()
A_TEXT = """verdict yes evaluations 12
3 bound 9 deadline 20
2 bound 8 deadline 30
1 bound 11 deadline 40
"""


# The least t from 1 to D with right side at t equal to t, by trying all, or None.
def least(rules, i, v):
    for t in range(1, rules.tasks[i].d + 1):
        if rules.right_side(i, t, v) == t:
            return t
    return None


# Whether each value of v is the bound under v, or D where there is none.
def agrees(rules, v):
    for i, task in enumerate(rules.tasks):
        bound = least(rules, i, v)
        if v[i] != (task.d if bound is None else bound):
            return False
    return True


# All vectors that agree, no value above its deadline.
def agreeing(tasks, uses):
    rules = Quick(tasks, uses)
    return [list(v) for v in product(*(range(task.d + 1) for task in tasks)) if agrees(rules, v)]


# The text for a table of these tasks and uses.
def text(table, allowance=ALLOWANCE):
    return lines(table_bytes(*table), allowance)


# Random tables small enough for the bag to be a list.
def little_tables(rng, count):
    for _ in range(count):
        yield small_numbers(rng, 4, 30)
        yield blocked(rng)
        yield entwined(rng)
        yield experiment(rng, 3, 4, 8, 2, 900)


class CheckedTables(unittest.TestCase):
    # A table has these bounds and this total.
    def has(self, table, bounds, evaluations):
        answer = analyse(*table)
        self.assertEqual((answer.bounds, answer.evaluations), (bounds, evaluations))
        self.assertEqual(analyse(*table, rules=Words), answer)
        verdict = "no" if None in bounds else "yes"
        self.assertEqual(text(table).splitlines()[0], f"verdict {verdict} evaluations {evaluations}")

    def test_a_to_h(self):
        self.has(A, [9, 8, 11], 12)
        self.has(B, [7, 8, 14], 12)
        self.has(C, [5], 1)
        self.has(D, [None], 0)
        self.has(E, [3, None], 6)
        self.has(F, [3, 9], 8)
        self.has(G, [10, 10, 12], 12)
        self.has(H, [6, 5], 12)

    def test_h_after_one_round(self):
        self.assertEqual(analyse(*H, rules=OneRound).bounds, [9, 5])

    def test_two_agreeing_vectors(self):
        table = from_rows(TWO_AGREEING)
        self.has(table, [5, 8], 10)
        self.assertEqual(agreeing(*table), [[4, 6], [5, 8]])

    def test_other_settings(self):
        self.assertEqual(analyse(*A, settings=[1, 0, 0]), analyse(*B))
        self.assertEqual(analyse(*B, settings=[0, 0, 0]), analyse(*A))
        with self.assertRaises(ValueError):
            analyse(*A, settings=[0, 0])


class Parts(unittest.TestCase):
    # Table G under the deadlines.
    def setUp(self):
        self.g = Words(*G)
        self.v = [50, 100, 100]

    def test_rounded_up(self):
        self.assertEqual([rounded_up(n, 3) for n in range(8)], [0, 1, 1, 1, 2, 2, 2, 3])

    def test_ceiling(self):
        tasks = [Task(p, 0, 0, 9, 0, 9, 9) for p in (7, 5, 2)]
        rules = Words(tasks, [Use(7, 3, 1, 1), Use(5, 1, 1, 1), Use(5, 3, 1, 1), Use(2, 1, 1, 1), Use(2, 2, 1, 1)])
        self.assertEqual([rules.ceiling(r) for r in (1, 2, 3)], [5, 2, 7])
        self.assertEqual([[rules.conflicts(i, r) for r in (1, 2, 3)] for i in range(3)],
                         [[False, False, True], [True, False, True], [True, True, True]])

    def test_middle_set(self):
        self.assertEqual([self.g.middle(i) for i in range(3)], [[1], [2], []])
        self.assertEqual([self.g.outside(i) for i in range(3)], [[2], [], []])

    def test_bag(self):
        self.assertEqual(self.g.bag(0, 3, self.v), [3, 3])
        self.assertEqual(self.g.bag(0, 100, self.v), [3, 3])
        self.assertEqual(self.g.bag(0, 101, self.v), [3, 3, 3])
        self.assertEqual(self.g.bag(1, 1, [50, 100, 99]), [4])
        self.assertEqual(self.g.bag(2, 1, self.v), [])

    def test_sum_of_largest(self):
        tasks = [Task(2, 0, 3, 9, 0, 99, 99), Task(1, 0, 0, 30, 0, 99, 99)]
        uses = [Use(2, 1, 1, 1), Use(2, 2, 1, 1), Use(1, 1, 2, 5), Use(1, 2, 1, 7)]
        for rules in (Words(tasks, uses), Quick(tasks, uses)):
            self.assertEqual([rules.largest(0, x, 9, [99, 50]) for x in range(6)], [0, 7, 12, 17, 17, 17])

    def test_blocking(self):
        self.assertEqual([self.g.extra_block(i) for i in range(3)], [4, 0, 0])
        self.assertEqual([self.g.blocking(i, 3, self.v) for i in range(3)], [7, 4, 0])

    def test_additions(self):
        self.assertEqual([self.g.addition(2, 0, t, self.v) for t in (1, 50, 51)], [3, 3, 6])
        self.assertEqual([self.g.addition(2, 1, t, self.v) for t in (1, 4, 5)], [4, 4, 8])
        self.assertEqual([self.g.addition(2, 1, t, [50, 4, 100]) for t in (1, 100, 101)], [4, 4, 8])

    def test_right_side(self):
        self.assertEqual([self.g.right_side(i, 3, self.v) for i in range(3)], [10, 12, 12])


class Printed(unittest.TestCase):
    def test_a(self):
        self.assertEqual(text(A), A_TEXT)

    def test_conditional_and_none(self):
        self.assertEqual(text(E), "verdict no evaluations 6\n2 if 3 deadline 5\n1 none deadline 8\n")
        self.assertEqual(text(D), "verdict no evaluations 0\n1 none deadline 5\n")

    def test_none_above_conditional(self):
        rows = [(200, 0, 1, 5, 1, 5, 9), (100, 0, 0, 2, 0, 40, 50)]
        self.assertEqual(text(from_rows(rows)),
                         "verdict no evaluations 4\n200 none deadline 5\n100 if 7 deadline 40\n")

    def test_refusals_of_the_reader(self):
        data = table_bytes(*A)
        self.assertEqual(lines(b""), "refused 1 at 0\n")
        self.assertEqual(lines(b"\3"), "refused 3 at 0\n")
        self.assertEqual(lines(b"\4"), "refused 2 at 0\n")
        self.assertEqual(lines(data[:70]), "refused 1 at 68\n")
        self.assertEqual(lines(data + b"\3"), "refused 7 at 77\n")
        self.assertEqual(lines(data + b"\3", 0), "refused 7 at 77\n")
        self.assertEqual(lines(data[:73] + b"\3" + data[74:]), "refused 6 at 68\n")
        self.assertEqual(lines(data[:2] + b"\3" + data[3:]), "refused 5 at 0\n")
        many = [Task(99 - i, 0, 0, 1, 0, 1, 1) for i in range(33)]
        self.assertEqual(text((many, [])), "refused 4 at 640\n")


class Allowance(unittest.TestCase):
    # Refused below the total only, and the same text from the total on.
    def turns_at(self, table, total):
        self.assertEqual(analyse(*table).evaluations, total)
        for allowance in (0, total // 2, total - 1):
            if 0 <= allowance < total:
                self.assertEqual(text(table, allowance), "refused 8 at 0\n")
                self.assertEqual(analyse(*table, allowance=allowance), Refused(8, 0))
        full = text(table, total)
        self.assertEqual(full.split()[3], str(total))
        self.assertEqual([text(table, more) for more in (total + 1, 10 * total + 9)], [full, full])

    def test_checked_tables(self):
        for table, total in ((A, 12), (C, 1), (D, 0), (E, 6), (H, 12)):
            self.turns_at(table, total)

    def test_random_tables(self):
        for table in little_tables(random.Random(11), 20):
            self.turns_at(table, analyse(*table).evaluations)

    def test_at_one_hundred_thousand(self):
        first = (2, 0, 0, 1, 0, 1, 1)
        below = from_rows([first, (1, 0, 0, 1, 0, 99_999, 99_999)])
        above = from_rows([first, (1, 0, 0, 1, 0, 100_000, 100_000)])
        self.assertEqual(text(below), "verdict no evaluations 100000\n2 if 1 deadline 1\n1 none deadline 99999\n")
        self.assertEqual(text(above), "refused 8 at 0\n")
        self.assertEqual(analyse(*above, allowance=100_001), Analysed([1, 100_000], [1, None], 100_001))

    def test_many_evaluations_and_a_bound(self):
        answer = analyse(*doubling(8, 900))
        self.assertEqual((answer.bounds[-1], answer.evaluations), (230_400, 3056))


class AgainstTrying(unittest.TestCase):
    def test_pairs_and_list_agree(self):
        rng = random.Random(1)
        for tasks, uses in little_tables(rng, 60):
            self.assertEqual(analyse(tasks, uses), analyse(tasks, uses, rules=Words))
            quick, words = Quick(tasks, uses), Words(tasks, uses)
            i, t, x = rng.randrange(len(tasks)), 1 + rng.randrange(200), rng.randrange(66)
            v = [1 + rng.randrange(task.d) for task in tasks]
            self.assertEqual(quick.largest(i, x, t, v), words.largest(i, x, t, v))
            self.assertEqual(quick.right_side(i, t, v), words.right_side(i, t, v))

    def test_each_answer_is_the_least_equal_t(self):
        tables = [from_rows(rows) for rows in MANY_ROUNDS] + list(little_tables(random.Random(2), 40))
        for tasks, uses in tables:
            answer, rules = analyse(tasks, uses), Quick(tasks, uses)
            self.assertEqual([least(rules, i, answer.vector) for i in range(len(tasks))], answer.bounds)
            self.assertTrue(agrees(rules, answer.vector))

    def test_the_vector_is_the_largest_that_agrees(self):
        rng = random.Random(3)
        tables = [small_numbers(rng, 2 + number % 2, 8) for number in range(150)]
        tables += [sharing(rng, 2, 8) for _ in range(300)] + [sharing(rng, 3, 8) for _ in range(50)]
        several = 0
        for tasks, uses in tables:
            found = agreeing(tasks, uses)
            vector = analyse(tasks, uses).vector
            self.assertIn(vector, found)
            self.assertTrue(all(a <= b for other in found for a, b in zip(other, vector)))
            several += len(found) > 1
        self.assertGreater(several, 1)


if __name__ == "__main__":
    unittest.main()
