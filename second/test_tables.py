"""Tests of tables.py, written from the scope document's rules."""

import random
import unittest
from dataclasses import replace

from tables import (Accepted, Held, Refused, Task, Use, Written, held_of, load,
                    read, record_of, table_bytes, task_record, use_record, write)
from table_cases import random_table, full_table

A_TASKS = [Task(3, 0, 1, 2, 3, 20, 20), Task(2, 0, 0, 4, 0, 30, 30), Task(1, 0, 0, 5, 0, 40, 40)]
A_USES = [Use(3, 1, 1, 1), Use(1, 1, 2, 2)]
A_BYTES = bytes([1, 3, 0, 1, 2, 0, 0, 0, 3, 0, 0, 0, 20, 0, 0, 0, 20, 0, 0, 0,
                 1, 2, 0, 0, 4, 0, 0, 0, 0, 0, 0, 0, 30, 0, 0, 0, 30, 0, 0, 0,
                 1, 1, 0, 0, 5, 0, 0, 0, 0, 0, 0, 0, 40, 0, 0, 0, 40, 0, 0, 0,
                 2, 3, 1, 1, 1, 0, 0, 0,
                 2, 1, 1, 2, 2, 0, 0, 0,
                 3])
BASE = Task(10, 2, 3, 100, 50, 500, 900)
MOST = 1_000_000


# The answer for a table of these tasks and uses.
def answer(tasks, uses=()):
    return read(table_bytes(tasks, uses))


# So many plain tasks, priorities falling from `top`.
def plain(count, top=200):
    return [Task(top - i, 0, 0, 50, 0, 60, 70) for i in range(count)]


class Reader(unittest.TestCase):
    # A table is accepted with exactly these tasks and uses.
    def accepts(self, tasks, uses=()):
        self.assertEqual(answer(tasks, uses), Accepted(list(tasks), list(uses)))

    # A table is refused so.
    def refuses(self, data, number, place):
        self.assertEqual(read(data), Refused(number, place))

    def test_checked_tables(self):
        self.refuses(b"", 1, 0)
        self.refuses(bytes([3]), 3, 0)
        self.refuses(bytes([4]), 2, 0)
        self.assertEqual(read(A_BYTES), Accepted(A_TASKS, A_USES))
        self.assertEqual(table_bytes(A_TASKS, A_USES), A_BYTES)

    def test_wide_fields_are_low_byte_first(self):
        body = bytes([1, 9, 8, 7, 1, 2, 3, 0, 4, 5, 6, 0, 1, 2, 4, 0, 1, 2, 5, 0])
        task = Task(9, 8, 7, 0x030201, 0x060504, 0x040201, 0x050201)
        self.assertEqual(read(body + bytes([2, 9, 16, 1, 1, 2, 3, 0, 3])),
                         Accepted([task], [Use(9, 16, 1, 0x030201)]))

    def test_every_cut_is_1_at_the_open_record(self):
        starts = [0, 20, 40, 60, 68, 76]
        for length in range(len(A_BYTES)):
            place = max(start for start in starts if start <= length)
            self.refuses(A_BYTES[:length], 1, place)

    def test_unknown_kinds(self):
        for kind in [0] + list(range(4, 256)):
            self.refuses(bytes([kind]), 2, 0)
            for place in (0, 20, 40, 60, 68, 76):
                data = A_BYTES[:place] + bytes([kind]) + A_BYTES[place + 1:]
                self.refuses(data, 2, place)

    def test_bytes_after_the_end(self):
        for extra in (b"\0", b"\3", b"\4", A_BYTES):
            self.refuses(A_BYTES + extra, 7, 77)
        self.refuses(bytes([3, 3]), 3, 0)

    def test_order_of_tasks(self):
        self.refuses(table_bytes([BASE, BASE], []), 3, 20)
        self.refuses(table_bytes([BASE, replace(BASE, priority=11)], []), 3, 20)
        self.refuses(task_record(BASE) + use_record(Use(10, 1, 1, 1))
                     + task_record(replace(BASE, priority=9)) + b"\3", 3, 28)
        self.accepts([BASE, replace(BASE, priority=9)])

    def test_order_of_uses(self):
        tasks = plain(3, 30)
        first = Use(29, 5, 1, 1)
        for second, number in [(Use(29, 6, 1, 1), 0), (Use(28, 1, 1, 1), 0), (Use(28, 5, 1, 1), 0),
                               (Use(29, 5, 1, 1), 3), (Use(29, 4, 1, 1), 3), (Use(29, 0, 1, 1), 3),
                               (Use(30, 6, 1, 1), 3), (Use(27, 6, 1, 1), 3), (Use(0, 6, 1, 1), 3),
                               (Use(31, 6, 1, 1), 3), (Use(28, 0, 1, 1), 5), (Use(29, 17, 1, 1), 5)]:
            if number:
                self.refuses(table_bytes(tasks, [first, second]), number, 68)
            else:
                self.accepts(tasks, [first, second])
        self.refuses(use_record(first), 3, 0)
        self.refuses(table_bytes(tasks, [Use(29, 0, 1, 1)]), 5, 60)

    def test_thirty_two_and_thirty_three_tasks(self):
        tasks = plain(32)
        use = use_record(Use(200, 1, 1, 1))
        start = table_bytes(tasks, [])[:-1]
        self.accepts(tasks)
        self.refuses(table_bytes(plain(33), []), 4, 640)
        self.refuses(start + task_record(Task()) + b"\3", 4, 640)
        self.refuses(start + task_record(tasks[0]), 4, 640)
        self.refuses(start + use + task_record(tasks[0]), 4, 648)
        self.refuses(start + use + task_record(tasks[0])[:-1], 1, 648)
        self.refuses(start + b"\1", 1, 640)
        self.refuses(start + b"\0", 2, 640)
        self.refuses(table_bytes(plain(20) + [Task()] + plain(20, 150), []), 5, 400)

    def test_full_and_overfull_uses(self):
        tasks, uses = full_table(random.Random(5))
        self.assertEqual((len(tasks), len(uses)), (32, 512))
        self.assertEqual(len(table_bytes(tasks, uses)), 4737)
        self.accepts(tasks, uses)
        for extra in (uses[-1], uses[0], Use(), Use(tasks[-1].priority, 17, 1, 1)):
            number = 5 if extra.resource == 17 else 3
            self.refuses(table_bytes(tasks, uses + [extra]), number, 4736)
        self.refuses(table_bytes(tasks, uses) + b"\3", 7, 4737)

    def test_task_ranges(self):
        good = [dict(priority=3), dict(priority=255), dict(setting=0), dict(setting=9),
                dict(x=0, s=0), dict(x=64), dict(s=0), dict(s=MOST), dict(c=1), dict(c=500),
                dict(d=100), dict(d=900), dict(t=500), dict(t=MOST),
                dict(c=MOST, d=MOST, t=MOST), dict(priority=1, setting=0)]
        bad = [dict(priority=0), dict(priority=0, setting=0), dict(setting=10), dict(setting=255),
               dict(x=0, s=1), dict(x=65), dict(x=255), dict(s=MOST + 1), dict(s=2**32 - 1),
               dict(c=0), dict(c=501), dict(d=99), dict(d=0), dict(d=901), dict(t=499), dict(t=0),
               dict(t=MOST + 1), dict(c=MOST + 1, d=MOST + 1, t=MOST + 1), dict(d=MOST + 1, t=MOST + 1),
               dict(c=0, d=0, t=0), dict(priority=1, setting=1), dict(c=2**24 + 1), dict(t=2**32 - 1)]
        for change in good:
            self.accepts([replace(BASE, **change)])
        for change in bad:
            self.refuses(table_bytes([replace(BASE, **change)], []), 5, 0)
            if "priority" not in change:
                high = replace(BASE, priority=20)
                self.refuses(table_bytes([high, replace(BASE, **change)], []), 5, 20)
        self.accepts([Task(1, 0, 1, 5, 1, 5, 5)])

    def test_use_ranges(self):
        task = Task(10, 0, 0, MOST, 0, MOST, MOST)
        for use in (Use(10, 1, 1, 1), Use(10, 16, 1, 1), Use(10, 1, 255, 1), Use(10, 1, 1, MOST)):
            self.accepts([task], [use])
        for use in (Use(10, 0, 1, 1), Use(10, 17, 1, 1), Use(10, 1, 0, 1), Use(10, 1, 1, 0),
                    Use(10, 1, 1, MOST + 1), Use(10, 1, 255, 2**32 - 1), Use(10, 255, 1, 1)):
            self.refuses(table_bytes([task], [use]), 5, 20)

    def test_sums(self):
        tasks = [replace(BASE, priority=p, c=100) for p in (12, 11, 10)]
        uses = [Use(11, 1, 2, 20), Use(11, 2, 1, 30), Use(11, 3, 3, 10)]
        self.accepts(tasks, uses)
        self.accepts(tasks, uses + [Use(10, 1, 4, 25)])
        self.refuses(table_bytes(tasks, [Use(11, 1, 1, 101)] + uses[1:]), 6, 60)
        self.refuses(table_bytes(tasks, [uses[0], Use(11, 2, 1, 61), uses[2]]), 6, 68)
        self.refuses(table_bytes(tasks, [uses[0], Use(11, 2, 1, 31), uses[2]]), 6, 76)
        self.refuses(table_bytes(tasks, uses + [Use(11, 4, 1, 1)]), 6, 84)
        self.refuses(table_bytes(tasks, uses + [Use(10, 4, 101, 1)]), 6, 84)
        self.refuses(table_bytes(tasks, [Use(12, 1, 255, MOST)]), 6, 60)

    def test_order_of_checks(self):
        tasks = [BASE, replace(BASE, priority=9)]
        self.refuses(table_bytes([BASE, Task(10, 99, 99, 0, 1, 0, 0)], []), 3, 20)
        self.refuses(table_bytes([BASE, Task(0)], []), 5, 20)
        self.refuses(table_bytes(tasks, [Use(8, 17, 0, 0)]), 3, 40)
        self.refuses(table_bytes(tasks, [Use(9, 1, 101, 1), Use(10, 1, 1, 1)]), 6, 40)
        self.refuses(table_bytes(tasks, [Use(9, 17, 101, 1)]), 5, 40)
        self.refuses(table_bytes(tasks, [Use(9, 2, 1, 1), Use(9, 2, 101, 1)]), 3, 48)
        self.refuses(table_bytes(tasks, [Use(8, 1, 1, 1)])[:47], 1, 40)
        self.refuses(table_bytes([BASE, BASE], [])[:39], 1, 20)


class Loading(unittest.TestCase):
    def test_held_table(self):
        held = load(A_BYTES)
        self.assertEqual((held.task_count, held.use_count), (3, 2))
        self.assertEqual(held.tasks, A_TASKS + [Task(0, 0, 0, 0, 0, 0, 0)] * 29)
        self.assertEqual(held.uses, A_USES + [Use(0, 0, 0, 0)] * 510)

    def test_refused_table_is_all_zeros(self):
        for data in (b"", A_BYTES[:-1], A_BYTES + b"\0"):
            held = load(data)
            self.assertEqual((held.task_count, held.use_count), (0, 0))
            self.assertEqual(held.tasks, [Task(0, 0, 0, 0, 0, 0, 0)] * 32)
            self.assertEqual(held.uses, [Use(0, 0, 0, 0)] * 512)

    def test_record_of(self):
        for index, priority in enumerate((3, 2, 1)):
            self.assertEqual(record_of(A_BYTES, priority), A_BYTES[20 * index:20 * index + 20])
        for priority in (0, 4, 255):
            self.assertEqual(record_of(A_BYTES, priority), b"")
        self.assertEqual(record_of(A_BYTES + b"\0", 3), b"")
        self.assertEqual(record_of(A_BYTES[:-1], 3), b"")


class Writer(unittest.TestCase):
    # The writer refuses so, whatever the room.
    def refuses(self, held, number, place):
        for room in (0, 100, 10_000):
            self.assertEqual(write(held, room), Refused(number, place))

    def test_room(self):
        held = held_of(A_TASKS, A_USES)
        for room in (77, 78, 5000):
            self.assertEqual(write(held, room), Written(77, A_BYTES))
        for room in (0, 1, 76):
            self.assertEqual(write(held, room), Refused(10, 0))

    def test_no_tasks(self):
        self.refuses(Held(), 3, 0)
        self.refuses(held_of(A_TASKS, A_USES, 0, 0), 3, 0)
        self.refuses(held_of(A_TASKS, A_USES, 0, 2), 3, 0)

    def test_entries_past_the_counts_are_ignored(self):
        held = held_of(A_TASKS + [Task(9, 9, 9, 9, 9, 9, 9)] * 3, A_USES + [Use(9, 9, 9, 9)] * 7, 3, 2)
        self.assertEqual(write(held, 77), Written(77, A_BYTES))
        self.assertEqual(write(held_of(A_TASKS, A_USES, 3, 1), 69), Written(69, A_BYTES[:68] + b"\3"))

    def test_empty_entries_within_the_counts(self):
        self.refuses(held_of(A_TASKS, A_USES, 4, 2), 5, 60)
        self.refuses(held_of(A_TASKS, A_USES, 3, 3), 3, 76)
        self.refuses(held_of(A_TASKS, [], 2**64 - 1, 0), 5, 60)
        self.refuses(held_of(A_TASKS, A_USES, 3, 2**64 - 1), 3, 76)

    def test_same_refusals_as_the_reader(self):
        tasks = [replace(BASE, priority=p) for p in (12, 11)]
        self.refuses(held_of([BASE, BASE], []), 3, 20)
        self.refuses(held_of([replace(BASE, x=65)], []), 5, 0)
        self.refuses(held_of(tasks, [Use(11, 1, 1, 1), Use(12, 1, 1, 1)]), 3, 48)
        self.refuses(held_of(tasks, [Use(12, 1, 50, 2), Use(12, 2, 1, 1)]), 6, 48)
        self.refuses(held_of(tasks, [Use(12, 0, 1, 1)]), 5, 40)

    def test_too_many_tasks(self):
        for count in (33, 34, 2**32, 2**64 - 1):
            self.refuses(held_of(plain(32), [], count), 4, 640)
            self.refuses(held_of(plain(32), [Use()] * 9, count, 2**64 - 1), 4, 640)
            early = plain(32)
            early[7] = replace(early[7], c=0)
            self.refuses(held_of(early, [], count), 5, 140)
            early[4] = early[3]
            self.refuses(held_of(early, [], count), 3, 80)

    def test_too_many_uses(self):
        tasks, uses = full_table(random.Random(6))
        self.assertEqual(write(held_of(tasks, uses), 4737), Written(4737, table_bytes(tasks, uses)))
        self.assertEqual(write(held_of(tasks, uses), 4736), Refused(10, 0))
        for count in (513, 514, 2**32, 2**64 - 1):
            self.refuses(held_of(tasks, uses, 32, count), 3, 4736)
            early = uses[:300] + [replace(uses[300], n=0)] + uses[301:]
            self.refuses(held_of(tasks, early, 32, count), 5, 640 + 8 * 300)
            self.refuses(held_of(tasks, uses[:511], 32, count), 3, 640 + 8 * 511)


class RoundTrips(unittest.TestCase):
    def test_written_then_read(self):
        rng = random.Random(1)
        for _ in range(300):
            tasks, uses = random_table(rng, 1 + rng.randrange(32), rng.randrange(5))
            wrote = write(held_of(tasks, uses), 5000)
            self.assertEqual(wrote.length, 20 * len(tasks) + 8 * len(uses) + 1)
            self.assertEqual(read(wrote.data), Accepted(tasks, uses))

    def test_loaded_then_written(self):
        rng = random.Random(2)
        for _ in range(300):
            data = table_bytes(*random_table(rng, 1 + rng.randrange(32), rng.randrange(5)))
            self.assertEqual(write(load(data), len(data)), Written(len(data), data))


if __name__ == "__main__":
    unittest.main()
