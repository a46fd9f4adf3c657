"""Tests of the texts for pack: every fault often enough, not too many bytes, each slip shows; and the lines of cases."""

import random
import re
import unittest
from collections import Counter
from pathlib import Path
from unittest.mock import patch

import notation
from notation import TASK_COLUMNS, USE_COLUMNS, Fault, pack
from notation_cases import SEED, make_texts
from notation_files import LONG_TEXTS, long_bytes, pack_bytes, pack_line, text_line
from notation_slips import SLIPS
from table_cases import named_tables
from tables import Accepted, read, table_bytes

ROOT = Path(__file__).resolve().parent.parent
NAMES = [column.name for column in TASK_COLUMNS + USE_COLUMNS]
# What each fault line of docs/NOTATION.md looks like, after the number of the line.
KINDS = ["expected task or use, found .+", "expected (?!a |the |task )[a-z]+, found .+",
         "expected a number after [a-z]+, found .+", "[a-z]+ [0-9.]+ is below [0-9]+", "[a-z]+ [0-9.]+ is above [0-9]+",
         "expected the end of the line, found .+", "setting [0-9]+ is not below the priority [0-9]+",
         "sleep [0-9]+ needs sleeps above 0", "run [0-9]+ is above the deadline [0-9]+",
         "deadline [0-9]+ is above the period [0-9]+", "task [0-9]+ is one too many: a table has at most 32",
         "task [0-9]+ comes after a use of task [0-9]+: all tasks come first",
         "task [0-9]+ is not below the task before it, [0-9]+",
         "use [0-9]+ is of no task: none before it has the priority [0-9]+",
         "resource [0-9]+ of task [0-9]+ is out of order: "
         "uses follow the order of their tasks, and a task's resources rise",
         "the sections of task [0-9]+ add up to more than its run [0-9]+",
         "expected a task, found the end of the text", "the text is longer than 262144 bytes"]


# The kinds of fault that a line has the look of.
def kinds_of(line):
    return [kind for kind in KINDS if re.fullmatch(f"line [0-9]+: {kind}\n", line)]


class Texts(unittest.TestCase):
    # The texts of one seed and what pack makes of them.
    @classmethod
    def setUpClass(cls):
        cls.texts = make_texts(random.Random(SEED))
        cls.answers = [pack(text) for text in cls.texts]
        cls.lines = [answer.line.decode("ascii") for answer in cls.answers if isinstance(answer, Fault)]

    def test_number_and_size(self):
        self.assertTrue(550 < len(self.texts) < 750)
        self.assertLess(sum(len(text) for text in self.texts), 400_000)
        self.assertGreaterEqual(sum(len(text) > 3000 for text in self.texts), 12)

    def test_one_seed_gives_one_list(self):
        self.assertEqual(make_texts(random.Random(SEED)), self.texts)

    def test_packed_tables_are_accepted(self):
        packed = [answer for answer in self.answers if not isinstance(answer, Fault)]
        self.assertGreater(len(packed), 100)
        self.assertTrue(all(isinstance(read(data), Accepted) for data in packed))

    def test_every_fault(self):
        lines = self.lines + [pack_line(byte * count) for byte, count in LONG_TEXTS]
        found = [kinds_of(line) for line in lines]
        self.assertEqual({len(kinds) for kinds in found}, {1})
        counts = Counter(kinds[0] for kinds in found)
        for kind in KINDS:
            self.assertGreaterEqual(counts[kind], 5, kind)

    def test_every_column(self):
        begins = ["expected task or use, found"]
        for name in NAMES:
            begins += [f"expected a number after {name}, found", f"{name} [0-9.]+ is above [0-9]"]
            begins += [f"expected {name}, found"] * (name not in ("task", "use"))
            begins += [f"{name} 0[0.]* is below 1"] * (name not in ("setting", "sleeps", "sleep"))
        for begin in begins:
            found = [line for line in self.lines if re.match(f"line [0-9]+: {begin}", line)]
            self.assertGreaterEqual(len(found), 2, begin)

    def test_every_slip_changes_a_line(self):
        for name, slip in SLIPS:
            with patch.object(notation, name, slip), self.subTest(name=name, slip=slip):
                self.assertTrue(any(pack(text) != answer for text, answer in zip(self.texts, self.answers)))


class Files(unittest.TestCase):
    def test_bytes(self):
        self.assertEqual(pack_bytes(b"x" * 258), b"P\2\1\0\0" + b"x" * 258)
        self.assertEqual(long_bytes(b"#", 262145), b"L\1\0\4\0#")

    def test_lines(self):
        self.assertEqual(pack_line(b""), "line 1: expected a task, found the end of the text\n")
        text = b"task 1 setting 0 sleeps 0 run 5 sleep 0 deadline 5 period 5"
        # The table is 1, 1, 0, 0, then 5, 0, 5 and 5 in four bytes each, and 3.
        value = 0
        for number in [1, 1, 0, 0] + [5, 0, 0, 0] + [0] * 4 + [5, 0, 0, 0] * 2 + [3]:
            value = (value * 257 + number) % 1000003
        self.assertEqual(pack_line(text), f"packed 21 {value}\n")
        self.assertRegex(text_line(table_bytes(*named_tables()[2])), rf"\Atext 301 [0-9]+ packed 21 {value}\n\Z")
        self.assertRegex(text_line(b""), r"\Atext 15 [0-9]+ fault 44 [0-9]+\n\Z")

    def test_the_files_as_they_stand(self):
        texts = make_texts(random.Random(SEED))
        data = b"".join(pack_bytes(text) for text in texts) + b"".join(long_bytes(*case) for case in LONG_TEXTS)
        lines = [pack_line(text) for text in texts] + [pack_line(byte * count) for byte, count in LONG_TEXTS]
        self.assertTrue((ROOT / "crates/vectors/data/tables").read_bytes().endswith(data))
        self.assertTrue((ROOT / "crates/vectors/stdout").read_text("ascii").endswith("".join(lines)))


if __name__ == "__main__":
    unittest.main()
