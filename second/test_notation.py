"""Tests of notation.py, written from docs/NOTATION.md; its example and its fault lines are read from it."""

import random
import re
import unittest
from pathlib import Path

from analysis_cases import make_cases
from notation import HEADING, Fault, pack, show
from notation_rows import loose, plain, plain_text, rows_of, with_zeros
from table_cases import edge_tasks, edge_uses, full_table, loose_records, named_tables, pick, random_table
from tables import Accepted, Refused, Task, Use, read, table_bytes, task_from, use_from

DOCUMENT = (Path(__file__).resolve().parent.parent / "docs/NOTATION.md").read_text("utf-8")
SORTER = ([Task(30, 0, 2, 40, 60, 250, 330), Task(20, 0, 0, 45, 0, 330, 500), Task(10, 0, 1, 150, 100, 2000, 2000)],
          [Use(30, 1, 2, 4), Use(20, 1, 1, 6), Use(20, 2, 1, 5), Use(10, 1, 3, 8), Use(10, 2, 2, 7)])
TASK = "task 30 setting 0 sleeps 2 run 40 sleep 60 deadline 250 period 330\n"
TASKS = TASK + ("task 20 setting 0 sleeps 0 run 45 sleep 0 deadline 330 period 500\n"
                "task 10 setting 0 sleeps 1 run 150 sleep 100 deadline 2000 period 2000\n")
USE = "use 30 resource 3 times 2 length 4\n"
LOW_USE = "use 10 resource 2 times 1 length 8\n"
FIVE = "task 5 setting 0 sleeps 0 run 1 sleep 0 deadline 2 period 3\n"
MANY = "".join(FIVE.replace("5", str(priority)) for priority in range(100, 68, -1))

# For each fault line of the document a text that gives it; a word that is found there stands for the three dots.
SHOWN = {
    "line 4: expected task or use, found …": ("\n\n\nTask 30\n", "Task"),
    "line 4: expected deadline, found …": ("\n\n\n" + TASK.replace("deadline", "dedline"), "dedline"),
    "line 4: expected a number after deadline, found …": ("\n\n\n" + TASK.replace("250", "25O"), "25O"),
    "line 4: run 0 is below 1": ("\n\n\n" + TASK.replace("run 40", "run 0"), ""),
    "line 4: sleeps 65 is above 64": ("\n\n\n" + TASK.replace("sleeps 2", "sleeps 65"), ""),
    "line 4: expected the end of the line, found …": ("\n\n\n" + TASK.replace("330", "330 ms"), "ms"),
    "line 4: setting 30 is not below the priority 30": ("\n\n\n" + TASK.replace("setting 0", "setting 30"), ""),
    "line 4: sleep 60 needs sleeps above 0": ("\n\n\n" + TASK.replace("sleeps 2", "sleeps 0"), ""),
    "line 4: run 400 is above the deadline 330": ("\n\n\n" + TASK.replace("40", "400").replace("250", "330"), ""),
    "line 4: deadline 30 is above the period 20":
        ("\n\n\n" + TASK.replace("run 40", "run 4").replace("250", "30").replace("330", "20"), ""),
    "line 36: task 5 is one too many: a table has at most 32": ("#\n#\n\n" + MANY + FIVE, ""),
    "line 7: task 5 comes after a use of task 10: all tasks come first": (TASKS + USE + "\n" + LOW_USE + FIVE, ""),
    "line 4: task 30 is not below the task before it, 30": ("\n\n" + TASK + TASK, ""),
    "line 7: use 25 is of no task: none before it has the priority 25":
        (TASKS + USE + "\n\n" + USE.replace("30", "25"), ""),
    "line 7: resource 1 of task 30 is out of order: uses follow the order of their tasks, and a task's resources rise":
        (TASKS + "\n\n" + USE + USE.replace("resource 3", "resource 1"), ""),
    "line 7: the sections of task 20 add up to more than its run 45":
        (TASKS + "\n" + USE + "use 20 resource 1 times 4 length 10\nuse 20 resource 2 times 3 length 2\n", ""),
    "line 9: expected a task, found the end of the text": ("\n\n\n#\n\n\n\n\n", ""),
    "line 1: the text is longer than 262144 bytes": ("\n" * 262145, ""),
}

# For each column the ends of its range that a number can pass, and what is printed then.
BELOW = ["task 0 is below 1", "run 0 is below 1", "deadline 0 is below 1", "period 0 is below 1",
         "use 0 is below 1", "resource 0 is below 1", "times 0 is below 1", "length 0 is below 1"]
ABOVE = ["task 256 is above 255", "setting 255 is above 254", "sleeps 65 is above 64", "run 1000001 is above 1000000",
         "sleep 1000001 is above 1000000", "deadline 1000001 is above 1000000", "period 1000001 is above 1000000",
         "use 256 is above 255", "resource 17 is above 16", "times 256 is above 255", "length 1000001 is above 1000000"]


# A task and a use as words, without ends of lines.
def two_lines():
    return [TASK.split(), USE.split()]


# Two lines of words as text.
def text_of(lines):
    return "".join(" ".join(words) + "\n" for words in lines).encode("ascii")


# Tasks and uses of a run of records, as far as they go by kinds.
def entries_of(records):
    tasks = [task_from(record[1:]) for record in records if record[0] == 1]
    return tasks, [use_from(record[1:]) for record in records if record[0] == 2]


class Notation(unittest.TestCase):
    # A text has this fault.
    def faults(self, text, line):
        text = text if isinstance(text, bytes) else text.encode("utf-8")
        self.assertEqual(pack(text), Fault(line.encode("ascii") + b"\n"), text[:300])

    # A text packs to this table.
    def packs(self, text, tasks, uses):
        text = text if isinstance(text, bytes) else text.encode("utf-8")
        self.assertEqual(pack(text), table_bytes(tasks, uses), text[:300])

    # A text has a fault of one printed line, or packs to an accepted table, whose text packs to it again.
    def is_sound(self, text):
        answer = pack(text)
        if isinstance(answer, Fault):
            self.assertRegex(answer.line, rb"\Aline [1-9][0-9]*: [ -~]{10,200}\n\Z")
        else:
            self.assertIsInstance(answer, bytes)
            self.assertIsInstance(read(answer), Accepted)
            self.assertEqual(pack(show(answer)), answer)


class Document(Notation):
    def test_the_example_both_ways(self):
        text = DOCUMENT.split("```\n")[1].encode("ascii")
        self.assertEqual(show(table_bytes(*SORTER)), text)
        self.packs(text, *SORTER)

    def test_every_fault_line_has_a_text(self):
        after = DOCUMENT.split("## What pack says of a fault")[1]
        self.assertEqual(sorted(set(re.findall(r"`(line \d+: [^`]*)`", after))), sorted(SHOWN))

    def test_every_fault_line(self):
        for line, (text, word) in SHOWN.items():
            self.faults(text, line.replace("…", word))

    def test_the_widest_values(self):
        most = Task(255, 254, 64, 10**6, 10**6, 10**6, 10**6)
        text = show(table_bytes([most], [Use(255, 16, 1, 10**6)]))
        self.assertEqual(text.decode("ascii"), HEADING + (
            "task 255  setting 254  sleeps 64  run 1000000  sleep 1000000  deadline 1000000  period 1000000\n"
            "use  255  resource 16  times   1  length 1000000\n"))

    def test_refusals(self):
        tasks = SORTER[0]
        for data, line in ((b"", b"refused 1 at 0\n"), (b"\3", b"refused 3 at 0\n"), (b"\4", b"refused 2 at 0\n"),
                           (table_bytes(tasks[:2], [Use(30, 1, 1, 4), Use(20, 1, 5, 10)]), b"refused 6 at 48\n"),
                           (table_bytes(*SORTER) + b"\0", b"refused 7 at 101\n")):
            self.assertEqual(show(data), line)
            self.faults(line, "line 1: expected task or use, found refused")


class Typing(Notation):
    def test_names(self):
        for row in (0, 1):
            for place in range(0, len(two_lines()[row]), 2):
                lines = two_lines()
                name = lines[row][place]
                wanted = name if place else "task or use"
                for wrong in (name + "x", name[:-1], name.upper(), name[1:], "12", name + "=" + lines[row][place + 1]):
                    lines[row][place] = wrong
                    self.faults(text_of(lines), f"line {row + 1}: expected {wanted}, found {wrong}")
                del lines[row][place:]
                if place:
                    self.faults(text_of(lines), f"line {row + 1}: expected {wanted}, found the end of the line")

    def test_numbers(self):
        for row in (0, 1):
            for place in range(1, len(two_lines()[row]), 2):
                lines = two_lines()
                begin = f"line {row + 1}: expected a number after {lines[row][place - 1]}, found "
                for wrong in ("4o", "l", "-1", "+1", "1.5", "1,000", "0x1", "1e3", "run", "task", "1_0"):
                    lines[row][place] = wrong
                    self.faults(text_of(lines), begin + wrong)
                del lines[row][place:]
                self.faults(text_of(lines), begin + "the end of the line")

    def test_ranges(self):
        self.assertEqual([line.split()[0] for line in ABOVE], [name for words in two_lines() for name in words[::2]])
        for line in BELOW + ABOVE:
            for row in (0, 1):
                lines = two_lines()
                if line.split()[0] in lines[row]:
                    lines[row][lines[row].index(line.split()[0]) + 1] = line.split()[1]
                    self.faults(text_of(lines), f"line {row + 1}: {line}")

    def test_ends_of_ranges_are_in_them(self):
        low, most = Task(1, 0, 0, 1, 0, 1, 1), Task(255, 254, 64, 10**6, 10**6, 10**6, 10**6)
        for tasks, uses in (([low], [Use(1, 1, 1, 1)]), ([most], [Use(255, 16, 1, 10**6)]),
                            ([most], [Use(255, 16, 255, 3921)]), ([most, low], [Use(1, 16, 1, 1)])):
            self.packs(plain_text(tasks, uses), tasks, uses)

    def test_every_wrong_word_after_a_line(self):
        for row, word in ((0, "5"), (1, "use"), (0, "#x"), (1, "x#")):
            lines = two_lines()
            lines[row].append(word)
            if word == "#x":
                self.assertIsInstance(pack(text_of(lines)), bytes)
            else:
                self.faults(text_of(lines), f"line {row + 1}: expected the end of the line, found {word.rstrip('#')}")


class Words(Notation):
    def test_blanks_remarks_and_ends(self):
        table = [SORTER[0][0]], [Use(30, 3, 2, 4)]
        both = TASK + USE
        for text in (both, both.rstrip(), both.replace("\n", "\r\n"), "\n\n" + TASK + " \t\r\n" + USE, both + "\n\n",
                     both.replace(" ", "\t"), both.replace(" ", " \r\t "), " " + TASK + "\t" + USE,
                     TASK.replace("\n", "#\n") + "# é \0\n" + USE.rstrip() + " # task 9",
                     TASK.replace("\n", "# #x\n") + USE):
            self.packs(text, *table)

    def test_other_bytes_are_no_blanks(self):
        for byte in set(range(256)) - set(b" \t\r\n#"):
            shown = chr(byte) if 33 <= byte <= 126 else "?"
            self.faults(bytes([byte]) + TASK.encode("ascii"), f"line 1: expected task or use, found {shown}task")
            self.faults(TASK.encode("ascii") + bytes([byte]), f"line 2: expected task or use, found {shown}")

    def test_words_are_cut_at_24_bytes(self):
        for count in (1, 23, 24):
            self.faults("w" * count, "line 1: expected task or use, found " + "w" * count)
        for count in (25, 26, 1000):
            self.faults("w" * count, "line 1: expected task or use, found " + "w" * 24 + "...")
        self.faults(b"\xff" * 25, "line 1: expected task or use, found " + "?" * 24 + "...")
        self.faults("task " + "0" * 25, "line 1: task " + "0" * 24 + "... is below 1")
        self.faults("task " + "0" * 24, "line 1: task " + "0" * 24 + " is below 1")
        self.faults("task 1 setting " + "9" * 9000, "line 1: setting " + "9" * 24 + "... is above 254")
        self.faults(TASK.replace("run 40", "run 007x"), "line 1: expected a number after run, found 007x")
        self.faults(TASK.replace("run 40", "run 0000000"), "line 1: run 0000000 is below 1")

    def test_numbers_of_many_digits(self):
        for zeros in (1, 7, 24, 25, 5000):
            self.packs(re.sub(r"(\d+)", "0" * zeros + r"\1", TASK), SORTER[0][:1], [])
        for more in (2**8, 2**16, 2**32, 2**64, 2**128, 10**9, 10**10, 10**20):
            shown = re.sub(r"(\d{24})\d+", r"\1...", str(30 + more))
            self.faults(TASK.replace("task 30", f"task {30 + more}"), f"line 1: task {shown} is above 255")
            if more > 10**6:
                self.faults(TASK.replace("run 40", f"run {30 + more}"), f"line 1: run {shown} is above 1000000")

    def test_line_numbers(self):
        for ends in (0, 1, 2, 300):
            self.faults("\n" * ends + "x", f"line {ends + 1}: expected task or use, found x")
            self.faults("#\n" * ends, f"line {ends + 1}: expected a task, found the end of the text")
            self.faults("\n" * ends + "# no end", f"line {ends + 2}: expected a task, found the end of the text")

    def test_long_texts(self):
        room = 262144 - len(TASK)
        for more in (" " * room, "\n" * room, "#" * room):
            self.packs(TASK + more, SORTER[0][:1], [])
            self.faults(TASK + more + more[0], "line 1: the text is longer than 262144 bytes")
        self.faults("x" * 262145, "line 1: the text is longer than 262144 bytes")


class Rules(Notation):
    def test_first_line_at_fault(self):
        self.faults(TASK + TASK + "x\n", "line 2: task 30 is not below the task before it, 30")
        self.faults(TASK + "x\n" + TASK, "line 2: expected task or use, found x")
        self.faults(TASK + USE + USE.replace("30", "31") + USE,
                    "line 3: use 31 is of no task: none before it has the priority 31")

    def test_words_before_rules(self):
        self.faults(TASK + TASK.replace("330", "330 x"), "line 2: expected the end of the line, found x")
        self.faults(TASK + TASK.replace("period", "x"), "line 2: expected period, found x")
        self.faults(TASK.replace("setting 0", "setting 40").replace("330", "0"), "line 1: period 0 is below 1")
        self.faults(USE.replace("length 4", "length 0"), "line 1: length 0 is below 1")
        self.faults(TASK.replace("sleeps 2 run 40", "sleeps 65 run x"), "line 1: sleeps 65 is above 64")

    def test_order_of_the_rules_on_tasks(self):
        wrong = "task 200 setting 200 sleeps 0 run 9 sleep 1 deadline 8 period 7\n"
        self.faults(MANY + "use 70 resource 1 times 1 length 1\n" + wrong,
                    "line 34: task 200 is one too many: a table has at most 32")
        self.faults(TASK + USE + wrong, "line 3: task 200 comes after a use of task 30: all tasks come first")
        self.faults(TASK + wrong, "line 2: task 200 is not below the task before it, 30")
        for line, mended in (("setting 200 is not below the priority 200", ("setting 200", "setting 199")),
                             ("sleep 1 needs sleeps above 0", ("sleep 1", "sleep 0")),
                             ("run 9 is above the deadline 8", ("run 9", "run 8")),
                             ("deadline 8 is above the period 7", ("period 7", "period 8"))):
            self.faults(wrong, "line 1: " + line)
            wrong = wrong.replace(*mended)
        self.packs(wrong, [Task(200, 199, 0, 8, 0, 8, 8)], [])

    def test_order_of_the_rules_on_uses(self):
        order = "is out of order: uses follow the order of their tasks, and a task's resources rise"
        self.faults(TASKS + LOW_USE + "use 11 resource 1 times 255 length 1000000",
                    "line 5: use 11 is of no task: none before it has the priority 11")
        for use, line in (("use 10 resource 2 times 255 length 1000000", f"resource 2 of task 10 {order}"),
                          ("use 20 resource 3 times 1 length 1", f"resource 3 of task 20 {order}"),
                          ("use 10 resource 3 times 143 length 1",
                           "the sections of task 10 add up to more than its run 150")):
            self.faults(TASKS + LOW_USE + use, "line 5: " + line)
        self.assertIsInstance(pack((TASKS + LOW_USE + "use 10 resource 3 times 142 length 1").encode("ascii")), bytes)
        self.faults(USE + TASK, "line 1: use 30 is of no task: none before it has the priority 30")

    def test_the_same_tables_as_the_reader(self):
        rng = random.Random(8)
        roomy = Task(10, 0, 0, 10**6, 0, 10**6, 10**6)
        tables = [([task], []) for task in edge_tasks()] + [([roomy], [use]) for use in edge_uses()]
        tables += [entries_of(loose_records(rng)) for _ in range(3000)]
        accepted = 0
        for tasks, uses in tables:
            data, answer = table_bytes(tasks, uses), pack(plain_text(tasks, uses))
            accepted += answer == data
            self.assertEqual(isinstance(answer, Fault), isinstance(read(data), Refused), answer)
        self.assertTrue(500 < accepted < len(tables) - 500)


class RoundTrips(Notation):
    def test_tables_of_the_cases(self):
        rng = random.Random(9)
        tables = [table_bytes(*table) for table in named_tables() + [full_table(rng) for _ in range(3)]]
        tables += [table_bytes(*random_table(rng, 1 + rng.randrange(32), rng.randrange(5))) for _ in range(200)]
        for data in tables + list(make_cases(rng)):
            self.assertEqual(pack(show(data)), data)

    def test_spaces_and_zeros(self):
        rng = random.Random(10)
        for _ in range(500):
            tasks, uses = random_table(rng, 1 + rng.randrange(5), rng.randrange(4))
            self.packs(loose(rng, with_zeros(rng, rows_of(tasks, uses))), tasks, uses)

    def test_damaged_texts(self):
        rng = random.Random(11)
        for _ in range(4000):
            text = plain(rows_of(*random_table(rng, 1 + rng.randrange(3), 2)))
            for _ in range(1 + rng.randrange(3)):
                at = rng.randrange(len(text) + 1)
                other = pick(rng, [b"", b"0", b"9", b"\n", b"#", bytes([rng.randrange(256)])])
                text = text[:at] + other + text[at + rng.randrange(3):]
            self.is_sound(text)

    def test_random_bytes(self):
        rng = random.Random(12)
        for _ in range(2000):
            self.is_sound(bytes(rng.randrange(256) for _ in range(rng.randrange(80))))


if __name__ == "__main__":
    unittest.main()
